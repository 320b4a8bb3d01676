//! Nightly load: practice sheets, made and searched by the library and by the independent implementation of model.rs.
//!
//!     nightly [--policies A-B] [--cores A-B] [--tasks A-B] [--seeds A-B] [--slots K] [--fault 1..62]
//!
//! Takes every policy, number of cores, number of tasks and seed of the ranges, of which one number alone is a range too; also
//! policies, cores and tasks that are refused. The bytes that stand in the spaces before are drawn from the same numbers, so these
//! repeat a run in every byte. Prints what was answered, by policy, cores and tasks, and now and then on standard error how far it
//! is. Ends with status 1 at the first difference. `--fault` seeds a mistake in the independent side.

#[allow(dead_code)]
mod calls;
#[allow(dead_code)]
mod check;
#[allow(dead_code)]
mod layout;
#[allow(dead_code)]
mod lent;
#[allow(dead_code)]
mod model;
#[allow(dead_code)]
mod rng;

use layout::SLOT;
use lent::Lent;
use model::{Model, Practice, Table, FAULTS, LONGEST};
use rng::Rng;
use std::collections::BTreeMap;
use std::ops::RangeInclusive;
use std::time::{Duration, Instant};

/// The kinds of an answer.
const KINDS: [&str; 4] = ["refused", "safe", "unsafe", "room"];

/// The time from one line on standard error to the next.
const PROGRESS: Duration = Duration::from_secs(10);

/// From the first to the last.
type Range = RangeInclusive<u16>;

/// What a run is given.
struct Load {
    policies: Range,
    cores: Range,
    tasks: Range,
    seeds: Range,
    slots: usize,
    m: Model,
}

impl Load {
    /// As arguments.
    fn shown(&self) -> String {
        let shown = |range: &Range| match (range.start(), range.end()) {
            (first, last) if first == last => first.to_string(),
            (first, last) => format!("{first}-{last}"),
        };
        let [policies, cores, tasks, seeds] = [&self.policies, &self.cores, &self.tasks, &self.seeds].map(shown);
        format!("--policies {policies} --cores {cores} --tasks {tasks} --seeds {seeds} --slots {}", self.slots)
    }

    /// The load that is one of its sheets.
    fn alone(&self, given: Practice) -> Load {
        let one = |x: u8| x as u16..=x as u16;
        let Practice { policy, cores, tasks, seed } = given;
        Load { policies: one(policy), cores: one(cores), tasks: one(tasks), seeds: seed..=seed, ..*self }
    }

    fn sheets(&self) -> usize {
        [&self.policies, &self.cores, &self.tasks, &self.seeds].map(|range| range.len()).iter().product()
    }

    /// Sheet i of the load: seed by seed, so that every part of a run is like the whole.
    fn at(&self, i: usize) -> Practice {
        let mut rest = i;
        let mut next = |range: &Range| {
            let x = range.start() + (rest % range.len()) as u16;
            rest /= range.len();
            x
        };
        let [tasks, cores, policy] = [&self.tasks, &self.cores, &self.policies].map(|range| next(range) as u8);
        Practice { policy, cores, tasks, seed: next(&self.seeds) }
    }

    /// The sheet made by both sides, and searched where there is one: the kind of the answer.
    fn sheet(&self, given: Practice) -> Result<usize, String> {
        let Practice { policy, cores, tasks, seed } = given;
        let case = u64::from_be_bytes([0, 0, 0, policy, cores, tasks, (seed >> 8) as u8, seed as u8]);
        let mut r = Rng::new(self.slots as u64, case);
        let len = LONGEST + r.below(9);
        let mut out = Lent::new(&mut r, len);
        let answer = calls::practice(given, out.space());
        out.around_stays()?;
        let made = self.m.practice(given);
        let sheet = made.as_ref().map(model::write_sheet).map_err(|n| *n);
        check::written(&sheet, &out.called(answer))?;
        match sheet {
            Ok(sheet) => self.search(&mut r, &out.is()[..sheet.len()], made),
            Err(_) => Ok(0),
        }
    }

    /// A sheet searched by both sides: the kind of the answer.
    fn search(&self, r: &mut Rng, sheet: &[u8], reading: Result<Table, u8>) -> Result<usize, String> {
        let work_len = self.slots * SLOT + r.below(SLOT);
        let trace_len = self.slots + r.below(9);
        let (input, mut work, mut trace) = (Lent::holding(r, sheet), Lent::new(r, work_len), Lent::new(r, trace_len));
        let answer = calls::verdict(input.is(), work.space(), trace.space());
        input.stays()?;
        work.around_stays()?;
        trace.around_stays()?;
        let levels = reading.as_ref().ok().map(|t| self.m.levels(t, self.m.slots(work_len)));
        check::searched(&self.m, &reading, levels.as_ref(), &lent::searched(&work, &trace, answer))?;
        Ok((answer >> 48) as usize)
    }
}

/// How many sheets were answered in each way: all of them, and by policy, cores and tasks.
#[derive(Default)]
struct Counts {
    total: [usize; 4],
    rows: BTreeMap<(&'static str, u8), [usize; 4]>,
}

impl Counts {
    fn add(&mut self, given: Practice, kind: usize) {
        self.total[kind] += 1;
        for row in [("policy", given.policy), ("cores", given.cores), ("tasks", given.tasks)] {
            self.rows.entry(row).or_default()[kind] += 1;
        }
    }

    fn sheets(&self) -> usize {
        self.total.iter().sum()
    }

    fn total(&self) -> String {
        let [refused, safe, miss, room] = self.total;
        format!("safe {safe}, unsafe {miss}, room {room}, refused {refused}")
    }

    fn print(&self) {
        println!("{:10}{:>10}{:>10}{:>10}{:>10}", "", KINDS[1], KINDS[2], KINDS[3], KINDS[0]);
        for ((name, x), [refused, safe, miss, room]) in &self.rows {
            println!("{name:6}{x:4}{safe:10}{miss:10}{room:10}{refused:10}");
        }
        println!("total: {} sheets, {}", self.sheets(), self.total());
    }
}

/// Every sheet of the load, or the first that differs.
fn run(load: &Load) -> Result<Counts, String> {
    let (start, sheets) = (Instant::now(), load.sheets());
    let (mut counts, mut told) = (Counts::default(), start);
    for given in (0..sheets).map(|i| load.at(i)) {
        let kind = load.sheet(given).map_err(|e| format!("{}: {e}", load.alone(given).shown()))?;
        counts.add(given, kind);
        if told.elapsed() >= PROGRESS {
            let seconds = start.elapsed().as_secs();
            eprintln!("nightly: {} of {sheets} sheets in {seconds} s: {}", counts.sheets(), counts.total());
            told = Instant::now();
        }
    }
    Ok(counts)
}

/// A number, or two with a dash between them, up to the most.
fn range(text: &str, most: u16) -> Option<Range> {
    let (first, last) = text.split_once('-').unwrap_or((text, text));
    let (first, last): (u16, u16) = (first.parse().ok()?, last.parse().ok()?);
    (first <= last && last <= most).then_some(first..=last)
}

/// The load of the arguments, of which the last holds where one stands twice.
fn given() -> Option<Load> {
    let (policies, cores, tasks, seeds) = (0..=4, 1..=3, 1..=8, 0..=199);
    let mut load = Load { policies, cores, tasks, seeds, slots: 40_000, m: Model { fault: 0 } };
    let mut args = std::env::args().skip(1);
    while let Some(name) = args.next() {
        let value = args.next()?;
        match name.as_str() {
            "--policies" => load.policies = range(&value, 255)?,
            "--cores" => load.cores = range(&value, 255)?,
            "--tasks" => load.tasks = range(&value, 255)?,
            "--seeds" => load.seeds = range(&value, 65_535)?,
            "--slots" => load.slots = value.parse().ok().filter(|k| (1..=1_000_000).contains(k))?,
            "--fault" => load.m.fault = value.parse().ok().filter(|f| (1..=FAULTS.len()).contains(&(*f as usize)))?,
            _ => return None,
        }
    }
    Some(load)
}

fn main() {
    let Some(load) = given() else {
        eprintln!(
            "usage: nightly [--policies A-B] [--cores A-B] [--tasks A-B] [--seeds A-B] [--slots K] [--fault 1..62]"
        );
        std::process::exit(2);
    };
    println!("nightly: {}: {} sheets", load.shown(), load.sheets());
    if load.m.fault > 0 {
        println!("seeded fault {}: {}", load.m.fault, FAULTS[load.m.fault as usize - 1]);
    }
    let start = Instant::now();
    match run(&load) {
        Ok(counts) => counts.print(),
        Err(e) => {
            println!("nightly: FAILED: {e}");
            std::process::exit(1);
        }
    }
    println!("nightly: no difference in {:.1} s", start.elapsed().as_secs_f64());
}
