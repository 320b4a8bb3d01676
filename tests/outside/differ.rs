//! Differential test: the library's calls against the independent implementation of model.rs.
//!
//!     differ [--seed S] [--sheets N] [--case I] [--fault 1..72] [--corpus DIR]
//!
//! Prints its seed, and at the end what was met. Ends with status 1 at the first difference.
//! `--case I` runs that sheet of the seed alone. `--fault` seeds a mistake: in the independent side, or, of the layout, in the work
//! spaces that the library left.
//! `--corpus` also takes the sheets of a folder, and compares the lines of its cases.txt.

mod ages;
mod calls;
mod check;
mod cut;
mod evidence;
mod files;
mod gen;
mod layout;
mod lent;
mod model;
mod practice;
mod rng;
mod service;
mod session;

use check::Called;
use layout::{Columns, Left, SLOT};
use lent::Lent;
use model::{End, Levels, Model, Replay, Table, Verdict, BY_NUMBER, POLICIES, STATE, TABLE};
use rng::Rng;
use std::collections::{BTreeMap, HashSet};

/// More states than a search of a generated sheet is followed to.
const LIMIT: usize = 1500;

/// Document 000's sets of 5 and of 6 tasks on three cores under each policy, by policy, as the repository's README has them.
const PUBLISHED: [(u8, [Verdict; POLICIES as usize]); 2] = {
    use Verdict::{Safe, Unsafe};
    [
        (5, [Safe(23_881), Safe(23_800), Safe(23_881), Safe(23_885), Safe(23_776)]),
        (6, [Safe(435_379), Unsafe(14, 397_270), Safe(435_106), Safe(427_413), Safe(406_235)]),
    ]
};

/// The kinds of a search's answer.
const KINDS: [&str; 4] = ["refused", "Safe", "Unsafe", "No room"];

/// What a run met, by name.
#[derive(Default)]
struct Met(BTreeMap<String, usize>);

impl Met {
    fn add(&mut self, what: &str) {
        match self.0.get_mut(what) {
            Some(n) => *n += 1,
            None => drop(self.0.insert(what.to_string(), 1)),
        }
    }

    fn greatest(&mut self, what: &str, n: usize) {
        let most = self.0.entry(what.to_string()).or_insert(0);
        *most = n.max(*most);
    }

    fn of(&self, what: &str) -> usize {
        *self.0.get(what).unwrap_or(&0)
    }
}

struct Run {
    m: Model,
    /// Seeded in the work spaces that the library left.
    mistake: Option<fn(&Left) -> Vec<u8>>,
    met: Met,
}

/// A sheet, what it reads as, and its states.
struct Subject {
    sheet: Vec<u8>,
    reading: Result<Table, u8>,
    levels: Option<Levels>,
}

impl Subject {
    /// What was met, with the policy of the sheet that was accepted.
    fn under(&self, what: &str) -> String {
        match &self.reading {
            Ok(t) => format!("{what} under policy {}", t.policy),
            Err(_) => what.to_string(),
        }
    }
}

/// What a judged search left.
struct Found {
    answer: u64,
    /// The masks of Unsafe.
    masks: Vec<u8>,
    work: Vec<u8>,
    /// The slots that are written.
    count: usize,
}

impl Found {
    fn kind(&self) -> u64 {
        self.answer >> 48
    }

    /// The states, which stand at the front of the work space.
    fn file(&self) -> &[u8] {
        &self.work[..self.count * STATE]
    }
}

impl Run {
    fn subject(&self, sheet: Vec<u8>, limit: usize) -> Subject {
        let reading = self.m.read_sheet(&sheet);
        let levels = reading.as_ref().ok().map(|t| self.m.levels(t, limit));
        Subject { sheet, reading, levels }
    }

    /// One call of the search, judged; then, now and then, one changed byte of its outcome, which must be found.
    fn search(&mut self, r: &mut Rng, s: &Subject, work_len: usize, trace_len: usize) -> Result<Found, String> {
        let mut work = Lent::new(r, work_len);
        let mut trace = Lent::new(r, trace_len);
        let sheet = s.sheet.clone();
        let answer = calls::verdict(&sheet, work.space(), trace.space());
        let told = |e: String| format!("work of {work_len} bytes, trace of {trace_len}: {e}");
        if sheet != s.sheet {
            return Err(told("the sheet changed".into()));
        }
        work.around_stays().map_err(told)?;
        trace.around_stays().map_err(told)?;
        let masks = if answer >> 48 == 2 { (answer >> 24 & 0xFF_FFFF) as usize } else { 0 };
        let count = if answer >> 48 == 0 { 0 } else { (answer & 0xFF_FFFF) as usize };
        let columns = Columns { k: self.m.slots(work_len) };
        if let Some(mistake) = self.mistake.filter(|_| count > 0) {
            let left = mistake(&Left::new(columns, work.was(), work.is(), count));
            work.space().copy_from_slice(&left);
        }
        let m = self.m;
        let judge = |work: &Lent, trace: &Lent, answer: u64| {
            check::searched(&m, &s.reading, s.levels.as_ref(), &lent::searched(work, trace, answer))
        };
        judge(&work, &trace, answer).map_err(told)?;
        self.met.add("calls of the search");
        self.met.add(&match answer >> 48 {
            0 => format!("search refused {:2}", answer & 0xFF_FFFF),
            kind => s.under(KINDS[kind as usize]),
        });
        self.met.greatest("is the greatest L", masks);
        self.met.greatest("is the greatest count", count);
        let found = Found { answer, masks: trace.is()[..masks].to_vec(), work: work.is().to_vec(), count };
        if r.one_in(30) {
            // A byte of a state, the highest of a parent, one that stays, or the answer.
            let mut changed = answer;
            match r.below(3) {
                0 if work_len > 0 => {
                    let mut at = r.below(work_len);
                    if columns.is_free(at, count) {
                        at = r.below(count * STATE);
                    }
                    work.space()[at] ^= 1 << r.below(8);
                }
                1 if trace_len > masks => {
                    let at = r.range(masks, trace_len - 1);
                    trace.space()[at] ^= 1 << r.below(8);
                }
                _ => changed ^= 1 << r.below(64),
            }
            if judge(&work, &trace, changed).is_ok() {
                return Err(told("a changed byte was not found".into()));
            }
            self.met.add("changed bytes found");
        }
        Ok(found)
    }

    /// A list replayed, and then with totals.
    fn replay(&mut self, r: &mut Rng, s: &Subject, list: &[u8], state_len: usize) -> Result<(), String> {
        let mut state = Lent::new(r, state_len);
        let answer = calls::replay(&s.sheet, list, state.space());
        let shown = &list[..list.len().min(40)];
        let told = |e: String| format!("list of {} bytes {shown:?}, state of {state_len}: {e}", list.len());
        state.around_stays().map_err(told)?;
        let play = check::play(&self.m, &s.reading, list);
        let outcome = check::replay_outcome(&self.m, &play, state_len);
        let call = state.called(answer);
        check::replayed(outcome, &call).map_err(told)?;
        self.met.add("calls of the replay");
        if state_len < 16 && matches!(outcome, Ok(Replay::Illegal(_))) {
            self.met.add("replay refused 11 with a state space too short");
        }
        self.met.add(&match outcome {
            Ok(Replay::Kept(_)) => s.under("replay Kept"),
            Ok(Replay::Missed(..)) => s.under("replay Missed"),
            Ok(Replay::Illegal(_)) => "replay refused 11".to_string(),
            Err(n) => format!("replay refused {n:2}"),
        });
        self.services(r, s, list, &play, &call).map_err(told)
    }

    /// A call that writes a table or a sheet, judged; then, now and then, one changed byte of its outcome, which must be found.
    fn written(
        &mut self,
        r: &mut Rng,
        call: &str,
        space: Lent,
        answer: u64,
        bytes: Result<Vec<u8>, u8>,
    ) -> Result<(), String> {
        let told = |e: String| format!("{call} into {} bytes: {e}", space.len);
        space.around_stays().map_err(told)?;
        let outcome = check::fitted(bytes, space.len);
        check::written(&outcome, &space.called(answer)).map_err(told)?;
        self.met.add(&match outcome {
            Ok(_) => format!("{call} done"),
            Err(n) => format!("{call} refused {n:2}"),
        });
        self.changed(r, space, answer, |c| check::written(&outcome, c)).map_err(|e| format!("{call}: {e}"))
    }

    /// Now and then, one changed byte of the outcome of a call with one space, or its answer, which must be found.
    fn changed(
        &mut self,
        r: &mut Rng,
        mut space: Lent,
        mut answer: u64,
        judge: impl Fn(&Called) -> Result<(), String>,
    ) -> Result<(), String> {
        if !r.one_in(30) {
            return Ok(());
        }
        if space.len > 0 && r.one_in(2) {
            let at = r.below(space.len);
            space.space()[at] ^= 1 << r.below(8);
        } else {
            answer ^= 1 << r.below(64);
        }
        if judge(&space.called(answer)).is_ok() {
            return Err("a changed byte was not found".into());
        }
        self.met.add("changed bytes found");
        Ok(())
    }

    /// The table of a sheet, into a space of that length.
    fn read(&mut self, r: &mut Rng, s: &Subject, table_len: usize) -> Result<(), String> {
        let mut table = Lent::new(r, table_len);
        let answer = calls::read(&s.sheet, table.space());
        let bytes = s.reading.as_ref().map(|t| self.m.table_bytes(t)).map_err(|n| *n);
        self.written(r, "read", table, answer, bytes)
    }

    /// The sheet of a table's bytes, into a space of that length.
    fn write(&mut self, r: &mut Rng, table: &[u8], out_len: usize) -> Result<(), String> {
        let mut out = Lent::new(r, out_len);
        let answer = calls::write(table, out.space());
        let bytes = self.m.sheet_of_table(table);
        if bytes == Err(4) && table[0] == POLICIES {
            self.met.add("tables refused 4, for policy 5");
        }
        self.written(r, "write", out, answer, bytes).map_err(|e| format!("table {table:?}: {e}"))
    }

    /// The library's own table of a sheet, written: the same bytes; and the sheet of a table, read: the same table.
    fn round_trip(&mut self, t: &Table) -> Result<(), String> {
        let (sheet, bytes) = (model::write_sheet(t), self.m.table_bytes(t));
        let (mut table, mut again) = ([0; TABLE], vec![0; sheet.len()]);
        calls::read(&sheet, &mut table);
        calls::write(&table, &mut again);
        if again != sheet {
            return Err(format!("{t:?}: read and written again it is {again:?}"));
        }
        let (mut out, mut table) = ([0; 64], [0; TABLE]);
        let len = calls::write(&bytes, &mut out) & 0xFF_FFFF;
        calls::read(&out[..len as usize], &mut table);
        if table != *bytes {
            return Err(format!("{t:?}: written and read again it is {table:?}"));
        }
        self.met.add("round trips");
        Ok(())
    }

    /// The reader and the writer on one sheet, with spaces round the limit.
    fn exchange(&mut self, r: &mut Rng, s: &Subject) -> Result<(), String> {
        for len in [TABLE - 1, TABLE, TABLE + 1, r.below(60)] {
            self.read(r, s, len)?;
        }
        let t = match &s.reading {
            Ok(t) => t.clone(),
            Err(_) => gen::table(r),
        };
        self.round_trip(&t)?;
        let len = model::write_sheet(&t).len();
        let table = gen::table_bytes(r, self.m.table_bytes(&t));
        for len in [len - 1, len, len + 1, r.below(60)] {
            self.write(r, &table, len)?;
        }
        Ok(())
    }

    /// Every length of a table and of the two spaces, and every value of each byte of a table.
    fn every_table(&mut self, r: &mut Rng) -> Result<(), String> {
        for n in 1..=8 {
            let t = gen::table_of(r, n);
            let bytes = self.m.table_bytes(&t);
            let s = Subject { sheet: model::write_sheet(&t), reading: Ok(t), levels: None };
            for len in 0..60 {
                self.read(r, &s, len)?;
                self.write(r, &bytes, len)?;
            }
            for len in 0..=40 {
                let mut other = bytes.clone();
                other.resize(len, 0);
                self.write(r, &other, 52)?;
            }
            for at in 0..TABLE {
                for value in 0..=255 {
                    let mut other = bytes.clone();
                    other[at] = value;
                    let len = r.range(s.sheet.len() - 1, 52);
                    self.write(r, &other, len)?;
                }
            }
        }
        Ok(())
    }

    fn replays(&mut self, r: &mut Rng, s: &Subject, traces: &[Vec<u8>]) -> Result<(), String> {
        let mut lists: Vec<Vec<u8>> = traces.to_vec();
        lists.push(Vec::new());
        let len = r.below(12);
        let mut any = vec![0; len];
        r.fill(&mut any);
        lists.push(any);
        if let Ok(t) = &s.reading {
            for most in [4, 60] {
                let len = r.below(most);
                let mut list = gen::list(r, &self.m, t, len);
                lists.push(list.clone());
                if len > 0 {
                    let at = r.below(len);
                    list[at] = r.byte();
                    lists.push(list);
                }
            }
            for trace in traces {
                // Beyond the miss, and short of it.
                let mut longer = trace.clone();
                longer.extend([r.byte(), 255]);
                lists.push(longer);
                lists.push(trace[..trace.len().saturating_sub(1)].to_vec());
            }
        }
        for list in lists {
            let len = match r.below(6) {
                0 => r.below(16),
                1 => 17,
                2 => r.range(16, 64),
                _ => 16,
            };
            self.replay(r, s, &list, len)?;
        }
        Ok(())
    }

    /// Counts the tables of policy 4 that tell least slack from earliest deadline.
    fn told_apart(&mut self, t: &Table, least: &Levels) {
        let earliest = self.m.levels(&Table { policy: 3, ..t.clone() }, LIMIT);
        if earliest.depth != least.depth {
            self.met.add("sheets of policy 4 with other states under policy 3");
        }
        if earliest.end != least.end {
            self.met.add("sheets of policy 4 with another end under policy 3");
        }
    }

    /// Counts the tables of policies 2 to 4 that tell the age from the task number among equal jobs.
    fn told_by_age(&mut self, t: &Table, by_age: &Levels) {
        let by_number = Model { fault: BY_NUMBER }.levels(t, LIMIT);
        if by_number.depth != by_age.depth {
            self.met.add(&format!("sheets of policy {} with other states by number alone", t.policy));
        }
        if by_number.end != by_age.end {
            self.met.add(&format!("sheets of policy {} with another end by number alone", t.policy));
        }
    }

    /// One generated sheet, with spaces at every edge.
    fn case(&mut self, r: &mut Rng, sheet: Vec<u8>) -> Result<(), String> {
        let s = self.subject(sheet, LIMIT);
        self.met.add(&match &s.reading {
            Ok(t) => format!("sheets of policy {}", t.policy),
            Err(4) if s.sheet[1] == POLICIES => "sheets refused 4, for policy 5".to_string(),
            Err(n) => format!("sheets refused {n}"),
        });
        self.exchange(r, &s)?;
        self.evidence(r, &s)?;
        self.sessions(r, &s)?;
        self.cuts(r, &s)?;
        let Some(levels) = &s.levels else {
            for _ in 0..3 {
                let k = r.below(4);
                let work = k * SLOT + r.below(SLOT);
                let trace = r.below(6);
                self.search(r, &s, work, trace)?;
            }
            return self.replays(r, &s, &[]);
        };
        if let Ok(t @ Table { policy: 2..=4, .. }) = &s.reading {
            self.told_by_age(t, levels);
        }
        if let Ok(t @ Table { policy: 4, .. }) = &s.reading {
            self.told_apart(t, levels);
        }
        let mut sizes = vec![0, 1];
        let last = *levels.counts.last().unwrap();
        let highest = if levels.end == End::Cut { last - 1 } else { last + 1 };
        if last <= 6 {
            sizes.extend(0..=highest);
        }
        for n in [last, r.pick(&levels.counts)] {
            sizes.extend([n.saturating_sub(1), n, n + 1]);
        }
        sizes.push(r.below(highest + 1));
        if levels.end != End::Cut {
            sizes.push(last + r.below(40));
        }
        sizes.retain(|&k| k <= LIMIT + 50 && levels.verdict(k).is_some());
        sizes.sort();
        sizes.dedup();
        if r.one_in(8) {
            let k = r.pick(&sizes);
            self.every_rest(r, &s, k)?;
        }
        let mut traces = Vec::new();
        for k in sizes {
            for trace in [k.wrapping_sub(1), k, k + 1, k + r.below(30)] {
                if trace == usize::MAX {
                    continue;
                }
                let rest = if r.one_in(3) { 0 } else { r.below(SLOT) };
                let list = self.search(r, &s, k * SLOT + rest, trace)?.masks;
                if !list.is_empty() && traces.is_empty() {
                    traces.push(list);
                }
            }
        }
        self.replays(r, &s, &traces)
    }

    /// K slots with every number of bytes that make no slot: the same answer and count.
    fn every_rest(&mut self, r: &mut Rng, s: &Subject, k: usize) -> Result<(), String> {
        let answer = self.search(r, s, k * SLOT, k)?.answer;
        for rest in 1..SLOT {
            let other = self.search(r, s, k * SLOT + rest, k)?.answer;
            if other != answer {
                return Err(format!("{k} slots: answer {answer:#x}, and {other:#x} with {rest} bytes more"));
            }
        }
        self.met.add(&format!("{} with every rest", KINDS[(answer >> 48) as usize]));
        Ok(())
    }

    /// Work spaces round the millionth slot and beyond it, with a trace byte for each of a million slots, and one fewer.
    fn most_slots(&mut self, r: &mut Rng) -> Result<(), String> {
        let s = self.subject(model::write_sheet(&table(1, 1, &[(1, 2, 2), (1, 2, 2)])), 10);
        for work in
            [999_999 * SLOT, 1_000_000 * SLOT - 1, 1_000_000 * SLOT, 1_000_000 * SLOT + 1, 1_000_001 * SLOT, 24_000_000]
        {
            self.search(r, &s, work, 1_000_000)?;
            self.search(r, &s, work, 999_999)?;
        }
        Ok(())
    }

    /// A table with thousands of states, and spaces large enough for it.
    fn large_case(&mut self, r: &mut Rng, t: &Table, limit: usize, more: &[usize]) -> Result<(), String> {
        let s = self.subject(model::write_sheet(t), limit);
        let levels = s.levels.as_ref().unwrap();
        let last = *levels.counts.last().unwrap();
        self.met.add("large tables");
        let mut traces = Vec::new();
        for k in [last - 1, last, last + 1].iter().chain(more) {
            let used = (*k).min(1_000_000);
            if used > 0 && levels.verdict(used).is_some() {
                let rest = r.below(SLOT);
                let trace = used + r.below(2);
                let found = self.search(r, &s, k * SLOT + rest, trace)?;
                if !found.masks.is_empty() {
                    traces = vec![found.masks.clone()];
                }
                if *k == last {
                    self.large_file(r, &s, &found)?;
                }
                self.search(r, &s, k * SLOT + rest, used - 1)?;
            }
        }
        self.replays(r, &s, &traces)
    }

    /// A generated table of that policy that is safe, or one that is not.
    fn generated(&self, r: &mut Rng, policy: u8, safe: bool) -> Result<Subject, String> {
        let wanted = |end: End| if safe { end == End::Closed } else { matches!(end, End::Miss(_)) };
        (0..1000)
            .map(|_| self.subject(model::write_sheet(&gen::table_under(r, policy)), LIMIT))
            .find(|s| wanted(s.levels.as_ref().unwrap().end))
            .ok_or(format!("no table of policy {policy} is found"))
    }

    /// Under each policy a safe table and one that is not.
    fn under_each_policy(
        &mut self,
        r: &mut Rng,
        test: impl Fn(&mut Run, &mut Rng, &Subject) -> Result<(), String>,
    ) -> Result<(), String> {
        for (policy, safe) in (0..POLICIES).flat_map(|policy| [(policy, true), (policy, false)]) {
            let s = self.generated(r, policy, safe)?;
            test(self, r, &s).map_err(|e| format!("sheet {}: {e}", hex(&s.sheet)))?;
        }
        Ok(())
    }

    /// Slot numbers past 16 bits, as many states as there can be slots, and a miss after hundreds of ticks.
    fn largest_tables(&mut self, r: &mut Rng) -> Result<(), String> {
        self.large_case(r, &table(0, 3, &[(1, 1, 50); 3]), 1 << 20, &[65_536, 65_537])?;
        for policy in [3, 4] {
            self.large_case(r, &table(policy, 1, &[(20, 39, 39), (20, 40, 40)]), 1 << 20, &[1_000_000])?;
        }
        self.large_case(r, &table(1, 3, &[(1, 1, 100); 3]), 1 << 20, &[])
    }

    /// Every list of up to 4 ticks, played from the start: N(0) to N(4) and L against the levels.
    fn brute_force(&mut self, t: &Table, masks: &[u8], ticks: usize) -> Result<(), String> {
        let levels = self.m.levels(t, LIMIT);
        let mut reached = HashSet::new();
        let mut least = None;
        let mut counts = Vec::new();
        let mut lists: Vec<Vec<u8>> = vec![Vec::new()];
        for d in 0..=ticks {
            for list in &lists {
                match self.m.replay(t, list) {
                    Replay::Kept(s) => drop(reached.insert(s)),
                    Replay::Missed(..) if least.is_none() => least = Some(d),
                    _ => {}
                }
            }
            self.met
                .0
                .entry("lists of the brute force".into())
                .and_modify(|n| *n += lists.len())
                .or_insert(lists.len());
            counts.push(reached.len());
            if d < ticks {
                lists = lists
                    .iter()
                    .flat_map(|l| {
                        masks.iter().map(|&mask| {
                            let mut l = l.clone();
                            l.push(mask);
                            l
                        })
                    })
                    .collect();
            }
        }
        let l = match levels.end {
            End::Miss(l) if l <= ticks => Some(l),
            _ => None,
        };
        if least != l {
            return Err(format!("{t:?}: least list that misses: {least:?} by brute force, {l:?} by levels"));
        }
        for (d, &n) in counts.iter().enumerate() {
            let expected = match (levels.end, levels.counts.get(d)) {
                (_, Some(&n)) => n,
                (End::Closed, None) => *levels.counts.last().unwrap(),
                _ => continue, // past the first miss, or past the limit
            };
            if n != expected {
                return Err(format!("{t:?}: N({d}) is {n} by brute force, {expected} by levels"));
            }
        }
        // And the library's answer at those counts.
        let s = Subject { sheet: model::write_sheet(t), reading: Ok(t.clone()), levels: Some(levels) };
        let mut r = Rng::new(1, 1);
        for k in counts.iter().flat_map(|&n| [n, n - 1]) {
            if s.levels.as_ref().unwrap().verdict(k).is_some() {
                self.search(&mut r, &s, k * SLOT, k)?;
            }
        }
        self.met.add("tables of the brute force");
        Ok(())
    }

    /// A table whose verdict is known, with K slots.
    fn known_verdict(&mut self, r: &mut Rng, t: &Table, k: usize, v: Verdict) -> Result<(), String> {
        let s = self.subject(model::write_sheet(t), LIMIT.max(k));
        if s.levels.as_ref().unwrap().verdict(k) != Some(v) {
            return Err(format!("{t:?} with K = {k}: not {v:?} by levels"));
        }
        self.search(r, &s, k * SLOT, k).map(drop)
    }

    /// Tables on two cores on which earliest deadline and least slack differ in verdict, in L or in count, each both ways.
    fn least_slack(&mut self, r: &mut Rng) -> Result<(), String> {
        use Verdict::{Safe, Unsafe};
        let entries: [(&[(u8, u8, u8)], Verdict, Verdict); 6] = [
            (&[(1, 2, 2), (1, 1, 2), (2, 2, 2)], Unsafe(1, 1), Safe(9)),
            (&[(1, 2, 3), (2, 3, 3), (3, 5, 6), (1, 2, 3)], Safe(231), Unsafe(5, 173)),
            (&[(1, 2, 2), (2, 2, 2), (1, 1, 1)], Unsafe(1, 1), Unsafe(2, 5)),
            (&[(1, 2, 3), (2, 3, 3), (1, 2, 3), (3, 5, 5)], Unsafe(8, 212), Unsafe(5, 173)),
            (&[(2, 3, 3), (1, 2, 2), (1, 1, 2)], Safe(14), Safe(12)),
            (&[(2, 3, 3), (1, 2, 3), (3, 4, 4)], Safe(44), Safe(46)),
        ];
        for (tasks, earliest, least) in entries {
            self.known_verdict(r, &table(3, 2, tasks), LIMIT, earliest)?;
            self.known_verdict(r, &table(4, 2, tasks), LIMIT, least)?;
        }
        Ok(())
    }

    /// Document 000's sets on three cores: task i of n has C = i and D = P = 2 (i + 1).
    fn published_sets(&mut self, r: &mut Rng, known: &[(u8, [Verdict; POLICIES as usize])]) -> Result<(), String> {
        for (n, verdicts) in known {
            let tasks: Vec<_> = (1..=*n).map(|i| (i, 2 * (i + 1), 2 * (i + 1))).collect();
            for (policy, v) in (0..POLICIES).zip(verdicts) {
                self.known_verdict(r, &table(policy, 3, &tasks), 1_000_000, *v)?;
            }
        }
        Ok(())
    }

    /// Document 01's benchmark tables.
    fn benchmarks(&mut self, r: &mut Rng) -> Result<(), String> {
        let entries = [
            (table(1, 1, &[(1, 2, 2), (1, 2, 2)]), 100, Verdict::Safe(4)),
            (table(1, 1, &[(1, 2, 2), (1, 2, 2)]), 3, Verdict::NoRoom(3)),
            (table(0, 1, &[(1, 1, 2), (2, 4, 4)]), 100, Verdict::Unsafe(2, 4)),
            (table(0, 1, &[(1, 1, 2), (2, 4, 4)]), 3, Verdict::NoRoom(3)),
            (table(1, 1, &[(1, 1, 1)]), 1, Verdict::Safe(1)),
            (table(1, 1, &[(1, 1, 2), (1, 1, 2)]), 1, Verdict::Unsafe(1, 1)),
            (table(1, 1, &[(1, 1, 200)]), 200, Verdict::Safe(200)),
            (table(1, 1, &[(1, 1, 200)]), 199, Verdict::NoRoom(199)),
        ];
        for (t, k, v) in entries {
            self.known_verdict(r, &t, k, v)?;
        }
        let s = self.subject(vec![3, 0, 1, 2, 1, 1, 2, 2, 4, 4], LIMIT);
        let list = self.search(r, &s, 65_520, 8_192)?.masks;
        if list != [2, 1] {
            return Err(format!("masks {list:?}, expected 2, 1"));
        }
        let t = table(1, 1, &[(2, 2, 2), (1, 2, 2)]);
        if !matches!(self.m.replay(&t, &[3, 0]), Replay::Missed(2, _)) {
            return Err("masks 3, 0 do not miss at tick 2".into());
        }
        let s = self.subject(model::write_sheet(&t), LIMIT);
        self.replay(r, &s, &[3, 0], 16)
    }

    /// The sheets of a folder: "NAME SLOTS LINE" says what `verdict` prints first for NAME.sheet.
    fn corpus(&mut self, r: &mut Rng, folder: &str) -> Result<(), String> {
        let read = |name: &str| std::fs::read(format!("{folder}/{name}")).map_err(|e| format!("{name}: {e}"));
        let cases = String::from_utf8(read("cases.txt")?).map_err(|e| e.to_string())?;
        for line in cases.lines().filter(|l| !l.starts_with('#')) {
            let mut words = line.splitn(3, ' ');
            let (name, slots, expected) = (words.next().unwrap(), words.next().unwrap(), words.next().unwrap());
            let (work, trace) = match slots.parse::<usize>() {
                Ok(k) => (k * SLOT, k),
                Err(_) => (65_520, 8_192),
            };
            let s = self.subject(read(&format!("{name}.sheet"))?, 10_000);
            let found = match (check::search_refusal(&self.m, &s.reading, work, trace), &s.levels) {
                (Some(number), _) => format!("refused {number}"),
                (None, Some(levels)) => match levels.verdict(self.m.slots(work)) {
                    Some(Verdict::Safe(n)) => format!("safe {n}"),
                    Some(Verdict::Unsafe(l, n)) => format!("unsafe {l} {n}"),
                    Some(Verdict::NoRoom(k)) => format!("room {k}"),
                    None => "undecided".to_string(),
                },
                (None, None) => unreachable!(),
            };
            if found != expected {
                return Err(format!("{name} {slots}: {found}, expected {expected}"));
            }
            self.search(r, &s, work, trace).map_err(|e| format!("{name}: {e}"))?;
            self.met.add("lines of the corpus");
        }
        Ok(())
    }

    /// Lists of more than 2^24 ticks with a release at each, so that a tick's number and the totals need more than 24 bits.
    fn long_lists(&mut self, r: &mut Rng) -> Result<(), String> {
        let s = self.subject(vec![3, 1, 1, 2, 1, 1, 1, 1, 1, 2], LIMIT);
        let mut list = vec![1; (1 << 24) + 2];
        self.replay(r, &s, &list, 16)?;
        list[1 << 24] = 3;
        self.replay(r, &s, &list, 16)?;
        list[1 << 24] = 4;
        self.replay(r, &s, &list, 16)
    }
}

/// policy/cores: (C,D,P), ..
fn table(policy: u8, cores: u8, tasks: &[(u8, u8, u8)]) -> Table {
    let tasks = tasks.iter().map(|&(work, deadline, gap)| model::Task { work, deadline, gap }).collect();
    Table { policy, cores, tasks }
}

fn hex(bytes: &[u8]) -> String {
    bytes.iter().map(|b| format!("{b:02x} ")).collect()
}

fn whole_run(run: &mut Run, seed: u64, sheets: u64) -> Result<(), String> {
    let mut r = Rng::new(seed, u64::MAX);
    if run.m.fault == 0 {
        // A seeded fault is left to the generated sheets.
        run.benchmarks(&mut r).map_err(|e| format!("benchmark tables: {e}"))?;
        run.least_slack(&mut r).map_err(|e| format!("least slack: {e}"))?;
        run.equal_jobs(&mut r).map_err(|e| format!("equal jobs: {e}"))?;
        run.by_age(&mut r).map_err(|e| format!("by age: {e}"))?;
        let sets = if sheets >= 20_000 { &PUBLISHED[..] } else { &PUBLISHED[..1] };
        run.published_sets(&mut r, sets).map_err(|e| format!("document 000: {e}"))?;
        run.every_table(&mut r).map_err(|e| format!("every table: {e}"))?;
        run.every_practice(&mut r).map_err(|e| format!("every practice table: {e}"))?;
        run.every_seed(&mut r).map_err(|e| format!("every seed: {e}"))?;
        run.most_slots(&mut r).map_err(|e| format!("most slots: {e}"))?;
        run.sizes_of_files(&mut r).map_err(|e| format!("sizes of files: {e}"))?;
        run.all_at_once(&mut r).map_err(|e| format!("all tasks at once: {e}"))?;
        run.improper_files(&mut r).map_err(|e| format!("improper files: {e}"))?;
        run.large_files(&mut r).map_err(|e| format!("large files: {e}"))?;
        run.every_tick(&mut r).map_err(|e| format!("a release at every tick: {e}"))?;
        run.every_cut(&mut r).map_err(|e| format!("every cut: {e}"))?;
        run.parted_lists().map_err(|e| format!("parted lists: {e}"))?;
        run.every_mark(&mut r).map_err(|e| format!("every mark: {e}"))?;
        run.under_each_policy(&mut r, Run::long_session).map_err(|e| format!("hundreds of calls: {e}"))?;
        for _ in 0..sheets.min(20_000) / 1000 {
            run.under_each_policy(&mut r, Run::late_ends).map_err(|e| format!("thousands of ticks: {e}"))?;
        }
        for _ in 0..sheets.min(20_000) / 100 {
            let t = gen::tiny_table(&mut r);
            let mut masks: Vec<u8> = (0..1u8 << t.tasks.len()).collect();
            masks.extend([8, 255]);
            run.brute_force(&t, &masks, 4)?;
        }
        for _ in 0..sheets.min(20_000) / 2000 {
            let t = gen::tiny_table(&mut r);
            let masks: Vec<u8> = (0..=255).collect();
            run.brute_force(&t, &masks, 2)?;
        }
    }
    for i in 0..sheets {
        one_sheet(run, seed, i)?;
    }
    for i in 0..sheets / 1000 {
        let mut r = Rng::new(seed, 1 << 40 | i);
        let t = gen::large_table(&mut r);
        // Around the sizes at which the header's stack figures change, and around the cap.
        let more: &[usize] = match i {
            0 => &[16_383, 16_384, 16_385],
            1 => &[262_143, 262_144, 262_145],
            2 => &[999_999, 1_000_000, 1_000_001],
            _ => &[],
        };
        run.large_case(&mut r, &t, 50_000, more).map_err(|e| format!("{t:?}: {e}"))?;
    }
    if sheets >= 20_000 {
        run.largest_tables(&mut r).map_err(|e| format!("largest tables: {e}"))?;
    }
    run.long_lists(&mut r).map_err(|e| format!("long lists: {e}"))
}

fn one_sheet(run: &mut Run, seed: u64, i: u64) -> Result<(), String> {
    let mut r = Rng::new(seed, i);
    let sheet = gen::sheet(&mut r);
    let shown = hex(&sheet);
    run.case(&mut r, sheet).map_err(|e| format!("case {i}, sheet {shown}: {e}"))?;
    run.practices(&mut r).map_err(|e| format!("case {i}, {e}"))
}

/// A full run must have met every answer and refusal, or the generated sheets show too little.
fn complete(met: &Met) -> Result<(), String> {
    let mut all: Vec<String> = (1..=10).map(|n| format!("search refused {n:2}")).collect();
    all.extend([1, 2, 3, 4, 5, 6, 7, 8, 11, 12].map(|n| format!("replay refused {n:2}")));
    all.push("replay refused 11 with a state space too short".into());
    all.extend((1..=8).map(|n| format!("service refused {n:2}")));
    all.extend([1, 2, 3, 4, 5, 6, 7, 8, 12].map(|n| format!("read refused {n:2}")));
    all.extend([1, 4, 5, 6, 7, 8, 12].map(|n| format!("write refused {n:2}")));
    all.extend([1, 2, 3, 4, 5, 6, 7, 8, 14].map(|n| format!("closed refused {n:2}")));
    all.extend(files::MUST.map(|(name, outcome)| format!("file {name}: {outcome}")));
    let answers = ["Safe", "Unsafe", "No room", "replay Kept", "replay Missed", "file accepted", "file no"];
    for p in 0..POLICIES {
        all.push(format!("sheets of policy {p}"));
        let musts = answers.iter().chain(&service::MUST).chain(&session::MUST).chain(&cut::MUST_EACH);
        all.extend(musts.map(|answer| format!("{answer} under policy {p}")));
    }
    all.extend(["sheets", "tables"].map(|what| format!("{what} refused 4, for policy 5")));
    all.extend(["other states", "another end"].map(|what| format!("sheets of policy 4 with {what} under policy 3")));
    all.extend((2..POLICIES).map(|p| format!("sheets of policy {p} with other states by number alone")));
    all.push("sheets of policy 3 with another end by number alone".into());
    all.extend([4, 5, 6, 12].map(|n| format!("practice refused {n:2}")));
    all.extend((1..=8).map(|n| format!("practice tables of {n} tasks")));
    all.extend(session::NAMES.iter().flat_map(|call| (1..=8).map(move |n| format!("{call} refused {n:2}"))));
    all.extend([1, 2, 3, 4, 5, 6, 7, 8, 12].map(|n| format!("cut refused {n:2}")));
    all.extend(cut::MUST.map(String::from));
    all.extend(["read done", "write done", "practice done"].map(String::from));
    all.extend(KINDS.map(|kind| format!("{kind} with every rest")));
    match all.iter().find(|what| met.of(what) < 20) {
        Some(what) => Err(format!("met fewer than 20 times: {what}")),
        None => Ok(()),
    }
}

fn main() {
    let (mut seed, mut sheets, mut case, mut fault, mut folder) = (rng::fresh_seed(), 20_000, None, 0, None);
    let mut args = std::env::args().skip(1);
    while let Some(name) = args.next() {
        let value = args.next().unwrap_or_else(|| usage());
        if name == "--corpus" {
            folder = Some(value);
            continue;
        }
        let value: u64 = value.parse().unwrap_or_else(|_| usage());
        match name.as_str() {
            "--seed" => seed = value,
            "--sheets" => sheets = value,
            "--case" => case = Some(value),
            "--fault" if (1..=faults().count() as u64).contains(&value) => fault = value as u8,
            _ => usage(),
        }
    }
    println!("differ: seed {seed}, {sheets} sheets");
    if fault > 0 {
        println!("seeded fault {fault}: {}", faults().nth(fault as usize - 1).unwrap());
    }
    let start = std::time::Instant::now();
    let mistake = layout::MISTAKES.get((fault as usize).wrapping_sub(model::FAULTS.len() + 1)).map(|mistake| mistake.1);
    let mut run = Run { m: Model { fault }, mistake, met: Met::default() };
    let mut outcome = match case {
        Some(i) => one_sheet(&mut run, seed, i),
        None => whole_run(&mut run, seed, sheets),
    };
    if outcome.is_ok() && case.is_none() && sheets >= 20_000 {
        outcome = complete(&run.met);
    }
    if let (Ok(()), Some(folder)) = (&outcome, folder) {
        outcome = run.corpus(&mut Rng::new(seed, 1 << 41), &folder).map_err(|e| format!("corpus: {e}"));
    }
    for (what, n) in &run.met.0 {
        println!("{n:10}  {what}");
    }
    match outcome {
        Ok(()) => println!("differ: no difference in {:.1} s", start.elapsed().as_secs_f64()),
        Err(e) => {
            println!("differ: FAILED (seed {seed}): {e}");
            std::process::exit(1);
        }
    }
}

/// What is seeded, by number from 1: first in the independent side, then in the layout.
fn faults() -> impl Iterator<Item = &'static str> {
    model::FAULTS.into_iter().chain(layout::MISTAKES.into_iter().map(|(name, _)| name))
}

fn usage() -> ! {
    eprintln!("usage: differ [--seed S] [--sheets N] [--case I] [--fault 1..72] [--corpus DIR]");
    std::process::exit(2);
}
