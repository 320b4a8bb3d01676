//! The differential test of evidence: the states at the front of a search's work space, and files of states, judged as closed lists.

use crate::check;
use crate::files::{self, Fault, File};
use crate::layout::SLOT;
use crate::model::{self, Levels, State, Verdict, POLICIES, STATE};
use crate::rng::Rng;
use crate::{calls, table, Found, Lent, Run, Subject, LIMIT};

impl Run {
    /// One call on a file, judged by the model, and by what is known of the file.
    pub fn closed(&mut self, r: &mut Rng, s: &Subject, file: &File) -> Result<(), String> {
        let told = |e: String| format!("file {}, {} bytes: {e}", file.name, file.bytes.len());
        let (sheet, lent) = (Lent::holding(r, &s.sheet), Lent::holding(r, &file.bytes));
        let answer = calls::closed(sheet.is(), lent.is());
        sheet.stays().map_err(told)?;
        lent.stays().map_err(told)?;
        let outcome = check::closed_outcome(&self.m, &s.reading, &file.bytes);
        check::judged(outcome, answer).map_err(told)?;
        if file.closed.is_some_and(|known| outcome != Ok(known)) {
            return Err(told(format!("{outcome:?} by the model and the library, which it is not")));
        }
        self.met.add("calls on a file");
        match outcome {
            Ok(closed) => {
                let answer = if closed { "accepted" } else { "no" };
                self.met.add(&format!("file {}: {answer}", file.name));
                self.met.add(&s.under(&format!("file {answer}")));
            }
            Err(n) => self.met.add(&format!("closed refused {n:2}")),
        }
        Ok(())
    }

    /// One call on a file of which it is known whether it is closed: for files so large that the model takes seconds for one.
    fn known(&mut self, s: &Subject, name: &'static str, states: &[State], closed: bool) -> Result<(), String> {
        let file = File::of(name, states, Some(closed));
        let answer = calls::closed(&s.sheet, &file.bytes);
        check::judged(Ok(closed), answer).map_err(|e| format!("file {name}, {} bytes: {e}", file.bytes.len()))?;
        self.met.add(&format!("file {name}: {}, as is known", if closed { "accepted" } else { "no" }));
        Ok(())
    }

    /// The file of a judged search, and others made of it.
    fn files(&mut self, r: &mut Rng, s: &Subject, found: &Found) -> Result<(), String> {
        let t = s.reading.as_ref().unwrap();
        let states = files::states_of(found.file());
        let mut made = match found.kind() {
            1 => files::of_safe(r, &self.m, t, &states),
            2 => files::of_unsafe(r, &self.m, t, &states),
            _ => vec![File::of("of a No room search", &states, Some(false))],
        };
        made.extend(files::others(r, &states));
        for file in &made {
            self.closed(r, s, file)?;
        }
        let t = files::another(r, t);
        let other = Subject { sheet: model::write_sheet(&t), reading: Ok(t), levels: None };
        self.closed(r, &other, &File::of("of another policy or number of cores", &states, None))
    }

    /// Files of one sheet: of a search with all the room that it needs, and of one with any.
    pub fn evidence(&mut self, r: &mut Rng, s: &Subject) -> Result<(), String> {
        let Some(levels) = &s.levels else {
            // Whatever the file is, a sheet that is refused comes first.
            let made = files::others(r, &[State::default()]);
            return made.iter().try_for_each(|file| self.closed(r, s, file));
        };
        let last = *levels.counts.last().unwrap();
        for k in [last + r.below(3), r.range(1, last)] {
            if levels.verdict(k).is_some() {
                let rest = r.below(SLOT);
                let found = self.search(r, s, k * SLOT + rest, k)?;
                self.files(r, s, &found)?;
            }
        }
        Ok(())
    }

    /// The file of a search of a large table: as it is, shuffled, and without one state.
    pub fn large_file(&mut self, r: &mut Rng, s: &Subject, found: &Found) -> Result<(), String> {
        let states = files::states_of(found.file());
        let safe = Some(found.kind() == 1);
        let name = if found.kind() == 1 { "of a large table" } else { "of a large table that is not safe" };
        self.closed(r, s, &File::of(name, &states, safe))?;
        let mixed = files::shuffled(r, &states);
        self.closed(r, s, &File::of("of a large table, shuffled", &mixed, safe))?;
        let lacking = files::without_one(r, &states);
        let no = if lacking.is_empty() { None } else { Some(false) };
        self.closed(r, s, &File::of("of a large table, without one state", &lacking, no))
    }

    /// Document 000's six tasks on three cores, with 435,379 states: many times without one of them, and with an improper one.
    pub fn large_files(&mut self, r: &mut Rng) -> Result<(), String> {
        let t = table(0, 3, &[(1, 4, 4), (2, 6, 6), (3, 8, 8), (4, 10, 10), (5, 12, 12), (6, 14, 14)]);
        let s = Subject { sheet: model::write_sheet(&t), reading: Ok(t.clone()), levels: None };
        let n = 435_379;
        let mut work = vec![0; n * SLOT];
        let answer = calls::verdict(&s.sheet, &mut work, &mut vec![0; n]);
        if answer != calls::packed_verdict(Ok(Verdict::Safe(n))) {
            return Err(format!("{t:?}: answer {answer:#x}, expected {n} states"));
        }
        let own = files::states_of(&work[..n * STATE]);
        let mixed = files::shuffled(r, &own);
        self.closed(r, &s, &File::of("of a large table", &own, Some(true)))?;
        self.known(&s, "of a large table, shuffled", &mixed, true)?;
        for states in [&own, &mixed] {
            for _ in 0..10 {
                self.known(&s, "of a large table, without one state", &files::without_one(r, states), false)?;
            }
            let one = files::improper_inwards(r, &self.m, &t, states).ok_or("no improper state leads into it")?;
            self.known(&s, "of a large table, with an improper state", &files::with(r, states, one), false)?;
        }
        Ok(())
    }

    /// Tables with a core too few, in which nothing but the release of all tasks from the start state misses; and tables with
    /// enough, whose files lack the one state that only this release leads to.
    pub fn all_at_once(&mut self, r: &mut Rng) -> Result<(), String> {
        for (n, policy) in (2..=8).flat_map(|n| (0..POLICIES).map(move |policy| (n, policy))) {
            let crowded = table(policy, n as u8 - 1, &[(1, 1, 2); 8][..n]);
            let s = self.subject(model::write_sheet(&crowded), LIMIT);
            for file in files::of_unsafe(r, &self.m, &crowded, &[State::default()]) {
                self.closed(r, &s, &file)?;
            }
            let s = self.subject(model::write_sheet(&table(policy, n as u8, &[(1, 1, 2); 8][..n])), LIMIT);
            let mut states = reached(s.levels.as_ref().unwrap());
            self.closed(r, &s, &File::of("of every mask", &states, Some(true)))?;
            states.retain(|s| s.wait[..n] != [1; 8][..n]);
            self.closed(r, &s, &File::of("of every mask but one", &states, Some(false)))?;
        }
        Ok(())
    }

    /// Under each policy files that are closed but for states improper in each of the ways that there are.
    pub fn improper_files(&mut self, r: &mut Rng) -> Result<(), String> {
        for policy in 0..POLICIES {
            let t = table(policy, 1, &[(2, 6, 7), (2, 6, 8)]);
            let s = self.subject(model::write_sheet(&t), LIMIT);
            let states = reached(s.levels.as_ref().unwrap());
            for (fault, name) in files::IMPROPER {
                match (0..50).find_map(|_| files::but_improper(r, &self.m, &t, &states, fault)) {
                    Some(all) => self.closed(r, &s, &File::of(name, &all, Some(false)))?,
                    // Under the policies that preempt any number of jobs may be started.
                    None if matches!(fault, Fault::Started) && model::preempted(policy) => {}
                    None => return Err(format!("{t:?}: no file is {name}")),
                }
            }
        }
        Ok(())
    }

    /// Files of some thousand states to a million and one, of few that differ.
    pub fn sizes_of_files(&mut self, r: &mut Rng) -> Result<(), String> {
        let t = table(1, 1, &[(1, 2, 2), (1, 2, 2)]);
        let s = self.subject(model::write_sheet(&t), 10);
        let states = reached(s.levels.as_ref().unwrap());
        for n in [12_287, 12_288, 12_289, 196_607, 196_608, 196_609, 1_000_001] {
            let mut all = files::many(r, &states, n);
            self.closed(r, &s, &File::of("of many states", &all, Some(true)))?;
            let few = files::without_one(r, &states);
            let lacking = files::many(r, &few, n);
            self.closed(r, &s, &File::of("of many states, one lacking", &lacking, Some(false)))?;
            all[n - 1].wait[1] = 3;
            let file = File::of("of many states, the last improper", &all, Some(false));
            let ragged = files::ragged(r, &file.bytes);
            self.closed(r, &s, &file)?;
            self.closed(r, &s, &ragged)?;
        }
        Ok(())
    }
}

/// The states that lists reach, in the order of their bytes, so that a seed gives the same run.
pub fn reached(levels: &Levels) -> Vec<State> {
    let mut states: Vec<State> = levels.depth.keys().copied().collect();
    states.sort_by_key(State::bytes);
    states
}
