//! The differential test of document 02's §4: equal time left, or equal slack, is settled by the greater age, then by task number.

use crate::files::File;
use crate::model::{self, End, Model, Replay, Table, Verdict, BY_NUMBER, POLICIES};
use crate::rng::Rng;
use crate::{evidence, table, Run, Subject, LIMIT};
use Verdict::{Safe, Unsafe};

/// A table on which the age and the task number among equal jobs part: policy, cores, tasks, the verdict with the number alone,
/// as in document 01, and the verdict with the age.
type Aged = (u8, u8, &'static [(u8, u8, u8)], Verdict, Verdict);

/// Under each policy that has an age: Safe no more, Safe now, a shorter and a longer list, fewer and more states.
const AGED: [Aged; 22] = [
    (2, 2, &[(2, 2, 2), (2, 2, 3), (1, 3, 3)], Safe(22), Unsafe(3, 21)),
    (2, 2, &[(1, 1, 2), (1, 2, 2), (1, 2, 3), (2, 3, 3)], Unsafe(5, 50), Safe(56)),
    (2, 1, &[(2, 2, 2), (1, 4, 4)], Unsafe(4, 12), Unsafe(3, 8)),
    (2, 1, &[(1, 2, 2), (2, 3, 3)], Unsafe(5, 9), Unsafe(6, 10)),
    (2, 2, &[(2, 3, 3), (3, 4, 4), (2, 5, 5)], Safe(94), Safe(82)),
    (2, 2, &[(2, 4, 4), (3, 5, 5), (4, 6, 6)], Safe(201), Safe(205)),
    (3, 2, &[(1, 2, 2), (2, 2, 2), (2, 4, 4)], Safe(22), Unsafe(3, 15)),
    (3, 2, &[(1, 2, 2), (1, 2, 2), (3, 4, 4)], Unsafe(3, 13), Safe(22)),
    (3, 3, &[(1, 2, 3), (2, 3, 3), (3, 5, 6), (1, 2, 3), (1, 1, 1)], Unsafe(5, 229), Safe(299)),
    (3, 1, &[(2, 2, 2), (1, 4, 4)], Unsafe(4, 12), Unsafe(3, 8)),
    (3, 1, &[(1, 2, 2), (2, 3, 3)], Unsafe(5, 9), Unsafe(6, 10)),
    (3, 2, &[(3, 3, 4), (1, 3, 4), (5, 6, 6)], Unsafe(9, 128), Unsafe(9, 127)),
    (3, 2, &[(1, 1, 1), (2, 3, 3), (2, 4, 4)], Unsafe(8, 30), Unsafe(8, 31)),
    (3, 2, &[(1, 2, 2), (1, 3, 3), (3, 4, 4)], Safe(29), Safe(28)),
    (3, 2, &[(1, 2, 2), (2, 3, 3), (2, 4, 4)], Safe(31), Safe(32)),
    (3, 2, &[(2, 3, 3), (1, 2, 3), (3, 4, 4)], Safe(44), Safe(44)),
    (4, 2, &[(2, 2, 3), (3, 4, 6), (2, 3, 3)], Safe(67), Unsafe(5, 56)),
    (4, 2, &[(1, 2, 2), (3, 3, 4), (3, 5, 5)], Unsafe(10, 63), Safe(55)),
    (4, 2, &[(2, 2, 3), (3, 4, 4), (2, 3, 3)], Unsafe(8, 58), Unsafe(5, 48)),
    (4, 2, &[(1, 2, 2), (4, 4, 5), (4, 6, 6)], Unsafe(7, 93), Unsafe(9, 99)),
    (4, 2, &[(1, 2, 2), (1, 2, 3), (3, 4, 4)], Safe(29), Safe(28)),
    (4, 2, &[(2, 3, 3), (2, 3, 3), (1, 1, 3)], Safe(28), Safe(29)),
];

/// The ticks for which urgent jobs hold every core.
const LEAD: u8 = 3;

/// A job that waits behind them: its age after those ticks, its work, and the time that it has left then.
#[derive(Clone, Copy, Debug)]
struct Waiting {
    age: u8,
    work: u8,
    left: u8,
}

/// Every list of two to four ages.
fn every_age() -> Vec<Vec<u8>> {
    let ages = |n, code: u32| (0..n).map(|i| (code >> (2 * i) & LEAD as u32) as u8).collect();
    (2..=4).flat_map(|n| (0..1 << (2 * n)).map(move |code| ages(n, code))).collect()
}

/// Jobs of these ages with equal time left, with equal slack, and with both equal.
fn equal(ages: &[u8]) -> [Vec<Waiting>; 3] {
    let jobs = |of: fn(u8) -> (u8, u8)| {
        let job = |(&age, work)| Waiting { age, work: of(work).0, left: of(work).1 };
        ages.iter().zip([2, 1, 3, 2]).map(job).collect()
    };
    [jobs(|work| (work, 6)), jobs(|work| (work, 4 + work)), jobs(|_| (2, 6))]
}

/// As many urgent tasks as cores, and a list that releases them first, and each of the jobs so that after LEAD ticks it has its
/// age and has not run. The gaps differ, so that p tells nothing of the age.
fn waiting(policy: u8, cores: u8, jobs: &[Waiting]) -> (Table, Vec<u8>) {
    let mut tasks = vec![(LEAD, LEAD, 200); cores as usize];
    let mut list = vec![0; LEAD as usize + 1];
    list[0] = (1 << cores) - 1;
    for (i, job) in jobs.iter().enumerate() {
        tasks.push((job.work, job.left + job.age, [90, 70, 110, 80][i]));
        list[(LEAD - job.age) as usize] |= 1 << (cores as usize + i);
    }
    (table(policy, cores, &tasks), list)
}

/// The jobs that run in the tick after: the first ones of the policy's order.
fn first(policy: u8, cores: u8, jobs: &[Waiting]) -> Vec<usize> {
    let mut order: Vec<usize> = (0..jobs.len()).collect();
    order.sort_by_key(|&i| match (policy, jobs[i]) {
        (0 | 1, _) => (0, 0, i),
        (2 | 3, job) => (job.left, LEAD - job.age, i),
        (_, job) => (job.left - job.work, LEAD - job.age, i),
    });
    order.truncate(cores as usize);
    order
}

impl Run {
    /// Jobs that wait until the cores are free, and the tick that then chooses among them: known, and played on.
    fn chosen(&mut self, r: &mut Rng, policy: u8, cores: u8, jobs: &[Waiting]) -> Result<(), String> {
        let (t, mut list) = waiting(policy, cores, jobs);
        let Replay::Kept(after) = self.m.replay(&t, &list) else {
            return Err(format!("{t:?}: {list:?} is not kept"));
        };
        let first = first(policy, cores, jobs);
        let ran = |i: usize| jobs[i].work - after.left[cores as usize + i] == 1;
        if let Some(i) = (0..jobs.len()).find(|&i| ran(i) != first.contains(&i)) {
            return Err(format!("policy {policy}, {cores} cores, {jobs:?}: not {first:?} by the model, for {i}"));
        }
        let s = Subject { sheet: model::write_sheet(&t), reading: Ok(t), levels: None };
        self.replay(r, &s, &list, 16)?;
        list.resize(list.len() + r.range(1, 8), 0);
        self.replay(r, &s, &list, 16)?;
        self.met.add("choices among equal jobs");
        Ok(())
    }

    /// Two to four jobs of all ages on one to three cores, with equal time left, with equal slack, and with both equal.
    pub fn equal_jobs(&mut self, r: &mut Rng) -> Result<(), String> {
        for jobs in every_age().iter().flat_map(|ages| equal(ages)) {
            for (policy, cores) in (0..POLICIES).flat_map(|policy| (1..=3).map(move |cores| (policy, cores))) {
                self.chosen(r, policy, cores, &jobs)?;
            }
        }
        Ok(())
    }

    /// Tables whose verdict, L, count or states are others by age than by number: known verdicts, and the files of both orders, of
    /// which that of the other order is not closed.
    pub fn by_age(&mut self, r: &mut Rng) -> Result<(), String> {
        for (policy, cores, tasks, number, age) in AGED {
            let t = table(policy, cores, tasks);
            let before = Model { fault: BY_NUMBER }.levels(&t, LIMIT);
            if before.verdict(LIMIT) != Some(number) {
                return Err(format!("{t:?}: not {number:?} by number alone"));
            }
            self.known_verdict(r, &t, LIMIT, age)?;
            let s = self.subject(model::write_sheet(&t), LIMIT);
            let own = s.levels.as_ref().unwrap();
            for (name, levels, closed) in [("by number alone", &before, false), ("by age", own, true)] {
                if levels.end == End::Closed {
                    self.closed(r, &s, &File::of(name, &evidence::reached(levels), Some(closed)))?;
                }
            }
        }
        Ok(())
    }
}
