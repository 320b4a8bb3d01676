//! The rules of document 01 written once more: sheet, table, tick, replay, and a search with plain sets; and those of document
//! 02's closed lists (§1), least slack first (§3), equal jobs by age (§4), where the core time went (§5), practice tables from a
//! number (§7), marks in a session (§8) and cutting the table at a priority (§9), in bytes as include/ronchhek.h has them. The columns
//! of its work space (§6) are in layout.rs. Slow and direct; shares nothing with the library. Section names in the comments are
//! document 01's. Tasks are counted from 0 here, so task i of this file is the document's task i + 1.

use crate::layout::SLOT;
use std::collections::{HashMap, HashSet};
use std::ops::Range;

pub const TASKS: usize = 8;

/// Bytes of a state.
pub const STATE: usize = 2 * TASKS;

/// The policies are 0 to 4: NP-GFP, P-GFP, NP-EDF, P-EDF, P-LST.
pub const POLICIES: u8 = 5;

/// P: a started job may lose its core, and any number of jobs may be started.
pub fn preempted(policy: u8) -> bool {
    matches!(policy, 1 | 3 | 4)
}

#[derive(Clone, Copy, PartialEq, Eq, Hash, Debug)]
pub struct Task {
    pub work: u8,
    pub deadline: u8,
    pub gap: u8,
}

/// A valid table: policy 0 to 4, 1 to 8 cores, 1 to 8 tasks.
#[derive(Clone, PartialEq, Eq, Debug)]
pub struct Table {
    pub policy: u8,
    pub cores: u8,
    pub tasks: Vec<Task>,
}

/// What a practice table is made of: policy, cores and tasks, which may be any bytes, and the first s.
#[derive(Clone, Copy, Debug)]
pub struct Practice {
    pub policy: u8,
    pub cores: u8,
    pub tasks: u8,
    pub seed: u16,
}

/// c and p of each of eight tasks.
#[derive(Clone, Copy, PartialEq, Eq, Hash, Debug, Default)]
pub struct State {
    pub left: [u8; TASKS],
    pub wait: [u8; TASKS],
}

impl State {
    /// "The search": c, p of task 1, then task 2 and so on.
    pub fn bytes(&self) -> [u8; STATE] {
        let mut b = [0; STATE];
        for i in 0..TASKS {
            b[2 * i] = self.left[i];
            b[2 * i + 1] = self.wait[i];
        }
        b
    }

    pub fn from_bytes(b: &[u8]) -> State {
        let mut s = State::default();
        for i in 0..TASKS {
            s.left[i] = b[2 * i];
            s.wait[i] = b[2 * i + 1];
        }
        s
    }
}

#[derive(Clone, Copy, PartialEq, Eq, Debug)]
pub enum Tick {
    Next(State),
    Missed(State),
    Illegal,
}

#[derive(Clone, Copy, PartialEq, Eq, Debug)]
pub enum Replay {
    Kept(State),
    Missed(usize, State),
    Illegal(usize),
}

/// Where the core time of a replay went, by task.
#[derive(Clone, Copy, PartialEq, Eq, Debug, Default)]
pub struct Totals {
    /// The jobs that were released.
    pub releases: [u64; TASKS],
    /// The ticks in which the task was among those that ran.
    pub ran: [u64; TASKS],
    /// The work left at the end.
    pub left: [u64; TASKS],
}

/// Bytes of the totals.
pub const TOTALS: usize = 3 * 8 * TASKS;

impl Totals {
    /// The three numbers of task 1, then of task 2 and so on, each in 8 bytes, low byte first.
    pub fn bytes(&self) -> Vec<u8> {
        let of_task = |i| [self.releases[i], self.ran[i], self.left[i]];
        (0..TASKS).flat_map(of_task).flat_map(u64::to_le_bytes).collect()
    }

    pub fn from_bytes(b: &[u8]) -> Totals {
        let number = |at: usize| u64::from_le_bytes(b[at..at + 8].try_into().unwrap());
        let mut totals = Totals::default();
        for i in 0..TASKS {
            totals.releases[i] = number(24 * i);
            totals.ran[i] = number(24 * i + 8);
            totals.left[i] = number(24 * i + 16);
        }
        totals
    }

    /// With one tick more, in which these were released and these ran.
    fn count(&mut self, released: u8, ran: u8) {
        for i in 0..TASKS {
            self.releases[i] += (released >> i & 1) as u64;
            self.ran[i] += (ran >> i & 1) as u64;
        }
    }

    fn ending_in(self, s: &State) -> Totals {
        Totals { left: s.left.map(u64::from), ..self }
    }
}

/// The marks of a session: its calls number them from 1.
pub const MARKS: usize = 8;

/// Bytes of a session: the flags of its marks, the present state, and a state for each mark.
pub const SESSION: usize = 1 + STATE + MARKS * STATE;

/// A present state, and under each mark nothing or a state.
#[derive(Clone, Copy)]
pub struct Session {
    pub present: State,
    pub marks: [Option<State>; MARKS],
}

impl Session {
    /// The bytes of the present state, which is place 0, or of the state under mark `place`.
    pub fn bytes_of(place: usize) -> Range<usize> {
        1 + STATE * place..1 + STATE * (place + 1)
    }
}

/// A call on a session, with its mask or its mark.
#[derive(Clone, Copy, Debug)]
pub enum Call {
    Step(u8),
    Mark(u8),
    Return(u8),
}

#[derive(Clone, Copy, PartialEq, Eq, Debug)]
pub enum Verdict {
    Safe(usize),
    Unsafe(usize, usize),
    NoRoom(usize),
}

/// How a search by levels ended.
#[derive(Clone, Copy, PartialEq, Eq, Debug)]
pub enum End {
    /// Some list of that many ticks misses, and none of fewer.
    Miss(usize),
    /// No list misses, and every state that lists reach is there.
    Closed,
    /// More states than the limit, and no miss so far.
    Cut,
}

/// The states that lists reach with no miss, each with the least number of ticks.
pub struct Levels {
    /// counts[d] is N(d).
    pub counts: Vec<usize>,
    pub depth: HashMap<State, usize>,
    pub end: End,
}

impl Levels {
    /// Demand 3 for K slots. None where the search was cut before this K was decided.
    pub fn verdict(&self, k: usize) -> Option<Verdict> {
        let last = *self.counts.last().unwrap();
        match self.end {
            End::Miss(l) if self.counts[l - 1] <= k => Some(Verdict::Unsafe(l, self.counts[l - 1])),
            End::Closed if last <= k => Some(Verdict::Safe(last)),
            End::Cut if last <= k => None,
            _ => Some(Verdict::NoRoom(k)),
        }
    }
}

/// The rules. `fault` 0 is the document; another number is a seeded mistake, to show that a comparison can fail.
#[derive(Clone, Copy)]
pub struct Model {
    pub fault: u8,
}

/// The fault that is document 01's order of equal jobs, before document 02's §4.
pub const BY_NUMBER: u8 = 23;

/// Faults that `Model` knows.
pub const FAULTS: [&str; 62] = [
    "under NP an urgent job takes a started job's core",
    "a deadline is tested only when no time is left",
    "a task's rule is judged after all tasks",
    "the count of Unsafe is N(L)",
    "a replay numbers its ticks from 0",
    "deadline and gap are swapped in a table's 27 bytes",
    "a table's entries after the last task are not looked at",
    "a short state space is judged before the play",
    "the last state of a file is not looked at",
    "a state of a file need not be proper",
    "a miss from a state of a file is let pass",
    "from a state of a file at most one task is released",
    "the bytes of a file after its last whole state are not looked at",
    "an empty file is refused before its sheet is read",
    "a slot takes 24 bytes of the work space",
    "least slack is ordered by the time left",
    "least slack is that of the state before the release",
    "least slack is that of the tick in which a job was released",
    "of jobs with equal slack and age the higher task number runs first",
    "under least slack no more jobs are started than cores",
    "policy 5 is let pass",
    "of jobs with equal time left or slack the newer runs first",
    "of jobs with equal time left or slack the lower task number runs first, whatever their age",
    "under fixed priority the oldest job runs first",
    "of jobs with equal time left or slack the one with the smaller p runs first",
    "the age is that of the state before the release",
    "every task with a ready job is counted as one that ran",
    "the runs of the tick that misses are not counted",
    "the releases of the refused tick are counted",
    "a short totals space is judged before the play",
    "totals are written to a space that is too short",
    "totals are not written under refusal 11",
    "a run is counted where the state after a tick has less work left than the one before",
    "the work left of a miss is that before the tick",
    "the D of a practice table is drawn from 200",
    "the numbers of a practice table are of s before the step",
    "each task of a practice table draws C, then D, then P",
    "each task of a practice table draws from the first s again",
    "the tasks of a practice table are judged before its cores",
    "a step that misses moves the session",
    "a return empties its mark",
    "a return to a mark outside 1 to 8 is judged as one to a mark never set",
    "a mark stores the start state",
    "the states under the marks of a session are not judged",
    "the state under a mark that is not set is judged",
    "the states of a session are judged before its length",
    "the flag of a mark is one bit off",
    "the mask of a step is judged before the states of its session",
    "a cut leaves the last k tasks",
    "a cut has no more cores than tasks",
    "the k of a cut is judged before its sheet",
    "a cut to no task is let pass",
    "a cut to more tasks than there are leaves all of them",
    "a space too short for a cut is judged before its k",
    "the tasks after the kth stay in a cut",
    "a cut says as many tasks as before",
    "a cut mask has one bit more",
    "a cut state has the p of every task",
    "a list that is kept is kept with the cut state when cut, under every policy that preempts",
    "a safe table's cut has as many states as the table",
    "the second of two joined lists is played from the start state",
    "the ticks of the second of two joined lists are numbered from 1",
];

// The sheet.

/// "The sheet as bytes": one number at a place, and the place after it; or refusal 1 or 2.
fn number(sheet: &[u8], at: usize) -> Result<(u32, usize), u8> {
    let low = *sheet.get(at).ok_or(1u8)?;
    if low < 128 {
        return Ok((low as u32, at + 1));
    }
    let high = *sheet.get(at + 1).ok_or(1u8)?;
    if high == 0 || high > 127 {
        return Err(2);
    }
    Ok(((low as u32 - 128) + 128 * high as u32, at + 2))
}

/// A number's bytes.
pub fn push_number(out: &mut Vec<u8>, x: u32) {
    assert!(x < 128 * 128);
    if x < 128 {
        out.push(x as u8);
    } else {
        out.push((x % 128 + 128) as u8);
        out.push((x / 128) as u8);
    }
}

/// A table's numbers in the sheet's order.
pub fn numbers(t: &Table) -> Vec<u32> {
    let mut v = vec![3, t.policy as u32, t.cores as u32, t.tasks.len() as u32];
    for task in &t.tasks {
        v.extend([task.work as u32, task.deadline as u32, task.gap as u32]);
    }
    v
}

pub fn write_sheet(t: &Table) -> Vec<u8> {
    let mut out = Vec::new();
    for x in numbers(t) {
        push_number(&mut out, x);
    }
    out
}

/// Bytes of the longest sheet: four numbers below 128, and three of each task with two bytes.
pub const LONGEST: usize = 4 + 3 * TASKS * 2;

/// Bytes of a table: policy, m, n, then C, D, P of eight tasks.
pub const TABLE: usize = 3 + 3 * TASKS;

impl Model {
    /// The table of a sheet in 27 bytes.
    pub fn table_bytes(&self, t: &Table) -> Vec<u8> {
        let mut b = vec![t.policy, t.cores, t.tasks.len() as u8];
        for task in &t.tasks {
            let fields = [task.work, task.deadline, task.gap];
            b.extend(if self.fault == 6 { [fields[0], fields[2], fields[1]] } else { fields });
        }
        b.resize(TABLE, 0);
        b
    }

    /// The sheet of a table's bytes: 1 and 8 for its length, then "Refusals by cause" 4 to 7.
    pub fn sheet_of_table(&self, b: &[u8]) -> Result<Vec<u8>, u8> {
        match b.len() {
            0..TABLE => return Err(1),
            TABLE => {}
            _ => return Err(8),
        }
        let (policy, cores, n) = (b[0], b[1], b[2] as usize);
        self.head(policy, cores, b[2])?;
        let mut tasks = Vec::new();
        for (i, entry) in b[3..].chunks(3).enumerate() {
            let task = Task { work: entry[0], deadline: entry[1], gap: entry[2] };
            if i < n {
                if !(1 <= task.work && task.work <= task.deadline && task.deadline <= task.gap && task.gap <= 200) {
                    return Err(7);
                }
                tasks.push(task);
            } else if entry != [0, 0, 0] && self.fault != 7 {
                return Err(7);
            }
        }
        Ok(write_sheet(&Table { policy, cores, tasks }))
    }

    /// Refusals 4, 5 and 6 of a table's first three bytes.
    fn head(&self, policy: u8, cores: u8, n: u8) -> Result<(), u8> {
        match (cores, n) {
            _ if self.no_policy(policy as u32) => Err(4),
            (1..=8, 1..=8) => Ok(()),
            (1..=8, _) => Err(6),
            _ => Err(5),
        }
    }

    /// Refusal 4: a policy above 4.
    fn no_policy(&self, policy: u32) -> bool {
        policy > if self.fault == 21 { 5 } else { 4 }
    }

    /// "Refusals by cause": a sheet is judged in reading order.
    pub fn read_sheet(&self, sheet: &[u8]) -> Result<Table, u8> {
        let (fields, at) = number(sheet, 0)?;
        if fields != 3 {
            return Err(3);
        }
        let (policy, at) = number(sheet, at)?;
        if self.no_policy(policy) {
            return Err(4);
        }
        let (cores, at) = number(sheet, at)?;
        if !(1..=8).contains(&cores) {
            return Err(5);
        }
        let (n, mut at) = number(sheet, at)?;
        if !(1..=8).contains(&n) {
            return Err(6);
        }
        let mut tasks = Vec::new();
        let mut broken = false;
        for _ in 0..n {
            let (c, next) = number(sheet, at)?;
            let (d, next) = number(sheet, next)?;
            let (p, next) = number(sheet, next)?;
            at = next;
            if !(1 <= c && c <= d && d <= p && p <= 200) {
                if self.fault != 3 {
                    return Err(7);
                }
                broken = true;
            }
            tasks.push(Task { work: (c % 256) as u8, deadline: (d % 256) as u8, gap: (p % 256) as u8 });
        }
        if broken {
            return Err(7);
        }
        if at < sheet.len() {
            return Err(8);
        }
        Ok(Table { policy: policy as u8, cores: cores as u8, tasks })
    }

    // Practice tables.

    /// Document 02's §7: "given policy, m, n and s, each task draws three times"; s goes on from task to task. Refusals 4, 5 and 6, in
    /// this order.
    pub fn practice(&self, given: Practice) -> Result<Table, u8> {
        let Practice { policy, cores, tasks: n, seed } = given;
        if self.fault == 39 {
            self.head(policy, 1, n)?;
        }
        self.head(policy, cores, n)?;
        let mut s = seed;
        let mut tasks = Vec::new();
        for _ in 0..n {
            if self.fault == 38 {
                s = seed;
            }
            tasks.push(self.drawn_task(&mut s));
        }
        Ok(Table { policy, cores, tasks })
    }

    /// P = 1 + (draw mod 200), D = 1 + (draw mod P), C = 1 + (draw mod D).
    fn drawn_task(&self, s: &mut u16) -> Task {
        let mut draws = [self.draw(s), self.draw(s), self.draw(s)];
        if self.fault == 37 {
            draws.reverse();
        }
        let gap = 1 + draws[0] % 200;
        let deadline = 1 + draws[1] % if self.fault == 35 { 200 } else { gap };
        let work = 1 + draws[2] % deadline;
        Task { work: work as u8, deadline: deadline as u8, gap: gap as u8 }
    }

    /// "Each draw is s = (25173 × s + 13849) mod 65536, giving the new s."
    fn draw(&self, s: &mut u16) -> u32 {
        let before = *s as u32;
        let after = (25173 * before + 13849) % 65536;
        *s = after as u16;
        if self.fault == 36 {
            before
        } else {
            after
        }
    }

    // The tick.

    /// What a ready job is ordered by first: nothing under GFP, the time left under EDF, the slack under LST.
    fn urgency(&self, t: &Table, s: &State, i: usize) -> i32 {
        match t.policy {
            2 | 3 => time_left(t, s, i),
            4 if self.fault == 16 => time_left(t, s, i),
            4 if self.fault == 18 => t.tasks[i].deadline as i32 - t.tasks[i].work as i32,
            4 => slack(t, s, i),
            _ => 0,
        }
    }

    /// What settles equal urgency before the task number, document 02's §4: nothing under GFP, else the greater age.
    fn youth(&self, t: &Table, s: &State, i: usize) -> i32 {
        match (t.policy, self.fault) {
            (0 | 1, 24) => -age(t, s, i),
            (0 | 1, _) | (_, BY_NUMBER) => 0,
            (_, 22) => age(t, s, i),
            (_, 25) => s.wait[i] as i32,
            _ => -age(t, s, i),
        }
    }

    /// Steps 2 and 3, after the release: sort the ready jobs, then hand out the cores. Bit i is set where task i runs. `given` is
    /// the state before the release, which matters only where a mistake is seeded.
    fn running(&self, t: &Table, s: &State, given: &State) -> u8 {
        let keeps_core = !preempted(t.policy) && self.fault != 1;
        let by_slack = if self.fault == 17 && t.policy == 4 { given } else { s };
        let by_age = if self.fault == 26 { given } else { s };
        let mut ready = [(0i32, 0i32, 0i32, 0i32, 0usize); TASKS];
        let mut jobs = 0;
        for i in 0..t.tasks.len() {
            if s.left[i] > 0 {
                let started = s.left[i] < t.tasks[i].work;
                let first = if keeps_core && started { 0 } else { 1 };
                let number = if self.fault == 19 && t.policy == 4 { -(i as i32) } else { i as i32 };
                ready[jobs] = (first, self.urgency(t, by_slack, i), self.youth(t, by_age, i), number, i);
                jobs += 1;
            }
        }
        let ready = &mut ready[..jobs];
        ready.sort_unstable();
        let mut running = 0;
        for (place, &(first, .., i)) in ready.iter().enumerate() {
            if first == 0 || place < t.cores as usize {
                running |= 1 << i;
            }
        }
        running
    }

    /// "One tick", from a proper state.
    pub fn tick(&self, t: &Table, given: &State, mask: u8) -> Tick {
        self.tick_and_choice(t, given, mask).0
    }

    /// A tick, and the tasks that run in it, a bit each.
    fn tick_and_choice(&self, t: &Table, given: &State, mask: u8) -> (Tick, u8) {
        let n = t.tasks.len();
        let mut s = *given;
        for i in 0..TASKS {
            if mask & 1 << i == 0 {
                continue;
            }
            if i >= n || s.wait[i] > 0 {
                return (Tick::Illegal, 0);
            }
            s.left[i] = t.tasks[i].work;
            s.wait[i] = t.tasks[i].gap;
        }
        let running = self.running(t, &s, given);
        for i in 0..n {
            s.left[i] -= running >> i & 1;
            s.wait[i] = s.wait[i].saturating_sub(1);
        }
        let over = |i| if self.fault == 2 { time_left(t, &s, i) <= 0 } else { slack(t, &s, i) < 0 };
        let late = |i: usize| s.left[i] > 0 && over(i);
        let tick = if (0..n).any(late) { Tick::Missed(s) } else { Tick::Next(s) };
        (tick, running)
    }

    /// "State": proper.
    pub fn proper(&self, t: &Table, s: &State) -> bool {
        let n = t.tasks.len();
        let mut started = 0;
        for i in 0..TASKS {
            if i >= n {
                if s.left[i] != 0 || s.wait[i] != 0 {
                    return false;
                }
                continue;
            }
            let task = t.tasks[i];
            if s.left[i] > task.work || s.wait[i] > task.gap {
                return false;
            }
            if s.left[i] > 0 && slack(t, s, i) < 0 {
                return false;
            }
            if 0 < s.left[i] && s.left[i] < task.work {
                started += 1;
            }
        }
        let limited = !preempted(t.policy) || (self.fault == 20 && t.policy == 4);
        !limited || started <= t.cores
    }

    /// "Replay", from the start state.
    pub fn replay(&self, t: &Table, list: &[u8]) -> Replay {
        self.play(t, list).0
    }

    /// Document 02's §9: a list played from a proper state, its tick numbers raised by the ticks before it.
    pub fn play_after(&self, t: &Table, s: &State, before: usize, list: &[u8]) -> Replay {
        let s = if self.fault == 61 { State::default() } else { *s };
        let before = if self.fault == 62 { 0 } else { before };
        match self.play_from(t, s, list).0 {
            Replay::Kept(last) => Replay::Kept(last),
            Replay::Missed(tick, last) => Replay::Missed(before + tick, last),
            Replay::Illegal(tick) => Replay::Illegal(before + tick),
        }
    }

    /// A replay, and where the core time went in the ticks that were played.
    pub fn play(&self, t: &Table, list: &[u8]) -> (Replay, Totals) {
        self.play_from(t, State::default(), list)
    }

    /// The same from any proper state.
    fn play_from(&self, t: &Table, mut s: State, list: &[u8]) -> (Replay, Totals) {
        let mut totals = Totals::default();
        let first = if self.fault == 5 { 0 } else { 1 };
        for (i, &mask) in list.iter().enumerate() {
            let (tick, choice) = self.tick_and_choice(t, &s, mask);
            let (released, ran) = self.counted(&s, mask, &tick, choice);
            totals.count(released, ran);
            match tick {
                Tick::Next(next) => s = next,
                Tick::Missed(last) => {
                    let end = if self.fault == 34 { &s } else { &last };
                    return (Replay::Missed(i + first, last), totals.ending_in(end));
                }
                Tick::Illegal => return (Replay::Illegal(i + first), totals.ending_in(&s)),
            }
        }
        (Replay::Kept(s), totals.ending_in(&s))
    }

    /// What a tick adds to the totals, a bit for each task: the releases of its mask, and its choice. The one that misses counts,
    /// the one that is refused does not. `given` is the state before it, which matters only where a mistake is seeded.
    fn counted(&self, given: &State, mask: u8, tick: &Tick, choice: u8) -> (u8, u8) {
        match (tick, self.fault) {
            (Tick::Illegal, 29) => (mask, 0),
            (Tick::Illegal, _) => (0, 0),
            (Tick::Missed(_), 28) => (mask, 0),
            (_, 27) => (mask, mask | bits(|i| given.left[i] > 0)),
            (Tick::Next(s) | Tick::Missed(s), 33) => (mask, bits(|i| s.left[i] < given.left[i])),
            _ => (mask, choice),
        }
    }

    // Cutting at a priority.

    /// Document 02's §9: "its first k tasks (1 to n, same m)", or refusal 6.
    pub fn cut_table(&self, t: &Table, k: u8) -> Result<Table, u8> {
        let (n, k) = (t.tasks.len(), k as usize);
        let kept = match k {
            0 if self.fault != 52 => return Err(6),
            _ if k > n && self.fault != 53 => return Err(6),
            _ => k.min(n),
        };
        let tasks = match self.fault {
            49 => &t.tasks[n - kept..],
            55 => &t.tasks[..],
            _ => &t.tasks[..kept],
        };
        let cores = if self.fault == 50 { t.cores.min(k as u8) } else { t.cores };
        Ok(Table { policy: t.policy, cores, tasks: tasks.to_vec() })
    }

    /// The sheet of the cut table.
    pub fn cut_sheet(&self, t: &Table, k: u8) -> Result<Vec<u8>, u8> {
        let mut sheet = write_sheet(&self.cut_table(t, k)?);
        if self.fault == 56 {
            sheet[3] = t.tasks.len() as u8;
        }
        Ok(sheet)
    }

    /// "Cutting every mask to its low k bits."
    pub fn cut_mask(&self, mask: u8, k: u8) -> u8 {
        let k = if self.fault == 57 { k + 1 } else { k };
        bits(|i| i < k as usize && mask >> i & 1 == 1)
    }

    pub fn cut_list(&self, list: &[u8], k: u8) -> Vec<u8> {
        list.iter().map(|&mask| self.cut_mask(mask, k)).collect()
    }

    /// c and p of the first k tasks.
    pub fn cut_state(&self, s: &State, k: u8) -> State {
        let mut cut = State::default();
        for i in 0..TASKS {
            if i < k as usize {
                cut.left[i] = s.left[i];
            }
            if i < k as usize || self.fault == 58 {
                cut.wait[i] = s.wait[i];
            }
        }
        cut
    }

    // Sessions.

    /// A session of its bytes; those of a mark that is not set are not looked at.
    pub fn read_session(&self, b: &[u8]) -> Session {
        let set = if self.fault == 47 { b[0].rotate_right(1) } else { b[0] };
        let state = |place| State::from_bytes(&b[Session::bytes_of(place)]);
        let mark = |i: usize| (set >> i & 1 == 1).then(|| state(i + 1));
        Session { present: state(0), marks: std::array::from_fn(mark) }
    }

    /// A session written over bytes: those of a mark that is not set stay, and those after the session.
    pub fn write_session(&self, s: &Session, b: &mut [u8]) {
        let set = bits(|i| s.marks[i].is_some());
        b[0] = if self.fault == 47 { set.rotate_left(1) } else { set };
        for (place, state) in [Some(s.present)].iter().chain(&s.marks).enumerate() {
            if let Some(state) = state {
                b[Session::bytes_of(place)].copy_from_slice(&state.bytes());
            }
        }
    }

    /// Document 02's §8, a call on the session of these bytes: whether it is done, and not a miss, and the session after it.
    /// Refusals 12 and 13, then 15 and 16, or 11.
    pub fn session_call(&self, t: &Table, b: &[u8], call: Call) -> Result<(bool, Session), u8> {
        let mut s = self.judged_session(t, b, call)?;
        match call {
            Call::Step(mask) => match self.tick(t, &s.present, mask) {
                Tick::Next(next) => s.present = next,
                Tick::Missed(last) if self.fault == 40 => return Ok((false, Session { present: last, ..s })),
                Tick::Missed(_) => return Ok((false, s)),
                Tick::Illegal => return Err(11),
            },
            Call::Mark(mark) => {
                let stored = if self.fault == 43 { State::default() } else { s.present };
                s.marks[index(mark)?] = Some(stored);
            }
            Call::Return(mark) => {
                let i = index(mark).map_err(|n| if self.fault == 42 { 16 } else { n })?;
                s.present = s.marks[i].ok_or(16u8)?;
                if self.fault == 41 {
                    s.marks[i] = None;
                }
            }
        }
        Ok((true, s))
    }

    /// The session of these bytes: 12 where they are too few, and then none is read; 13 where a state of it is not proper.
    fn judged_session(&self, t: &Table, b: &[u8], call: Call) -> Result<Session, u8> {
        if b.len() < SESSION {
            let filled = [b, &[0; SESSION][b.len()..]].concat();
            return Err(if self.fault == 46 && !self.proper_session(t, &filled) { 13 } else { 12 });
        }
        let s = self.read_session(b);
        match call {
            Call::Step(mask) if self.fault == 48 && self.tick(t, &s.present, mask) == Tick::Illegal => Err(11),
            _ if self.proper_session(t, b) => Ok(s),
            _ => Err(13),
        }
    }

    /// Whether the present state is proper, and the one under each mark that is set.
    fn proper_session(&self, t: &Table, b: &[u8]) -> bool {
        let s = match self.fault {
            45 => self.read_session(&[&[255], &b[1..]].concat()),
            _ => self.read_session(b),
        };
        let proper = |state: &State| self.proper(t, state);
        proper(&s.present) && (self.fault == 44 || s.marks.iter().flatten().all(proper))
    }

    // The search.

    /// K of a work space: its length divided by 21, rounded down, at most 1,000,000.
    pub fn slots(&self, work_len: usize) -> usize {
        (work_len / if self.fault == 15 { 24 } else { SLOT }).min(1_000_000)
    }

    /// Level by level, all 256 masks from each state, until a miss, or no new state, or more than `limit` states.
    pub fn levels(&self, t: &Table, limit: usize) -> Levels {
        let start = State::default();
        let mut depth = HashMap::from([(start, 0)]);
        let mut counts = vec![1];
        let mut level = vec![start];
        let mut d = 0;
        loop {
            let mut miss = false;
            let mut next = Vec::new();
            for s in &level {
                for mask in 0..=255 {
                    match self.tick(t, s, mask) {
                        Tick::Next(r) => {
                            if !depth.contains_key(&r) {
                                assert!(self.fault != 0 || self.proper(t, &r), "{t:?} {s:?} {mask}: not proper");
                                depth.insert(r, d + 1);
                                next.push(r);
                            }
                        }
                        Tick::Missed(_) => miss = true,
                        Tick::Illegal => {}
                    }
                }
            }
            if miss {
                if self.fault == 4 {
                    counts[d] = depth.len();
                } else {
                    for s in &next {
                        depth.remove(s);
                    }
                }
                return Levels { counts, depth, end: End::Miss(d + 1) };
            }
            if next.is_empty() {
                return Levels { counts, depth, end: End::Closed };
            }
            counts.push(depth.len());
            if depth.len() > limit {
                return Levels { counts, depth, end: End::Cut };
            }
            level = next;
            d += 1;
        }
    }

    // Files of states.

    /// Whether a file is a closed list: it holds the start state, and each of its states is proper and stays within it.
    /// Refusal 14: it is empty, or not a whole number of states.
    pub fn closed(&self, t: &Table, file: &[u8]) -> Result<bool, u8> {
        if file.is_empty() || (file.len() % STATE != 0 && self.fault != 13) {
            return Err(14);
        }
        let listed: Vec<State> = file.chunks_exact(STATE).map(State::from_bytes).collect();
        let set = |states: &[State]| states.iter().copied().collect::<HashSet<State>>();
        let held = set(&listed);
        let judged = if self.fault == 9 { set(&listed[..listed.len() - 1]) } else { held.clone() };
        let proper = |s| self.fault == 10 || self.proper(t, s);
        Ok(held.contains(&State::default()) && judged.iter().all(|s| proper(s) && self.stays_within(t, &held, s)))
    }

    /// Whether every legal mask from a state leads, without a miss, to one of these.
    pub fn stays_within(&self, t: &Table, held: &HashSet<State>, s: &State) -> bool {
        (0..=255u8).filter(|mask| self.fault != 12 || mask.count_ones() < 2).all(|mask| match self.tick(t, s, mask) {
            Tick::Next(next) => held.contains(&next),
            Tick::Missed(_) => self.fault == 11,
            Tick::Illegal => true,
        })
    }
}

/// A mask of the tasks, or of the marks, of which this holds.
pub fn bits(holds: impl Fn(usize) -> bool) -> u8 {
    (0..TASKS).filter(|&i| holds(i)).fold(0, |mask, i| mask | 1 << i)
}

/// Where a mark stands among the eight, or refusal 15.
fn index(mark: u8) -> Result<usize, u8> {
    match mark {
        1..=8 => Ok(mark as usize - 1),
        _ => Err(15),
    }
}

/// P - p.
fn age(t: &Table, s: &State, i: usize) -> i32 {
    t.tasks[i].gap as i32 - s.wait[i] as i32
}

/// d = D - (P - p).
fn time_left(t: &Table, s: &State, i: usize) -> i32 {
    t.tasks[i].deadline as i32 - age(t, s, i)
}

/// d - c.
fn slack(t: &Table, s: &State, i: usize) -> i32 {
    time_left(t, s, i) - s.left[i] as i32
}
