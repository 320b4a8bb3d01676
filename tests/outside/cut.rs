//! The differential test of cuts: sheets cut to their first tasks, with lists and states cut likewise; and of joined lists.

use crate::calls::{self, packed_replay, packed_verdict};
use crate::check;
use crate::layout::SLOT;
use crate::model::{self, End, Model, Replay, State, Table, Tick, Verdict, LONGEST, POLICIES, STATE};
use crate::rng::Rng;
use crate::{gen, table, Lent, Run, Subject};
use std::collections::{HashSet, VecDeque};

/// What a full run must have met.
pub const MUST: [&str; 9] = [
    "cut done",
    "cut to no task",
    "cut to more tasks than there are",
    "cut refused for k with a space too short",
    "cut list Kept under policy 1",
    "cut list Kept under policy 1, without work that was left",
    "cut list Kept under policy 3, with less work left",
    "cut list Kept under policy 4, with less work left",
    "joined lists refused with their sheet",
];

/// What it must have met under each policy.
pub const MUST_EACH: [&str; 7] = [
    "cut of a safe table",
    "cut of a safe table, with fewer states",
    "joined lists Kept, Kept",
    "joined lists Kept, Missed",
    "joined lists Kept, refused 11",
    "joined lists Missed",
    "joined lists refused 11",
];

/// P-GFP.
const FIXED: u8 = 1;

/// A table as policy, cores and tasks; k; a shortest list that is kept whole; and whether it misses when cut, or is kept with another
/// state.
type Parted = (u8, u8, &'static [(u8, u8, u8)], u8, &'static [u8], bool);

/// Lists that part whole and cut under the policies other than P-GFP.
const PARTED: [Parted; 6] = [
    (0, 1, &[(1, 1, 1), (2, 4, 4), (2, 2, 2)], 2, &[4, 2, 1], true),
    (0, 1, &[(1, 2, 2), (2, 2, 2)], 1, &[2, 1], false),
    (2, 1, &[(2, 4, 4), (1, 1, 1), (1, 1, 1)], 2, &[5, 2], true),
    (2, 1, &[(1, 2, 2), (1, 1, 1)], 1, &[3], false),
    (3, 1, &[(1, 2, 2), (1, 1, 1)], 1, &[3], false),
    (4, 1, &[(1, 2, 2), (1, 1, 1)], 1, &[3], false),
];

/// Of the 8,000 tables of three tasks with gaps up to 4, on one core: under each policy how many have a list that is kept whole and, cut
/// to two tasks, misses, and how many have one that is then kept with another state. None under P-GFP.
const PARTED_TABLES: [[usize; 2]; POLICIES as usize] = [[100, 3_000], [0, 0], [276, 5_986], [0, 5_986], [0, 5_986]];

/// A space for a state before a replay.
const UNWRITTEN: [u8; STATE] = [0xA5; STATE];

/// The answer of a replay, and the space that it was lent for the state.
type Replayed = (u64, [u8; STATE]);

/// A list replayed by the library.
fn replayed(sheet: &[u8], list: &[u8]) -> Replayed {
    let mut state = UNWRITTEN;
    let answer = calls::replay(sheet, list, &mut state);
    (answer, state)
}

/// The state of a list that was kept.
fn state_of((answer, state): Replayed) -> Option<State> {
    (answer == packed_replay(Ok(Replay::Kept(State::default())))).then(|| State::from_bytes(&state))
}

/// The state of a list that the library keeps.
fn kept(sheet: &[u8], list: &[u8]) -> Option<State> {
    state_of(replayed(sheet, list))
}

/// A list up to the tick that misses or is refused, where one does or is.
fn kept_front(sheet: &[u8], list: &[u8]) -> Vec<u8> {
    match replayed(sheet, list).0 {
        answer if answer >> 56 == 1 => list.to_vec(),
        answer => list[..(answer & 0xFFFF_FFFF_FFFF) as usize - 1].to_vec(),
    }
}

/// A sheet as the library cuts it to k tasks.
fn cut_to(sheet: &[u8], k: u8) -> Result<Vec<u8>, String> {
    let mut out = [0; LONGEST];
    match calls::cut(sheet, k, &mut out) {
        answer if answer >> 48 == 1 => Ok(out[..(answer & 0xFF_FFFF) as usize].to_vec()),
        answer => Err(format!("cut to {k}: answer {answer:#x}")),
    }
}

/// A sheet as the library cuts it to 1 task, to 2, and so on to all of them.
fn every_cut_of(sheet: &[u8], t: &Table) -> Result<Vec<Vec<u8>>, String> {
    (1..=t.tasks.len() as u8).map(|k| cut_to(sheet, k)).collect()
}

/// Whole and cut side by side, level by level: a shortest list that is kept whole and misses when cut to k, and one that is then kept
/// with another state than the cut one.
fn parted(m: &Model, t: &Table, k: u8) -> [Option<Vec<u8>>; 2] {
    let (cut, start) = (m.cut_table(t, k).unwrap(), (State::default(), State::default()));
    let (mut seen, mut queue) = (HashSet::from([start]), VecDeque::from([(start, Vec::new())]));
    let [mut missed, mut other] = [None, None];
    while let Some(((whole, part), list)) = queue.pop_front() {
        for mask in 0..1 << t.tasks.len() {
            let Tick::Next(whole) = m.tick(t, &whole, mask) else {
                continue;
            };
            let list = [&list[..], &[mask]].concat();
            match m.tick(&cut, &part, m.cut_mask(mask, k)) {
                Tick::Next(part) => {
                    if part != m.cut_state(&whole, k) {
                        other.get_or_insert(list.clone());
                    }
                    if seen.insert((whole, part)) {
                        queue.push_back(((whole, part), list));
                    }
                }
                _ => drop(missed.get_or_insert(list)),
            }
        }
    }
    [missed, other]
}

impl Run {
    /// A sheet cut to k tasks, into a space of that length.
    fn cut(&mut self, r: &mut Rng, s: &Subject, k: u8, out_len: usize) -> Result<(), String> {
        let (sheet, mut out) = (Lent::holding(r, &s.sheet), Lent::new(r, out_len));
        let answer = calls::cut(sheet.is(), k, out.space());
        let told = |e: String| format!("k = {k}: {e}");
        sheet.stays().map_err(told)?;
        let outcome = check::cut_outcome(&self.m, &s.reading, k, out_len);
        if s.reading.is_ok() && outcome == Err(6) {
            self.met.add(if k == 0 { "cut to no task" } else { "cut to more tasks than there are" });
            if out_len < s.sheet.len() {
                self.met.add("cut refused for k with a space too short");
            }
        }
        self.written(r, "cut", out, answer, outcome).map_err(told)
    }

    /// Cut to k and then to fewer: the bytes of the sheet that is cut to those at once.
    fn cut_again(&mut self, cuts: &[Vec<u8>]) -> Result<(), String> {
        for (k, cut) in (1..).zip(cuts) {
            for (j, expected) in (1..=k).zip(cuts) {
                let again = cut_to(cut, j)?;
                if again != *expected {
                    return Err(format!("cut to {k} and then to {j} it is {again:?}, cut to {j} {expected:?}"));
                }
            }
        }
        self.met.add("sheets cut and cut again");
        Ok(())
    }

    /// Lists that the library keeps under a policy that preempts: cut, it keeps them in the cut sheet.
    fn cut_lists(&mut self, r: &mut Rng, t: &Table) -> Result<(), String> {
        let sheet = model::write_sheet(t);
        let cuts = every_cut_of(&sheet, t)?;
        for most in [10, 60, 200] {
            let len = r.below(most);
            let list = kept_front(&sheet, &gen::list(r, &self.m, t, len));
            let state = kept(&sheet, &list).ok_or_else(|| format!("{t:?}: {list:?} is not kept"))?;
            for (k, cut) in (1..).zip(&cuts) {
                let found = kept(cut, &self.m.cut_list(&list, k));
                self.cut_alike(t, k, &state, found).map_err(|e| format!("{t:?}, {list:?} cut to {k}: {e}"))?;
            }
        }
        Ok(())
    }

    /// The state in which a cut list is kept, where the whole is kept in the other: that one cut. Under P-EDF and P-LST a task may have
    /// less work left than that: no job of theirs runs later where others are not there.
    fn cut_alike(&mut self, t: &Table, k: u8, whole: &State, found: Option<State>) -> Result<(), String> {
        let found = found.ok_or("not kept")?;
        let (cut, under) = (self.m.cut_state(whole, k), format!("cut list Kept under policy {}", t.policy));
        let less = found.wait == cut.wait && found.left.iter().zip(&cut.left).all(|(a, b)| a <= b);
        if found != cut && (t.policy == FIXED || self.m.fault == 59 || !less) {
            return Err(format!("it ends in {found:?}, expected {cut:?}"));
        }
        self.met.add(&match () {
            _ if found != cut => format!("{under}, with less work left"),
            _ if whole.left != cut.left => format!("{under}, without work that was left"),
            _ => under,
        });
        Ok(())
    }

    /// Where the library says Safe with N states, it says of every cut Safe with at most N, in the same spaces. That holds under
    /// every policy: a list of the cut is one of the whole that never releases the other tasks.
    fn cut_verdicts(&mut self, s: &Subject, cuts: &[Vec<u8>]) -> Result<(), String> {
        let Some(levels) = s.levels.as_ref().filter(|levels| levels.end == End::Closed) else {
            return Ok(());
        };
        let n = *levels.counts.last().unwrap();
        let (mut work, mut trace) = (vec![0; n * SLOT], vec![0; n]);
        let whole = calls::verdict(&s.sheet, &mut work, &mut trace);
        if whole != packed_verdict(Ok(Verdict::Safe(n))) {
            return Err(format!("answer {whole:#x}, expected {n} states"));
        }
        for (k, cut) in (1..).zip(cuts) {
            let answer = calls::verdict(cut, &mut work, &mut trace);
            let count = (answer & 0xFF_FFFF) as usize;
            let fits = if self.m.fault == 60 { count == n } else { count <= n };
            if answer != packed_verdict(Ok(Verdict::Safe(count))) || !fits {
                return Err(format!("safe with {n} states; cut to {k} it is answered {answer:#x}"));
            }
            let fewer = if count < n { ", with fewer states" } else { "" };
            self.met.add(&s.under(&format!("cut of a safe table{fewer}")));
        }
        Ok(())
    }

    /// Two joined lists: answered as the first where that is not Kept, and else as the model plays the second from the state that
    /// the library left.
    fn joined(&mut self, s: &Subject, first: &[u8], second: &[u8]) -> Result<(), String> {
        let (one, both) = (replayed(&s.sheet, first), replayed(&s.sheet, &[first, second].concat()));
        let play = |state| self.m.play_after(s.reading.as_ref().unwrap(), &state, first.len(), second);
        let played = state_of(one).map(play);
        let expected = match played {
            None => one,
            Some(replay @ (Replay::Kept(last) | Replay::Missed(_, last))) => (packed_replay(Ok(replay)), last.bytes()),
            Some(replay) => (packed_replay(Ok(replay)), UNWRITTEN),
        };
        if both != expected {
            return Err(format!("{first:?} and then {second:?}: {both:x?}, expected {expected:x?}"));
        }
        self.met.add(&s.under(match played {
            Some(Replay::Kept(_)) => "joined lists Kept, Kept",
            Some(Replay::Missed(..)) => "joined lists Kept, Missed",
            Some(Replay::Illegal(_)) => "joined lists Kept, refused 11",
            None if one.0 >> 56 == 2 => "joined lists Missed",
            None if s.reading.is_ok() => "joined lists refused 11",
            None => "joined lists refused with their sheet",
        }));
        Ok(())
    }

    /// Joined lists of one sheet: the first kept, or with a miss or a random byte in it, or empty; the second from its state on.
    fn joined_lists(&mut self, r: &mut Rng, s: &Subject, t: &Table) -> Result<(), String> {
        for _ in 0..4 {
            let (len, more) = (r.below(30), r.below(30));
            let mut first = gen::list(r, &self.m, t, len);
            match r.below(6) {
                0 => {}
                1 => first.push(r.byte()),
                _ => first = kept_front(&s.sheet, &first),
            }
            let state = kept(&s.sheet, &first).unwrap_or_default();
            let mut second = gen::list_from(r, &self.m, t, state, more);
            if r.one_in(3) {
                second.push(r.byte());
            }
            self.joined(s, &first, &second)?;
            self.joined(s, &[], &second)?;
        }
        Ok(())
    }

    /// One sheet cut to every k that is accepted and to others, with spaces round the cut's length; and what holds of its cuts and
    /// lists by the library's own calls.
    pub fn cuts(&mut self, r: &mut Rng, s: &Subject) -> Result<(), String> {
        for k in gen::cuts(r, &s.reading) {
            let len = check::cut_outcome(&self.m, &s.reading, k, LONGEST).map_or(s.sheet.len(), |cut| cut.len());
            let any = r.below(LONGEST + 9);
            for len in [0, len.saturating_sub(1), len, len + 1, any] {
                self.cut(r, s, k, len)?;
            }
        }
        let Ok(t) = &s.reading else {
            return self.joined(s, &[r.byte()], &[r.byte()]);
        };
        let cuts = every_cut_of(&s.sheet, t)?;
        self.cut_again(&cuts)?;
        self.cut_verdicts(s, &cuts)?;
        for policy in [FIXED, r.pick(&[3, 4])] {
            self.cut_lists(r, &Table { policy, ..t.clone() })?;
        }
        self.joined_lists(r, s, t)
    }

    /// For each number of tasks every k, and for those round it every length of the space.
    pub fn every_cut(&mut self, r: &mut Rng) -> Result<(), String> {
        for n in 1..=8 {
            let t = gen::table_of(r, n);
            let s = Subject { sheet: model::write_sheet(&t), reading: Ok(t), levels: None };
            for k in 0..=255 {
                self.cut(r, &s, k, LONGEST)?;
            }
            for (k, len) in (0..=10).flat_map(|k| (0..LONGEST + 9).map(move |len| (k, len))) {
                self.cut(r, &s, k, len)?;
            }
        }
        Ok(())
    }

    /// Every table of three tasks with gaps up to 4, on one core, beside its cut to two of them; and the known lists.
    pub fn parted_lists(&mut self) -> Result<(), String> {
        let tasks = || (1..=4).flat_map(|p| (1..=p).flat_map(move |d| (1..=d).map(move |c| (c, d, p))));
        let mut counts = [[0; 2]; POLICIES as usize];
        for (a, b, c) in tasks().flat_map(|a| tasks().flat_map(move |b| tasks().map(move |c| (a, b, c)))) {
            for (policy, count) in (0..).zip(&mut counts) {
                let [missed, other] = parted(&self.m, &table(policy, 1, &[a, b, c]), 2);
                count[0] += missed.is_some() as usize;
                count[1] += other.is_some() as usize;
            }
        }
        if counts != PARTED_TABLES {
            return Err(format!("{counts:?} tables, expected {PARTED_TABLES:?}"));
        }
        PARTED.iter().try_for_each(|entry| self.parted_list(entry))
    }

    /// One of the known lists, by the model and by the library.
    fn parted_list(&mut self, &(policy, cores, tasks, k, list, missed): &Parted) -> Result<(), String> {
        let t = table(policy, cores, tasks);
        let told = |e: String| format!("{t:?}, {list:?} cut to {k}: {e}");
        let [least_missed, least_other] = parted(&self.m, &t, k);
        let least = if missed { least_missed } else { least_other }.map(|list| list.len());
        if least != Some(list.len()) {
            return Err(told(format!("the shortest has {least:?} ticks")));
        }
        let sheet = model::write_sheet(&t);
        let whole = kept(&sheet, list).ok_or_else(|| told("not kept whole".into()))?;
        let (answer, state) = replayed(&cut_to(&sheet, k)?, &self.m.cut_list(list, k));
        let as_known = match missed {
            true => answer == packed_replay(Ok(Replay::Missed(list.len(), State::default()))),
            false => answer >> 56 == 1 && state != self.m.cut_state(&whole, k).bytes(),
        };
        if !as_known {
            return Err(told(format!("answer {answer:#x}, state {state:?}")));
        }
        self.met.add(&format!("known lists that part whole and cut under policy {policy}"));
        Ok(())
    }
}
