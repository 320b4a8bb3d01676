//! Files of states for ronchhek_closed, made from those of a search: in another order, wider, and damaged in one place.

use crate::model::{Model, State, Table, Tick, POLICIES, STATE};
use crate::rng::Rng;
use std::collections::HashSet;

pub struct File {
    pub name: &'static str,
    pub bytes: Vec<u8>,
    /// Whether it is closed, where that is known from how it was made.
    pub closed: Option<bool>,
}

impl File {
    pub fn of(name: &'static str, states: &[State], closed: Option<bool>) -> File {
        File { name, bytes: states.iter().flat_map(State::bytes).collect(), closed }
    }
}

/// What files a full run must have met, each with this answer.
pub const MUST: [(&str, &str); 24] = [
    ("of a Safe search", "accepted"),
    ("shuffled", "accepted"),
    ("with repeated states", "accepted"),
    ("wider than the search", "accepted"),
    ("wider, shuffled, with repeated states", "accepted"),
    ("wider, without one state", "no"),
    ("without one state", "no"),
    ("with one byte changed", "no"),
    ("with a state like one of its own", "no"),
    ("with a state like one of its own", "accepted"),
    ("with an improper state", "no"),
    (IMPROPER[0].1, "no"),
    (IMPROPER[1].1, "no"),
    (IMPROPER[2].1, "no"),
    (IMPROPER[3].1, "no"),
    (IMPROPER[4].1, "no"),
    ("of another policy or number of cores", "no"),
    ("of another policy or number of cores", "accepted"),
    ("of an Unsafe search", "no"),
    ("closed but for a miss", "no"),
    ("of a No room search", "no"),
    ("of random bytes", "no"),
    ("of start states alone", "no"),
    ("of start states alone", "accepted"),
];

pub fn states_of(file: &[u8]) -> Vec<State> {
    file.chunks_exact(STATE).map(State::from_bytes).collect()
}

pub fn shuffled(r: &mut Rng, states: &[State]) -> Vec<State> {
    let mut states = states.to_vec();
    for i in (1..states.len()).rev() {
        states.swap(i, r.below(i + 1));
    }
    states
}

pub fn without_one(r: &mut Rng, states: &[State]) -> Vec<State> {
    let mut states = states.to_vec();
    states.remove(r.below(states.len()));
    states
}

/// With one more, at the front, at the end or somewhere between.
pub fn with(r: &mut Rng, states: &[State], one: State) -> Vec<State> {
    let mut states = states.to_vec();
    let at = match r.below(3) {
        0 => 0,
        1 => states.len(),
        _ => r.below(states.len() + 1),
    };
    states.insert(at, one);
    states
}

/// With some of them a second time.
fn repeated(r: &mut Rng, states: &[State]) -> Vec<State> {
    let mut more = states.to_vec();
    for _ in 0..r.range(1, 4) {
        let again = r.pick(states);
        more = with(r, &more, again);
    }
    more
}

/// One of the states with some of its numbers changed, most of them to one that the task may have.
pub fn alike(r: &mut Rng, t: &Table, states: &[State]) -> State {
    let mut s = r.pick(states);
    for _ in 0..r.range(1, 2) {
        let i = r.below(t.tasks.len());
        let task = t.tasks[i];
        match r.below(8) {
            0..=2 => s.left[i] = r.below(task.work as usize + 1) as u8,
            3..=5 => s.wait[i] = r.below(task.gap as usize + 1) as u8,
            6 => s.left[i] = r.byte(),
            _ => s.wait[i] = r.byte(),
        }
    }
    s
}

/// The ways in which a state is not proper, and what a file is called that is closed but for such states.
#[derive(Clone, Copy)]
pub enum Fault {
    Work,
    Gap,
    Late,
    Beyond,
    Started,
}

pub const IMPROPER: [(Fault, &str); 5] = [
    (Fault::Work, "closed but for more work than C"),
    (Fault::Gap, "closed but for a wait longer than P"),
    (Fault::Late, "closed but for a late job"),
    (Fault::Beyond, "closed but for a task beyond n"),
    (Fault::Started, "closed but for more started jobs than cores"),
];

/// One of the states, made improper in this way and in no other. None where the table has no such state.
pub fn improper(r: &mut Rng, m: &Model, t: &Table, states: &[State], fault: Fault) -> Option<State> {
    let (mut s, n) = (r.pick(states), t.tasks.len());
    let i = r.below(n);
    let task = t.tasks[i];
    match fault {
        Fault::Work if task.work < task.deadline => (s.left[i], s.wait[i]) = (task.work + 1, task.gap),
        Fault::Gap => (s.left[i], s.wait[i]) = (0, task.gap + 1),
        // No time is left, so it is late with any work.
        Fault::Late => (s.left[i], s.wait[i]) = (1, task.gap - task.deadline),
        Fault::Beyond if n < 8 && r.one_in(2) => s.left[r.range(n, 7)] = 1,
        Fault::Beyond if n < 8 => s.wait[r.range(n, 7)] = 1,
        Fault::Started => {
            for i in (0..n).filter(|&i| t.tasks[i].work > 1) {
                let task = t.tasks[i];
                let soonest = (task.gap - task.deadline) as usize + 1;
                (s.left[i], s.wait[i]) = (1, r.range(soonest, task.gap as usize) as u8);
            }
        }
        _ => return None,
    }
    Some(s).filter(|s| !m.proper(t, s))
}

/// One of the states, made improper in some way.
pub fn any_improper(r: &mut Rng, m: &Model, t: &Table, states: &[State]) -> State {
    loop {
        // Every table has states with a wait longer than P.
        let (fault, _) = r.pick(&IMPROPER);
        if let Some(s) = improper(r, m, t, states, fault) {
            return s;
        }
    }
}

/// An improper state from which every legal mask leads, without a miss, to one of these: a late job that ends with this tick.
pub fn improper_inwards(r: &mut Rng, m: &Model, t: &Table, states: &[State]) -> Option<State> {
    let held: HashSet<State> = states.iter().copied().collect();
    (0..60).find_map(|_| improper(r, m, t, states, Fault::Late).filter(|s| m.stays_within(t, &held, s)))
}

/// The states with an improper one and all that this leads to, where nothing else is wrong with them: none misses.
pub fn but_improper(r: &mut Rng, m: &Model, t: &Table, states: &[State], fault: Fault) -> Option<Vec<State>> {
    for _ in 0..4 {
        if let Some(one) = improper(r, m, t, states, fault) {
            if let Some((all, true)) = closure(m, t, &with(r, states, one), 2 * states.len() + 200) {
                return Some(all);
            }
        }
    }
    None
}

/// These states and all that they lead to without a miss, and whether none of them misses. None if there are more than `limit`.
fn closure(m: &Model, t: &Table, states: &[State], limit: usize) -> Option<(Vec<State>, bool)> {
    let mut held: HashSet<State> = states.iter().copied().collect();
    let mut all = states.to_vec();
    let (mut i, mut kept) = (0, true);
    while i < all.len() {
        for mask in 0..=255 {
            match m.tick(t, &all[i], mask) {
                Tick::Next(next) if held.insert(next) => all.push(next),
                Tick::Missed(_) => kept = false,
                _ => {}
            }
        }
        if all.len() > limit {
            return None;
        }
        i += 1;
    }
    Some((all, kept))
}

/// A closed list that also holds proper states which no release list reaches.
fn wider(r: &mut Rng, m: &Model, t: &Table, states: &[State]) -> Option<Vec<State>> {
    let held: HashSet<State> = states.iter().copied().collect();
    for _ in 0..6 {
        let one = alike(r, t, states);
        if m.proper(t, &one) && !held.contains(&one) {
            if let Some((all, true)) = closure(m, t, &with(r, states, one), states.len() + 200) {
                return Some(all);
            }
        }
    }
    None
}

/// The file of a Safe search, what is closed with it, and what is damaged in one place.
pub fn of_safe(r: &mut Rng, m: &Model, t: &Table, states: &[State]) -> Vec<File> {
    let mut made = vec![
        File::of("of a Safe search", states, Some(true)),
        File::of("shuffled", &shuffled(r, states), Some(true)),
        File::of("with repeated states", &repeated(r, states), Some(true)),
    ];
    if states.len() > 1 {
        made.push(File::of("without one state", &without_one(r, states), Some(false)));
    }
    let mut one = File::of("with one byte changed", states, Some(false));
    let at = r.below(one.bytes.len());
    one.bytes[at] ^= 1 << r.below(8);
    made.push(one);
    let other = alike(r, t, states);
    made.push(File::of("with a state like one of its own", &with(r, states, other), None));
    for (fault, name) in IMPROPER {
        if let Some(one) = improper(r, m, t, states, fault) {
            made.push(File::of("with an improper state", &with(r, states, one), Some(false)));
        }
        if let Some(all) = but_improper(r, m, t, states, fault) {
            made.push(File::of(name, &shuffled(r, &all), Some(false)));
        }
    }
    if let Some(wide) = wider(r, m, t, states) {
        let mixed = repeated(r, &wide);
        let mixed = shuffled(r, &mixed);
        made.push(File::of("wider than the search", &wide, Some(true)));
        made.push(File::of("wider, shuffled, with repeated states", &mixed, Some(true)));
        made.push(File::of("wider, without one state", &without_one(r, &wide), None));
    }
    made
}

/// The file of an Unsafe search, and all states that lists reach without a miss: from some of these there is one.
pub fn of_unsafe(r: &mut Rng, m: &Model, t: &Table, states: &[State]) -> Vec<File> {
    let mut made = vec![File::of("of an Unsafe search", states, Some(false))];
    if let Some((all, _)) = closure(m, t, states, 2000) {
        made.push(File::of("closed but for a miss", &shuffled(r, &all), Some(false)));
    }
    made
}

/// These states, each at least once, and repeats of them: n in all.
pub fn many(r: &mut Rng, states: &[State], n: usize) -> Vec<State> {
    let mut all = states.to_vec();
    all.extend((states.len()..n).map(|_| r.pick(states)));
    shuffled(r, &all)
}

/// Whole states of random bytes, half of them with the start state among them.
pub fn random(r: &mut Rng) -> File {
    let n = r.range(1, 20);
    let mut file = File { name: "of random bytes", bytes: vec![0; n * STATE], closed: None };
    r.fill(&mut file.bytes);
    if r.one_in(2) {
        let at = r.below(n) * STATE;
        file.bytes[at..at + STATE].fill(0);
    }
    file
}

/// A file cut or lengthened to what is no whole number of states.
pub fn ragged(r: &mut Rng, bytes: &[u8]) -> File {
    let part = r.range(1, STATE - 1);
    let len = match r.below(3) {
        0 => part,
        1 => bytes.len() / STATE * STATE + part,
        _ => bytes.len().max(STATE) / STATE * STATE - part,
    };
    let mut file = File { name: "that is ragged", bytes: bytes.to_vec(), closed: None };
    file.bytes.resize(len, 0);
    file
}

/// The start state alone, some times; the empty file; random bytes; and one that is no whole number of states.
pub fn others(r: &mut Rng, states: &[State]) -> Vec<File> {
    let zeros = vec![State::default(); r.range(1, 3)];
    let own = File::of("that is ragged", states, None);
    vec![
        File::of("of start states alone", &zeros, None),
        File::of("that is empty", &[], None),
        random(r),
        ragged(r, &own.bytes),
    ]
}

/// A table that differs in one number, or in none.
pub fn another(r: &mut Rng, t: &Table) -> Table {
    let mut t = t.clone();
    if r.one_in(2) {
        t.policy = r.below(POLICIES as usize) as u8;
    } else {
        t.cores = r.range(1, 8) as u8;
    }
    t
}
