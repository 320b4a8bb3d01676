//! Generated sheets and tables, valid and damaged; what practice tables are made of; what sheets are cut to; release lists; and
//! sessions with calls on them.

use crate::files;
use crate::model::{self, Call, Model, Practice, Session, State, Table, Task, Tick, MARKS, POLICIES, SESSION};
use crate::rng::Rng;

/// Numbers at and beside the limits of a sheet's fields.
const EDGES: [u32; 19] = [0, 1, 2, 3, 4, 5, 7, 8, 9, 126, 127, 128, 129, 199, 200, 201, 256, 257, 16383];

fn task(r: &mut Rng, gap: usize, most_work: usize) -> Task {
    let work = r.range(1, gap.min(most_work));
    let deadline = match r.below(4) {
        0 => gap,
        1 => work,
        _ => r.range(work, gap),
    };
    Task { work: work as u8, deadline: deadline as u8, gap: gap as u8 }
}

fn with_gaps(r: &mut Rng, n: usize, least: usize, most: usize, most_work: usize) -> Vec<Task> {
    (0..n)
        .map(|_| {
            let gap = r.range(least, most);
            task(r, gap, most_work)
        })
        .collect()
}

/// About as much work as the cores can do, in tasks with short gaps and most deadlines at the gap: jobs of different ages often
/// have the same time left, or the same slack.
fn crowded_table(r: &mut Rng) -> Table {
    let n = r.range(3, 4);
    let mut tasks = with_gaps(r, n, 2, 5, 3);
    for task in &mut tasks {
        if r.one_in(2) {
            task.deadline = task.gap;
        }
    }
    let sixtieths: usize = tasks.iter().map(|t| 60 * t.work as usize / t.gap as usize).sum();
    let cores = ((sixtieths + 30) / 60).max(1) as u8;
    Table { policy: policy(r), cores, tasks }
}

/// A valid table of this policy.
pub fn table_under(r: &mut Rng, policy: u8) -> Table {
    Table { policy, ..table(r) }
}

/// A valid table. Most have at most some hundreds of states; some have more than any search here looks at.
pub fn table(r: &mut Rng) -> Table {
    if r.one_in(5) {
        return crowded_table(r);
    }
    let tasks = match r.below(100) {
        0..=29 => {
            let n = r.range(1, 3);
            with_gaps(r, n, 1, 6, 3)
        }
        30..=39 => {
            let n = r.range(2, 3);
            with_gaps(r, n, 3, 9, 2)
        }
        40..=54 => with_gaps(r, 2, 1, 24, 6),
        55..=64 => {
            let n = r.range(4, 8);
            with_gaps(r, n, 1, 3, 1)
        }
        65..=77 => {
            let n = r.range(3, 5);
            with_gaps(r, n, 2, 4, 4)
        }
        78..=85 => with_gaps(r, 1, 1, 200, 200),
        86..=93 => {
            let mut tasks = with_gaps(r, 1, 100, 200, 20);
            tasks.extend(with_gaps(r, 1, 1, 3, 2));
            if r.one_in(2) {
                tasks.reverse();
            }
            tasks
        }
        _ => {
            let n = r.range(1, 8);
            let work = r.range(1, 200);
            with_gaps(r, n, 1, 200, work)
        }
    };
    with_policy(r, tasks)
}

/// Two tasks with large gaps: some thousands to 40,000 states.
pub fn large_table(r: &mut Rng) -> Table {
    let tasks = with_gaps(r, 2, 60, 200, 12);
    with_policy(r, tasks)
}

/// A table of n tasks, its numbers as large as they may be.
pub fn table_of(r: &mut Rng, n: usize) -> Table {
    let tasks = with_gaps(r, n, 1, 200, 200);
    with_policy(r, tasks)
}

/// A table for the brute force.
pub fn tiny_table(r: &mut Rng) -> Table {
    let n = r.range(1, 3);
    let tasks = with_gaps(r, n, 1, 4, 3);
    with_policy(r, tasks)
}

fn policy(r: &mut Rng) -> u8 {
    r.below(POLICIES as usize) as u8
}

fn with_policy(r: &mut Rng, tasks: Vec<Task>) -> Table {
    let cores = match r.below(9) {
        0..=3 => 1,
        4..=5 => 2,
        6 => r.range(1, tasks.len()),
        7 => tasks.len().max(2) - 1,
        _ => r.range(1, 8),
    };
    Table { policy: policy(r), cores: cores as u8, tasks }
}

/// One change of a sheet's bytes.
fn damage(r: &mut Rng, sheet: &mut Vec<u8>) {
    let at = r.below(sheet.len() + 1);
    let within = at < sheet.len();
    match r.below(7) {
        0 if within => sheet[at] ^= 1 << r.below(8),
        1 if within => sheet[at] = r.byte(),
        2 if within => {
            sheet.remove(at);
        }
        3 if within => sheet.truncate(at),
        4 if within => sheet[at] |= 128,
        5 => {
            let b = r.pick(&[0, 1, 127, 128, 129, 255]);
            sheet.insert(at, b);
        }
        _ => sheet.push(r.byte()),
    }
}

/// The least number that is too high for a place among a sheet's numbers.
fn too_high(at: usize) -> u32 {
    [4, POLICIES as u32, 9, 9].get(at).copied().unwrap_or(201)
}

/// A sheet with some of its numbers replaced.
fn odd_numbers(r: &mut Rng, t: &Table, changes: usize) -> Vec<u8> {
    let mut v = model::numbers(t);
    for _ in 0..changes {
        let at = if r.one_in(2) { r.below(4) } else { r.below(v.len()) };
        v[at] = match r.below(5) {
            0 => (v[at] + 1).min(16383),
            1 => v[at].saturating_sub(1),
            2 => too_high(at),
            3 => r.pick(&EDGES),
            _ => r.below(300) as u32,
        };
    }
    let mut out = Vec::new();
    for x in v {
        model::push_number(&mut out, x);
    }
    out
}

/// The bytes of a table (27 where it is one): half of them valid, the others with some bytes changed, or of another length.
pub fn table_bytes(r: &mut Rng, valid: Vec<u8>) -> Vec<u8> {
    let mut bytes = valid;
    match r.below(8) {
        0..=3 => {}
        4..=5 => {
            for _ in 0..r.range(1, 3) {
                let at = if r.one_in(3) { r.below(3) } else { r.below(bytes.len()) };
                bytes[at] = match r.below(4) {
                    0 => bytes[at].wrapping_add(1),
                    1 => bytes[at].wrapping_sub(1),
                    2 => r.pick(&[0, 1, 4, 5, 8, 9, 127, 128, 200, 201, 255]),
                    _ => r.byte(),
                };
            }
        }
        6 => bytes.resize(r.below(41), 0),
        _ => {
            bytes.resize(r.below(41), 0);
            r.fill(&mut bytes);
        }
    }
    bytes
}

/// What a practice table is made of: each byte mostly as it may be, else beside that or any.
pub fn practice(r: &mut Rng) -> Practice {
    let byte = |r: &mut Rng, least: u8, most: u8| match r.below(12) {
        0 => r.pick(&[0, most + 1, 255]),
        1 => r.byte(),
        _ => r.range(least as usize, most as usize) as u8,
    };
    Practice { policy: byte(r, 0, POLICIES - 1), cores: byte(r, 1, 8), tasks: byte(r, 1, 8), seed: r.next() as u16 }
}

/// What a sheet may be cut to: every k that is accepted, and others.
pub fn cuts(r: &mut Rng, reading: &Result<Table, u8>) -> Vec<u8> {
    let n = reading.as_ref().map_or(1, |t| t.tasks.len() as u8);
    let mut ks: Vec<u8> = (0..=n + 1).chain([8, 9, 255, r.byte()]).collect();
    ks.sort();
    ks.dedup();
    ks
}

/// A sheet: half of them valid, the others damaged in one place, in several, or random bytes.
pub fn sheet(r: &mut Rng) -> Vec<u8> {
    let t = table(r);
    let mut sheet = model::write_sheet(&t);
    match r.below(20) {
        0..=9 => {}
        10..=12 => damage(r, &mut sheet),
        13..=15 => sheet = odd_numbers(r, &t, 1),
        16..=17 => {
            for _ in 0..r.range(2, 5) {
                damage(r, &mut sheet);
            }
        }
        18 => {
            let changes = r.range(2, 4);
            sheet = odd_numbers(r, &t, changes);
            damage(r, &mut sheet);
        }
        _ => {
            let n = r.below(64);
            sheet = vec![0; n];
            r.fill(&mut sheet);
            if n > 3 && r.one_in(2) {
                sheet[..3].copy_from_slice(&[3, 1, 2]);
            }
        }
    }
    sheet
}

/// The release of about two in three of the tasks that may be released.
pub fn legal_mask(r: &mut Rng, t: &Table, s: &State) -> u8 {
    let mut mask = 0;
    for i in 0..t.tasks.len() {
        if s.wait[i] == 0 && !r.one_in(3) {
            mask |= 1 << i;
        }
    }
    mask
}

/// Legal masks while nothing is missed, then any bytes.
pub fn list(r: &mut Rng, m: &Model, t: &Table, len: usize) -> Vec<u8> {
    list_from(r, m, t, State::default(), len)
}

/// The same from a proper state.
pub fn list_from(r: &mut Rng, m: &Model, t: &Table, mut s: State, len: usize) -> Vec<u8> {
    let mut list = Vec::with_capacity(len);
    let mut over = false;
    for _ in 0..len {
        if over {
            list.push(r.byte());
            continue;
        }
        let mask = legal_mask(r, t, &s);
        list.push(mask);
        match m.tick(t, &s, mask) {
            Tick::Next(next) => s = next,
            _ => over = true,
        }
    }
    list
}

/// Legal masks without a miss, on any table, and the state that they lead to: a mask is taken where the jobs are done in time when
/// nothing more is released.
pub fn kept_list(r: &mut Rng, m: &Model, t: &Table, len: usize) -> (Vec<u8>, State) {
    let mut list = Vec::with_capacity(len);
    let mut s = State::default();
    for _ in 0..len {
        let masks = [legal_mask(r, t, &s), legal_mask(r, t, &s), 0];
        let taken = masks.into_iter().find_map(|mask| match m.tick(t, &s, mask) {
            Tick::Next(next) if ends_in_time(m, t, next) => Some((mask, next)),
            _ => None,
        });
        let (mask, next) = taken.expect("the jobs of the state before are done in time");
        list.push(mask);
        s = next;
    }
    (list, s)
}

/// Whether every job of a state is done in time when nothing more is released.
fn ends_in_time(m: &Model, t: &Table, mut s: State) -> bool {
    while s.left.iter().any(|&c| c > 0) {
        match m.tick(t, &s, 0) {
            Tick::Next(next) => s = next,
            _ => return false,
        }
    }
    true
}

/// The states that legal masks lead to without a miss, one after the other, from the start state on.
pub fn walk(r: &mut Rng, m: &Model, t: &Table, ticks: usize) -> Vec<State> {
    let mut states = vec![State::default()];
    for _ in 0..ticks {
        let s = states[states.len() - 1];
        let masks = [legal_mask(r, t, &s), legal_mask(r, t, &s), 0];
        states.extend(masks.into_iter().find_map(|mask| match m.tick(t, &s, mask) {
            Tick::Next(next) => Some(next),
            _ => None,
        }));
    }
    states
}

/// Any of these states as the present one and under any marks.
fn session_of(r: &mut Rng, states: &[State]) -> Session {
    let present = r.pick(states);
    Session { present, marks: std::array::from_fn(|_| r.one_in(2).then(|| r.pick(states))) }
}

/// The bytes of a session, often with some after them. Those of a mark that is not set are any.
pub fn session_bytes(r: &mut Rng, m: &Model, s: &Session) -> Vec<u8> {
    let more = r.below(100);
    let mut bytes = vec![0; SESSION + r.pick(&[0, 0, 1, more])];
    r.fill(&mut bytes);
    m.write_session(s, &mut bytes);
    bytes
}

/// A session of these states.
pub fn session(r: &mut Rng, m: &Model, states: &[State]) -> Vec<u8> {
    let s = session_of(r, states);
    session_bytes(r, m, &s)
}

/// A session of these states with one of them improper, or with states like them, many of which are; sometimes too short.
pub fn damaged_session(r: &mut Rng, m: &Model, t: &Table, states: &[State]) -> Vec<u8> {
    let mut s = session_of(r, states);
    match r.below(3) {
        0 => s.present = files::any_improper(r, m, t, states),
        1 => s.marks[r.below(MARKS)] = Some(files::any_improper(r, m, t, states)),
        _ => {
            s.present = files::alike(r, t, states);
            s.marks = s.marks.map(|mark| mark.map(|_| files::alike(r, t, states)));
        }
    }
    let mut bytes = session_bytes(r, m, &s);
    if r.one_in(4) {
        bytes.truncate(short_session(r));
    }
    bytes
}

/// A length that is too short for a session.
fn short_session(r: &mut Rng) -> usize {
    let any = r.below(SESSION);
    r.pick(&[0, 1, SESSION - 1, any])
}

/// Random bytes in place of a session, of any length round that of one.
pub fn random_session(r: &mut Rng) -> Vec<u8> {
    let (short, more) = (short_session(r), r.below(100));
    let mut bytes = vec![0; r.pick(&[short, SESSION, SESSION + 1, SESSION + more])];
    r.fill(&mut bytes);
    bytes
}

/// A legal mask that misses, where there is one.
fn missing_mask(r: &mut Rng, m: &Model, t: &Table, s: &State) -> u8 {
    let first = r.byte();
    let misses = |mask: &u8| matches!(m.tick(t, s, *mask), Tick::Missed(_));
    (0..=255).map(|i| first.wrapping_add(i)).find(misses).unwrap_or_else(|| legal_mask(r, t, s))
}

/// A call on the session of these bytes: mostly a step, with a legal mask or one that misses, else any call.
pub fn call(r: &mut Rng, m: &Model, reading: &Result<Table, u8>, session: &[u8]) -> Call {
    match reading {
        Ok(t) if session.len() >= SESSION => {
            let present = m.read_session(session).present;
            match r.below(12) {
                0..=4 => Call::Step(legal_mask(r, t, &present)),
                5 => Call::Step(missing_mask(r, m, t, &present)),
                _ => any_call(r),
            }
        }
        _ => any_call(r),
    }
}

/// A call with a random mask, or with a mark: most are 1 to 8, and often the same three.
fn any_call(r: &mut Rng) -> Call {
    let mark = match r.below(12) {
        0 => r.pick(&[0, 9, 255]),
        1 => r.byte(),
        2..=6 => r.range(1, 3) as u8,
        _ => r.range(1, 8) as u8,
    };
    match r.below(6) {
        0 => Call::Step(r.byte()),
        1 => Call::Step(1 << r.below(8)),
        2..=3 => Call::Mark(mark),
        _ => Call::Return(mark),
    }
}
