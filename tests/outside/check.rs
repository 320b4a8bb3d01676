//! What a call may leave behind: its answer and every byte that it was lent, by document 01's rules.

use crate::calls::{packed_bytes, packed_kind, packed_replay, packed_verdict};
use crate::layout::Columns;
use crate::model::{Call, Levels, Model, Replay, State, Table, Tick, Totals, Verdict, STATE, TASKS, TOTALS};
use std::collections::HashSet;

/// The spaces of one call of ronchhek_verdict, before and after it, and its answer.
pub struct Searched<'a> {
    pub work_before: &'a [u8],
    pub work_after: &'a [u8],
    pub trace_before: &'a [u8],
    pub trace_after: &'a [u8],
    pub answer: u64,
}

/// The one space of a call of ronchhek_replay, ronchhek_service, ronchhek_read, ronchhek_write, ronchhek_practice or ronchhek_cut, or of
/// a call on a session.
pub struct Called<'a> {
    pub before: &'a [u8],
    pub after: &'a [u8],
    pub answer: u64,
}

fn same(what: &str, before: &[u8], after: &[u8]) -> Result<(), String> {
    if before == after {
        return Ok(());
    }
    let at = before.iter().zip(after).position(|(a, b)| a != b);
    Err(format!("{what} changed, first at byte {at:?} of those that stay"))
}

/// The refusal of a search of this sheet with these spaces, if there is one.
pub fn search_refusal(m: &Model, reading: &Result<Table, u8>, work_len: usize, trace_len: usize) -> Option<u8> {
    let k = m.slots(work_len);
    match reading {
        Err(r) => Some(*r),
        Ok(_) if k == 0 => Some(9),
        Ok(_) if trace_len < k => Some(10),
        Ok(_) => None,
    }
}

/// A call that is to be refused: the number, and both spaces as they were.
pub fn refused(number: u8, c: &Searched) -> Result<(), String> {
    let expected = packed_verdict(Err(number));
    if c.answer != expected {
        return Err(format!("answer {:#x}, expected {expected:#x} (refusal {number})", c.answer));
    }
    same("work", c.work_before, c.work_after)?;
    same("trace", c.trace_before, c.trace_after)
}

/// A call that is to be answered with this verdict. Without `levels` the answer alone is compared, and the
/// written slots are judged by the slot rule.
pub fn answered(m: &Model, t: &Table, v: Verdict, levels: Option<&Levels>, c: &Searched) -> Result<(), String> {
    let expected = packed_verdict(Ok(v));
    if c.answer != expected {
        return Err(format!("answer {:#x}, expected {expected:#x} ({v:?})", c.answer));
    }
    let (count, masks) = match v {
        Verdict::Safe(n) => (n, 0),
        Verdict::Unsafe(l, n) => (n, l),
        Verdict::NoRoom(k) => (k, 0),
    };
    let columns = Columns { k: m.slots(c.work_after.len()) };
    if count > columns.k || masks > c.trace_after.len() {
        return Err(format!("{v:?} is more than the spaces hold"));
    }
    let states = written_slots(m, t, columns, c.work_after, count)?;
    for (what, bytes) in columns.rest(count, c.work_after.len()) {
        same(what, &c.work_before[bytes.clone()], &c.work_after[bytes])?;
    }
    same("trace after the masks", &c.trace_before[masks..], &c.trace_after[masks..])?;
    if let Verdict::Unsafe(l, _) = v {
        let list = &c.trace_after[..l];
        match m.replay(t, list) {
            Replay::Missed(tick, _) if tick == l => {}
            other => return Err(format!("the trace {list:?} replays as {other:?}")),
        }
    }
    // The states are `count` different ones. Under Safe and Unsafe that is as many as the right set has, so
    // each being in the set makes them the set.
    if let Some(levels) = levels {
        let most = match v {
            Verdict::Unsafe(l, _) => l - 1,
            _ => usize::MAX,
        };
        if !matches!(v, Verdict::NoRoom(_)) {
            for (i, s) in states.iter().enumerate() {
                match levels.depth.get(s) {
                    Some(&d) if d <= most => {}
                    found => return Err(format!("slot {i} holds {s:?}, first reached at {found:?}")),
                }
            }
            if levels.depth.len() != count {
                return Err(format!("{count} states of {}", levels.depth.len()));
            }
        }
    }
    Ok(())
}

/// A search of a sheet that reads as this: refused, or answered as its levels say.
pub fn searched(m: &Model, reading: &Result<Table, u8>, levels: Option<&Levels>, c: &Searched) -> Result<(), String> {
    let (w, t) = (c.work_before.len(), c.trace_before.len());
    if let Some(number) = search_refusal(m, reading, w, t) {
        return refused(number, c);
    }
    let v = levels.unwrap().verdict(m.slots(w)).ok_or("a K that the levels do not decide")?;
    answered(m, reading.as_ref().unwrap(), v, levels, c)
}

/// The slot rule: slot 0 is the start state with parent 0 and mask 0, any other slot's parent is an earlier slot
/// whose tick under the mask gives its state; no state twice.
fn written_slots(m: &Model, t: &Table, columns: Columns, work: &[u8], count: usize) -> Result<Vec<State>, String> {
    let mut states: Vec<State> = Vec::with_capacity(count);
    let mut seen = HashSet::with_capacity(count);
    for i in 0..count {
        let slot = columns.slot(work, i);
        let (s, parent, mask) = (slot.state, slot.parent as usize, slot.mask);
        if i == 0 {
            if s != State::default() || parent != 0 || mask != 0 {
                return Err(format!("slot 0 holds {s:?} with parent {parent} and mask {mask}"));
            }
        } else if parent >= i {
            return Err(format!("slot {i} has parent {parent}"));
        } else if m.tick(t, &states[parent], mask) != Tick::Next(s) {
            return Err(format!("slot {i} holds {s:?}, not what slot {parent} gives under mask {mask}"));
        }
        if !seen.insert(s) {
            return Err(format!("slot {i} holds {s:?} again"));
        }
        states.push(s);
    }
    Ok(states)
}

/// A list played on a sheet, or the refusal of the sheet.
pub type Play = Result<(Replay, Totals), u8>;

pub fn play(m: &Model, reading: &Result<Table, u8>, list: &[u8]) -> Play {
    reading.as_ref().map(|t| m.play(t, list)).map_err(|r| *r)
}

/// The outcome of a replay, or its refusal: 12 only where the play has a state to write.
pub fn replay_outcome(m: &Model, play: &Play, state_len: usize) -> Result<Replay, u8> {
    match (*play)?.0 {
        Replay::Illegal(tick) if state_len >= 16 || m.fault != 8 => Ok(Replay::Illegal(tick)),
        _ if state_len < 16 => Err(12),
        played => Ok(played),
    }
}

pub fn replayed(outcome: Result<Replay, u8>, c: &Called) -> Result<(), String> {
    let expected = packed_replay(outcome);
    if c.answer != expected {
        return Err(format!("replay answers {:#x}, expected {expected:#x} ({outcome:?})", c.answer));
    }
    let written = match outcome {
        Ok(Replay::Kept(s)) | Ok(Replay::Missed(_, s)) => {
            if c.after[..16] != s.bytes() {
                return Err(format!("state {:?}, expected {:?}", &c.after[..16], s.bytes()));
            }
            16
        }
        _ => 0,
    };
    same("state", &c.before[written..], &c.after[written..])
}

/// The outcome of a service, as that of a replay, and the bytes that it writes at the front of the totals space.
pub type Service = (Result<Replay, u8>, Vec<u8>);

/// Under an illegal mask the totals are those of the ticks before, and none are written where the space is too short.
pub fn service_outcome(m: &Model, play: &Play, totals_len: usize) -> Service {
    let (played, totals) = match play {
        Ok((played, totals)) => (*played, totals.bytes()),
        Err(r) => return (Err(*r), Vec::new()),
    };
    let short = totals_len < TOTALS;
    match played {
        Replay::Illegal(_) if m.fault == 32 || (short && m.fault != 30) => (Ok(played), Vec::new()),
        _ if short && m.fault == 31 => (Err(12), totals[..totals_len].to_vec()),
        _ if short => (Err(12), Vec::new()),
        _ => (Ok(played), totals),
    }
}

pub fn served((outcome, totals): &Service, c: &Called) -> Result<(), String> {
    let expected = packed_replay(*outcome);
    if c.answer != expected {
        return Err(format!("service answers {:#x}, expected {expected:#x} ({outcome:?})", c.answer));
    }
    if let Some(at) = totals.iter().zip(c.after).position(|(a, b)| a != b) {
        let number = ["releases", "ran", "left"][at / 8 % 3];
        let of = format!("{number} of task {}, byte {}", at / 24 + 1, at % 8);
        return Err(format!("{of}: {}, expected {} ({outcome:?})", c.after[at], totals[at]));
    }
    same("totals", &c.before[totals.len()..], &c.after[totals.len()..])
}

/// The balance of totals that were written: of each task releases * C = ran + left, and all are 0 for tasks that are not there.
fn balanced(t: &Table, totals: &Totals) -> Result<(), String> {
    for i in 0..TASKS {
        let work = t.tasks.get(i).map_or(0, |task| task.work) as u128;
        let (releases, ran, left) = (totals.releases[i] as u128, totals.ran[i] as u128, totals.left[i] as u128);
        if releases * work != ran + left || (work == 0 && releases > 0) {
            return Err(format!("task {}: {releases} releases of {work}, {ran} ran, {left} left", i + 1));
        }
    }
    Ok(())
}

/// A service by the library's own bytes, where the spaces sufficed: its balance, and the answer and the work left of
/// ronchhek_replay on the same list.
pub fn beside(reading: &Result<Table, u8>, served: &Called, replayed: &Called) -> Result<(), String> {
    if served.after.len() < TOTALS {
        return Ok(());
    }
    let totals = Totals::from_bytes(served.after);
    if let Ok(t) = reading {
        balanced(t, &totals)?;
    }
    if replayed.after.len() < STATE {
        return Ok(());
    }
    if served.answer != replayed.answer {
        return Err(format!("service answers {:#x}, replay {:#x}", served.answer, replayed.answer));
    }
    let state = State::from_bytes(replayed.after);
    if served.answer >> 56 != 0 && totals.left != state.left.map(u64::from) {
        return Err(format!("the totals leave {:?}, the replay {:?}", totals.left, state.left));
    }
    Ok(())
}

/// What a call that writes these bytes does with a space: 12 where it is too short for them.
pub fn fitted(bytes: Result<Vec<u8>, u8>, space: usize) -> Result<Vec<u8>, u8> {
    bytes.and_then(|b| if space < b.len() { Err(12) } else { Ok(b) })
}

/// The sheet of a cut, or its refusal: that of the sheet that is cut, then 6, then 12.
pub fn cut_outcome(m: &Model, reading: &Result<Table, u8>, k: u8, space: usize) -> Result<Vec<u8>, u8> {
    if m.fault == 51 && !(1..=TASKS as u8).contains(&k) {
        return Err(6);
    }
    let t = reading.as_ref().map_err(|r| *r)?;
    if m.fault == 54 {
        fitted(m.cut_sheet(t, k.clamp(1, t.tasks.len() as u8)), space)?;
    }
    fitted(m.cut_sheet(t, k), space)
}

/// A call of ronchhek_read, ronchhek_write, ronchhek_practice or ronchhek_cut: the bytes at the front of the space, or the refusal.
pub fn written(outcome: &Result<Vec<u8>, u8>, c: &Called) -> Result<(), String> {
    let expected = packed_bytes(outcome);
    if c.answer != expected {
        return Err(format!("answer {:#x}, expected {expected:#x}", c.answer));
    }
    let bytes = outcome.as_deref().unwrap_or(&[]);
    if c.after[..bytes.len()] != *bytes {
        return Err(format!("wrote {:?}, expected {bytes:?}", &c.after[..bytes.len()]));
    }
    same("the space", &c.before[bytes.len()..], &c.after[bytes.len()..])
}

/// The judgement of a file with a sheet, or its refusal: that of the sheet, then 14.
pub fn closed_outcome(m: &Model, reading: &Result<Table, u8>, file: &[u8]) -> Result<bool, u8> {
    if file.is_empty() && m.fault == 14 {
        return Err(14);
    }
    m.closed(reading.as_ref().map_err(|r| *r)?, file)
}

/// A call of ronchhek_closed, to which nothing is lent.
pub fn judged(outcome: Result<bool, u8>, answer: u64) -> Result<(), String> {
    let expected = packed_kind(outcome);
    if answer != expected {
        return Err(format!("the file is answered {answer:#x}, expected {expected:#x} ({outcome:?})"));
    }
    Ok(())
}

/// The outcome of a call on a session: done or missed, or its refusal; and every byte of the space after it.
pub type SessionOutcome = (Result<bool, u8>, Vec<u8>);

/// The refusals of the sheet come first. A refused call changes no byte.
pub fn session_outcome(m: &Model, reading: &Result<Table, u8>, space: &[u8], call: Call) -> SessionOutcome {
    let called = reading.as_ref().map_err(|r| *r).and_then(|t| m.session_call(t, space, call));
    let mut after = space.to_vec();
    if let Ok((_, session)) = &called {
        m.write_session(session, &mut after);
    }
    (called.map(|(done, _)| done), after)
}

/// A call on a session: its answer, and every byte of the space.
pub fn session_called((outcome, after): &SessionOutcome, c: &Called) -> Result<(), String> {
    let expected = packed_kind(*outcome);
    if c.answer != expected {
        return Err(format!("answer {:#x}, expected {expected:#x} ({outcome:?})", c.answer));
    }
    match after.iter().zip(c.after).position(|(a, b)| a != b) {
        Some(at) => Err(format!("byte {at} is {}, expected {} ({outcome:?})", c.after[at], after[at])),
        None => Ok(()),
    }
}
