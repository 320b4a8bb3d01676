//! The calls of include/ronchhek.h, as safe functions, and their packed answers.

use crate::model::{Call, Practice, Replay, Verdict};

extern "C" {
    fn ronchhek_verdict(
        sheet: *const u8,
        sheet_len: usize,
        work: *mut u8,
        work_len: usize,
        trace: *mut u8,
        trace_len: usize,
    ) -> u64;
    fn ronchhek_replay(
        sheet: *const u8,
        sheet_len: usize,
        list: *const u8,
        list_len: usize,
        state: *mut u8,
        state_len: usize,
    ) -> u64;
    fn ronchhek_service(
        sheet: *const u8,
        sheet_len: usize,
        list: *const u8,
        list_len: usize,
        totals: *mut u8,
        totals_len: usize,
    ) -> u64;
    fn ronchhek_read(sheet: *const u8, sheet_len: usize, table: *mut u8, table_len: usize) -> u64;
    fn ronchhek_write(table: *const u8, table_len: usize, out: *mut u8, out_len: usize) -> u64;
    fn ronchhek_closed(sheet: *const u8, sheet_len: usize, states: *const u8, states_len: usize) -> u64;
    fn ronchhek_practice(policy: u8, m: u8, n: u8, seed: u16, out: *mut u8, out_len: usize) -> u64;
    fn ronchhek_cut(sheet: *const u8, sheet_len: usize, k: u8, out: *mut u8, out_len: usize) -> u64;
    fn ronchhek_session_step(sheet: *const u8, sheet_len: usize, session: *mut u8, session_len: usize, mask: u8)
        -> u64;
    fn ronchhek_session_mark(sheet: *const u8, sheet_len: usize, session: *mut u8, session_len: usize, mark: u8)
        -> u64;
    fn ronchhek_session_return(
        sheet: *const u8,
        sheet_len: usize,
        session: *mut u8,
        session_len: usize,
        mark: u8,
    ) -> u64;
}

/// The call takes any bytes and any lengths, so there is nothing to test before it.
pub fn verdict(sheet: &[u8], work: &mut [u8], trace: &mut [u8]) -> u64 {
    let (w, t) = (work.len(), trace.len());
    unsafe { ronchhek_verdict(sheet.as_ptr(), sheet.len(), work.as_mut_ptr(), w, trace.as_mut_ptr(), t) }
}

pub fn replay(sheet: &[u8], list: &[u8], state: &mut [u8]) -> u64 {
    let n = state.len();
    unsafe { ronchhek_replay(sheet.as_ptr(), sheet.len(), list.as_ptr(), list.len(), state.as_mut_ptr(), n) }
}

pub fn service(sheet: &[u8], list: &[u8], totals: &mut [u8]) -> u64 {
    let n = totals.len();
    unsafe { ronchhek_service(sheet.as_ptr(), sheet.len(), list.as_ptr(), list.len(), totals.as_mut_ptr(), n) }
}

pub fn read(sheet: &[u8], table: &mut [u8]) -> u64 {
    let n = table.len();
    unsafe { ronchhek_read(sheet.as_ptr(), sheet.len(), table.as_mut_ptr(), n) }
}

pub fn write(table: &[u8], out: &mut [u8]) -> u64 {
    let n = out.len();
    unsafe { ronchhek_write(table.as_ptr(), table.len(), out.as_mut_ptr(), n) }
}

pub fn closed(sheet: &[u8], file: &[u8]) -> u64 {
    unsafe { ronchhek_closed(sheet.as_ptr(), sheet.len(), file.as_ptr(), file.len()) }
}

pub fn practice(given: Practice, out: &mut [u8]) -> u64 {
    let Practice { policy, cores, tasks, seed } = given;
    unsafe { ronchhek_practice(policy, cores, tasks, seed, out.as_mut_ptr(), out.len()) }
}

pub fn cut(sheet: &[u8], k: u8, out: &mut [u8]) -> u64 {
    unsafe { ronchhek_cut(sheet.as_ptr(), sheet.len(), k, out.as_mut_ptr(), out.len()) }
}

/// One of the three calls on a session.
pub fn session(sheet: &[u8], session: &mut [u8], call: Call) -> u64 {
    let (s, n) = (session.as_mut_ptr(), session.len());
    unsafe {
        match call {
            Call::Step(mask) => ronchhek_session_step(sheet.as_ptr(), sheet.len(), s, n, mask),
            Call::Mark(mark) => ronchhek_session_mark(sheet.as_ptr(), sheet.len(), s, n, mark),
            Call::Return(mark) => ronchhek_session_return(sheet.as_ptr(), sheet.len(), s, n, mark),
        }
    }
}

/// kind * 2^48 + N, where N bytes are written.
pub fn packed_bytes(written: &Result<Vec<u8>, u8>) -> u64 {
    match written {
        Ok(bytes) => (1 << 48) + bytes.len() as u64,
        Err(r) => *r as u64,
    }
}

/// kind * 2^48 + N, where N is the refusal or 0: a file accepted or not, a call on a session done or missed.
pub fn packed_kind(outcome: Result<bool, u8>) -> u64 {
    match outcome {
        Ok(true) => 1 << 48,
        Ok(false) => 2 << 48,
        Err(r) => r as u64,
    }
}

/// kind * 2^48 + L * 2^24 + N.
pub fn packed_verdict(v: Result<Verdict, u8>) -> u64 {
    let pack = |kind: u64, l: usize, n: usize| (kind << 48) + ((l as u64) << 24) + n as u64;
    match v {
        Ok(Verdict::Safe(n)) => pack(1, 0, n),
        Ok(Verdict::Unsafe(l, n)) => pack(2, l, n),
        Ok(Verdict::NoRoom(k)) => pack(3, 0, k),
        Err(r) => pack(0, 0, r as usize),
    }
}

/// kind * 2^56 + number * 2^48 + tick, of ronchhek_replay and of ronchhek_service.
pub fn packed_replay(r: Result<Replay, u8>) -> u64 {
    let pack = |kind: u64, number: u8, tick: usize| (kind << 56) + ((number as u64) << 48) + tick as u64;
    match r {
        Ok(Replay::Kept(_)) => pack(1, 0, 0),
        Ok(Replay::Missed(tick, _)) => pack(2, 0, tick),
        Ok(Replay::Illegal(tick)) => pack(0, 11, tick),
        Err(r) => pack(0, r, 0),
    }
}
