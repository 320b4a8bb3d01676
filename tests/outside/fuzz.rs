//! Fuzz driver: the calls on random sheets, lists, tables, files, numbers, sessions and sizes of spaces, with pages that fault on any
//! access on both sides of every space. The input stands in pages that fault on a write.
//!
//!     fuzz [--seconds S] [--seed S] [--from I] [--cases N]
//!
//! Prints its seed. A fault prints the number of its case, which `--seed S --from I --cases 1` runs again.
//! Every outcome is judged by the rules of check.rs.

mod calls;
#[allow(dead_code)]
mod check;
#[allow(dead_code)]
mod files;
#[allow(dead_code)]
mod gen;
#[allow(dead_code)]
mod layout;
#[allow(dead_code)]
mod model;
mod rng;

use check::{Called, Searched};
use layout::SLOT;
use model::{Model, Table, Verdict, LONGEST, SESSION, STATE, TABLE, TOTALS};
use rng::Rng;
use std::io::Write;
use std::sync::atomic::{AtomicU64, Ordering};
use std::time::{Duration, Instant};

const PAGE: usize = 4096;
const NONE: i32 = 0;
const READ: i32 = 1;
const READ_WRITE: i32 = 3;

extern "C" {
    fn mmap(at: *mut u8, len: usize, access: i32, flags: i32, file: i32, offset: i64) -> *mut u8;
    fn mprotect(at: *mut u8, len: usize, access: i32) -> i32;
    fn signal(number: i32, handler: extern "C" fn(i32)) -> usize;
    fn write(file: i32, bytes: *const u8, len: usize) -> isize;
    fn _exit(status: i32) -> !;
}

static SEED: AtomicU64 = AtomicU64::new(0);
static CASE: AtomicU64 = AtomicU64::new(0);

/// Says which case faulted, with nothing but calls that a signal handler may make.
extern "C" fn on_fault(number: i32) {
    let say = |text: &[u8]| unsafe {
        write(2, text.as_ptr(), text.len());
    };
    let number_of = |name: &[u8], mut x: u64| {
        let mut digits = [0u8; 20];
        let mut at = digits.len();
        loop {
            at -= 1;
            digits[at] = b'0' + (x % 10) as u8;
            x /= 10;
            if x == 0 {
                break;
            }
        }
        say(name);
        say(&digits[at..]);
    };
    number_of(b"fuzz: FAILED with signal ", number as u64);
    number_of(b": --seed ", SEED.load(Ordering::Relaxed));
    number_of(b" --from ", CASE.load(Ordering::Relaxed));
    say(b" --cases 1\n");
    unsafe { _exit(1) }
}

/// Pages between two that fault on any access.
struct Fenced {
    first: *mut u8,
    size: usize,
}

/// Part of the pages, at their front or at their end.
struct Part {
    at: usize,
    len: usize,
}

impl Fenced {
    fn new(size: usize) -> Fenced {
        let size = size.div_ceil(PAGE) * PAGE;
        let private_anonymous_unreserved = 0x02 | 0x20 | 0x4000;
        unsafe {
            let base = mmap(std::ptr::null_mut(), size + 2 * PAGE, NONE, private_anonymous_unreserved, -1, 0);
            assert!(base as isize != -1, "no memory");
            let first = base.add(PAGE);
            assert!(mprotect(first, size, READ_WRITE) == 0);
            Fenced { first, size }
        }
    }

    fn access(&self, access: i32) {
        assert!(unsafe { mprotect(self.first, self.size, access) } == 0);
    }

    fn part(&self, r: &mut Rng, len: usize) -> Part {
        assert!(len <= self.size);
        Part { at: if r.one_in(2) { 0 } else { self.size - len }, len }
    }

    #[allow(clippy::mut_from_ref)]
    fn bytes(&self, p: &Part) -> &mut [u8] {
        assert!(p.at + p.len <= self.size);
        unsafe { std::slice::from_raw_parts_mut(self.first.add(p.at), p.len) }
    }

    /// The bytes beside the part, up to a page of them.
    fn beside(&self, p: &Part) -> &mut [u8] {
        let rest = (self.size - p.len).min(PAGE);
        let at = if p.at == 0 { p.len } else { p.at - rest };
        self.bytes(&Part { at, len: rest })
    }
}

struct Spaces {
    input: Fenced,
    list: Fenced,
    state: Fenced,
    totals: Fenced,
    work: Fenced,
    trace: Fenced,
    file: Fenced,
}

impl Spaces {
    fn of(work: usize, trace: usize) -> Spaces {
        Spaces {
            input: Fenced::new(PAGE),
            list: Fenced::new(PAGE),
            state: Fenced::new(PAGE),
            totals: Fenced::new(PAGE),
            work: Fenced::new(work),
            trace: Fenced::new(trace),
            file: Fenced::new(work / SLOT * STATE + 100),
        }
    }
}

/// A lent part, with a pattern in the bytes beside it.
fn lend_part(r: &mut Rng, pages: &Fenced, len: usize) -> Part {
    let part = pages.part(r, len);
    pages.beside(&part).fill(0xA5);
    part
}

/// A lent part filled with random bytes.
fn lend(r: &mut Rng, pages: &Fenced, len: usize) -> (Part, Vec<u8>) {
    let part = lend_part(r, pages, len);
    r.fill(pages.bytes(&part));
    let before = pages.bytes(&part).to_vec();
    (part, before)
}

fn beside_stays(pages: &Fenced, part: &Part) -> Result<(), String> {
    if pages.beside(part).iter().any(|&b| b != 0xA5) {
        return Err("a byte outside a lent space changed".into());
    }
    Ok(())
}

fn put(r: &mut Rng, pages: &Fenced, bytes: &[u8]) -> Part {
    pages.access(READ_WRITE);
    let part = pages.part(r, bytes.len());
    pages.bytes(&part).copy_from_slice(bytes);
    pages.access(READ);
    part
}

/// What the answer says, where it says something that can be.
fn verdict_of(answer: u64) -> Option<Verdict> {
    let (l, n) = ((answer >> 24 & 0xFF_FFFF) as usize, (answer & 0xFF_FFFF) as usize);
    match answer >> 48 {
        1 if l == 0 => Some(Verdict::Safe(n)),
        2 if l > 0 => Some(Verdict::Unsafe(l, n)),
        3 if l == 0 => Some(Verdict::NoRoom(n)),
        _ => None,
    }
}

/// A call that is lent one part of some pages and writes these bytes there, judged.
fn written(
    r: &mut Rng,
    pages: &Fenced,
    len: usize,
    bytes: Result<Vec<u8>, u8>,
    call: impl Fn(&mut [u8]) -> u64,
) -> Result<(), String> {
    let (lent, before) = lend(r, pages, len);
    let answer = call(pages.bytes(&lent));
    let told = |e: String| format!("space of {len}, answer {answer:#x}: {e}");
    beside_stays(pages, &lent).map_err(told)?;
    let called = Called { before: &before, after: pages.bytes(&lent), answer };
    check::written(&check::fitted(bytes, len), &called).map_err(told)
}

/// Lengths of a space round the one that suffices, and any.
fn length(r: &mut Rng, full: usize) -> usize {
    let any = r.below(PAGE + 1);
    r.pick(&[0, full - 1, full, full, full + 1, 60, any])
}

/// The sheet read, and a table written, which stands in the page of the list.
fn exchange(r: &mut Rng, m: &Model, spaces: &Spaces, sheet: &[u8], reading: &Result<Table, u8>) -> Result<(), String> {
    let bytes = reading.as_ref().map(|t| m.table_bytes(t)).map_err(|n| *n);
    let table = gen::table_bytes(r, bytes.clone().unwrap_or(vec![0; TABLE]));
    let (input, len) = (put(r, &spaces.input, sheet), length(r, TABLE));
    written(r, &spaces.state, len, bytes, |space| calls::read(spaces.input.bytes(&input), space))
        .map_err(|e| format!("sheet {sheet:?} read: {e}"))?;
    let bytes = m.sheet_of_table(&table);
    let full = bytes.as_ref().map_or(30, Vec::len);
    let (input, len) = (put(r, &spaces.list, &table), length(r, full));
    written(r, &spaces.state, len, bytes, |space| calls::write(spaces.list.bytes(&input), space))
        .map_err(|e| format!("table {table:?} written: {e}"))
}

/// A practice sheet made.
fn practice(r: &mut Rng, m: &Model, spaces: &Spaces) -> Result<(), String> {
    let given = gen::practice(r);
    let bytes = m.practice(given).map(|t| model::write_sheet(&t));
    let len = length(r, bytes.as_ref().map_or(LONGEST, Vec::len));
    written(r, &spaces.state, len, bytes, |space| calls::practice(given, space)).map_err(|e| format!("{given:?}: {e}"))
}

/// The sheet cut, to a k that is accepted or to another.
fn cut(r: &mut Rng, m: &Model, spaces: &Spaces, sheet: &[u8], reading: &Result<Table, u8>) -> Result<(), String> {
    let ks = gen::cuts(r, reading);
    let k = r.pick(&ks);
    let bytes = reading.as_ref().map_err(|n| *n).and_then(|t| m.cut_sheet(t, k));
    let len = length(r, bytes.as_ref().map_or(LONGEST, Vec::len));
    written(r, &spaces.state, len, bytes, |space| calls::cut(sheet, k, space))
        .map_err(|e| format!("sheet {sheet:?} cut to {k}: {e}"))
}

/// The session of a case: of states that lists reach, fresh or not, damaged, or random bytes.
fn any_session(r: &mut Rng, m: &Model, reading: &Result<Table, u8>) -> Vec<u8> {
    match (reading, r.below(8)) {
        (Err(_), _) | (_, 0) => gen::random_session(r),
        (_, 1) => vec![0; SESSION],
        (Ok(t), kind) => {
            let states = gen::walk(r, m, t, 12);
            match kind {
                2..=3 => gen::damaged_session(r, m, t, &states),
                _ => gen::session(r, m, &states),
            }
        }
    }
}

/// Some calls on one session. One that is too short stands in pages that fault on any access.
fn session(r: &mut Rng, m: &Model, spaces: &Spaces, sheet: &[u8], reading: &Result<Table, u8>) -> Result<(), String> {
    let mut before = any_session(r, m, reading);
    let lent = lend_part(r, &spaces.state, before.len());
    spaces.state.bytes(&lent).copy_from_slice(&before);
    for _ in 0..8 {
        let call = gen::call(r, m, reading, &before);
        spaces.state.access(if before.len() < SESSION { NONE } else { READ_WRITE });
        let answer = calls::session(sheet, spaces.state.bytes(&lent), call);
        spaces.state.access(READ_WRITE);
        let told = |e: String| format!("sheet {sheet:?}, session {before:?}, {call:?}, answer {answer:#x}: {e}");
        beside_stays(&spaces.state, &lent).map_err(told)?;
        let called = Called { before: &before, after: spaces.state.bytes(&lent), answer };
        check::session_called(&check::session_outcome(m, reading, &before, call), &called).map_err(told)?;
        before = called.after.to_vec();
    }
    Ok(())
}

/// The file of a search, often damaged, or any bytes.
fn damaged(r: &mut Rng, own: &[u8]) -> Vec<u8> {
    let mut file = own.to_vec();
    match r.below(8) {
        0..=2 => {}
        3 if !file.is_empty() => {
            let at = r.below(file.len());
            file[at] ^= 1 << r.below(8);
        }
        4 => file.truncate(r.below(file.len() + 1)),
        5 => file.extend(vec![0; r.below(40)]),
        6 => file = files::random(r).bytes,
        _ => {
            file = vec![0; r.below(100)];
            r.fill(&mut file);
        }
    }
    file
}

/// A file judged, which stands in pages that fault on a write: by what is known of it, by the model, or where it has more than a
/// thousand states by the list of answers. Returns the answer's kind.
fn judge(m: &Model, sheet: &[u8], file: &[u8], closed: Option<bool>) -> Result<usize, String> {
    let answer = calls::closed(sheet, file);
    let reading = m.read_sheet(sheet);
    let many = reading.is_ok() && file.len() % STATE == 0 && file.len() > 1000 * STATE;
    let outcome = match (closed, answer) {
        (Some(closed), _) => Ok(closed),
        (None, 0x1_0000_0000_0000) if many => Ok(true),
        (None, 0x2_0000_0000_0000) if many => Ok(false),
        _ => check::closed_outcome(m, &reading, file),
    };
    let shown = &file[..file.len().min(160)];
    check::judged(outcome, answer).map_err(|e| format!("sheet {sheet:?}, file of {} {shown:?}: {e}", file.len()))?;
    Ok((answer >> 48) as usize)
}

/// The states of a search judged where they stand in its work space, and a file made of them: those of a Safe search are closed, and
/// those of another are not. Returns the kind of the file's answer.
fn evidence(r: &mut Rng, m: &Model, spaces: &Spaces, sheet: &[u8], work: &Part, answer: u64) -> Result<usize, String> {
    let (closed, count) = match answer >> 48 {
        0 => (None, 0),
        kind => (Some(kind == 1), (answer & 0xFF_FFFF) as usize),
    };
    let own: &[u8] = spaces.work.bytes(&Part { at: work.at, len: count * STATE });
    spaces.work.access(READ);
    judge(m, sheet, own, closed)?;
    spaces.work.access(READ_WRITE);
    let file = damaged(r, own);
    let given = put(r, &spaces.file, &file);
    judge(m, sheet, spaces.file.bytes(&given), closed.filter(|_| file == own))
}

/// The release list of a case: any bytes, or masks that are legal until something is missed.
fn list(r: &mut Rng, m: &Model, reading: &Result<Table, u8>) -> Vec<u8> {
    let most = if r.one_in(50) { PAGE } else { 40 };
    let len = r.below(most + 1);
    match reading {
        Ok(t) if !r.one_in(4) => gen::list(r, m, t, len),
        _ => {
            let mut list = vec![0; len];
            r.fill(&mut list);
            list
        }
    }
}

/// The list replayed, and then with totals.
fn replays(r: &mut Rng, m: &Model, spaces: &Spaces, sheet: &[u8], list: &[u8]) -> Result<(), String> {
    let (reading, played) = (m.read_sheet(sheet), put(r, &spaces.list, list));
    let play = check::play(m, &reading, list);
    let state_len = r.pick(&[0, 15, 16, 16, 16, 17, 33]);
    let (state, before) = lend(r, &spaces.state, state_len);
    let answer = calls::replay(sheet, spaces.list.bytes(&played), spaces.state.bytes(&state));
    let told = |e: String| format!("sheet {sheet:?}, list {list:?}, state {state_len}, answer {answer:#x}: {e}");
    beside_stays(&spaces.state, &state).map_err(told)?;
    let call = Called { before: &before, after: spaces.state.bytes(&state), answer };
    check::replayed(check::replay_outcome(m, &play, state_len), &call).map_err(told)?;
    let totals_len = r.pick(&[0, 1, 100, TOTALS - 1, TOTALS, TOTALS, TOTALS, TOTALS + 1, TOTALS + 33]);
    let (totals, before) = lend(r, &spaces.totals, totals_len);
    let answer = calls::service(sheet, spaces.list.bytes(&played), spaces.totals.bytes(&totals));
    let told = |e: String| format!("sheet {sheet:?}, list {list:?}, totals {totals_len}, answer {answer:#x}: {e}");
    beside_stays(&spaces.totals, &totals).map_err(told)?;
    let served = Called { before: &before, after: spaces.totals.bytes(&totals), answer };
    check::served(&check::service_outcome(m, &play, totals_len), &served).map_err(told)?;
    check::beside(&reading, &served, &call).map_err(told)
}

fn case(r: &mut Rng, m: &Model, spaces: &Spaces, most_slots: usize, found: &mut [usize; 8]) -> Result<(), String> {
    let sheet = gen::sheet(r);
    let reading = m.read_sheet(&sheet);
    let input = put(r, &spaces.input, &sheet);
    let slots = match r.below(8) {
        0 => 0,
        1 => 1,
        2 => most_slots,
        3 => r.range(0, most_slots),
        _ => r.range(0, most_slots.min(300)),
    };
    let rest = if r.one_in(2) { 0 } else { r.below(SLOT) };
    let work_len = (slots * SLOT + rest).min(spaces.work.size);
    let trace_len = match r.below(6) {
        0 => slots.saturating_sub(1),
        1 => r.below(slots + 2),
        2 => slots + r.below(50),
        _ => slots,
    };
    let (work, work_before) = lend(r, &spaces.work, work_len);
    let (trace, trace_before) = lend(r, &spaces.trace, trace_len);
    let answer = calls::verdict(spaces.input.bytes(&input), spaces.work.bytes(&work), spaces.trace.bytes(&trace));
    let told = |e: String| format!("sheet {sheet:?}, work {work_len}, trace {trace_len}, answer {answer:#x}: {e}");
    beside_stays(&spaces.work, &work).map_err(told)?;
    beside_stays(&spaces.trace, &trace).map_err(told)?;
    let call = Searched {
        work_before: &work_before,
        work_after: spaces.work.bytes(&work),
        trace_before: &trace_before,
        trace_after: spaces.trace.bytes(&trace),
        answer,
    };
    let mut list = list(r, m, &reading);
    match (&reading, check::search_refusal(m, &reading, work_len, trace_len)) {
        (_, Some(number)) => check::refused(number, &call).map_err(told)?,
        (Ok(t), None) => {
            let v = verdict_of(answer).ok_or_else(|| told("no answer of the list".into()))?;
            check::answered(m, t, v, None, &call).map_err(told)?;
            if let Verdict::Unsafe(l, _) = v {
                list = call.trace_after[..l.min(PAGE)].to_vec();
            }
        }
        (Err(_), None) => unreachable!(),
    }
    found[(answer >> 48) as usize] += 1;
    found[5 + evidence(r, m, spaces, spaces.input.bytes(&input), &work, answer)?] += 1;
    replays(r, m, spaces, spaces.input.bytes(&input), &list)?;
    found[4] += 1;
    session(r, m, spaces, spaces.input.bytes(&input), &reading)?;
    cut(r, m, spaces, spaces.input.bytes(&input), &reading)?;
    exchange(r, m, spaces, &sheet, &reading)?;
    practice(r, m, spaces)
}

fn main() {
    let (mut seconds, mut seed, mut from, mut cases) = (60, rng::fresh_seed(), 0, u64::MAX);
    let mut args = std::env::args().skip(1);
    while let Some(name) = args.next() {
        let value: u64 = args.next().and_then(|v| v.parse().ok()).unwrap_or_else(|| usage());
        match name.as_str() {
            "--seconds" => seconds = value,
            "--seed" => seed = value,
            "--from" => from = value,
            "--cases" => cases = value,
            _ => usage(),
        }
    }
    println!("fuzz: seed {seed}, {seconds} s");
    std::io::stdout().flush().unwrap();
    SEED.store(seed, Ordering::Relaxed);
    for number in [4, 6, 7, 8, 11] {
        unsafe { signal(number, on_fault) };
    }
    let (small, large) = (Spaces::of(3000 * SLOT, 4096), Spaces::of(1_000_010 * SLOT, 1_000_100));
    let m = Model { fault: 0 };
    let mut found = [0; 8];
    let end = Instant::now() + Duration::from_secs(seconds);
    let mut i = from;
    while i - from < cases && (cases != u64::MAX || Instant::now() < end) {
        CASE.store(i, Ordering::Relaxed);
        let mut r = Rng::new(seed, i);
        let outcome = if r.one_in(5000) {
            let slots = r.pick(&[16_384, 16_385, 262_144, 262_145, 1_000_000, 1_000_009]);
            case(&mut r, &m, &large, slots, &mut found)
        } else {
            let slots = r.pick(&[10, 300, 2999]);
            case(&mut r, &m, &small, slots, &mut found)
        };
        if let Err(e) = outcome {
            println!("fuzz: FAILED: --seed {seed} --from {i} --cases 1: {e}");
            std::process::exit(1);
        }
        i += 1;
    }
    let [refused, safe, miss, room, replays, unread, accepted, no] = found;
    println!(
        "fuzz: {} searches ({safe} Safe, {miss} Unsafe, {room} No room, {refused} refused), {replays} replays",
        i - from
    );
    println!("fuzz: as many replays with totals, and sessions with 8 calls on each");
    println!(
        "fuzz: the states of each search judged, and as many files ({accepted} accepted, {no} no, {unread} refused)"
    );
    println!("fuzz: as many sheets read and cut, tables written and practice sheets made, no fault");
}

fn usage() -> ! {
    eprintln!("usage: fuzz [--seconds S] [--seed S] [--from I] [--cases N]");
    std::process::exit(2);
}
