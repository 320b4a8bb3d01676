//! The differential test of sessions: steps, marks and returns, one call after the other.

use crate::calls::{self, packed_kind, packed_replay};
use crate::check::{self, Called};
use crate::model::{self, Call, Replay, Session, State, Table, MARKS, POLICIES, SESSION, STATE};
use crate::rng::Rng;
use crate::{gen, hex, Lent, Run, Subject};

/// The calls, as they are met.
pub const NAMES: [&str; 3] = ["session step", "session mark", "session return"];

/// What a full run must have met under each policy.
pub const MUST: [&str; 18] = [
    "session step done",
    "session step Missed",
    "session step refused 11",
    "session step refused 12",
    "session step refused 13",
    "session mark done",
    "session mark done again",
    "session mark refused 12",
    "session mark refused 13",
    "session mark refused 15",
    "session return done",
    "session return refused 12",
    "session return refused 13",
    "session return refused 15",
    "session return refused 16",
    "session improper in its present state",
    "session improper under a mark alone",
    "session with other bytes under marks that are not set",
];

/// What is on record beside a session: the masks of the steps that were done, and under each set mark those of that time.
#[derive(Default)]
struct Record {
    masks: Vec<u8>,
    marks: [Option<Vec<u8>>; MARKS],
}

impl Record {
    /// A call that was done: its mark is one of the eight, and a return's is set.
    fn note(&mut self, call: Call) {
        match call {
            Call::Step(mask) => self.masks.push(mask),
            Call::Mark(mark) => self.marks[mark as usize - 1] = Some(self.masks.clone()),
            Call::Return(mark) => self.masks = self.marks[mark as usize - 1].clone().unwrap(),
        }
    }

    /// The bytes of a session, by the library's own replay of each list on record.
    fn holds(&self, sheet: &[u8], session: &[u8]) -> Result<(), String> {
        if session[0] != model::bits(|i| self.marks[i].is_some()) {
            return Err(format!("flags {:#x}, on record {:?}", session[0], self.marks));
        }
        let lists = [Some(&self.masks)].into_iter().chain(self.marks.iter().map(Option::as_ref));
        for (place, list) in lists.enumerate().filter_map(|(place, list)| Some((place, list?))) {
            let mut state = [0; STATE];
            let answer = calls::replay(sheet, list, &mut state);
            let kept = answer == packed_replay(Ok(Replay::Kept(State::default())));
            if !kept || session[Session::bytes_of(place)] != state {
                return Err(format!("state {place} is not that of {list:?}, which is replayed as {answer:#x}"));
            }
        }
        Ok(())
    }
}

impl Run {
    /// One call on a session, which has these bytes before and after it: the answer, as the model has it.
    fn session(&mut self, r: &mut Rng, s: &Subject, bytes: &mut Vec<u8>, call: Call) -> Result<u64, String> {
        let (sheet, mut space) = (Lent::holding(r, &s.sheet), Lent::holding(r, bytes));
        let answer = calls::session(sheet.is(), space.space(), call);
        let told = |e: String| format!("{call:?} on a session of {} bytes: {e}; it is {}", space.len, hex(space.was()));
        sheet.stays().map_err(told)?;
        space.around_stays().map_err(told)?;
        let expected = check::session_outcome(&self.m, &s.reading, bytes, call);
        let judge = |c: &Called| check::session_called(&expected, c);
        judge(&space.called(answer)).map_err(told)?;
        self.meet_session(s, bytes, call, expected.0);
        *bytes = space.is().to_vec();
        self.changed(r, space, answer, judge).map_err(|e| format!("{call:?}: {e}"))?;
        Ok(answer)
    }

    /// Counts a call on the session of these bytes.
    fn meet_session(&mut self, s: &Subject, bytes: &[u8], call: Call, outcome: Result<bool, u8>) {
        let name = match call {
            Call::Step(_) => NAMES[0],
            Call::Mark(_) => NAMES[1],
            Call::Return(_) => NAMES[2],
        };
        self.met.add("calls on a session");
        self.met.add(&s.under(&match (outcome, call) {
            (Ok(true), Call::Mark(mark)) if bytes[0] >> (mark - 1) & 1 == 1 => format!("{name} done again"),
            (Ok(true), _) => format!("{name} done"),
            (Ok(false), _) => format!("{name} Missed"),
            (Err(n), _) => format!("{name} refused {n:2}"),
        }));
        if let (Err(13), Ok(t)) = (outcome, &s.reading) {
            let marked = self.m.proper(t, &self.m.read_session(bytes).present);
            let place = if marked { "under a mark alone" } else { "in its present state" };
            self.met.add(&s.under(&format!("session improper {place}")));
        }
    }

    /// Some calls on a session, each with its answer.
    fn play_session(
        &mut self,
        r: &mut Rng,
        s: &Subject,
        bytes: &mut Vec<u8>,
        calls: usize,
    ) -> Result<Vec<(Call, u64)>, String> {
        let mut played = Vec::with_capacity(calls);
        for _ in 0..calls {
            let call = gen::call(r, &self.m, &s.reading, bytes);
            played.push((call, self.session(r, s, bytes, call)?));
        }
        Ok(played)
    }

    /// Calls on a fresh session, with the record beside it: none answers 13.
    fn recorded(&mut self, r: &mut Rng, s: &Subject, calls: usize) -> Result<(), String> {
        let mut bytes = vec![0; SESSION];
        let (mut record, mut most) = (Record::default(), 0);
        for _ in 0..calls {
            let call = gen::call(r, &self.m, &s.reading, &bytes);
            let answer = self.session(r, s, &mut bytes, call)?;
            if answer == packed_kind(Ok(true)) {
                record.note(call);
            }
            if answer == packed_kind(Err(13)) {
                return Err(format!("{call:?} is refused 13 in a session that was fresh"));
            }
            record.holds(&s.sheet, &bytes).map_err(|e| format!("after {call:?}: {e}"))?;
            most = most.max(record.masks.len());
        }
        self.met.greatest("is the most masks on record of a session", most);
        Ok(())
    }

    /// Calls on a session of states that lists reach, and the same calls on one that differs in no more than the bytes under marks
    /// that are not set, and after the session: the same answers.
    fn twins(&mut self, r: &mut Rng, s: &Subject, states: &[State]) -> Result<(), String> {
        let mut bytes = gen::session(r, &self.m, states);
        let mut twin = gen::session_bytes(r, &self.m, &self.m.read_session(&bytes));
        if bytes[0] < 255 {
            self.met.add(&s.under("session with other bytes under marks that are not set"));
        }
        for (call, answer) in self.play_session(r, s, &mut bytes, 12)? {
            let other = self.session(r, s, &mut twin, call)?;
            if other != answer {
                return Err(format!("{call:?}: answer {answer:#x}, and {other:#x} with other bytes that are not read"));
            }
        }
        Ok(())
    }

    /// Sessions with one sheet: fresh, of states that lists reach, damaged, and of random bytes.
    pub fn sessions(&mut self, r: &mut Rng, s: &Subject) -> Result<(), String> {
        if let Ok(t) = &s.reading {
            let calls = r.range(10, 40);
            self.recorded(r, s, calls)?;
            let states = gen::walk(r, &self.m, t, 20);
            self.twins(r, s, &states)?;
            for _ in 0..4 {
                let mut bytes = gen::damaged_session(r, &self.m, t, &states);
                self.play_session(r, s, &mut bytes, 3)?;
            }
        }
        // Also with a sheet that is refused, which comes first whatever the session is.
        let mut bytes = gen::random_session(r);
        self.play_session(r, s, &mut bytes, 3)?;
        Ok(())
    }

    /// Every mark from 0 to 255, returned to, set, and returned to again, in sessions with any marks set. Eight tasks with a core
    /// each, so that every byte of a state differs from that of another.
    pub fn every_mark(&mut self, r: &mut Rng) -> Result<(), String> {
        for policy in 0..POLICIES {
            let t = Table { policy, cores: 8, ..gen::table_of(r, 8) };
            let states = gen::walk(r, &self.m, &t, 20);
            let s = Subject { sheet: model::write_sheet(&t), reading: Ok(t), levels: None };
            for mark in 0..=255 {
                let mut bytes = gen::session(r, &self.m, &states);
                for call in [Call::Return(mark), Call::Mark(mark), Call::Return(mark)] {
                    self.session(r, &s, &mut bytes, call)?;
                }
            }
        }
        Ok(())
    }

    /// Several hundred calls on one session.
    pub fn long_session(&mut self, r: &mut Rng, s: &Subject) -> Result<(), String> {
        let calls = r.range(300, 600);
        self.recorded(r, s, calls)
    }
}
