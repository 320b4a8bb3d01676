//! The differential test of totals: where the core time of a replayed list went.

use crate::calls::{self, packed_replay};
use crate::check::{self, Called, Play};
use crate::layout::SLOT;
use crate::model::{self, End, Replay, State, Table, Tick, Totals, POLICIES, STATE, TOTALS};
use crate::rng::Rng;
use crate::{gen, table, Lent, Run, Subject};

/// What a full run must have met under each policy.
pub const MUST: [&str; 9] = [
    "service Kept",
    "service Missed",
    "service refused 11 at the first tick",
    "service refused 11 later",
    "service refused 11 with a totals space too short",
    "service refused 12",
    "thousands of ticks: Kept",
    "thousands of ticks: Missed",
    "thousands of ticks: refused 11",
];

/// Ticks without a release after which a state that keeps its deadlines is the start state.
const IDLE: usize = 200;

/// Lengths of a totals space, round the limit: all of them but for a list that takes long.
fn lengths(r: &mut Rng, list: &[u8]) -> Vec<usize> {
    let longer = TOTALS + r.below(100);
    match list.len() {
        0..=100_000 => vec![0, 1, r.below(TOTALS), TOTALS - 1, TOTALS, TOTALS + 1, longer],
        _ => vec![longer],
    }
}

/// A mask that is not legal in a state, where there is one: mostly a task released too early, or one that is not there.
fn illegal_mask(r: &mut Rng, run: &Run, t: &Table, s: &State) -> Option<u8> {
    let any = r.byte();
    let mut masks: Vec<u8> = (0..8).map(|i| 1 << i).chain([any, 255]).collect();
    masks.retain(|&mask| run.m.tick(t, s, mask) == Tick::Illegal);
    (!masks.is_empty()).then(|| r.pick(&masks))
}

impl Run {
    /// A list that was played and replayed, with totals into spaces of every kind of length.
    pub fn services(
        &mut self,
        r: &mut Rng,
        s: &Subject,
        list: &[u8],
        play: &Play,
        replayed: &Called,
    ) -> Result<(), String> {
        let (sheet, input) = (Lent::holding(r, &s.sheet), Lent::holding(r, list));
        for len in lengths(r, list) {
            let told = |e: String| format!("totals of {len}: {e}");
            let mut totals = Lent::new(r, len);
            let answer = calls::service(sheet.is(), input.is(), totals.space());
            totals.around_stays().map_err(told)?;
            let expected = check::service_outcome(&self.m, play, len);
            let call = totals.called(answer);
            check::served(&expected, &call).map_err(told)?;
            check::beside(&s.reading, &call, replayed).map_err(told)?;
            self.meet(s, expected.0, len);
            self.changed(r, totals, answer, |c| check::served(&expected, c)).map_err(told)?;
        }
        sheet.stays()?;
        input.stays()
    }

    fn meet(&mut self, s: &Subject, outcome: Result<Replay, u8>, totals_len: usize) {
        self.met.add("calls of the service");
        self.met.add(&match outcome {
            Ok(Replay::Kept(_)) => s.under("service Kept"),
            Ok(Replay::Missed(..)) => s.under("service Missed"),
            Ok(Replay::Illegal(1)) => s.under("service refused 11 at the first tick"),
            Ok(Replay::Illegal(_)) => s.under("service refused 11 later"),
            Err(n) => s.under(&format!("service refused {n:2}")),
        });
        if totals_len < TOTALS && matches!(outcome, Ok(Replay::Illegal(_))) {
            self.met.add(&s.under("service refused 11 with a totals space too short"));
        }
    }

    /// A list of which the answer is known from how it was made.
    fn known_list(&mut self, r: &mut Rng, s: &Subject, list: &[u8], known: Replay) -> Result<(), String> {
        let answer = calls::service(&s.sheet, list, &mut [0; TOTALS]);
        if answer != packed_replay(Ok(known)) {
            return Err(format!("a list of {} bytes is answered {answer:#x}, which is to be {known:?}", list.len()));
        }
        self.replay(r, s, list, STATE)?;
        self.met.add(&s.under(match known {
            Replay::Kept(_) => "thousands of ticks: Kept",
            Replay::Missed(..) => "thousands of ticks: Missed",
            Replay::Illegal(_) => "thousands of ticks: refused 11",
        }));
        self.met.greatest("is the most ticks of a generated list", list.len());
        Ok(())
    }

    /// A list of some thousand ticks that is kept; with an illegal mask after it; and, where one misses, with a shortest list that
    /// does, after idle ticks.
    pub fn late_ends(&mut self, r: &mut Rng, s: &Subject) -> Result<(), String> {
        let t = s.reading.as_ref().unwrap();
        let len = r.range(1000, 6000);
        let (kept, last) = gen::kept_list(r, &self.m, t, len);
        self.known_list(r, s, &kept, Replay::Kept(last))?;
        let mut after = [0; 5];
        r.fill(&mut after);
        if let Some(mask) = illegal_mask(r, self, t, &last) {
            let list = [&kept[..], &[mask], &after].concat();
            self.known_list(r, s, &list, Replay::Illegal(len + 1))?;
        }
        let levels = s.levels.as_ref().unwrap();
        if let End::Miss(l) = levels.end {
            let k = levels.counts[l - 1];
            let misses = self.search(r, s, k * SLOT, k)?.masks;
            let list = [&kept[..], &[0; IDLE], &misses, &after].concat();
            self.known_list(r, s, &list, Replay::Missed(len + IDLE + l, State::default()))?;
        }
        Ok(())
    }

    /// Tasks with a core each, released whenever they may be, so often that the totals of the first have more than two bytes.
    pub fn every_tick(&mut self, r: &mut Rng) -> Result<(), String> {
        let ticks: usize = 70_000;
        let tasks: Vec<_> = (1..=8).map(|i| (i.max(2) - 1, i, i)).collect();
        let mask = |tick| (0..8).filter(|i| tick % (i + 1) == 0).fold(0, |mask, i| mask | 1 << i);
        let list: Vec<u8> = (0..ticks).map(mask).collect();
        for policy in 0..POLICIES {
            let s = self.subject(model::write_sheet(&table(policy, 8, &tasks)), 1);
            let mut totals = [0; TOTALS];
            calls::service(&s.sheet, &list, &mut totals);
            let releases: Vec<u64> = (1..=8).map(|i| ticks.div_ceil(i) as u64).collect();
            let counted = Totals::from_bytes(&totals).releases;
            if counted != *releases {
                return Err(format!("policy {policy}: {counted:?} releases, expected {releases:?}"));
            }
            self.replay(r, &s, &list, STATE)?;
        }
        Ok(())
    }
}
