//! Spaces that are lent to a call, and what a call may change of them.

use crate::check::{Called, Searched};
use crate::rng::Rng;

/// A space that is lent: random bytes, with random bytes around it, at any alignment.
pub struct Lent {
    before: Vec<u8>,
    bytes: Vec<u8>,
    at: usize,
    pub len: usize,
}

impl Lent {
    pub fn new(r: &mut Rng, len: usize) -> Lent {
        let at = r.range(32, 47);
        let mut before = vec![0; at + len + 32];
        r.fill(&mut before);
        Lent { bytes: before.clone(), before, at, len }
    }

    /// Input in place of a space: it holds these bytes before.
    pub fn holding(r: &mut Rng, bytes: &[u8]) -> Lent {
        let mut lent = Lent::new(r, bytes.len());
        lent.before[lent.at..lent.at + lent.len].copy_from_slice(bytes);
        lent.bytes.copy_from_slice(&lent.before);
        lent
    }

    pub fn space(&mut self) -> &mut [u8] {
        &mut self.bytes[self.at..self.at + self.len]
    }

    pub fn was(&self) -> &[u8] {
        &self.before[self.at..self.at + self.len]
    }

    pub fn is(&self) -> &[u8] {
        &self.bytes[self.at..self.at + self.len]
    }

    /// Whether input is as it was, with the bytes around it.
    pub fn stays(&self) -> Result<(), String> {
        if self.before != self.bytes {
            return Err("a byte of the input or beside it changed".into());
        }
        Ok(())
    }

    pub fn around_stays(&self) -> Result<(), String> {
        let end = self.at + self.len;
        if self.before[..self.at] != self.bytes[..self.at] || self.before[end..] != self.bytes[end..] {
            return Err("a byte outside a lent space changed".into());
        }
        Ok(())
    }

    /// A call that was lent this space.
    pub fn called(&self, answer: u64) -> Called<'_> {
        Called { before: self.was(), after: self.is(), answer }
    }
}

/// A search that was lent these spaces.
pub fn searched<'a>(work: &'a Lent, trace: &'a Lent, answer: u64) -> Searched<'a> {
    Searched {
        work_before: work.was(),
        work_after: work.is(),
        trace_before: trace.was(),
        trace_after: trace.is(),
        answer,
    }
}
