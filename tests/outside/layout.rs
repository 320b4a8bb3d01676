//! The layout of a work space (document 02, §6): where the parts of a slot stand, and which bytes stay; and work spaces as libraries
//! with a mistake in it would leave them.

use crate::model::{State, STATE};
use std::ops::Range;

/// Bytes of a parent, and of a slot: a state, its parent and its mask.
const PARENT: usize = 4;
pub const SLOT: usize = STATE + PARENT + 1;

#[derive(Clone, Copy)]
pub struct Slot {
    pub state: State,
    pub parent: u32,
    pub mask: u8,
}

/// "Three columns: K states of 16 bytes, then K parents of 4, then K masks."
#[derive(Clone, Copy)]
pub struct Columns {
    pub k: usize,
}

impl Columns {
    /// The byte at which a part of slot i begins.
    fn state(self, i: usize) -> usize {
        STATE * i
    }

    fn parent(self, i: usize) -> usize {
        STATE * self.k + PARENT * i
    }

    fn mask(self, i: usize) -> usize {
        (STATE + PARENT) * self.k + i
    }

    /// "The search": the parent low byte first.
    pub fn slot(self, work: &[u8], i: usize) -> Slot {
        let bytes = |at: usize, len: usize| &work[at..at + len];
        Slot {
            state: State::from_bytes(bytes(self.state(i), STATE)),
            parent: u32::from_le_bytes(bytes(self.parent(i), PARENT).try_into().unwrap()),
            mask: work[self.mask(i)],
        }
    }

    /// The bytes that stay where n slots are written: in each column those of the others, and those after the third.
    pub fn rest(self, n: usize, work_len: usize) -> [(&'static str, Range<usize>); 4] {
        [
            ("a state that is not written", self.state(n)..self.state(self.k)),
            ("a parent that is not written", self.parent(n)..self.parent(self.k)),
            ("a mask that is not written", self.mask(n)..self.mask(self.k)),
            ("work after the third column", self.mask(self.k)..work_len),
        ]
    }

    /// Whether a byte is one of the first n slots' masks, or of their parents' lower three bytes: another may keep the slot rule.
    pub fn is_free(self, at: usize, n: usize) -> bool {
        let low = |at: usize| (at - self.parent(0)) % PARENT < 3;
        (self.mask(0)..self.mask(n)).contains(&at) || ((self.parent(0)..self.parent(n)).contains(&at) && low(at))
    }
}

/// What a library left: the work space before, and the slots that it wrote.
pub struct Left<'a> {
    columns: Columns,
    before: &'a [u8],
    slots: Vec<Slot>,
}

impl<'a> Left<'a> {
    pub fn new(columns: Columns, before: &'a [u8], after: &[u8], n: usize) -> Left<'a> {
        Left { columns, before, slots: (0..n).map(|i| columns.slot(after, i)).collect() }
    }

    /// The work space with the parts of slot i from these bytes on, as far as it has them.
    fn laid_out(&self, at: impl Fn(usize) -> [usize; 3], parent_bytes: fn(u32) -> [u8; PARENT]) -> Vec<u8> {
        let mut work = self.before.to_vec();
        let mut put = |at: usize, bytes: &[u8]| {
            for (to, byte) in work.iter_mut().skip(at).zip(bytes) {
                *to = *byte;
            }
        };
        for (i, slot) in self.slots.iter().enumerate() {
            let [state, parent, mask] = at(i);
            put(state, &slot.state.bytes());
            put(parent, &parent_bytes(slot.parent));
            put(mask, &[slot.mask]);
        }
        work
    }

    /// Where the parts of slot i stand.
    fn right(&self, i: usize) -> [usize; 3] {
        [self.columns.state(i), self.columns.parent(i), self.columns.mask(i)]
    }

    fn with_parents_from(&self, at: usize) -> Vec<u8> {
        self.laid_out(|i| [self.right(i)[0], at + PARENT * i, self.right(i)[2]], u32::to_le_bytes)
    }

    fn with_masks_from(&self, at: usize) -> Vec<u8> {
        self.laid_out(|i| [self.right(i)[0], self.right(i)[1], at + i], u32::to_le_bytes)
    }

    /// As it should be, but for a byte among those of this part that stay, where there are any.
    fn with_changed(&self, part: usize) -> Vec<u8> {
        let mut work = self.laid_out(|i| self.right(i), u32::to_le_bytes);
        let stays = self.columns.rest(self.slots.len(), work.len())[part].1.clone();
        if !stays.is_empty() {
            work[(stays.start + stays.end) / 2] ^= 1;
        }
        work
    }
}

/// Mistakes in the layout, and the work space that a library leaves which makes one.
pub const MISTAKES: [(&str, fn(&Left) -> Vec<u8>); 10] = [
    ("the slots stand in rows", |l| {
        l.laid_out(|i| [SLOT * i, SLOT * i + STATE, SLOT * i + STATE + PARENT], u32::to_le_bytes)
    }),
    ("the parents' column begins after the states that are written", |l| {
        l.with_parents_from(l.columns.state(l.slots.len()))
    }),
    ("the masks stand after the parents that are written", |l| l.with_masks_from(l.columns.parent(l.slots.len()))),
    ("the masks' column begins a byte late", |l| l.with_masks_from(l.columns.mask(1))),
    ("the masks' column ends with the work space", |l| l.with_masks_from(l.before.len() - l.columns.k)),
    ("a parent's high byte comes first", |l| l.laid_out(|i| l.right(i), u32::to_be_bytes)),
    ("a state that is not written is changed", |l| l.with_changed(0)),
    ("a parent that is not written is changed", |l| l.with_changed(1)),
    ("a mask that is not written is changed", |l| l.with_changed(2)),
    ("a byte after the third column is changed", |l| l.with_changed(3)),
];
