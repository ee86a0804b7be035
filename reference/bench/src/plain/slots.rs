//! A set of slots as bits.

use reference::event::SLOTS;
use std::ops::{BitAnd, BitOr, BitXor, Not};

const BITS: usize = u64::BITS as usize;
const WORDS: usize = SLOTS / BITS;

#[derive(Clone, Copy, PartialEq, Eq, Default)]
pub struct Slots([u64; WORDS]);

impl Slots {
    pub const ALL: Slots = Slots([u64::MAX; WORDS]);

    pub fn of(slot: usize) -> Slots {
        let mut set = Slots::default();
        set.put(slot, true);
        set
    }

    /// Puts a slot in if it `holds`; it may be in already.
    #[inline(always)]
    pub fn put(&mut self, slot: usize, holds: bool) {
        self.0[slot / BITS] |= u64::from(holds) << (slot % BITS);
    }

    #[inline(always)]
    pub fn has(&self, slot: usize) -> bool {
        self.0[slot / BITS] >> (slot % BITS) & 1 == 1
    }

    pub fn is_empty(&self) -> bool {
        *self == Slots::default()
    }

    pub fn size(&self) -> usize {
        self.0.iter().map(|word| word.count_ones() as usize).sum()
    }

    /// The slots, upward.
    pub fn each(self) -> impl Iterator<Item = usize> {
        self.0.into_iter().enumerate().flat_map(|(place, word)| {
            let mut left = word;
            std::iter::from_fn(move || {
                let bit = left.trailing_zeros() as usize;
                left &= left.wrapping_sub(1);
                (bit < BITS).then_some(BITS * place + bit)
            })
        })
    }

    fn word_by_word(self, other: Slots, join: impl Fn(u64, u64) -> u64) -> Slots {
        Slots(std::array::from_fn(|place| join(self.0[place], other.0[place])))
    }
}

impl BitAnd for Slots {
    type Output = Slots;
    fn bitand(self, other: Slots) -> Slots {
        self.word_by_word(other, |a, b| a & b)
    }
}

impl BitOr for Slots {
    type Output = Slots;
    fn bitor(self, other: Slots) -> Slots {
        self.word_by_word(other, |a, b| a | b)
    }
}

impl BitXor for Slots {
    type Output = Slots;
    fn bitxor(self, other: Slots) -> Slots {
        self.word_by_word(other, |a, b| a ^ b)
    }
}

impl Not for Slots {
    type Output = Slots;
    fn not(self) -> Slots {
        self ^ Slots::ALL
    }
}
