//! The form of the lent table (crate layout): columns by slot, flags as words by slot, counters packed into
//! one number, and a mark.
//!
//! No part of the state are the cells of the columns, of the backoff ends, of the counters and of P3b from
//! the mark on, the times of a non-member, the cells between two columns, and those that are kept for later
//! orders.

use crate::{GROUPS, NUMBERS, SLOTS, TOPICS};

/// How many numbers a table has.
pub const CELLS: usize = 12_544;

pub type Cells = [u64; CELLS];

/// A word by slot is so many cells: bit s % 64 of cell s / 64 is slot s.
pub const WORD: usize = SLOTS / 64;

/// How far apart two columns are; so many cells of each are slots.
pub const STRIDE: usize = 264;

// The head.
pub const CLOCK: usize = 0;
pub const JOINED: usize = 1;
/// The mark: slots from it on were never taken.
pub const USED: usize = JOINED + TOPICS;
/// The set-up beside the numbers: the edition of the parameters.
pub const EDITION: usize = USED + 1;
/// From here to the parameters, and from their end to the peers, cells are kept for later orders.
pub const HEAD_END: usize = EDITION + 1;
pub const PARAMETERS: usize = 24;
pub const PARAMETERS_END: usize = PARAMETERS + NUMBERS;

// The peers: words, then columns, then the backoff ends by slot.
pub const CONNECTED: usize = 176;
pub const RETAINED: usize = CONNECTED + WORD;
pub const EXPLICIT: usize = RETAINED + WORD;
pub const OUTBOUND: usize = EXPLICIT + WORD;
/// 0 is /meshsub/1.0.0, 1 /meshsub/1.1.0, 2 /meshsub/1.2.0; a second word has the higher bit.
pub const VERSION: usize = OUTBOUND + WORD;
pub const VERSION_HIGH: usize = VERSION + WORD;
pub const ID: usize = VERSION_HIGH + WORD;
/// Four columns, a group and one more in each, lowest first; 0 past the last.
pub const GROUP: usize = ID + STRIDE;
/// The code of P5, and from bit 32 on P7.
pub const P5_P7: usize = GROUP + GROUPS * STRIDE;
pub const RETAIN_END: usize = P5_P7 + STRIDE;
pub const BACKOFF_ENDS: usize = RETAIN_END + STRIDE;

// What the peers hold for the topics: words, the counters by topic, P3b by slot, and the times by topic.
pub const SUBSCRIBED: usize = BACKOFF_ENDS + SLOTS * TOPICS;
pub const MEMBER: usize = SUBSCRIBED + TOPICS * WORD;
/// P2, from bit 21 on P3, and from bit 42 on P4.
pub const COUNTERS: usize = MEMBER + TOPICS * WORD;
pub const P3B: usize = COUNTERS + TOPICS * STRIDE;
pub const GRAFT_TIMES: usize = P3B + SLOTS * TOPICS;
pub const MESH_TIMES: usize = GRAFT_TIMES + TOPICS * STRIDE;

const _: () = assert!(PARAMETERS_END <= CONNECTED);
const _: () = assert!(MESH_TIMES + TOPICS * STRIDE == CELLS);

/// What the lanes of packed cells count by.
pub const P7_LANE: u64 = 1 << 32;
pub const P3_LANE: u64 = 1 << 21;
pub const P4_LANE: u64 = 1 << 42;

/// The parameters: so many general numbers, and so many of each topic.
const GENERAL: usize = 19;
const OF_TOPIC: usize = 16;

/// Where number `index` of the parameters stands, by its magnitude: after the general numbers each field's
/// eight topics are side by side.
pub const fn number_cell(index: usize) -> usize {
    if index < GENERAL {
        return PARAMETERS + index;
    }
    let (topic, field) = ((index - GENERAL) / OF_TOPIC, (index - GENERAL) % OF_TOPIC);
    PARAMETERS + GENERAL + field * TOPICS + topic
}

/// Whether a number of the parameters is at most 0: three thresholds, w6, w7, and of a topic w3, w3b, w4.
pub const fn is_below(index: usize) -> bool {
    if index < GENERAL {
        return matches!(index, 9..=11 | 14 | 16);
    }
    matches!((index - GENERAL) % OF_TOPIC, 7 | 12 | 14)
}

/// The words of a topic.
pub const fn subscribed_word(topic: usize) -> usize {
    SUBSCRIBED + topic * WORD
}

pub const fn member_word(topic: usize) -> usize {
    MEMBER + topic * WORD
}

/// The cells of a slot in a topic.
pub const fn end_cell(slot: usize, topic: usize) -> usize {
    BACKOFF_ENDS + slot * TOPICS + topic
}

pub const fn counters_cell(slot: usize, topic: usize) -> usize {
    COUNTERS + topic * STRIDE + slot
}

pub const fn p3b_cell(slot: usize, topic: usize) -> usize {
    P3B + slot * TOPICS + topic
}

pub const fn graft_cell(slot: usize, topic: usize) -> usize {
    GRAFT_TIMES + topic * STRIDE + slot
}

pub const fn mesh_cell(slot: usize, topic: usize) -> usize {
    MESH_TIMES + topic * STRIDE + slot
}

/// A slot's bit in the word that begins at a cell.
pub const fn bit(cells: &Cells, word: usize, slot: usize) -> bool {
    cells[word + slot / 64] >> (slot % 64) & 1 == 1
}

pub fn set_bit(cells: &mut Cells, word: usize, slot: usize, value: bool) {
    let (cell, bit) = (&mut cells[word + slot / 64], 1 << (slot % 64));
    *cell = if value { *cell | bit } else { *cell & !bit };
}

/// A slot's cell in a column, 0 from the mark on.
pub const fn live(cells: &Cells, slot: usize, cell: usize) -> u64 {
    if (slot as u64) < cells[USED] {
        cells[cell]
    } else {
        0
    }
}
