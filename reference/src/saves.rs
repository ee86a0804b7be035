//! Order 8 of 02: what a router remembers across a power cycle, as bytes; with order 9's
//! edition 2. "Save the records in seven-bit groups: an edition number 1, a count, then
//! records by ascending id."

mod reader;
mod show;
mod writer;

pub use reader::load;
pub use show::show;

use crate::event::{OLD_SLOTS, P5_LIMIT, SLOTS};
use crate::params::{topic, Params, TOPICS};
use crate::router::{LONGEST_BACKOFF_MS, LONGEST_RETAIN_MS, P3B_LIMIT, P4_P7_LIMIT};

/// The edition that is written: order 9's.
pub const EDITION: u64 = 2;

/// How many slots a save of an edition may fill; none of another edition.
pub fn slots_of(edition: u64) -> Option<usize> {
    match edition {
        1 => Some(OLD_SLOTS),
        2 => Some(SLOTS),
        _ => None,
    }
}

/// "Each holds id, remaining retain time, P5 (signed), P7, then for each topic the counters of
/// P2, P3, P3b, P4 and the remaining backoff time".
pub const OWN_FIELDS: usize = 4;
pub const TOPIC_FIELDS: usize = 5;
pub const RECORD_FIELDS: usize = OWN_FIELDS + TOPICS * TOPIC_FIELDS;

/// What a record's number says.
#[derive(Clone, Copy, PartialEq, Eq, PartialOrd, Ord, Debug)]
pub enum Field {
    Id,
    /// Milliseconds, as is the backoff; "0 when over".
    Retain,
    /// The one signed number.
    P5,
    P7,
    P2(usize),
    P3(usize),
    P3b(usize),
    P4(usize),
    Backoff(usize),
}

impl Field {
    /// The field at a place of a record.
    pub fn at(place: usize) -> Field {
        let Some(place) = place.checked_sub(OWN_FIELDS) else {
            return [Field::Id, Field::Retain, Field::P5, Field::P7][place];
        };
        let k = place / TOPIC_FIELDS;
        let fields = [Field::P2(k), Field::P3(k), Field::P3b(k), Field::P4(k), Field::Backoff(k)];
        fields[place % TOPIC_FIELDS]
    }

    pub fn is_signed(self) -> bool {
        self == Field::P5
    }

    /// "01's ranges", the caps those of the given parameters; "remaining retain times go to
    /// 86,400,000, backoffs to 3,600,000".
    pub fn limits(self, params: &Params) -> (i64, i64) {
        match self {
            Field::Id => (1, i64::from(u32::MAX)),
            Field::Retain => (0, LONGEST_RETAIN_MS as i64),
            Field::P5 => (-P5_LIMIT, P5_LIMIT),
            Field::P7 | Field::P4(_) => (0, P4_P7_LIMIT),
            Field::P2(k) => (0, params.topic(k, topic::P2_CAP)),
            Field::P3(k) => (0, params.topic(k, topic::P3_CAP)),
            Field::P3b(_) => (0, P3B_LIMIT),
            Field::Backoff(_) => (0, LONGEST_BACKOFF_MS as i64),
        }
    }
}

/// The longest save: an edition of one byte, a count of two, and 256 records of 169 bytes,
/// which are an id of 5, a retain time of 4, P5 of 5, P7 of 3, and for each topic 3, 3, 6, 3
/// and 4.
pub const LONGEST_SAVE: usize = 3 + SLOTS * (5 + 4 + 5 + 3 + TOPICS * (3 + 3 + 6 + 3 + 4));
