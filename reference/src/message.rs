//! Gossipsub's RPC as bytes: the topics' names, the reader and the writer. Written from
//! 02's orders 1, 4 and 6, sentence by sentence; clear, not fast. IDONTWANT is read and
//! written by a lent table of message ids; functions that take none go by one without rows.

pub mod census;
mod field;
pub mod holder;
mod ids;
mod names;
mod reader;
pub mod tree;
mod writer;

pub use field::{Broken, Part, Reason, LEVELS};
pub use ids::{IdTable, Ids, ID_ROW, LONGEST_ID};
pub use names::{check_names, Names, NamesTable, LONGEST_NAME, NAMES_BYTES, NAME_ROW};
pub use reader::{entries, entries_with, read, read_with};
pub use writer::{write, write_with, written, written_with, Lists, Wrong, LONGEST_WRITTEN};

/// 02, order 1: "A message over 16,384 bytes gives 10 with place 16,384."
pub const LONGEST_MESSAGE: usize = 16_384;

/// 02, order 1: "room for 8,192 entries"; an entry is three numbers.
pub const ENTRY_LIST: usize = 3 * 8_192;

/// 02, order 1: "An absent or unknown topic gives 11 for that entry".
pub const NO_TOPIC: u64 = 11;

/// The fields of the messages by their numbers, as 02 lists them.
pub mod rpc {
    pub const SUBSCRIPTIONS: u64 = 1;
    pub const PUBLISH: u64 = 2;
    pub const CONTROL: u64 = 3;
}
pub mod subscription {
    pub const SUBSCRIBE: u64 = 1;
    pub const TOPIC: u64 = 2;
}
pub mod control {
    pub const IHAVE: u64 = 1;
    pub const IWANT: u64 = 2;
    pub const GRAFT: u64 = 3;
    pub const PRUNE: u64 = 4;
    pub const IDONTWANT: u64 = 5;
}
pub mod idontwant {
    pub const MESSAGE_IDS: u64 = 1;
}
pub mod graft {
    pub const TOPIC_ID: u64 = 1;
}
pub mod prune {
    pub const TOPIC_ID: u64 = 1;
    pub const PEERS: u64 = 2;
    pub const BACKOFF: u64 = 3;
}

/// The ways in which a field's value stands in the bytes.
pub mod wire {
    pub const NUMBER: u64 = 0;
    pub const EIGHT_BYTES: u64 = 1;
    pub const LENGTH: u64 = 2;
    pub const FOUR_BYTES: u64 = 5;
}

/// What an entry says; the number is the first of its three.
#[derive(Clone, Copy, PartialEq, Eq, PartialOrd, Ord, Debug)]
pub enum Kind {
    Subscription = 0,
    Graft = 1,
    Prune = 2,
    /// One id of an IDONTWANT.
    Notice = 3,
}

/// One entry of a message.
#[derive(Clone, Copy, PartialEq, Eq, Debug)]
pub struct Entry {
    pub kind: Kind,
    /// None where the topic is absent or unknown. A notice has no topic: 0 stands here where
    /// the table has its id, none where it has not.
    pub topic: Option<usize>,
    /// 1 or 0 of a subscription, 0 of a GRAFT, the seconds of a PRUNE, the message's number of
    /// a notice (0 of one whose id is not in the table).
    pub value: u64,
}

impl Entry {
    /// The three numbers that stand in the list.
    pub fn numbers(&self) -> [u64; 3] {
        let topic = self.topic.map_or(NO_TOPIC, |topic| topic as u64);
        [self.kind as u64, topic, self.value]
    }
}

/// Why a message is not read or not written.
#[derive(Clone, Copy, PartialEq, Eq, Debug)]
pub enum Refusal {
    /// Names at set-up, a list to be written, or a table of message ids.
    OutOfRange,
    ShortList,
    TooLong,
    Malformed(Broken),
    ShortBuffer,
}

impl Refusal {
    /// The number of 01's table, or 02's new one.
    pub fn number(&self) -> u32 {
        match self {
            Refusal::OutOfRange => 2,
            Refusal::ShortList => 8,
            Refusal::TooLong | Refusal::Malformed(_) => 10,
            Refusal::ShortBuffer => 13,
        }
    }

    /// The place that goes with 10; the others have none.
    pub fn place(&self) -> usize {
        match self {
            Refusal::TooLong => LONGEST_MESSAGE,
            Refusal::Malformed(broken) => broken.place,
            _ => 0,
        }
    }
}
