//! The cells of the lent table by name.

use hivepadlet::cells::*;
use reference::event::SLOTS;
use reference::params::{field_at, COUNT, GENERAL_COUNT, TOPICS, TOPIC_COUNT};
use std::fmt;

const PEER_WORDS: [&str; 6] =
    ["connected", "retained", "explicit", "outbound", "version", "version's higher bit"];

const COLUMNS: [&str; 7] = [
    "id",
    "first group and one",
    "second group and one",
    "third group and one",
    "fourth group and one",
    "P5 and P7",
    "retain end",
];

/// What a slot holds for a topic in a cell of its own.
#[derive(Clone, Copy, PartialEq, Eq, Debug)]
pub enum Field {
    BackoffEnd,
    Counters,
    P3b,
    GraftTime,
    MeshTime,
}

/// What a cell holds. A cell of a word has 64 slots, from the first on.
#[derive(Clone, Copy, PartialEq, Eq, Debug)]
pub enum Spot {
    Clock,
    Joined(usize),
    Mark,
    Edition,
    Number(usize),
    PeerBits {
        word: usize,
        first: usize,
    },
    Peer {
        column: usize,
        slot: usize,
    },
    TopicBits {
        member: bool,
        topic: usize,
        first: usize,
    },
    Record {
        field: Field,
        slot: usize,
        topic: usize,
    },
    /// Kept for later orders.
    Kept,
    /// Between two columns.
    Between,
}

pub const REGIONS: [&str; 15] = [
    "clock",
    "joined flags",
    "mark",
    "edition",
    "parameters",
    "flags of peers",
    "peers",
    "flags of topics",
    "backoff ends",
    "counters",
    "P3b",
    "graft times",
    "mesh times",
    KEPT,
    BETWEEN,
];

/// The regions that no state reads.
pub const KEPT: &str = "kept cells";
pub const BETWEEN: &str = "cells between columns";

/// A cell of columns: which one, and its slot, if it is not between two.
fn in_columns(place: usize) -> (usize, Option<usize>) {
    let slot = place % STRIDE;
    (place / STRIDE, (slot < SLOTS).then_some(slot))
}

impl Field {
    fn name(self) -> &'static str {
        match self {
            Field::BackoffEnd => "backoff end",
            Field::Counters => "counters",
            Field::P3b => "P3b",
            Field::GraftTime => "graft time",
            Field::MeshTime => "mesh time",
        }
    }
}

impl Spot {
    pub fn of(cell: usize) -> Spot {
        match cell {
            CLOCK => Spot::Clock,
            JOINED..USED => Spot::Joined(cell - JOINED),
            USED => Spot::Mark,
            EDITION => Spot::Edition,
            PARAMETERS..PARAMETERS_END => {
                let index = (0..COUNT).find(|&index| number_cell(index) == cell);
                Spot::Number(index.expect("each cell of the parameters has its number"))
            }
            CONNECTED..ID => {
                let place = cell - CONNECTED;
                Spot::PeerBits { word: place / WORD, first: place % WORD * 64 }
            }
            ID..BACKOFF_ENDS => match in_columns(cell - ID) {
                (column, Some(slot)) => Spot::Peer { column, slot },
                _ => Spot::Between,
            },
            BACKOFF_ENDS..CELLS => Spot::of_topics(cell),
            _ => Spot::Kept,
        }
    }

    /// What is kept by slot and topic.
    fn of_topics(cell: usize) -> Spot {
        let by_topic = |field, place: usize| match in_columns(place) {
            (topic, Some(slot)) => Spot::Record { field, slot, topic },
            _ => Spot::Between,
        };
        let by_slot = |field, place: usize| {
            let (slot, topic) = (place / TOPICS, place % TOPICS);
            Spot::Record { field, slot, topic }
        };
        match cell {
            BACKOFF_ENDS..SUBSCRIBED => by_slot(Field::BackoffEnd, cell - BACKOFF_ENDS),
            SUBSCRIBED..COUNTERS => {
                let member = cell >= MEMBER;
                let place = cell - if member { MEMBER } else { SUBSCRIBED };
                Spot::TopicBits { member, topic: place / WORD, first: place % WORD * 64 }
            }
            COUNTERS..P3B => by_topic(Field::Counters, cell - COUNTERS),
            P3B..GRAFT_TIMES => by_slot(Field::P3b, cell - P3B),
            GRAFT_TIMES..MESH_TIMES => by_topic(Field::GraftTime, cell - GRAFT_TIMES),
            _ => by_topic(Field::MeshTime, cell - MESH_TIMES),
        }
    }

    pub fn region(self) -> &'static str {
        REGIONS[match self {
            Spot::Clock => 0,
            Spot::Joined(_) => 1,
            Spot::Mark => 2,
            Spot::Edition => 3,
            Spot::Number(_) => 4,
            Spot::PeerBits { .. } => 5,
            Spot::Peer { .. } => 6,
            Spot::TopicBits { .. } => 7,
            Spot::Record { field: Field::BackoffEnd, .. } => 8,
            Spot::Record { field: Field::Counters, .. } => 9,
            Spot::Record { field: Field::P3b, .. } => 10,
            Spot::Record { field: Field::GraftTime, .. } => 11,
            Spot::Record { field: Field::MeshTime, .. } => 12,
            Spot::Kept => 13,
            Spot::Between => 14,
        }]
    }

    /// A word, whose bits are the cell's numbers.
    pub fn is_word(self) -> bool {
        matches!(self, Spot::PeerBits { .. } | Spot::TopicBits { .. })
    }

    /// What the cell holds, packed numbers by name and words by their bits.
    pub fn shown(self, cell: u64) -> String {
        match self {
            Spot::PeerBits { .. } | Spot::TopicBits { .. } => format!("{cell:#018x}"),
            Spot::Peer { column: 5, .. } => {
                format!("P5 code {}, P7 {}", cell % P7_LANE, cell / P7_LANE)
            }
            Spot::Record { field: Field::Counters, .. } => {
                let (p2, p3) = (cell % P3_LANE, cell / P3_LANE % P3_LANE);
                format!("P2 {p2}, P3 {p3}, P4 {}", cell / P4_LANE)
            }
            _ => cell.to_string(),
        }
    }
}

impl fmt::Display for Spot {
    fn fmt(&self, out: &mut fmt::Formatter) -> fmt::Result {
        match *self {
            Spot::Clock => write!(out, "clock"),
            Spot::Joined(topic) => write!(out, "joined flag of topic {topic}"),
            Spot::Mark => write!(out, "mark"),
            Spot::Edition => write!(out, "edition"),
            Spot::Number(index) => match index.checked_sub(GENERAL_COUNT) {
                None => write!(out, "{}", field_at(index).name),
                Some(rest) => write!(out, "topic {} {}", rest / TOPIC_COUNT, field_at(index).name),
            },
            Spot::PeerBits { word, first } => {
                write!(out, "{}, slots {first} to {}", PEER_WORDS[word], first + 63)
            }
            Spot::Peer { column, slot } => write!(out, "slot {slot} {}", COLUMNS[column]),
            Spot::TopicBits { member, topic, first } => {
                let word = if member { "member" } else { "subscribed" };
                write!(out, "topic {topic} {word}, slots {first} to {}", first + 63)
            }
            Spot::Record { field, slot, topic } => {
                write!(out, "slot {slot} topic {topic} {}", field.name())
            }
            Spot::Kept | Spot::Between => write!(out, "{}", self.region()),
        }
    }
}

#[cfg(test)]
mod tests {
    use super::*;

    #[test]
    fn spots_are_where_the_crate_layout_says() {
        assert_eq!(Spot::of(9), Spot::Mark);
        assert_eq!(
            (Spot::of(11), Spot::of(23), Spot::of(171)),
            (Spot::Kept, Spot::Kept, Spot::Kept)
        );
        assert_eq!((Spot::of(43), Spot::of(44)), (Spot::Number(19), Spot::Number(35)));
        assert_eq!(Spot::of(179), Spot::PeerBits { word: 0, first: 192 });
        assert_eq!(Spot::of(455), Spot::Peer { column: 0, slot: 255 });
        assert_eq!((Spot::of(456), Spot::of(463)), (Spot::Between, Spot::Between));
        let record = |field, slot, topic| Spot::Record { field, slot, topic };
        assert_eq!(Spot::of(2048 + 8 * 3 + 5), record(Field::BackoffEnd, 3, 5));
        assert_eq!(Spot::of(4127), Spot::TopicBits { member: false, topic: 7, first: 192 });
        assert_eq!(Spot::of(4128), Spot::TopicBits { member: true, topic: 0, first: 0 });
        assert_eq!(Spot::of(4160 + 264 * 2 + 9), record(Field::Counters, 9, 2));
        assert_eq!(Spot::of(6272 + 8 * 9 + 2), record(Field::P3b, 9, 2));
        assert_eq!(Spot::of(12_535), record(Field::MeshTime, 255, 7));
        assert_eq!(Spot::of(12_543), Spot::Between);
    }
}
