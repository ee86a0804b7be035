//! How a peer stands in a topic after an event.

use reference::params::general;
use reference::router::{Peer, Router, Status};

/// The first that holds, in this order.
#[derive(Clone, Copy, PartialEq, Eq, Debug)]
pub enum Place {
    /// No record holds the id.
    Absent,
    /// Gone, its record kept.
    Kept,
    Outbound,
    Inbound,
    Explicit,
    /// We are not in the topic.
    NotJoined,
    /// Its backoff runs.
    Backoff,
    NotSubscribed,
    /// Its backoff is over, and our own GRAFT still waits.
    Waits,
    /// Outside, and nothing but its score can keep it there.
    Free,
}

impl Place {
    /// The letter by which the page shows it.
    pub fn letter(self) -> char {
        match self {
            Place::Absent => ' ',
            Place::Kept => 'K',
            Place::Outbound => 'O',
            Place::Inbound => 'I',
            Place::Explicit => 'E',
            Place::NotJoined => 'N',
            Place::Backoff => 'B',
            Place::NotSubscribed => 'U',
            Place::Waits => 'W',
            Place::Free => 'F',
        }
    }

    pub fn is_member(self) -> bool {
        matches!(self, Place::Outbound | Place::Inbound)
    }
}

/// Where a score stands.
#[derive(Clone, Copy, PartialEq, Eq, PartialOrd, Ord, Debug)]
pub enum Level {
    ZeroOrMore,
    BelowZero,
    /// So low that what the peer sends is ignored.
    Graylisted,
}

#[derive(Clone, Copy, PartialEq, Eq, Debug)]
pub struct Standing {
    pub place: Place,
    pub level: Level,
    /// The backoff's end while it runs, else 0.
    pub backoff_end: u64,
}

impl Standing {
    pub const ABSENT: Standing =
        Standing { place: Place::Absent, level: Level::ZeroOrMore, backoff_end: 0 };

    /// The place's letter, and `-` for a score below zero, `!` for one ignored.
    pub fn code(&self) -> String {
        let level = match self.level {
            Level::ZeroOrMore => "",
            Level::BelowZero => "-",
            Level::Graylisted => "!",
        };
        format!("{}{level}", self.place.letter())
    }

    /// Would be a member but for its score or a backoff.
    pub fn is_held_out(&self) -> bool {
        match self.place {
            Place::Backoff | Place::Waits => true,
            Place::Free => self.level > Level::ZeroOrMore,
            _ => false,
        }
    }
}

/// The level of the score of a connected peer.
pub fn level(router: &Router, peer: &Peer, score: i64) -> Level {
    let graylist = router.params.general(general::GRAYLIST_THRESHOLD) * 1_000_000;
    if !peer.explicit && score < graylist {
        Level::Graylisted
    } else if score < 0 {
        Level::BelowZero
    } else {
        Level::ZeroOrMore
    }
}

/// How a peer stands whose score has a level.
pub fn standing(router: &Router, peer: &Peer, topic: usize, level: Level) -> Standing {
    let place = place(router, peer, topic);
    let runs = peer.backoff_running(topic, router.clock);
    Standing { place, level, backoff_end: if runs { peer.backoff_ends[topic] } else { 0 } }
}

fn place(router: &Router, peer: &Peer, topic: usize) -> Place {
    let record = &peer.topics[topic];
    let now = router.clock;
    let cases = [
        (Place::Absent, peer.status == Status::Empty),
        (Place::Kept, peer.status == Status::Retained),
        (Place::Outbound, record.member && peer.outbound),
        (Place::Inbound, record.member),
        (Place::Explicit, peer.explicit),
        (Place::NotJoined, !router.joined[topic]),
        (Place::Backoff, peer.backoff_running(topic, now)),
        (Place::NotSubscribed, !record.subscribed),
        (Place::Waits, !peer.slack_over(topic, now)),
    ];
    cases.iter().find(|case| case.1).map_or(Place::Free, |case| case.0)
}
