//! The calls of orders 6 and 7 of 02, with arguments as wide as a caller may give them. They
//! have no kind in a trace: a host makes them directly.

use crate::event::{Event, Permutation, LAST_TIME};
use crate::params::TOPICS;
use crate::router::{number, Done, Router};

/// Order 7: "a lent list of 192 numbers", and "IHAVE of up to 192 numbers". Order 9 leaves
/// both alone.
pub const NUMBER_LIST: usize = 192;

/// One call with its time: "New calls, order 7's too, take a time and action list like 01's."
#[derive(Clone, PartialEq, Eq, Debug)]
pub struct GossipEvent {
    pub now: u64,
    pub call: GossipCall,
}

/// A message number has 64 bits and no range. A sender of 0 is ourselves.
#[derive(Clone, PartialEq, Eq, Debug)]
pub enum GossipCall {
    /// Order 6: IDONTWANT to the members, for a large message that we have.
    Ask { topic: u64, number: u64, sender: u64 },
    /// Order 6: an IDONTWANT that a peer sent us.
    Notice { id: u64, number: u64 },
    /// Order 6: to whom a message is passed on.
    Relay { topic: u64, number: u64, sender: u64 },
    /// Order 6: "A new heartbeat call". 01's tidy of one topic is `Call::Heartbeat`.
    Beat,
    /// Order 7: a message number is stored in a topic.
    Store { topic: u64, number: u64 },
    /// Order 7: IHAVE to the rest.
    Announce { topic: u64, permutation: Box<Permutation> },
    /// Order 7: an IHAVE that a peer sent us.
    IHave { id: u64, topic: u64, numbers: Vec<u64> },
    /// Order 7: an IWANT that a peer sent us; an answer 0 is the reply.
    IWant { id: u64, number: u64 },
}

/// The calls by name.
pub const GOSSIP_NAMES: [&str; 8] =
    ["ask", "notice", "relay", "beat", "store", "announce", "ihave", "iwant"];

impl GossipCall {
    /// The place of the call's name.
    pub fn index(&self) -> usize {
        match self {
            GossipCall::Ask { .. } => 0,
            GossipCall::Notice { .. } => 1,
            GossipCall::Relay { .. } => 2,
            GossipCall::Beat => 3,
            GossipCall::Store { .. } => 4,
            GossipCall::Announce { .. } => 5,
            GossipCall::IHave { .. } => 6,
            GossipCall::IWant { .. } => 7,
        }
    }

    /// Is the call lent a list of numbers besides its action list?
    pub fn lends_numbers(&self) -> bool {
        matches!(self, GossipCall::Announce { .. } | GossipCall::IHave { .. })
    }

    pub fn name(&self) -> &'static str {
        GOSSIP_NAMES[self.index()]
    }
}

impl GossipEvent {
    /// 01, answer 2: is every argument in its range? A permutation has an answer of its own.
    pub fn in_range(&self) -> bool {
        let arguments = match self.call {
            GossipCall::Ask { topic, sender, .. } | GossipCall::Relay { topic, sender, .. } => {
                is_topic(topic) && is_sender(sender)
            }
            GossipCall::Notice { id, .. } | GossipCall::IWant { id, .. } => is_peer(id),
            GossipCall::Store { topic, .. } | GossipCall::Announce { topic, .. } => is_topic(topic),
            // "IHAVE of up to 192 numbers (more: 2)"
            GossipCall::IHave { id, topic, ref numbers } => {
                is_peer(id) && is_topic(topic) && numbers.len() <= NUMBER_LIST
            }
            GossipCall::Beat => true,
        };
        arguments && self.now <= LAST_TIME
    }
}

/// A call of 01, or one of orders 6 and 7.
#[derive(Clone, PartialEq, Eq, Debug)]
pub enum AnyEvent {
    Old(Event),
    New(GossipEvent),
}

/// What an event came to: its answer's number, and how many actions and numbers were told.
#[derive(Clone, Copy, PartialEq, Eq, Debug)]
pub struct Outcome {
    pub answer: u32,
    pub actions: usize,
    pub numbers: usize,
}

impl AnyEvent {
    pub fn now(&self) -> u64 {
        match self {
            AnyEvent::Old(event) => event.now,
            AnyEvent::New(event) => event.now,
        }
    }

    /// Makes the call with the lent lists.
    pub fn make(&self, router: &mut Router, actions: &mut [u32], numbers: &mut [u64]) -> Outcome {
        match self {
            AnyEvent::Old(event) => {
                let answer = router.call(event, actions);
                let actions = if let Ok(Done::Actions(count)) = answer { count } else { 0 };
                Outcome { answer: number(&answer), actions, numbers: 0 }
            }
            AnyEvent::New(event) => {
                let answer = router.gossip(event, actions, numbers);
                let given = answer.unwrap_or_default();
                let (actions, numbers) = (given.actions, given.numbers);
                Outcome { answer: number(&answer), actions, numbers }
            }
        }
    }
}

fn is_topic(topic: u64) -> bool {
    topic < TOPICS as u64
}

fn is_peer(id: u64) -> bool {
    id != 0 && is_sender(id)
}

/// A peer's id, or 0 for ourselves.
fn is_sender(sender: u64) -> bool {
    u32::try_from(sender).is_ok()
}
