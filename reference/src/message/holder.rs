//! The messages that hold fields, and which fields 02 names in each: for making messages
//! and for counting what they hold. The reader does not use it.

use super::{control, graft, idontwant, prune, rpc, subscription, wire};

#[derive(Clone, Copy, PartialEq, Eq, PartialOrd, Ord, Debug)]
pub enum Holder {
    Rpc,
    Subscription,
    Control,
    Graft,
    Prune,
    IDontWant,
}

impl Holder {
    pub const ALL: [Holder; 6] = [
        Holder::Rpc,
        Holder::Subscription,
        Holder::Control,
        Holder::Graft,
        Holder::Prune,
        Holder::IDontWant,
    ];

    /// The fields that are read, each with its wire type.
    pub fn known(self) -> &'static [(u64, u64)] {
        match self {
            Holder::Rpc => &[(rpc::SUBSCRIPTIONS, wire::LENGTH), (rpc::CONTROL, wire::LENGTH)],
            Holder::Subscription => {
                &[(subscription::SUBSCRIBE, wire::NUMBER), (subscription::TOPIC, wire::LENGTH)]
            }
            Holder::Control => &[
                (control::GRAFT, wire::LENGTH),
                (control::PRUNE, wire::LENGTH),
                (control::IDONTWANT, wire::LENGTH),
            ],
            Holder::Graft => &[(graft::TOPIC_ID, wire::LENGTH)],
            Holder::Prune => &[(prune::TOPIC_ID, wire::LENGTH), (prune::BACKOFF, wire::NUMBER)],
            Holder::IDontWant => &[(idontwant::MESSAGE_IDS, wire::LENGTH)],
        }
    }

    /// The fields that 02 names as skipped.
    pub fn skipped(self) -> &'static [u64] {
        match self {
            Holder::Rpc => &[rpc::PUBLISH],
            Holder::Control => &[control::IHAVE, control::IWANT],
            Holder::Prune => &[prune::PEERS],
            Holder::Subscription | Holder::Graft | Holder::IDontWant => &[],
        }
    }

    /// What a field with a length is.
    pub fn inside(self, number: u64) -> Option<Holder> {
        match (self, number) {
            (Holder::Rpc, rpc::SUBSCRIPTIONS) => Some(Holder::Subscription),
            (Holder::Rpc, rpc::CONTROL) => Some(Holder::Control),
            (Holder::Control, control::GRAFT) => Some(Holder::Graft),
            (Holder::Control, control::PRUNE) => Some(Holder::Prune),
            (Holder::Control, control::IDONTWANT) => Some(Holder::IDontWant),
            _ => None,
        }
    }

    /// Subscriptions, GRAFTs and PRUNEs are entries; their fields are optional, not repeated.
    pub fn is_entry(self) -> bool {
        matches!(self, Holder::Subscription | Holder::Graft | Holder::Prune)
    }

    /// Each is an entry, and may be repeated.
    pub fn is_id(self, number: u64) -> bool {
        self == Holder::IDontWant && number == idontwant::MESSAGE_IDS
    }

    pub fn is_topic(self, number: u64) -> bool {
        match self {
            Holder::Subscription => number == subscription::TOPIC,
            Holder::Graft => number == graft::TOPIC_ID,
            Holder::Prune => number == prune::TOPIC_ID,
            Holder::Rpc | Holder::Control | Holder::IDontWant => false,
        }
    }
}
