//! Order 6 of 02: IDONTWANT asked for, received and heeded. "No notice touches a mesh or a
//! score."

use super::{refuse_if, Actions, Peer, Refusal, Router, Status, Version};
use std::collections::BTreeSet;

/// The first numbers of the actions.
pub const IDONTWANT: u32 = 3;
pub const RELAY: u32 = 4;

/// "that peer's set of at most 32"
pub const MOST_NOTICES: usize = 32;

/// "an entry goes at the third one after its arrival"
pub const NOTICE_LIFE: u64 = 3;

/// A message number that a peer does not want.
#[derive(Clone, Copy, PartialEq, Eq, Debug)]
pub struct Notice {
    pub number: u64,
    /// The heartbeat calls since its arrival.
    pub age: u64,
}

/// What decides a notice that comes in: the first that holds, in this order.
#[derive(Clone, Copy, PartialEq, Eq, PartialOrd, Ord, Debug)]
pub enum NoticeCase {
    /// "A notice from an older or graylisted peer is 11".
    Older,
    Graylisted,
    /// "one already held changes nothing"
    Held,
    /// "beyond it, 11, after the test for one already held"
    OverLimit,
    /// "a full set is 11"
    Full,
    PutIn,
}

impl Peer {
    pub fn holds_notice(&self, number: u64) -> bool {
        self.notices.iter().any(|notice| notice.number == number)
    }

    /// Another heartbeat: "sets the counts to 0; an entry goes at the third one".
    pub(super) fn age_notices(&mut self) {
        self.notices_in = 0;
        for notice in &mut self.notices {
            notice.age += 1;
        }
        self.notices.retain(|notice| notice.age < NOTICE_LIFE);
    }

    /// Test 12: "sets, counts .. are within bounds, no peer's set .. holding a number twice,
    /// or any if not connected".
    pub(super) fn notices_are_valid(&self, limit: u64) -> bool {
        self.notices_in <= limit && (self.notices.is_empty() || self.is_valid_set())
    }

    fn is_valid_set(&self) -> bool {
        let distinct: BTreeSet<u64> = self.notices.iter().map(|notice| notice.number).collect();
        self.status == Status::Connected
            && self.notices.len() <= MOST_NOTICES
            && distinct.len() == self.notices.len()
            && self.notices.iter().all(|notice| notice.age < NOTICE_LIFE)
    }
}

impl Router {
    /// "A host with a large message asks for IDONTWANT to all 1.2.0 members of the topic but
    /// the sender (0: ourselves); these are action kind 3 (third number 0), by slot".
    pub(super) fn ask(
        &self,
        topic: usize,
        sender: u32,
        actions: &mut Actions,
    ) -> Result<(), Refusal> {
        self.test_sender(topic, sender)?;
        let asked = |peer: &&Peer| {
            let member = peer.topics[topic].member;
            member && peer.version == Version::V12 && peer.id != sender
        };
        self.list(IDONTWANT, asked, actions);
        Ok(())
    }

    /// "A relay call lists by slot, as action kind 4 (third number 0), the members and
    /// connected, subscribed explicit peers, except the sender and those whose set holds the
    /// number."
    pub(super) fn relay(
        &self,
        topic: usize,
        number: u64,
        sender: u32,
        actions: &mut Actions,
    ) -> Result<(), Refusal> {
        self.test_sender(topic, sender)?;
        let passed_to = |peer: &&Peer| {
            let record = &peer.topics[topic];
            let explicit = peer.status == Status::Connected && record.subscribed && peer.explicit;
            (record.member || explicit) && peer.id != sender && !peer.holds_notice(number)
        };
        self.list(RELAY, passed_to, actions);
        Ok(())
    }

    /// A sender that is not ourselves is connected; "Ask and relay in a topic not joined are
    /// 11".
    fn test_sender(&self, topic: usize, sender: u32) -> Result<(), Refusal> {
        if sender != 0 {
            self.connected(sender)?;
        }
        refuse_if(!self.joined[topic], Refusal::Ignored)
    }

    /// The chosen peers by slot, as actions whose third number is 0.
    fn list(&self, kind: u32, chosen: impl Fn(&&Peer) -> bool, actions: &mut Actions) {
        for peer in self.peers.iter().filter(chosen) {
            actions.push([kind, peer.id, 0]);
        }
    }

    /// "A received IDONTWANT puts the number into that peer's set".
    pub(super) fn notice(&mut self, id: u32, number: u64) -> Result<(), Refusal> {
        let slot = self.connected(id)?;
        match self.notice_case(slot, number) {
            NoticeCase::Held => Ok(()),
            NoticeCase::PutIn => {
                let peer = &mut self.peers[slot];
                peer.notices.push(Notice { number, age: 0 });
                peer.notices_in += 1;
                Ok(())
            }
            _ => Err(Refusal::Ignored),
        }
    }

    pub fn notice_case(&self, slot: usize, number: u64) -> NoticeCase {
        let peer = &self.peers[slot];
        let cases = [
            (NoticeCase::Older, peer.version != Version::V12),
            (NoticeCase::Graylisted, self.graylisted(slot)),
            (NoticeCase::Held, peer.holds_notice(number)),
            (NoticeCase::OverLimit, peer.notices_in >= self.set_up.notice_limit),
            (NoticeCase::Full, peer.notices.len() >= MOST_NOTICES),
        ];
        let first = cases.iter().find(|(_, holds)| *holds);
        first.map_or(NoticeCase::PutIn, |&(case, _)| case)
    }
}
