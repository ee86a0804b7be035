//! Order 7 of 02: the stored message numbers, what is announced of them and to whom, and what
//! is answered to IHAVE and IWANT.

use super::{is_permutation, refuse_if, Actions, Peer, Refusal, Router, Status};
use crate::event::Permutation;
use crate::params::{general, TOPICS};
use std::collections::BTreeSet;

/// The first number of the action.
pub const IHAVE: u32 = 5;

/// "Store the last five heartbeats' message numbers per topic, the running one counted, at
/// most 64 a heartbeat"
pub const STORED_HEARTBEATS: usize = 5;
pub const MOST_STORED: usize = 64;

/// "announces the last three's in IHAVE"
const ANNOUNCED_HEARTBEATS: usize = 3;

/// A topic's message numbers, by heartbeat from the running one back; in each by arrival.
#[derive(Clone, PartialEq, Eq, Debug, Default)]
pub struct Store {
    pub heartbeats: [Vec<u64>; STORED_HEARTBEATS],
}

impl Store {
    pub fn numbers(&self) -> impl Iterator<Item = u64> + '_ {
        self.heartbeats.iter().flatten().copied()
    }

    pub fn holds(&self, number: u64) -> bool {
        self.numbers().any(|stored| stored == number)
    }

    /// The last three heartbeats' numbers, "oldest first".
    pub fn announced(&self) -> Vec<u64> {
        let last = &self.heartbeats[..ANNOUNCED_HEARTBEATS];
        last.iter().rev().flatten().copied().collect()
    }

    pub(super) fn next_heartbeat(&mut self) {
        self.heartbeats.rotate_right(1);
        self.heartbeats[0].clear();
    }

    /// Test 12: "stores are within bounds, no .. topic's store holding a number twice, or any
    /// if .. not joined".
    fn is_valid(&self, joined: bool) -> bool {
        let distinct: BTreeSet<u64> = self.numbers().collect();
        let count = self.numbers().count();
        self.heartbeats.iter().all(|numbers| numbers.len() <= MOST_STORED)
            && distinct.len() == count
            && (joined || count == 0)
    }
}

/// What decides a number to be stored: the first that holds, in this order.
#[derive(Clone, Copy, PartialEq, Eq, PartialOrd, Ord, Debug)]
pub enum StoreCase {
    /// "store, announce or IHAVE in a topic not joined is 11"
    NotJoined,
    /// "one already there changes nothing"
    Held,
    /// "With this heartbeat's 64 in the topic's store, a further number is 13, tested last"
    Full,
    Stored,
}

/// What decides an IHAVE: the first that holds.
#[derive(Clone, Copy, PartialEq, Eq, PartialOrd, Ord, Debug)]
pub enum IHaveCase {
    NotJoined,
    /// "from a non-explicit peer under the threshold is 11"
    UnderThreshold,
    /// "beyond either .. 11"
    OverBound,
    Answered,
}

/// What decides an IWANT: the first that holds.
#[derive(Clone, Copy, PartialEq, Eq, PartialOrd, Ord, Debug)]
pub enum IWantCase {
    UnderThreshold,
    /// "when no topic stores it, 11"
    NotStored,
    OverBound,
    Replied,
}

impl Router {
    /// Is the number in some topic's store?
    pub fn is_stored(&self, number: u64) -> bool {
        self.stores.iter().any(|store| store.holds(number))
    }

    pub(super) fn store(&mut self, topic: usize, number: u64) -> Result<(), Refusal> {
        match self.store_case(topic, number) {
            StoreCase::NotJoined => Err(Refusal::Ignored),
            StoreCase::Held => Ok(()),
            StoreCase::Full => Err(Refusal::NoRoom),
            StoreCase::Stored => {
                self.stores[topic].heartbeats[0].push(number);
                Ok(())
            }
        }
    }

    pub fn store_case(&self, topic: usize, number: u64) -> StoreCase {
        let store = &self.stores[topic];
        if !self.joined[topic] {
            StoreCase::NotJoined
        } else if store.holds(number) {
            StoreCase::Held
        } else if store.heartbeats[0].len() >= MOST_STORED {
            StoreCase::Full
        } else {
            StoreCase::Stored
        }
    }

    /// "a call with a tidy's draw and tests announces the last three's in IHAVE, oldest first
    /// in a lent list of 192 numbers .., its targets as action kind 5 (third number 0), none
    /// without numbers"
    pub(super) fn announce(
        &self,
        topic: usize,
        permutation: &Permutation,
        actions: &mut Actions,
    ) -> Result<Vec<u64>, Refusal> {
        refuse_if(!is_permutation(permutation), Refusal::BadPermutation)?;
        refuse_if(!self.joined[topic], Refusal::Ignored)?;
        let numbers = self.stores[topic].announced();
        if !numbers.is_empty() {
            for slot in self.targets(topic, permutation) {
                actions.push([IHAVE, self.peers[slot].id, 0]);
            }
        }
        Ok(numbers)
    }

    /// "take the larger of D_lazy and floor(count × factor / 1000), or all if fewer, in draw
    /// order": the slots of those taken.
    pub fn targets(&self, topic: usize, permutation: &Permutation) -> Vec<usize> {
        let order = permutation.iter().map(|&slot| slot as usize);
        let mut targets: Vec<usize> = order.filter(|&slot| self.is_target(slot, topic)).collect();
        let share = targets.len() as u64 * self.set_up.factor / 1000;
        targets.truncate(self.set_up.d_lazy.max(share) as usize);
        targets
    }

    /// "Targets are connected subscribed non-members, not explicit, scoring at least the
    /// gossip threshold".
    pub fn is_target(&self, slot: usize, topic: usize) -> bool {
        let peer = &self.peers[slot];
        let record = &peer.topics[topic];
        peer.status == Status::Connected
            && record.subscribed
            && !record.member
            && !peer.explicit
            && self.score(slot) >= self.gossip_threshold()
    }

    /// The threshold as a score.
    pub fn gossip_threshold(&self) -> i64 {
        self.params.general(general::GOSSIP_THRESHOLD) * 1_000_000
    }

    /// "a non-explicit peer under the threshold"
    fn under_threshold(&self, slot: usize) -> bool {
        !self.peers[slot].explicit && self.score(slot) < self.gossip_threshold()
    }

    /// "IHAVE is answered, in such a list, by those that no topic stores, each once, in order."
    pub(super) fn ihave(
        &mut self,
        id: u32,
        topic: usize,
        numbers: &[u64],
    ) -> Result<Vec<u64>, Refusal> {
        let slot = self.connected(id)?;
        refuse_if(self.ihave_case(slot, topic) != IHaveCase::Answered, Refusal::Ignored)?;
        self.peers[slot].ihaves_in += 1;
        let mut wanted = Vec::new();
        for &number in numbers {
            if !self.is_stored(number) && !wanted.contains(&number) {
                wanted.push(number);
            }
        }
        Ok(wanted)
    }

    pub fn ihave_case(&self, slot: usize, topic: usize) -> IHaveCase {
        if !self.joined[topic] {
            IHaveCase::NotJoined
        } else if self.under_threshold(slot) {
            IHaveCase::UnderThreshold
        } else if self.peers[slot].ihaves_in >= self.set_up.ihave_bound {
            IHaveCase::OverBound
        } else {
            IHaveCase::Answered
        }
    }

    /// An answer 0 is the reply.
    pub(super) fn iwant(&mut self, id: u32, number: u64) -> Result<(), Refusal> {
        let slot = self.connected(id)?;
        refuse_if(self.iwant_case(slot, number) != IWantCase::Replied, Refusal::Ignored)?;
        *self.peers[slot].replies.entry(number).or_default() += 1;
        Ok(())
    }

    pub fn iwant_case(&self, slot: usize, number: u64) -> IWantCase {
        let replies = self.peers[slot].replies.get(&number).copied().unwrap_or(0);
        if self.under_threshold(slot) {
            IWantCase::UnderThreshold
        } else if !self.is_stored(number) {
            IWantCase::NotStored
        } else if replies >= self.set_up.iwant_bound {
            IWantCase::OverBound
        } else {
            IWantCase::Replied
        }
    }

    /// "a leave empties its topic's store"
    pub(super) fn empty_store(&mut self, topic: usize) {
        self.stores[topic] = Store::default();
        self.forget_replies();
    }

    /// Replies are counted for a number "while it stays stored", in whatever topics.
    pub(super) fn forget_replies(&mut self) {
        let stored = self.stored_numbers();
        for peer in &mut self.peers {
            peer.replies.retain(|number, _| stored.contains(number));
        }
    }

    fn stored_numbers(&self) -> BTreeSet<u64> {
        self.stores.iter().flat_map(Store::numbers).collect()
    }

    /// Test 12 on stores and on the counts of IHAVEs and replies: replies are counted for
    /// stored numbers and connected peers alone.
    pub(super) fn gossip_is_valid(&self) -> bool {
        let stored = self.stored_numbers();
        let (ihaves, replies) = (self.set_up.ihave_bound, self.set_up.iwant_bound);
        let counts = |peer: &Peer| {
            let counted = |(number, count): (&u64, &u64)| {
                stored.contains(number) && (1..=replies).contains(count)
            };
            peer.ihaves_in <= ihaves
                && peer.replies.iter().all(counted)
                && (peer.status == Status::Connected || peer.replies.is_empty())
        };
        (0..TOPICS).all(|k| self.stores[k].is_valid(self.joined[k]))
            && self.peers.iter().all(counts)
    }
}
