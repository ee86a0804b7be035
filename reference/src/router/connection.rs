//! 01, "Connect" and "Disconnect", "Join / leave".

use super::{refuse_if, Actions, Peer, Refusal, Router, Status, Version};
use crate::event::{EXPLICIT_FLAG, OUTBOUND_FLAG};
use crate::params::{general, TOPICS};

/// The slot that a connect gives.
#[derive(Clone, Copy, PartialEq, Eq, Debug)]
pub enum Place {
    /// A retained record of the same id goes on.
    Resumed(usize),
    Fresh(usize),
}

/// 01: "protocol name exactly /meshsub/1.0.0 or /meshsub/1.1.0"; order 6 of 02: "Accept
/// /meshsub/1.2.0".
fn version_of(name: &[u8]) -> Result<Version, Refusal> {
    match name {
        b"/meshsub/1.0.0" => Ok(Version::V10),
        b"/meshsub/1.1.0" => Ok(Version::V11),
        b"/meshsub/1.2.0" => Ok(Version::V12),
        _ => Err(Refusal::UnknownProtocol),
    }
}

impl Router {
    pub(super) fn connect(
        &mut self,
        now: u64,
        id: u32,
        groups: &[u64],
        flags: u64,
        name: &[u8],
    ) -> Result<(), Refusal> {
        let version = version_of(name)?;
        refuse_if(self.connected(id).is_ok(), Refusal::AlreadyConnected)?;
        let place = self.place_for(id, now).ok_or(Refusal::NoSlot)?;
        self.reclaim(now);
        let (Place::Resumed(slot) | Place::Fresh(slot)) = place;
        let peer = &mut self.peers[slot];
        peer.status = Status::Connected;
        peer.id = id;
        peer.groups = std::array::from_fn(|place| groups.get(place).map(|&group| group as u32));
        peer.outbound = flags & OUTBOUND_FLAG != 0;
        peer.explicit = flags & EXPLICIT_FLAG != 0;
        peer.version = version;
        peer.retain_end = 0;
        Ok(())
    }

    /// 01: "A retained id resumes its record ...; another takes the lowest
    /// empty slot", both after every reclaimable record is emptied.
    pub fn place_for(&self, id: u32, now: u64) -> Option<Place> {
        let stays = |peer: &Peer| peer.status != Status::Empty && !peer.is_reclaimable(now);
        let resumed = self.peers.iter().position(|peer| peer.id == id && stays(peer));
        let fresh = || self.peers.iter().position(|peer| !stays(peer));
        resumed.map(Place::Resumed).or_else(|| fresh().map(Place::Fresh))
    }

    /// The slots that a connect empties first.
    pub fn reclaimable_slots(&self, now: u64) -> Vec<usize> {
        (0..self.peers.len()).filter(|&slot| self.peers[slot].is_reclaimable(now)).collect()
    }

    fn reclaim(&mut self, now: u64) {
        for slot in self.reclaimable_slots(now) {
            self.peers[slot] = Peer::default();
        }
    }

    /// "Leaves every mesh, loses subscriptions, keeps counters and backoffs,
    /// starts the retain period". Order 6 of 02: an entry of the set goes "at a disconnect";
    /// the counts of this heartbeat are the record's and stay, those of replies (order 7) are
    /// the connection's.
    pub(super) fn disconnect(&mut self, now: u64, id: u32) -> Result<(), Refusal> {
        let slot = self.connected(id)?;
        let peer = &mut self.peers[slot];
        for k in 0..TOPICS {
            peer.leave_mesh(k);
            peer.topics[k].subscribed = false;
        }
        peer.notices.clear();
        peer.replies.clear();
        peer.retain_from(now, &self.params);
        Ok(())
    }

    pub(super) fn join(&mut self, topic: usize) -> Result<(), Refusal> {
        refuse_if(self.joined[topic], Refusal::Ignored)?;
        self.joined[topic] = true;
        Ok(())
    }

    /// "Leave PRUNEs every member by slot, with the unsubscribe backoff"; order 7 of 02: "a
    /// leave empties its topic's store".
    pub(super) fn leave(
        &mut self,
        now: u64,
        topic: usize,
        actions: &mut Actions,
    ) -> Result<(), Refusal> {
        refuse_if(!self.joined[topic], Refusal::Ignored)?;
        let seconds = self.params.general(general::UNSUBSCRIBE_BACKOFF) as u64;
        for slot in self.mesh(topic) {
            // A PRUNE changes no other peer's score, so this is the start's.
            if self.score(slot) < 0 {
                self.punish_failure(slot, topic);
            }
            self.send_prune(slot, topic, now, seconds, actions);
        }
        self.joined[topic] = false;
        self.empty_store(topic);
        Ok(())
    }
}
