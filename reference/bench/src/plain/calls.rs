//! Connections, joining and leaving, subscriptions, GRAFT and PRUNE.

use super::slots::Slots;
use super::{is_id, is_topic, Actions, Peer, Router, Status};
use reference::event::GROUPS;
use reference::params::{general, TOPICS};
use reference::router::{Answer, Refusal};

const LONGEST_BACKOFF: u64 = 3600;

/// One to four groups of 32 bits, each above the one before it.
fn are_groups(groups: &[u64]) -> bool {
    (1..=GROUPS).contains(&groups.len())
        && groups.windows(2).all(|pair| pair[0] < pair[1])
        && groups[groups.len() - 1] <= u64::from(u32::MAX)
}

/// What a connect finds in one walk over the slots.
#[derive(Default)]
struct Found {
    resumed: Option<usize>,
    free: Option<usize>,
    reclaimable: Slots,
}

impl Router {
    pub fn connect(
        &mut self,
        now: u64,
        id: u64,
        groups: &[u64],
        flags: u64,
        name: &[u8],
        list: &mut [u32],
    ) -> Answer {
        self.admit(is_id(id) && are_groups(groups) && flags <= 3, now, list)?;
        let v11 = match name {
            b"/meshsub/1.0.0" => false,
            b"/meshsub/1.1.0" | b"/meshsub/1.2.0" => true,
            _ => return Err(Refusal::UnknownProtocol),
        };
        let found = self.find_for(id as u32, now)?;
        let slot = found.resumed.or(found.free).ok_or(Refusal::NoSlot)?;
        for reclaimed in found.reclaimable.each() {
            self.peers[reclaimed] = Peer::default();
        }
        let peer = &mut self.peers[slot];
        peer.status = Status::Connected;
        peer.id = id as u32;
        peer.groups = [0; GROUPS];
        for (own, &group) in peer.groups.iter_mut().zip(groups) {
            *own = group as u32;
        }
        peer.group_count = groups.len() as u8;
        peer.outbound = flags & 1 != 0;
        peer.explicit = flags & 2 != 0;
        peer.v11 = v11;
        peer.retain_end = 0;
        self.done(now, 0)
    }

    fn find_for(&self, id: u32, now: u64) -> Result<Found, Refusal> {
        let mut found = Found::default();
        for (slot, peer) in self.peers.iter().enumerate() {
            let reclaimable = peer.is_reclaimable(now);
            if peer.id == id && peer.status == Status::Connected {
                return Err(Refusal::AlreadyConnected);
            }
            if peer.id == id && !reclaimable {
                found.resumed = Some(slot);
            }
            if peer.status == Status::Empty || reclaimable {
                found.free = found.free.or(Some(slot));
            }
            found.reclaimable.put(slot, reclaimable);
        }
        Ok(found)
    }

    pub fn disconnect(&mut self, now: u64, id: u64, list: &mut [u32]) -> Answer {
        self.admit(is_id(id), now, list)?;
        let slot = self.connected(id)?;
        let retain = self.general(general::RETAIN) as u64;
        let peer = &mut self.peers[slot];
        peer.topics.subscribed = 0;
        peer.topics.member = 0;
        peer.topics.graft_times = [0; TOPICS];
        peer.topics.mesh_times = [0; TOPICS];
        peer.status = Status::Retained;
        peer.retain_end = now + 1000 * retain;
        self.done(now, 0)
    }

    pub fn join(&mut self, now: u64, topic: u64, list: &mut [u32]) -> Answer {
        self.admit(is_topic(topic), now, list)?;
        if self.is_joined(topic as usize) {
            return self.ignored(now);
        }
        self.joined |= 1 << topic;
        self.done(now, 0)
    }

    pub fn leave(&mut self, now: u64, topic: u64, list: &mut [u32]) -> Answer {
        self.admit(is_topic(topic), now, list)?;
        let k = topic as usize;
        if !self.is_joined(k) {
            return self.ignored(now);
        }
        let seconds = self.general(general::UNSUBSCRIBE_BACKOFF) as u64;
        let mut actions = Actions { list, count: 0 };
        // A PRUNE changes no other peer's score.
        let surpluses = self.surpluses();
        for (slot, surplus) in surpluses.into_iter().enumerate() {
            if self.peers[slot].is_member(k) {
                if self.why_among(&self.peers[slot], surplus).score() < 0 {
                    self.punish(slot, k);
                }
                self.send_prune(slot, k, now + 1000 * seconds, seconds, &mut actions);
            }
        }
        self.joined &= !(1 << topic);
        let count = actions.count;
        self.done(now, count)
    }

    pub fn subscribe(&mut self, now: u64, id: u64, topic: u64, list: &mut [u32]) -> Answer {
        self.admit(is_id(id) && is_topic(topic), now, list)?;
        let slot = self.connected(id)?;
        if self.graylisted(slot) {
            return self.ignored(now);
        }
        self.peers[slot].topics.subscribed |= 1 << topic;
        self.done(now, 0)
    }

    pub fn unsubscribe(&mut self, now: u64, id: u64, topic: u64, list: &mut [u32]) -> Answer {
        self.admit(is_id(id) && is_topic(topic), now, list)?;
        let slot = self.connected(id)?;
        if self.graylisted(slot) {
            return self.ignored(now);
        }
        let peer = &mut self.peers[slot];
        peer.leave_mesh(topic as usize);
        peer.topics.subscribed &= !(1 << topic);
        self.done(now, 0)
    }

    pub fn prune(
        &mut self,
        now: u64,
        id: u64,
        topic: u64,
        seconds: u64,
        list: &mut [u32],
    ) -> Answer {
        self.admit(is_id(id) && is_topic(topic), now, list)?;
        let slot = self.connected(id)?;
        let k = topic as usize;
        if !self.is_joined(k) || self.graylisted(slot) {
            return self.ignored(now);
        }
        let given = if seconds == 0 { self.prune_backoff() } else { seconds.min(LONGEST_BACKOFF) };
        let peer = &mut self.peers[slot];
        peer.leave_mesh(k);
        peer.extend_backoff(k, now + 1000 * given);
        self.done(now, 0)
    }

    pub fn graft(&mut self, now: u64, id: u64, topic: u64, list: &mut [u32]) -> Answer {
        self.admit(is_id(id) && is_topic(topic), now, list)?;
        let slot = self.connected(id)?;
        let k = topic as usize;
        if !self.is_joined(k) {
            return self.ignored(now);
        }
        let score = self.score_of(slot);
        let peer = &self.peers[slot];
        if !peer.explicit && score < self.general(general::GRAYLIST_THRESHOLD) * 1_000_000 {
            return self.ignored(now);
        }
        if peer.is_member(k) {
            return self.done(now, 0);
        }
        if !peer.explicit && now < peer.backoff_ends[k] {
            self.offend(slot);
        } else if !peer.explicit && score >= 0 && peer.is_subscribed(k) && self.open(slot, k) {
            self.peers[slot].enter_mesh(k, now);
            return self.done(now, 0);
        }
        let seconds = self.prune_backoff();
        let mut actions = Actions { list, count: 0 };
        self.send_prune(slot, k, now + 1000 * seconds, seconds, &mut actions);
        self.done(now, 1)
    }

    /// D_hi keeps only inbound peers out.
    fn open(&self, slot: usize, k: usize) -> bool {
        self.peers[slot].outbound || (self.mesh_size(k) as i64) < self.general(general::D_HI)
    }
}

impl Peer {
    fn is_reclaimable(&self, now: u64) -> bool {
        self.status == Status::Retained
            && now >= self.retain_end
            && self.backoff_ends.iter().all(|&end| now >= end)
    }
}
