//! Scores, deliveries and decay. Every sum fits 64 bits: no score passes
//! 2.6 * 10^18, and neither does a part of one.

use super::{is_id, is_topic, Peer, Router, Status, Topics};
use reference::event::{GROUPS, P5_LIMIT};
use reference::params::{general, topic, TOPICS, TOPIC_COUNT};
use reference::router::{Answer, Done, Why};

const P4_P7_LIMIT: u32 = 1_000_000;
const P3B_LIMIT: u64 = 1_000_000_000_000;
const MESSAGE: u32 = 1000;

/// The decay factors, by topic.
struct Factors {
    p2: [u32; TOPICS],
    p3: [u32; TOPICS],
    p3b: [u32; TOPICS],
    p4: [u32; TOPICS],
}

impl Router {
    pub fn score(&mut self, now: u64, id: u64, list: &mut [u32]) -> Answer {
        self.admit(is_id(id), now, list)?;
        let slot = self.connected(id)?;
        self.clock = now;
        Ok(Done::Score(self.why(slot)))
    }

    pub fn set_p5(&mut self, now: u64, id: u64, value: i64, list: &mut [u32]) -> Answer {
        let in_range = (-P5_LIMIT..=P5_LIMIT).contains(&value);
        self.admit(is_id(id) && in_range, now, list)?;
        let slot = self.connected(id)?;
        self.peers[slot].p5 = value as i32;
        self.done(now, 0)
    }

    pub(super) fn score_of(&self, slot: usize) -> i64 {
        self.why(slot).score()
    }

    fn why(&self, slot: usize) -> Why {
        let peer = &self.peers[slot];
        // One walk over the records for all groups.
        let mut sharing = [0; GROUPS];
        for other in self.peers.iter().filter(|other| other.status == Status::Connected) {
            for (count, &group) in sharing.iter_mut().zip(peer.groups()) {
                *count += i64::from(other.holds(group));
            }
        }
        let threshold = self.general(general::P6_THRESHOLD);
        let squared = |count: &i64| (count - threshold).max(0).pow(2);
        self.why_among(peer, sharing.iter().map(squared).sum())
    }

    /// The parts of the score of a peer whose groups' squared surpluses have this sum.
    pub(super) fn why_among(&self, peer: &Peer, surpluses: i64) -> Why {
        let mut total = 0;
        for k in 0..TOPICS {
            total += topic_score(self.topic(k), &peer.topics, k);
        }
        let cap = self.general(general::TOPIC_CAP) * 1_000_000;
        let p7 = i64::from(peer.p7);
        Why {
            total,
            capped: if cap == 0 { total } else { total.min(cap) },
            p5: self.general(general::W5) * i64::from(peer.p5) * 1000,
            p6: self.general(general::W6) * surpluses * 1_000_000_000,
            p7: self.general(general::W7) * p7 * p7 * 1000,
        }
    }

    fn factors(&self) -> Factors {
        let column = |place: usize| std::array::from_fn(|k| self.topic(k)[place] as u32);
        Factors {
            p2: column(topic::P2_DECAY),
            p3: column(topic::P3_DECAY),
            p3b: column(topic::P3B_DECAY),
            p4: column(topic::P4_DECAY),
        }
    }

    pub(super) fn graylisted(&self, slot: usize) -> bool {
        let threshold = self.general(general::GRAYLIST_THRESHOLD) * 1_000_000;
        !self.peers[slot].explicit && self.score_of(slot) < threshold
    }

    /// P3b grows by P3 as it stands.
    pub(super) fn punish(&mut self, slot: usize, k: usize) {
        let p3 = p3(self.topic(k), &self.peers[slot].topics, k) as u64;
        let p3b = &mut self.peers[slot].topics.p3b[k];
        *p3b = (*p3b + p3).min(P3B_LIMIT);
    }

    /// A GRAFT that came during the backoff.
    pub(super) fn offend(&mut self, slot: usize) {
        let p7 = &mut self.peers[slot].p7;
        *p7 = (*p7 + MESSAGE).min(P4_P7_LIMIT);
    }

    pub fn deliver(
        &mut self,
        now: u64,
        id: u64,
        topic: u64,
        kind: u64,
        list: &mut [u32],
    ) -> Answer {
        self.admit(is_id(id) && is_topic(topic) && (1..=3).contains(&kind), now, list)?;
        let slot = self.connected(id)?;
        let k = topic as usize;
        if !self.is_joined(k) || self.graylisted(slot) {
            return self.ignored(now);
        }
        let numbers = self.topic(k);
        let (p2_cap, p3_cap) = (numbers[topic::P2_CAP] as u32, numbers[topic::P3_CAP] as u32);
        let member = self.peers[slot].is_member(k);
        let topics = &mut self.peers[slot].topics;
        if kind == 3 {
            topics.p4[k] = (topics.p4[k] + MESSAGE).min(P4_P7_LIMIT);
        } else {
            if kind == 1 {
                topics.p2[k] = (topics.p2[k] + MESSAGE).min(p2_cap);
            }
            if member {
                topics.p3[k] = (topics.p3[k] + MESSAGE).min(p3_cap);
            }
        }
        self.done(now, 0)
    }

    pub fn decay(&mut self, now: u64, list: &mut [u32]) -> Answer {
        self.admit(true, now, list)?;
        let factors = self.factors();
        let floor = self.general(general::DECAY_TO_ZERO) as u32;
        let p7_decay = self.numbers[general::P7_DECAY] as u32;
        for peer in self.peers.iter_mut().filter(|peer| peer.status == Status::Connected) {
            peer.p7 = decayed(peer.p7, p7_decay, floor);
            peer.topics.decay(&factors, floor, now);
        }
        self.done(now, 0)
    }
}

impl Topics {
    fn decay(&mut self, factors: &Factors, floor: u32, now: u64) {
        for k in 0..TOPICS {
            self.p2[k] = decayed(self.p2[k], factors.p2[k], floor);
            self.p3[k] = decayed(self.p3[k], factors.p3[k], floor);
            self.p4[k] = decayed(self.p4[k], factors.p4[k], floor);
        }
        for k in 0..TOPICS {
            let p3b = self.p3b[k] * u64::from(factors.p3b[k]) / 1000;
            self.p3b[k] = if p3b < 1000 * u64::from(floor) { 0 } else { p3b };
        }
        for k in (0..TOPICS).filter(|k| self.member >> k & 1 == 1) {
            self.mesh_times[k] = now - self.graft_times[k];
        }
    }
}

/// A counter is at most 10^6 and a factor under 1000, so the product fits.
#[inline(always)]
fn decayed(counter: u32, factor: u32, floor: u32) -> u32 {
    let value = counter * factor / 1000;
    if value < floor {
        0
    } else {
        value
    }
}

#[inline(always)]
fn topic_score(numbers: &[i32; TOPIC_COUNT], topics: &Topics, k: usize) -> i64 {
    let n = |place: usize| i64::from(numbers[place]);
    let p4 = i64::from(topics.p4[k]);
    n(topic::WEIGHT)
        * (n(topic::W1) * p1(numbers, topics.mesh_times[k])
            + n(topic::W2) * i64::from(topics.p2[k]) * 1000
            + n(topic::W3) * p3(numbers, topics, k)
            + n(topic::W3B) * topics.p3b[k] as i64
            + n(topic::W4) * p4 * p4)
}

/// A non-member has mesh time 0; the division is spared it.
#[inline(always)]
fn p1(numbers: &[i32; TOPIC_COUNT], mesh_time: u64) -> i64 {
    if mesh_time == 0 {
        return 0;
    }
    let quanta = mesh_time / numbers[topic::QUANTUM] as u64;
    quanta.min(numbers[topic::P1_CAP] as u64) as i64 * 1_000_000
}

/// Mesh time past the activation is a member's alone.
#[inline(always)]
fn p3(numbers: &[i32; TOPIC_COUNT], topics: &Topics, k: usize) -> i64 {
    let active = topics.mesh_times[k] > numbers[topic::ACTIVATION] as u64;
    let missing = i64::from(numbers[topic::P3_THRESHOLD]) - i64::from(topics.p3[k]);
    if active & (missing > 0) {
        missing * missing
    } else {
        0
    }
}
