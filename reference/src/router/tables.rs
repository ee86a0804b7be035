//! The records of peers, and the test that tables are a router's.

use super::{Notice, Router};
use crate::event::{GROUPS, LAST_TIME, P5_LIMIT};
use crate::params::{general, topic, Params, TOPICS};
use std::collections::BTreeMap;

/// P4 and P7 stop at 10^6 thousandths, P3b at 10^12 millionths.
pub const P4_P7_LIMIT: i64 = 1_000_000;
pub const P3B_LIMIT: i64 = 1_000_000_000_000;

/// Our own GRAFT waits so many milliseconds after a backoff's end.
pub const GRAFT_SLACK: u64 = 1000;

/// The longest backoff and retain period, in milliseconds.
pub const LONGEST_BACKOFF_MS: u64 = 3_600_000;
pub const LONGEST_RETAIN_MS: u64 = 86_400_000;

/// The latest ends of a backoff and of a retain period.
const LAST_BACKOFF_END: u64 = LAST_TIME + LONGEST_BACKOFF_MS;
const LAST_RETAIN_END: u64 = LAST_TIME + LONGEST_RETAIN_MS;

#[derive(Clone, Copy, PartialEq, Eq, Debug, Default)]
pub enum Status {
    #[default]
    Empty,
    Connected,
    /// Kept for a while after a disconnect.
    Retained,
}

#[derive(Clone, Copy, PartialEq, Eq, Debug, Default)]
pub enum Version {
    #[default]
    V10,
    V11,
    /// Order 6 of 02.
    V12,
}

/// A peer's record in one topic. P2, P3 and P4 count thousandths, P3b
/// millionths.
#[derive(Clone, PartialEq, Eq, Debug, Default)]
pub struct TopicRecord {
    pub subscribed: bool,
    pub member: bool,
    pub graft_time: u64,
    pub mesh_time: u64,
    pub p2: i64,
    pub p3: i64,
    pub p3b: i64,
    pub p4: i64,
}

/// Order 11 of 02: "A record holds one to four different address groups (an empty one
/// none ..), lowest first". Past the last group there is none.
pub type Groups = [Option<u32>; GROUPS];

/// A peer's record; the default one is empty, all zero.
#[derive(Clone, PartialEq, Eq, Debug, Default)]
pub struct Peer {
    pub status: Status,
    pub id: u32,
    pub groups: Groups,
    pub outbound: bool,
    pub explicit: bool,
    pub version: Version,
    pub p5: i64,
    pub p7: i64,
    pub retain_end: u64,
    pub topics: [TopicRecord; TOPICS],
    pub backoff_ends: [u64; TOPICS],
    /// Order 6 of 02: the message numbers that the peer does not want, by arrival, and how
    /// many were put in since the last heartbeat call.
    pub notices: Vec<Notice>,
    pub notices_in: u64,
    /// Order 7 of 02: the IHAVEs answered since the last heartbeat call, and the replies to
    /// IWANT in this connection, by message number.
    pub ihaves_in: u64,
    pub replies: BTreeMap<u64, u64>,
}

impl TopicRecord {
    /// All its numbers, joined bit by bit.
    fn bits(&self) -> u64 {
        let TopicRecord { subscribed, member, graft_time, mesh_time, p2, p3, p3b, p4 } = *self;
        let flags = u64::from(subscribed | member);
        flags | graft_time | mesh_time | (p2 | p3 | p3b | p4) as u64
    }
}

impl Peer {
    /// "Empty records are all zero": as the default one. Most records of most routers are
    /// empty, and every call asks, so all numbers are looked at together.
    pub fn is_zero(&self) -> bool {
        let Peer {
            status,
            id,
            groups,
            outbound,
            explicit,
            version,
            p5,
            p7,
            retain_end,
            topics,
            backoff_ends,
            notices,
            notices_in,
            ihaves_in,
            replies,
        } = self;
        let flags = *status as u64 | u64::from(outbound | explicit) | *version as u64;
        let own = u64::from(*id) | flags | (p5 | p7) as u64 | retain_end;
        let counts = notices_in | ihaves_in;
        let of_topics = topics.iter().fold(0, |bits, record| bits | record.bits());
        let numbers =
            own | counts | of_topics | backoff_ends.iter().fold(0, |bits, end| bits | end);
        let sets = notices.is_empty() && replies.is_empty();
        numbers == 0 && *groups == Groups::default() && sets
    }

    pub fn leave_mesh(&mut self, topic: usize) {
        let record = &mut self.topics[topic];
        record.member = false;
        record.graft_time = 0;
        record.mesh_time = 0;
    }

    /// No later PRUNE shortens a backoff.
    pub fn extend_backoff(&mut self, topic: usize, end: u64) {
        let old = &mut self.backoff_ends[topic];
        *old = end.max(*old);
    }

    pub fn backoff_running(&self, topic: usize, now: u64) -> bool {
        now < self.backoff_ends[topic]
    }

    /// Order 3 of 02: "A candidate now needs now ≥ backoff end + 1000 ms, or an end
    /// of 0 (never set). Incoming GRAFTs and the emptying of records still go by
    /// the end alone."
    pub fn slack_over(&self, topic: usize, now: u64) -> bool {
        let end = self.backoff_ends[topic];
        end == 0 || now >= end + GRAFT_SLACK
    }

    /// 01: "retained, retain period over (now ≥ its end), all eight backoffs over".
    pub fn is_reclaimable(&self, now: u64) -> bool {
        let backoffs_over = (0..TOPICS).all(|k| !self.backoff_running(k, now));
        self.status == Status::Retained && now >= self.retain_end && backoffs_over
    }

    /// Starts the retain period.
    pub fn retain_from(&mut self, now: u64, params: &Params) {
        self.status = Status::Retained;
        self.retain_end = now + 1000 * params.general(general::RETAIN) as u64;
    }

    /// Order 8 of 02, of test 12: remaining times "from the clock".
    fn ends_near(&self, clock: u64) -> bool {
        let remaining = |end: u64| end.saturating_sub(clock);
        remaining(self.retain_end) <= LONGEST_RETAIN_MS
            && self.backoff_ends.iter().all(|&end| remaining(end) <= LONGEST_BACKOFF_MS)
    }

    /// The groups, lowest first.
    pub fn groups(&self) -> impl Iterator<Item = u32> + '_ {
        self.groups.iter().copied().flatten()
    }

    pub fn holds(&self, group: u32) -> bool {
        self.groups.contains(&Some(group))
    }

    /// One at least, each above the one before it, and none past the last.
    fn groups_in_order(&self) -> bool {
        let follows = |pair: &[Option<u32>]| match (pair[0], pair[1]) {
            (Some(first), Some(second)) => first < second,
            (_, second) => second.is_none(),
        };
        self.groups[0].is_some() && self.groups.windows(2).all(follows)
    }

    fn in_ranges(&self) -> bool {
        let retain_limit = if self.status == Status::Retained { LAST_RETAIN_END } else { 0 };
        self.id != 0
            && self.groups_in_order()
            && (-P5_LIMIT..=P5_LIMIT).contains(&self.p5)
            && (0..=P4_P7_LIMIT).contains(&self.p7)
            && self.retain_end <= retain_limit
            && self.backoff_ends.iter().all(|&end| end <= LAST_BACKOFF_END)
    }
}

impl Router {
    /// 01: "Tables are a router's if ...". Each call keeps this so.
    pub fn is_valid(&self) -> bool {
        let broken = self.params.first_broken_but(self.waived_rule);
        broken.is_none()
            && self.set_up.in_range()
            && self.clock <= LAST_TIME
            && self.ids_are_distinct()
            && self.gossip_is_valid()
            && self.peers.iter().all(|peer| self.is_valid_peer(peer))
    }

    fn ids_are_distinct(&self) -> bool {
        let mut ids: Vec<u32> = self.peers.iter().map(|peer| peer.id).collect();
        ids.retain(|&id| id != 0);
        ids.sort_unstable();
        ids.windows(2).all(|pair| pair[0] != pair[1])
    }

    fn is_valid_peer(&self, peer: &Peer) -> bool {
        if peer.status == Status::Empty {
            return peer.is_zero();
        }
        peer.in_ranges()
            && peer.ends_near(self.clock)
            && peer.notices_are_valid(self.set_up.notice_limit)
            && (0..TOPICS).all(|k| self.is_valid_topic(peer, k))
    }

    fn is_valid_topic(&self, peer: &Peer, k: usize) -> bool {
        let record = &peer.topics[k];
        let connected = peer.status == Status::Connected;
        let counters = (0..=self.params.topic(k, topic::P2_CAP)).contains(&record.p2)
            && (0..=self.params.topic(k, topic::P3_CAP)).contains(&record.p3)
            && (0..=P3B_LIMIT).contains(&record.p3b)
            && (0..=P4_P7_LIMIT).contains(&record.p4);
        let membership = if record.member {
            connected && record.subscribed && !peer.explicit && self.joined[k]
        } else {
            record.graft_time == 0 && record.mesh_time == 0
        };
        // Each time is bounded first, so that their sum cannot overflow.
        let times = record.graft_time <= self.clock
            && record.mesh_time <= self.clock
            && record.graft_time + record.mesh_time <= self.clock;
        counters && membership && times && (connected || !record.subscribed)
    }

    /// 01: "a non-explicit peer scoring below graylist".
    pub fn graylisted(&self, slot: usize) -> bool {
        let threshold = self.params.general(general::GRAYLIST_THRESHOLD) * 1_000_000;
        !self.peers[slot].explicit && self.score(slot) < threshold
    }
}
