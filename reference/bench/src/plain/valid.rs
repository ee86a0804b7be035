//! Test 12: "Tables are a router's if ..". Conditions are joined without branches
//! where the compiler can then take several fields or records at once.

use super::{Peer, Router, Status, Topics};
use reference::event::{GROUPS, LAST_TIME, P5_LIMIT, SLOTS};
use reference::params::{
    general, topic, topic_index, Edition, COUNT, GENERAL, GENERAL_COUNT, TOPIC, TOPICS, TOPIC_COUNT,
};

const P4_P7_LIMIT: u32 = 1_000_000;
const P3B_LIMIT: u64 = 1_000_000_000_000;
const LONGEST_BACKOFF_MS: u64 = 3_600_000;
const LONGEST_RETAIN_MS: u64 = 86_400_000;

/// The limits of all 147 numbers, laid out as the numbers are.
const LIMITS: ([i32; COUNT], [i32; COUNT]) = limits();

const fn limits() -> ([i32; COUNT], [i32; COUNT]) {
    let (mut low, mut high) = ([0; COUNT], [0; COUNT]);
    let mut index = 0;
    while index < COUNT {
        let field = if index < GENERAL_COUNT {
            &GENERAL[index]
        } else {
            &TOPIC[(index - GENERAL_COUNT) % TOPIC_COUNT]
        };
        low[index] = field.low as i32;
        high[index] = field.high as i32;
        index += 1;
    }
    (low, high)
}

/// The caps of the counters of P2 and P3, by topic.
struct Caps {
    p2: [u32; TOPICS],
    p3: [u32; TOPICS],
}

/// The top bit is set exactly if the value is over the limit, which is under 2^62.
fn over(value: u64, limit: u64) -> u64 {
    limit.wrapping_sub(value) | value
}

fn within(values: &[u64; TOPICS], limits: &[u64; TOPICS]) -> bool {
    let pairs = values.iter().zip(limits);
    pairs.fold(0, |bad, (&value, &limit)| bad | over(value, limit)) >> 63 == 0
}

/// The same for 32 bits and limits under 2^30.
fn within_32(values: &[u32; TOPICS], limits: &[u32; TOPICS]) -> bool {
    let over = |value: u32, limit: u32| limit.wrapping_sub(value) | value;
    let pairs = values.iter().zip(limits);
    pairs.fold(0, |bad, (&value, &limit)| bad | over(value, limit)) >> 31 == 0
}

impl Router {
    pub fn is_valid(&self) -> bool {
        self.clock <= LAST_TIME && self.numbers_valid() && self.ids_distinct() && self.peers_valid()
    }

    fn numbers_valid(&self) -> bool {
        let mut within = true;
        for (number, (low, high)) in self.numbers.iter().zip(LIMITS.0.iter().zip(&LIMITS.1)) {
            within &= (low <= number) & (number <= high);
        }
        within && self.rules_kept()
    }

    fn rules_kept(&self) -> bool {
        use general::*;
        let n = |place: usize| self.numbers[place];
        let caps = |k: usize| n(topic_index(k, topic::P3_CAP));
        let thresholds = |k: usize| n(topic_index(k, topic::P3_THRESHOLD));
        let beside_best = if self.edition == Edition::One { n(D_OUT) } else { 0 };
        (n(D_LO) <= n(D))
            & (n(D) <= n(D_HI))
            & (n(D_OUT) < n(D_LO))
            & (2 * n(D_OUT) <= n(D))
            & (n(D_SCORE) + beside_best <= n(D))
            & (n(PUBLISH_THRESHOLD) <= n(GOSSIP_THRESHOLD))
            & (n(GRAYLIST_THRESHOLD) < n(PUBLISH_THRESHOLD))
            & (0..TOPICS).all(|k| caps(k) >= thresholds(k))
    }

    /// Ids other than 0 go into a table of four places each; two of the same meet.
    fn ids_distinct(&self) -> bool {
        const PLACES: usize = 4 * SLOTS;
        let mut table = [0; PLACES];
        for id in self.peers.iter().map(|peer| peer.id).filter(|&id| id != 0) {
            let shift = u32::BITS - PLACES.trailing_zeros();
            let mut place = id.wrapping_mul(0x9e37_79b1) as usize >> shift;
            while table[place] != 0 {
                if table[place] == id {
                    return false;
                }
                place = (place + 1) % PLACES;
            }
            table[place] = id;
        }
        true
    }

    fn peers_valid(&self) -> bool {
        let cap = |k: usize, place: usize| self.topic(k)[place] as u32;
        let caps = Caps {
            p2: std::array::from_fn(|k| cap(k, topic::P2_CAP)),
            p3: std::array::from_fn(|k| cap(k, topic::P3_CAP)),
        };
        self.peers.iter().all(|peer| match peer.status {
            Status::Empty => peer.is_zero(),
            _ => self.peer_valid(peer) && self.topics_valid(&peer.topics, &caps),
        })
    }

    fn peer_valid(&self, peer: &Peer) -> bool {
        let connected = peer.status == Status::Connected;
        let retain_limit = if connected { 0 } else { self.clock + LONGEST_RETAIN_MS };
        let may_subscribe = if connected { u8::MAX } else { 0 };
        let may_enter = if peer.explicit { 0 } else { peer.topics.subscribed & self.joined };
        (peer.id != 0)
            & peer.groups_in_order()
            & (i64::from(peer.p5).abs() <= P5_LIMIT)
            & (peer.p7 <= P4_P7_LIMIT)
            & (peer.retain_end <= retain_limit)
            & (peer.topics.subscribed & !may_subscribe == 0)
            & (peer.topics.member & !may_enter == 0)
            && within(&peer.backoff_ends, &[self.clock + LONGEST_BACKOFF_MS; TOPICS])
    }

    /// Counters and times; a member is subscribed and so connected. A branch after
    /// each column keeps the compiler to one vector loop a column.
    fn topics_valid(&self, topics: &Topics, caps: &Caps) -> bool {
        let differences = topics.graft_times.map(|time| self.clock.wrapping_sub(time));
        within_32(&topics.p2, &caps.p2)
            && within_32(&topics.p3, &caps.p3)
            && within_32(&topics.p4, &[P4_P7_LIMIT; TOPICS])
            && within(&topics.p3b, &[P3B_LIMIT; TOPICS])
            && within(&topics.graft_times, &[self.clock; TOPICS])
            && within(&topics.mesh_times, &differences)
            && topics.no_times_outside()
    }
}

impl Peer {
    /// One to four groups, each above the one before it, and zeros past the last.
    fn groups_in_order(&self) -> bool {
        let count = self.group_count as usize;
        let mut kept = (1..=GROUPS).contains(&count);
        for place in 1..GROUPS {
            let (before, group) = (self.groups[place - 1], self.groups[place]);
            kept &= if place < count { before < group } else { group == 0 };
        }
        kept
    }

    /// All zero, as the default one; the columns are joined side by side.
    fn is_zero(&self) -> bool {
        let Topics { graft_times, mesh_times, p3b, p2, p3, p4, subscribed, member } = &self.topics;
        let (mut wide, mut narrow) = (0, 0);
        for k in 0..TOPICS {
            wide |= graft_times[k] | mesh_times[k] | p3b[k] | self.backoff_ends[k];
            narrow |= p2[k] | p3[k] | p4[k];
        }
        let flags = self.outbound | self.explicit | self.v11;
        let sets = u32::from(subscribed | member) | u32::from(flags);
        let groups = self.groups.iter().fold(0, |all, group| all | group);
        let own = self.id | groups | self.p5 as u32 | self.p7 | sets | u32::from(self.group_count);
        wide | self.retain_end | u64::from(narrow | own) == 0
    }
}

impl Topics {
    /// Graft and mesh time are 0 where the peer is no member.
    fn no_times_outside(&self) -> bool {
        let times = self.graft_times.iter().zip(&self.mesh_times).map(|(graft, mesh)| graft | mesh);
        if self.member == 0 {
            return times.fold(0, |all, time| all | time) == 0;
        }
        times.enumerate().all(|(k, time)| self.member >> k & 1 == 1 || time == 0)
    }
}
