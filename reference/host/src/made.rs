//! Tables that are a router's and were made field by field, often at the ends of the ranges: states that
//! a run would take very long to reach, as 01's test 12 admits them.

use reference::event::{GROUPS, LAST_TIME, P5_LIMIT, SLOTS};
use reference::generate::calls::Scene;
use reference::generate::{params as generate_params, traces};
use reference::params::{field_at, general, topic, topic_index, Params, TOPICS};
use reference::random::Random;
use reference::router::{
    Groups, Peer, Router, Status, TopicRecord, Version, LONGEST_BACKOFF_MS, LONGEST_RETAIN_MS,
};
use reference::trace::TraceEdition;

pub const P4_P7_LIMIT: i64 = 1_000_000;
pub const P3B_LIMIT: i64 = 1_000_000_000_000;
pub const LAST_BACKOFF_END: u64 = LAST_TIME + LONGEST_BACKOFF_MS;
pub const LAST_RETAIN_END: u64 = LAST_TIME + LONGEST_RETAIN_MS;

/// A random router of this kind.
pub fn router(random: &mut Random) -> Router {
    let params = match random.below(8) {
        0 => extreme_params(),
        1..=3 => generate_params::good(random),
        _ => traces::params(random),
    };
    let mut router = Router::new(params).expect("the parameters are good");
    router.clock = clock(random);
    let joined = 1 + random.below(4);
    router.joined = std::array::from_fn(|_| random.chance(joined, 4));
    // A part of all slots, by the hundred; often all of them.
    let filled = *random.pick(&[4, 12, 60, 90, 97, 100, 100]);
    let groups = *random.pick(&[1, 4, 1u64 << 32]);
    // Of 256 slots some retained one can nearly always be reclaimed; so often none is retained.
    let retained = if random.chance(2, 3) { 1 } else { 0 };
    let first_id = first_id(random);
    for slot in 0..SLOTS {
        if random.chance(filled, 100) {
            // Seven steps through the ids meet each once, out of order.
            let id = first_id + ((slot * 7) % SLOTS) as u32;
            router.peers[slot] = peer(&router, id, groups, retained, random);
        }
    }
    assert!(router.is_valid(), "made tables are a router's");
    router
}

/// The parameters that make the largest numbers of a score, either way.
pub fn extreme_params() -> Params {
    let mut params = Params::ordinary();
    let mut set = |index: usize, high: bool| {
        let field = field_at(index);
        params.numbers[index] = if high { field.high } else { field.low };
    };
    for place in [general::TOPIC_CAP, general::W5] {
        set(place, true);
    }
    for place in [general::W6, general::P6_THRESHOLD, general::W7, general::GRAYLIST_THRESHOLD] {
        set(place, false);
    }
    for k in 0..TOPICS {
        use topic::*;
        for place in [WEIGHT, W1, P1_CAP, W2, P2_CAP, P3_CAP, P3_THRESHOLD] {
            set(topic_index(k, place), true);
        }
        for place in [QUANTUM, W3, ACTIVATION, W3B, W4] {
            set(topic_index(k, place), false);
        }
    }
    params.numbers[general::TOPIC_CAP] = 0;
    params
}

fn clock(random: &mut Random) -> u64 {
    match random.below(6) {
        0 => LAST_TIME,
        1 => LAST_TIME - random.below(100_000) as u64,
        2 => random.below(10) as u64,
        3 => random.bits() % (LAST_TIME + 1),
        _ => random.below(10_000_000) as u64,
    }
}

/// The lowest of as many ids in a row as there are slots; at both ends of their range now and then.
fn first_id(random: &mut Random) -> u32 {
    let last = u32::MAX - SLOTS as u32 + 1;
    match random.below(4) {
        0 => last,
        1 => random.bits() as u32 % last + 1,
        _ => 1,
    }
}

/// A peer's record; of five so many are retained.
fn peer(router: &Router, id: u32, groups: u64, retained: usize, random: &mut Random) -> Peer {
    let status = if random.chance(retained, 5) { Status::Retained } else { Status::Connected };
    let retained = status == Status::Retained;
    let mut peer = Peer {
        status,
        id,
        groups: groups_of(groups, random),
        outbound: random.chance(1, 2),
        explicit: random.chance(1, 8),
        version: *random.pick(&[Version::V10, Version::V11, Version::V12]),
        p5: p5(random),
        p7: counter(P4_P7_LIMIT, random),
        retain_end: if retained { end(router.clock, LONGEST_RETAIN_MS, random) } else { 0 },
        ..Peer::default()
    };
    let running = random.chance(1, 2);
    for end_of_topic in &mut peer.backoff_ends {
        let longest = if running { LONGEST_BACKOFF_MS } else { 0 };
        *end_of_topic = end(router.clock, longest, random);
    }
    for k in 0..TOPICS {
        peer.topics[k] = record(router, &peer, k, random);
    }
    peer
}

/// One to four of so many groups.
fn groups_of(groups: u64, random: &mut Random) -> Groups {
    let count = 1 + random.below(GROUPS);
    let mut drawn: Vec<u32> = (0..count).map(|_| (random.bits() % groups) as u32).collect();
    drawn.sort_unstable();
    drawn.dedup();
    std::array::from_fn(|place| drawn.get(place).copied())
}

/// Mostly enough to make up for what the counters cost, so that meshes hold.
fn p5(random: &mut Random) -> i64 {
    match random.below(4) {
        0 => random.often_an_end(-P5_LIMIT, P5_LIMIT),
        1 => 0,
        _ => random.between(0, P5_LIMIT),
    }
}

/// Mostly small, or at an end.
fn counter(limit: i64, random: &mut Random) -> i64 {
    match random.below(4) {
        0 => random.often_an_end(0, limit),
        1 => random.between(0, limit.min(3000)),
        _ => 0,
    }
}

/// Over, running, or as late as can be, `longest` after the clock; under 1000, where no call leaves an end,
/// as well.
fn end(clock: u64, longest: u64, random: &mut Random) -> u64 {
    let limit = clock + longest;
    match random.below(7) {
        0 => 0,
        1 => limit,
        2 => clock.min(limit),
        3 => limit.min(clock + random.below(60_000) as u64),
        4 => limit.min(1 + random.below(999) as u64),
        5 => clock + random.bits() % (longest + 1),
        _ => random.bits() % (limit + 1),
    }
}

fn record(router: &Router, peer: &Peer, k: usize, random: &mut Random) -> TopicRecord {
    let connected = peer.status == Status::Connected;
    let subscribed = connected && random.chance(3, 4);
    let member = subscribed && !peer.explicit && router.joined[k] && random.chance(1, 2);
    let mut record = TopicRecord {
        subscribed,
        member,
        p2: counter(router.params.topic(k, topic::P2_CAP), random),
        p3: counter(router.params.topic(k, topic::P3_CAP), random),
        p3b: counter(P3B_LIMIT, random),
        p4: counter(P4_P7_LIMIT, random),
        ..TopicRecord::default()
    };
    if member {
        record.graft_time = part(router.clock, random);
        record.mesh_time = part(router.clock - record.graft_time, random);
    }
    record
}

/// Nothing, all, or a part of a time.
fn part(time: u64, random: &mut Random) -> u64 {
    match random.below(4) {
        0 => 0,
        1 => time,
        _ => random.bits() % (time + 1),
    }
}

/// Every number at the end that costs most (or brings most): the scores nearest to 01's bound.
pub fn extreme(lowest: bool) -> Router {
    let mut params = extreme_params();
    if !lowest {
        params.numbers[general::P6_THRESHOLD] = field_at(general::P6_THRESHOLD).high;
    }
    let mut router = Router::new(params).expect("the parameters are good");
    router.clock = LAST_TIME;
    router.joined = [true; TOPICS];
    let sign = if lowest { -1 } else { 1 };
    let limit = |of: i64| if lowest { of } else { 0 };
    let record = TopicRecord {
        subscribed: true,
        member: true,
        graft_time: 0,
        mesh_time: LAST_TIME,
        p2: 1_000_000 - limit(1_000_000),
        p3: 1_000_000 - limit(1_000_000),
        p3b: limit(P3B_LIMIT),
        p4: limit(P4_P7_LIMIT),
    };
    for (slot, peer) in router.peers.iter_mut().enumerate() {
        *peer = Peer {
            status: Status::Connected,
            id: slot as u32 + 1,
            groups: [Some(0), Some(1), Some(7), Some(u32::MAX)],
            version: Version::V11,
            p5: sign * P5_LIMIT,
            p7: limit(P4_P7_LIMIT),
            topics: std::array::from_fn(|_| record.clone()),
            ..Peer::default()
        };
    }
    assert!(router.is_valid(), "made tables are a router's");
    router
}

/// A router in its first second, some of its backoff ends under 1000, where no call leaves one.
pub fn early(random: &mut Random) -> Router {
    let params = traces::params(random);
    let mut router = Router::new(params).expect("the parameters are good");
    router.clock = random.below(1000) as u64;
    router.joined = [true; TOPICS];
    let filled = 4 + random.below(20);
    for (slot, peer) in router.peers.iter_mut().take(filled).enumerate() {
        let record = TopicRecord { subscribed: true, ..TopicRecord::default() };
        *peer = Peer {
            status: Status::Connected,
            id: slot as u32 + 1,
            groups: [Some(slot as u32), None, None, None],
            outbound: random.chance(1, 2),
            version: Version::V11,
            p5: random.between(0, 3) * 1_000_000,
            topics: std::array::from_fn(|_| record.clone()),
            backoff_ends: std::array::from_fn(|_| {
                random.below(1000) as u64 * random.below(2) as u64
            }),
            ..Peer::default()
        };
    }
    assert!(router.is_valid(), "made tables are a router's");
    router
}

/// A scene for a made router: its own ids, and a few more.
pub fn scene(router: &Router, random: &mut Random) -> Scene {
    let mut scene = traces::scene(TraceEdition::Three, 300, random);
    let held = router.peers.iter().filter(|peer| peer.id != 0).map(|peer| u64::from(peer.id));
    scene.ids.truncate(8);
    scene.ids.extend(held);
    scene.topics = TOPICS;
    scene
}
