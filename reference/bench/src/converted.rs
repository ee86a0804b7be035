//! The second program's state in the plain router.

use crate::plain;
use reference::params::TOPICS;
use reference::router::{Peer, Router, Status, TopicRecord, Version};

/// Bit k as topic k says.
fn bits(says: impl Fn(usize) -> bool) -> u8 {
    (0..TOPICS).filter(|&k| says(k)).fold(0, |bits, k| bits | 1 << k)
}

fn plain_topics(records: &[TopicRecord; TOPICS]) -> plain::Topics {
    plain::Topics {
        graft_times: std::array::from_fn(|k| records[k].graft_time),
        mesh_times: std::array::from_fn(|k| records[k].mesh_time),
        p3b: std::array::from_fn(|k| records[k].p3b as u64),
        p2: std::array::from_fn(|k| records[k].p2 as u32),
        p3: std::array::from_fn(|k| records[k].p3 as u32),
        p4: std::array::from_fn(|k| records[k].p4 as u32),
        subscribed: bits(|k| records[k].subscribed),
        member: bits(|k| records[k].member),
    }
}

fn plain_peer(peer: &Peer) -> plain::Peer {
    plain::Peer {
        id: peer.id,
        groups: peer.groups.map(|group| group.unwrap_or(0)),
        group_count: peer.groups().count() as u8,
        p5: peer.p5 as i32,
        p7: peer.p7 as u32,
        status: match peer.status {
            Status::Empty => plain::Status::Empty,
            Status::Connected => plain::Status::Connected,
            Status::Retained => plain::Status::Retained,
        },
        outbound: peer.outbound,
        explicit: peer.explicit,
        v11: peer.version != Version::V10,
        retain_end: peer.retain_end,
        backoff_ends: peer.backoff_ends,
        topics: plain_topics(&peer.topics),
    }
}

/// The plain router in the second program's state.
pub fn plain_of(router: &Router) -> Box<plain::Router> {
    let mut plain = plain::Router::new(&router.params);
    plain.clock = router.clock;
    plain.joined = bits(|k| router.joined[k]);
    for (slot, peer) in router.peers.iter().enumerate() {
        plain.peers[slot] = plain_peer(peer);
    }
    plain
}
