//! The tables on which test 12 is timed by itself.

use crate::load::{opened, SIZES};
use host_compare::made::{self, LAST_BACKOFF_END};
use reference::event::P5_LIMIT;
use reference::params::{topic, Params, TOPICS};
use reference::router::Router;

/// A table by what it holds.
pub struct Table {
    pub name: &'static str,
    router: fn() -> Router,
}

impl Table {
    /// The second program's router of that state.
    pub fn router(&self) -> Router {
        let router = (self.router)();
        assert!(router.is_valid(), "the table is a router's");
        router
    }
}

pub const TABLES: [Table; 5] = [
    Table { name: "a fresh router", router: fresh },
    Table { name: "64 connected", router: || opened(SIZES[0]) },
    Table { name: "256 connected", router: || opened(SIZES[1]) },
    Table { name: "all members of all topics, large numbers, four groups", router: worst },
    Table { name: "the same, ids alike in their low 20 bits", router: worst_ids },
];

fn fresh() -> Router {
    Router::new(Params::ordinary()).expect("the ordinary parameters are accepted")
}

/// Every slot a member of every topic, and every number as large as it can be.
fn worst() -> Router {
    let mut router = made::extreme(true);
    let cap = |k: usize, field: usize| router.params.topic(k, field);
    let caps: Vec<(i64, i64)> =
        (0..TOPICS).map(|k| (cap(k, topic::P2_CAP), cap(k, topic::P3_CAP))).collect();
    for (slot, peer) in router.peers.iter_mut().enumerate() {
        let slot = slot as u32;
        peer.id = u32::MAX - 7 * slot;
        peer.groups = [3, 2, 1, 0].map(|place| Some(u32::MAX - 1000 * place - slot));
        peer.p5 = -P5_LIMIT;
        peer.backoff_ends = [LAST_BACKOFF_END; TOPICS];
        for (record, &(p2, p3)) in peer.topics.iter_mut().zip(&caps) {
            (record.p2, record.p3) = (p2, p3);
        }
    }
    router
}

fn worst_ids() -> Router {
    let mut router = worst();
    for (slot, peer) in router.peers.iter_mut().enumerate() {
        peer.id = (slot as u32 + 1) << 20;
    }
    router
}
