//! Lists that no random one comes to: every slot taken and every action list filled to its end, and an array
//! that is full.

use super::request::Asked;
use crate::request::{LONG_LISTS, SHORT_LISTS};
use reference::event::{by_slot, Call, Event, OUTBOUND_FLAG, SLOTS};
use reference::gossip::{AnyEvent, GossipCall, GossipEvent, NUMBER_LIST};
use reference::mixed::Origin;
use reference::params::{Params, TOPICS};
use reference::router::{Notice, Peer, Router, Status, Version};
use reference::router::{MOST_NOTICES, MOST_STORED, NOTICE_LIFE, STORED_HEARTBEATS};
use reference::set_up::SetUp;

const NEWEST: &[u8] = b"/meshsub/1.2.0";
const TOPIC: u64 = 3;

/// Past the backoffs of the ordinary parameters.
const LATER: u64 = 60_000;

fn old(now: u64, call: Call) -> Asked {
    Asked::plain(AnyEvent::Old(Event { now, call }))
}

fn new(now: u64, call: GossipCall) -> Asked {
    Asked::plain(AnyEvent::New(GossipEvent { now, call }))
}

/// Set-up numbers by which everybody is told.
fn to_all() -> SetUp {
    SetUp { d_lazy: 0, factor: 1000, ..SetUp::ORDINARY }
}

/// What the crowd and the lengths begin with.
pub fn fresh() -> Origin {
    Origin { params: Params::ordinary(), set_up: to_all(), save: None }
}

/// Every slot an outbound member of version 1.2.0: all are asked for a message, get it, and are told to prune;
/// then all hear of one, and want it more often than they may. One more finds no slot.
pub fn crowd() -> Vec<Asked> {
    let ids = || 1..=SLOTS as u64;
    let connect = |id: u64| Call::Connect {
        id,
        groups: vec![id],
        flags: OUTBOUND_FLAG,
        name: NEWEST.to_vec(),
    };
    let (topic, sender) = (TOPIC, 0);
    let mut script: Vec<Asked> = (1..=SLOTS as u64 + 1).map(|id| old(0, connect(id))).collect();
    // Out of their ranges.
    script.push(old(0, Call::Disconnect { id: 0 }));
    script.push(old(0, Call::Leave { topic: TOPICS as u64 }));
    script.push(old(0, Call::Join { topic }));
    for id in ids() {
        script.push(old(0, Call::Subscribe { id, topic }));
        script.push(old(0, Call::Graft { id, topic }));
    }
    script.push(new(0, GossipCall::Ask { topic, number: 7, sender }));
    script.push(new(0, GossipCall::Relay { topic, number: 7, sender }));
    script.extend(ids().map(|id| new(0, GossipCall::Notice { id, number: 7 })));
    script.push(new(0, GossipCall::Relay { topic, number: 7, sender }));
    script.push(old(1, Call::Leave { topic }));
    script.push(old(LATER, Call::Join { topic }));
    script.push(new(LATER, GossipCall::Store { topic, number: 9 }));
    script.push(new(LATER, GossipCall::Announce { topic, permutation: by_slot() }));
    for id in ids().flat_map(|id| [id; 4]) {
        script.push(new(LATER, GossipCall::IWant { id, number: 9 }));
    }
    script.extend(ids().step_by(5).map(|id| old(LATER, Call::Disconnect { id })));
    script.extend((0..6).map(|_| new(LATER, GossipCall::Beat)));
    script
}

/// Each call that is handed the array, with action lists of every length: one that is too short, and on the
/// same router one that is long enough.
pub fn lengths() -> Vec<Asked> {
    let (topic, id, number, sender) = (TOPIC, 1, 7, 0);
    let connect = |id: u64| Call::Connect { id, groups: vec![id], flags: 0, name: NEWEST.to_vec() };
    let mut script = vec![old(0, connect(id)), old(0, connect(id + 1))];
    for list in SHORT_LISTS.into_iter().chain(LONG_LISTS) {
        let mut calls = vec![old(0, Call::Disconnect { id: id + 1 }), old(0, connect(id + 1))];
        calls.extend([
            old(0, Call::Leave { topic }),
            new(0, GossipCall::Beat),
            new(0, GossipCall::Ask { topic, number, sender }),
            new(0, GossipCall::Notice { id, number }),
            new(0, GossipCall::Relay { topic, number, sender }),
            new(0, GossipCall::Store { topic, number }),
            new(0, GossipCall::Announce { topic, permutation: by_slot() }),
            new(0, GossipCall::IHave { id, topic, numbers: vec![number, number + 1] }),
            new(0, GossipCall::IWant { id, number }),
        ]);
        let joined = old(0, Call::Join { topic });
        for call in calls {
            script.push(joined.clone());
            script.push(call.with_list(list));
        }
    }
    script
}

/// The number at a place of a store: no two alike, and not rising.
pub fn stored_number(topic: usize, heartbeat: usize, place: usize) -> u64 {
    let count = (topic * STORED_HEARTBEATS + heartbeat) * MOST_STORED + place;
    (count as u64 + 1).wrapping_mul(0x9e37_79b9_7f4a_7c15)
}

/// A router with every slot a member of every topic, of version 1.2.0.
pub fn members() -> Router {
    let mut router = Router::unchecked(Params::ordinary());
    router.joined = [true; TOPICS];
    for (slot, peer) in router.peers.iter_mut().enumerate() {
        let id = slot as u32 + 1;
        *peer = Peer { status: Status::Connected, id, version: Version::V12, ..Peer::default() };
        peer.groups[0] = Some(id);
        for record in &mut peer.topics {
            (record.subscribed, record.member) = (true, true);
        }
    }
    router
}

/// The same with sets and stores full, and of each stored number as many replies as may be to so many peers.
pub fn full(peers: usize) -> Router {
    let mut router = members();
    let set_up =
        SetUp { notice_limit: 32, d_lazy: 48, factor: 1000, ihave_bound: 32, iwant_bound: 32 };
    router.set_up = set_up;
    for (topic, store) in router.stores.iter_mut().enumerate() {
        for (heartbeat, numbers) in store.heartbeats.iter_mut().enumerate() {
            *numbers = (0..MOST_STORED).map(|at| stored_number(topic, heartbeat, at)).collect();
        }
    }
    let stored: Vec<u64> = router.stores.iter().flat_map(|store| store.numbers()).collect();
    for (slot, peer) in router.peers.iter_mut().enumerate() {
        let notice = |k: usize| Notice { number: stored[k], age: k as u64 % NOTICE_LIFE };
        peer.notices = (slot..slot + MOST_NOTICES).map(notice).collect();
        (peer.notices_in, peer.ihaves_in) = (set_up.notice_limit, set_up.ihave_bound);
        if slot < peers {
            peer.replies = stored.iter().map(|&number| (number, set_up.iwant_bound)).collect();
        }
    }
    assert!(router.is_valid(), "the full array is a router's");
    router
}

/// Calls on it: all that were full are less so at the end.
pub fn on_full() -> Vec<Asked> {
    let number = stored_number(0, STORED_HEARTBEATS - 1, 0);
    let newest = stored_number(7, 0, MOST_STORED - 1);
    let last = SLOTS as u64;
    let numbers: Vec<u64> =
        (0..NUMBER_LIST).map(|k| stored_number(k % 8, k % 5, k / 8) ^ (k as u64 & 1)).collect();
    let permutation = by_slot();
    let calls = [
        GossipCall::Relay { topic: 0, number, sender: 0 },
        GossipCall::Notice { id: 1, number: 5 },
        GossipCall::Store { topic: 0, number },
        GossipCall::Store { topic: 0, number: 5 },
        GossipCall::IHave { id: 1, topic: 0, numbers: numbers.clone() },
        GossipCall::IWant { id: 1, number },
        GossipCall::IWant { id: last, number },
        GossipCall::Announce { topic: 0, permutation },
        GossipCall::Beat,
        GossipCall::IWant { id: last, number },
        GossipCall::IWant { id: last, number: newest },
        GossipCall::IHave { id: 1, topic: 0, numbers },
        GossipCall::Notice { id: 1, number: 5 },
        GossipCall::Relay { topic: 0, number: newest, sender: 0 },
    ];
    let mut script: Vec<Asked> = calls.into_iter().map(|call| new(1, call)).collect();
    script.push(old(1, Call::Disconnect { id: 1 }));
    script.push(old(1, Call::Leave { topic: 7 }));
    script.push(new(1, GossipCall::IWant { id: last, number: newest }));
    script.extend((0..4).map(|_| new(1, GossipCall::Beat)));
    script
}
