//! Order 6: version 1.2 notices.

use crate::host::{tidy, Host, EXPLICIT};
use reference::event::{Call, Event, LAST_TIME};
use reference::gossip::{GossipCall, GossipEvent};
use reference::params::{general, Params, Refusal};
use reference::router::{number, Given, Notice, Router, Status, Version, ACTION_LIST};
use reference::set_up::SetUp;

const LIMIT_2: SetUp = SetUp { notice_limit: 2, ..SetUp::ORDINARY };
const LIMIT_32: SetUp = SetUp { notice_limit: 32, ..SetUp::ORDINARY };

fn ask(topic: u64, number: u64, sender: u64) -> GossipCall {
    GossipCall::Ask { topic, number, sender }
}

fn relay(topic: u64, number: u64, sender: u64) -> GossipCall {
    GossipCall::Relay { topic, number, sender }
}

fn notice(id: u64, number: u64) -> GossipCall {
    GossipCall::Notice { id, number }
}

/// Topic 0 is joined; 1 and 2 are members of version 1.2.0, 3 of 1.1.0, 4 of 1.0.0; 5 is
/// subscribed and explicit (1.1.0), 6 the same but of topic 1, 7 subscribed and no member.
fn house(set_up: SetUp) -> Host {
    let mut host = Host::new(set_up, &[]);
    host.done(Call::Join { topic: 0 });
    for (id, minor) in [(1, 2), (2, 2), (3, 1), (4, 0)] {
        host.member(id, minor, 0);
    }
    for (id, minor, flags, topic) in [(5, 1, EXPLICIT, 0), (6, 2, EXPLICIT, 1), (7, 2, 0, 0)] {
        host.connect(id, minor, flags);
        host.subscribe(id, topic);
    }
    host
}

fn relayed(host: &mut Host, number: u64) -> Vec<u32> {
    let (answer, actions) = host.gossip(relay(0, number, 0));
    assert_eq!(answer, 0);
    actions.iter().map(|action| action[1]).collect()
}

// "Accept /meshsub/1.2.0."

#[test]
fn the_name_is_known() {
    let name = b"/meshsub/1.2.0".to_vec();
    let call = Call::Connect { id: 7, groups: vec![1], flags: 0, name };
    let mut router = Router::new(Params::ordinary()).unwrap();
    assert_eq!(number(&router.call(&Event { now: 0, call }, &mut [0; ACTION_LIST])), 0);
    assert_eq!(router.peers[0].version, Version::V12);
}

#[test]
fn only_the_exact_name() {
    for name in
        ["/meshsub/1.2.1", "/meshsub/1.3.0", "/meshsub/1.2.0 ", "/meshsub/1.2", "meshsub/1.2.0"]
    {
        let mut host = Host::new(SetUp::ORDINARY, &[]);
        let name = name.as_bytes().to_vec();
        let call = Call::Connect { id: 7, groups: vec![1], flags: 0, name };
        assert_eq!(host.call(call).0, 6);
    }
}

#[test]
fn a_prune_tells_a_1_2_peer_its_seconds() {
    // An explicit peer's GRAFT gets a PRUNE with the prune backoff of 60 s.
    for (minor, seconds) in [(0, 0), (1, 60), (2, 60)] {
        let mut host = Host::new(SetUp::ORDINARY, &[]);
        host.done(Call::Join { topic: 0 });
        host.connect(9, minor, EXPLICIT);
        assert_eq!(host.call(Call::Graft { id: 9, topic: 0 }), (0, vec![[2, 9, seconds]]));
    }
}

// "A host with a large message asks for IDONTWANT to all 1.2.0 members of the topic but the
// sender (0: ourselves); these are action kind 3 (third number 0), by slot, with a 64-bit
// message number carried beside the list."

#[test]
fn an_ask_goes_to_the_members_of_version_1_2() {
    let mut host = house(SetUp::ORDINARY);
    assert_eq!(host.gossip(ask(0, 9, 0)), (0, vec![[3, 1, 0], [3, 2, 0]]));
    assert_eq!(host.gossip(ask(0, 9, 1)), (0, vec![[3, 2, 0]]));
    assert_eq!(host.gossip(ask(0, 9, 7)), (0, vec![[3, 1, 0], [3, 2, 0]]), "a sender outside");
}

#[test]
fn an_ask_lists_by_slot_not_by_id() {
    let mut host = Host::new(SetUp::ORDINARY, &[]);
    host.done(Call::Join { topic: 3 });
    for id in [40, 9, u64::from(u32::MAX), 1] {
        host.member(id, 2, 3);
    }
    let asked = vec![[3, 40, 0], [3, 9, 0], [3, u32::MAX, 0], [3, 1, 0]];
    assert_eq!(host.gossip(ask(3, 0, 0)), (0, asked));
}

#[test]
fn an_ask_carries_its_number() {
    let mut router = house(SetUp::ORDINARY).router;
    for message in [0, 5, u64::MAX] {
        let event = GossipEvent { now: 0, call: ask(0, message, 0) };
        let given = router.gossip(&event, &mut [0; ACTION_LIST], &mut []);
        assert_eq!(given, Ok(Given { actions: 2, beside: Some(message), numbers: 0 }));
    }
}

#[test]
fn an_ask_looks_at_no_score_and_no_set() {
    let mut host = house(SetUp::ORDINARY);
    assert_eq!(host.gossip(notice(1, 9)).0, 0);
    host.done(Call::SetP5 { id: 2, value: -1_000_000_000 });
    assert_eq!(host.gossip(ask(0, 9, 0)), (0, vec![[3, 1, 0], [3, 2, 0]]));
}

// "A received IDONTWANT puts the number into that peer's set of at most 32; one already held
// changes nothing; a full set is 11."

#[test]
fn a_notice_is_put_in_once() {
    let mut host = house(LIMIT_2);
    assert_eq!(host.gossip(notice(1, 9)), (0, vec![]));
    let slot = host.slot(1);
    assert_eq!(host.router.peers[slot].notices, [Notice { number: 9, age: 0 }]);
    assert_eq!(host.router.peers[slot].notices_in, 1);
    let before = host.router.clone();
    assert_eq!(host.gossip(notice(1, 9)), (0, vec![]));
    assert_eq!(host.router, before, "already held");
    assert!(host.router.peers[host.slot(2)].notices.is_empty(), "in that peer's set alone");
}

#[test]
fn a_full_set_is_11() {
    // 16 in each of two heartbeats make 32; a third's is one too many, though within the limit.
    let mut host = house(SetUp { notice_limit: 16, ..SetUp::ORDINARY });
    for round in 0..2 {
        for number in 0..16 {
            assert_eq!(host.gossip(notice(1, 16 * round + number)).0, 0);
        }
        host.beat();
    }
    let before = host.router.clone();
    assert_eq!(host.gossip(notice(1, 32)).0, 11);
    assert_eq!(host.router, before);
    assert_eq!(host.gossip(notice(1, 31)).0, 0, "held, though full");
    assert_eq!(host.gossip(notice(2, 32)).0, 0, "another's set is its own");
    // The third heartbeat after the first sixteen lets them go.
    host.beat();
    assert_eq!(host.gossip(notice(1, 32)).0, 0);
}

#[test]
fn thirty_two_in_one_heartbeat() {
    let mut host = house(LIMIT_32);
    for number in 0..32 {
        assert_eq!(host.gossip(notice(1, number)).0, 0);
    }
    assert_eq!(host.gossip(notice(1, 32)).0, 11);
}

// "A limit of 1..32 numbers put in per record and heartbeat is given at set-up beside the
// sheet (else 2, tested before the sheet); beyond it, 11, after the test for one already held."

#[test]
fn the_limit_is_1_to_32() {
    let bad = Params { numbers: [0; 147], ..Params::ordinary() };
    let made = |notice_limit, params: &Params| {
        let set_up = SetUp { notice_limit, ..SetUp::ORDINARY };
        Router::with_set_up(params.clone(), set_up).map(|router| router.set_up.notice_limit)
    };
    for limit in [1, 2, 32] {
        assert_eq!(made(limit, &Params::ordinary()), Ok(limit));
        assert_eq!(made(limit, &bad), Err(Refusal { number: 9, place: 0 }));
    }
    for limit in [0, 33, 1 << 32, u64::MAX] {
        assert_eq!(made(limit, &Params::ordinary()), Err(Refusal { number: 2, place: 0 }));
        assert_eq!(made(limit, &bad), Err(Refusal { number: 2, place: 0 }), "before the sheet");
    }
}

#[test]
fn beyond_the_limit_is_11_after_held() {
    let mut host = house(LIMIT_2);
    assert_eq!(host.gossip(notice(1, 8)).0, 0);
    assert_eq!(host.gossip(notice(1, 8)).0, 0, "a repeat does not count");
    assert_eq!(host.gossip(notice(1, 9)).0, 0);
    let before = host.router.clone();
    assert_eq!(host.gossip(notice(1, 10)).0, 11);
    assert_eq!(host.gossip(notice(1, 8)).0, 0, "held, though the limit is reached");
    assert_eq!(host.router, before);
    assert_eq!(host.gossip(notice(2, 10)).0, 0, "the limit is each record's");
    host.beat();
    assert_eq!(host.gossip(notice(1, 10)).0, 0, "a heartbeat later");
}

#[test]
fn the_count_stays_over_a_disconnect() {
    let mut host = house(LIMIT_2);
    assert_eq!(host.gossip(notice(7, 8)).0, 0);
    assert_eq!(host.gossip(notice(7, 9)).0, 0);
    host.done(Call::Disconnect { id: 7 });
    let retained = host.router.peers.iter().find(|peer| peer.id == 7).unwrap();
    assert_eq!((retained.notices.len(), retained.notices_in), (0, 2));
    host.connect(7, 2, 0);
    assert_eq!(host.gossip(notice(7, 10)).0, 11, "two were put in before");
    assert_eq!(host.gossip(notice(7, 8)).0, 11, "and are not held any more");
    host.beat();
    assert_eq!(host.gossip(notice(7, 8)).0, 0);
}

#[test]
fn a_heartbeat_clears_the_count_of_a_retained_record() {
    let mut host = house(LIMIT_2);
    assert_eq!(host.gossip(notice(7, 8)).0, 0);
    assert_eq!(host.gossip(notice(7, 9)).0, 0);
    host.done(Call::Disconnect { id: 7 });
    host.beat();
    host.connect(7, 2, 0);
    assert_eq!(host.gossip(notice(7, 8)).0, 0);
}

#[test]
fn a_record_made_anew_counts_from_0() {
    // Retain 0 s: the record is reclaimed by the next connect.
    let mut host = Host::new(LIMIT_2, &[(general::RETAIN, 0)]);
    host.connect(7, 2, 0);
    assert_eq!(host.gossip(notice(7, 8)).0, 0);
    assert_eq!(host.gossip(notice(7, 9)).0, 0);
    host.done(Call::Disconnect { id: 7 });
    host.connect(7, 2, 0);
    assert_eq!(host.router.peers[0].notices_in, 0);
    assert_eq!(host.gossip(notice(7, 10)).0, 0);
}

// "A notice from an older or graylisted peer is 11."

#[test]
fn an_older_peer_is_not_heard() {
    let mut host = house(SetUp::ORDINARY);
    for id in [3, 4, 5] {
        let before = host.router.clone();
        assert_eq!(host.gossip_at(before.clock + 5, notice(id, 9)).0, 11);
        let moved = Router { clock: before.clock + 5, ..before };
        assert_eq!(host.router, moved, "only the clock moves");
    }
}

#[test]
fn a_graylisted_peer_is_not_heard_also_where_held() {
    // Graylist is -40,000 thousandths; P5 weighs 1, so -40 points are at it, a millionth less
    // below it.
    let mut host = house(SetUp::ORDINARY);
    assert_eq!(host.gossip(notice(1, 9)).0, 0);
    host.done(Call::SetP5 { id: 1, value: -40_000_000 });
    assert_eq!(host.gossip(notice(1, 10)).0, 0, "at the threshold");
    host.done(Call::SetP5 { id: 1, value: -40_000_001 });
    assert_eq!(host.gossip(notice(1, 11)).0, 11);
    assert_eq!(host.gossip(notice(1, 9)).0, 11, "already held");
    assert!(host.router.peers[host.slot(1)].holds_notice(9), "what it had stays");
}

#[test]
fn an_explicit_peer_is_never_graylisted() {
    let mut host = house(SetUp::ORDINARY);
    host.done(Call::SetP5 { id: 6, value: -1_000_000_000 });
    assert_eq!(host.gossip(notice(6, 9)).0, 0);
    assert!(host.router.peers[host.slot(6)].holds_notice(9));
}

#[test]
fn a_notice_needs_no_topic() {
    let mut host = Host::new(SetUp::ORDINARY, &[]);
    host.connect(1, 2, 0);
    assert_eq!(host.gossip(notice(1, 0)).0, 0);
    assert_eq!(host.gossip(notice(1, u64::MAX)).0, 0);
}

// "A relay call lists by slot, as action kind 4 (third number 0), the members and connected,
// subscribed explicit peers, except the sender and those whose set holds the number."

#[test]
fn a_relay_goes_to_members_and_explicit_peers() {
    let mut host = house(SetUp::ORDINARY);
    let all = vec![[4, 1, 0], [4, 2, 0], [4, 3, 0], [4, 4, 0], [4, 5, 0]];
    assert_eq!(host.gossip(relay(0, 9, 0)), (0, all.clone()), "no 6 of topic 1, no 7");
    assert_eq!(host.gossip(relay(0, 9, 3)), (0, [&all[..2], &all[3..]].concat()));
    assert_eq!(host.gossip(relay(0, 9, 5)), (0, all[..4].to_vec()));
    assert_eq!(host.gossip(relay(0, 9, 7)), (0, all), "a sender that would not be listed");
}

#[test]
fn a_relay_spares_those_that_hold_the_number() {
    let mut host = house(SetUp::ORDINARY);
    assert_eq!(host.gossip(notice(2, 9)).0, 0);
    assert_eq!(relayed(&mut host, 9), [1, 3, 4, 5]);
    assert_eq!(relayed(&mut host, 8), [1, 2, 3, 4, 5]);
    // An explicit peer of version 1.2.0 has a set too.
    host.subscribe(6, 0);
    assert_eq!(relayed(&mut host, 9), [1, 3, 4, 5, 6]);
    assert_eq!(host.gossip(notice(6, 9)).0, 0);
    assert_eq!(relayed(&mut host, 9), [1, 3, 4, 5]);
}

#[test]
fn a_relay_asks_no_score() {
    let mut host = house(SetUp::ORDINARY);
    host.done(Call::SetP5 { id: 1, value: -1_000_000_000 });
    host.done(Call::SetP5 { id: 5, value: -1_000_000_000 });
    assert_eq!(relayed(&mut host, 9), [1, 2, 3, 4, 5]);
}

#[test]
fn a_relay_knows_no_disconnected_explicit_peer() {
    let mut host = house(SetUp::ORDINARY);
    host.done(Call::Disconnect { id: 5 });
    assert_eq!(relayed(&mut host, 9), [1, 2, 3, 4]);
    host.connect(5, 1, EXPLICIT);
    assert_eq!(relayed(&mut host, 9), [1, 2, 3, 4], "its subscription went");
}

// "Ask and relay in a topic not joined are 11."

#[test]
fn a_topic_not_joined_is_11_after_3() {
    let mut host = house(SetUp::ORDINARY);
    for call in [ask(1, 9, 0), relay(1, 9, 0), ask(1, 9, 1), relay(1, 9, 1)] {
        assert_eq!(host.gossip(call).0, 11);
    }
    for call in [ask(1, 9, 99), relay(1, 9, 99), ask(0, 9, 99), relay(0, 9, 99)] {
        assert_eq!(host.gossip(call).0, 3, "a sender that is not connected");
    }
    host.done(Call::Disconnect { id: 3 });
    assert_eq!(host.gossip(relay(0, 9, 3)).0, 3, "nor is a retained one");
}

// "A new heartbeat call sets the counts to 0; an entry goes at the third one after its arrival,
// or at a disconnect."

#[test]
fn an_entry_goes_at_the_third_heartbeat() {
    let mut host = house(SetUp::ORDINARY);
    assert_eq!(host.gossip(notice(1, 9)).0, 0);
    for _ in 0..2 {
        host.beat();
        assert_eq!(relayed(&mut host, 9), [2, 3, 4, 5]);
        assert_eq!(host.gossip(notice(1, 9)).0, 0, "a repeat does not renew it");
    }
    host.beat();
    assert_eq!(relayed(&mut host, 9), [1, 2, 3, 4, 5]);
}

#[test]
fn each_entry_has_its_own_arrival() {
    let mut host = house(SetUp::ORDINARY);
    for number in [7, 8, 9] {
        assert_eq!(host.gossip(notice(1, number)).0, 0);
        host.beat();
    }
    let slot = host.slot(1);
    let held: Vec<(u64, u64)> =
        host.router.peers[slot].notices.iter().map(|n| (n.number, n.age)).collect();
    assert_eq!(held, [(8, 2), (9, 1)]);
}

#[test]
fn a_refused_heartbeat_moves_nothing() {
    let mut host = house(SetUp::ORDINARY);
    host.router.clock = 10;
    assert_eq!(host.gossip(notice(1, 9)).0, 0);
    let before = host.router.clone();
    assert_eq!(host.gossip_at(9, GossipCall::Beat).0, 1);
    assert_eq!(host.gossip_at(LAST_TIME + 1, GossipCall::Beat).0, 2);
    assert_eq!(host.router, before);
    assert_eq!(host.gossip_at(LAST_TIME, GossipCall::Beat).0, 0);
    assert_eq!(host.router.clock, LAST_TIME);
}

#[test]
fn a_tidy_is_no_heartbeat_call() {
    let mut host = house(LIMIT_2);
    assert_eq!(host.gossip(notice(1, 9)).0, 0);
    let slot = host.slot(1);
    for _ in 0..3 {
        host.call(tidy(0));
        host.call(Call::Decay);
    }
    let peer = &host.router.peers[slot];
    assert_eq!(
        (peer.notices.as_slice(), peer.notices_in),
        (&[Notice { number: 9, age: 0 }][..], 1)
    );
}

#[test]
fn an_entry_goes_at_a_disconnect() {
    let mut host = house(SetUp::ORDINARY);
    assert_eq!(host.gossip(notice(1, 9)).0, 0);
    host.done(Call::Disconnect { id: 1 });
    host.connect(1, 2, 0);
    host.subscribe(1, 0);
    host.done(Call::Graft { id: 1, topic: 0 });
    assert_eq!(relayed(&mut host, 9), [1, 2, 3, 4, 5]);
}

#[test]
fn a_leave_and_an_unsubscription_keep_the_sets() {
    let mut host = house(SetUp::ORDINARY);
    assert_eq!(host.gossip(notice(7, 9)).0, 0);
    host.done(Call::Unsubscribe { id: 7, topic: 0 });
    host.call(Call::Leave { topic: 0 });
    assert!(host.router.peers[host.slot(7)].holds_notice(9));
}

// "New calls, order 7's too, take a time and action list like 01's."

#[test]
fn the_order_of_tests() {
    let mut host = house(SetUp::ORDINARY);
    host.router.clock = 10;
    let cases = [
        ask(8, 9, 0),
        ask(u64::MAX, 9, 0),
        ask(0, 9, 1 << 32),
        relay(8, 9, 0),
        relay(0, 9, (1 << 32) + 1),
        notice(0, 9),
        notice(1 << 32, 9),
    ];
    for call in cases {
        // 2 before 8 and 1.
        let event = GossipEvent { now: 9, call };
        assert_eq!(number(&host.router.gossip(&event, &mut [], &mut [])), 2, "{event:?}");
    }
    for call in [ask(1, 9, 99), relay(1, 9, 99), notice(99, 9), GossipCall::Beat] {
        let before = host.router.clone();
        let mut event = GossipEvent { now: 9, call };
        let mut short = [5; ACTION_LIST - 1];
        assert_eq!(number(&host.router.gossip(&event, &mut short, &mut [])), 8);
        assert_eq!(short, [5; ACTION_LIST - 1]);
        assert_eq!(number(&host.router.gossip(&event, &mut [0; ACTION_LIST], &mut [])), 1);
        event.now = LAST_TIME + 1;
        assert_eq!(number(&host.router.gossip(&event, &mut [], &mut [])), 2);
        assert_eq!(host.router, before);
    }
    assert_eq!(host.gossip(notice(99, 9)).0, 3);
}

// "No notice touches a mesh or a score."

#[test]
fn no_notice_touches_a_mesh_or_a_score() {
    let mut host = house(LIMIT_2);
    host.done(Call::SetP5 { id: 2, value: -5 });
    let mesh = host.router.mesh(0);
    let scores = host.router.scores();
    for number in 0..4 {
        for id in 1..=7 {
            host.gossip(notice(id, number));
        }
        host.gossip(ask(0, number, 1));
        host.gossip(relay(0, number, 1));
        host.beat();
        assert_eq!((host.router.mesh(0), host.router.scores()), (mesh.clone(), scores.clone()));
    }
}

// Test 12, as order 7 words it: "sets, counts .. are within bounds, no peer's set .. holding a
// number twice, or any if not connected".

#[test]
fn test_12_asks_sets_and_counts() {
    let mut host = house(LIMIT_2);
    host.done(Call::Disconnect { id: 7 });
    let entry = |number, age| Notice { number, age };
    let set = |count: u64| (0..count).map(|number| entry(number, 2)).collect::<Vec<_>>();
    assert_eq!(host.damaged(|router| router.peers[0].notices = set(32)), 0);
    assert_eq!(host.damaged(|router| router.peers[0].notices = set(33)), 12);
    assert_eq!(host.damaged(|router| router.peers[0].notices = vec![entry(5, 3)]), 12);
    assert_eq!(host.damaged(|router| router.peers[0].notices = vec![entry(5, 0), entry(5, 1)]), 12);
    assert_eq!(host.damaged(|router| router.peers[0].notices_in = 2), 0);
    assert_eq!(host.damaged(|router| router.peers[0].notices_in = 3), 12);
    let retained = host.router.peers.iter().position(|peer| peer.id == 7).unwrap();
    assert_eq!(host.router.peers[retained].status, Status::Retained);
    assert_eq!(host.damaged(|router| router.peers[retained].notices_in = 2), 0);
    assert_eq!(host.damaged(|router| router.peers[retained].notices_in = 3), 12);
    assert_eq!(host.damaged(|router| router.peers[retained].notices = set(1)), 12);
    assert_eq!(host.damaged(|router| router.peers[200].notices = set(1)), 12, "an empty record");
    assert_eq!(host.damaged(|router| router.peers[200].notices_in = 1), 12);
    for limit in [0, 33] {
        assert_eq!(host.damaged(|router| router.set_up.notice_limit = limit), 12);
    }
}
