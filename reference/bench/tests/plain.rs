//! The plain router against the second program: every answer, every action, and
//! the state that each call leaves.

use bench::converted::plain_of;
use bench::plain;
use reference::coverage::Coverage;
use reference::event::{by_slot, Call, Event, SLOTS};
use reference::generate::traces;
use reference::params::{Edition, Params};
use reference::random::Random;
use reference::router::{Answer, Done, Peer, Router, Status, TopicRecord, ACTION_LIST};
use reference::text::{Line, Trace};

const TRACES: usize = 300;

/// The routers of a random trace, after each of its events.
fn each_event(random: &mut Random, mut check: impl FnMut(&Router, &mut plain::Router)) {
    let bytes = traces::trace(random, &mut Coverage::default()).bytes;
    let trace = Trace::from_bytes(&bytes);
    let Some(params) = trace.params.filter(|params| params.check().is_ok()) else { return };
    let mut second = Router::unchecked(params.clone());
    let mut plain = plain::Router::new(&params);
    for line in &trace.lines {
        let Line::Event(event) = line else { break };
        let room = if random.chance(1, 50) { random.below(ACTION_LIST) } else { ACTION_LIST };
        let (mut expected, mut got) = (vec![7; room], vec![7; room]);
        assert_eq!(plain.call(event, &mut got), second.call(event, &mut expected), "{event:?}");
        assert_eq!(got, expected, "{event:?}");
        check(&second, &mut plain);
    }
}

#[test]
fn same_answers_and_states() {
    let mut random = Random::new(64);
    for _ in 0..TRACES {
        each_event(&mut random, |second, plain| assert_eq!(*plain, *plain_of(second)));
    }
}

/// Puts a number into one field of the second program's tables, within what the
/// plain router's narrower types hold.
fn damage(router: &mut Router, random: &mut Random) {
    let slot = random.below(SLOTS);
    let other = router.peers[random.below(SLOTS)].id;
    let clock = router.clock;
    let time = *random.pick(&[0, 1, clock, clock + 1, 1 << 40, (1 << 40) + 1, u64::MAX]);
    let counter = *random.pick(&[0, 1, 1000, 1_000_000, 1_000_001]);
    let index = random.below(147);
    let peer = &mut router.peers[slot];
    let record = &mut peer.topics[random.below(8)];
    match random.below(19) {
        0 => record.p2 = counter,
        1 => record.p3 = counter,
        2 => record.p4 = counter,
        3 => record.p3b = *random.pick(&[0, 1, 1_000_000_000_000, 1_000_000_000_001]),
        4 => record.member ^= true,
        5 => record.subscribed ^= true,
        6 => record.graft_time = time,
        7 => record.mesh_time = time,
        8 => peer.id = *random.pick(&[0, other]),
        9 => peer.p5 = *random.pick(&[0, 1_000_000_000, 1_000_000_001, -1_000_000_001]),
        10 => peer.p7 = counter,
        11 => {
            let ends = [time.min((1 << 40) + 86_400_001), clock + 86_400_000, clock + 86_400_001];
            peer.retain_end = *random.pick(&ends);
        }
        12 => {
            let ends = [0, clock + 3_600_000, clock + 3_600_001, (1 << 40) + 3_600_001];
            peer.backoff_ends[3] = *random.pick(&ends);
        }
        13 => peer.explicit ^= true,
        17 => {
            if let Some(first) = peer.groups[0] {
                let second = *random.pick(&[first, first.wrapping_add(1), 0, u32::MAX]);
                peer.groups = [Some(first), Some(second), None, None];
            }
        }
        14 => router.joined[random.below(8)] ^= true,
        16 => router.params.edition = *random.pick(&Edition::ALL),
        15 => router.clock = time,
        _ => router.params.numbers[index] += random.between(-2, 2),
    }
}

#[test]
fn same_test_12() {
    let mut random = Random::new(12);
    let mut damages = Random::new(13);
    let (mut valid, mut broken) = (0, 0);
    for _ in 0..TRACES / 3 {
        each_event(&mut random, |second, _| {
            if !damages.chance(1, 10) {
                return;
            }
            let mut damaged = second.clone();
            damage(&mut damaged, &mut damages);
            let expected = damaged.is_valid();
            assert_eq!(plain_of(&damaged).is_valid(), expected);
            *(if expected { &mut valid } else { &mut broken }) += 1;
        });
    }
    assert!(valid > 100 && broken > 100, "{valid} still a router's, {broken} not");
}

#[test]
fn ordinary_is_valid() {
    assert!(plain::Router::new(&Params::ordinary()).is_valid());
}

/// The plain router's GRAFTs in one heartbeat of topic 0 with one subscribed peer, by its backoff's end.
fn grafts(end: u64, now: u64) -> Answer {
    let mut second = Router::new(Params::ordinary()).expect("good parameters");
    second.joined[0] = true;
    let record = TopicRecord { subscribed: true, ..TopicRecord::default() };
    let groups = [Some(0), None, None, None];
    second.peers[0] = Peer { status: Status::Connected, id: 7, groups, ..Peer::default() };
    second.peers[0].topics[0] = record;
    second.peers[0].backoff_ends[0] = end;
    let event = Event { now, call: Call::Heartbeat { topic: 0, ask: 0, permutation: by_slot() } };
    plain_of(&second).call(&event, &mut [0; ACTION_LIST])
}

#[test]
fn our_own_graft_waits_a_second() {
    let waits = Ok(Done::Actions(0));
    let goes_out = Ok(Done::Actions(1));
    for (now, answer) in [(69_999, waits), (70_000, waits), (70_999, waits), (71_000, goes_out)] {
        assert_eq!(grafts(70_000, now), answer, "at {now}");
    }
    assert_eq!((grafts(1, 1000), grafts(1, 1001)), (waits, goes_out));
    assert_eq!((grafts(0, 0), grafts(0, 999)), (goes_out, goes_out), "never set");
}
