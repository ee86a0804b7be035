//! Order 7: gossip to the rest.

use crate::host::{tidy, Host, EXPLICIT};
use reference::event::{by_slot, Call, Permutation, LAST_TIME, SLOTS};
use reference::gossip::{GossipCall, GossipEvent, NUMBER_LIST};
use reference::params::{general, Params, Refusal};
use reference::router::{number, Notice, Router, Store, ACTION_LIST};
use reference::set_up::{SetUp, LIMITS};

const BOUND_1: SetUp = SetUp { ihave_bound: 1, iwant_bound: 1, ..SetUp::ORDINARY };

fn store(topic: u64, number: u64) -> GossipCall {
    GossipCall::Store { topic, number }
}

fn announce(topic: u64) -> GossipCall {
    GossipCall::Announce { topic, permutation: by_slot() }
}

fn ihave(id: u64, topic: u64, numbers: &[u64]) -> GossipCall {
    GossipCall::IHave { id, topic, numbers: numbers.to_vec() }
}

fn iwant(id: u64, number: u64) -> GossipCall {
    GossipCall::IWant { id, number }
}

/// Topics 0 and 1 are joined; 1 to 3 are connected and subscribed to topic 0.
fn house(set_up: SetUp) -> Host {
    let mut host = Host::new(set_up, &[]);
    for topic in [0, 1] {
        host.done(Call::Join { topic });
    }
    for id in 1..=3 {
        host.connect(id, 1, 0);
        host.subscribe(id, 0);
    }
    host
}

fn stored(host: &mut Host, topic: u64, numbers: &[u64]) {
    for &number in numbers {
        assert_eq!(host.gossip(store(topic, number)), (0, vec![]));
    }
}

fn answer(host: &mut Host, call: GossipCall) -> u32 {
    host.told(call).0
}

/// The numbers announced in a topic.
fn announced(host: &mut Host, topic: u64) -> Vec<u64> {
    let (answer, _, numbers) = host.told(announce(topic));
    assert_eq!(answer, 0);
    numbers
}

/// The ids of the targets of topic 0 in a permutation's order.
fn targets(host: &mut Host, permutation: Box<Permutation>) -> Vec<u32> {
    let (answer, actions, _) = host.told(GossipCall::Announce { topic: 0, permutation });
    assert_eq!(answer, 0);
    assert!(actions.iter().all(|action| action[0] == 5 && action[2] == 0));
    actions.iter().map(|action| action[1]).collect()
}

// "Store the last five heartbeats' message numbers per topic, the running one counted, at most
// 64 a heartbeat".

#[test]
fn a_number_is_stored_for_five_heartbeats() {
    let mut host = house(SetUp { iwant_bound: 32, ..SetUp::ORDINARY });
    stored(&mut host, 0, &[9]);
    for _ in 0..4 {
        assert_eq!(host.gossip(iwant(1, 9)), (0, vec![]));
        host.beat();
    }
    assert_eq!(host.gossip(iwant(1, 9)), (0, vec![]), "after four heartbeats");
    host.beat();
    assert_eq!(host.gossip(iwant(1, 9)).0, 11, "gone at the fifth");
    assert!(host.router.stores.iter().all(|store| *store == Store::default()));
}

#[test]
fn a_tidy_is_no_heartbeat_call() {
    let mut host = house(SetUp::ORDINARY);
    stored(&mut host, 0, &[9]);
    for _ in 0..6 {
        host.call(tidy(0));
        host.call(Call::Decay);
    }
    assert_eq!(announced(&mut host, 0), [9]);
}

#[test]
fn sixty_four_a_heartbeat_and_13() {
    let mut host = house(SetUp::ORDINARY);
    let first: Vec<u64> = (0..64).collect();
    stored(&mut host, 0, &first);
    let before = host.router.clone();
    assert_eq!(host.gossip_at(5, store(0, 64)).0, 13);
    assert_eq!(host.router, before, "nothing changed, the clock neither");
    stored(&mut host, 0, &[63, 0]);
    assert_eq!(host.router, before, "one already there is 0, with 64 too");
    stored(&mut host, 1, &[64]);
    host.beat();
    stored(&mut host, 0, &[64]);
    assert_eq!(host.router.stores[0].heartbeats[0], [64]);
    assert_eq!(host.router.stores[0].heartbeats[1], first);
    stored(&mut host, 0, &(65..128).collect::<Vec<_>>());
    assert_eq!(host.gossip(store(0, 128)).0, 13);
    assert_eq!(host.gossip(store(0, 63)).0, 0, "there since the heartbeat before");
}

// "a call with a tidy's draw and tests announces the last three's in IHAVE, oldest first in a
// lent list of 192 numbers (shorter: 8)".

#[test]
fn the_last_three_heartbeats_oldest_first() {
    let mut host = house(SetUp::ORDINARY);
    for numbers in [&[5, 6][..], &[4], &[9, 1], &[u64::MAX, 0]] {
        stored(&mut host, 0, numbers);
        stored(&mut host, 1, &[77]);
        host.beat();
    }
    // After a fourth heartbeat the running one is empty, and the last two before it are told.
    assert_eq!(announced(&mut host, 0), [9, 1, u64::MAX, 0]);
    stored(&mut host, 0, &[3]);
    assert_eq!(announced(&mut host, 0), [9, 1, u64::MAX, 0, 3]);
}

#[test]
fn announced_until_the_third_heartbeat() {
    let mut host = house(SetUp::ORDINARY);
    stored(&mut host, 0, &[9]);
    for _ in 0..3 {
        assert_eq!(announced(&mut host, 0), [9]);
        host.beat();
    }
    assert_eq!(announced(&mut host, 0), [0; 0]);
    // Already there, and not renewed: it is not announced again.
    stored(&mut host, 0, &[9]);
    assert_eq!(announced(&mut host, 0), [0; 0]);
    host.beat();
    host.beat();
    stored(&mut host, 0, &[9]);
    assert_eq!(announced(&mut host, 0), [9], "stored anew after it was gone");
}

#[test]
fn all_192_numbers() {
    let mut host = house(SetUp::ORDINARY);
    for heartbeat in 0..3 {
        host.beat();
        stored(&mut host, 0, &(64 * heartbeat..64 * heartbeat + 64).collect::<Vec<_>>());
    }
    assert_eq!(announced(&mut host, 0), (0..192).collect::<Vec<_>>());
    let event = GossipEvent { now: 0, call: announce(0) };
    let before = host.router.clone();
    let mut short = [7; NUMBER_LIST - 1];
    let mut actions = [7; ACTION_LIST];
    assert_eq!(number(&host.router.gossip(&event, &mut actions, &mut short)), 8);
    assert_eq!((short, actions), ([7; NUMBER_LIST - 1], [7; ACTION_LIST]));
    assert_eq!(host.router, before);
}

#[test]
fn an_announcement_changes_nothing_but_the_clock() {
    let mut host = house(SetUp::ORDINARY);
    stored(&mut host, 0, &[9]);
    let before = host.router.clone();
    let event = GossipEvent { now: 40, call: announce(0) };
    let answer = host.router.gossip(&event, &mut [0; ACTION_LIST], &mut [0; NUMBER_LIST]);
    assert_eq!(answer.map(|given| (given.actions, given.numbers)), Ok((3, 1)));
    assert_eq!(host.router, Router { clock: 40, ..before });
}

// "its targets as action kind 5 (third number 0), none without numbers"

#[test]
fn no_targets_without_numbers() {
    let mut host = house(SetUp::ORDINARY);
    assert_eq!(host.told(announce(0)), (0, vec![], vec![]));
    stored(&mut host, 1, &[4]);
    assert_eq!(host.told(announce(0)), (0, vec![], vec![]), "another topic's number");
    stored(&mut host, 0, &[4]);
    assert_eq!(host.told(announce(0)), (0, vec![[5, 1, 0], [5, 2, 0], [5, 3, 0]], vec![4]));
    host.beat();
    host.beat();
    host.beat();
    assert_eq!(host.told(announce(0)), (0, vec![], vec![]), "stored, but not of the last three");
}

#[test]
fn numbers_without_targets() {
    let mut host = house(SetUp::ORDINARY);
    stored(&mut host, 1, &[4, 5]);
    assert_eq!(host.told(announce(1)), (0, vec![], vec![4, 5]));
}

// "Targets are connected subscribed non-members, not explicit, scoring at least the gossip
// threshold".

#[test]
fn who_is_a_target() {
    let mut host = house(SetUp::ORDINARY);
    stored(&mut host, 0, &[4]);
    // 1 is a member, 2 unsubscribes, 3 goes; 4 is explicit, 5 at the threshold, 6 below it.
    host.done(Call::Graft { id: 1, topic: 0 });
    host.done(Call::Unsubscribe { id: 2, topic: 0 });
    host.done(Call::Disconnect { id: 3 });
    for (id, flags) in [(4, EXPLICIT), (5, 0), (6, 0), (7, 0)] {
        host.connect(id, (id % 3) as u8, flags);
        host.subscribe(id, 0);
    }
    // The gossip threshold is -10,000 thousandths.
    host.done(Call::SetP5 { id: 5, value: -10_000_000 });
    host.done(Call::SetP5 { id: 6, value: -10_000_001 });
    assert_eq!(targets(&mut host, by_slot()), [5, 7]);
}

#[test]
fn a_backoff_keeps_no_target_away() {
    let mut host = house(SetUp::ORDINARY);
    stored(&mut host, 0, &[4]);
    host.done(Call::Prune { id: 2, topic: 0, seconds: 60 });
    assert_eq!(targets(&mut host, by_slot()), [1, 2, 3]);
}

// "take the larger of D_lazy and floor(count × factor / 1000), or all if fewer, in draw order"

#[test]
fn how_many_targets() {
    let cases = [
        (6, 250, 6),
        (2, 250, 2),
        (1, 250, 2),
        (0, 99, 0),
        (0, 100, 1),
        (0, 999, 9),
        (0, 1000, 10),
        (7, 799, 7),
        (7, 800, 8),
        (10, 0, 10),
        (48, 0, 10),
        (0, 0, 0),
    ];
    for (d_lazy, factor, taken) in cases {
        let mut host = house(SetUp { d_lazy, factor, ..SetUp::ORDINARY });
        stored(&mut host, 0, &[4]);
        for id in 4..=10 {
            host.connect(id, 1, 0);
            host.subscribe(id, 0);
        }
        let expected: Vec<u32> = (1..=taken).collect();
        assert_eq!(targets(&mut host, by_slot()), expected, "{d_lazy} {factor}");
        // From the last slot down: the last ones first.
        let mut backwards = by_slot();
        backwards.reverse();
        let expected: Vec<u32> = (11 - taken..=10).rev().collect();
        assert_eq!(targets(&mut host, backwards), expected, "{d_lazy} {factor}");
    }
}

#[test]
fn targets_past_slot_63() {
    let mut host = house(SetUp { d_lazy: 0, factor: 1000, ..SetUp::ORDINARY });
    stored(&mut host, 0, &[4]);
    for id in 4..=256 {
        host.connect(id, 1, 0);
        host.subscribe(id, 0);
    }
    assert_eq!(targets(&mut host, by_slot()), (1..=256).collect::<Vec<_>>());
}

#[test]
fn a_tidys_draw_and_tests() {
    let mut host = house(SetUp::ORDINARY);
    let mut twice = by_slot();
    twice[0] = 1;
    let mut past = by_slot();
    past[9] = SLOTS as u64;
    for permutation in [twice, past] {
        for topic in [0, 5] {
            let call = GossipCall::Announce { topic, permutation: permutation.clone() };
            assert_eq!(answer(&mut host, call), 7, "7 before 11");
        }
    }
    assert_eq!(answer(&mut host, announce(5)), 11);
    assert_eq!(answer(&mut host, announce(8)), 2);
}

// "IHAVE of up to 192 numbers (more: 2), or IWANT of one number, from a non-explicit peer under
// the threshold is 11; else IHAVE is answered, in such a list, by those that no topic stores,
// each once, in order."

#[test]
fn an_ihave_is_answered_by_what_no_topic_stores() {
    let mut host = house(SetUp::ORDINARY);
    stored(&mut host, 0, &[4]);
    stored(&mut host, 1, &[5]);
    for _ in 0..4 {
        host.beat();
    }
    stored(&mut host, 0, &[6]);
    let given = [9, 4, 8, 9, 5, 6, 7, 8, 0, u64::MAX, 9];
    assert_eq!(host.told(ihave(1, 0, &given)), (0, vec![], vec![9, 8, 7, 0, u64::MAX]));
    assert_eq!(host.told(ihave(1, 0, &[])), (0, vec![], vec![]));
    assert_eq!(host.told(ihave(1, 0, &[4, 5, 6])), (0, vec![], vec![]));
}

#[test]
fn an_ihave_stores_nothing_and_needs_no_subscription() {
    let mut host = house(SetUp::ORDINARY);
    host.done(Call::Unsubscribe { id: 1, topic: 0 });
    assert_eq!(host.told(ihave(1, 0, &[9])).2, [9]);
    assert_eq!(host.told(ihave(1, 1, &[9])).2, [9], "asked for again");
    assert_eq!(host.gossip(iwant(1, 9)).0, 11);
}

#[test]
fn up_to_192_numbers() {
    let mut host = house(SetUp::ORDINARY);
    let numbers: Vec<u64> = (1000..1193).collect();
    assert_eq!(host.told(ihave(1, 0, &numbers[..192])).2, numbers[..192]);
    assert_eq!(answer(&mut host, ihave(1, 0, &numbers)), 2);
    assert_eq!(answer(&mut host, ihave(1, 0, &[4; 193])), 2, "repeats count");
    assert_eq!(host.told(ihave(1, 0, &[4; 192])), (0, vec![], vec![4]));
    // 2 before 8.
    let event = GossipEvent { now: 0, call: ihave(1, 0, &numbers) };
    assert_eq!(number(&host.router.gossip(&event, &mut [], &mut [])), 2);
    let event = GossipEvent { now: 0, call: ihave(1, 0, &[]) };
    let mut short = [7; NUMBER_LIST - 1];
    let answer = host.router.gossip(&event, &mut [0; ACTION_LIST], &mut short);
    assert_eq!((number(&answer), short), (8, [7; NUMBER_LIST - 1]));
}

#[test]
fn under_the_threshold_is_11() {
    let mut host = house(SetUp::ORDINARY);
    stored(&mut host, 0, &[4]);
    host.done(Call::SetP5 { id: 1, value: -10_000_000 });
    assert_eq!(answer(&mut host, ihave(1, 0, &[9])), 0, "at the threshold");
    assert_eq!(answer(&mut host, iwant(1, 4)), 0);
    host.done(Call::SetP5 { id: 1, value: -10_000_001 });
    let before = host.router.clone();
    assert_eq!(answer(&mut host, ihave(1, 0, &[9])), 11);
    assert_eq!(answer(&mut host, iwant(1, 4)), 11);
    assert_eq!(host.router, before);
    host.connect(8, 0, EXPLICIT);
    host.done(Call::SetP5 { id: 8, value: -1_000_000_000 });
    assert_eq!(answer(&mut host, ihave(8, 0, &[9])), 0, "an explicit peer is served");
    assert_eq!(answer(&mut host, iwant(8, 4)), 0);
}

// "Set-up numbers, refused as order 6's, give D_lazy 0..48 and the factor 0..1000, and bound,
// each 1..32, IHAVE messages per record and heartbeat and .. IWANT replies per connection and
// message".

#[test]
fn set_up_numbers_have_their_ranges() {
    let limits = [(1, 32), (0, 48), (0, 1000), (1, 32), (1, 32)];
    let bad = Params { numbers: [0; 147], ..Params::ordinary() };
    for (place, (low, high)) in limits.into_iter().enumerate() {
        assert_eq!((LIMITS[place].1, LIMITS[place].2), (low, high));
        let made = |number, params: &Params| {
            let mut numbers = SetUp::ORDINARY.numbers();
            numbers[place] = number;
            let made = Router::with_set_up(params.clone(), SetUp::of_numbers(numbers));
            made.map(|router| assert_eq!(router.set_up.numbers()[place], number))
        };
        for number in [low, high] {
            assert_eq!(made(number, &Params::ordinary()), Ok(()));
        }
        for number in [high + 1, u64::MAX, low.wrapping_sub(1)] {
            assert_eq!(made(number, &Params::ordinary()), Err(Refusal { number: 2, place: 0 }));
            assert_eq!(made(number, &bad), Err(Refusal { number: 2, place: 0 }));
        }
    }
}

#[test]
fn ihaves_per_record_and_heartbeat() {
    let mut host = house(SetUp { ihave_bound: 2, ..SetUp::ORDINARY });
    assert_eq!(answer(&mut host, ihave(1, 5, &[9])), 11, "not joined, and not counted");
    assert_eq!(answer(&mut host, ihave(1, 0, &[])), 0, "an empty one counts");
    assert_eq!(answer(&mut host, ihave(1, 1, &[9])), 0, "of whatever topic");
    let before = host.router.clone();
    assert_eq!(answer(&mut host, ihave(1, 0, &[9])), 11);
    assert_eq!(host.router, before);
    assert_eq!(answer(&mut host, ihave(2, 0, &[9])), 0, "another record");
    host.done(Call::Disconnect { id: 1 });
    host.connect(1, 1, 0);
    assert_eq!(answer(&mut host, ihave(1, 0, &[9])), 11, "the count stays over a disconnect");
    host.done(Call::Disconnect { id: 1 });
    host.beat();
    host.connect(1, 1, 0);
    assert_eq!(answer(&mut host, ihave(1, 0, &[9])), 0, "a heartbeat clears it, retained or not");
}

#[test]
fn a_record_made_anew_counts_from_0() {
    let mut host = Host::new(BOUND_1, &[(general::RETAIN, 0)]);
    host.done(Call::Join { topic: 0 });
    host.connect(1, 1, 0);
    assert_eq!(answer(&mut host, ihave(1, 0, &[9])), 0);
    host.done(Call::Disconnect { id: 1 });
    host.connect(1, 1, 0);
    assert_eq!(answer(&mut host, ihave(1, 0, &[9])), 0);
}

// "IWANT replies per connection and message while it stays stored; beyond either, or when no
// topic stores it, 11."

#[test]
fn replies_per_connection_and_message() {
    let mut host = house(SetUp { iwant_bound: 2, ..SetUp::ORDINARY });
    stored(&mut host, 0, &[4, 5]);
    assert_eq!(answer(&mut host, iwant(1, 6)), 11, "no topic stores it");
    assert_eq!(answer(&mut host, iwant(1, 4)), 0);
    assert_eq!(answer(&mut host, iwant(1, 4)), 0);
    let before = host.router.clone();
    assert_eq!(answer(&mut host, iwant(1, 4)), 11);
    assert_eq!(host.router, before);
    assert_eq!(answer(&mut host, iwant(1, 5)), 0, "another message");
    assert_eq!(answer(&mut host, iwant(2, 4)), 0, "another connection");
    host.beat();
    assert_eq!(answer(&mut host, iwant(1, 4)), 11, "a heartbeat does not touch the count");
    host.done(Call::Disconnect { id: 1 });
    assert_eq!(answer(&mut host, iwant(1, 4)), 3);
    host.connect(1, 1, 0);
    assert_eq!(answer(&mut host, iwant(1, 4)), 0, "a reconnect starts at 0");
}

#[test]
fn a_number_in_two_topics_has_one_count() {
    let mut host = house(BOUND_1);
    stored(&mut host, 0, &[5]);
    stored(&mut host, 1, &[5]);
    assert_eq!(answer(&mut host, iwant(1, 5)), 0);
    assert_eq!(answer(&mut host, iwant(1, 5)), 11, "not once for each topic");
    host.call(Call::Leave { topic: 0 });
    assert_eq!(answer(&mut host, iwant(1, 5)), 11, "topic 1 still stores it");
    host.call(Call::Leave { topic: 1 });
    host.done(Call::Join { topic: 1 });
    stored(&mut host, 1, &[5]);
    assert_eq!(answer(&mut host, iwant(1, 5)), 0, "after a gap");
}

#[test]
fn the_count_lives_while_some_topic_stores_the_number() {
    let mut host = house(BOUND_1);
    stored(&mut host, 0, &[5]);
    assert_eq!(answer(&mut host, iwant(1, 5)), 0);
    for _ in 0..4 {
        host.beat();
    }
    // Stored in topic 1 before topic 0 lets it go at the fifth heartbeat: no gap.
    stored(&mut host, 1, &[5]);
    host.beat();
    assert!(!host.router.stores[0].holds(5));
    assert_eq!(answer(&mut host, iwant(1, 5)), 11);
    // A repeat in the same topic renews nothing; five heartbeats after its arrival it is gone.
    for _ in 0..4 {
        stored(&mut host, 1, &[5]);
        host.beat();
    }
    assert_eq!(answer(&mut host, iwant(1, 5)), 11, "not stored any more");
    stored(&mut host, 1, &[5]);
    assert_eq!(answer(&mut host, iwant(1, 5)), 0, "after a gap");
}

#[test]
fn a_reply_needs_no_subscription_and_no_topic() {
    let mut host = house(SetUp::ORDINARY);
    stored(&mut host, 1, &[5]);
    assert_eq!(host.told(iwant(1, 5)), (0, vec![], vec![]), "it is subscribed to topic 0 alone");
}

// "store, announce or IHAVE in a topic not joined is 11; a leave empties its topic's store."

#[test]
fn a_topic_not_joined_is_11() {
    let mut host = house(SetUp::ORDINARY);
    for call in [store(2, 4), announce(2), ihave(1, 2, &[4])] {
        let before = host.router.clone();
        let event = GossipEvent { now: before.clock + 3, call };
        let (mut actions, mut numbers) = ([7; ACTION_LIST], [7; NUMBER_LIST]);
        let answer = host.router.gossip(&event, &mut actions, &mut numbers);
        assert_eq!(number(&answer), 11);
        assert_eq!((actions, numbers), ([7; ACTION_LIST], [7; NUMBER_LIST]));
        assert_eq!(host.router, Router { clock: before.clock + 3, ..before });
    }
}

#[test]
fn a_leave_empties_its_topics_store() {
    let mut host = house(SetUp::ORDINARY);
    stored(&mut host, 0, &[4, 5]);
    stored(&mut host, 1, &[4]);
    host.beat();
    stored(&mut host, 0, &[6]);
    for number in [4, 5, 6] {
        assert_eq!(answer(&mut host, iwant(1, number)), 0);
    }
    assert_eq!(answer(&mut host, ihave(1, 1, &[])), 0);
    host.connect(8, 2, 0);
    host.gossip(GossipCall::Notice { id: 8, number: 4 });
    host.call(Call::Leave { topic: 0 });
    assert_eq!(host.router.stores[0], Store::default());
    assert_eq!(host.router.stores[1].heartbeats[1], [4], "no other topic's");
    let peer = &host.router.peers[0];
    assert_eq!(peer.replies.iter().collect::<Vec<_>>(), [(&4, &1)], "counts of stored numbers");
    assert_eq!(peer.ihaves_in, 1, "not the IHAVE counts");
    assert!(host.router.peers[host.slot(8)].holds_notice(4), "not order 6's sets");
    host.done(Call::Join { topic: 0 });
    assert_eq!(announced(&mut host, 0), [0; 0]);
    assert!(host.router.is_valid());
}

// The order of tests.

#[test]
fn the_order_of_tests() {
    let mut host = house(SetUp::ORDINARY);
    host.router.clock = 10;
    let out_of_range = [
        store(8, 4),
        announce(8),
        ihave(0, 0, &[]),
        ihave(1, 8, &[]),
        iwant(0, 4),
        iwant(1 << 32, 4),
    ];
    for call in out_of_range {
        let event = GossipEvent { now: 9, call };
        assert_eq!(number(&host.router.gossip(&event, &mut [], &mut [])), 2, "{event:?}");
    }
    for call in [store(5, 4), announce(5), ihave(99, 5, &[4]), iwant(99, 4)] {
        let before = host.router.clone();
        let late = GossipEvent { now: LAST_TIME + 1, call: call.clone() };
        assert_eq!(number(&host.router.gossip(&late, &mut [], &mut [])), 2);
        let early = GossipEvent { now: 9, call: call.clone() };
        let mut room = [0; NUMBER_LIST];
        assert_eq!(number(&host.router.gossip(&early, &mut [0; ACTION_LIST - 1], &mut room)), 8);
        assert_eq!(number(&host.router.gossip(&early, &mut [0; ACTION_LIST], &mut room)), 1);
        let lent = if call.lends_numbers() { 8 } else { 1 };
        assert_eq!(number(&host.router.gossip(&early, &mut [0; ACTION_LIST], &mut [])), lent);
        assert_eq!(host.router, before);
    }
    assert_eq!(answer(&mut host, ihave(99, 5, &[4])), 3, "3 before 11");
    assert_eq!(answer(&mut host, iwant(99, 4)), 3);
}

// "Test 12 also asks that sets, counts and stores are within bounds, no peer's set or topic's
// store holding a number twice, or any if not connected or not joined."

#[test]
fn test_12_asks_stores_and_counts() {
    let mut host = house(SetUp { ihave_bound: 3, iwant_bound: 2, ..SetUp::ORDINARY });
    stored(&mut host, 0, &[4]);
    host.done(Call::Disconnect { id: 3 });
    let numbers = |count: u64| (100..100 + count).collect::<Vec<_>>();
    for heartbeat in 0..5 {
        let put = |router: &mut Router, topic: usize, numbers: Vec<u64>| {
            router.stores[topic].heartbeats[heartbeat] = numbers;
        };
        assert_eq!(host.damaged(|router| put(router, 1, numbers(64))), 0);
        assert_eq!(host.damaged(|router| put(router, 1, numbers(65))), 12);
        assert_eq!(host.damaged(|router| put(router, 1, vec![7, 8, 7])), 12);
        assert_eq!(host.damaged(|router| put(router, 2, vec![7])), 12, "not joined");
        assert_eq!(host.damaged(|router| put(router, 1, vec![4])), 0, "another topic's number");
        let twice = if heartbeat == 0 { 0 } else { 12 };
        assert_eq!(host.damaged(|router| put(router, 0, vec![4])), twice, "in two heartbeats");
    }
    for slot in [0, 2] {
        assert_eq!(host.damaged(|router| router.peers[slot].ihaves_in = 3), 0);
        assert_eq!(host.damaged(|router| router.peers[slot].ihaves_in = 4), 12);
    }
    let replied = |slot: usize, number: u64, count: u64| {
        host.damaged(|router| {
            router.peers[slot].replies.insert(number, count);
        })
    };
    assert_eq!(replied(0, 4, 2), 0);
    assert_eq!(replied(0, 4, 3), 12, "above the bound");
    assert_eq!(replied(0, 5, 1), 12, "not stored");
    assert_eq!(replied(2, 4, 1), 12, "a retained record");
    assert_eq!(replied(200, 4, 1), 12, "an empty record");
    assert_eq!(host.damaged(|router| router.peers[200].ihaves_in = 1), 12);
    for place in 1..5 {
        let (_, _, high) = LIMITS[place];
        let mut bad = host.router.set_up.numbers();
        bad[place] = high + 1;
        assert_eq!(host.damaged(|router| router.set_up = SetUp::of_numbers(bad)), 12);
    }
}

#[test]
fn no_gossip_touches_a_mesh_or_a_score() {
    let mut host = house(SetUp::ORDINARY);
    host.done(Call::Graft { id: 1, topic: 0 });
    let before = (host.router.mesh(0), host.router.scores());
    stored(&mut host, 0, &[4]);
    for call in [announce(0), ihave(2, 0, &[8]), iwant(2, 4), iwant(1, 4)] {
        assert_eq!(answer(&mut host, call), 0);
    }
    host.beat();
    assert_eq!((host.router.mesh(0), host.router.scores()), before);
    assert_eq!(host.router.peers[0].notices, [] as [Notice; 0]);
}
