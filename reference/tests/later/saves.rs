//! Order 8: remember across a power cycle; with order 9's edition 2 and order 11's group.

use crate::host::{Host, EXPLICIT};
use reference::event::{Call, Event, LAST_TIME};
use reference::generate::params::with;
use reference::groups::{write_signed, write_unsigned};
use reference::params::{general, topic, topic_index, Params, Refusal};
use reference::router::{number, Peer, Router, Status, TopicRecord, Version, ACTION_LIST};
use reference::saves::{load, show, LONGEST_SAVE, RECORD_FIELDS};
use reference::set_up::SetUp;

/// A record's numbers: id, retain time, P5, P7, and five for each topic.
type Numbers = [i64; RECORD_FIELDS];

/// Where a topic's numbers begin.
fn of_topic(k: usize) -> usize {
    4 + 5 * k
}

fn record(id: i64, changes: &[(usize, i64)]) -> Numbers {
    let mut numbers = [0; RECORD_FIELDS];
    numbers[0] = id;
    for &(place, number) in changes {
        numbers[place] = number;
    }
    numbers
}

/// The bytes of a save, and the place of each record's numbers.
fn bytes_of(edition: u64, records: &[Numbers]) -> (Vec<u8>, Vec<Vec<usize>>) {
    let mut out = Vec::new();
    write_unsigned(edition, &mut out);
    write_unsigned(records.len() as u64, &mut out);
    let mut places = Vec::new();
    for record in records {
        let mut own = Vec::new();
        for (place, &number) in record.iter().enumerate() {
            own.push(out.len());
            match place {
                2 => write_signed(number, &mut out),
                _ => write_unsigned(number as u64, &mut out),
            }
        }
        places.push(own);
    }
    (out, places)
}

fn loaded(clock: u64, bytes: &[u8]) -> Result<Router, Refusal> {
    load(&Params::ordinary(), SetUp::ORDINARY, clock, bytes)
}

/// The number and the place of a load's refusal.
fn refused(bytes: &[u8]) -> (u32, usize) {
    let refusal = loaded(0, bytes).expect_err("a refusal");
    (refusal.number, refusal.place)
}

// "Save the records in seven-bit groups: an edition number 1, a count, then records by
// ascending id. Each holds id, remaining retain time, P5 (signed), P7, then for each topic the
// counters of P2, P3, P3b, P4 and the remaining backoff time; times are in milliseconds".

#[test]
fn a_save_by_hand() {
    // Peer 300 and then peer 7 connect at 0; 7 has P5 -1, P7 2000, and in topic 1 counters of
    // 1, 2, 3 and 300; it sends a PRUNE of 60 s in topic 0 at 10,000. Saved at 20,000:
    // 3,600,000 ms of retain time for both, and 50,000 ms of backoff.
    let mut host = Host::new(SetUp::ORDINARY, &[]);
    host.connect(300, 2, 0);
    host.connect(7, 1, EXPLICIT);
    host.done(Call::Join { topic: 0 });
    host.done(Call::SetP5 { id: 7, value: -1 });
    host.router.clock = 10_000;
    host.done(Call::Prune { id: 7, topic: 0, seconds: 60 });
    host.router.peers[1].p7 = 2000;
    let record = &mut host.router.peers[1].topics[1];
    (record.p2, record.p3, record.p3b, record.p4) = (1, 2, 3, 300);
    let mut bytes = vec![0x02, 0x02];
    bytes.extend([0x07, 0x80, 0xdd, 0xdb, 0x01, 0x01, 0xd0, 0x0f]);
    bytes.extend([0x00, 0x00, 0x00, 0x00, 0xd0, 0x86, 0x03]);
    bytes.extend([0x01, 0x02, 0x03, 0xac, 0x02, 0x00]);
    bytes.extend([0x00; 30]);
    bytes.extend([0xac, 0x02, 0x80, 0xdd, 0xdb, 0x01, 0x00, 0x00]);
    bytes.extend([0x00; 40]);
    assert_eq!(host.router.saved(20_000), bytes);
    let before = host.router.clone();
    let mut buffer = vec![0x55; bytes.len() + 3];
    assert_eq!(host.router.save(20_000, &mut buffer), Ok(bytes.len()));
    assert_eq!(buffer[..bytes.len()], bytes);
    assert_eq!(buffer[bytes.len()..], [0x55; 3], "bytes past the save");
    assert_eq!(host.router, before, "it moves no clock");
}

#[test]
fn a_save_of_nothing() {
    let host = Host::new(SetUp::ORDINARY, &[]);
    assert_eq!(host.router.saved(0), [0x02, 0x00]);
}

#[test]
fn times_are_0_when_over() {
    // The retain period of 1 s ends at 1000, a backoff of 60 s at 60,000; one of 2 s is over.
    let mut host = Host::new(SetUp::ORDINARY, &[(general::RETAIN, 1)]);
    host.done(Call::Join { topic: 0 });
    host.done(Call::Join { topic: 7 });
    host.connect(5, 1, 0);
    host.done(Call::Prune { id: 5, topic: 0, seconds: 2 });
    host.done(Call::Prune { id: 5, topic: 7, seconds: 60 });
    host.done(Call::Disconnect { id: 5 });
    let saved = |now, retain, first, last| {
        let numbers = record(5, &[(1, retain), (of_topic(0) + 4, first), (of_topic(7) + 4, last)]);
        assert_eq!(host.router.saved(now), bytes_of(2, &[numbers]).0, "at {now}");
    };
    saved(0, 1000, 2000, 60_000);
    saved(999, 1, 1001, 59_001);
    saved(1000, 0, 1000, 59_000);
    saved(1999, 0, 1, 58_001);
    saved(2000, 0, 0, 58_000);
    saved(59_999, 0, 0, 1);
    assert_eq!(host.router.saved(60_000), [0x02, 0x00], "reclaimable");
}

// "A connected peer is saved as if disconnected at that moment; reclaimable ones are not
// written."

#[test]
fn a_connected_peer_is_saved_as_if_disconnected() {
    let mut host = Host::new(SetUp::ORDINARY, &[]);
    host.done(Call::Join { topic: 0 });
    host.member(9, 1, 0);
    host.done(Call::Prune { id: 9, topic: 0, seconds: 60 });
    host.router.clock = 1500;
    let saved = host.router.saved(2000);
    host.router.clock = 2000;
    host.done(Call::Disconnect { id: 9 });
    assert_eq!(saved, host.router.saved(2000));
}

#[test]
fn a_connected_peer_that_would_be_reclaimable_is_not_written() {
    let mut host = Host::new(SetUp::ORDINARY, &[(general::RETAIN, 0)]);
    host.done(Call::Join { topic: 2 });
    host.connect(1, 1, 0);
    host.connect(2, 1, 0);
    host.done(Call::Prune { id: 2, topic: 2, seconds: 5 });
    let numbers = record(2, &[(of_topic(2) + 4, 5000)]);
    assert_eq!(host.router.saved(0), bytes_of(2, &[numbers]).0);
    assert_eq!(host.router.saved(5000), [0x02, 0x00]);
}

#[test]
fn records_go_by_ascending_id() {
    let mut host = Host::new(SetUp::ORDINARY, &[]);
    for id in [900, 2, 40, 1] {
        host.connect(id, 1, 0);
    }
    host.done(Call::Disconnect { id: 40 });
    let numbers = [1, 2, 40, 900].map(|id| record(id, &[(1, 3_600_000)]));
    assert_eq!(host.router.saved(0), bytes_of(2, &numbers).0);
}

// "A load .. gives a router with these records retained in slots 0 upward, no topic joined,
// version 1.0.0, all else 0, a backoff of 0 as end 0, other times counted from the load's
// clock."

#[test]
fn a_load_by_hand() {
    let changes = [(1, 1000), (2, -7), (3, 8), (of_topic(3), 11), (of_topic(3) + 1, 12)];
    let more = [(of_topic(3) + 2, 13), (of_topic(3) + 3, 14), (of_topic(3) + 4, 15)];
    let records = [record(4, &[changes.as_slice(), &more].concat()), record(9, &[])];
    let mut router = loaded(5000, &bytes_of(2, &records).0).expect("a good save");
    let mut first = Peer {
        status: Status::Retained,
        id: 4,
        groups: [Some(0), None, None, None],
        version: Version::V10,
        p5: -7,
        p7: 8,
        retain_end: 6000,
        ..Peer::default()
    };
    first.topics[3] = TopicRecord { p2: 11, p3: 12, p3b: 13, p4: 14, ..TopicRecord::default() };
    first.backoff_ends[3] = 5015;
    let second = Peer {
        status: Status::Retained,
        id: 9,
        groups: [Some(0), None, None, None],
        retain_end: 5000,
        ..Peer::default()
    };
    let mut expected =
        Router::with_set_up(Params::ordinary(), SetUp::ORDINARY).expect("good numbers");
    expected.clock = 5000;
    expected.peers[0] = first;
    expected.peers[1] = second;
    assert_eq!(router, expected);
    // The second is reclaimable: a save drops it, and the next connect empties it.
    assert_eq!(router.saved(5000), bytes_of(2, &records[..1]).0);
    let name = b"/meshsub/1.1.0".to_vec();
    let call = Call::Connect { id: 77, groups: vec![3], flags: 0, name };
    let answer = router.call(&Event { now: 5000, call }, &mut [0; ACTION_LIST]);
    assert_eq!((number(&answer), router.peers[1].id), (0, 77));
}

#[test]
fn a_load_keeps_the_set_up_numbers() {
    let set_up = SetUp { notice_limit: 3, d_lazy: 4, factor: 5, ihave_bound: 6, iwant_bound: 7 };
    let router = load(&Params::ordinary(), set_up, 0, &[2, 0]).expect("a good save");
    assert_eq!(router.set_up, set_up);
}

#[test]
fn the_clock_rule_starts_anew() {
    let mut host = Host::new(SetUp::ORDINARY, &[]);
    host.router.clock = 1_000_000;
    host.connect(5, 1, 0);
    let saved = host.router.saved(1_000_000);
    let router = loaded(3, &saved).expect("a good save");
    assert_eq!((router.clock, router.peers[0].retain_end), (3, 3_600_003));
    assert!(router.is_valid());
}

#[test]
fn a_bad_hub_stays_bad() {
    // P7 of 3000 thousandths weighs -10: nine points times ten below zero after the night.
    let mut host = Host::new(SetUp::ORDINARY, &[]);
    host.connect(19, 1, 0);
    host.router.peers[0].p7 = 3000;
    let mut morning = Host { router: loaded(0, &host.router.saved(0)).expect("a good save") };
    morning.connect(19, 2, 0);
    assert_eq!(morning.router.score(0), -90_000_000_000);
    assert_eq!(morning.router.peers[0].version, Version::V12, "resumed");
}

// "Ids not ascending, or numbers outside 01's ranges, are 9 with the place; remaining retain
// times go to 86,400,000, backoffs to 3,600,000".

/// Loads a save of ids 5, 6 and 7 with one number of the second record put in.
fn with_number(place: usize, number: i64) -> Result<(), (u32, bool)> {
    let records = [record(5, &[]), record(6, &[(place, number)]), record(7, &[])];
    let (bytes, places) = bytes_of(2, &records);
    let here = |refusal: Refusal| (refusal.number, refusal.place == places[1][place]);
    loaded(LAST_TIME, &bytes).map(|router| assert!(router.is_valid())).map_err(here)
}

#[test]
fn every_number_has_its_range() {
    let mut limits =
        vec![(1, 0, 86_400_000), (2, -1_000_000_000, 1_000_000_000), (3, 0, 1_000_000)];
    for k in 0..8 {
        // The ordinary caps of P2 and P3 are 20,000 and 4000.
        for (place, high) in
            [20_000, 4000, 1_000_000_000_000, 1_000_000, 3_600_000].iter().enumerate()
        {
            limits.push((of_topic(k) + place, 0, *high));
        }
    }
    for (place, low, high) in limits {
        for good in [low, high, 1] {
            assert_eq!(with_number(place, good), Ok(()), "{good} at {place}");
        }
        assert_eq!(with_number(place, high + 1), Err((9, true)), "at {place}");
        assert_eq!(with_number(place, i64::MAX), Err((9, true)), "at {place}");
        assert_eq!(with_number(place, -1), if place == 2 { Ok(()) } else { Err((9, true)) });
    }
    assert_eq!(with_number(2, -1_000_000_001), Err((9, true)));
}

#[test]
fn ids_ascend_from_1() {
    for (ids, wrong) in
        [([0, 1, 2], 0), ([1, 1, 2], 1), ([2, 1, 3], 1), ([1, 3, 3], 2), ([1, 3, 2], 2)]
    {
        let (bytes, places) = bytes_of(2, &ids.map(|id| record(id, &[])));
        assert_eq!(refused(&bytes), (9, places[wrong][0]), "{ids:?}");
    }
    let last = i64::from(u32::MAX);
    assert!(loaded(0, &bytes_of(2, &[1, 3, last].map(|id| record(id, &[]))).0).is_ok());
    let (bytes, places) = bytes_of(2, &[1, 3, last + 1].map(|id| record(id, &[])));
    assert_eq!(refused(&bytes), (9, places[2][0]));
}

#[test]
fn the_caps_are_those_of_the_given_sheet() {
    let caps = [(topic_index(2, topic::P2_CAP), 10), (topic_index(2, topic::P3_CAP), 1000)];
    let params = with(&Params::ordinary(), &caps);
    for (place, high) in [(of_topic(2), 10), (of_topic(2) + 1, 1000)] {
        let load = |number| {
            let (bytes, places) = bytes_of(2, &[record(1, &[(place, number)])]);
            (load(&params, SetUp::ORDINARY, 0, &bytes).map(|_| ()), places[0][place])
        };
        assert_eq!(load(high).0, Ok(()));
        let (answer, at) = load(high + 1);
        assert_eq!(answer, Err(Refusal { number: 9, place: at }));
    }
}

#[test]
fn nine_goes_from_the_front() {
    // The first record's P5 comes before the second's id, which comes before its retain time.
    let (bytes, places) = bytes_of(2, &[record(5, &[(2, 2_000_000_000)]), record(5, &[])]);
    assert_eq!(refused(&bytes), (9, places[0][2]));
    let (bytes, places) = bytes_of(2, &[record(5, &[]), record(4, &[(1, 86_400_001)])]);
    assert_eq!(refused(&bytes), (9, places[1][0]));
}

// "in test 12 too, from the clock"

#[test]
fn test_12_counts_from_the_clock() {
    let mut host = Host::new(SetUp::ORDINARY, &[]);
    host.connect(5, 1, 0);
    host.connect(6, 1, 0);
    host.done(Call::Disconnect { id: 6 });
    host.router.clock = 1000;
    for k in 0..8 {
        assert_eq!(host.damaged(|router| router.peers[0].backoff_ends[k] = 3_601_000), 0);
        assert_eq!(host.damaged(|router| router.peers[0].backoff_ends[k] = 3_601_001), 12);
        assert_eq!(host.damaged(|router| router.peers[1].backoff_ends[k] = 3_601_001), 12);
    }
    assert_eq!(host.damaged(|router| router.peers[1].retain_end = 86_401_000), 0);
    assert_eq!(host.damaged(|router| router.peers[1].retain_end = 86_401_001), 12);
    assert_eq!(host.damaged(|router| router.peers[1].retain_end = 0), 0, "before the clock");
}

// "Saving what was loaded, at the load's time, gives the same bytes if no record was
// reclaimable then."

#[test]
fn saving_what_was_loaded_gives_the_same_bytes() {
    let records = [
        record(1, &[(1, 1)]),
        record(2, &[(1, 86_400_000), (2, -1_000_000_000), (3, 1_000_000)]),
        record(3, &[(of_topic(7) + 4, 1), (of_topic(0) + 2, 1_000_000_000_000)]),
        record(i64::from(u32::MAX), &[(of_topic(0) + 4, 3_600_000), (2, 1_000_000_000)]),
    ];
    let (bytes, _) = bytes_of(2, &records);
    for clock in [0, 1, 123_456_789, LAST_TIME] {
        assert_eq!(loaded(clock, &bytes).expect("a good save").saved(clock), bytes);
    }
    // With edition 1 the bytes are those of edition 2.
    let (old, _) = bytes_of(1, &records);
    assert_eq!(loaded(9, &old).expect("a good save").saved(9), bytes);
}

// "Every save loads with its sheet."

#[test]
fn a_full_router_is_saved_and_loaded() {
    let mut host = Host::new(SetUp::ORDINARY, &[(general::RETAIN, 86_400)]);
    let ids: Vec<u64> = (0..256).map(|slot| u64::from(u32::MAX) - 255 + slot).collect();
    for &id in &ids {
        host.connect(id, 1, 0);
    }
    let caps = [topic::P2_CAP, topic::P3_CAP];
    for k in 0..8 {
        for cap in caps {
            host.router.params.numbers[topic_index(k, cap)] = 1_000_000;
        }
    }
    for peer in &mut host.router.peers {
        (peer.p5, peer.p7) = (1_000_000_000, 1_000_000);
        peer.backoff_ends = [3_600_000; 8];
        for record in &mut peer.topics {
            (record.p2, record.p3, record.p4) = (1_000_000, 1_000_000, 1_000_000);
            record.p3b = 1_000_000_000_000;
        }
    }
    assert!(host.router.is_valid());
    let saved = host.router.saved(0);
    assert_eq!((saved.len(), LONGEST_SAVE), (43_267, 43_267), "the longest save");
    let again = load(&host.router.params, SetUp::ORDINARY, 8, &saved).expect("a good save");
    assert_eq!(again.saved(8), saved);
}

// "A load tests the set-up numbers (2), the sheet (9 as in 01), the clock (2), then edition and
// count as they are read, another edition or a count above the slots being 9 at its place;
// after them 10 comes before 9."

#[test]
fn a_load_tests_in_order() {
    let bad_set_up = SetUp { notice_limit: 0, ..SetUp::ORDINARY };
    let bad_params = with(&Params::ordinary(), &[(general::D_OUT, 25)]);
    let joint = with(&Params::ordinary(), &[(general::D_LO, 7)]);
    let refusal = |params: &Params, set_up, clock, bytes: &[u8]| {
        let refusal = load(params, set_up, clock, bytes).expect_err("a refusal");
        (refusal.number, refusal.place)
    };
    let good = Params::ordinary();
    let late = LAST_TIME + 1;
    assert_eq!(refusal(&bad_params, bad_set_up, late, &[]), (2, 0));
    assert_eq!(refusal(&bad_params, SetUp::ORDINARY, late, &[]), (9, 3));
    assert_eq!(refusal(&joint, SetUp::ORDINARY, late, &[]), (9, 200));
    assert_eq!(refusal(&good, SetUp::ORDINARY, late, &[]), (2, 0));
    assert_eq!(refusal(&good, SetUp::ORDINARY, LAST_TIME, &[]), (10, 0));
    assert!(load(&good, SetUp::ORDINARY, LAST_TIME, &[2, 0]).is_ok());
}

#[test]
fn edition_and_count_are_judged_as_they_are_read() {
    assert_eq!(refused(&[]), (10, 0));
    for edition in [0, 3, 127] {
        assert_eq!(refused(&[edition]), (9, 0), "the edition comes before a missing count");
    }
    assert_eq!(refused(&[0x80, 0x01]), (9, 0), "edition 128");
    assert_eq!(refused(&[0x82, 0x00]), (10, 0), "only the shortest form is read");
    assert_eq!(refused(&[0x80]), (10, 0));
    for edition in [1, 2] {
        assert_eq!(refused(&[edition]), (10, 1));
        assert_eq!(refused(&[edition, 0x80]), (10, 1));
        assert_eq!(refused(&[edition, 0x80, 0x00]), (10, 1));
        assert_eq!(refused(&[edition, 0x01]), (10, 2), "the records are missing");
    }
    assert_eq!(refused(&[0x01, 0x41]), (9, 1), "65 records of edition 1");
    assert_eq!(refused(&[0x01, 0x40]), (10, 2));
    assert_eq!(refused(&[0x02, 0x41]), (10, 2));
    assert_eq!(refused(&[0x02, 0x80, 0x02]), (10, 3), "256 of edition 2");
    assert_eq!(refused(&[0x02, 0x81, 0x02]), (9, 1), "257 of edition 2");
    assert_eq!(refused(&[0x02, 0x81, 0x02, 0x80]), (9, 1), "before bad bytes");
}

#[test]
fn the_slots_of_each_edition() {
    let records = |count: i64| (1..=count).map(|id| record(id, &[])).collect::<Vec<_>>();
    for (edition, most) in [(1, 64), (2, 256)] {
        let router = loaded(0, &bytes_of(edition, &records(most)).0).expect("a good save");
        let held = router.peers.iter().filter(|peer| peer.status == Status::Retained).count();
        assert_eq!(held as i64, most);
        assert_eq!(refused(&bytes_of(edition, &records(most + 1)).0), (9, 1));
    }
}

#[test]
fn ten_comes_before_nine_after_them() {
    // An id of 0 in the first record, and the last byte cut off, or one left over.
    let (bytes, places) = bytes_of(1, &[record(0, &[]), record(7, &[])]);
    assert_eq!(refused(&bytes), (9, 2));
    let cut = &bytes[..bytes.len() - 1];
    assert_eq!(refused(cut), (10, places[1][43]), "the length, between numbers");
    assert_eq!(refused(&[&bytes[..], &[0]].concat()), (10, bytes.len()));
    let mut overlong = bytes.clone();
    overlong.splice(places[0][9]..=places[0][9], [0x80, 0x00]);
    assert_eq!(refused(&overlong), (10, places[0][9]));
    let mut wide = bytes.clone();
    wide.splice(
        places[0][9]..=places[0][9],
        [0xff, 0xff, 0xff, 0xff, 0xff, 0xff, 0xff, 0xff, 0xff, 2],
    );
    assert_eq!(refused(&wide), (10, places[0][9]), "above 64 bits");
}

#[test]
fn every_end_of_the_bytes() {
    let (bytes, places) = bytes_of(2, &[record(300, &[(1, 86_400_000), (2, -70)])]);
    for length in 2..bytes.len() {
        let begun = places[0].iter().rev().find(|&&place| place <= length).unwrap();
        assert_eq!(refused(&bytes[..length]), (10, *begun), "{length} bytes");
    }
    assert!(loaded(0, &bytes).is_ok());
}

// "A save tests 12, 2, 1, and a buffer shorter than the save is 13 and unchanged".

#[test]
fn a_save_tests_in_order() {
    let mut host = Host::new(SetUp::ORDINARY, &[]);
    host.connect(5, 1, 0);
    host.router.clock = 10;
    let answer = |router: &Router, now, length| {
        let mut buffer = vec![0x55; length];
        let before = router.clone();
        let answer = number(&router.save(now, &mut buffer));
        assert_eq!(router, &before);
        assert!(answer == 0 || buffer.iter().all(|&byte| byte == 0x55), "unchanged");
        answer
    };
    let length = host.router.saved(10).len();
    assert_eq!(length, 2 + 1 + 4 + 42);
    assert_eq!(answer(&host.router, 10, length), 0);
    assert_eq!(answer(&host.router, 11, length + 1), 0, "its time may lie after the clock");
    assert_eq!(answer(&host.router, 10, length - 1), 13);
    assert_eq!(answer(&host.router, LAST_TIME, 0), 13);
    assert_eq!(answer(&host.router, 9, 0), 1);
    assert_eq!(answer(&host.router, LAST_TIME + 1, 0), 2);
    host.router.peers[0].id = 0;
    assert_eq!(answer(&host.router, LAST_TIME + 1, 0), 12);
}

// In words.

#[test]
fn a_save_is_shown() {
    let records = [record(7, &[(1, 1000), (2, -5)]), record(9, &[(of_topic(6) + 3, 4)])];
    let (bytes, _) = bytes_of(2, &records);
    let shown = "save of edition 2, records 2, bytes 91\n\
                 id 7: retained 1000 ms more, P5 -5, P7 0\n\
                 id 9: retained 0 ms more, P5 0, P7 0\n  \
                 topic 6: P2 0, P3 0, P3b 0, P4 4, backoff 0 ms\n";
    assert_eq!(show(&bytes), shown);
    assert_eq!(show(&[0x01, 0x41]), "9 1\n");
    assert_eq!(show(&bytes[..3]), "10 3\n");
    // The caps are not known here.
    let (bytes, _) = bytes_of(1, &[record(7, &[(of_topic(0), 1_000_000)])]);
    assert!(show(&bytes).starts_with("save of edition 1, records 1,"));
    let (bytes, places) = bytes_of(1, &[record(7, &[(of_topic(0), 1_000_001)])]);
    assert_eq!(show(&bytes), format!("9 {}\n", places[0][4]));
}
