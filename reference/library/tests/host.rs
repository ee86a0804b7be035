//! A small host in Rust, as far as libhost.a is linked: every function of the binding once.
#![cfg(linked)]

use hivepadlet::forms::{from_old, to_old};
use hivepadlet::messages::{names, read_message, write_message, Ids};
use hivepadlet::rows::ROWS;
use hivepadlet::*;

const V11: &[u8] = b"/meshsub/1.1.0";

/// A router of ordinary parameters that has joined topic 0.
fn joined(actions: &mut [u32]) -> Box<Cells> {
    let (mut numbers, mut table) = ([0; NUMBERS], Box::new([0; CELLS]));
    ordinary(&mut numbers);
    assert_eq!(is_router(&table), 0);
    assert_eq!(number(fresh(&numbers, EDITION_1, &mut table)), 0);
    assert_eq!(is_router(&table), 1);
    assert_eq!(number(join(&mut table, 0, 0, actions)), 0);
    table
}

#[test]
fn a_peer_comes_and_goes() {
    let mut actions = [0; ACTION_NUMBERS];
    let mut table = joined(&mut actions);
    let permutation: Vec<u64> = (0..SLOTS as u64).collect();
    assert_eq!(number(connect(&mut table, 1, 7, &[9, 12], OUTBOUND, V11, &mut actions)), 0);
    assert_eq!(number(subscribe(&mut table, 2, 7, 0, &mut actions)), 0);
    let result = heartbeat(&mut table, 3, 0, 0, &permutation, &mut actions);
    assert_eq!((number(result), value(result), &actions[..3]), (0, 1, &[GRAFT, 7, 0][..]));
    assert_eq!(number(deliver(&mut table, 4, 7, 0, 1, &mut actions)), 0);
    assert_eq!(number(rate(&mut table, 5, 7, 1_000_000, &mut actions)), 0);
    // A first delivery is half a point, and the host gave one.
    let mut why = [0; WHY_NUMBERS];
    assert_eq!(number(score(&mut table, 6, 7, &mut why, &mut actions)), 0);
    assert_eq!(why, [500_000_000, 500_000_000, 1_000_000_000, 0, 0, 1_500_000_000]);
    assert_eq!(number(prune(&mut table, 7, 7, 0, 60, &mut actions)), 0);
    // Inside the backoff: a PRUNE of 60 seconds.
    let result = graft(&mut table, 8, 7, 0, &mut actions);
    assert_eq!((number(result), value(result), &actions[..3]), (0, 1, &[PRUNE, 7, 60][..]));
    assert_eq!(number(unsubscribe(&mut table, 9, 7, 0, &mut actions)), 0);
    assert_eq!(number(decay(&mut table, 10, &mut actions)), 0);
    assert_eq!(number(leave(&mut table, 11, 0, &mut actions)), 0);
    assert_eq!(number(disconnect(&mut table, 12, 7, &mut actions)), 0);
    assert_eq!(number(disconnect(&mut table, 12, 7, &mut actions)), 3);
    assert_eq!(number(decay(&mut table, 12, &mut [])), 8);
    assert_eq!(number(connect(&mut table, 12, 8, &[9], EXPLICIT, b"", &mut actions)), 6);
    assert_eq!(number(connect(&mut table, 12, 8, &[9, 9], EXPLICIT, V11, &mut actions)), 2);
}

#[test]
fn a_table_of_the_old_form() {
    let mut actions = [0; ACTION_NUMBERS];
    let table = joined(&mut actions);
    let (mut old, mut turned) = (Box::new([0; ROWS]), Box::new([7; CELLS]));
    assert_eq!(from_old(&old, &mut turned), 12);
    assert_eq!(*turned, [7; CELLS]);
    assert_eq!(to_old(&table, &mut old), 0);
    assert_eq!(from_old(&old, &mut turned), 0);
    assert_eq!(is_router(&turned), 1);
    assert_eq!(number(join(&mut turned, 1, 0, &mut actions)), 11);
}

#[cfg(saves)]
#[test]
fn a_power_cycle() {
    let mut actions = [0; ACTION_NUMBERS];
    let mut table = joined(&mut actions);
    assert_eq!(number(connect(&mut table, 1, 7, &[9], 0, V11, &mut actions)), 0);
    assert_eq!(number(rate(&mut table, 2, 7, -1_000_000, &mut actions)), 0);
    let mut bytes = vec![0; SAVE_BYTES];
    assert_eq!(saves::save(&table, 1, &mut bytes), 1);
    assert_eq!(saves::save(&table, 3, &mut bytes[..40]), 13);
    let result = saves::save(&table, 3, &mut bytes);
    assert_eq!(number(result), 0);
    bytes.truncate(value(result) as usize);
    let (mut numbers, mut loaded) = ([0; NUMBERS], Box::new([7; CELLS]));
    ordinary(&mut numbers);
    // Seven is no edition of a save.
    assert_eq!(saves::load(&numbers, EDITION_1, 0, &bytes[2..], &mut loaded), packed(9, 0));
    assert_eq!(*loaded, [7; CELLS]);
    assert_eq!(saves::load(&numbers, EDITION_1, 0, &bytes, &mut loaded), 0);
    assert_eq!(is_router(&loaded), 1);
    // Who comes back has the points of before.
    let mut why = [0; WHY_NUMBERS];
    assert_eq!(number(connect(&mut loaded, 1, 7, &[9], 0, V11, &mut actions)), 0);
    assert_eq!(number(score(&mut loaded, 2, 7, &mut why, &mut actions)), 0);
    assert_eq!(why[5], -1_000_000_000);
}

#[cfg(gossip)]
#[test]
fn a_message_is_passed_on_and_told_of() {
    use gossip::*;
    const V12: &[u8] = b"/meshsub/1.2.0";
    let (mut numbers, mut setup) = ([0; NUMBERS], [0; SETUP_NUMBERS]);
    let mut table = Box::new([0; CELLS]);
    let mut array: Box<Gossip> = vec![0; GOSSIP_CELLS].try_into().expect("its cells");
    let (mut actions, mut told) = ([0; ACTION_NUMBERS], [0; MESSAGE_NUMBERS]);
    ordinary(&mut numbers);
    ordinary_setup(&mut setup);
    assert_eq!(setup, [10, 6, 250, 10, 3]);
    assert_eq!(gossip::is_router(&table, &array), 0);
    let result = gossip::fresh(&numbers, EDITION_1, &[0; SETUP_NUMBERS], &mut table, &mut array);
    assert_eq!(result, 2);
    assert_eq!(gossip::fresh(&numbers, EDITION_1, &setup, &mut table, &mut array), 0);
    assert_eq!(gossip::is_router(&table, &array), 1);
    assert_eq!(number(join(&mut table, 0, 0, &mut actions)), 0);
    // 7 is a member, 8 is not.
    for id in [7, 8] {
        let result = gossip::connect(&mut table, &mut array, 1, id, &[9], 0, V12, &mut actions);
        assert_eq!(number(result), 0);
        assert_eq!(number(subscribe(&mut table, 1, id, 0, &mut actions)), 0);
    }
    assert_eq!(number(graft(&mut table, 1, 7, 0, &mut actions)), 0);
    let result = send_idontwant(&mut table, &array, 2, 0, 0, 99, &mut actions);
    assert_eq!((result, &actions[..3]), (packed(0, 1, 0), &[IDONTWANT, 7, 0][..]));
    let result = relay(&mut table, &array, 2, 0, 0, 99, &mut actions);
    assert_eq!((result, &actions[..3]), (packed(0, 1, 0), &[RELAY, 7, 0][..]));
    assert_eq!(idontwant(&mut table, &mut array, 2, 7, 99, &mut actions), 0);
    assert_eq!(relay(&mut table, &array, 2, 0, 0, 99, &mut actions), 0);
    assert_eq!(store(&mut table, &mut array, 2, 0, 99, &mut actions), 0);
    assert_eq!(beat(&mut table, &mut array, 3, &mut actions), 0);
    let slots: Vec<u64> = (0..SLOTS as u64).collect();
    let result = announce(&mut table, &array, 3, 0, &slots, &mut told, &mut actions);
    assert_eq!((gossip::actions(result), gossip::numbers(result)), (1, 1));
    assert_eq!((told[0], &actions[..3]), (99, &[IHAVE, 8, 0][..]));
    let result = ihave(&mut table, &mut array, 3, 8, 0, &[99, 98], &mut told, &mut actions);
    assert_eq!((result, told[0]), (packed(0, 0, 1), 98));
    let mut wants = || iwant(&mut table, &mut array, 3, 8, 99, &mut actions);
    assert_eq!([wants(), wants(), wants(), wants()], [0, 0, 0, 11]);
    assert_eq!(gossip::disconnect(&mut table, &mut array, 4, 8, &mut actions), 0);
    assert_eq!(number(gossip::leave(&mut table, &mut array, 4, 0, &mut actions)), 0);
    assert_eq!(iwant(&mut table, &mut array, 4, 7, 99, &mut actions), 11);
    // A save of no record.
    let result = gossip::load(&numbers, EDITION_1, &setup, 5, &[2, 0], &mut table, &mut array);
    assert_eq!((result, gossip::is_router(&table, &array)), (0, 1));
}

#[test]
fn parameters_as_bytes() {
    let (mut numbers, mut other) = ([0; NUMBERS], [0; NUMBERS]);
    let (mut buffer, mut edition) = ([0; PARAMETER_BYTES], 0);
    ordinary(&mut numbers);
    let result = write(&numbers, EDITION_2, &mut buffer);
    assert_eq!(number(result), 0);
    assert_eq!(read(&buffer[..value(result) as usize], &mut other, &mut edition), result);
    assert_eq!((numbers, edition), (other, EDITION_2));
    assert_eq!(read(&[], &mut other, &mut edition), packed(10, 0));
}

#[test]
fn messages_as_bytes() {
    let mut table: Names = [0; NAMES_BYTES];
    table[..4].copy_from_slice(b"\x03abc");
    assert_eq!(self::names(&table), 0);
    let mut buffer = [0; WRITTEN_BYTES];
    let none = Ids::default();
    let result = write_message(&table, none, &[PRUNE, 7, 60], &[0], &[1, 0], &mut buffer);
    assert_eq!(number(result), 0);
    let mut entries = vec![0; ENTRY_NUMBERS];
    let message = &buffer[..value(result) as usize];
    // A subscription to topic 0, and a PRUNE of 60 seconds there.
    assert_eq!(read_message(&table, none, message, &mut entries), packed(0, 2));
    assert_eq!(entries[..6], [0, 0, 1, 2, 0, 60]);
    // An IDONTWANT of the message with the number 9, whose id is "m".
    let mut row = [0; 65];
    row[..2].copy_from_slice(b"\x01m");
    let ids = Ids { ids: &row, numbers: &[9], order: &[0] };
    let result = write_message(&table, ids, &[3, 7, 0], &[9], &[], &mut buffer);
    assert_eq!((result, &buffer[..7]), (packed(0, 7), &b"\x1a\x05\x2a\x03\x0a\x01m"[..]));
    assert_eq!(read_message(&table, ids, &buffer[..7], &mut entries), packed(0, 1));
    assert_eq!(entries[..3], [3, 0, 9]);
}
