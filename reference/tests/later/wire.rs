//! Order 6 on the wire: control's field 5, IDONTWANT. The bytes are put together by hand.

use reference::message::{
    check_names, entries, entries_with, read_with, write, write_with, Ids, Lists, Names, Refusal,
    Wrong, ENTRY_LIST, LONGEST_MESSAGE, NAMES_BYTES, NAME_ROW,
};

/// Topic 0 is "a", topic 7 "b".
fn names() -> Names {
    let mut table = [0; NAMES_BYTES];
    table[..2].copy_from_slice(&[1, b'a']);
    table[7 * NAME_ROW..][..2].copy_from_slice(&[1, b'b']);
    check_names(&table).expect("good names")
}

fn ids_of(rows: &[(&[u8], u64)]) -> Ids {
    Ids { rows: rows.iter().map(|(id, number)| (id.to_vec(), *number)).collect() }
}

fn ids() -> Ids {
    ids_of(&[(b"m1", 5), (b"m2", u64::MAX), (&[0xff; 64], 0), (b"m", 11)])
}

fn hex(text: &str) -> Vec<u8> {
    let byte = |word| u8::from_str_radix(word, 16).expect("two digits");
    text.split_whitespace().map(byte).collect()
}

/// The entries of a good message, with the table.
fn of(text: &str) -> Vec<[u64; 3]> {
    let entries = entries_with(&names(), &ids(), &hex(text)).expect("a good message");
    entries.iter().map(|entry| entry.numbers()).collect()
}

/// The place and the level of a malformed message, with the table.
fn broken(text: &str) -> (usize, usize) {
    let broken = entries_with(&names(), &ids(), &hex(text)).expect_err("malformed");
    (broken.place, broken.level)
}

fn list(actions: &[[u32; 3]], beside: &[u64], changes: &[u64]) -> Lists {
    Lists { actions: actions.concat(), topics: beside.to_vec(), changes: changes.to_vec() }
}

/// The message of a list, with the table.
fn written(list: &Lists) -> Result<Vec<u8>, Refusal> {
    let mut buffer = [0x55; 6000];
    let length = write_with(&names(), &ids(), list, &mut buffer)?;
    assert!(buffer[length..].iter().all(|&byte| byte == 0x55), "bytes past the message");
    Ok(buffer[..length].to_vec())
}

// "Control entry 5 (messageIDs 1) is read, an entry for each id, after the PRUNEs".

#[test]
fn an_entry_for_each_id() {
    assert_eq!(of("1A 06 2A 04 0A 02 6D 31"), [[3, 0, 5]]);
    assert_eq!(of("1A 09 2A 07 0A 01 6D 0A 02 6D 32"), [[3, 0, 11], [3, 0, u64::MAX]]);
    assert_eq!(of("1A 02 2A 00"), [[0; 3]; 0], "no id, no entry");
    assert_eq!(of("1A 09 2A 07 0A 02 6D 31 0A 01 6D"), [[3, 0, 5], [3, 0, 11]]);
    let long = format!("1A 44 2A 42 0A 40{}", " FF".repeat(64));
    assert_eq!(of(&long), [[3, 0, 0]], "an id of 64 bytes, and number 0");
}

#[test]
fn repeated_ids_and_fields_are_repeated_entries() {
    assert_eq!(of("1A 0A 2A 08 0A 02 6D 31 0A 02 6D 31"), [[3, 0, 5]; 2]);
    let two = "1A 06 2A 04 0A 02 6D 32 1A 0C 2A 04 0A 02 6D 31 2A 04 0A 02 6D 32";
    assert_eq!(of(two), [[3, 0, u64::MAX], [3, 0, 5], [3, 0, u64::MAX]]);
}

#[test]
fn notices_come_after_the_prunes() {
    // IDONTWANT, PRUNE of topic 0 for 60 s, GRAFT of topic 7; then a subscription.
    let text =
        "1A 13 2A 03 0A 01 6D 22 05 0A 01 61 18 3C 1A 03 0A 01 62 7A 00 0A 05 08 01 12 01 61";
    assert_eq!(of(text), [[0, 0, 1], [1, 7, 0], [2, 0, 60], [3, 0, 11]]);
}

// "an id not in it is 11"

#[test]
fn an_id_not_in_the_table_is_11() {
    assert_eq!(of("1A 05 2A 03 0A 01 7A"), [[3, 11, 0]]);
    assert_eq!(of("1A 04 2A 02 0A 00"), [[3, 11, 0]], "the empty one");
    assert_eq!(of("1A 07 2A 05 0A 03 6D 31 31"), [[3, 11, 0]], "another's front");
    let long = format!("1A 45 2A 43 0A 41{}", " FF".repeat(65));
    assert_eq!(of(&long), [[3, 11, 0]], "65 bytes");
    let entries = entries_with(&names(), &Ids::default(), &hex("1A 05 2A 03 0A 01 6D"));
    assert_eq!(entries.unwrap()[0].numbers(), [3, 11, 0], "an empty table");
    assert_eq!(of("1A 0B 2A 09 0A 01 6D 0A 00 0A 02 6D 31"), [[3, 0, 11], [3, 11, 0], [3, 0, 5]]);
}

#[test]
fn other_fields_and_wire_types_are_skipped() {
    assert_eq!(of("1A 02 28 01"), [[0; 3]; 0], "field 5 as a number");
    assert_eq!(of("1A 04 2A 02 08 01"), [[0; 3]; 0], "an id as a number");
    assert_eq!(of("1A 05 2A 03 12 01 6D"), [[0; 3]; 0], "field 2");
    assert_eq!(of("1A 0A 2A 08 0D 00 00 00 00 0A 01 6D"), [[3, 0, 11]]);
    assert_eq!(of("2A 03 0A 01 6D"), [[0; 3]; 0], "field 5 of the RPC itself");
}

#[test]
fn overlong_numbers_are_read() {
    assert_eq!(of("1A 09 AA 00 04 8A 00 01 6D 28 01"), [[3, 0, 11]]);
}

#[test]
fn a_table_without_rows_knows_no_id() {
    let found = entries(&names(), &hex("1A 06 2A 04 0A 02 6D 31")).expect("a good message");
    assert_eq!(found.iter().map(|entry| entry.numbers()).collect::<Vec<_>>(), [[3, 11, 0]]);
    assert_eq!(entries(&names(), &hex("1A 03 2A 01 0A")).map_err(|broken| broken.place), Err(4));
}

#[test]
fn broken_fields_inside() {
    assert_eq!(broken("1A 03 2A 01 0A"), (4, 2), "a cut length");
    assert_eq!(broken("1A 03 2A 01 00"), (4, 2), "field 0");
    assert_eq!(broken("1A 04 2A 02 0A 01"), (4, 2), "past the end of the field around it");
    assert_eq!(broken("1A 02 2A 05"), (2, 1), "its own length past the end");
    assert_eq!(broken("1A 08 2A 06 0A 01 6D 0B 01 01"), (7, 2), "wire type 3");
}

// "Message ids become numbers by a table that the host lends, ids of 1 to 64 bytes, no id or
// number twice (else 2, after 8)".

#[test]
fn tables_that_are_2() {
    let bad = [
        ids_of(&[(b"", 1)]),
        ids_of(&[(&[1; 65], 1)]),
        ids_of(&[(b"a", 1), (b"b", 2), (b"a", 3)]),
        ids_of(&[(b"a", 1), (b"b", 2), (b"c", 1)]),
        ids_of(&[(b"a", 1), (b"a", 1)]),
    ];
    let mut entries = vec![0; ENTRY_LIST];
    let too_long = vec![0; LONGEST_MESSAGE + 1];
    for table in &bad {
        let mut read =
            |message: &[u8]| read_with(&names(), table, message, &mut entries).unwrap_err();
        assert_eq!(read(&[]), Refusal::OutOfRange, "{table:?}");
        assert_eq!(read(&too_long), Refusal::OutOfRange, "before the length");
        assert_eq!(read(&[0]), Refusal::OutOfRange, "before malformed bytes");
        let short = read_with(&names(), table, &[], &mut [0; ENTRY_LIST - 1]);
        assert_eq!(short, Err(Refusal::ShortList), "after 8");
        let empty = write_with(&names(), table, &Lists::default(), &mut []);
        assert_eq!(empty, Err(Refusal::OutOfRange));
    }
    for table in [Ids::default(), ids(), ids_of(&[(b"a", 1), (b"aa", 2)])] {
        assert_eq!(read_with(&names(), &table, &[], &mut entries), Ok(0));
        assert_eq!(write_with(&names(), &table, &Lists::default(), &mut []), Ok(0));
    }
    let many = (0..5000u64).map(|number| (number.to_le_bytes().to_vec(), number)).collect();
    assert_eq!(read_with(&names(), &Ids { rows: many }, &[], &mut entries), Ok(0));
}

#[test]
fn the_list_is_filled_from_its_start() {
    let mut entries = vec![77; ENTRY_LIST];
    let message = hex("1A 09 2A 07 0A 01 6D 0A 02 6D 7A");
    assert_eq!(read_with(&names(), &ids(), &message, &mut entries), Ok(2));
    assert_eq!(entries[..7], [3, 0, 11, 3, 11, 0, 77]);
    let mut entries = vec![77; ENTRY_LIST];
    let malformed = read_with(&names(), &ids(), &hex("1A 06 2A 04 0A 01 6D 00"), &mut entries);
    assert_eq!(malformed.map_err(|refusal| (refusal.number(), refusal.place())), Err((10, 7)));
    assert!(entries.iter().all(|&number| number == 77), "no event");
}

#[test]
fn as_many_ids_as_a_message_holds() {
    // 16,384 bytes: two heads of three, and 8,189 empty ids.
    let mut message = hex("1A FD 7F 2A FA 7F");
    message.extend(hex("0A 00").repeat(8189));
    assert_eq!(message.len(), LONGEST_MESSAGE);
    let mut entries = vec![0; ENTRY_LIST];
    assert_eq!(read_with(&names(), &ids(), &message, &mut entries), Ok(8189));
}

// "and written, all ids in one field; order 4's list takes kind 3, each with its number for a
// topic"; "a number not in it 2".

#[test]
fn all_ids_in_one_field() {
    assert_eq!(written(&list(&[[3, 9, 0]], &[5], &[])), Ok(hex("1A 06 2A 04 0A 02 6D 31")));
    let several = list(&[[3, 9, 0], [3, 9, 0], [3, 9, 0]], &[11, u64::MAX, 11], &[]);
    assert_eq!(written(&several), Ok(hex("1A 0C 2A 0A 0A 01 6D 0A 02 6D 32 0A 01 6D")));
    assert_eq!(written(&list(&[[1, 9, 0]], &[0], &[])), Ok(hex("1A 05 1A 03 0A 01 61")));
}

#[test]
fn the_field_comes_after_the_prunes() {
    let mixed = list(&[[3, 9, 0], [2, 9, 60], [3, 9, 0], [1, 9, 0]], &[5, 0, 11, 7], &[1, 7]);
    let message = "0A 05 08 01 12 01 62 1A 15 1A 03 0A 01 62 22 05 0A 01 61 18 3C \
                   2A 07 0A 02 6D 31 0A 01 6D";
    assert_eq!(written(&mixed), Ok(hex(message)));
    assert_eq!(of(message), [[0, 7, 1], [1, 7, 0], [2, 0, 60], [3, 0, 5], [3, 0, 11]]);
    // Read back and written again it is the same.
    let entries = entries_with(&names(), &ids(), &hex(message)).expect("a good message");
    let again = Lists::of_entries(&entries, 9).expect("all topics known");
    assert_eq!(written(&again), Ok(hex(message)));
    assert_eq!(again.entries(), entries);
}

#[test]
fn lists_that_are_2() {
    let wrongs =
        |list: &Lists| -> Vec<Wrong> { list.wrongs_with(&names(), &ids()).into_iter().collect() };
    let good = list(&[[3, 9, 0]], &[5], &[]);
    assert_eq!(wrongs(&good), []);
    assert_eq!(wrongs(&list(&[[3, 9, 0]], &[6], &[])), [Wrong::NumberNotInTable]);
    assert_eq!(wrongs(&list(&[[3, 9, 1]], &[5], &[])), [Wrong::NoticeThird]);
    assert_eq!(wrongs(&list(&[[3, 0, 0]], &[5], &[])), [Wrong::IdZero]);
    assert_eq!(wrongs(&list(&[[3, 9, 0], [1, 8, 0]], &[5, 0], &[])), [Wrong::TwoIds]);
    for kind in [0, 4, 5, 6] {
        assert_eq!(wrongs(&list(&[[kind, 9, 0]], &[0], &[])), [Wrong::ActionKind]);
    }
    assert_eq!(wrongs(&list(&[[3, 9, 0]; 65], &[5; 65], &[])), [Wrong::TooManyActions]);
    assert_eq!(wrongs(&list(&[[3, 9, 0]; 64], &[5; 64], &[])), []);
    assert_eq!(wrongs(&list(&[[3, 9, 0]], &[], &[])), [Wrong::NotATopicEach]);
    // A number is no topic: number 11 is in the table, and topic 5 has no name.
    assert_eq!(wrongs(&list(&[[3, 9, 0]], &[11], &[])), []);
    assert_eq!(wrongs(&list(&[[1, 9, 0]], &[5], &[])), [Wrong::ActionTopicUnnamed]);
    let bad = ids_of(&[(b"", 5)]);
    let table: Vec<Wrong> = good.wrongs_with(&names(), &bad).into_iter().collect();
    assert_eq!(table, [Wrong::Table]);
    // A table without rows has no number.
    let mut buffer = [0; 100];
    assert_eq!(write(&names(), &good, &mut buffer), Err(Refusal::OutOfRange));
}

#[test]
fn every_2_comes_before_13() {
    let good = list(&[[3, 9, 0]], &[5], &[]);
    let write = |list: &Lists, ids: &Ids, room: usize| {
        let mut buffer = vec![0x55; room];
        let answer = write_with(&names(), ids, list, &mut buffer);
        assert!(answer.is_ok() || buffer.iter().all(|&byte| byte == 0x55), "unchanged");
        answer.map_err(|refusal| refusal.number())
    };
    assert_eq!(write(&good, &ids(), 8), Ok(8));
    assert_eq!(write(&good, &ids(), 7), Err(13));
    assert_eq!(write(&good, &ids_of(&[(b"m1", 4)]), 0), Err(2), "the number");
    assert_eq!(write(&good, &ids_of(&[(b"m1", 5), (b"", 4)]), 0), Err(2), "the table");
    assert_eq!(write(&list(&[[3, 9, 5]], &[5], &[]), &ids(), 0), Err(2), "the list");
}
