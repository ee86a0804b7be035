//! Orders 1 and 4 of 02, sentence by sentence; the bytes are put together by hand.

use reference::message::{
    check_names, entries, read, write, Lists, Names, NamesTable, Part, Reason, Refusal, Wrong,
    ENTRY_LIST, LONGEST_MESSAGE, LONGEST_WRITTEN, NAMES_BYTES, NAME_ROW,
};

/// Topic 0 is "a", topic 1 "bc", topic 3 sixty-four times "x", topic 7 "b". The others
/// have no name, and what stands in their rows counts for nothing.
fn table() -> NamesTable {
    let mut table = [b'a'; NAMES_BYTES];
    let names: [&[u8]; 8] = [b"a", b"bc", b"", &[b'x'; 64], b"", b"", b"", b"b"];
    for (row, name) in table.chunks_mut(NAME_ROW).zip(names) {
        row[0] = name.len() as u8;
        row[1..=name.len()].copy_from_slice(name);
    }
    table
}

fn names() -> Names {
    check_names(&table()).expect("good names")
}

/// Bytes from text: pairs of hexadecimal digits.
fn hex(text: &str) -> Vec<u8> {
    let byte = |word| u8::from_str_radix(word, 16).expect("two digits");
    text.split_whitespace().map(byte).collect()
}

/// A tag, the length of what follows, under 128, and what follows.
fn field(tag: &str, content: &str) -> String {
    let length = content.split_whitespace().count();
    assert!(length < 128);
    format!("{tag} {length:02X} {content}")
}

/// The entries of a good message.
fn of(text: &str) -> Vec<[u64; 3]> {
    let entries = entries(&names(), &hex(text)).unwrap_or_else(|broken| panic!("{broken:?}"));
    entries.iter().map(|entry| entry.numbers()).collect()
}

/// The place, the level and the reason of a malformed message.
fn broken(text: &str) -> (usize, usize, Reason) {
    let broken = entries(&names(), &hex(text)).expect_err("a malformed message");
    (broken.place, broken.level, broken.reason)
}

fn place(text: &str) -> usize {
    broken(text).0
}

// Set-up.

#[test]
fn eight_names_at_most_of_1_to_64_bytes() {
    assert!(check_names(&table()).is_ok());
    assert!(check_names(&[0; NAMES_BYTES]).is_ok(), "no name at all");
    for length in [65, 66, 128, 255] {
        for topic in 0..8 {
            let mut long = table();
            long[NAME_ROW * topic] = length;
            assert_eq!(check_names(&long), Err(Refusal::OutOfRange));
        }
    }
}

#[test]
fn no_two_alike() {
    for (topic, other) in [(0, 1), (0, 7), (6, 7)] {
        let mut alike = [0; NAMES_BYTES];
        for place in [topic, other] {
            alike[NAME_ROW * place..][..3].copy_from_slice(&[2, b'h', b'i']);
        }
        // Bytes past a name are no part of it.
        alike[NAME_ROW * other + 3] = 9;
        assert_eq!(check_names(&alike), Err(Refusal::OutOfRange));
        alike[NAME_ROW * other] = 1;
        assert!(check_names(&alike).is_ok(), "the front of another name is another name");
        alike[NAME_ROW * other] = 0;
        assert!(check_names(&alike).is_ok(), "a row of length 0 is no name");
        alike[NAME_ROW * topic] = 0;
        assert!(check_names(&alike).is_ok(), "two rows of length 0 are not two names");
    }
    let mut long = [b'y'; NAMES_BYTES];
    for topic in 0..8 {
        long[NAME_ROW * topic] = 64;
        long[NAME_ROW * topic + 64] = topic as u8;
    }
    assert!(check_names(&long).is_ok(), "names alike in 63 bytes");
    long[NAMES_BYTES - 1] = 6;
    assert_eq!(check_names(&long), Err(Refusal::OutOfRange));
}

// Reading.

#[test]
fn an_empty_message_has_no_entries() {
    assert!(of("").is_empty());
}

#[test]
fn a_subscription() {
    assert_eq!(of("0A 05 08 01 12 01 61"), [[0, 0, 1]]);
    assert_eq!(of("0A 06 08 00 12 02 62 63"), [[0, 1, 0]]);
    // The fields of a message may come in any order.
    assert_eq!(of("0A 05 12 01 62 08 01"), [[0, 7, 1]]);
}

#[test]
fn a_missing_subscribe_is_0_and_one_above_0_is_1() {
    assert_eq!(of("0A 03 12 01 61"), [[0, 0, 0]]);
    assert_eq!(of("0A 05 08 02 12 01 61"), [[0, 0, 1]]);
    assert_eq!(of("0A 0E 08 FF FF FF FF FF FF FF FF FF 01 12 01 61"), [[0, 0, 1]]);
    assert_eq!(of("0A 0E 08 80 80 80 80 80 80 80 80 80 01 12 01 61"), [[0, 0, 1]]);
}

#[test]
fn graft_and_prune() {
    assert_eq!(of("1A 05 1A 03 0A 01 61"), [[1, 0, 0]]);
    assert_eq!(of("1A 05 22 03 0A 01 61"), [[2, 0, 0]]);
    assert_eq!(of("1A 07 22 05 0A 01 62 18 3C"), [[2, 7, 60]]);
    // A backoff is not cut to 3600 here.
    let all_bits = "1A 10 22 0E 0A 01 61 18 FF FF FF FF FF FF FF FF FF 01";
    assert_eq!(of(all_bits), [[2, 0, u64::MAX]]);
    // GRAFT has no field 3.
    assert_eq!(of("1A 07 1A 05 0A 01 61 18 3C"), [[1, 0, 0]]);
}

#[test]
fn numbers_may_be_overlong_up_to_ten_bytes() {
    // The tag, the length and the value, in two bytes and in ten.
    assert_eq!(of("8A 00 87 00 88 00 81 00 12 01 61"), [[0, 0, 1]]);
    let tag = "8A 80 80 80 80 80 80 80 80 00";
    let length = "83 80 80 80 80 80 80 80 80 00";
    assert_eq!(of(&format!("{tag} {length} 12 01 61")), [[0, 0, 0]]);
    let inside = "98 80 80 80 80 80 80 80 80 00 BC 80 80 80 80 80 80 80 80 00";
    assert_eq!(of(&format!("1A 19 22 17 {inside} 0A 01 61")), [[2, 0, 60]]);
}

#[test]
fn eleven_bytes_and_65_bits_are_malformed() {
    let (tag, value, length) = (Part::Tag, Part::Value, Part::Length);
    let eleven = "80 80 80 80 80 80 80 80 80 80 00";
    assert_eq!(broken(&format!("08 {eleven}")), (0, 0, Reason::EleventhByte(value)));
    assert_eq!(broken(&format!("12 {eleven}")), (0, 0, Reason::EleventhByte(length)));
    let long_tag = "8A 80 80 80 80 80 80 80 80 80 00 00";
    assert_eq!(broken(long_tag), (0, 0, Reason::EleventhByte(tag)));
    let wide = "80 80 80 80 80 80 80 80 80 02";
    assert_eq!(broken(&format!("28 {wide}")), (0, 0, Reason::TooWide(value)));
    assert_eq!(broken(&format!("2A {wide}")), (0, 0, Reason::TooWide(length)));
    let wide_tag = "8A 80 80 80 80 80 80 80 80 02 00";
    assert_eq!(broken(wide_tag), (0, 0, Reason::TooWide(tag)));
    // A tenth byte of 1 is the 64th bit.
    assert!(of("28 80 80 80 80 80 80 80 80 80 01").is_empty());
    let far = "2A 80 80 80 80 80 80 80 80 80 01";
    assert_eq!(broken(far), (0, 0, Reason::PastEnd(2)));
}

#[test]
fn large_field_numbers_are_unknown() {
    // Fields 2^29, 2^32 + 1, and 2^61 - 1, which is all bits of a tag; the low 32 bits of
    // the second are those of subscriptions, of a subscribe and of a GRAFT's topic.
    assert!(of("80 80 80 80 10 05").is_empty());
    assert!(of("F8 FF FF FF FF FF FF FF FF 01 05").is_empty());
    let number = "88 80 80 80 80 01 05";
    let name = "8A 80 80 80 80 01 01 61";
    assert!(of(&format!("{number} {name}")).is_empty());
    assert_eq!(of(&field("0A", number)), [[0, 11, 0]]);
    assert_eq!(of(&field("1A", &field("1A", name))), [[1, 11, 0]]);
}

/// Fields 4, 5, 6 and 16: a number, eight bytes, a length, four bytes.
const UNKNOWN: &str = "20 07 29 FF FF FF FF FF FF FF FF 32 03 FF FF FF 85 01 80 80 80 80";

#[test]
fn unknown_fields_are_skipped_whatever_they_hold() {
    assert!(of(UNKNOWN).is_empty());
    let subscription = field("0A", "12 01 61");
    assert_eq!(of(&format!("{UNKNOWN} {subscription} {UNKNOWN}")), [[0, 0, 0]]);
    assert_eq!(of(&field("0A", &format!("{UNKNOWN} 08 01 12 01 61"))), [[0, 0, 1]]);
    assert_eq!(of(&field("0A", &format!("08 01 12 01 61 {UNKNOWN}"))), [[0, 0, 1]]);
    let topic = format!("{UNKNOWN} 0A 01 61 {UNKNOWN}");
    assert_eq!(of(&field("1A", &field("1A", &topic))), [[1, 0, 0]]);
    assert_eq!(of(&field("1A", &field("22", &topic))), [[2, 0, 0]]);
    // In a control field 4 is PRUNE, but not with a number.
    assert_eq!(of(&field("1A", &format!("{UNKNOWN} 1A 00 {UNKNOWN}"))), [[1, 11, 0]]);
}

#[test]
fn publish_ihave_iwant_and_peers_are_skipped_whatever_they_hold() {
    assert!(of("12 03 FF FF FF").is_empty());
    assert!(of(&field("1A", "0A 03 FF FF FF 12 02 00 00")).is_empty());
    let prune = field("22", "12 03 FF FF FF 0A 01 61 12 00 18 05");
    assert_eq!(of(&field("1A", &prune)), [[2, 0, 5]]);
    // Control entry 6 is not known.
    assert!(of(&field("1A", "32 03 FF FF FF")).is_empty());
}

#[test]
fn known_fields_of_another_wire_type_are_skipped() {
    let fixed =
        |tags: [&str; 2]| format!("{} 00 00 00 00 00 00 00 00 {} 0A 0A 0A 0A", tags[0], tags[1]);
    // Subscriptions and control.
    assert!(of(&format!("08 01 {}", fixed(["09", "0D"]))).is_empty());
    assert!(of(&format!("18 01 {}", fixed(["19", "1D"]))).is_empty());
    // Subscribe with a length, topic with a number.
    assert_eq!(of(&field("0A", "0A 01 01 10 61")), [[0, 11, 0]]);
    let odd = format!("{} {}", fixed(["09", "0D"]), fixed(["11", "15"]));
    assert_eq!(of(&field("0A", &odd)), [[0, 11, 0]]);
    // GRAFT and PRUNE.
    assert!(of(&field("1A", &format!("18 01 20 01 {}", fixed(["19", "25"])))).is_empty());
    // topicID with a number, backoff with a length.
    assert_eq!(of(&field("1A", &field("1A", "08 61"))), [[1, 11, 0]]);
    assert_eq!(of(&field("1A", &field("22", "08 61 1A 01 05"))), [[2, 11, 0]]);
    let odd = format!("0A 01 61 {}", fixed(["19", "1D"]));
    assert_eq!(of(&field("1A", &field("22", &odd))), [[2, 0, 0]]);
}

#[test]
fn a_repeated_optional_fields_last_counts() {
    assert_eq!(of(&field("0A", "08 01 08 00 12 01 61 12 01 62")), [[0, 7, 0]]);
    assert_eq!(of(&field("0A", "08 00 12 01 61 08 01")), [[0, 0, 1]]);
    assert_eq!(of(&field("1A", &field("1A", "0A 01 61 0A 02 62 63"))), [[1, 1, 0]]);
    let prune = field("22", "18 05 0A 01 61 18 07 0A 01 62 18 00");
    assert_eq!(of(&field("1A", &prune)), [[2, 7, 0]]);
    // A known topic and then an unknown one, or an empty one.
    assert_eq!(of(&field("0A", "12 01 61 12 01 7A")), [[0, 11, 0]]);
    assert_eq!(of(&field("1A", &field("1A", "0A 01 61 0A 00"))), [[1, 11, 0]]);
    // Those of another wire type do not count, last or not.
    assert_eq!(of(&field("0A", "08 01 0A 00 12 01 61 10 05")), [[0, 0, 1]]);
    let prune = field("22", "18 05 1A 00 0A 01 61 08 05");
    assert_eq!(of(&field("1A", &prune)), [[2, 0, 5]]);
}

#[test]
fn an_absent_or_unknown_topic_gives_11() {
    assert_eq!(of("0A 00"), [[0, 11, 0]]);
    assert_eq!(of("0A 02 08 01"), [[0, 11, 1]]);
    assert_eq!(of("1A 04 1A 00 22 00"), [[1, 11, 0], [2, 11, 0]]);
    assert_eq!(of(&field("1A", &field("22", "18 3C"))), [[2, 11, 60]]);
    // Another name, the empty one, the front of one, one with a byte more, another case.
    for name in ["7A", "", "62 63 64", "61 00", "41", "78 78"] {
        assert_eq!(of(&field("0A", &field("12", name))), [[0, 11, 0]], "{name}");
    }
    // "bc" is topic 1, its front "b" topic 7. 63, 64 and 65 bytes.
    assert_eq!(of(&field("0A", "12 02 62 63")), [[0, 1, 0]]);
    assert_eq!(of(&field("0A", "12 01 62")), [[0, 7, 0]]);
    for (length, topic) in [(63, 11), (64, 3), (65, 11)] {
        let name = "78 ".repeat(length);
        assert_eq!(of(&field("0A", &field("12", &name))), [[0, topic, 0]]);
    }
    // Bytes of a row without a name, or past a name, are no name.
    assert_eq!(of(&field("0A", &field("12", &"61 ".repeat(64)))), [[0, 11, 0]]);
    assert_eq!(of(&field("0A", &field("12", "61 61"))), [[0, 11, 0]]);
}

#[test]
fn names_are_bytes() {
    let mut table = [0; NAMES_BYTES];
    table[..5].copy_from_slice(&[4, 0x00, 0xff, 0x80, 0x0a]);
    let names = check_names(&table).expect("a good name");
    let found = entries(&names, &hex("0A 06 12 04 00 FF 80 0A")).expect("a good message");
    assert_eq!(found[0].numbers(), [0, 0, 0]);
}

#[test]
fn subscriptions_then_grafts_then_prunes_and_controls_are_joined() {
    let first = field("1A", "22 03 0A 01 61 1A 03 0A 01 61 22 04 0A 02 62 63");
    let second = field("1A", "22 03 0A 01 62 1A 03 0A 01 62");
    let message = format!("{first} 0A 03 12 01 62 {second} 0A 05 12 01 61 08 01 1A 00");
    let expected = [[0, 7, 0], [0, 0, 1], [1, 0, 0], [1, 7, 0], [2, 0, 0], [2, 1, 0], [2, 7, 0]];
    assert_eq!(of(&message), expected);
}

// Malformed bytes.

#[test]
fn field_0_and_other_wire_types_are_malformed() {
    for wire_type in 0..8 {
        let message = format!("28 01 {wire_type:02X} 00");
        assert_eq!(broken(&message), (2, 0, Reason::FieldZero));
    }
    // Overlong, it is field 0 as well.
    assert_eq!(broken("82 00 00"), (0, 0, Reason::FieldZero));
    for wire_type in [3, 4, 6, 7] {
        let reason = Reason::WireType(wire_type);
        // Of subscriptions and of control, which are known, and of field 15.
        for field_number in [1, 3, 15] {
            let tag = format!("{:02X}", field_number << 3 | wire_type);
            assert_eq!(broken(&format!("28 01 {tag} 00")), (2, 0, reason));
            assert_eq!(broken(&field("0A", &format!("{tag} 00"))), (2, 1, reason));
            assert_eq!(broken(&field("1A", &format!("{tag} 00"))), (2, 1, reason));
            assert_eq!(broken(&field("1A", &field("1A", &tag))), (4, 2, reason));
            assert_eq!(broken(&field("1A", &field("22", &tag))), (4, 2, reason));
        }
    }
}

#[test]
fn bytes_cut_short_are_malformed() {
    let cut = |part| Reason::Cut(part);
    assert_eq!(broken("8A"), (0, 0, cut(Part::Tag)));
    assert_eq!(broken("28 01 8A 80"), (2, 0, cut(Part::Tag)));
    assert_eq!(broken("28"), (0, 0, cut(Part::Value)));
    assert_eq!(broken("28 80"), (0, 0, cut(Part::Value)));
    assert_eq!(broken("0A"), (0, 0, cut(Part::Length)));
    assert_eq!(broken("1A 80"), (0, 0, cut(Part::Length)));
    assert_eq!(broken("0A 01"), (0, 0, Reason::PastEnd(2)));
    assert_eq!(broken("29 00 00 00 00 00 00 00"), (0, 0, Reason::PastEnd(1)));
    assert_eq!(broken("2D 00 00 00"), (0, 0, Reason::PastEnd(5)));
    // A field ends with the one that holds it, though the message goes on.
    let after = "28 01 28 01 28 01 28 01 28 01";
    assert_eq!(broken(&format!("0A 01 88 {after}")), (2, 1, cut(Part::Tag)));
    assert_eq!(broken(&format!("0A 01 08 {after}")), (2, 1, cut(Part::Value)));
    assert_eq!(broken(&format!("0A 02 08 80 {after}")), (2, 1, cut(Part::Value)));
    assert_eq!(broken(&format!("0A 01 12 {after}")), (2, 1, cut(Part::Length)));
    assert_eq!(broken(&format!("0A 02 12 01 {after}")), (2, 1, Reason::PastEnd(2)));
    assert_eq!(broken(&format!("0A 01 29 {after}")), (2, 1, Reason::PastEnd(1)));
    assert_eq!(broken(&format!("1A 01 2D {after}")), (2, 1, Reason::PastEnd(5)));
    assert_eq!(broken(&format!("1A 04 1A 02 0A 01 {after}")), (4, 2, Reason::PastEnd(2)));
    assert_eq!(broken(&format!("1A 03 22 01 18 {after}")), (4, 2, cut(Part::Value)));
    assert_eq!(broken(&format!("1A 03 22 01 98 {after}")), (4, 2, cut(Part::Tag)));
}

#[test]
fn the_innermost_field_that_is_broken_gives_the_place() {
    // The topic inside the GRAFT inside the control; the GRAFT; the control.
    assert_eq!(place("1A 05 1A 03 0A 02 61"), 4);
    assert_eq!(place("1A 05 1A 04 0A 01 61"), 2);
    assert_eq!(place("1A 06 1A 03 0A 01 61"), 0);
    // A length past the end is found before what is broken inside.
    assert_eq!(broken("1A 05 1A 03 0A 05"), (0, 0, Reason::PastEnd(2)));
    assert_eq!(place("1A 04 1A 03 0A 05"), 2);
    assert_eq!(place("1A 04 1A 02 0A 05"), 4);
}

#[test]
fn the_first_from_the_front_gives_the_place() {
    // Inside the first field, and a later field of the message: the first is meant, also
    // where the later one is less deep.
    assert_eq!(place("0A 02 12 01 00 00"), 2);
    assert_eq!(place("28 01 00 00 0A 02 12 01"), 2);
    // A subscription after a control: the order of the bytes counts, not that of entries.
    assert_eq!(place("1A 04 1A 02 0A 05 0A 02 12 05"), 4);
    // A PRUNE before a GRAFT.
    assert_eq!(place("1A 08 22 02 18 80 1A 02 0A 05"), 4);
    // The second control's second PRUNE.
    assert_eq!(place("1A 02 22 00 1A 06 22 00 22 02 0A 01"), 10);
}

#[test]
fn skipped_fields_must_be_whole_themselves() {
    assert_eq!(place("12 03 00 00"), 0);
    assert_eq!(place(&field("1A", "0A 03 00 00")), 2);
    assert_eq!(place(&field("1A", &field("22", "12 01"))), 4);
    assert_eq!(place(&field("1A", &field("1A", "28"))), 4);
    // A topic's bytes are no fields.
    assert_eq!(of(&field("0A", "12 02 00 00")), [[0, 11, 0]]);
}

// The lent list.

const PATTERN: u64 = 0xee;

fn list(length: usize) -> Vec<u64> {
    vec![PATTERN; length]
}

#[test]
fn a_list_without_room_for_8192_entries_is_8_tested_first() {
    let good = hex("0A 00");
    let malformed = hex("00");
    let too_long = vec![0; LONGEST_MESSAGE + 1];
    for length in [0, 1, 3, ENTRY_LIST - 1] {
        for message in [&good, &malformed, &too_long] {
            let mut list = list(length);
            let refusal = read(&names(), message, &mut list).expect_err("a short list");
            assert_eq!((refusal.number(), refusal.place()), (8, 0));
            assert!(list.iter().all(|&number| number == PATTERN));
        }
    }
    for length in [24_576, 24_577] {
        assert_eq!(read(&names(), &good, &mut list(length)), Ok(1));
    }
}

#[test]
fn the_list_past_the_entries_and_under_a_refusal_stands() {
    let mut entries = list(ENTRY_LIST);
    let message = hex("0A 05 08 01 12 01 61 1A 02 22 00");
    assert_eq!(read(&names(), &message, &mut entries), Ok(2));
    assert_eq!(entries[..6], [0, 0, 1, 2, 11, 0]);
    assert!(entries[6..].iter().all(|&number| number == PATTERN));
    let mut untouched = list(ENTRY_LIST);
    let broken_at_the_end = hex("0A 05 08 01 12 01 61 1A 02 22 00 00");
    let refusal = read(&names(), &broken_at_the_end, &mut untouched).expect_err("malformed");
    assert_eq!((refusal.number(), refusal.place()), (10, 11));
    assert!(untouched.iter().all(|&number| number == PATTERN));
}

#[test]
fn a_message_over_16384_bytes_gives_10_with_place_16384() {
    // One publish field of 16,380 and of 16,381 bytes, with three bytes in front of them.
    let publish = |length: usize| {
        let mut message = hex("12 00 00");
        message[1] = (length % 128) as u8 | 0x80;
        message[2] = (length / 128) as u8;
        message.resize(3 + length, 0xff);
        message
    };
    assert_eq!(read(&names(), &publish(16_380), &mut list(ENTRY_LIST)), Ok(0));
    assert_eq!(read(&names(), &publish(16_381), &mut list(ENTRY_LIST)), Ok(0));
    // One byte more, whole or not, broken in front or not.
    let long = publish(16_382);
    assert_eq!(long.len(), 16_385);
    for message in [long, vec![0; 16_385], vec![0xff; 20_000]] {
        let refusal = read(&names(), &message, &mut list(ENTRY_LIST)).expect_err("too long");
        assert_eq!((refusal.number(), refusal.place()), (10, 16_384));
    }
    let refusal = read(&names(), &[0; 16_384], &mut list(ENTRY_LIST)).expect_err("field 0");
    assert_eq!((refusal.number(), refusal.place()), (10, 0));
}

#[test]
fn as_many_entries_as_the_list_has_room_for() {
    let mut entries = list(ENTRY_LIST + 3);
    let message = hex("0A 00").repeat(8192);
    assert_eq!(read(&names(), &message, &mut entries), Ok(8192));
    let (written, rest) = entries.split_at(ENTRY_LIST);
    assert!(written.chunks(3).all(|entry| entry == [0, 11, 0]));
    assert_eq!(rest, [PATTERN; 3]);
    // Control fields that hold one PRUNE each.
    let message = hex("1A 02 22 00").repeat(4096);
    assert_eq!(read(&names(), &message, &mut list(ENTRY_LIST)), Ok(4096));
}

// Writing.

fn lists(actions: &[[u32; 3]], topics: &[u64], changes: &[[u64; 2]]) -> Lists {
    Lists { actions: actions.concat(), topics: topics.to_vec(), changes: changes.concat() }
}

fn bytes_of(lists: &Lists) -> Vec<u8> {
    let mut buffer = [0; LONGEST_WRITTEN];
    let length = write(&names(), lists, &mut buffer).expect("good lists");
    buffer[..length].to_vec()
}

#[test]
fn an_empty_list_is_an_empty_message() {
    assert_eq!(write(&names(), &Lists::default(), &mut []), Ok(0));
}

#[test]
fn joins_and_leaves_are_subscriptions_absent_rather_than_zero() {
    assert_eq!(bytes_of(&lists(&[], &[], &[[1, 0]])), hex("0A 05 08 01 12 01 61"));
    assert_eq!(bytes_of(&lists(&[], &[], &[[0, 1]])), hex("0A 04 12 02 62 63"));
    let message = hex("0A 03 12 01 62 0A 05 08 01 12 01 61");
    assert_eq!(bytes_of(&lists(&[], &[], &[[0, 7], [1, 0]])), message);
}

#[test]
fn grafts_and_prunes_stand_in_one_control_field() {
    assert_eq!(bytes_of(&lists(&[[1, 9, 0]], &[0], &[])), hex("1A 05 1A 03 0A 01 61"));
    // A backoff of 0 is absent; 127 has one byte, 128 two, 3600 is 90 1C.
    for (seconds, prune) in [
        (0, "22 03 0A 01 61"),
        (1, "22 05 0A 01 61 18 01"),
        (127, "22 05 0A 01 61 18 7F"),
        (128, "22 06 0A 01 61 18 80 01"),
        (3600, "22 06 0A 01 61 18 90 1C"),
    ] {
        let message = hex(&field("1A", prune));
        assert_eq!(bytes_of(&lists(&[[2, 9, seconds]], &[0], &[])), message);
    }
    // Listed PRUNE, GRAFT, PRUNE, GRAFT: the GRAFTs come first, each kind as listed.
    let actions = [[2, 9, 5], [1, 9, 0], [2, 9, 0], [1, 9, 0]];
    let inside = "1A 04 0A 02 62 63 1A 03 0A 01 61 22 05 0A 01 62 18 05 22 03 0A 01 61";
    let control = field("1A", inside);
    let message = format!("0A 05 08 01 12 01 61 {control}");
    assert_eq!(bytes_of(&lists(&actions, &[7, 1, 0, 0], &[[1, 0]])), hex(&message));
}

#[test]
fn one_topic_may_come_again() {
    let message = format!(
        "0A 03 12 01 61 0A 05 08 01 12 01 61 {}",
        field("1A", "1A 03 0A 01 61 22 03 0A 01 61")
    );
    let repeated = lists(&[[1, 9, 0], [2, 9, 0]], &[0, 0], &[[0, 0], [1, 0]]);
    assert_eq!(bytes_of(&repeated), hex(&message));
}

#[test]
fn the_ends_of_01s_form_are_written() {
    for id in [1, u32::MAX] {
        let message = hex("1A 05 1A 03 0A 01 61");
        assert_eq!(bytes_of(&lists(&[[1, id, 0]], &[0], &[])), message, "the id is not written");
    }
    let most = lists(&[[2, 9, 3600]; 64], &[3; 64], &[[1, 3]; 8]);
    let message = bytes_of(&most);
    // 8 joins of 70 bytes; then a control of 64 PRUNEs of 71 bytes, 4544 in all.
    assert_eq!(message.len(), 5107);
    assert_eq!(message[..6], hex("0A 44 08 01 12 40"));
    assert_eq!(message[560..567], hex("1A C0 23 22 45 0A 40"));
    assert_eq!(message[5104..], hex("18 90 1C"));
}

#[test]
fn any_other_list_is_2() {
    let graft = |changed: [u32; 3]| lists(&[[1, 9, 0], changed], &[0, 0], &[]);
    let one = |topic| lists(&[[1, 9, 0]], &[topic], &[]);
    let change = |pair| lists(&[], &[], &[[1, 0], pair]);
    let raw = |actions: &[u32], topics: &[u64], changes: &[u64]| Lists {
        actions: actions.to_vec(),
        topics: topics.to_vec(),
        changes: changes.to_vec(),
    };
    let cases = [
        (Wrong::TooManyActions, lists(&[[1, 9, 0]; 65], &[0; 65], &[])),
        (Wrong::ActionKind, graft([0, 9, 0])),
        (Wrong::NumberNotInTable, graft([3, 9, 0])),
        (Wrong::ActionKind, graft([4, 9, 0])),
        (Wrong::ActionKind, graft([5, 9, 0])),
        (Wrong::ActionKind, graft([u32::MAX, 9, 0])),
        (Wrong::IdZero, lists(&[[1, 0, 0]], &[0], &[])),
        (Wrong::TwoIds, graft([2, 8, 0])),
        (Wrong::GraftSeconds, graft([1, 9, 1])),
        (Wrong::PruneSeconds, graft([2, 9, 3601])),
        (Wrong::PruneSeconds, graft([2, 9, u32::MAX])),
        (Wrong::ActionTopic, one(8)),
        (Wrong::ActionTopic, one(11)),
        (Wrong::ActionTopic, one(1 << 32)),
        (Wrong::ActionTopic, one(u64::MAX)),
        (Wrong::ActionTopicUnnamed, one(2)),
        (Wrong::TooManyChanges, lists(&[], &[], &[[1, 0]; 9])),
        (Wrong::HalfAChange, raw(&[], &[], &[1])),
        (Wrong::HalfAChange, raw(&[], &[], &[1, 0, 1])),
        (Wrong::ChangeKind, change([2, 0])),
        (Wrong::ChangeKind, change([1 << 32, 0])),
        (Wrong::ChangeTopic, change([1, 8])),
        (Wrong::ChangeTopic, change([0, 1 << 32])),
        (Wrong::ChangeTopicUnnamed, change([1, 6])),
        (Wrong::NotATopicEach, raw(&[1, 9, 0], &[], &[])),
        (Wrong::NotATopicEach, raw(&[1, 9, 0], &[0, 0], &[])),
        (Wrong::NotATopicEach, raw(&[1, 9], &[0], &[])),
        (Wrong::NotATopicEach, raw(&[1, 9, 0, 1], &[0], &[])),
        (Wrong::NotATopicEach, raw(&[], &[0], &[])),
    ];
    for (wrong, lists) in &cases {
        assert_eq!(lists.wrongs(&names()).into_iter().collect::<Vec<_>>(), [*wrong]);
        // First: also where the buffer is short.
        for length in [0, LONGEST_WRITTEN] {
            let mut buffer = vec![0xee; length];
            let refusal = write(&names(), lists, &mut buffer).expect_err("2");
            assert_eq!((refusal.number(), refusal.place()), (2, 0), "{lists:?}");
            assert!(buffer.iter().all(|&byte| byte == 0xee));
        }
    }
    for wrong in Wrong::ALL {
        assert!(cases.iter().any(|(other, _)| *other == wrong), "{wrong:?}");
    }
}

#[test]
fn a_buffer_shorter_than_the_message_is_13_and_unchanged() {
    let lists = lists(&[[2, 9, 60], [1, 9, 0]], &[1, 0], &[[1, 0]]);
    let message = bytes_of(&lists);
    for length in 0..message.len() {
        let mut buffer = vec![0xee; length];
        let refusal = write(&names(), &lists, &mut buffer).expect_err("13");
        assert_eq!((refusal.number(), refusal.place()), (13, 0));
        assert!(buffer.iter().all(|&byte| byte == 0xee));
    }
    for more in [0, 1, 100] {
        let mut buffer = vec![0xee; message.len() + more];
        assert_eq!(write(&names(), &lists, &mut buffer), Ok(message.len()));
        assert_eq!(buffer[..message.len()], message);
        assert!(buffer[message.len()..].iter().all(|&byte| byte == 0xee));
    }
}

#[test]
fn order_1_reads_it_back_and_writing_that_again_gives_the_same_bytes() {
    let actions = [[2, 9, 5], [1, 9, 0], [2, 9, 0], [2, 9, 3600], [1, 9, 0]];
    let lists = lists(&actions, &[7, 1, 0, 3, 3], &[[0, 1], [1, 0], [1, 3]]);
    let message = bytes_of(&lists);
    let read = entries(&names(), &message).expect("a good message");
    let numbers: Vec<_> = read.iter().map(|entry| entry.numbers()).collect();
    let expected =
        [[0, 1, 0], [0, 0, 1], [0, 3, 1], [1, 1, 0], [1, 3, 0], [2, 7, 5], [2, 0, 0], [2, 3, 3600]];
    assert_eq!(numbers, expected);
    let again = Lists::of_entries(&read, 4).expect("every entry has its topic");
    assert_eq!(bytes_of(&again), message);
}
