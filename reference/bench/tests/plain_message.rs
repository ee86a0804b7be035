//! The plain reader and writer against the second program.

use bench::plain_message::{read_message, write_message};
use reference::generate::messages::Input;
use reference::generate::{lists, messages, names, notices};
use reference::message::{
    read_with, write_with, written_with, IdTable, Lists, Names, NamesTable, Refusal, Wrong,
    ENTRY_LIST, LONGEST_WRITTEN,
};
use reference::random::Random;

const ROUNDS: usize = 20_000;

fn code(answer: Result<usize, Refusal>) -> u64 {
    match answer {
        Ok(value) => 256 * value as u64,
        Err(refusal) => u64::from(refusal.number()) + 256 * refusal.place() as u64,
    }
}

fn same_read(table: &NamesTable, ids: &IdTable, message: &[u8], room: usize) {
    let names = Names::of_table(table);
    let (mut expected, mut got) = (vec![7; room], vec![7; room]);
    let due = code(read_with(&names, &ids.ids(), message, &mut expected));
    assert_eq!(read_message(table, ids, message, &mut got), due, "{message:02x?}");
    assert!(got == expected, "{message:02x?}");
}

fn some_names(random: &mut Random) -> NamesTable {
    if random.chance(1, 8) {
        names::bad(random).table
    } else {
        names::good(random).table
    }
}

fn some_ids(random: &mut Random) -> IdTable {
    if random.chance(1, 8) {
        notices::bad_lent(random).1
    } else {
        IdTable::sorted(&notices::good(random))
    }
}

#[test]
fn same_entries_and_places() {
    let mut random = Random::new(64);
    for input in messages::full(&mut random) {
        same_read(&some_names(&mut random), &IdTable::default(), &input.bytes, ENTRY_LIST);
    }
    for round in 0..ROUNDS {
        let table = some_names(&mut random);
        let names = Names::of_table(&table);
        let lent = some_ids(&mut random);
        let ids = lent.ids();
        let good = messages::good_with(&mut random, &names, &ids);
        let damaged = messages::damaged_with(&mut random, &names, &ids);
        for Input { bytes, .. } in [&good, &damaged, &messages::noise(&mut random)] {
            same_read(&table, &lent, bytes, ENTRY_LIST);
        }
        if round % 100 == 0 {
            let long = messages::long(&mut random, &names, &ids);
            same_read(&table, &lent, &long.bytes, ENTRY_LIST + 1);
            same_read(&table, &lent, &good.bytes, ENTRY_LIST - 1);
        }
    }
}

fn same_write(table: &NamesTable, ids: &IdTable, lists: &Lists, length: usize) {
    let (mut expected, mut got) = (vec![7; length], vec![7; length]);
    let due = code(write_with(&Names::of_table(table), &ids.ids(), lists, &mut expected));
    assert_eq!(write_message(table, ids, lists, &mut got), due, "{lists:?}");
    assert!(got == expected, "{lists:?}");
}

#[test]
fn same_bytes() {
    let mut random = Random::new(65);
    for round in 0..ROUNDS {
        let table = some_names(&mut random);
        let names = Names::of_table(&table);
        let lent = some_ids(&mut random);
        let ids = lent.accepted().unwrap_or_default();
        let good = notices::list(&mut random, &names, &ids);
        let length = written_with(&names, &ids, &good.entries()).len();
        for length in [0, length.saturating_sub(1), length, length + 1] {
            same_write(&table, &lent, &good, length);
        }
        let wrong = Wrong::ALL[round % Wrong::ALL.len()];
        if let Some(wrong) = lists::wrong(&mut random, &names, wrong) {
            same_write(&table, &lent, &wrong, LONGEST_WRITTEN);
        }
        let wrong = Wrong::OF_NOTICES[round % Wrong::OF_NOTICES.len()];
        if let Some((list, ids)) = notices::wrong(&mut random, &names, &ids, wrong) {
            same_write(&table, &IdTable::sorted(&ids), &list, LONGEST_WRITTEN);
        }
        same_write(&table, &lent, &lists::any(&mut random), LONGEST_WRITTEN);
    }
}
