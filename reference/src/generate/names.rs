//! Tables of topic names, good and bad.

use crate::message::{NamesTable, LONGEST_NAME, NAMES_BYTES, NAME_ROW};
use crate::params::TOPICS;
use crate::random::Random;

/// The kinds of tables that set-up takes, and of those that it refuses.
pub const GOOD: [&str; 6] = [
    "no names",
    "eight names",
    "some names",
    "names alike but for the last byte",
    "names that begin other names",
    "a name again in a row without one",
];
pub const BAD: [&str; 4] = [
    "a length over 64",
    "two names alike",
    "two names of 64 bytes alike",
    "alike, other bytes past",
];

/// One table and the kind it was made for.
pub struct Table {
    pub kind: &'static str,
    pub table: NamesTable,
}

/// A table that set-up takes.
pub fn good(random: &mut Random) -> Table {
    let kind = *random.pick(&GOOD);
    let names: Vec<Vec<u8>> = match kind {
        "no names" => vec![],
        "names alike but for the last byte" => alike_but_for_the_last(random),
        "names that begin other names" => beginnings(random),
        _ => different(random),
    };
    let mut table = rows(random, &names);
    if kind == "some names" {
        for topic in 0..TOPICS {
            if random.chance(1, 2) {
                table[NAME_ROW * topic] = 0;
            }
        }
    }
    if kind == "a name again in a row without one" {
        let (from, to) = two_topics(random);
        copy_row(&mut table, from, to);
        table[NAME_ROW * to] = 0;
    }
    Table { kind, table }
}

/// A table that set-up refuses.
pub fn bad(random: &mut Random) -> Table {
    let kind = *random.pick(&BAD);
    let names = different(random);
    let mut table = rows(random, &names);
    let (from, to) = two_topics(random);
    match kind {
        "a length over 64" => {
            table[NAME_ROW * to] = *random.pick(&[65, 66, 100, 127, 128, 192, 255]);
        }
        "two names of 64 bytes alike" => {
            table[NAME_ROW * from] = LONGEST_NAME as u8;
            copy_row(&mut table, from, to);
        }
        "alike, other bytes past" => {
            let length = random.below(LONGEST_NAME);
            table[NAME_ROW * from] = 1 + length as u8 % 63;
            copy_row(&mut table, from, to);
            table[NAME_ROW * to + LONGEST_NAME] ^= 1;
        }
        _ => copy_row(&mut table, from, to),
    }
    Table { kind, table }
}

/// Eight rows: the names that there are, then rows without a name; bytes past a name are
/// any.
fn rows(random: &mut Random, names: &[Vec<u8>]) -> NamesTable {
    let mut table = [0; NAMES_BYTES];
    table.copy_from_slice(&random.bytes(NAMES_BYTES));
    for (topic, row) in table.chunks_mut(NAME_ROW).enumerate() {
        let name: &[u8] = names.get(topic).map_or(&[], |name| name);
        row[0] = name.len() as u8;
        row[1..=name.len()].copy_from_slice(name);
    }
    table
}

fn two_topics(random: &mut Random) -> (usize, usize) {
    let from = random.below(TOPICS);
    (from, (from + 1 + random.below(TOPICS - 1)) % TOPICS)
}

fn copy_row(table: &mut NamesTable, from: usize, to: usize) {
    table.copy_within(NAME_ROW * from..NAME_ROW * (from + 1), NAME_ROW * to);
}

fn a_length(random: &mut Random) -> usize {
    random.often_an_end(1, LONGEST_NAME as i64) as usize
}

/// Eight different names.
fn different(random: &mut Random) -> Vec<Vec<u8>> {
    let mut names: Vec<Vec<u8>> = Vec::new();
    while names.len() < TOPICS {
        let length = a_length(random);
        let name = if random.chance(1, 2) {
            (0..length).map(|_| *random.pick(b"abc")).collect()
        } else {
            random.bytes(length)
        };
        if !names.contains(&name) {
            names.push(name);
        }
    }
    names
}

fn alike_but_for_the_last(random: &mut Random) -> Vec<Vec<u8>> {
    let length = a_length(random);
    let mut name = random.bytes(length);
    let name = |topic: usize| {
        name[length - 1] = name[length - 1].wrapping_add(1 + topic as u8);
        name.clone()
    };
    (0..TOPICS).map(name).collect()
}

/// One name, and fronts of it of different lengths.
fn beginnings(random: &mut Random) -> Vec<Vec<u8>> {
    let name = random.bytes(LONGEST_NAME);
    let mut lengths: Vec<usize> = (1..=LONGEST_NAME).collect();
    random.shuffle(&mut lengths);
    lengths[..TOPICS].iter().map(|&length| name[..length].to_vec()).collect()
}

#[cfg(test)]
mod tests {
    use super::*;
    use crate::message::check_names;

    #[test]
    fn set_up_takes_the_good_and_refuses_the_bad() {
        let mut random = Random::new(1);
        for _ in 0..5000 {
            let table = good(&mut random);
            assert!(check_names(&table.table).is_ok(), "{}", table.kind);
            let table = bad(&mut random);
            assert!(check_names(&table.table).is_err(), "{}", table.kind);
        }
    }
}
