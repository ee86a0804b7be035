//! A plain Rust reader and writer of RPC messages, written for speed: no allocation, a fast
//! way for numbers of one byte, and two walks over a message, one that tests and counts and
//! one that writes the entries at their places.

mod read;
mod write;

pub use read::read_message;
pub use write::write_message;

use reference::message::{IdTable, NamesTable, ID_ROW, NAME_ROW};
use reference::params::TOPICS;

/// A number of 01's table and its value, as the proved library packs them.
fn packed(number: u64, value: usize) -> u64 {
    number + 256 * value as u64
}

fn row(names: &NamesTable, topic: usize) -> &[u8] {
    &names[NAME_ROW * topic..NAME_ROW * (topic + 1)]
}

/// The topic of a name.
fn topic_of(names: &NamesTable, name: &[u8]) -> Option<usize> {
    if name.is_empty() || name.len() >= NAME_ROW {
        return None;
    }
    (0..TOPICS).find(|&topic| {
        let row = row(names, topic);
        usize::from(row[0]) == name.len() && row[1..=name.len()] == *name
    })
}

/// The name of a topic.
fn name_of(names: &NamesTable, topic: u64) -> Option<&[u8]> {
    if topic >= TOPICS as u64 {
        return None;
    }
    let row = row(names, topic as usize);
    let length = usize::from(row[0]);
    (1..NAME_ROW).contains(&length).then(|| &row[1..=length])
}

/// The id of a row: shorter ones come first, and those of one length by their bytes.
fn id_of(table: &IdTable, row: usize) -> &[u8] {
    let row = &table.ids[ID_ROW * row..ID_ROW * (row + 1)];
    row.get(1..=usize::from(row[0])).unwrap_or_default()
}

fn before(a: &[u8], b: &[u8]) -> bool {
    (a.len(), a) < (b.len(), b)
}

/// Whether a table of ids is accepted.
fn good_table(table: &IdTable) -> bool {
    let IdTable { ids, numbers, order } = table;
    let rows = numbers.len();
    if ids.len() != ID_ROW * rows || order.len() != rows {
        return false;
    }
    let number = |&row: &u64| numbers.get(usize::try_from(row).ok()?).copied();
    let rises = |row: usize| row == 0 || before(id_of(table, row - 1), id_of(table, row));
    (0..rows).all(|row| !id_of(table, row).is_empty() && rises(row))
        && order.iter().all(|row| number(row).is_some())
        && order.windows(2).all(|pair| number(&pair[0]) < number(&pair[1]))
}

/// The number of an id.
fn number_of(table: &IdTable, id: &[u8]) -> Option<u64> {
    let (mut low, mut high) = (0, table.numbers.len());
    while low < high {
        let middle = low.midpoint(high);
        if before(id_of(table, middle), id) {
            low = middle + 1;
        } else {
            high = middle;
        }
    }
    (low < table.numbers.len() && id_of(table, low) == id).then(|| table.numbers[low])
}

/// The id of a number.
fn id_with(table: &IdTable, number: u64) -> Option<&[u8]> {
    let of = |row: &u64| table.numbers[*row as usize];
    let place = table.order.binary_search_by_key(&number, of).ok()?;
    Some(id_of(table, table.order[place] as usize))
}
