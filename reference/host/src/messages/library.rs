//! What the comparison asks of the library for messages, and the second program in its place.

use crate::library::packed;
use crate::stand_in::StandIn;
use reference::message::{self, IdTable, Lists, Names, NamesTable, Refusal};

/// What is lent with every message: the topics' names, and the message ids with their numbers.
#[derive(Clone)]
pub struct Tables {
    pub names: NamesTable,
    pub ids: IdTable,
}

pub trait MessageLibrary {
    /// 0, or 2.
    fn names(&self, table: &NamesTable) -> u64;

    /// 0 with the number of entries, 8, 2, or 10 with the place.
    fn read_message(&self, tables: &Tables, message: &[u8], entries: &mut [u64]) -> u64;

    /// 0 with the length of the message, 2, or 13.
    fn write_message(&self, tables: &Tables, lists: &Lists, buffer: &mut [u8]) -> u64;
}

#[cfg(linked)]
impl MessageLibrary for crate::linked::Linked {
    fn names(&self, table: &NamesTable) -> u64 {
        hivepadlet::messages::names(table)
    }

    fn read_message(&self, tables: &Tables, message: &[u8], entries: &mut [u64]) -> u64 {
        hivepadlet::messages::read_message(&tables.names, lent_ids(&tables.ids), message, entries)
    }

    fn write_message(&self, tables: &Tables, lists: &Lists, buffer: &mut [u8]) -> u64 {
        let Lists { actions, topics, changes } = lists;
        let ids = lent_ids(&tables.ids);
        hivepadlet::messages::write_message(&tables.names, ids, actions, topics, changes, buffer)
    }
}

#[cfg(linked)]
fn lent_ids(table: &IdTable) -> hivepadlet::messages::Ids<'_> {
    let IdTable { ids, numbers, order } = table;
    hivepadlet::messages::Ids { ids, numbers, order }
}

/// An answer as the library gives it.
pub fn code(answer: &Result<usize, Refusal>) -> u64 {
    match answer {
        Ok(value) => packed(0, *value),
        Err(refusal) => packed(refusal.number(), refusal.place()),
    }
}

impl MessageLibrary for StandIn {
    fn names(&self, table: &NamesTable) -> u64 {
        code(&message::check_names(table).map(|_| 0))
    }

    fn read_message(&self, tables: &Tables, message: &[u8], entries: &mut [u64]) -> u64 {
        let names = Names::of_table(&tables.names);
        code(&message::read_with(&names, &tables.ids.ids(), message, entries))
    }

    fn write_message(&self, tables: &Tables, lists: &Lists, buffer: &mut [u8]) -> u64 {
        let names = Names::of_table(&tables.names);
        code(&message::write_with(&names, &tables.ids.ids(), lists, buffer))
    }
}
