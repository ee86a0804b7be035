//! A difference told to people, with the shortest message or list found that still shows one.

use super::library::{MessageLibrary, Tables};
use super::runs::{again, Failure, Subject};
use reference::message::tree::shrink_message;
use reference::message::{
    IdTable, Ids, Lists, Names, NamesTable, ENTRY_LIST, ID_ROW, LONGEST_WRITTEN, NAME_ROW,
};
use reference::params::TOPICS;
use reference::shrink::shrink;
use std::fmt::Write;

/// Longer bytes are told by their start.
const SHOWN: usize = 1000;

pub fn of_failure<L: MessageLibrary>(library: &L, failure: &Failure) -> String {
    let (part, place) = (part_of(&failure.subject), failure.place);
    let mut out = format!("{part}: a difference at input {place} ({}):\n", failure.kind);
    for line in &failure.difference.0 {
        let _ = writeln!(out, "  {line}");
    }
    let (tables, subject) = shrunk(library, failure.tables.clone(), failure.subject.clone());
    out += "the smallest found:\n";
    write_names(&tables.names, &mut out);
    write_ids(&tables.ids, &mut out);
    write_subject(&subject, &mut out);
    match again(library, &tables, &subject) {
        Some(difference) => {
            for line in &difference.0 {
                let _ = writeln!(out, "  {line}");
            }
        }
        None => out += "  made again, it shows no difference\n",
    }
    out
}

fn part_of(subject: &Subject) -> &'static str {
    match subject {
        Subject::Names => "names",
        Subject::Read { .. } => "read",
        Subject::Write { .. } => "write",
    }
}

/// Fewer bytes, lists of the usual length, fewer and shorter names, and small numbers.
fn shrunk<L: MessageLibrary>(
    library: &L,
    mut tables: Tables,
    subject: Subject,
) -> (Tables, Subject) {
    let fails = |tables: &Tables, subject: &Subject| again(library, tables, subject).is_some();
    let subject = match subject {
        Subject::Names => Subject::Names,
        Subject::Read { message, room, then_written } => {
            shrunk_message(message, room, then_written, |subject| fails(&tables, subject))
        }
        Subject::Write { lists, length } => {
            shrunk_lists(lists, length, |subject| fails(&tables, subject))
        }
    };
    for topic in 0..TOPICS {
        let mut attempt = |change: &dyn Fn(&mut [u8])| {
            let mut other = tables.clone();
            change(&mut other.names[NAME_ROW * topic..][..NAME_ROW]);
            let still = fails(&other, &subject);
            if still {
                tables = other;
            }
            still
        };
        if !attempt(&|row| row.fill(0)) {
            attempt(&|row| row[0] = 1);
            attempt(&|row| row[1..].fill(b'a' + topic as u8));
        }
    }
    let ids = shrunk_ids(&tables.ids, |ids| {
        fails(&Tables { names: tables.names, ids: ids.clone() }, &subject)
    });
    (Tables { names: tables.names, ids }, subject)
}

/// Fewer rows, where the table is accepted.
fn shrunk_ids(table: &IdTable, fails: impl Fn(&IdTable) -> bool) -> IdTable {
    let Some(ids) = table.accepted() else { return table.clone() };
    let of = |rows: &[(Vec<u8>, u64)]| IdTable::sorted(&Ids { rows: rows.to_vec() });
    of(&shrink(ids.rows, |rows| fails(&of(rows))))
}

fn shrunk_message(
    message: Vec<u8>,
    room: usize,
    then_written: bool,
    fails: impl Fn(&Subject) -> bool,
) -> Subject {
    let of = |message: &[u8], room| {
        let message = message.to_vec();
        Subject::Read { message, room, then_written }
    };
    let room = if fails(&of(&message, ENTRY_LIST)) { ENTRY_LIST } else { room };
    let mut message = shrink_message(message, |message| fails(&of(message, room)));
    for place in 0..message.len() {
        let byte = message[place];
        let plainer = [0, 1, byte & 0x7f].into_iter().filter(|&other| other < byte);
        for other in plainer {
            message[place] = other;
            if fails(&of(&message, room)) {
                break;
            }
            message[place] = byte;
        }
    }
    of(&message, room)
}

fn shrunk_lists(lists: Lists, length: usize, fails: impl Fn(&Subject) -> bool) -> Subject {
    let of = |lists: &Lists, length| Subject::Write { lists: lists.clone(), length };
    let mut lists = lists;
    let whole = lists.actions.len() == 3 * lists.topics.len();
    let length = if fails(&of(&lists, LONGEST_WRITTEN)) { LONGEST_WRITTEN } else { length };
    let fails = |lists: &Lists| fails(&of(lists, length));
    if whole {
        let pairs: Vec<(Vec<u32>, u64)> = lists
            .actions
            .chunks(3)
            .map(<[u32]>::to_vec)
            .zip(lists.topics.iter().copied())
            .collect();
        let with = |pairs: &[(Vec<u32>, u64)]| Lists {
            actions: pairs.iter().flat_map(|(action, _)| action.clone()).collect(),
            topics: pairs.iter().map(|(_, topic)| *topic).collect(),
            changes: lists.changes.clone(),
        };
        let fewer = with(&shrink(pairs, |pairs| fails(&with(pairs))));
        lists = fewer;
    }
    let with = |changes: &[u64]| Lists { changes: changes.to_vec(), ..lists.clone() };
    let changes = shrink(lists.changes.clone(), |changes| fails(&with(changes)));
    of(&with(&changes), length)
}

fn write_names(table: &NamesTable, out: &mut String) {
    for (topic, row) in table.chunks(NAME_ROW).enumerate().filter(|(_, row)| row[0] != 0) {
        let name =
            Names::of_table(table).name(topic as u64).map_or(&row[1..], |name| name).to_vec();
        let _ = writeln!(out, "  topic {topic}, {} bytes:{}", row[0], hex(&name));
    }
}

fn write_ids(table: &IdTable, out: &mut String) {
    for (row, id) in table.ids.chunks(ID_ROW).enumerate() {
        let length = usize::from(id[0]);
        let bytes = id.get(1..=length).unwrap_or(&id[1..]);
        let number = table.numbers.get(row);
        let _ = writeln!(out, "  id of {length} bytes:{}, number {number:?}", hex(bytes));
    }
    if !table.order.is_empty() {
        let _ = writeln!(out, "  rows by number {:?}", table.order);
    }
}

fn write_subject(subject: &Subject, out: &mut String) {
    let _ = match subject {
        Subject::Names => Ok(()),
        Subject::Read { message, room, .. } => {
            let (length, bytes) = (message.len(), hex(message));
            writeln!(out, "  message, {length} bytes:{bytes}\n  list of {room} numbers")
        }
        Subject::Write { lists, length } => {
            let Lists { actions, topics, changes } = lists;
            writeln!(
                out,
                "  actions {actions:?}\n  topics {topics:?}\n  joins and leaves {changes:?}\n  buffer of {length} bytes"
            )
        }
    };
}

fn hex(bytes: &[u8]) -> String {
    let mut out: String = bytes.iter().take(SHOWN).map(|byte| format!(" {byte:02x}")).collect();
    if bytes.len() > SHOWN {
        out += " ..";
    }
    out
}
