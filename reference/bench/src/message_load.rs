//! The messages that are timed: an ordinary one, and those of 16,384 bytes that may take a
//! reader longest; the longest message that is written; and message ids, by a table of 256.

use reference::generate::messages::overlong;
use reference::message::{
    check_names, written, written_with, Entry, IdTable, Ids, Kind, Lists, Names, NamesTable,
    LONGEST_MESSAGE, LONGEST_NAME, NAMES_BYTES, NAME_ROW,
};
use reference::params::TOPICS;
use reference::router::{IDONTWANT, PRUNE};

/// What is timed.
pub enum Work {
    Read(Vec<u8>),
    Write(Lists),
}

pub struct Line {
    pub name: &'static str,
    pub names: NamesTable,
    pub ids: IdTable,
    pub work: Work,
}

impl Line {
    /// The bytes that are read or written.
    pub fn length(&self) -> usize {
        match &self.work {
            Work::Read(message) => message.len(),
            Work::Write(lists) => {
                let names = Names::of_table(&self.names);
                written_with(&names, &self.ids.ids(), &lists.entries()).len()
            }
        }
    }
}

/// Eight names of some twenty bytes.
const ORDINARY: [&str; TOPICS] = [
    "/doors/building-2/v1",
    "/lamps/building-2/v1",
    "/heating/floor-3/v1",
    "/heating/floor-4/v1",
    "/lift-notices/east/v1",
    "/lift-notices/west/v1",
    "/smoke-alarms/all/v2",
    "/meeting-rooms/v1",
];

fn table_of(names: [Vec<u8>; TOPICS]) -> NamesTable {
    let mut table = [0; NAMES_BYTES];
    for (row, name) in table.chunks_mut(NAME_ROW).zip(names) {
        row[0] = name.len() as u8;
        row[1..=name.len()].copy_from_slice(&name);
    }
    check_names(&table).expect("good names");
    table
}

fn ordinary_names() -> NamesTable {
    table_of(ORDINARY.map(|name| name.as_bytes().to_vec()))
}

/// Eight names of 64 bytes that are alike but for the last.
fn long_names() -> NamesTable {
    table_of(std::array::from_fn(|topic| {
        let mut name = vec![b'n'; LONGEST_NAME];
        name[LONGEST_NAME - 1] = b'0' + topic as u8;
        name
    }))
}

/// The rows of the table of ids.
const ROWS: u64 = 256;

/// Ids of 20 bytes that are alike but for two in the middle, and numbers in another order.
fn some_ids() -> Ids {
    let row = |row: u64| {
        let mut id = vec![b'i'; 20];
        id[9..11].copy_from_slice(&[row as u8, b'.']);
        (id, row.wrapping_mul(0x9e37_79b9_7f4a_7c15))
    };
    Ids { rows: (0..ROWS).map(row).collect() }
}

fn entry(kind: Kind, topic: usize, value: u64) -> Entry {
    Entry { kind, topic: Some(topic), value }
}

/// Bytes again and again, as often as a message has room for; then skipped fields of two
/// bytes, and of three if need be, up to its end.
fn filled(front: &[u8], bytes: &[u8]) -> Vec<u8> {
    let mut message = front.to_vec();
    while message.len() + bytes.len() <= LONGEST_MESSAGE {
        message.extend(bytes);
    }
    if (LONGEST_MESSAGE - message.len()) % 2 == 1 {
        message.extend([0x28, 0x80, 0x00]);
    }
    while message.len() < LONGEST_MESSAGE {
        message.extend([0x28, 0x00]);
    }
    assert_eq!(message.len(), LONGEST_MESSAGE);
    message
}

/// A field with a length of two bytes.
fn with_length(tag: u8, bytes: &[u8]) -> Vec<u8> {
    [&[tag][..], &overlong(bytes.len() as u64, 2), bytes].concat()
}

/// A field with a length of one byte.
fn of_length(tag: u8, bytes: &[u8]) -> Vec<u8> {
    [&[tag, bytes.len() as u8], bytes].concat()
}

/// Some of everything: entries of the three kinds with topics, without and with unknown ones,
/// fields of every wire type that are skipped, an overlong number.
fn mixture(names: &Names) -> Vec<u8> {
    let topics = || 0..TOPICS;
    let mut entries: Vec<Entry> =
        topics().map(|k| entry(Kind::Subscription, k, k as u64 % 2)).collect();
    entries.extend(topics().map(|k| entry(Kind::Graft, k, 0)));
    entries.extend(topics().map(|k| entry(Kind::Prune, k, 450 * k as u64)));
    let mut message = written(names, &entries);
    let unknown_topic = [0x1a, 0x09, 0x22, 0x07, 0x0a, 0x03, b'n', b'e', b'w', 0x18, 0x3c];
    message.extend([0x0a, 0x00, 0x1a, 0x04, 0x1a, 0x00, 0x22, 0x00]);
    message.extend(unknown_topic);
    message.extend([0x28, 0x85, 0x80, 0x00, 0x31, 1, 2, 3, 4, 5, 6, 7, 8, 0x3d, 1, 2, 3, 4]);
    message.extend(with_length(0x12, &[0xff; 200]));
    message
}

/// The lines of the table.
pub fn lines() -> Vec<Line> {
    let (names, long) = (ordinary_names(), long_names());
    let known = Names::of_table(&names);
    let mut entries: Vec<Entry> = (0..TOPICS).map(|k| entry(Kind::Subscription, k, 1)).collect();
    entries.extend((0..TOPICS).map(|k| entry(Kind::Graft, k, 0)));
    let last_name = [entry(Kind::Subscription, TOPICS - 1, 1)];
    let last_name = written(&Names::of_table(&long), &last_name);
    let ten_bytes = [&[0x28][..], &overlong(1, 10)].concat();
    let prunes = with_length(0x1a, &[0x22, 0x00].repeat(8189));
    let read = |name, names, message| {
        let ids = IdTable::default();
        Line { name, names, ids, work: Work::Read(message) }
    };
    let (ids, table) = (some_ids(), IdTable::sorted(&some_ids()));
    let fields: Vec<Vec<u8>> = ids.rows.iter().map(|(id, _)| of_length(0x0a, id)).collect();
    let notices = with_length(0x1a, &with_length(0x2a, &fields.concat()));
    let empty_ids = with_length(0x1a, &with_length(0x2a, &[0x0a, 0x00].repeat(8189)));
    vec![
        read("ordinary: 8 subscriptions, 8 GRAFTs", names, written(&known, &entries)),
        read("one publish", names, with_length(0x12, &[0xff; LONGEST_MESSAGE - 3])),
        read("8192 unknown fields of two bytes", names, filled(&[], &[0x28, 0x00])),
        read("unknown numbers of ten bytes", names, filled(&[], &ten_bytes)),
        read("234 subscriptions, the last of 8 names", long, filled(&[], &last_name)),
        read("8192 empty subscriptions", names, filled(&[], &[0x0a, 0x00])),
        read("8189 empty PRUNEs in one control", names, filled(&prunes, &[0x28, 0x80, 0x00])),
        read("4096 controls of an empty PRUNE", names, filled(&[], &[0x1a, 0x02, 0x22, 0x00])),
        read("a mixture of all", names, filled(&[], &mixture(&known))),
        read("8189 empty ids in one IDONTWANT", names, empty_ids),
        Line {
            name: "256 ids of 20 bytes, all in a table of 256",
            names,
            ids: table.clone(),
            work: Work::Read(notices),
        },
        Line {
            name: "no entry, by a table of 256 ids",
            names,
            ids: table.clone(),
            work: Work::Read(Vec::new()),
        },
        Line {
            name: "written: 64 PRUNEs, 8 joins",
            names: long,
            ids: IdTable::default(),
            work: Work::Write(longest_lists()),
        },
        Line {
            name: "written: 64 ids of a table of 256",
            names,
            ids: table,
            work: Work::Write(notice_lists(&ids)),
        },
    ]
}

/// 64 PRUNEs with backoffs of two bytes, and 8 joins.
fn longest_lists() -> Lists {
    Lists {
        actions: [PRUNE, 7, 3600].repeat(64),
        topics: (0..64).map(|place| place % TOPICS as u64).collect(),
        changes: (0..TOPICS as u64).flat_map(|topic| [1, topic]).collect(),
    }
}

/// 64 notices.
fn notice_lists(ids: &Ids) -> Lists {
    let topics = ids.rows.iter().step_by(4).map(|row| row.1).collect();
    Lists { actions: [IDONTWANT, 7, 0].repeat(64), topics, changes: Vec::new() }
}

#[cfg(test)]
mod tests {
    use super::*;
    use reference::message::{entries_with, LONGEST_WRITTEN};

    #[test]
    fn lines_hold_what_their_names_say() {
        let counts: Vec<(usize, usize)> = lines()
            .iter()
            .map(|line| match &line.work {
                Work::Read(message) => {
                    let names = Names::of_table(&line.names);
                    let found = entries_with(&names, &line.ids.ids(), message);
                    (message.len(), found.expect("a good message").len())
                }
                Work::Write(lists) => (line.length(), lists.entries().len()),
            })
            .collect();
        let full = |count| (LONGEST_MESSAGE, count);
        assert!((380..=420).contains(&counts[0].0), "{}", counts[0].0);
        assert_eq!(counts[0].1, 16);
        let some = counts[8].1;
        assert!(some > 300, "{some}");
        let expected =
            [full(0), full(0), full(0), full(234), full(8192), full(8189), full(4096), full(some)];
        assert_eq!(counts[1..9], expected);
        assert_eq!(counts[9..12], [full(8189), (5638, 256), (0, 0)]);
        assert_eq!(counts[12..], [(LONGEST_WRITTEN, 72), (1414, 64)]);
    }
}
