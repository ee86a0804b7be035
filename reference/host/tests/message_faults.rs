//! The comparison of messages notices faults: each is set into the stand-in. The stand-in without a fault
//! shows no difference.

use host_compare::library::{number, packed, value};
use host_compare::messages::{compare, report, Failure, MessageLibrary, Reached, Tables};
use host_compare::stand_in::StandIn;
use reference::message::{
    written_with, Entry, IdTable, Ids, Kind, Lists, Names, NamesTable, ENTRY_LIST, LONGEST_WRITTEN,
    NAME_ROW,
};
use reference::random::Random;

/// Without the short messages, which take longest.
const PARTS: [&str; 3] = ["names", "read", "write"];

type NamesOf = fn(&NamesTable) -> u64;
type ReadOf = fn(&Tables, &[u8], &mut [u64]) -> u64;
type WriteOf = fn(&Tables, &Lists, &mut [u8]) -> u64;

/// The stand-in with some functions replaced.
struct Faulty {
    names: NamesOf,
    read: ReadOf,
    write: WriteOf,
}

impl MessageLibrary for Faulty {
    fn names(&self, table: &NamesTable) -> u64 {
        (self.names)(table)
    }
    fn read_message(&self, tables: &Tables, message: &[u8], entries: &mut [u64]) -> u64 {
        (self.read)(tables, message, entries)
    }
    fn write_message(&self, tables: &Tables, lists: &Lists, buffer: &mut [u8]) -> u64 {
        (self.write)(tables, lists, buffer)
    }
}

const SOUND: Faulty = Faulty {
    names: |table| StandIn.names(table),
    read: |tables, message, entries| StandIn.read_message(tables, message, entries),
    write: |tables, lists, buffer| StandIn.write_message(tables, lists, buffer),
};

fn with_names(names: NamesOf) -> Faulty {
    Faulty { names, ..SOUND }
}

fn with_read(read: ReadOf) -> Faulty {
    Faulty { read, ..SOUND }
}

fn with_write(write: WriteOf) -> Faulty {
    Faulty { write, ..SOUND }
}

fn first_difference(library: &Faulty) -> Option<Box<Failure>> {
    let mut reached = Reached::default();
    compare(library, 3000, &PARTS, &mut Random::new(3), &mut reached).err()
}

fn each_is_seen(faults: &[(&str, Faulty)]) {
    for (name, faulty) in faults {
        assert!(first_difference(faulty).is_some(), "not noticed: {name}");
    }
}

#[test]
fn without_a_fault_there_is_no_difference() {
    assert!(first_difference(&SOUND).is_none());
}

#[test]
fn all_is_reached_that_should_be() {
    let mut reached = Reached::default();
    let told = compare(&StandIn, 20_000, &PARTS, &mut Random::new(1), &mut reached);
    assert_eq!(told.map_or(0, |told| told.len()), 3);
    assert_eq!(reached.missing(&PARTS), Vec::<String>::new());
    assert!(!Reached::default().missing(&PARTS).is_empty());
}

#[test]
fn wrong_names_are_seen() {
    each_is_seen(&[
        ("bad names are taken", with_names(|_| 0)),
        (
            "a length of 65 is taken",
            with_names(|table| {
                let mut shorter = *table;
                for row in shorter.chunks_mut(NAME_ROW).filter(|row| row[0] == 65) {
                    row[0] = 64;
                }
                StandIn.names(&shorter)
            }),
        ),
        (
            "rows without a name are compared",
            with_names(|table| {
                let rows = || table.chunks(NAME_ROW).enumerate();
                let alike = |(place, row): (usize, &[u8])| {
                    rows().any(|(other, same)| other < place && row[1..] == same[1..])
                };
                packed(if rows().any(alike) { 2 } else { StandIn.names(table) as u32 }, 0)
            }),
        ),
        (
            "bytes past a name are compared",
            with_names(|table| {
                let rows: Vec<&[u8]> = table.chunks(NAME_ROW).collect();
                let alike = |a: usize, b: usize| a != b && rows[a][0] != 0 && rows[a] == rows[b];
                let long = rows.iter().any(|row| row[0] > 64);
                let twice = (0..8).any(|a| (0..8).any(|b| alike(a, b)));
                packed(if long || twice { 2 } else { 0 }, 0)
            }),
        ),
    ]);
}

/// The result with another number or value for those that `change` takes.
fn read_and(
    tables: &Tables,
    message: &[u8],
    entries: &mut [u64],
    change: impl Fn(u32, u64) -> Option<(u32, usize)>,
) -> u64 {
    let result = StandIn.read_message(tables, message, entries);
    change(number(result), value(result)).map_or(result, |(number, value)| packed(number, value))
}

#[test]
fn wrong_answers_and_places_are_seen() {
    each_is_seen(&[
        (
            "the place after the tag",
            with_read(|tables, message, entries| {
                read_and(tables, message, entries, |number, value| {
                    (number == 10 && value < 16_384).then_some((10, value as usize + 1))
                })
            }),
        ),
        (
            "no place",
            with_read(|tables, message, entries| {
                read_and(tables, message, entries, |number, _| (number == 10).then_some((10, 0)))
            }),
        ),
        (
            "a control past the end is looked into",
            with_read(|tables, message, entries| {
                let result = StandIn.read_message(tables, message, entries);
                match (result, message) {
                    (10, [0x1a, length, inside @ ..]) if *length as usize > inside.len() => {
                        let whole = [&[0x1a, inside.len() as u8], inside].concat();
                        let inner = StandIn.read_message(tables, &whole, &mut entries.to_vec());
                        if number(inner) == 10 {
                            inner
                        } else {
                            result
                        }
                    }
                    _ => result,
                }
            }),
        ),
        (
            "a long message's place is its length",
            with_read(|tables, message, entries| {
                read_and(tables, message, entries, |number, value| {
                    (number == 10 && value == 16_384).then_some((10, message.len()))
                })
            }),
        ),
        (
            "16,385 bytes are read",
            with_read(|tables, message, entries| {
                let fits = message.len() == 16_385;
                let message = if fits { &message[..16_384] } else { message };
                StandIn.read_message(tables, message, entries)
            }),
        ),
        (
            "10 before 8",
            with_read(|tables, message, entries| {
                let long = StandIn.read_message(tables, message, &mut vec![0; ENTRY_LIST]);
                if number(long) == 10 {
                    long
                } else {
                    StandIn.read_message(tables, message, entries)
                }
            }),
        ),
        (
            "a list of 24,575 numbers is taken",
            with_read(|tables, message, entries| {
                let room = entries.len();
                if room != ENTRY_LIST - 1 {
                    return StandIn.read_message(tables, message, entries);
                }
                let mut longer = entries.to_vec();
                longer.push(0);
                let result = StandIn.read_message(tables, message, &mut longer);
                entries.copy_from_slice(&longer[..room]);
                result
            }),
        ),
        (
            "one entry too few told",
            with_read(|tables, message, entries| {
                read_and(tables, message, entries, |number, value| {
                    (number == 0 && value > 0).then(|| (0, value as usize - 1))
                })
            }),
        ),
    ]);
}

/// Reads, and changes the entries that were read.
fn read_entries(
    tables: &Tables,
    message: &[u8],
    entries: &mut [u64],
    change: impl Fn(&mut [u64]),
) -> u64 {
    let result = StandIn.read_message(tables, message, entries);
    if number(result) == 0 {
        change(&mut entries[..3 * value(result) as usize]);
    }
    result
}

#[test]
fn wrong_entries_are_seen() {
    each_is_seen(&[
        (
            "PRUNEs before GRAFTs",
            with_read(|tables, message, entries| {
                read_entries(tables, message, entries, |entries| {
                    let mut rows: Vec<Vec<u64>> = entries.chunks(3).map(<[u64]>::to_vec).collect();
                    rows.sort_by_key(|row| (3 - row[0]) % 3);
                    entries.copy_from_slice(&rows.concat());
                })
            }),
        ),
        (
            "GRAFTs in another order",
            with_read(|tables, message, entries| {
                read_entries(tables, message, entries, |entries| {
                    let grafts = entries.chunks(3).filter(|row| row[0] == 1).count();
                    let before = entries.chunks(3).filter(|row| row[0] == 0).count();
                    let grafts = &mut entries[3 * before..3 * (before + grafts)];
                    if grafts.len() == 6 {
                        grafts.rotate_left(3);
                    }
                })
            }),
        ),
        (
            "an unknown topic is topic 0",
            with_read(|tables, message, entries| {
                read_entries(tables, message, entries, |entries| {
                    entries.chunks_mut(3).filter(|row| row[1] == 11).for_each(|row| row[1] = 0);
                })
            }),
        ),
        (
            "a backoff is cut to 3600",
            with_read(|tables, message, entries| {
                read_entries(tables, message, entries, |entries| {
                    entries.chunks_mut(3).for_each(|row| row[2] = row[2].min(3600));
                })
            }),
        ),
        (
            "a backoff keeps its low 32 bits",
            with_read(|tables, message, entries| {
                read_entries(tables, message, entries, |entries| {
                    entries.chunks_mut(3).for_each(|row| row[2] %= 1 << 32);
                })
            }),
        ),
        (
            "a row without a name has the empty name",
            with_read(|tables, message, entries| {
                let unnamed = tables.names.chunks(NAME_ROW).position(|row| row[0] == 0);
                read_entries(tables, message, entries, |entries| {
                    let empty = message.windows(2).any(|bytes| bytes == [0x12, 0x00]);
                    let mut subscriptions = entries.chunks_mut(3).filter(|row| row[0] == 0);
                    let row = subscriptions.find(|row| row[1] == 11);
                    if let (true, Some(topic), Some(row)) = (empty, unnamed, row) {
                        row[1] = topic as u64;
                    }
                })
            }),
        ),
    ]);
}

/// The answer with another table of ids.
fn read_with_ids(tables: &Tables, message: &[u8], entries: &mut [u64], ids: IdTable) -> u64 {
    StandIn.read_message(&Tables { names: tables.names, ids }, message, entries)
}

#[test]
fn wrong_ids_are_seen() {
    each_is_seen(&[
        (
            "an unknown id is a known number 0",
            with_read(|tables, message, entries| {
                read_entries(tables, message, entries, |entries| {
                    let notices = entries.chunks_mut(3).filter(|row| row[0] == 3);
                    notices.for_each(|row| row[1] = 0);
                })
            }),
        ),
        (
            "a number keeps its low 32 bits",
            with_read(|tables, message, entries| {
                read_entries(tables, message, entries, |entries| {
                    let notices = entries.chunks_mut(3).filter(|row| row[0] == 3);
                    notices.for_each(|row| row[2] %= 1 << 32);
                })
            }),
        ),
        (
            "ids before PRUNEs",
            with_read(|tables, message, entries| {
                read_entries(tables, message, entries, |entries| {
                    let mut rows: Vec<Vec<u64>> = entries.chunks(3).map(<[u64]>::to_vec).collect();
                    rows.sort_by_key(|row| [0, 1, 3, 2][row[0] as usize]);
                    entries.copy_from_slice(&rows.concat());
                })
            }),
        ),
        (
            "IDONTWANT is skipped",
            with_read(|tables, message, entries| {
                let mut all = entries.to_vec();
                let result = StandIn.read_message(tables, message, &mut all);
                let kept = 3 * value(result) as usize;
                let is_notice = number(result) == 0 && all[..kept].chunks(3).any(|row| row[0] == 3);
                if is_notice {
                    return packed(0, 0);
                }
                entries.copy_from_slice(&all);
                result
            }),
        ),
        (
            "a table that is refused is taken",
            with_read(|tables, message, entries| {
                let result = StandIn.read_message(tables, message, entries);
                if number(result) != 2 {
                    return result;
                }
                read_with_ids(tables, message, entries, IdTable::default())
            }),
        ),
        (
            "2 before 8",
            with_read(|tables, message, entries| match tables.ids.accepted() {
                None => packed(2, 0),
                Some(_) => StandIn.read_message(tables, message, entries),
            }),
        ),
        (
            "10 before 2",
            with_read(|tables, message, entries| {
                let sound = IdTable::default();
                match number(read_with_ids(tables, message, &mut entries.to_vec(), sound.clone())) {
                    10 => read_with_ids(tables, message, entries, sound),
                    _ => StandIn.read_message(tables, message, entries),
                }
            }),
        ),
        (
            "rows in any order",
            with_read(|tables, message, entries| {
                let IdTable { ids, numbers, order } = &tables.ids;
                let whole = ids.len() == 65 * numbers.len() && order.len() == numbers.len();
                let id = |row: &[u8]| row.get(1..=usize::from(row[0])).unwrap_or_default().to_vec();
                let rows = ids.chunks(65).map(id).zip(numbers.iter().copied()).collect();
                if !whole {
                    return StandIn.read_message(tables, message, entries);
                }
                let sorted = IdTable::sorted(&Ids { rows });
                read_with_ids(tables, message, entries, sorted)
            }),
        ),
        (
            "a number that is not in the table is left out",
            with_write(|tables, lists, buffer| {
                write_changed(tables, lists, buffer, |lists| {
                    let ids = tables.ids.ids();
                    let Some(last) = lists.topics.len().checked_sub(1) else { return };
                    let notice = lists.actions.get(3 * last) == Some(&3);
                    if notice && ids.id(lists.topics[last]).is_none() {
                        lists.actions.truncate(3 * last);
                        lists.topics.truncate(last);
                    }
                })
            }),
        ),
        (
            "the third number of a notice",
            with_write(|tables, lists, buffer| {
                write_changed(tables, lists, buffer, |lists| {
                    let actions = lists.actions.chunks_mut(3).filter(|action| action.len() == 3);
                    actions.filter(|action| action[0] == 3).for_each(|action| action[2] = 0);
                })
            }),
        ),
        (
            "a table that is refused, for a list without notices",
            with_write(|tables, lists, buffer| {
                let result = StandIn.write_message(tables, lists, buffer);
                if number(result) != 2 || lists.actions.iter().step_by(3).any(|&kind| kind == 3) {
                    return result;
                }
                let (names, ids) = (tables.names, IdTable::default());
                StandIn.write_message(&Tables { names, ids }, lists, buffer)
            }),
        ),
    ]);
}

#[test]
fn a_touched_list_is_seen() {
    each_is_seen(&[
        (
            "malformed bytes leave their entries",
            with_read(|tables, message, entries| {
                let result = StandIn.read_message(tables, message, entries);
                if let (10, Some(first)) = (number(result), entries.first_mut()) {
                    *first = 0;
                }
                result
            }),
        ),
        (
            "a short list is written",
            with_read(|tables, message, entries| {
                let result = StandIn.read_message(tables, message, entries);
                if let (8, Some(last)) = (number(result), entries.last_mut()) {
                    *last ^= 1;
                }
                result
            }),
        ),
        (
            "the number past the entries is cleared",
            with_read(|tables, message, entries| {
                let result = StandIn.read_message(tables, message, entries);
                if number(result) == 0 {
                    if let Some(next) = entries.get_mut(3 * value(result) as usize) {
                        *next = 0;
                    }
                }
                result
            }),
        ),
        (
            "the list's last number is cleared",
            with_read(|tables, message, entries| {
                let result = StandIn.read_message(tables, message, entries);
                if number(result) == 0 && value(result) < 8192 {
                    entries[ENTRY_LIST - 1] = 0;
                }
                result
            }),
        ),
    ]);
}

/// Writes lists that were changed before.
fn write_changed(
    tables: &Tables,
    lists: &Lists,
    buffer: &mut [u8],
    change: impl Fn(&mut Lists),
) -> u64 {
    let mut changed = lists.clone();
    change(&mut changed);
    StandIn.write_message(tables, &changed, buffer)
}

#[test]
fn wrong_lists_that_are_written_are_seen() {
    each_is_seen(&[
        (
            "65 actions",
            with_write(|tables, lists, buffer| {
                write_changed(tables, lists, buffer, |lists| {
                    if lists.topics.len() == 65 && lists.actions.len() == 195 {
                        lists.topics.pop();
                        lists.actions.truncate(192);
                    }
                })
            }),
        ),
        (
            "9 joins and leaves",
            with_write(|tables, lists, buffer| {
                write_changed(tables, lists, buffer, |lists| {
                    if lists.changes.len() == 18 {
                        lists.changes.truncate(16);
                    }
                })
            }),
        ),
        (
            "the number 0 is an id",
            with_write(|tables, lists, buffer| {
                write_changed(tables, lists, buffer, |lists| {
                    let ids = lists.actions.iter_mut().skip(1).step_by(3);
                    ids.filter(|id| **id == 0).for_each(|id| *id = 1);
                })
            }),
        ),
        (
            "two peers",
            with_write(|tables, lists, buffer| {
                write_changed(tables, lists, buffer, |lists| {
                    let ids = lists.actions.iter_mut().skip(1).step_by(3);
                    ids.filter(|id| **id != 0).for_each(|id| *id = 1);
                })
            }),
        ),
        (
            "3601 seconds",
            with_write(|tables, lists, buffer| {
                write_changed(tables, lists, buffer, |lists| {
                    let seconds = lists.actions.iter_mut().skip(2).step_by(3);
                    seconds.filter(|seconds| **seconds == 3601).for_each(|seconds| *seconds = 3600);
                })
            }),
        ),
        (
            "seconds of a GRAFT",
            with_write(|tables, lists, buffer| {
                write_changed(tables, lists, buffer, |lists| {
                    let actions = lists.actions.chunks_mut(3).filter(|action| action.len() == 3);
                    actions.filter(|action| action[0] == 1).for_each(|action| action[2] = 0);
                })
            }),
        ),
        (
            "a topic's low 32 bits count",
            with_write(|tables, lists, buffer| {
                write_changed(tables, lists, buffer, |lists| {
                    lists.topics.iter_mut().for_each(|topic| *topic %= 1 << 32);
                })
            }),
        ),
        (
            "a number past the pairs is left out",
            with_write(|tables, lists, buffer| {
                write_changed(tables, lists, buffer, |lists| {
                    lists.changes.truncate(lists.changes.len() / 2 * 2);
                })
            }),
        ),
        (
            "numbers past the topics are left out",
            with_write(|tables, lists, buffer| {
                write_changed(tables, lists, buffer, |lists| {
                    lists.actions.truncate(3 * lists.topics.len());
                })
            }),
        ),
        (
            "any number but 0 is a join",
            with_write(|tables, lists, buffer| {
                write_changed(tables, lists, buffer, |lists| {
                    let kinds = lists.changes.iter_mut().step_by(2);
                    kinds.for_each(|kind| *kind = (*kind).min(1));
                })
            }),
        ),
    ]);
}

#[test]
fn wrong_bytes_and_touched_buffers_are_seen() {
    each_is_seen(&[
        (
            "13 before 2",
            with_write(|tables, lists, buffer| {
                let result = StandIn.write_message(tables, lists, buffer);
                if result == 2 && buffer.is_empty() {
                    13
                } else {
                    result
                }
            }),
        ),
        (
            "8 in the place of 13",
            with_write(|tables, lists, buffer| {
                match StandIn.write_message(tables, lists, buffer) {
                    13 => 8,
                    other => other,
                }
            }),
        ),
        (
            "a short buffer is filled",
            with_write(|tables, lists, buffer| {
                let result = StandIn.write_message(tables, lists, buffer);
                if result == 13 {
                    let mut longer = [0; LONGEST_WRITTEN];
                    StandIn.write_message(tables, lists, &mut longer);
                    buffer.copy_from_slice(&longer[..buffer.len()]);
                }
                result
            }),
        ),
        (
            "a wrong list touches the buffer",
            with_write(|tables, lists, buffer| {
                let result = StandIn.write_message(tables, lists, buffer);
                if let (2, Some(first)) = (result, buffer.first_mut()) {
                    *first ^= 1;
                }
                result
            }),
        ),
        (
            "the buffer past the message is cleared",
            with_write(|tables, lists, buffer| {
                let result = StandIn.write_message(tables, lists, buffer);
                if number(result) == 0 {
                    buffer[value(result) as usize..].fill(0);
                }
                result
            }),
        ),
        (
            "actions as listed, PRUNEs among GRAFTs",
            with_write(|tables, lists, buffer| {
                let result = StandIn.write_message(tables, lists, buffer);
                if number(result) == 0 {
                    let mut entries = lists.entries();
                    let changes = lists.changes.len() / 2;
                    for (place, action) in lists.actions.chunks(3).enumerate() {
                        let (topic, value) = (Some(lists.topics[place] as usize), action[2].into());
                        entries[changes + place] = match action[0] {
                            1 => Entry { kind: Kind::Graft, topic, value },
                            2 => Entry { kind: Kind::Prune, topic, value },
                            _ => Entry {
                                kind: Kind::Notice,
                                topic: Some(0),
                                value: lists.topics[place],
                            },
                        };
                    }
                    let names = Names::of_table(&tables.names);
                    let message = written_with(&names, &tables.ids.ids(), &entries);
                    buffer[..message.len()].copy_from_slice(&message);
                }
                result
            }),
        ),
    ]);
}

#[test]
fn a_difference_is_told_by_few_bytes() {
    // A PRUNE's backoff of 60 is read as 61.
    let faulty = with_read(|tables, message, entries| {
        read_entries(tables, message, entries, |entries| {
            let prunes = entries.chunks_mut(3).filter(|row| row[0] == 2 && row[2] == 60);
            prunes.for_each(|row| row[2] = 61);
        })
    });
    let failure = first_difference(&faulty).expect("the fault is noticed");
    let told = report::of_failure(&faulty, &failure);
    let smallest = told.split("the smallest found").nth(1).expect("a smaller one is told");
    assert!(smallest.contains("message, 6 bytes: 1a 04 22 02 18 3c"), "{told}");
    assert!(smallest.contains("number of the list 2: library 61, second program 60"), "{told}");
    // Lists of one action are told by it alone.
    let faulty = with_write(|tables, lists, buffer| {
        let result = StandIn.write_message(tables, lists, buffer);
        if number(result) == 0 && lists.actions.iter().skip(2).step_by(3).any(|&n| n == 128) {
            buffer[0] ^= 1;
        }
        result
    });
    let failure = first_difference(&faulty).expect("the fault is noticed");
    let told = report::of_failure(&faulty, &failure);
    let smallest = told.split("the smallest found").nth(1).expect("a smaller one is told");
    let action = smallest.lines().find(|line| line.contains("actions [2, ")).unwrap_or_default();
    assert!(action.ends_with(", 128]") && action.matches(',').count() == 2, "{told}");
    assert!(smallest.contains("joins and leaves []"), "{told}");
}
