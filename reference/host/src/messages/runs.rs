//! The runs: tables of names, messages of every kind, lists to be written.

use super::library::{MessageLibrary, Tables};
use super::reached::{Reached, NAMES, READ, SHORT, WRITE};
use super::sides::Sides;
use crate::pair::Difference;
use reference::generate::messages::Input;
use reference::generate::{lists, messages, names, notices};
use reference::message::{
    check_names, entries_with, written_with, IdTable, Ids, Lists, Names, NamesTable, Wrong,
    ENTRY_LIST, LONGEST_ID, LONGEST_NAME, LONGEST_WRITTEN, NAMES_BYTES, NAME_ROW,
};
use reference::params::TOPICS;
use reference::random::Random;
use reference::router::{IDONTWANT, PRUNE};

/// The parts that can be compared, in this order.
pub const PARTS: [&str; 4] = [NAMES, READ, SHORT, WRITE];

/// Lengths of lists that are refused, and of longer ones that are not.
pub const SHORT_LISTS: [usize; 6] = [0, 1, 3, 24_573, 24_574, 24_575];
pub const LONG_LISTS: [usize; 4] = [24_576, 24_577, 24_579, 30_000];

/// The lengths of buffers, by the message that is to be written.
pub const BUFFERS: [&str; 6] =
    ["of no bytes", "one byte short", "short", "exact", "one byte longer", "of 5107 bytes"];

/// One table of names and one of ids serve so many messages or lists.
const SAME_TABLES: u64 = 8;

/// Of so many tables of names one is refused by set-up.
const BAD_NAMES: usize = 8;

/// Of so many tables of ids one is refused.
const BAD_IDS: usize = 16;

/// Every so-many-th good message is cut at every length, and as often a long one is read.
const CUT_OR_LONG: u64 = 200;

/// On what the sides differ.
#[derive(Clone)]
pub enum Subject {
    Names,
    /// Read into a list of so many numbers; and what was read is written, if it can be.
    Read {
        message: Vec<u8>,
        room: usize,
        then_written: bool,
    },
    Write {
        lists: Lists,
        length: usize,
    },
}

/// A difference.
pub struct Failure {
    /// Which table, message or list of its part it was, and of which kind.
    pub place: u64,
    pub kind: String,
    pub tables: Tables,
    pub subject: Subject,
    pub difference: Difference,
}

/// Compares so many inputs of each kind, and says how many there were in each part.
pub fn compare<L: MessageLibrary>(
    library: &L,
    count: u64,
    parts: &[&str],
    random: &mut Random,
    reached: &mut Reached,
) -> Result<Vec<(String, u64)>, Box<Failure>> {
    let writes = parts.contains(&WRITE);
    let mut runs = Runs { sides: Sides::new(library), reached, random, writes, place: 0 };
    let mut told = Vec::new();
    for part in parts {
        runs.place = 0;
        match *part {
            NAMES => runs.all_names(count)?,
            READ => runs.all_messages(count)?,
            SHORT => runs.all_short()?,
            _ => runs.all_lists(count)?,
        }
        told.push((part.to_string(), runs.place));
    }
    Ok(told)
}

/// Whether the sides differ on something, for making it smaller.
pub fn again<L: MessageLibrary>(
    library: &L,
    tables: &Tables,
    subject: &Subject,
) -> Option<Difference> {
    let mut sides = Sides::new(library);
    match subject {
        Subject::Names => sides.names(&tables.names).err(),
        Subject::Read { message, room, then_written } => {
            let read = sides.read(tables, message, *room);
            read.and_then(|read| match read {
                Ok(_) if *then_written => write_read(&mut sides, tables, message),
                _ => Ok(()),
            })
            .err()
        }
        Subject::Write { lists, length } => {
            let written = sides.write(tables, lists, *length);
            written
                .and_then(|written| match written {
                    Ok(message) => read_back(&mut sides, tables, &message, lists),
                    Err(_) => Ok(()),
                })
                .err()
        }
    }
}

/// Entries that were read and can be written are written, read again and written again.
fn write_read<L: MessageLibrary>(
    sides: &mut Sides<L>,
    tables: &Tables,
    message: &[u8],
) -> Result<(), Difference> {
    let (Ok(names), ids) = (check_names(&tables.names), tables.ids.ids()) else { return Ok(()) };
    let Ok(entries) = entries_with(&names, &ids, message) else { return Ok(()) };
    let lists = Lists::of_entries(&entries, u32::MAX);
    let lists = lists.filter(|lists| lists.wrongs_with(&names, &ids).is_empty());
    let Some(lists) = lists else { return Ok(()) };
    match sides.write(tables, &lists, LONGEST_WRITTEN)? {
        Ok(written) => sides.read_back(tables, &written, &entries),
        Err(_) => Err(Difference(vec!["entries that were read are not written".to_string()])),
    }
}

/// What was written is read back, with names that set-up takes.
fn read_back<L: MessageLibrary>(
    sides: &mut Sides<L>,
    tables: &Tables,
    message: &[u8],
    lists: &Lists,
) -> Result<(), Difference> {
    match check_names(&tables.names) {
        Ok(_) => sides.read_back(tables, message, &lists.entries()),
        Err(_) => Ok(()),
    }
}

/// Lent tables, and what they say. `ids` are some that are refused where the table is.
struct Known {
    tables: Tables,
    names: Names,
    ids: Ids,
}

impl Known {
    fn of(names: NamesTable, ids: IdTable) -> Known {
        let known = (Names::of_table(&names), ids.ids());
        Known { tables: Tables { names, ids }, names: known.0, ids: known.1 }
    }
}

struct Runs<'a, L> {
    sides: Sides<'a, L>,
    reached: &'a mut Reached,
    random: &'a mut Random,
    /// Whether the writer is compared as well.
    writes: bool,
    place: u64,
}

impl<L: MessageLibrary> Runs<'_, L> {
    fn failure(
        &self,
        kind: &str,
        tables: &Tables,
        subject: Subject,
        difference: Difference,
    ) -> Box<Failure> {
        let (kind, tables) = (kind.to_string(), tables.clone());
        Box::new(Failure { place: self.place, kind, tables, subject, difference })
    }

    fn all_names(&mut self, count: u64) -> Result<(), Box<Failure>> {
        for _ in 0..count {
            for make in [names::good, names::bad] {
                let names::Table { kind, table } = make(self.random);
                let given = self.sides.names(&table).map_err(|found| {
                    let tables = Tables { names: table, ids: IdTable::default() };
                    self.failure(kind, &tables, Subject::Names, found)
                })?;
                self.reached.count_names(kind, &given);
                self.place += 1;
            }
        }
        Ok(())
    }

    /// Good ones, damaged ones and noise, so many of each; and longer ones.
    fn all_messages(&mut self, count: u64) -> Result<(), Box<Failure>> {
        let mut known = self.some_tables();
        let full = Known::of(known.tables.names, IdTable::default());
        for input in messages::full(self.random) {
            self.message(&full, &input, ENTRY_LIST)?;
        }
        for round in 0..count {
            if round % SAME_TABLES == 0 {
                known = self.some_tables();
            }
            let good = messages::good_with(self.random, &known.names, &known.ids);
            let damaged = messages::damaged_with(self.random, &known.names, &known.ids);
            let noise = messages::noise(self.random);
            for input in [&good, &damaged, &noise] {
                self.message(&known, input, ENTRY_LIST)?;
            }
            if round % CUT_OR_LONG == 0 {
                self.cuts_and_long(&known, &good)?;
            }
        }
        Ok(())
    }

    /// With names and ids of one byte, so that some are known.
    fn all_short(&mut self) -> Result<(), Box<Failure>> {
        let mut table = [0; NAMES_BYTES];
        for topic in 0..TOPICS {
            table[NAME_ROW * topic..][..2].copy_from_slice(&[1, topic as u8]);
        }
        let rows = (0..TOPICS as u8).map(|row| (vec![row], 100 - u64::from(row))).collect();
        let known = Known::of(table, IdTable::sorted(&Ids { rows }));
        for input in messages::every_short() {
            self.message(&known, &input, ENTRY_LIST)?;
        }
        Ok(())
    }

    /// A message cut everywhere, a long one, and some input with lists of other lengths.
    fn cuts_and_long(&mut self, known: &Known, good: &Input) -> Result<(), Box<Failure>> {
        for input in messages::every_cut(&good.bytes) {
            self.message(known, &input, ENTRY_LIST)?;
        }
        let long = messages::long(self.random, &known.names, &known.ids);
        self.message(known, &long, ENTRY_LIST)?;
        for room in [SHORT_LISTS.as_slice(), &LONG_LISTS].concat() {
            let damaged = messages::damaged_with(self.random, &known.names, &known.ids);
            for input in [good, &damaged] {
                self.message(known, input, room)?;
            }
        }
        let room = *self.random.pick(&SHORT_LISTS);
        self.message(known, &long, room)
    }

    /// Names, at times those that set-up refuses: a row with a length over 64 has no name then, and
    /// of two names alike the first counts. And ids, at times such as are refused.
    fn some_tables(&mut self) -> Known {
        let bad = self.random.below(BAD_NAMES) == 0;
        let names = if bad { names::bad(self.random) } else { names::good(self.random) }.table;
        if self.random.below(BAD_IDS) == 0 {
            let (kind, ids) = notices::bad_lent(self.random);
            self.reached.count_ids(kind);
            return Known::of(names, ids);
        }
        Known::of(names, IdTable::sorted(&notices::good(self.random)))
    }

    fn message(&mut self, known: &Known, input: &Input, room: usize) -> Result<(), Box<Failure>> {
        let Known { tables, names, ids } = known;
        let message = &input.bytes;
        let then_written = self.writes;
        let subject = || Subject::Read { message: message.clone(), room, then_written };
        let given = self.sides.read(tables, message, room);
        let given = given.map_err(|found| self.failure(input.kind, tables, subject(), found))?;
        self.reached.count_read((names, ids), message, room, &given);
        if given.is_ok() {
            let entries = entries_with(names, ids, message).expect("the message was read");
            self.reached.count_entries(&entries);
        }
        if given.is_ok() && then_written {
            let found = write_read(&mut self.sides, tables, message);
            found.map_err(|found| self.failure(input.kind, tables, subject(), found))?;
        }
        self.place += 1;
        Ok(())
    }

    /// Good lists, lists wrong in one way, and any; with notices and without.
    fn all_lists(&mut self, count: u64) -> Result<(), Box<Failure>> {
        let mut known = self.some_tables();
        for round in 0..count {
            if round % SAME_TABLES == 0 {
                known = self.some_tables();
            }
            let good = notices::list(self.random, &known.names, &known.ids);
            let kind = Wrong::ALL[round as usize % Wrong::ALL.len()];
            let wrong = lists::wrong(self.random, &known.names, kind).unwrap_or_default();
            let any = lists::any(self.random);
            self.list(&known, "good", &good)?;
            self.list(&known, "wrong in one way", &wrong)?;
            self.list(&known, "any", &any)?;
            let kind = Wrong::OF_NOTICES[round as usize % Wrong::OF_NOTICES.len()];
            let wrong = notices::wrong(self.random, &known.names, &known.ids, kind);
            if let Some((lists, ids)) = wrong.filter(|_| known.ids.is_good()) {
                let other = Known::of(known.tables.names, IdTable::sorted(&ids));
                self.list(&other, "wrong in one way", &lists)?;
            }
        }
        self.longest()
    }

    fn list(&mut self, known: &Known, kind: &str, lists: &Lists) -> Result<(), Box<Failure>> {
        let good = lists.wrongs_with(&known.names, &known.ids).is_empty();
        let message = if good {
            written_with(&known.names, &known.ids, &lists.entries()).len()
        } else {
            self.random.below(100)
        };
        let short = self.random.below(message.max(1));
        let lengths = [0, message.saturating_sub(1), short, message, message + 1, LONGEST_WRITTEN];
        // A wrong list is 2 whatever the buffer; one length of each is enough.
        let one = self.random.below(lengths.len());
        for (place, (length, told)) in lengths.into_iter().zip(BUFFERS).enumerate() {
            if good || place == one {
                self.list_into(known, kind, lists, (length, told))?;
            }
        }
        self.place += 1;
        Ok(())
    }

    fn list_into(
        &mut self,
        known: &Known,
        kind: &str,
        lists: &Lists,
        (length, told): (usize, &str),
    ) -> Result<(), Box<Failure>> {
        let Known { tables, names, ids } = known;
        let subject = || Subject::Write { lists: lists.clone(), length };
        let given = self.sides.write(tables, lists, length);
        let given = given.map_err(|found| self.failure(kind, tables, subject(), found))?;
        self.reached.count_write((names, ids), lists, (length, told), &given);
        if let Ok(message) = given {
            let found = read_back(&mut self.sides, tables, &message, lists);
            found.map_err(|found| self.failure(kind, tables, subject(), found))?;
        }
        Ok(())
    }

    /// The longest message that is written, and the longest of notices: 64 ids of 64 bytes.
    fn longest(&mut self) -> Result<(), Box<Failure>> {
        let mut table = [b'x'; NAMES_BYTES];
        for topic in 0..TOPICS {
            table[NAME_ROW * topic] = LONGEST_NAME as u8;
            table[NAME_ROW * topic + LONGEST_NAME] = topic as u8;
        }
        let rows = (0..64).map(|row: u64| (vec![row as u8; LONGEST_ID], u64::MAX - row)).collect();
        let known = Known::of(table, IdTable::sorted(&Ids { rows }));
        let changes: Vec<u64> = (0..TOPICS as u64).flat_map(|topic| [1, topic]).collect();
        let topics = (0..64).map(|place| place % TOPICS as u64).collect();
        let prunes = [PRUNE, u32::MAX, 3600].repeat(64);
        self.list(&known, "longest", &Lists { actions: prunes, topics, changes: changes.clone() })?;
        let topics = (0..64).map(|place| u64::MAX - place).collect();
        let notices = [IDONTWANT, u32::MAX, 0].repeat(64);
        self.list(&known, "longest of notices", &Lists { actions: notices, topics, changes })
    }
}
