//! One function for messages on both sides, with lent memory.

use super::library::{code, MessageLibrary, Tables};
use crate::lent::Lent;
use crate::library::{number, value};
use crate::pair::Difference;
use reference::message::{
    check_names, entries_with, read_with, write_with, Entry, Lists, Names, NamesTable, Refusal,
    ENTRY_LIST,
};

/// The id that stands in lists made of entries; it is not written.
const ANY_ID: u32 = 1;

pub struct Sides<'a, L> {
    library: &'a L,
    list: Lent<u64>,
    /// The same list for the second program.
    expected: Vec<u64>,
    salt: u64,
}

fn differ_if(differs: bool, told: impl FnOnce() -> String) -> Result<(), Difference> {
    if differs {
        Err(Difference(vec![told()]))
    } else {
        Ok(())
    }
}

fn same_answer(what: &str, library: u64, second: u64) -> Result<(), Difference> {
    differ_if(library != second, || {
        let shown = |result| format!("{} {}", number(result), value(result));
        format!("{what}: library {}, second program {}", shown(library), shown(second))
    })
}

/// Says where two lists of one length differ.
fn same_numbers<T: PartialEq + std::fmt::Display>(
    what: &str,
    library: &[T],
    second: &[T],
) -> Result<(), Difference> {
    if library == second {
        return Ok(());
    }
    let place = (0..second.len()).find(|&place| library[place] != second[place]).unwrap_or(0);
    let (library, second) = (&library[place], &second[place]);
    let told = format!("{what} {place}: library {library}, second program {second}");
    Err(Difference(vec![told]))
}

impl<'a, L: MessageLibrary> Sides<'a, L> {
    pub fn new(library: &'a L) -> Sides<'a, L> {
        Sides { library, list: Lent::new(0, 0), expected: Vec::new(), salt: 0 }
    }

    pub fn names(&self, table: &NamesTable) -> Result<Result<Names, Refusal>, Difference> {
        let second = check_names(table);
        let due = code(&second.as_ref().map(|_| 0).map_err(|refusal| *refusal));
        same_answer("names", self.library.names(table), due)?;
        Ok(second)
    }

    /// The pattern in a list of so many numbers; a new one where the length is another.
    fn lend_list(&mut self, room: usize) {
        if self.list.lent().len() != room {
            self.salt += 1;
            self.list.refill(room, self.salt);
            self.expected.clear();
            self.expected.extend_from_slice(self.list.lent());
        }
    }

    /// Reads a message into a list of so many numbers.
    pub fn read(
        &mut self,
        tables: &Tables,
        message: &[u8],
        room: usize,
    ) -> Result<Result<usize, Refusal>, Difference> {
        self.lend_list(room);
        let names = Names::of_table(&tables.names);
        let second = read_with(&names, &tables.ids.ids(), message, &mut self.expected);
        let library = self.library.read_message(tables, message, self.list.lent_mut());
        let written = 3 * second.unwrap_or(0);
        let found = self.judge_read(library, &second);
        if found.is_ok() {
            self.list.restore(written);
        } else {
            self.list.refill(room, self.salt);
        }
        self.expected[..written].copy_from_slice(&self.list.lent()[..written]);
        found.map(|()| second)
    }

    fn judge_read(&self, library: u64, second: &Result<usize, Refusal>) -> Result<(), Difference> {
        same_answer("read", library, code(second))?;
        same_numbers("read: number of the list", self.list.lent(), &self.expected)?;
        let written = if number(library) == 0 { 3 * value(library) as usize } else { 0 };
        differ_if(!self.list.guards_stand() || !self.list.stands_from(written), || {
            "read: the library wrote where it may not".to_string()
        })
    }

    /// Writes lists into a buffer of so many bytes.
    pub fn write(
        &mut self,
        tables: &Tables,
        lists: &Lists,
        length: usize,
    ) -> Result<Result<Vec<u8>, Refusal>, Difference> {
        self.salt += 1;
        let mut buffer: Lent<u8> = Lent::new(length, self.salt);
        let mut expected = buffer.lent().to_vec();
        let names = Names::of_table(&tables.names);
        let second = write_with(&names, &tables.ids.ids(), lists, &mut expected);
        let library = self.library.write_message(tables, lists, buffer.lent_mut());
        same_answer("write", library, code(&second))?;
        same_numbers("write: byte", buffer.lent(), &expected)?;
        let written = second.unwrap_or(0);
        differ_if(!buffer.guards_stand() || !buffer.stands_from(written), || {
            "write: the library wrote where it may not".to_string()
        })?;
        Ok(second.map(|length| buffer.lent()[..length].to_vec()))
    }

    /// "Order 1 reads it back as the same entries, in its order, and writing those again gives the same
    /// bytes."
    pub fn read_back(
        &mut self,
        tables: &Tables,
        message: &[u8],
        entries: &[Entry],
    ) -> Result<(), Difference> {
        let read = self.read(tables, message, ENTRY_LIST)?;
        let names = Names::of_table(&tables.names);
        let found = entries_with(&names, &tables.ids.ids(), message);
        let same = read == Ok(entries.len()) && found.as_deref() == Ok(entries);
        differ_if(!same, || "what was written is not read back".to_string())?;
        let lists = Lists::of_entries(entries, ANY_ID);
        let again = lists.map(|lists| self.write(tables, &lists, message.len())).transpose()?;
        let same = again.is_some_and(|again| again.as_deref() == Ok(message));
        differ_if(!same, || "written again the bytes are others".to_string())
    }
}
