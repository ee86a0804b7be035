//! Reading.

use super::{good_table, number_of, packed, topic_of};
use reference::message::{IdTable, NamesTable, ENTRY_LIST, LONGEST_MESSAGE, NO_TOPIC};

/// The tags of the fields that are read: number and wire type as one.
mod tag {
    pub const SUBSCRIPTION: u64 = 1 << 3 | 2;
    pub const SUBSCRIBE: u64 = 1 << 3;
    pub const TOPIC: u64 = 2 << 3 | 2;
    pub const CONTROL: u64 = 3 << 3 | 2;
    pub const GRAFT: u64 = 3 << 3 | 2;
    pub const PRUNE: u64 = 4 << 3 | 2;
    pub const IDONTWANT: u64 = 5 << 3 | 2;
    pub const MESSAGE_ID: u64 = 1 << 3 | 2;
    pub const TOPIC_ID: u64 = 1 << 3 | 2;
    pub const BACKOFF: u64 = 3 << 3;
}

/// The bytes that were not read yet.
struct Cursor<'a> {
    rest: &'a [u8],
}

/// What stands behind a tag.
enum Value<'a> {
    Number(u64),
    Bytes(&'a [u8]),
    Fixed,
}

impl<'a> Cursor<'a> {
    #[inline(always)]
    fn number(&mut self) -> Option<u64> {
        match *self.rest {
            [byte, ref rest @ ..] if byte < 0x80 => {
                self.rest = rest;
                Some(u64::from(byte))
            }
            _ => self.long_number(),
        }
    }

    #[inline(never)]
    fn long_number(&mut self) -> Option<u64> {
        let mut value = 0;
        let mut shift = 0;
        for (place, &byte) in self.rest.iter().enumerate() {
            value |= u64::from(byte & 0x7f) << shift;
            if byte < 0x80 {
                self.rest = &self.rest[place + 1..];
                return (shift < 63 || byte < 2).then_some(value);
            }
            if shift == 63 {
                return None;
            }
            shift += 7;
        }
        None
    }

    #[inline(always)]
    fn take(&mut self, length: usize) -> Option<&'a [u8]> {
        let (bytes, rest) = self.rest.split_at_checked(length)?;
        self.rest = rest;
        Some(bytes)
    }

    /// A tag and what stands behind it; none where the field is broken.
    #[inline(always)]
    fn field(&mut self) -> Option<(u64, Value<'a>)> {
        let tag = self.number()?;
        if tag < 8 {
            return None;
        }
        let value = match tag & 7 {
            0 => Value::Number(self.number()?),
            2 => {
                let length = self.number()?;
                Value::Bytes(self.take(usize::try_from(length).ok()?)?)
            }
            1 => {
                self.take(8)?;
                Value::Fixed
            }
            5 => {
                self.take(4)?;
                Value::Fixed
            }
            _ => return None,
        };
        Some((tag, value))
    }
}

/// How many entries of each kind there are.
#[derive(Default)]
struct Counts {
    subscriptions: usize,
    grafts: usize,
    prunes: usize,
    notices: usize,
}

/// A broken field: so many bytes are left from its tag on, up to the end of what holds it.
struct Left(usize);

/// What holds the fields has so many bytes behind it.
fn deeper(cursor: &Cursor, found: Result<(), Left>) -> Result<(), Left> {
    found.map_err(|Left(left)| Left(left + cursor.rest.len()))
}

/// Tests a message, and counts its entries.
fn check(message: &[u8]) -> Result<Counts, Left> {
    let mut counts = Counts::default();
    let mut cursor = Cursor { rest: message };
    while !cursor.rest.is_empty() {
        let left = cursor.rest.len();
        match cursor.field().ok_or(Left(left))? {
            (tag::SUBSCRIPTION, Value::Bytes(inside)) => {
                deeper(&cursor, check_fields(inside))?;
                counts.subscriptions += 1;
            }
            (tag::CONTROL, Value::Bytes(inside)) => {
                deeper(&cursor, check_control(inside, &mut counts))?;
            }
            _ => {}
        }
    }
    Ok(counts)
}

fn check_control(bytes: &[u8], counts: &mut Counts) -> Result<(), Left> {
    let mut cursor = Cursor { rest: bytes };
    while !cursor.rest.is_empty() {
        let left = cursor.rest.len();
        let (tag, value) = cursor.field().ok_or(Left(left))?;
        let Value::Bytes(inside) = value else { continue };
        match tag {
            tag::GRAFT => counts.grafts += 1,
            tag::PRUNE => counts.prunes += 1,
            tag::IDONTWANT => {
                deeper(&cursor, check_ids(inside, counts))?;
                continue;
            }
            _ => continue,
        }
        deeper(&cursor, check_fields(inside))?;
    }
    Ok(())
}

fn check_ids(bytes: &[u8], counts: &mut Counts) -> Result<(), Left> {
    let mut cursor = Cursor { rest: bytes };
    while !cursor.rest.is_empty() {
        let left = cursor.rest.len();
        let (tag, _) = cursor.field().ok_or(Left(left))?;
        counts.notices += usize::from(tag == tag::MESSAGE_ID);
    }
    Ok(())
}

#[inline(always)]
fn check_fields(bytes: &[u8]) -> Result<(), Left> {
    let mut cursor = Cursor { rest: bytes };
    while !cursor.rest.is_empty() {
        let left = cursor.rest.len();
        cursor.field().ok_or(Left(left))?;
    }
    Ok(())
}

/// Reads a message: 0 with the number of entries, 8, 2, or 10 with the place.
pub fn read_message(names: &NamesTable, ids: &IdTable, message: &[u8], entries: &mut [u64]) -> u64 {
    if entries.len() < ENTRY_LIST {
        return packed(8, 0);
    }
    if !good_table(ids) {
        return packed(2, 0);
    }
    if message.len() > LONGEST_MESSAGE {
        return packed(10, LONGEST_MESSAGE);
    }
    let counts = match check(message) {
        Ok(counts) => counts,
        Err(Left(left)) => return packed(10, message.len() - left),
    };
    let Counts { subscriptions, grafts, prunes, notices } = counts;
    let count = subscriptions + grafts + prunes + notices;
    if count == 0 {
        return packed(0, 0);
    }
    let (first, rest) = entries.split_at_mut(3 * subscriptions);
    let (second, rest) = rest.split_at_mut(3 * grafts);
    let (third, rest) = rest.split_at_mut(3 * prunes);
    let mut lists = Lists {
        names,
        ids,
        subscriptions: first.chunks_exact_mut(3),
        grafts: second.chunks_exact_mut(3),
        prunes: third.chunks_exact_mut(3),
        notices: rest[..3 * notices].chunks_exact_mut(3),
    };
    lists.fill(message);
    packed(0, count)
}

type Rows<'a> = std::slice::ChunksExactMut<'a, u64>;

/// The entries of each kind that are still to be written.
struct Lists<'a> {
    names: &'a NamesTable,
    ids: &'a IdTable,
    subscriptions: Rows<'a>,
    grafts: Rows<'a>,
    prunes: Rows<'a>,
    notices: Rows<'a>,
}

/// Each field of bytes that were tested.
#[inline(always)]
fn each_field<'a>(bytes: &'a [u8], mut take: impl FnMut(u64, Value<'a>)) {
    let mut cursor = Cursor { rest: bytes };
    while !cursor.rest.is_empty() {
        let Some((tag, value)) = cursor.field() else { return };
        take(tag, value);
    }
}

fn put(rows: &mut Rows, entry: [u64; 3]) {
    if let Some(row) = rows.next() {
        row.copy_from_slice(&entry);
    }
}

impl Lists<'_> {
    fn fill(&mut self, message: &[u8]) {
        each_field(message, |tag, value| match (tag, value) {
            (tag::SUBSCRIPTION, Value::Bytes(inside)) => {
                let (topic, value) = self.entry(inside, tag::TOPIC, tag::SUBSCRIBE);
                put(&mut self.subscriptions, [0, topic, value.min(1)]);
            }
            (tag::CONTROL, Value::Bytes(inside)) => self.fill_control(inside),
            _ => {}
        });
    }

    fn fill_control(&mut self, bytes: &[u8]) {
        each_field(bytes, |tag, value| match (tag, value) {
            (tag::GRAFT, Value::Bytes(inside)) => {
                let (topic, _) = self.entry(inside, tag::TOPIC_ID, tag::BACKOFF);
                put(&mut self.grafts, [1, topic, 0]);
            }
            (tag::PRUNE, Value::Bytes(inside)) => {
                let (topic, seconds) = self.entry(inside, tag::TOPIC_ID, tag::BACKOFF);
                put(&mut self.prunes, [2, topic, seconds]);
            }
            (tag::IDONTWANT, Value::Bytes(inside)) => self.fill_ids(inside),
            _ => {}
        });
    }

    fn fill_ids(&mut self, bytes: &[u8]) {
        each_field(bytes, |tag, value| {
            if let (tag::MESSAGE_ID, Value::Bytes(id)) = (tag, value) {
                let number = number_of(self.ids, id);
                let topic = if number.is_some() { 0 } else { NO_TOPIC };
                put(&mut self.notices, [3, topic, number.unwrap_or(0)]);
            }
        });
    }

    /// The last topic and the last number of an entry.
    #[inline(always)]
    fn entry(&self, bytes: &[u8], topic_tag: u64, number_tag: u64) -> (u64, u64) {
        let (mut name, mut number) = (&[][..], 0);
        each_field(bytes, |tag, value| match value {
            Value::Bytes(inside) if tag == topic_tag => name = inside,
            Value::Number(given) if tag == number_tag => number = given,
            _ => {}
        });
        (topic_of(self.names, name).map_or(NO_TOPIC, |topic| topic as u64), number)
    }
}
