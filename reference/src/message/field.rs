//! The fields of a message from the front: a tag, which holds the field's number and its
//! wire type, and what the wire type says.

use super::wire;

/// 02, order 1: "Numbers may be overlong here, up to ten bytes and 64 bits."
const LONGEST_NUMBER: usize = 10;

/// Fields stand in the RPC itself (0), in a subscription or a control (1), in a GRAFT or
/// a PRUNE (2).
pub const LEVELS: usize = 3;

/// Which number of a field.
#[derive(Clone, Copy, PartialEq, Eq, PartialOrd, Ord, Debug)]
pub enum Part {
    Tag,
    Value,
    Length,
}

/// Why a field is broken.
#[derive(Clone, Copy, PartialEq, Eq, PartialOrd, Ord, Debug)]
pub enum Reason {
    /// The bytes end inside a number, or where it should begin.
    Cut(Part),
    /// The tenth byte says that another follows.
    EleventhByte(Part),
    /// The tenth byte holds more than the 64th bit.
    TooWide(Part),
    FieldZero,
    /// Other than 0, 1, 2 and 5.
    WireType(u64),
    /// Fewer bytes are left than the wire type or the length asks for.
    PastEnd(u64),
}

/// A broken field.
#[derive(Clone, Copy, PartialEq, Eq, Debug)]
pub struct Broken {
    /// Where its tag begins, counted from the message's first byte.
    pub place: usize,
    pub level: usize,
    pub reason: Reason,
}

/// What a field holds.
pub enum Content<'a> {
    Number(u64),
    Bytes(Inside<'a>),
    /// So many bytes, four or eight, which no field that we know has.
    Fixed(usize),
}

pub struct Field<'a> {
    pub number: u64,
    pub wire_type: u64,
    pub content: Content<'a>,
}

/// The bytes of a field with a length.
pub struct Inside<'a> {
    /// The message up to the field's end.
    until: &'a [u8],
    from: usize,
    level: usize,
}

impl<'a> Inside<'a> {
    pub fn bytes(&self) -> &'a [u8] {
        &self.until[self.from..]
    }

    /// The same bytes as fields.
    pub fn fields(&self) -> Fields<'a> {
        Fields { until: self.until, place: self.from, level: self.level }
    }
}

/// Fields that follow each other up to an end.
pub struct Fields<'a> {
    until: &'a [u8],
    place: usize,
    level: usize,
}

impl<'a> Fields<'a> {
    pub fn of_message(message: &'a [u8]) -> Fields<'a> {
        Fields { until: message, place: 0, level: 0 }
    }

    /// Where the next field begins.
    pub fn place(&self) -> usize {
        self.place
    }

    /// The bytes from a place up to the end.
    pub fn from(&self, place: usize) -> &'a [u8] {
        &self.until[place..]
    }

    /// The next field, none at the end.
    pub fn next_field(&mut self) -> Result<Option<Field<'a>>, Broken> {
        let (place, level) = (self.place, self.level);
        if place == self.until.len() {
            return Ok(None);
        }
        let field = self.read().map_err(|reason| Broken { place, level, reason })?;
        Ok(Some(field))
    }

    fn read(&mut self) -> Result<Field<'a>, Reason> {
        let tag = self.number(Part::Tag)?;
        let (number, wire_type) = (tag >> 3, tag & 7);
        if number == 0 {
            return Err(Reason::FieldZero);
        }
        let content = match wire_type {
            wire::NUMBER => Content::Number(self.number(Part::Value)?),
            wire::EIGHT_BYTES => {
                self.skip(8, wire_type)?;
                Content::Fixed(8)
            }
            wire::LENGTH => {
                let length = self.number(Part::Length)?;
                let from = self.place;
                self.skip(length, wire_type)?;
                let until = &self.until[..self.place];
                Content::Bytes(Inside { until, from, level: self.level + 1 })
            }
            wire::FOUR_BYTES => {
                self.skip(4, wire_type)?;
                Content::Fixed(4)
            }
            other => return Err(Reason::WireType(other)),
        };
        Ok(Field { number, wire_type, content })
    }

    /// Groups of seven bits, low first, top bit set on all but the last.
    fn number(&mut self, part: Part) -> Result<u64, Reason> {
        let mut value = 0u128;
        for place in 0..LONGEST_NUMBER {
            let byte = *self.until.get(self.place).ok_or(Reason::Cut(part))?;
            self.place += 1;
            value |= u128::from(byte & 0x7f) << (7 * place);
            if byte & 0x80 == 0 {
                return u64::try_from(value).map_err(|_| Reason::TooWide(part));
            }
        }
        Err(Reason::EleventhByte(part))
    }

    fn skip(&mut self, length: u64, wire_type: u64) -> Result<(), Reason> {
        let left = self.until.len() - self.place;
        match usize::try_from(length) {
            Ok(length) if length <= left => {
                self.place += length;
                Ok(())
            }
            _ => Err(Reason::PastEnd(wire_type)),
        }
    }
}
