//! Loading. "A load tests the set-up numbers (2), the sheet (9 as in 01), the clock (2), then
//! edition and count as they are read, another edition or a count above the slots being 9 at
//! its place; after them 10 comes before 9."

use super::{slots_of, Field, RECORD_FIELDS};
use crate::event::LAST_TIME;
use crate::groups::{read_signed, read_unsigned};
use crate::params::{Params, Refusal, TOPICS};
use crate::router::{Peer, Router, Status, TopicRecord, Version};
use crate::set_up::SetUp;

/// "A load takes a sheet, the set-up numbers beside it and a clock and gives a router with
/// these records retained in slots 0 upward, no topic joined".
pub fn load(params: &Params, set_up: SetUp, clock: u64, bytes: &[u8]) -> Result<Router, Refusal> {
    let mut router = Router::with_set_up(params.clone(), set_up)?;
    if clock > LAST_TIME {
        return Err(Refusal { number: 2, place: 0 });
    }
    let save = Save::read(bytes)?;
    save.check(params)?;
    router.clock = clock;
    for (peer, record) in router.peers.iter_mut().zip(&save.records) {
        *peer = retained(record, clock);
    }
    Ok(router)
}

/// A number of a record, as wide as it is given, and the place of its first byte.
#[derive(Clone, Copy, PartialEq, Eq, Debug)]
pub struct Number {
    pub value: i128,
    pub place: usize,
}

/// The numbers of a record in their order.
pub type Record = [Number; RECORD_FIELDS];

/// A save whose records' numbers nobody has judged.
pub struct Save {
    pub edition: u64,
    pub records: Vec<Record>,
}

impl Save {
    /// Reads all numbers, of which edition and count are judged at once.
    pub fn read(bytes: &[u8]) -> Result<Save, Refusal> {
        let mut reader = Reader { bytes, place: 0 };
        let edition = reader.unsigned()?;
        let slots = slots_of(edition).ok_or(broken(0))?;
        let place = reader.place;
        let count = reader.unsigned()?;
        if count > slots as u64 {
            return Err(broken(place));
        }
        let records = (0..count).map(|_| reader.record()).collect::<Result<_, _>>()?;
        if reader.place < bytes.len() {
            return Err(reader.malformed());
        }
        Ok(Save { edition, records })
    }

    /// "Ids not ascending, or numbers outside 01's ranges, are 9 with the place", the first
    /// from the front.
    pub fn check(&self, params: &Params) -> Result<(), Refusal> {
        let mut last_id = 0;
        for record in &self.records {
            for (place, number) in record.iter().enumerate() {
                let (low, high) = Field::at(place).limits(params);
                let in_range = (i128::from(low)..=i128::from(high)).contains(&number.value);
                let descends = Field::at(place) == Field::Id && number.value <= last_id;
                if !in_range || descends {
                    return Err(broken(number.place));
                }
            }
            last_id = record[0].value;
        }
        Ok(())
    }
}

fn broken(place: usize) -> Refusal {
    Refusal { number: 9, place }
}

struct Reader<'a> {
    bytes: &'a [u8],
    /// Where the next number begins.
    place: usize,
}

impl Reader<'_> {
    fn malformed(&self) -> Refusal {
        Refusal { number: 10, place: self.place }
    }

    fn unsigned(&mut self) -> Result<u64, Refusal> {
        let (value, length) =
            read_unsigned(&self.bytes[self.place..]).map_err(|_| self.malformed())?;
        self.place += length;
        Ok(value)
    }

    fn signed(&mut self) -> Result<i64, Refusal> {
        let (value, length) =
            read_signed(&self.bytes[self.place..]).map_err(|_| self.malformed())?;
        self.place += length;
        Ok(value)
    }

    fn record(&mut self) -> Result<Record, Refusal> {
        let mut record = [Number { value: 0, place: 0 }; RECORD_FIELDS];
        for (place, number) in record.iter_mut().enumerate() {
            number.place = self.place;
            number.value = match Field::at(place).is_signed() {
                true => i128::from(self.signed()?),
                false => i128::from(self.unsigned()?),
            };
        }
        Ok(record)
    }
}

/// "version 1.0.0, all else 0, a backoff of 0 as end 0, other times counted from the load's
/// clock"; order 11: "a loaded one the group 0".
fn retained(record: &Record, clock: u64) -> Peer {
    let value = |field: Field| {
        let place = (0..RECORD_FIELDS).find(|&place| Field::at(place) == field);
        record[place.expect("every field has a place")].value
    };
    let end = |field: Field| match value(field) as u64 {
        0 => 0,
        remaining => clock + remaining,
    };
    let topic = |k: usize| TopicRecord {
        p2: value(Field::P2(k)) as i64,
        p3: value(Field::P3(k)) as i64,
        p3b: value(Field::P3b(k)) as i64,
        p4: value(Field::P4(k)) as i64,
        ..TopicRecord::default()
    };
    Peer {
        status: Status::Retained,
        id: value(Field::Id) as u32,
        groups: [Some(0), None, None, None],
        version: Version::V10,
        p5: value(Field::P5) as i64,
        p7: value(Field::P7) as i64,
        retain_end: clock + value(Field::Retain) as u64,
        topics: std::array::from_fn(topic),
        backoff_ends: std::array::from_fn::<_, TOPICS, _>(|k| end(Field::Backoff(k))),
        ..Peer::default()
    }
}
