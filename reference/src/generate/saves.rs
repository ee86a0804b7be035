//! Saves, good and damaged, each with the answer that order 8 gives it: whoever makes a save
//! knows where it broke it.

use super::messages::overlong;
use crate::event::LAST_TIME;
use crate::groups::{code_from_signed, write_unsigned};
use crate::params::Params;
use crate::random::Random;
use crate::saves::{slots_of, Field, OWN_FIELDS, RECORD_FIELDS};

/// The kinds of damage; those of a number out of its range are named by its field besides.
pub const BAD: [&str; 13] = [
    "another edition",
    "a count above the slots",
    "an id not ascending",
    "a number out of its range",
    "two numbers broken",
    "broken and cut short",
    "broken and left over",
    "cut short between numbers",
    "cut short inside a number",
    "overlong",
    "above 64 bits",
    "left over",
    "cut short before the records",
];

/// The fields of a record by name, whatever the topic.
pub const FIELDS: [&str; 9] = ["Id", "Retain", "P5", "P7", "P2", "P3", "P3b", "P4", "Backoff"];

/// One save, the kind it was made for, and the number and place of its refusal, if it has one.
pub struct Input {
    pub kind: String,
    pub bytes: Vec<u8>,
    pub refusal: Option<(u32, usize)>,
}

/// A clock to load at.
pub fn clock(random: &mut Random) -> u64 {
    let any = random.below(1_000_000) as u64;
    *random.pick(&[0, 1, any, any, any, LAST_TIME - 20_000_000 - any])
}

/// A save whose numbers are as wide as may be.
#[derive(Clone)]
struct Draft {
    edition: u64,
    count: u64,
    records: Vec<[u64; RECORD_FIELDS]>,
}

impl Draft {
    /// Records of ascending ids, the numbers in their ranges; P5 as its code.
    fn good(params: &Params, most: usize, random: &mut Random) -> Draft {
        let edition = 1 + random.below(2) as u64;
        let slots = slots_of(edition).expect("an edition");
        let count = if random.chance(1, 40) { slots } else { random.below(most.min(slots) + 1) };
        let mut id = 0;
        let mut records = Vec::new();
        for left in (0..count as u64).rev() {
            let last = u64::from(u32::MAX) - left;
            let near = random.below(300) as u64;
            id = if random.chance(1, 50) { last } else { (id + 1 + near).min(last) };
            records.push(record(id, params, random));
        }
        Draft { edition, count: count as u64, records }
    }

    /// The bytes, and the places of the records' numbers.
    fn bytes(&self) -> (Vec<u8>, Vec<usize>) {
        let (mut bytes, mut places) = (Vec::new(), Vec::new());
        write_unsigned(self.edition, &mut bytes);
        write_unsigned(self.count, &mut bytes);
        for &number in self.records.iter().flatten() {
            places.push(bytes.len());
            write_unsigned(number, &mut bytes);
        }
        (bytes, places)
    }

    fn number(&mut self, index: usize) -> &mut u64 {
        &mut self.records[index / RECORD_FIELDS][index % RECORD_FIELDS]
    }
}

/// Mostly zeros, or numbers of the whole range, often at an end.
fn record(id: u64, params: &Params, random: &mut Random) -> [u64; RECORD_FIELDS] {
    let full = random.below(4);
    std::array::from_fn(|place| {
        let field = Field::at(place);
        let (low, high) = field.limits(params);
        let value = if random.below(4) < full { random.often_an_end(low, high) } else { 0 };
        match field {
            Field::Id => id,
            Field::P5 => code_from_signed(value),
            _ => value as u64,
        }
    })
}

/// A save that loads with the parameters.
pub fn good(params: &Params, random: &mut Random) -> Input {
    let bytes = Draft::good(params, 12, random).bytes().0;
    Input { kind: "good".to_string(), bytes, refusal: None }
}

/// A save that is refused.
pub fn bad(params: &Params, random: &mut Random) -> Input {
    let kind = *random.pick(&BAD);
    let mut draft = Draft::good(params, 5, random);
    while draft.records.len() < 2 {
        draft = Draft::good(params, 5, random);
    }
    let mut name = kind.to_string();
    let (bytes, refusal) = match kind {
        "another edition" | "a count above the slots" | "cut short before the records" => {
            bad_front(kind, &draft, random)
        }
        "an id not ascending" => unsorted(draft, random),
        "a number out of its range" => {
            let places = if random.chance(1, 2) { OWN_FIELDS } else { RECORD_FIELDS };
            let place = random.below(places);
            let index = RECORD_FIELDS * random.below(draft.records.len()) + place;
            name = out_of_range(field_name(Field::at(index % RECORD_FIELDS)));
            broken(draft, index, params, random)
        }
        "two numbers broken" | "broken and cut short" | "broken and left over" => {
            broken_more(kind, draft, params, random)
        }
        _ => bad_bytes(kind, draft, random),
    };
    Input { kind: name, bytes, refusal: Some(refusal) }
}

/// All kinds that are to be reached.
pub fn bad_kinds() -> Vec<String> {
    let plain = BAD.iter().filter(|kind| **kind != "a number out of its range");
    let fields = FIELDS.iter().map(|field| out_of_range(field));
    plain.map(|kind| kind.to_string()).chain(fields).collect()
}

fn out_of_range(field: &str) -> String {
    format!("{field} out of its range")
}

fn field_name(field: Field) -> &'static str {
    let name = match field {
        Field::Id => 0,
        Field::Retain => 1,
        Field::P5 => 2,
        Field::P7 => 3,
        Field::P2(_) => 4,
        Field::P3(_) => 5,
        Field::P3b(_) => 6,
        Field::P4(_) => 7,
        Field::Backoff(_) => 8,
    };
    FIELDS[name]
}

type Bad = (Vec<u8>, (u32, usize));

/// What follows an edition or a count that is refused counts for nothing.
fn bad_front(kind: &str, draft: &Draft, random: &mut Random) -> Bad {
    let mut draft = draft.clone();
    let place = match kind {
        "another edition" => {
            draft.edition = *random.pick(&[0, 3, 4, 127, 128, 257, u64::MAX]);
            0
        }
        "a count above the slots" => {
            let slots = slots_of(draft.edition).expect("an edition") as u64;
            draft.count = *random.pick(&[slots + 1, slots + 2, 1000, 1 << 32, u64::MAX]);
            1
        }
        _ => {
            let length = random.below(2);
            return (draft.bytes().0[..length].to_vec(), (10, length));
        }
    };
    let mut bytes = draft.bytes().0;
    if random.chance(1, 2) {
        let rest = random.below(bytes.len());
        bytes.truncate(bytes.len() - rest);
    }
    // The number itself stays whole.
    let whole = draft.bytes().0;
    let head = whole[place..].iter().take_while(|&&byte| byte >= 0x80).count() + place + 1;
    if bytes.len() < head {
        bytes = whole[..head].to_vec();
    }
    (bytes, (9, place))
}

fn unsorted(mut draft: Draft, random: &mut Random) -> Bad {
    let at = 1 + random.below(draft.records.len() - 1);
    let before = draft.records[at - 1][0];
    draft.records[at][0] =
        if random.chance(1, 2) { before } else { before - random.below(2) as u64 };
    draft.records[at][0] = draft.records[at][0].max(1);
    let (bytes, places) = draft.bytes();
    (bytes, (9, places[at * RECORD_FIELDS]))
}

/// Puts a number past its range.
fn break_number(draft: &mut Draft, index: usize, params: &Params, random: &mut Random) {
    let field = Field::at(index % RECORD_FIELDS);
    let (low, high) = field.limits(params);
    let value = match field {
        Field::Id => *random.pick(&[0, 1 << 32, u64::MAX]),
        Field::P5 => {
            let past = [low - 1, high + 1, i64::MIN, i64::MAX];
            code_from_signed(*random.pick(&past))
        }
        _ => *random.pick(&[high as u64 + 1, high as u64 + 2, 1 << 63, u64::MAX]),
    };
    *draft.number(index) = value;
}

fn broken(mut draft: Draft, index: usize, params: &Params, random: &mut Random) -> Bad {
    break_number(&mut draft, index, params, random);
    let (bytes, places) = draft.bytes();
    (bytes, (9, places[index]))
}

fn broken_more(kind: &str, mut draft: Draft, params: &Params, random: &mut Random) -> Bad {
    let count = RECORD_FIELDS * draft.records.len();
    let first = random.below(count - 1);
    break_number(&mut draft, first, params, random);
    if kind == "two numbers broken" {
        let second = first + 1 + random.below(count - first - 1);
        break_number(&mut draft, second, params, random);
    }
    let (mut bytes, places) = draft.bytes();
    match kind {
        "two numbers broken" => (bytes, (9, places[first])),
        "broken and cut short" => {
            let cut = places[first + 1 + random.below(count - first - 1)];
            bytes.truncate(cut);
            (bytes, (10, cut))
        }
        _ => {
            let length = bytes.len();
            bytes.push(random.bits() as u8);
            (bytes, (10, length))
        }
    }
}

fn bad_bytes(kind: &str, mut draft: Draft, random: &mut Random) -> Bad {
    let count = RECORD_FIELDS * draft.records.len();
    let index = random.below(count);
    if kind == "cut short inside a number" {
        *draft.number(index) = 128 + random.below(1000) as u64;
    }
    let (mut bytes, places) = draft.bytes();
    let place = places[index];
    let end = places.get(index + 1).copied().unwrap_or(bytes.len());
    match kind {
        "cut short between numbers" => bytes.truncate(place),
        "cut short inside a number" => bytes.truncate(place + 1 + random.below(end - place - 1)),
        "overlong" => {
            let longer = overlong(*draft.number(index), (end - place + 1).min(10));
            // A number of ten bytes has no longer form; another takes its place.
            let longer = if longer.len() == end - place { vec![0x80, 0x00] } else { longer };
            bytes.splice(place..end, longer);
        }
        "above 64 bits" => {
            let mut wide = vec![0xff; 9];
            wide.push(*random.pick(&[0x02, 0x7f, 0x80, 0x81]));
            bytes.splice(place..end, wide);
        }
        _ => {
            let length = bytes.len();
            let more = 1 + random.below(3);
            bytes.extend(random.bytes(more));
            return (bytes, (10, length));
        }
    }
    (bytes, (10, place))
}
