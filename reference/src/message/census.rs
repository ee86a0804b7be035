//! What a message holds, by name, for counting what a comparison reached.

use super::field::{Broken, Content, Field, Fields};
use super::holder::Holder;
use super::{wire, Ids, Names};
use std::collections::BTreeMap;

/// The largest field number that protobuf has.
const LARGEST_FIELD: u64 = (1 << 29) - 1;

const WIRE_TYPES: [u64; 4] = [wire::NUMBER, wire::EIGHT_BYTES, wire::LENGTH, wire::FOUR_BYTES];

fn unknown(holder: Holder, wire_type: u64) -> String {
    format!("{holder:?}: unknown field of wire type {wire_type}")
}

fn skipped(holder: Holder, number: u64) -> String {
    format!("{holder:?}: skipped field {number}")
}

fn other_wire(holder: Holder, number: u64, wire_type: u64) -> String {
    format!("{holder:?}: field {number} of wire type {wire_type}")
}

fn repeated(holder: Holder, number: u64) -> String {
    format!("{holder:?}: field {number} repeated")
}

fn overlong(holder: Holder) -> String {
    format!("{holder:?}: a field with an overlong number")
}

fn ten_bytes(holder: Holder) -> String {
    format!("{holder:?}: a field with two numbers of ten bytes")
}

fn large(holder: Holder) -> String {
    format!("{holder:?}: field number above 2^29 - 1")
}

fn named(holder: Holder, what: &str) -> String {
    format!("{holder:?}: topic name {what}")
}

/// The names of topics that are told apart.
const NAMED: [&str; 7] = [
    "known",
    "unknown",
    "of 0 bytes",
    "of 64 bytes, known",
    "of 65 bytes",
    "unknown after a known one",
    "known after an unknown one",
];

/// The message ids that are told apart.
const IDS: [&str; 6] = [
    "known",
    "unknown",
    "of 0 bytes",
    "of 64 bytes, known",
    "of 65 bytes",
    "of 65 bytes, the front of it known",
];

fn with_id(what: &str) -> String {
    format!("IDontWant: id {what}")
}

const CONTROLS: &str = "Rpc: several control fields";
const SEVERAL_IDS: &str = "IDontWant: several ids";

/// All names that can be counted.
pub fn wanted() -> Vec<String> {
    let mut wanted = vec![CONTROLS.to_string(), SEVERAL_IDS.to_string()];
    wanted.extend(IDS.map(with_id));
    for holder in Holder::ALL {
        wanted.extend(WIRE_TYPES.map(|wire_type| unknown(holder, wire_type)));
        wanted.extend(holder.skipped().iter().map(|&number| skipped(holder, number)));
        for &(number, own) in holder.known() {
            let others = WIRE_TYPES.into_iter().filter(|&other| other != own);
            wanted.extend(others.map(|other| other_wire(holder, number, other)));
            if holder.is_entry() {
                wanted.push(repeated(holder, number));
            }
        }
        wanted.extend([overlong(holder), ten_bytes(holder), large(holder)]);
        if holder.is_entry() {
            wanted.extend(NAMED.map(|what| named(holder, what)));
        }
    }
    wanted
}

/// What a well-formed message holds; of a malformed one, what stands before the break.
pub fn census(names: &Names, ids: &Ids, message: &[u8]) -> BTreeMap<String, u64> {
    let mut census = Census { names, ids, counts: BTreeMap::new() };
    let _ = census.walk(Holder::Rpc, Fields::of_message(message));
    census.counts
}

struct Census<'a> {
    names: &'a Names,
    ids: &'a Ids,
    counts: BTreeMap<String, u64>,
}

impl Census<'_> {
    fn count(&mut self, what: String) {
        *self.counts.entry(what).or_default() += 1;
    }

    fn walk(&mut self, holder: Holder, mut fields: Fields) -> Result<(), Broken> {
        let mut known = Vec::new();
        let mut topic_known = None;
        loop {
            let place = fields.place();
            let Some(field) = fields.next_field()? else { return Ok(()) };
            self.numbers(holder, &field, fields.place() - place);
            if self.field(holder, &field) {
                known.push(field.number);
                let times = known.iter().filter(|&&number| number == field.number).count();
                self.again(holder, field.number, times);
            }
            let Content::Bytes(inside) = &field.content else { continue };
            if holder.is_topic(field.number) {
                topic_known = Some(self.name(holder, inside.bytes(), topic_known));
            }
            if holder.is_id(field.number) {
                self.id(inside.bytes());
            }
            if let Some(inner) = holder.inside(field.number) {
                self.walk(inner, inside.fields())?;
            }
        }
    }

    /// How a field of so many bytes writes its numbers.
    fn numbers(&mut self, holder: Holder, field: &Field, bytes: usize) {
        let (shortest, content) = match &field.content {
            Content::Number(value) => (groups(*value), 0),
            Content::Bytes(inside) => {
                let length = inside.bytes().len();
                (groups(length as u64), length)
            }
            Content::Fixed(length) => (0, *length),
        };
        let head = bytes - content;
        if head > groups(field.number << 3) + shortest {
            self.count(overlong(holder));
        }
        if head == 20 {
            self.count(ten_bytes(holder));
        }
        if field.number > LARGEST_FIELD {
            self.count(large(holder));
        }
    }

    /// Counts a field that is skipped; true of one that is read.
    fn field(&mut self, holder: Holder, field: &Field) -> bool {
        let (number, wire_type) = (field.number, field.wire_type);
        match holder.known().iter().find(|(known, _)| *known == number) {
            Some((_, own)) if *own == wire_type => return true,
            Some(_) => self.count(other_wire(holder, number, wire_type)),
            None if holder.skipped().contains(&number) => self.count(skipped(holder, number)),
            None => self.count(unknown(holder, wire_type)),
        }
        false
    }

    /// A field comes for the so-many-th time in its holder.
    fn again(&mut self, holder: Holder, number: u64, times: usize) {
        if times == 2 && holder.is_entry() {
            self.count(repeated(holder, number));
        }
        if times == 2 && holder.inside(number) == Some(Holder::Control) {
            self.count(CONTROLS.to_string());
        }
        if times == 2 && holder.is_id(number) {
            self.count(SEVERAL_IDS.to_string());
        }
    }

    /// Counts a topic's name, and says whether it is known.
    fn name(&mut self, holder: Holder, name: &[u8], before: Option<bool>) -> bool {
        let known = self.names.topic(name).is_some();
        let mut count = |what| self.count(named(holder, what));
        count(if known { "known" } else { "unknown" });
        match (name.len(), known) {
            (0, _) => count("of 0 bytes"),
            (64, true) => count("of 64 bytes, known"),
            (65, _) => count("of 65 bytes"),
            _ => {}
        }
        match (before, known) {
            (Some(true), false) => count("unknown after a known one"),
            (Some(false), true) => count("known after an unknown one"),
            _ => {}
        }
        known
    }

    /// Counts a message id.
    fn id(&mut self, id: &[u8]) {
        let known = self.ids.number(id).is_some();
        let mut count = |what| self.count(with_id(what));
        count(if known { "known" } else { "unknown" });
        match (id.len(), known) {
            (0, _) => count("of 0 bytes"),
            (64, true) => count("of 64 bytes, known"),
            (65, _) => count("of 65 bytes"),
            _ => {}
        }
        if id.len() == 65 && self.ids.number(&id[..64]).is_some() {
            self.count(with_id("of 65 bytes, the front of it known"));
        }
    }
}

/// How many bytes a number takes at least.
fn groups(value: u64) -> usize {
    (64 - value.leading_zeros() as usize).div_ceil(7).max(1)
}
