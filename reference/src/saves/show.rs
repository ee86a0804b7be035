//! A save in words.

use super::reader::{Record, Save};
use super::{Field, OWN_FIELDS, TOPIC_FIELDS};
use crate::params::{field_at, topic, topic_index, Params, Refusal, TOPICS};
use std::fmt::Write;

/// A save line by line: a refusal as `N PLACE`, or its edition, each record, and each topic of
/// it in which a number is not 0. No parameters are known here, so the counters of P2 and P3
/// may go to the highest caps there are.
pub fn show(bytes: &[u8]) -> String {
    let params = highest_caps();
    let read = Save::read(bytes).and_then(|save| save.check(&params).map(|()| save));
    let save = match read {
        Err(Refusal { number, place }) => return format!("{number} {place}\n"),
        Ok(save) => save,
    };
    let (edition, count, length) = (save.edition, save.records.len(), bytes.len());
    let mut out = format!("save of edition {edition}, records {count}, bytes {length}\n");
    for record in &save.records {
        show_record(record, &mut out);
    }
    out
}

fn highest_caps() -> Params {
    let mut params = Params::ordinary();
    for k in 0..TOPICS {
        for place in [topic::P2_CAP, topic::P3_CAP] {
            let index = topic_index(k, place);
            params.numbers[index] = field_at(index).high;
        }
    }
    params
}

fn show_record(record: &Record, out: &mut String) {
    let [id, retain, p5, p7] = std::array::from_fn(|place| record[place].value);
    let _ = writeln!(out, "id {id}: retained {retain} ms more, P5 {p5}, P7 {p7}");
    for (k, topic) in record[OWN_FIELDS..].chunks(TOPIC_FIELDS).enumerate() {
        if topic.iter().all(|number| number.value == 0) {
            continue;
        }
        let _ = write!(out, "  topic {k}:");
        for (place, number) in topic.iter().enumerate() {
            let (name, unit) = words(Field::at(OWN_FIELDS + place));
            let comma = if place + 1 < TOPIC_FIELDS { "," } else { "\n" };
            let _ = write!(out, " {name} {}{unit}{comma}", number.value);
        }
    }
}

/// A topic field's name and unit.
fn words(field: Field) -> (&'static str, &'static str) {
    match field {
        Field::P2(_) => ("P2", ""),
        Field::P3(_) => ("P3", ""),
        Field::P3b(_) => ("P3b", ""),
        Field::P4(_) => ("P4", ""),
        _ => ("backoff", " ms"),
    }
}
