//! Good and damaged sheets of the other supplier's, and parameters of ours for it, to
//! compare two programs that turn each into the other (order 12 of 02).

use super::params as generate_params;
use crate::params::{field_at, general, Edition, Field, Params, COUNT};
use crate::random::Random;
use crate::supplier::{factor, kind_at, Entry, Kind, ENTRY, LENGTH};

/// One input: its mode, the bytes after it, and what it was made for.
pub struct Input {
    pub mode: u8,
    pub bytes: Vec<u8>,
    pub kind: &'static str,
    /// The field that was broken, and in which way.
    pub broken: Option<(usize, &'static str)>,
}

/// The ways in which an entry of a kind can be broken.
pub fn ways(kind: Kind) -> &'static [&'static str] {
    match kind {
        Kind::Factor => &FACTOR_WAYS,
        Kind::Whole => &WHOLE_WAYS,
        Kind::Span(_) => &SPAN_WAYS,
    }
}

const FACTOR_WAYS: [&str; 17] = [
    "kind 1",
    "kind 2",
    "kind 3",
    "kind 255",
    "under the low limit",
    "over the high limit",
    "a float above one",
    "a float below one",
    "NaN",
    "NaN with its sign",
    "a signalling NaN",
    "infinity",
    "minus infinity",
    "minus zero",
    "negative",
    "a product",
    "a whole number's bits",
];

const WHOLE_WAYS: [&str; 9] = [
    "kind 0",
    "kind 2",
    "kind 3",
    "kind 255",
    "under the low limit",
    "over the high limit",
    "the lowest of 64 bits",
    "the highest of 64 bits",
    "32 bits of a good one",
];

const SPAN_WAYS: [&str; 11] = [
    "kind 0",
    "kind 1",
    "kind 3",
    "kind 255",
    "under the low limit",
    "over the high limit",
    "a nanosecond short",
    "a nanosecond over",
    "half a unit over",
    "the highest of 64 bits",
    "whole, with the top bit",
];

/// An entry that is broken in one of the ways of its kind.
fn broken_entry(index: usize, way: &str, random: &mut Random) -> [u8; ENTRY] {
    let good = good_number(index, random);
    if let Some(kind) = way.strip_prefix("kind ") {
        let mut bytes = Entry::of(index, good).to_bytes();
        bytes[0] = kind.parse().expect("a kind's number");
        return bytes;
    }
    let entry = match kind_at(index) {
        Kind::Factor => Entry::Factor(broken_factor(way, good, field_at(index))),
        Kind::Whole => Entry::Whole(broken_whole(way, good, field_at(index))),
        Kind::Span(unit) => Entry::Span(broken_span(way, good as u64, unit, field_at(index))),
    };
    entry.to_bytes()
}

fn good_number(index: usize, random: &mut Random) -> i64 {
    let Field { low, high, .. } = *field_at(index);
    random.often_an_end(low, high)
}

/// The next float, away from zero or towards it.
fn neighbour(value: f64, away: bool) -> f64 {
    let bits = value.to_bits();
    f64::from_bits(if away { bits + 1 } else { bits.wrapping_sub(1) })
}

fn broken_factor(way: &str, good: i64, field: &Field) -> f64 {
    match way {
        "under the low limit" => factor(field.low - 1),
        "over the high limit" => factor(field.high + 1),
        "a float above one" => neighbour(factor(good), true),
        "a float below one" => neighbour(factor(good), false),
        "NaN" => f64::from_bits(0x7ff8_0000_0000_0000),
        "NaN with its sign" => f64::from_bits(u64::MAX),
        "a signalling NaN" => f64::from_bits(0x7ff0_0000_0000_0001),
        "infinity" => f64::INFINITY,
        "minus infinity" => f64::NEG_INFINITY,
        "minus zero" => -0.0,
        "negative" => -factor(good.max(1)),
        // The nearest product at or after it that is no quotient; 997 is one.
        "a product" => {
            let mut from = (1..=field.high).cycle().skip(good as usize);
            let other = from.find(|&n| n as f64 * 0.001 != factor(n)).expect("997 is one");
            other as f64 * 0.001
        }
        _ => f64::from_bits(good.max(1) as u64),
    }
}

fn broken_whole(way: &str, good: i64, field: &Field) -> i64 {
    match way {
        "under the low limit" => field.low - 1,
        "over the high limit" => field.high + 1,
        "the lowest of 64 bits" => i64::MIN,
        "the highest of 64 bits" => i64::MAX,
        // Right in its low half alone.
        _ => good ^ (1 << 32),
    }
}

fn broken_span(way: &str, good: u64, unit: u64, field: &Field) -> u64 {
    let (low, high) = (field.low as u64, field.high as u64);
    let some = good.max(1);
    match way {
        // Retain and activation may be 0, under which there is no span.
        "under the low limit" if low > 0 => (low - 1) * unit,
        "under the low limit" => unit - 1,
        "over the high limit" => (high + 1) * unit,
        "a nanosecond short" => some * unit - 1,
        "a nanosecond over" => good * unit + 1,
        "half a unit over" => good * unit + unit / 2,
        "the highest of 64 bits" => u64::MAX,
        _ => u64::MAX / unit * unit,
    }
}

type Add<'a> = dyn FnMut(u8, &'static str, Vec<u8>, Option<(usize, &'static str)>) + 'a;

/// The fixed inputs, and then random ones until there are `count`.
pub fn inputs(count: usize, random: &mut Random) -> Vec<Input> {
    let mut inputs = Vec::new();
    let mut add = |mode, kind, bytes, broken| inputs.push(Input { mode, bytes, kind, broken });
    every_way(random, &mut add);
    every_factor(random, &mut add);
    every_rule(&mut add);
    lengths(random, &mut add);
    every_edition(random, &mut add);
    while inputs.len() < count {
        inputs.push(random_input(random));
    }
    inputs
}

/// A good sheet of the supplier's.
fn good_sheet(random: &mut Random) -> Vec<u8> {
    sheet(&generate_params::good_in(Edition::One, random))
}

/// Numbers of ours as the supplier has them, good or not.
fn sheet(params: &Params) -> Vec<u8> {
    let entries = params.numbers.iter().enumerate();
    entries.flat_map(|(index, &n)| Entry::of(index, n).to_bytes()).collect()
}

fn set(sheet: &mut [u8], index: usize, entry: [u8; ENTRY]) {
    sheet[index * ENTRY..(index + 1) * ENTRY].copy_from_slice(&entry);
}

/// Every field broken in every way of its kind, in a good sheet; then with another
/// field broken too.
fn every_way(random: &mut Random, add: &mut Add) {
    for index in 0..COUNT {
        for way in ways(kind_at(index)) {
            let mut bytes = good_sheet(random);
            set(&mut bytes, index, broken_entry(index, way, random));
            add(b'i', "one entry broken", bytes.clone(), Some((index, way)));
            let other = random.below(COUNT);
            let other_way = random.pick(ways(kind_at(other)));
            set(&mut bytes, other, broken_entry(other, other_way, random));
            add(b'I', "entries broken", bytes, None);
        }
    }
}

/// Every factor of each field that has one, read and written; and each one's float
/// neighbours, of decay-to-zero and of some decay.
fn every_factor(random: &mut Random, add: &mut Add) {
    let factors: Vec<usize> = (0..COUNT).filter(|&index| kind_at(index) == Kind::Factor).collect();
    for n in 0..=1000 {
        let mut params = generate_params::good_in(Edition::One, random);
        for (place, &index) in factors.iter().enumerate() {
            let Field { low, high, .. } = *field_at(index);
            // Another number in every field, so that none is seen in one place alone.
            let other = (n + 29 * place as i64) % 1001;
            params.numbers[index] = other.clamp(low, high);
        }
        params.numbers[general::DECAY_TO_ZERO] = n;
        add(b'i', "every factor", sheet(&params), None);
        add(b'e', "every factor", params.to_bytes(), None);
        for away in [false, true] {
            for index in [general::DECAY_TO_ZERO, *random.pick(&factors)] {
                let mut bytes = sheet(&params);
                let entry = Entry::Factor(neighbour(factor(n), away));
                set(&mut bytes, index, entry.to_bytes());
                add(b'i', "a factor's neighbour", bytes, None);
            }
        }
    }
}

/// Every joint rule broken, in what is read and in what is written.
fn every_rule(add: &mut Add) {
    for edition in Edition::ALL {
        for breaker in generate_params::rule_breakers(edition) {
            let params = generate_params::with(&Params::ordinary(), &breaker).in_edition(edition);
            add(b'i', "one rule broken", sheet(&params), None);
            add(b'e', "one rule broken", params.to_bytes(), None);
        }
    }
}

/// Sheets that are too short or too long, good and broken.
fn lengths(random: &mut Random, add: &mut Add) {
    let entries = (0..=COUNT + 2).map(|count| count * ENTRY);
    for length in entries.chain([1, 8, LENGTH - 1, LENGTH + 1, 2 * LENGTH, 65_535, 65_536, 200_000])
    {
        let mut bytes = good_sheet(random);
        bytes.resize(length, 1);
        add(b'i', "length", bytes, None);
        add(b'i', "length, broken", random.bytes(length), None);
    }
}

/// Ours in both editions, around the rule in which they differ.
fn every_edition(random: &mut Random, add: &mut Add) {
    for edition in Edition::ALL {
        for _ in 0..200 {
            let mut params = generate_params::good_in(edition, random);
            let most = generate_params::most_best(
                Edition::One,
                params.general(general::D),
                params.general(general::D_OUT),
            );
            params.numbers[general::D_SCORE] = (most + random.between(0, 1)).min(48);
            let mode = if random.chance(1, 2) { b'e' } else { b'E' };
            add(mode, "at the rule on D_score", params.to_bytes(), None);
        }
    }
}

fn random_input(random: &mut Random) -> Input {
    let raw = random.chance(1, 4);
    if random.chance(1, 3) {
        let generate_params::Input { kind, bytes } = generate_params::random_input(random);
        let mode = if raw { b'E' } else { b'e' };
        return Input { mode, bytes, kind, broken: None };
    }
    let mode = if raw { b'I' } else { b'i' };
    let (kind, bytes) = random_sheet(random);
    Input { mode, bytes, kind, broken: None }
}

fn random_sheet(random: &mut Random) -> (&'static str, Vec<u8>) {
    let mut bytes = good_sheet(random);
    match random.below(8) {
        0 | 1 => ("good", bytes),
        2 => {
            for _ in 0..=random.below(4) {
                let index = random.below(COUNT);
                let way = random.pick(ways(kind_at(index)));
                set(&mut bytes, index, broken_entry(index, way, random));
            }
            ("entries broken", bytes)
        }
        3 => {
            for _ in 0..=random.below(3) {
                let place = random.below(bytes.len());
                bytes[place] ^= 1 << random.below(8);
            }
            ("flipped bits", bytes)
        }
        4 => ("any in limits", sheet(&generate_params::any_in_limits(random))),
        5 => {
            let index = random.below(COUNT);
            let value = random.of_any_width().to_le_bytes();
            bytes[index * ENTRY + 1..(index + 1) * ENTRY].copy_from_slice(&value);
            ("any 64 bits", bytes)
        }
        6 => {
            bytes.resize(random.below(2 * LENGTH), random.bits() as u8);
            ("length", bytes)
        }
        _ => ("noise", random.bytes(LENGTH)),
    }
}

#[cfg(test)]
mod tests {
    use super::*;
    use crate::supplier::import;

    #[test]
    fn every_way_breaks_its_field() {
        let mut random = Random::new(1);
        for _ in 0..20 {
            for index in 0..COUNT {
                for way in ways(kind_at(index)) {
                    let entry = Entry::read(&broken_entry(index, way, &mut random));
                    let read = entry.and_then(|entry| entry.number_at(index));
                    assert_eq!(read, None, "{} {way}", field_at(index).name);
                }
            }
        }
    }

    #[test]
    fn good_sheets_are_good() {
        let mut random = Random::new(1);
        for _ in 0..100 {
            assert!(import(&good_sheet(&mut random)).is_ok());
        }
    }
}
