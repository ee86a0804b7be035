//! Good and damaged parameters as bytes, to compare two readers.

use crate::groups;
use crate::params::{field_at, general, topic, topic_index, Edition, Params, COUNT, TOPICS};
use crate::random::Random;

/// One input and the kind of damage it was made for.
pub struct Input {
    pub kind: &'static str,
    pub bytes: Vec<u8>,
}

/// The fixed inputs in both editions, and then random ones until there are `count`.
pub fn inputs(count: usize, random: &mut Random) -> Vec<Input> {
    let mut inputs = Vec::new();
    let mut add = |kind, bytes| inputs.push(Input { kind, bytes });
    add("empty", Vec::new());
    for edition in Edition::ALL {
        add("good", ordinary(edition).to_bytes());
        every_limit(edition, random, &mut add);
        every_rule(edition, random, &mut add);
        every_cut(edition, random, &mut add);
        every_place_damaged(edition, random, &mut add);
    }
    every_front(random, &mut add);
    long_inputs(random, &mut add);
    while inputs.len() < count {
        inputs.push(random_input(random));
    }
    inputs
}

/// The ordinary numbers in an edition.
fn ordinary(edition: Edition) -> Params {
    Params::ordinary().in_edition(edition)
}

/// Every number at each limit and one past it, in the ordinary parameters and
/// in random good ones.
fn every_limit(edition: Edition, random: &mut Random, add: &mut impl FnMut(&'static str, Vec<u8>)) {
    for index in 0..COUNT {
        let field = field_at(index);
        for base in [ordinary(edition), good_in(edition, random)] {
            for value in [field.low, field.high] {
                add("at a limit", with(&base, &[(index, value)]).to_bytes());
            }
            for value in [field.low - 1, field.high + 1] {
                add("past a limit", with(&base, &[(index, value)]).to_bytes());
            }
        }
    }
}

/// Changes of the ordinary parameters that break one joint rule and no other.
pub fn rule_breakers(edition: Edition) -> Vec<Vec<(usize, i64)>> {
    use general::*;
    let d_score = match edition {
        Edition::One => 5,
        Edition::Two => 7,
    };
    let mut breakers = vec![
        vec![(D_LO, 7)],
        vec![(D_HI, 5)],
        vec![(D_LO, 2)],
        vec![(D_LO, 5), (D, 5), (D_OUT, 3), (D_SCORE, 2)],
        vec![(D_SCORE, d_score)],
        vec![(PUBLISH_THRESHOLD, -9_999)],
        vec![(GRAYLIST_THRESHOLD, -20_000)],
    ];
    for k in 0..TOPICS {
        breakers.push(vec![(topic_index(k, topic::P3_CAP), 999)]);
    }
    breakers
}

/// Every joint rule broken alone, with one other, and with random others; and the
/// rule on D_score at its edges.
fn every_rule(edition: Edition, random: &mut Random, add: &mut impl FnMut(&'static str, Vec<u8>)) {
    let ordinary = ordinary(edition);
    let breakers = rule_breakers(edition);
    for d_score in 3..=8 {
        add("D_score", with(&ordinary, &[(general::D_SCORE, d_score)]).to_bytes());
    }
    for one in &breakers {
        add("one rule broken", with(&ordinary, one).to_bytes());
        for other in &breakers {
            add("rules broken", with(&with(&ordinary, one), other).to_bytes());
        }
        for _ in 0..20 {
            add("rules broken", broken_rules(edition, random).to_bytes());
        }
    }
}

/// Good parameters cut at every length, in and after an edition's front too.
fn every_cut(edition: Edition, random: &mut Random, add: &mut impl FnMut(&'static str, Vec<u8>)) {
    for base in [ordinary(edition), good_in(edition, random), longest(edition)] {
        let bytes = base.to_bytes();
        for length in 1..bytes.len() {
            add("cut short", bytes[..length].to_vec());
        }
    }
}

/// Every number in turn overlong, and above 64 bits; and a byte left over.
fn every_place_damaged(
    edition: Edition,
    random: &mut Random,
    add: &mut impl FnMut(&'static str, Vec<u8>),
) {
    let ordinary = ordinary(edition);
    for index in 0..COUNT {
        add("overlong", damaged(&ordinary, index, |bytes| overlong(bytes, random)));
        add("above 64 bits", damaged(&ordinary, index, |bytes| too_wide(bytes, random)));
        let mut bytes = ordinary.to_bytes();
        bytes.extend(random.bytes(index + 1));
        add("left over", bytes);
    }
}

/// The front of edition 2 and those beside it, before numbers that are good by
/// themselves: 147 of them, those that make 147 with the front's own, and none.
const FRONTS: [&[u8]; 12] = [
    &[0x00],
    &[0x02],
    &[0x00, 0x00],
    &[0x00, 0x01],
    &[0x00, 0x03],
    &[0x00, 0x04],
    &[0x02, 0x00],
    &[0x00, 0x82],
    &[0x00, 0x82, 0x00],
    &[0x80, 0x00, 0x02],
    &[0x00, 0x02, 0x00],
    &[0x00, 0x02, 0x00, 0x02],
];

fn every_front(random: &mut Random, add: &mut impl FnMut(&'static str, Vec<u8>)) {
    for front in FRONTS.into_iter().chain([Edition::Two.front()]) {
        for base in [Params::ordinary(), good_in(Edition::One, random)] {
            for skipped in 0..=front.len() {
                add("front", behind(front, &base, skipped));
            }
        }
        add("front", front.to_vec());
    }
}

/// Good numbers behind a front that is none, or is not the last.
pub fn other_front(random: &mut Random) -> Vec<u8> {
    let front = if random.chance(1, 3) { &[0x00, 0x03] } else { *random.pick(&FRONTS) };
    behind(front, &good(random), 0)
}

/// A front, and the numbers after the first so many.
fn behind(front: &[u8], params: &Params, skipped: usize) -> Vec<u8> {
    let mut bytes = front.to_vec();
    for &number in &params.numbers[skipped..] {
        groups::write_signed(number, &mut bytes);
    }
    bytes
}

/// Inputs past every buffer that a reader might have.
fn long_inputs(random: &mut Random, add: &mut impl FnMut(&'static str, Vec<u8>)) {
    for length in [734, 735, 736, 737, 738, 4096, 65_535, 65_536, 65_537, 70_000, 200_000] {
        let mut followed = good(random).to_bytes();
        followed.resize(length, 0);
        add("long", followed);
        add("long", vec![0x80; length]);
        add("long", vec![0x00; length]);
        add("long", random.bytes(length));
    }
}

/// Either edition.
pub fn edition(random: &mut Random) -> Edition {
    *random.pick(&Edition::ALL)
}

pub fn random_input(random: &mut Random) -> Input {
    let index = random.below(COUNT);
    let base = good(random);
    let (kind, bytes) = match random.below(13) {
        0 | 1 => ("good", base.to_bytes()),
        2 => ("past a limit", past_limits(random).to_bytes()),
        3 => ("rules broken", broken_rules(edition(random), random).to_bytes()),
        4 => ("rules at random", any_in_limits(random).to_bytes()),
        5 => ("cut short", cut(base.to_bytes(), random)),
        6 => ("overlong", damaged(&base, index, |bytes| overlong(bytes, random))),
        7 => ("above 64 bits", damaged(&base, index, |bytes| too_wide(bytes, random))),
        8 => ("left over", followed(base.to_bytes(), random)),
        9 => ("any 64 bits", any_numbers(random).to_bytes()),
        10 => ("flipped bits", flipped(base.to_bytes(), random)),
        11 => ("front", other_front(random)),
        _ => ("noise", noise(random)),
    };
    Input { kind, bytes }
}

/// The parameters with some numbers replaced.
pub fn with(base: &Params, changes: &[(usize, i64)]) -> Params {
    let mut params = base.clone();
    for &(index, value) in changes {
        params.numbers[index] = value;
    }
    params
}

/// A number between its limits: often a limit, else of even size or even width.
fn in_limits(index: usize, random: &mut Random) -> i64 {
    let field = field_at(index);
    match random.below(6) {
        0 => field.low,
        1 => field.high,
        2 => field.ordinary,
        3 => (random.of_any_width() >> 1) as i64 % (field.high - field.low + 1) + field.low,
        _ => random.between(field.low, field.high),
    }
}

/// Every number within its limits; the joint rules are left to chance.
pub fn any_in_limits(random: &mut Random) -> Params {
    let edition = edition(random);
    Params { edition, numbers: std::array::from_fn(|index| in_limits(index, random)) }
}

/// Random good parameters of either edition.
pub fn good(random: &mut Random) -> Params {
    good_in(edition(random), random)
}

/// Random good parameters of one edition.
pub fn good_in(edition: Edition, random: &mut Random) -> Params {
    let mut params = any_in_limits(random).in_edition(edition);
    keep_degree_rules(&mut params, random);
    keep_threshold_rules(&mut params, random);
    for k in 0..TOPICS {
        let threshold = params.topic(k, topic::P3_THRESHOLD);
        let cap = &mut params.numbers[topic_index(k, topic::P3_CAP)];
        *cap = (*cap).max(threshold);
    }
    params
}

/// The largest D_score that an edition allows.
pub fn most_best(edition: Edition, d: i64, d_out: i64) -> i64 {
    match edition {
        Edition::One => d - d_out,
        Edition::Two => d,
    }
}

/// A D_score that an edition allows; in edition 2 often one that edition 1 does not.
pub fn best(edition: Edition, d: i64, d_out: i64, random: &mut Random) -> i64 {
    let most = most_best(edition, d, d_out);
    match edition {
        Edition::Two if random.chance(1, 2) => random.between((d - d_out + 1).min(d), most),
        _ => random.often_an_end(0, most),
    }
}

/// Degrees that keep the first five joint rules.
fn keep_degree_rules(params: &mut Params, random: &mut Random) {
    use general::*;
    let d = random.often_an_end(1, 48);
    let d_lo = random.often_an_end(1, d);
    let d_out = random.often_an_end(0, (d_lo - 1).min(d / 2));
    params.numbers[D] = d;
    params.numbers[D_LO] = d_lo;
    params.numbers[D_HI] = random.often_an_end(d, 48);
    params.numbers[D_OUT] = d_out;
    params.numbers[D_SCORE] = best(params.edition, d, d_out, random);
}

/// Thresholds that keep the sixth and the seventh rule.
fn keep_threshold_rules(params: &mut Params, random: &mut Random) {
    use general::*;
    let lowest = field_at(GRAYLIST_THRESHOLD).low;
    let one = in_limits(GOSSIP_THRESHOLD, random);
    let other = in_limits(PUBLISH_THRESHOLD, random).max(lowest + 1);
    let publish = one.min(other).max(lowest + 1);
    params.numbers[GOSSIP_THRESHOLD] = one.max(other);
    params.numbers[PUBLISH_THRESHOLD] = publish;
    params.numbers[GRAYLIST_THRESHOLD] = random.often_an_end(lowest, publish - 1);
}

/// Good parameters whose bytes are as many as they can be.
fn longest(edition: Edition) -> Params {
    let mut params = ordinary(edition);
    for index in 0..COUNT {
        let field = field_at(index);
        params.numbers[index] = if -field.low > field.high { field.low } else { field.high };
    }
    params.numbers[general::D_SCORE] = 24;
    params.numbers[general::D_OUT] = 24;
    params.numbers[general::PUBLISH_THRESHOLD] += 1;
    params.numbers[general::GOSSIP_THRESHOLD] += 1;
    params
}

/// One to three numbers just past a limit, or far past it.
fn past_limits(random: &mut Random) -> Params {
    let mut params = good(random);
    for _ in 0..=random.below(3) {
        let index = random.below(COUNT);
        let field = field_at(index);
        let by = (random.of_any_width() >> random.below(32).max(2)) as i64 + 1;
        let past = if random.chance(1, 2) { field.low - by } else { field.high + by };
        params.numbers[index] = past;
    }
    params
}

/// Some of the joint rules broken; an index past its limit now and then.
fn broken_rules(edition: Edition, random: &mut Random) -> Params {
    let breakers = rule_breakers(edition);
    let mut params = ordinary(edition);
    for _ in 0..=random.below(4) {
        let breaker: &Vec<_> = random.pick(&breakers);
        params = with(&params, breaker);
    }
    if random.chance(1, 8) {
        let index = random.below(COUNT);
        params.numbers[index] = field_at(index).high + 1;
    }
    params
}

fn any_numbers(random: &mut Random) -> Params {
    let mut params = good(random);
    for _ in 0..=random.below(5) {
        params.numbers[random.below(COUNT)] = groups::signed_from_code(random.of_any_width());
    }
    params
}

/// The bytes with one number's own bytes changed.
fn damaged(params: &Params, index: usize, damage: impl FnOnce(&mut Vec<u8>)) -> Vec<u8> {
    let mut out = params.edition.front().to_vec();
    for &number in &params.numbers[..index] {
        groups::write_signed(number, &mut out);
    }
    let mut own = Vec::new();
    groups::write_signed(params.numbers[index], &mut own);
    damage(&mut own);
    out.extend(own);
    for &number in &params.numbers[index + 1..] {
        groups::write_signed(number, &mut out);
    }
    out
}

/// The same number with empty groups at its end.
pub fn overlong(bytes: &mut Vec<u8>, random: &mut Random) {
    *bytes.last_mut().expect("a number has a byte") |= 0x80;
    for _ in 0..random.below(12) {
        bytes.push(0x80);
    }
    bytes.push(0x00);
}

/// A number of ten groups or more that 64 bits do not hold.
pub fn too_wide(bytes: &mut Vec<u8>, random: &mut Random) {
    let groups = 9 + random.below(3);
    *bytes = random.bytes(groups);
    for byte in bytes.iter_mut() {
        *byte |= 0x80;
    }
    bytes.push(random.between(2, 0x7f) as u8);
}

fn cut(mut bytes: Vec<u8>, random: &mut Random) -> Vec<u8> {
    bytes.truncate(random.below(bytes.len()));
    bytes
}

fn followed(mut bytes: Vec<u8>, random: &mut Random) -> Vec<u8> {
    let more = 1 + random.below(20);
    bytes.extend(random.bytes(more));
    bytes
}

fn flipped(mut bytes: Vec<u8>, random: &mut Random) -> Vec<u8> {
    for _ in 0..=random.below(3) {
        let place = random.below(bytes.len());
        bytes[place] ^= 1 << random.below(8);
    }
    bytes
}

/// Random bytes; most without a top bit, so that many numbers are whole.
fn noise(random: &mut Random) -> Vec<u8> {
    let length = random.below(400);
    let mut bytes = random.bytes(length);
    let keep = random.below(4);
    for byte in &mut bytes {
        if random.below(4) >= keep {
            *byte &= 0x7f;
        }
    }
    bytes
}

#[cfg(test)]
mod tests {
    use super::*;

    #[test]
    fn good_ones_are_good() {
        let mut random = Random::new(1);
        for _ in 0..2000 {
            assert_eq!(good(&mut random).first_broken(), None);
        }
        for edition in Edition::ALL {
            assert_eq!(longest(edition).first_broken(), None);
        }
    }

    #[test]
    fn breakers_break_one_rule() {
        for edition in Edition::ALL {
            for (place, breaker) in rule_breakers(edition).iter().enumerate() {
                let params = with(&ordinary(edition), breaker);
                assert_eq!(params.first_broken(), Some(200 + place.min(7)));
            }
        }
    }
}
