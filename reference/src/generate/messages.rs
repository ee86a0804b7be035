//! RPC messages: well formed with everything in them that a reader may meet, damaged ones,
//! and bytes that are none.

use crate::message::holder::Holder;
use crate::message::{wire, Ids, Names, LONGEST_ID, LONGEST_MESSAGE, LONGEST_NAME};
use crate::params::TOPICS;
use crate::random::Random;

/// One input and the kind it was made for.
pub struct Input {
    pub kind: &'static str,
    pub bytes: Vec<u8>,
}

/// A well-formed message.
pub fn good(random: &mut Random, names: &Names) -> Input {
    good_with(random, names, &Ids::default())
}

/// The same with ids of a table, or near them.
pub fn good_with(random: &mut Random, names: &Names, ids: &Ids) -> Input {
    let bytes = Maker { random, names, ids, faults: 0 }.inside(Holder::Rpc);
    Input { kind: "good", bytes }
}

/// A message with one field or more broken at any level, or one that was good before some
/// of its bytes were changed.
pub fn damaged(random: &mut Random, names: &Names) -> Input {
    damaged_with(random, names, &Ids::default())
}

/// The same with ids of a table, or near them.
pub fn damaged_with(random: &mut Random, names: &Names, ids: &Ids) -> Input {
    if random.chance(1, 2) {
        let faults = *random.pick(&[1, 1, 1, 2, 3]);
        let bytes = Maker { random, names, ids, faults }.inside(Holder::Rpc);
        return Input { kind: "broken fields", bytes };
    }
    let mut bytes = good_with(random, names, ids).bytes;
    if bytes.is_empty() {
        bytes = vec![0x0a, 0x00];
    }
    let place = random.below(bytes.len());
    let kind = match random.below(5) {
        0 => {
            bytes[place] ^= 1 << random.below(8);
            "a bit turned"
        }
        1 => {
            bytes[place] = random.bits() as u8;
            "a byte changed"
        }
        2 => {
            bytes.insert(place, random.bits() as u8);
            "a byte put in"
        }
        3 => {
            bytes.remove(place);
            "a byte taken out"
        }
        _ => {
            bytes.truncate(place);
            "cut short"
        }
    };
    Input { kind, bytes }
}

/// A message cut at every length.
pub fn every_cut(bytes: &[u8]) -> impl Iterator<Item = Input> + '_ {
    (0..bytes.len()).map(|length| Input { kind: "cut short", bytes: bytes[..length].to_vec() })
}

/// Messages of no byte and of one, and all two bytes as a message and in each field that holds
/// fields.
pub fn every_short() -> impl Iterator<Item = Input> {
    const FRONTS: [&[u8]; 6] = [
        &[],
        &[0x0a, 0x02],
        &[0x1a, 0x02],
        &[0x1a, 0x04, 0x1a, 0x02],
        &[0x1a, 0x04, 0x22, 0x02],
        &[0x1a, 0x04, 0x2a, 0x02],
    ];
    let pairs = (0..=u16::MAX).map(u16::to_le_bytes);
    let in_fronts = pairs.flat_map(|pair| FRONTS.map(|front| [front, &pair].concat()));
    let single = (0..=u8::MAX).map(|byte| vec![byte]);
    let all = [Vec::new()].into_iter().chain(single).chain(in_fronts);
    all.map(|bytes| Input { kind: "short", bytes })
}

/// Bytes that were never a message: any, or those that tags, lengths and ends are made of.
pub fn noise(random: &mut Random) -> Input {
    const LIKELY: [u8; 17] = [
        0x0a, 0x0a, 0x12, 0x12, 0x1a, 0x1a, 0x22, 0x2a, 0x08, 0x18, 0x00, 0x01, 0x02, 0x03, 0x04,
        0x80, 0x07,
    ];
    let most = *random.pick(&[4, 16, 64]);
    let length = random.often_an_end(0, most) as usize;
    let likely = random.below(4);
    let byte = |_| {
        if random.below(4) < likely {
            *random.pick(&LIKELY)
        } else {
            random.bits() as u8
        }
    };
    Input { kind: "noise", bytes: (0..length).map(byte).collect() }
}

/// Messages about as long as the longest that is read: one good message again and again,
/// and a last field that makes up the length; sometimes a broken field in front or behind.
pub fn long(random: &mut Random, names: &Names, ids: &Ids) -> Input {
    let length = *random.pick(&[16_383, 16_384, 16_384, 16_385, 16_386, 20_000, 70_000]);
    let mut bytes = Vec::new();
    if random.chance(1, 4) {
        bytes.push(0);
    }
    let room = length - random.below(length - 32) - 16;
    loop {
        let next = good_with(random, names, ids).bytes;
        if bytes.len() + next.len() > room {
            break;
        }
        bytes.extend(next);
        bytes.extend([0x28, 0x01]);
    }
    fill_up(&mut bytes, length);
    if random.chance(1, 4) {
        bytes[length - 1] = 0x80;
        bytes[length - 2] = 0x28;
    }
    Input { kind: "long", bytes }
}

/// Adds a publish field that ends at a length, which is at least 16 bytes away.
fn fill_up(bytes: &mut Vec<u8>, length: usize) {
    let left = length - bytes.len() - 11;
    bytes.push(0x12);
    bytes.extend(overlong(left as u64, 10));
    bytes.resize(length, 0xff);
}

/// The longest messages of short fields, each filled up with two-byte fields.
pub fn full(random: &mut Random) -> Vec<Input> {
    let prunes = [&[0x1a, 0xfa, 0x7f][..], &[0x22, 0x00].repeat(8189)].concat();
    let front = [0x1a, 0xfd, 0x7f, 0x2a, 0xfa, 0x7f];
    let ids = [&front[..], &[0x0a, 0x00].repeat(8189)].concat();
    let repeated: [&[u8]; 8] = [
        &[0x0a, 0x00],
        &[0x1a, 0x00],
        &[0x28, 0x00],
        &[0x1a, 0x02, 0x1a, 0x00],
        &[0x1a, 0x02, 0x22, 0x00],
        &[0x1a, 0x04, 0x2a, 0x02, 0x0a, 0x00],
        &[0x0a, 0x02, 0x08, 0x01],
        &[0x1a, 0x06, 0x22, 0x02, 0x18, 0x01, 0x1a, 0x00],
    ];
    let mut inputs = vec![prunes, ids];
    for bytes in repeated {
        inputs.push(bytes.repeat(LONGEST_MESSAGE / bytes.len()));
    }
    let broken_at_the_end: Vec<_> = inputs
        .iter()
        .map(|bytes| {
            let mut bytes = bytes.clone();
            let last = bytes.len() - 1;
            bytes[last] = *random.pick(&[0x80, 0x7f]);
            bytes
        })
        .collect();
    let one_more: Vec<_> =
        inputs.iter().map(|bytes| [&bytes[..], &[0x28, 0x00]].concat()).collect();
    let one_less: Vec<_> = inputs.iter().map(|bytes| bytes[..bytes.len() - 1].to_vec()).collect();
    let good_one_less = [&[0x0a, 0x00].repeat(8190)[..], &[0x28, 0x80, 0x00]].concat();
    inputs.extend(broken_at_the_end);
    inputs.extend(one_more);
    inputs.extend(one_less);
    inputs.push(good_one_less);
    inputs.into_iter().map(|bytes| Input { kind: "full", bytes }).collect()
}

/// A number in so many bytes, at most ten; the shortest form has no more.
pub fn overlong(value: u64, length: usize) -> Vec<u8> {
    let group = |place: usize| (value >> (7 * place)) as u8 & 0x7f;
    let more = |place: usize| if place + 1 < length { 0x80 } else { 0 };
    (0..length).map(|place| group(place) | more(place)).collect()
}

/// Makes messages, with so many fields still to be broken.
struct Maker<'a> {
    random: &'a mut Random,
    names: &'a Names,
    ids: &'a Ids,
    faults: usize,
}

impl Maker<'_> {
    /// The fields of a holder.
    fn inside(&mut self, holder: Holder) -> Vec<u8> {
        let most = match holder {
            Holder::Rpc | Holder::Control => 4,
            _ => 3,
        };
        let count = self.random.below(most + 1);
        let mut fields: Vec<Vec<u8>> = (0..count).map(|_| self.field(holder)).collect();
        let mut cut = None;
        while self.faults > 0 && (holder == Holder::Rpc || self.random.chance(1, 3)) {
            self.faults -= 1;
            if cut.is_none() && self.random.chance(1, 2) {
                cut = Some(self.cut_field());
            } else {
                let place = self.random.below(fields.len() + 1);
                fields.insert(place, self.broken_field());
            }
        }
        fields.extend(cut);
        fields.concat()
    }

    /// A field, mostly one that is read.
    fn field(&mut self, holder: Holder) -> Vec<u8> {
        let known = *self.random.pick(holder.known());
        match self.random.below(8) {
            0 => self.unknown_field(holder),
            1 => self.other_wire_type(known),
            2 if !holder.skipped().is_empty() => {
                let number = *self.random.pick(holder.skipped());
                let bytes = self.some_bytes();
                self.with_length(number, &bytes)
            }
            _ => self.known_field(holder, known),
        }
    }

    /// An id of the table, or one that is near it.
    fn id(&mut self) -> Vec<u8> {
        if self.ids.rows.is_empty() {
            return self.some_bytes();
        }
        let mut id = self.random.pick(&self.ids.rows).0.clone();
        match self.random.below(12) {
            0 => id.clear(),
            1 => id.push(0),
            2 => id.iter_mut().take(1).for_each(|byte| *byte ^= 1),
            3 => id.truncate(id.len().saturating_sub(1)),
            4 => id.resize(LONGEST_ID + 1, 0),
            _ => {}
        }
        id
    }

    fn known_field(&mut self, holder: Holder, (number, wire_type): (u64, u64)) -> Vec<u8> {
        if wire_type == wire::NUMBER {
            let any = self.random.of_any_width();
            let value = *self.random.pick(&[0, 1, 2, 60, 3600, 3601, any, any]);
            return [self.number(number << 3 | wire_type), self.number(value)].concat();
        }
        let bytes = match holder.inside(number) {
            Some(inner) => self.inside(inner),
            None if holder.is_id(number) => self.id(),
            None => self.name(),
        };
        self.with_length(number, &bytes)
    }

    /// A number that the holder does not name, at times one far too large whose low bits are
    /// those of a known one.
    fn unknown_field(&mut self, holder: Holder) -> Vec<u8> {
        let named = |number: u64| {
            holder.skipped().contains(&number)
                || holder.known().iter().any(|known| known.0 == number)
        };
        let number = loop {
            let any = (self.random.of_any_width() >> 3).max(1);
            let known = self.random.pick(holder.known()).0;
            let far = known + (1 << *self.random.pick(&[29, 32, 56, 60]));
            let small = 1 + self.random.below(20) as u64;
            let largest = (1 << 61) - 1;
            let number = *self.random.pick(&[any, far, small, small, 1 << 29, largest]);
            if !named(number) {
                break number;
            }
        };
        let wire_type = *self.random.pick(&[0, 1, 2, 5]);
        self.of_wire_type(number, wire_type)
    }

    fn other_wire_type(&mut self, (number, own): (u64, u64)) -> Vec<u8> {
        let wire_type = *self.random.pick(&[0, 1, 2, 5]);
        if wire_type == own {
            return self.other_wire_type((number, own));
        }
        self.of_wire_type(number, wire_type)
    }

    fn of_wire_type(&mut self, number: u64, wire_type: u64) -> Vec<u8> {
        let tag = self.number(number << 3 | wire_type);
        let rest = match wire_type {
            wire::NUMBER => {
                let value = self.random.of_any_width();
                self.number(value)
            }
            wire::EIGHT_BYTES => self.random.bytes(8),
            wire::FOUR_BYTES => self.random.bytes(4),
            _ => {
                let bytes = self.some_bytes();
                return self.with_length(number, &bytes);
            }
        };
        [tag, rest].concat()
    }

    fn with_length(&mut self, number: u64, bytes: &[u8]) -> Vec<u8> {
        let tag = self.number(number << 3 | wire::LENGTH);
        let length = self.number(bytes.len() as u64);
        [&tag[..], &length, bytes].concat()
    }

    /// Mostly the shortest form.
    fn number(&mut self, value: u64) -> Vec<u8> {
        let shortest = (64 - value.leading_zeros() as usize).div_ceil(7).max(1);
        let length = match self.random.below(16) {
            0 => 10,
            1 => self.random.between(shortest as i64, 10) as usize,
            _ => shortest,
        };
        overlong(value, length)
    }

    /// Few bytes, or so many that their length takes two.
    fn some_bytes(&mut self) -> Vec<u8> {
        let most = *self.random.pick(&[3, 3, 3, 20, 200]);
        let length = self.random.below(most + 1);
        self.random.bytes(length)
    }

    /// The name of a topic, or one that is near it.
    fn name(&mut self) -> Vec<u8> {
        let topic = self.random.below(TOPICS) as u64;
        let mut name = self.names.name(topic).unwrap_or(b"none").to_vec();
        let last = name.len() - 1;
        match self.random.below(16) {
            0 => name.clear(),
            1 => name = self.some_bytes(),
            2 => name[last] ^= 1,
            3 => name.push(0),
            4 => name.truncate(last),
            5 => name.resize(LONGEST_NAME + 1, b'a'),
            6 => name.resize(LONGEST_NAME, b'a'),
            _ => {}
        }
        name
    }

    /// A number of a field, mostly of one that some holder knows.
    fn any_number(&mut self) -> u64 {
        1 + self.random.below(6) as u64
    }

    /// A field that is broken wherever it stands.
    fn broken_field(&mut self) -> Vec<u8> {
        let number = self.any_number();
        let tag = |wire_type| vec![(number << 3 | wire_type) as u8];
        let which = *self.random.pick(&[wire::NUMBER, wire::LENGTH]);
        match self.random.below(4) {
            0 => {
                let wire_type = self.random.below(8) as u64;
                [self.number(wire_type), self.some_bytes()].concat()
            }
            1 => {
                let wire_type = *self.random.pick(&[3, 4, 6, 7]);
                [self.number(number << 3 | wire_type), self.some_bytes()].concat()
            }
            2 if self.random.chance(1, 3) => [self.far_number(), vec![0]].concat(),
            2 => [tag(which), self.far_number()].concat(),
            _ if self.random.chance(1, 3) => [self.wide_number(), vec![0]].concat(),
            _ => [tag(which), self.wide_number()].concat(),
        }
    }

    /// Eleven bytes or more.
    fn far_number(&mut self) -> Vec<u8> {
        let mut bytes: Vec<u8> = self.random.bytes(10).iter().map(|byte| byte | 0x80).collect();
        if self.random.chance(1, 2) {
            bytes[1..].fill(0x80);
        }
        bytes.push(self.random.below(3) as u8);
        bytes
    }

    /// Ten bytes with more than 64 bits.
    fn wide_number(&mut self) -> Vec<u8> {
        let mut bytes = self.far_number();
        bytes.truncate(10);
        bytes[9] = *self.random.pick(&[0x02, 0x03, 0x7f, 0x40]);
        bytes
    }

    /// A field that is broken where its holder ends.
    fn cut_field(&mut self) -> Vec<u8> {
        let number = self.any_number();
        let tag = |wire_type| vec![(number << 3 | wire_type) as u8];
        let count = self.random.below(10);
        let unended: Vec<u8> = self.random.bytes(count).iter().map(|byte| byte | 0x80).collect();
        match self.random.below(6) {
            0 => [vec![0x80 | (number << 3) as u8], unended[..count.saturating_sub(1)].to_vec()]
                .concat(),
            1 => [tag(wire::NUMBER), unended].concat(),
            2 => [tag(wire::LENGTH), unended].concat(),
            3 => [tag(wire::EIGHT_BYTES), self.random.bytes(count.min(7))].concat(),
            4 => [tag(wire::FOUR_BYTES), self.random.bytes(count.min(3))].concat(),
            _ => {
                let rest = self.some_bytes();
                let any = self.random.of_any_width();
                let more = *self.random.pick(&[1, 1, 2, 3, 10, 256, 1 << 32, any.max(1)]);
                let length = more.saturating_add(rest.len() as u64);
                [tag(wire::LENGTH), self.number(length), rest].concat()
            }
        }
    }
}

#[cfg(test)]
mod tests {
    use super::*;
    use crate::generate::names;
    use crate::message::{check_names, entries};

    #[test]
    fn good_messages_are_read_and_broken_ones_refused() {
        let mut random = Random::new(1);
        for _ in 0..20_000 {
            let table = names::good(&mut random).table;
            let names = check_names(&table).expect("good names");
            let bytes = good(&mut random, &names).bytes;
            assert!(entries(&names, &bytes).is_ok(), "{bytes:02x?}");
            let input = damaged(&mut random, &names);
            let refused = entries(&names, &input.bytes).is_err();
            assert!(refused || input.kind != "broken fields", "{:02x?}", input.bytes);
        }
    }
}
