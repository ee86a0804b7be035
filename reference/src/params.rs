//! The parameters, which 01 calls the sheet: 147 numbers, 19 general ones and
//! then 16 for each of the eight topics, in one of two editions (order 14 of 02).

use crate::event::SLOTS;
use crate::groups;

pub const TOPICS: usize = 8;
pub const GENERAL_COUNT: usize = 19;
pub const TOPIC_COUNT: usize = 16;
pub const COUNT: usize = GENERAL_COUNT + TOPICS * TOPIC_COUNT;

/// The buffer that writing asks for in edition 1: five bytes for each number.
pub const WRITE_BUFFER: usize = 735;

/// Answer 9 names joint rule r as 200 + r.
pub const FIRST_RULE: usize = 200;

/// The place of the joint rule on D_score, the one in which the editions differ.
pub const SCORE_RULE: usize = 4;

/// Order 14 of 02: "Edition 2 of the sheet has the bytes 00 02 in front and, in
/// place of the joint rule on D_score and under its number, asks only D_score ≤ D;
/// the bare 147 numbers are edition 1, with 01's rules."
#[derive(Clone, Copy, PartialEq, Eq, PartialOrd, Ord, Debug, Default)]
pub enum Edition {
    #[default]
    One = 1,
    Two = 2,
}

impl Edition {
    pub const ALL: [Edition; 2] = [Edition::One, Edition::Two];

    /// The bytes before the 147 numbers.
    pub fn front(self) -> &'static [u8] {
        match self {
            Edition::One => &[],
            Edition::Two => &[0x00, 0x02],
        }
    }

    /// The edition that bytes are in. Edition 1 cannot be good with these two in
    /// front, since D_lo would be 0.
    pub fn of(bytes: &[u8]) -> Edition {
        if bytes.starts_with(Edition::Two.front()) {
            Edition::Two
        } else {
            Edition::One
        }
    }

    pub fn number(self) -> u32 {
        self as u32
    }

    /// Order 14 of 02: "It needs 737 bytes to write".
    pub fn write_buffer(self) -> usize {
        WRITE_BUFFER + self.front().len()
    }
}

/// One number's name, its two limits, and its ordinary value.
pub struct Field {
    pub name: &'static str,
    pub low: i64,
    pub high: i64,
    pub ordinary: i64,
}

const fn field(name: &'static str, low: i64, high: i64, ordinary: i64) -> Field {
    Field { name, low, high, ordinary }
}

const POINTS: i64 = 1_000_000_000;
const COUNTER: i64 = 1_000_000;
const HOUR_MS: i64 = 3_600_000;

/// Order 9 of 02: "P6's threshold may go to 256", the count of the slots.
pub const GENERAL: [Field; GENERAL_COUNT] = [
    field("D_lo", 1, 48, 4),
    field("D", 1, 48, 6),
    field("D_hi", 1, 48, 12),
    field("D_out", 0, 24, 2),
    field("D_score", 0, 48, 4),
    field("prune_backoff", 1, 3600, 60),
    field("unsubscribe_backoff", 1, 3600, 10),
    field("retain", 0, 86_400, 3600),
    field("opportunistic_threshold", 0, COUNTER, 1000),
    field("graylist_threshold", -POINTS, -1, -40_000),
    field("gossip_threshold", -POINTS, -1, -10_000),
    field("publish_threshold", -POINTS, -1, -20_000),
    field("topic_cap", 0, POINTS, 50_000),
    field("w5", 1, 100, 1),
    field("w6", -100, -1, -5),
    field("P6_threshold", 1, SLOTS as i64, 16),
    field("w7", -100, -1, -10),
    field("P7_decay", 1, 999, 970),
    field("decay_to_zero", 0, 1000, 10),
];

pub const TOPIC: [Field; TOPIC_COUNT] = [
    field("weight", 0, 1000, 500),
    field("w1", 0, 100, 1),
    field("quantum", 1, HOUR_MS, 60_000),
    field("P1_cap", 0, 1000, 10),
    field("w2", 0, 100, 1),
    field("P2_decay", 1, 999, 990),
    field("P2_cap", 0, COUNTER, 20_000),
    field("w3", -100, 0, -1),
    field("P3_decay", 1, 999, 990),
    field("P3_cap", 1, COUNTER, 4000),
    field("P3_threshold", 1, COUNTER, 1000),
    field("activation", 0, HOUR_MS, 120_000),
    field("w3b", -100, 0, -1),
    field("P3b_decay", 1, 999, 970),
    field("w4", -100, 0, -10),
    field("P4_decay", 1, 999, 998),
];

/// The places of the general numbers.
pub mod general {
    pub const D_LO: usize = 0;
    pub const D: usize = 1;
    pub const D_HI: usize = 2;
    pub const D_OUT: usize = 3;
    pub const D_SCORE: usize = 4;
    pub const PRUNE_BACKOFF: usize = 5;
    pub const UNSUBSCRIBE_BACKOFF: usize = 6;
    pub const RETAIN: usize = 7;
    pub const OPPORTUNISTIC_THRESHOLD: usize = 8;
    pub const GRAYLIST_THRESHOLD: usize = 9;
    pub const GOSSIP_THRESHOLD: usize = 10;
    pub const PUBLISH_THRESHOLD: usize = 11;
    pub const TOPIC_CAP: usize = 12;
    pub const W5: usize = 13;
    pub const W6: usize = 14;
    pub const P6_THRESHOLD: usize = 15;
    pub const W7: usize = 16;
    pub const P7_DECAY: usize = 17;
    pub const DECAY_TO_ZERO: usize = 18;
}

/// The places of a topic's numbers, counted from its first.
pub mod topic {
    pub const WEIGHT: usize = 0;
    pub const W1: usize = 1;
    pub const QUANTUM: usize = 2;
    pub const P1_CAP: usize = 3;
    pub const W2: usize = 4;
    pub const P2_DECAY: usize = 5;
    pub const P2_CAP: usize = 6;
    pub const W3: usize = 7;
    pub const P3_DECAY: usize = 8;
    pub const P3_CAP: usize = 9;
    pub const P3_THRESHOLD: usize = 10;
    pub const ACTIVATION: usize = 11;
    pub const W3B: usize = 12;
    pub const P3B_DECAY: usize = 13;
    pub const W4: usize = 14;
    pub const P4_DECAY: usize = 15;
}

/// A refusal of the calls about parameters: its number and its place.
#[derive(Clone, Copy, PartialEq, Eq, Debug)]
pub struct Refusal {
    pub number: u32,
    pub place: usize,
}

fn malformed(place: usize) -> Refusal {
    Refusal { number: 10, place }
}

/// 147 numbers; nothing promises that they keep the limits or the rules.
#[derive(Clone, PartialEq, Eq, Debug)]
pub struct Params {
    pub edition: Edition,
    pub numbers: [i64; COUNT],
}

impl Params {
    /// 01: "The ordinary sheet".
    pub fn ordinary() -> Params {
        let numbers = std::array::from_fn(|index| field_at(index).ordinary);
        Params { edition: Edition::One, numbers }
    }

    /// The same numbers in an edition.
    pub fn in_edition(self, edition: Edition) -> Params {
        Params { edition, ..self }
    }

    pub fn general(&self, place: usize) -> i64 {
        self.numbers[place]
    }

    pub fn topic(&self, topic: usize, place: usize) -> i64 {
        self.numbers[topic_index(topic, place)]
    }

    /// 01, answer 9: the first index out of its limits; if none, 200 + the
    /// first joint rule broken.
    pub fn first_broken(&self) -> Option<usize> {
        self.first_broken_but(None)
    }

    /// The same, but a waived rule counts as kept.
    pub fn first_broken_but(&self, waived: Option<usize>) -> Option<usize> {
        let out_of_limits = (0..COUNT).find(|&index| !self.within_limits(index));
        out_of_limits.or_else(|| {
            let kept = self.joint_rules();
            let broken = |&rule: &usize| !kept[rule] && Some(rule) != waived;
            (0..kept.len()).find(broken).map(|rule| FIRST_RULE + rule)
        })
    }

    fn within_limits(&self, index: usize) -> bool {
        let Field { low, high, .. } = *field_at(index);
        (low..=high).contains(&self.numbers[index])
    }

    /// 01: "Joint rules, in order": which are kept. Asked only of numbers
    /// within their limits.
    fn joint_rules(&self) -> [bool; 8] {
        use general::*;
        let g = |place| self.general(place);
        let score_rule = match self.edition {
            Edition::One => g(D_SCORE) + g(D_OUT) <= g(D),
            Edition::Two => g(D_SCORE) <= g(D),
        };
        let p3_caps =
            (0..TOPICS).all(|k| self.topic(k, topic::P3_CAP) >= self.topic(k, topic::P3_THRESHOLD));
        [
            g(D_LO) <= g(D),
            g(D) <= g(D_HI),
            g(D_OUT) < g(D_LO),
            2 * g(D_OUT) <= g(D),
            score_rule,
            g(PUBLISH_THRESHOLD) <= g(GOSSIP_THRESHOLD),
            g(GRAYLIST_THRESHOLD) < g(PUBLISH_THRESHOLD),
            p3_caps,
        ]
    }

    /// Answer 9, if a number or a rule is broken.
    pub fn check(&self) -> Result<(), Refusal> {
        match self.first_broken() {
            Some(place) => Err(Refusal { number: 9, place }),
            None => Ok(()),
        }
    }

    /// The edition's front and the numbers as bytes, good or not.
    pub fn to_bytes(&self) -> Vec<u8> {
        let mut out = self.edition.front().to_vec();
        for &number in &self.numbers {
            groups::write_signed(number, &mut out);
        }
        out
    }
}

/// The table's row for a number.
pub fn field_at(index: usize) -> &'static Field {
    match index.checked_sub(GENERAL_COUNT) {
        None => &GENERAL[index],
        Some(rest) => &TOPIC[rest % TOPIC_COUNT],
    }
}

/// Where a topic's number stands among all 147.
pub fn topic_index(topic: usize, place: usize) -> usize {
    GENERAL_COUNT + topic * TOPIC_COUNT + place
}

/// Reads parameters that are the whole of the bytes; 10 comes before 9.
/// Gives them with the length read.
pub fn read(bytes: &[u8]) -> Result<(Params, usize), Refusal> {
    let (params, length) = read_numbers(bytes)?;
    if length < bytes.len() {
        return Err(malformed(length));
    }
    params.check()?;
    Ok((params, length))
}

/// Reads parameters at the start of the bytes; more may follow.
pub fn read_prefix(bytes: &[u8]) -> Result<(Params, usize), Refusal> {
    let (params, length) = read_numbers(bytes)?;
    params.check()?;
    Ok((params, length))
}

/// Reads 147 numbers of either edition, good or not, at the start of the bytes. A
/// bad number, and the end of the bytes where a number should start, are both
/// answered with the place where that number starts, the front counted.
pub fn read_numbers(bytes: &[u8]) -> Result<(Params, usize), Refusal> {
    let edition = Edition::of(bytes);
    let mut numbers = [0; COUNT];
    let mut place = edition.front().len();
    for number in &mut numbers {
        let (value, length) = groups::read_signed(&bytes[place..]).map_err(|_| malformed(place))?;
        *number = value;
        place += length;
    }
    Ok((Params { edition, numbers }, place))
}

/// Writes parameters into a lent buffer; 8 comes before 9. Bytes past the
/// length answered are left as they were.
pub fn write(params: &Params, buffer: &mut [u8]) -> Result<usize, Refusal> {
    if buffer.len() < params.edition.write_buffer() {
        return Err(Refusal { number: 8, place: 0 });
    }
    params.check()?;
    let bytes = params.to_bytes();
    buffer[..bytes.len()].copy_from_slice(&bytes);
    Ok(bytes.len())
}

/// What `show_params_ref` prints: `N PLACE` for a refusal; otherwise
/// `0 LENGTH`, an edition's front counted, then the numbers, one to a line.
pub fn show(bytes: &[u8]) -> String {
    match read(bytes) {
        Err(Refusal { number, place }) => format!("{number} {place}\n"),
        Ok((params, length)) => {
            let numbers = params.numbers.map(|number| format!("{number}\n")).concat();
            format!("0 {length}\n{numbers}")
        }
    }
}
