//! What the comparison of messages reached. A run that misses something shows too little, and fails.

use super::runs::{BUFFERS, LONG_LISTS, SHORT_LISTS};
use reference::generate::{names, notices};
use reference::message::census;
use reference::message::{
    Broken, Entry, Ids, Kind, Lists, Names, Part, Reason, Refusal, Wrong, LEVELS, LONGEST_MESSAGE,
    LONGEST_WRITTEN,
};
use reference::router::IDONTWANT;
use std::collections::BTreeMap;
use std::fmt::Write;

#[derive(Default)]
pub struct Reached {
    counts: BTreeMap<String, u64>,
}

/// The parts of a comparison.
pub const NAMES: &str = "names";
pub const READ: &str = "read";
pub const SHORT: &str = "short";
pub const WRITE: &str = "write";

const FULL: &str = "read: 8192 entries";
const BROKEN_AND_TOO_LONG: &str = "read: too long, and broken in front";
const ALL_BUT_ONE: &str = "write: the longest message in a buffer one byte short";

fn answer(part: &str, number: u32) -> String {
    format!("{part}: answer {number}")
}

fn table(kind: &str) -> String {
    format!("names: {kind}")
}

fn ids(kind: &str) -> String {
    format!("ids: {kind}")
}

fn broken(level: usize, reason: Reason) -> String {
    format!("read: 10 at level {level}, {reason:?}")
}

fn list(room: usize) -> String {
    format!("read: list of {room} numbers")
}

fn length(length: usize, number: u32) -> String {
    format!("read: message of {length} bytes, answer {number}")
}

fn entry(kind: Kind, topic: bool, value: u64) -> String {
    let topic = if topic { "topic" } else { "11" };
    let value = match value {
        0 => "0",
        1..=3600 => "1..3600",
        _ => "above 3600",
    };
    format!("read: {kind:?}, {topic}, value {value}")
}

fn wrong(wrong: Wrong) -> String {
    format!("write: 2 for {wrong:?} alone")
}

fn buffer(what: &str) -> String {
    format!("write: buffer {what}")
}

fn reasons() -> Vec<Reason> {
    let of_parts = [Part::Tag, Part::Value, Part::Length]
        .map(|part| [Reason::Cut(part), Reason::EleventhByte(part), Reason::TooWide(part)]);
    let mut reasons = of_parts.concat();
    reasons.push(Reason::FieldZero);
    reasons.extend([3, 4, 6, 7].map(Reason::WireType));
    reasons.extend([1, 2, 5].map(Reason::PastEnd));
    reasons
}

/// All that a part should reach.
fn wanted(part: &str) -> Vec<String> {
    match part {
        NAMES => {
            let kinds = names::GOOD.into_iter().chain(names::BAD).map(table);
            kinds.chain([0, 2].map(|number| answer(NAMES, number))).collect()
        }
        READ => wanted_of_reading(),
        SHORT => [0, 10].map(|number| answer(READ, number)).to_vec(),
        _ => {
            let mut wanted = vec![ALL_BUT_ONE.to_string()];
            wanted.extend([0, 2, 13].map(|number| answer(WRITE, number)));
            wanted.extend(Wrong::ALL.into_iter().chain(Wrong::OF_NOTICES).map(wrong));
            wanted.extend(BUFFERS.map(buffer));
            wanted.extend(counted_lists());
            wanted
        }
    }
}

fn wanted_of_reading() -> Vec<String> {
    let mut wanted = vec![FULL.to_string(), BROKEN_AND_TOO_LONG.to_string()];
    wanted.extend([0, 2, 8, 10].map(|number| answer(READ, number)));
    wanted.extend(notices::BAD.into_iter().chain(notices::BAD_LENT).map(ids));
    wanted.extend(SHORT_LISTS.iter().chain(&LONG_LISTS).map(|&room| list(room)));
    for level in 0..LEVELS {
        wanted.extend(reasons().into_iter().map(|reason| broken(level, reason)));
    }
    for short in [LONGEST_MESSAGE - 1, LONGEST_MESSAGE] {
        wanted.extend([0, 10].map(|number| length(short, number)));
    }
    wanted.push(length(LONGEST_MESSAGE + 1, 10));
    for topic in [true, false] {
        wanted.extend([0, 1].map(|value| entry(Kind::Subscription, topic, value)));
        wanted.push(entry(Kind::Graft, topic, 0));
        wanted.extend([0, 1, 3601].map(|value| entry(Kind::Prune, topic, value)));
        wanted.push(entry(Kind::Notice, topic, 0));
    }
    wanted.extend([1, 3601].map(|value| entry(Kind::Notice, true, value)));
    wanted.extend(census::wanted());
    wanted
}

/// The sizes of lists that are counted where they are written.
fn counted_lists() -> [String; 9] {
    let actions = |count: usize| format!("write: {count} actions");
    let changes = |count: usize| format!("write: {count} joins and leaves");
    let notices = |count: usize| format!("write: {count} notices");
    let of = |size: &dyn Fn(usize) -> String, most| [size(0), size(1), size(most)];
    let all = [of(&actions, 64), of(&changes, 8), of(&notices, 64)].concat();
    all.try_into().expect("three of each")
}

impl Reached {
    pub fn count(&mut self, what: impl Into<String>) {
        *self.counts.entry(what.into()).or_default() += 1;
    }

    pub fn of(&self, what: &str) -> u64 {
        self.counts.get(what).copied().unwrap_or_default()
    }

    pub fn count_names(&mut self, kind: &str, given: &Result<Names, Refusal>) {
        self.count(table(kind));
        self.count(answer(NAMES, given.as_ref().map_or_else(Refusal::number, |_| 0)));
    }

    pub fn count_ids(&mut self, kind: &str) {
        self.count(ids(kind));
    }

    pub fn count_read(
        &mut self,
        (names, ids): (&Names, &Ids),
        message: &[u8],
        room: usize,
        given: &Result<usize, Refusal>,
    ) {
        let number = given.as_ref().map_or_else(Refusal::number, |_| 0);
        self.count(answer(READ, number));
        if matches!(number, 0 | 8) {
            self.count(list(room));
        }
        if number != 8 && message.len().abs_diff(LONGEST_MESSAGE) <= 1 {
            self.count(length(message.len(), number));
        }
        match given {
            Ok(_) => {
                for (what, count) in census::census(names, ids, message) {
                    *self.counts.entry(what).or_default() += count;
                }
            }
            Err(Refusal::Malformed(Broken { level, reason, .. })) => {
                self.count(broken(*level, *reason));
            }
            Err(Refusal::TooLong) if message[0] == 0 => self.count(BROKEN_AND_TOO_LONG),
            Err(_) => {}
        }
        if *given == Ok(8192) {
            self.count(FULL);
        }
    }

    pub fn count_entries(&mut self, entries: &[Entry]) {
        for found in entries {
            self.count(entry(found.kind, found.topic.is_some(), found.value));
        }
    }

    pub fn count_write(
        &mut self,
        (names, ids): (&Names, &Ids),
        lists: &Lists,
        (room, told): (usize, &str),
        given: &Result<Vec<u8>, Refusal>,
    ) {
        let number = given.as_ref().map_or_else(Refusal::number, |_| 0);
        self.count(answer(WRITE, number));
        let wrongs: Vec<Wrong> = lists.wrongs_with(names, ids).into_iter().collect();
        match (number, &wrongs[..]) {
            (2, [alone]) => self.count(wrong(*alone)),
            (0 | 13, _) => self.count(buffer(told)),
            _ => {}
        }
        if number == 13 && room + 1 == LONGEST_WRITTEN {
            self.count(ALL_BUT_ONE);
        }
        if number == 0 {
            let notices = lists.actions.iter().step_by(3).filter(|&&kind| kind == IDONTWANT);
            let sizes = [lists.topics.len(), lists.changes.len() / 2, notices.count()];
            let names = ["actions", "joins and leaves", "notices"];
            for (size, name) in sizes.into_iter().zip(names) {
                self.count(format!("write: {size} {name}"));
            }
        }
    }

    /// What should have been reached and was not.
    pub fn missing(&self, parts: &[&str]) -> Vec<String> {
        let wanted = parts.iter().flat_map(|part| wanted(part));
        wanted.filter(|what| self.of(what) == 0).collect()
    }

    /// The counts as text; of the sizes of lists those that are wanted.
    pub fn table(&self) -> String {
        let sizes = counted_lists();
        let names = [" actions", " joins and leaves", " notices"];
        let is_size = |what: &str| names.into_iter().any(|name| what.ends_with(name));
        let mut out = String::new();
        for (what, count) in &self.counts {
            if !is_size(what) || sizes.contains(what) {
                let _ = writeln!(out, "{what:62}{count:>9}");
            }
        }
        out
    }
}
