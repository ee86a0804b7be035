//! Times and instructions of reading and writing messages: the plain reader and writer, and
//! the proved ones beside them.

use crate::count::{collected, print_missing};
use bench::message_load::{lines, Line, Work};
use bench::plain_message;
use reference::message::{
    read_with, write_with, IdTable, Lists, Names, NamesTable, ENTRY_LIST, LONGEST_WRITTEN,
};
use std::hint::black_box;
use std::time::Instant;

/// One round reads or writes a message so often, and the best round counts.
const RUNS: u32 = 10;

/// The functions that are timed.
type ReadOf = fn(&NamesTable, &IdTable, &[u8], &mut [u64]) -> u64;
type WriteOf = fn(&NamesTable, &IdTable, &Lists, &mut [u8]) -> u64;

#[derive(Clone, Copy)]
struct Timed {
    read: ReadOf,
    write: WriteOf,
}

const PLAIN: Timed =
    Timed { read: plain_message::read_message, write: plain_message::write_message };

#[cfg(linked)]
const PROVED: Option<Timed> = Some(Timed {
    read: |names, ids, message, entries| {
        hivepadlet::messages::read_message(names, lent_ids(ids), message, entries)
    },
    write: |names, ids, Lists { actions, topics, changes }, buffer| {
        let ids = lent_ids(ids);
        hivepadlet::messages::write_message(names, ids, actions, topics, changes, buffer)
    },
});
#[cfg(linked)]
fn lent_ids(table: &IdTable) -> hivepadlet::messages::Ids<'_> {
    let IdTable { ids, numbers, order } = table;
    hivepadlet::messages::Ids { ids, numbers, order }
}

#[cfg(not(linked))]
const PROVED: Option<Timed> = None;

/// Memory that is lent: a list of entries and a buffer.
struct Lent {
    entries: Vec<u64>,
    buffer: Vec<u8>,
}

impl Lent {
    fn new() -> Lent {
        Lent { entries: vec![7; ENTRY_LIST], buffer: vec![7; LONGEST_WRITTEN] }
    }
}

impl Timed {
    #[inline(always)]
    fn run(&self, line: &Line, lent: &mut Lent) -> u64 {
        match &line.work {
            Work::Read(message) => (self.read)(&line.names, &line.ids, message, &mut lent.entries),
            Work::Write(lists) => (self.write)(&line.names, &line.ids, lists, &mut lent.buffer),
        }
    }

    /// The answer, the entries and the bytes are the second program's.
    fn check(&self, line: &Line) {
        let (mut got, mut expected) = (Lent::new(), Lent::new());
        let (names, ids) = (Names::of_table(&line.names), line.ids.ids());
        let due = match &line.work {
            Work::Read(message) => read_with(&names, &ids, message, &mut expected.entries),
            Work::Write(lists) => write_with(&names, &ids, lists, &mut expected.buffer),
        };
        let due = 256 * due.expect("good messages and lists") as u64;
        assert_eq!(self.run(line, &mut got), due, "{}", line.name);
        assert!(got.entries == expected.entries && got.buffer == expected.buffer, "{}", line.name);
    }

    /// The nanoseconds of one run, the best of many rounds.
    fn time(&self, line: &Line, rounds: usize) -> f64 {
        let mut lent = Lent::new();
        let mut best = f64::INFINITY;
        for _ in 0..rounds {
            let start = Instant::now();
            for _ in 0..RUNS {
                black_box(self.run(black_box(line), &mut lent));
            }
            best = best.min(start.elapsed().as_nanos() as f64 / f64::from(RUNS));
        }
        best
    }
}

pub fn print_times(rounds: usize) {
    println!("messages, nanoseconds a message");
    println!("{:42}{:>7}{:>9}{:>9}{:>7}", "message", "bytes", "plain", "proved", "ratio");
    for line in lines() {
        PLAIN.check(&line);
        let plain = PLAIN.time(&line, rounds);
        let proved = PROVED.map_or(f64::NAN, |proved| {
            proved.check(&line);
            proved.time(&line, rounds)
        });
        let (name, length, ratio) = (line.name, line.length(), proved / plain);
        println!("{name:42}{length:>7}{plain:>9.0}{proved:>9.0}{ratio:>7.2}");
    }
}

/// A message that is counted, by plain Rust.
#[no_mangle]
#[inline(never)]
fn measured_message_plain(line: &Line, lent: &mut Lent) -> u64 {
    PLAIN.run(line, lent)
}

/// A message that is counted, by the proved library.
#[cfg(linked)]
#[no_mangle]
#[inline(never)]
fn measured_message_proved(line: &Line, lent: &mut Lent) -> u64 {
    PROVED.map_or(0, |proved| proved.run(line, lent))
}

/// What callgrind runs: a message by the function that is counted, once to warm up the
/// model's caches and its guesses of branches, and then so often that the first counts little.
pub fn only(place: usize, which: &str) {
    let line = &lines()[place];
    let mut lent = Lent::new();
    for _ in 0..RUNS {
        black_box(match which {
            "plain" => measured_message_plain(line, &mut lent),
            #[cfg(linked)]
            "proved" => measured_message_proved(line, &mut lent),
            _ => panic!("plain or proved"),
        });
    }
}

pub fn print_instructions() {
    println!("messages, plain and proved");
    println!(
        "{:42}{:>7}{:>25}{:>16}{:>12}{:>12}",
        "message", "bytes", "instructions, ratio", "branches", "wrong", "misses"
    );
    for (place, line) in lines().iter().enumerate() {
        PLAIN.check(line);
        let of = |which: &str| {
            let place = place.to_string();
            let words = ["--only-message", place.as_str(), which];
            collected(&words, &format!("measured_message_{which}"), RUNS as usize)
        };
        let (Some(plain), Some(proved)) = (of("plain"), of("proved")) else {
            return print_missing();
        };
        println!("{:42}{:>7}{}", line.name, line.length(), plain.beside(&proved));
    }
}
