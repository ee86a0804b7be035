//! A difference told to people: a list made as short as it still differs.

use super::library::Gossiping;
use super::request::Asked;
use super::runs::{replay, Begin, Failure};
use reference::shrink::shrink;
use std::fmt::Write;
use std::time::{Duration, Instant};

/// Shrinking a long list stops after this time.
const PATIENCE: Duration = Duration::from_secs(30);

/// Of a list that cannot be made shorter so many calls are told.
const SHOWN: usize = 30;

pub fn of_list<L: Gossiping>(library: &L, failure: &Failure) -> String {
    let Failure { begin, asked, difference, damage } = failure;
    let mut out = format!("a difference at call {} of its list:\n", asked.len());
    if let Some(damage) = damage {
        let _ = writeln!(out, "  on a damaged router, {damage}");
    }
    if let Some(last) = asked.last() {
        let _ = writeln!(out, "  {}", last.text());
    }
    write_lines(&difference.0, &mut out);
    write_begin(begin, &mut out);
    if damage.is_none() {
        write_shortest(library, begin, asked, &mut out);
    }
    out
}

/// Fewer calls first, then lists of the usual length.
fn write_shortest<L: Gossiping>(library: &L, begin: &Begin, asked: &[Asked], out: &mut String) {
    let began = Instant::now();
    let fails =
        |asked: &[Asked]| began.elapsed() < PATIENCE && replay(library, begin, asked).is_some();
    let mut shortest = shrink(asked.to_vec(), fails);
    for place in 0..shortest.len() {
        let usual = shortest[place].clone().with_usual_lists();
        let old = std::mem::replace(&mut shortest[place], usual);
        if !fails(&shortest) {
            shortest[place] = old;
        }
    }
    let _ = writeln!(out, "the shortest list of calls found, {} of them:", shortest.len());
    let left_out = shortest.len().saturating_sub(SHOWN);
    for asked in &shortest[left_out..] {
        let _ = writeln!(out, "{}", asked.text());
    }
    match replay(library, begin, &shortest) {
        Some(difference) => write_lines(&difference.0, out),
        None => *out += "  made again, it shows no difference\n",
    }
}

fn write_begin(begin: &Begin, out: &mut String) {
    match begin {
        Begin::Origin(start) => {
            let _ = writeln!(out, "from {start:?}");
        }
        Begin::Made(_) => *out += "from the full array\n",
    }
}

pub fn write_lines(lines: &[String], out: &mut String) {
    for line in lines {
        let _ = writeln!(out, "  {line}");
    }
}
