//! What is drawn: a trace, and what its text says beside the events.

use reference::text::{self, Line, Trace};
use std::ops::RangeInclusive;

/// Words of the text that belong to an event: what stands in lines of its own
/// before it, and what follows it in its line.
#[derive(Clone, PartialEq, Eq, Debug, Default)]
pub struct Note {
    pub before: String,
    pub beside: String,
}

pub struct Subject {
    pub name: String,
    pub trace: Trace,
    /// The words at the text's head.
    pub head: String,
    /// By event.
    pub notes: Vec<Note>,
    /// By event: which of the text's lines it is of, from 0 on. A line with a run of
    /// ids is one.
    pub steps: Vec<usize>,
}

impl Subject {
    /// Reads a text. Bytes that are events are shown as such.
    pub fn read(name: &str, text: &str) -> Result<Subject, String> {
        let (written, places) = text::parse_placed(text)
            .map_err(|error| format!("line {}: {}", error.line, error.message))?;
        let trace = Trace::from_bytes(&written.to_bytes());
        let lines: Vec<&str> = text.lines().collect();
        let is_same = |place: usize| written.lines.get(place) == trace.lines.get(place);
        let same = (0..trace.lines.len()).take_while(|&place| is_same(place)).count();
        let mut notes: Vec<Note> = vec![Note::default(); trace.lines.len()];
        let mut steps = Vec::new();
        for place in 0..trace.lines.len() {
            let is_first = place == 0 || place >= same || places[place] != places[place - 1];
            steps.push(steps.last().map_or(0, |last: &usize| last + usize::from(is_first)));
            if is_first && place < same {
                notes[place] = note(&lines, places[place]);
            }
        }
        Ok(Subject { name: name.to_string(), trace, head: head(&lines), notes, steps })
    }

    /// The steps as runs of events.
    pub fn runs(&self) -> Vec<RangeInclusive<usize>> {
        let is_first = |&place: &usize| place == 0 || self.steps[place - 1] != self.steps[place];
        let firsts: Vec<usize> = (0..self.steps.len()).filter(is_first).collect();
        let ends = firsts.iter().skip(1).copied().chain([self.steps.len()]);
        firsts.iter().zip(ends).map(|(&first, end)| first..=end - 1).collect()
    }

    /// The event at a place, if it is one.
    pub fn line(&self, place: usize) -> &Line {
        &self.trace.lines[place]
    }
}

fn head(lines: &[&str]) -> String {
    let told: Vec<&str> = lines.iter().map_while(|line| line.strip_prefix('#')).collect();
    joined(&told)
}

/// The words about the line with a number.
fn note(lines: &[&str], number: usize) -> Note {
    let own = lines[number - 1];
    let beside = own.split_once(" #").map_or("", |halves| halves.1).trim().to_string();
    let comments: Vec<&str> =
        lines[..number - 1].iter().rev().map_while(|line| line.strip_prefix('#')).collect();
    let is_head = comments.len() == number - 1;
    let comments: Vec<&str> = comments.into_iter().rev().collect();
    Note { before: if is_head { String::new() } else { joined(&comments) }, beside }
}

/// Lines as one, an empty one between paragraphs kept.
fn joined(lines: &[&str]) -> String {
    let paragraphs = lines.split(|line| line.trim().is_empty());
    let told = paragraphs
        .map(|paragraph| paragraph.iter().map(|line| line.trim()).collect::<Vec<_>>().join(" "));
    told.filter(|paragraph| !paragraph.is_empty()).collect::<Vec<_>>().join("\n")
}
