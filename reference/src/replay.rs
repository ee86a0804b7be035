//! A trace beside what a trace program printed for it, in columns.

use crate::text::{print_line, Line, Trace};
use std::fmt::Write;

/// Longer event lines do not widen the column.
const WIDEST: usize = 88;

/// What an answer's number means, for people.
pub fn meaning(number: &str) -> &'static str {
    match number {
        "0" => "done",
        "1" => "clock back",
        "2" => "out of range",
        "3" => "not connected",
        "4" => "already connected",
        "5" => "no slot",
        "6" => "unknown protocol",
        "7" => "bad permutation",
        "9" => "broken parameters",
        "10" => "bad bytes",
        "11" => "ignored",
        _ => "?",
    }
}

/// One answer's line, and the lines of its actions or its score.
pub struct Printed {
    pub answer: String,
    pub lines: Vec<String>,
}

/// Every event's line with its answer and, below each other, its actions.
pub fn columns(trace: &Trace, output: &str) -> String {
    let mut printed = printed(output).into_iter().peekable();
    let print = |line| print_line(trace.edition, line);
    let events: Vec<String> = trace.lines.iter().map(print).collect();
    let lengths = events.iter().map(String::len).filter(|&length| length <= WIDEST);
    let width = lengths.max().unwrap_or(0);
    let mut out = String::new();
    let refused = trace.params.as_ref().is_none_or(|params| params.check().is_err());
    if let Some(Printed { answer, .. }) = printed.next_if(|_| refused) {
        let number = answer.split(' ').next().unwrap_or_default();
        let _ = writeln!(out, "{:width$}  {answer} {}", "(parameters)", meaning(number));
    }
    for (event, line) in events.iter().zip(&trace.lines) {
        let (answer, details) = match printed.next() {
            Some(printed) => (describe(&printed.answer, line), printed.lines),
            None => ("-".to_string(), Vec::new()),
        };
        let details: Vec<String> = details.iter().flat_map(|line| in_words(line)).collect();
        let first = details.first().map_or("", String::as_str);
        let row = format!("{event:width$}  {answer:20}  {first}");
        let _ = writeln!(out, "{}", row.trim_end());
        for detail in details.iter().skip(1) {
            let _ = writeln!(out, "{:width$}  {:20}  {detail}", "", "");
        }
    }
    for Printed { answer, .. } in printed {
        let _ = writeln!(out, "{:width$}  {answer}", "(no event)");
    }
    out
}

fn describe(answer: &str, line: &Line) -> String {
    let number = answer.split(' ').next().unwrap_or_default();
    match line {
        Line::Bytes(_) => format!("{number} stops"),
        Line::Event(_) => format!("{number} {}", meaning(number)),
    }
}

/// The printed lines, grouped by answer.
pub fn printed(output: &str) -> Vec<Printed> {
    let mut groups: Vec<Printed> = Vec::new();
    for line in output.lines() {
        let is_answer = line.starts_with(|c: char| c.is_ascii_digit());
        match groups.last_mut() {
            Some(last) if !is_answer => last.lines.push(line.to_string()),
            _ => groups.push(Printed { answer: line.to_string(), lines: Vec::new() }),
        }
    }
    groups
}

/// The numbers of a score's line: its parts, and the score.
pub fn score_numbers(line: &str) -> Option<[i64; 6]> {
    let words = line.strip_prefix("S ")?.split(' ');
    let numbers: Option<Vec<i64>> = words.map(|word| word.parse().ok()).collect();
    numbers?.try_into().ok()
}

/// A printed line for people: of a score the points, which parts hold it below zero,
/// and then all parts.
pub fn in_words(line: &str) -> Vec<String> {
    let Some(numbers) = score_numbers(line) else { return vec![line.to_string()] };
    let [total, capped, p5, p6, p7, score] = numbers;
    let parts =
        [("topics", capped), ("application", p5), ("address group", p6), ("behaviour penalty", p7)];
    let told = |(name, part): (&str, i64)| match name {
        "topics" => format!("{name} {} (before the cap {})", points(part), points(total)),
        _ => format!("{name} {}", points(part)),
    };
    let verdict =
        if score < 0 { format!(", below zero by its {}", losses(&parts)) } else { String::new() };
    vec![format!("score {} points{verdict}", points(score)), parts.map(told).join(", ")]
}

/// The parts that cost points, the dearest first.
fn losses(parts: &[(&str, i64)]) -> String {
    let mut losses: Vec<(&str, i64)> =
        parts.iter().copied().filter(|(_, part)| *part < 0).collect();
    losses.sort_by_key(|&(_, part)| part);
    losses.iter().map(|(name, _)| *name).collect::<Vec<_>>().join(", then its ")
}

/// A number of 10^-9 points in points, with the digits that it needs and at least one.
pub fn points(number: i64) -> String {
    let sign = if number < 0 { "-" } else { "" };
    let size = number.unsigned_abs();
    let fraction = format!("{:09}", size % 1_000_000_000);
    let digits = fraction.trim_end_matches('0');
    let digits = if digits.is_empty() { "0" } else { digits };
    format!("{sign}{}.{digits}", size / 1_000_000_000)
}

#[cfg(test)]
mod tests {
    use super::*;

    #[test]
    fn points_in_words() {
        assert_eq!(points(0), "0.0");
        assert_eq!(points(-10_000_000_000), "-10.0");
        assert_eq!(points(3_985_000_000), "3.985");
        assert_eq!(points(-1), "-0.000000001");
        assert_eq!(points(-2_400_000_000_000_000_000), "-2400000000.0");
    }
}
