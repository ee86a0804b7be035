//! Counts each call with each answer. Which answers a comparison can reach at
//! all, its caller says.

use crate::event::CALL_NAMES;
use std::collections::BTreeMap;
use std::fmt::Write;

/// Calls by name, and the answers permitted to each. A call's kind is its place, from 1.
pub struct Rows {
    pub names: &'static [&'static str],
    pub permitted: &'static [&'static [u32]],
}

/// The answers that 01 permits to each call, in the order of the calls' kinds.
pub static CALLS: Rows = Rows {
    names: &CALL_NAMES,
    permitted: &[
        &[0, 1, 2, 4, 5, 6, 8, 12],
        &[0, 1, 2, 3, 8, 12],
        &[0, 1, 2, 8, 11, 12],
        &[0, 1, 2, 8, 11, 12],
        &[0, 1, 2, 3, 8, 11, 12],
        &[0, 1, 2, 3, 8, 11, 12],
        &[0, 1, 2, 3, 8, 11, 12],
        &[0, 1, 2, 3, 8, 11, 12],
        &[0, 1, 2, 3, 8, 11, 12],
        &[0, 1, 2, 3, 8, 12],
        &[0, 1, 2, 7, 8, 11, 12],
        &[0, 1, 2, 8, 12],
        &[0, 1, 2, 3, 8, 12],
    ],
};

/// By the call's kind and the answer's number.
pub struct Answers {
    rows: &'static Rows,
    counts: BTreeMap<(u64, u32), u64>,
}

impl Default for Answers {
    fn default() -> Answers {
        Answers::of(&CALLS)
    }
}

impl Answers {
    pub fn of(rows: &'static Rows) -> Answers {
        Answers { rows, counts: BTreeMap::new() }
    }

    pub fn count(&mut self, kind: u64, number: u32) {
        *self.counts.entry((kind, number)).or_default() += 1;
    }

    /// The answers permitted and within reach that a call never got.
    pub fn missing(&self, reachable: &[u32]) -> Vec<String> {
        let mut missing = Vec::new();
        for (kind, answers) in (1..).zip(self.rows.permitted) {
            let wanted = answers.iter().filter(|answer| reachable.contains(answer));
            let absent = wanted.filter(|&&answer| !self.counts.contains_key(&(kind, answer)));
            missing.extend(absent.map(|&answer| self.named(kind, answer)));
        }
        missing
    }

    /// Answers that are not permitted to a call, or that are out of reach.
    pub fn not_permitted(&self, reachable: &[u32]) -> Vec<String> {
        let permitted = |kind: u64, answer| {
            self.rows.permitted[kind as usize - 1].contains(&answer) && reachable.contains(&answer)
        };
        let strange = self.counts.keys().filter(|(kind, answer)| !permitted(*kind, *answer));
        strange.map(|&(kind, answer)| self.named(kind, answer)).collect()
    }

    /// The counts as text, a line for each call.
    pub fn table(&self, reachable: &[u32]) -> String {
        let mut out = format!("{:12}", "answer");
        for answer in reachable {
            let _ = write!(out, "{answer:>9}");
        }
        out.push('\n');
        for (kind, name) in (1..).zip(self.rows.names) {
            let _ = write!(out, "{name:12}");
            for &answer in reachable {
                let count = self.counts.get(&(kind, answer));
                let shown = count.map_or("-".to_string(), u64::to_string);
                let _ = write!(out, "{shown:>9}");
            }
            out.push('\n');
        }
        out
    }

    fn named(&self, kind: u64, answer: u32) -> String {
        format!("{} {answer}", self.rows.names[kind as usize - 1])
    }
}
