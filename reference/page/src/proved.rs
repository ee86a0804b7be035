//! The first program, the proved one, asked about the same trace: what the page
//! shows is shown only if it prints the same.

use crate::history::History;
use crate::outside;
use crate::subject::Subject;
use reference::child;
use reference::event::{Call, Event};
use reference::params::Params;
use reference::text::Line;
use reference::trace::{self, TraceEdition};

/// Compares all that the first program prints of the trace, the meshes that this
/// amounts to, and then every score that the page draws. `tick` is told what is being done.
pub fn compare(
    program: &str,
    subject: &Subject,
    history: &History,
    tick: &mut dyn FnMut(&str),
) -> Result<(), String> {
    child::check(program)?;
    tick("the proved program replays the trace");
    let printed = run(program, &subject.trace.to_bytes())?;
    same(&printed, &history.printed())?;
    outside::compare(subject, history)?;
    let Some(params) = subject.trace.params.as_ref().filter(|_| history.refused.is_none()) else {
        return Ok(());
    };
    let asked = Asked::of(subject, history, params);
    tick(&format!("the proved program is asked for {} scores", asked.scores));
    same(&run(program, &asked.bytes)?, &asked.wanted)
}

fn run(program: &str, bytes: &[u8]) -> Result<String, String> {
    let printed = child::run(program, bytes)?;
    String::from_utf8(printed).map_err(|error| error.to_string())
}

fn same(first: &str, second: &str) -> Result<(), String> {
    let mut pairs = first.lines().zip(second.lines()).enumerate();
    let differing = pairs.find(|(_, (first, second))| first != second);
    match differing {
        Some((place, (first, second))) => Err(format!(
            "no page: the programs differ in line {}: `{first}` and `{second}`",
            place + 1
        )),
        None if first.lines().count() != second.lines().count() => {
            Err("no page: the programs differ in the number of lines".to_string())
        }
        None => Ok(()),
    }
}

/// The trace with scores asked for in between, which changes nothing else: after each
/// event those that changed, after a heartbeat, a decay and the last event all.
struct Asked {
    bytes: Vec<u8>,
    wanted: String,
    scores: usize,
}

impl Asked {
    fn of(subject: &Subject, history: &History, params: &Params) -> Asked {
        let edition = subject.trace.edition;
        let mut bytes = edition.front().to_vec();
        bytes.extend(params.to_bytes());
        let mut asked = Asked { bytes, wanted: String::new(), scores: 0 };
        let last = subject.trace.lines.len().saturating_sub(1);
        for (place, line) in subject.trace.lines.iter().enumerate() {
            asked.bytes.extend(line.to_bytes(edition));
            asked
                .wanted
                .extend(history.happened[place].printed.iter().map(|line| format!("{line}\n")));
            let Line::Event(event) = line else { continue };
            let all = place == last || matches!(event.call, Call::Heartbeat { .. } | Call::Decay);
            let ids = if all { &history.connected[place] } else { &history.rescored[place] };
            asked.ask(edition, history, place, ids);
        }
        asked
    }

    fn ask(&mut self, edition: TraceEdition, history: &History, place: usize, ids: &[u32]) {
        let now = history.happened[place].clock;
        for id in ids {
            let event = Event { now, call: Call::Score { id: u64::from(*id) } };
            self.bytes.extend(trace::write_event(edition, &event));
            let why = history.peers[id].scores.at(place).copied().flatten();
            let numbers = why.unwrap_or_default().numbers().map(|number| number.to_string());
            self.wanted.push_str(&format!("0 0\nS {}\n", numbers.join(" ")));
            self.scores += 1;
        }
    }
}

#[cfg(test)]
mod tests {
    use super::same;

    #[test]
    fn differences_are_told() {
        assert_eq!(same("0 0\n", "0 0\n"), Ok(()));
        assert!(same("0 0\n", "0 1\n").is_err());
        assert!(same("0 0\n", "0 0\n0 0\n").is_err());
    }
}
