//! The page: its frame, look and drawing are files of their own, and the data are
//! JSON in a script element.

use crate::history::{Happened, History, PeerHistory, Told};
use crate::json::Json;
use crate::subject::Subject;
use crate::words::{hubs, runs, said};
use reference::params::{general, Params, TOPICS};
use reference::replay::{in_words, meaning, points};
use reference::router::Why;
use reference::text::{print_line, Line};
use std::collections::HashMap;
use std::iter::repeat;

const FRAME: &str = include_str!("page.html");
const LOOK: &str = include_str!("page.css");
const DRAWING: &str = include_str!("page.js");

/// The whole page.
pub fn page(subject: &Subject, history: &History) -> String {
    let title = escaped(&subject.name);
    let parts = [("TITLE", title.as_str()), ("LOOK", LOOK), ("DRAWING", DRAWING)];
    let data = data(subject, history).to_string();
    // The data come last, so that nothing in them is taken for a mark.
    let framed = parts.iter().fold(FRAME.to_string(), |page, (mark, part)| {
        page.replace(&format!("{{{{{mark}}}}}"), part)
    });
    framed.replacen("{{DATA}}", &data, 1)
}

/// For text between tags and in attributes.
pub fn escaped(text: &str) -> String {
    let escape = |letter: char| match letter {
        '&' => "&amp;".to_string(),
        '<' => "&lt;".to_string(),
        '>' => "&gt;".to_string(),
        '"' => "&quot;".to_string(),
        '\'' => "&#39;".to_string(),
        '{' => "&#123;".to_string(),
        _ => letter.to_string(),
    };
    text.chars().map(escape).collect()
}

/// All that the page draws.
pub fn data(subject: &Subject, history: &History) -> Json {
    let mut sentences = Sentences::default();
    let ids: Vec<u32> = history.peers.keys().copied().collect();
    let peers: Vec<Json> = history
        .peers
        .iter()
        .map(|(id, peer)| peer_data(*id, peer, history, &mut sentences))
        .collect();
    let refused = history.refused.as_ref().map_or_else(String::new, |line| {
        let number = line.split(' ').next().unwrap_or_default();
        format!("The parameters are refused: {line} ({}). No event was replayed.", meaning(number))
    });
    let shown = 0..history.happened.len();
    Json::Object(vec![
        ("name", Json::text(&subject.name)),
        ("head", Json::texts(subject.head.lines())),
        ("refused", Json::text(refused)),
        ("opening", Json::number(history.opening())),
        ("limits", limits(subject.trace.params.as_ref())),
        ("events", Json::list(shown.map(|place| event(subject, place, &history.happened[place])))),
        (
            "topics",
            Json::list(
                history.topics.iter().map(|&topic| topic_data(topic, &ids, subject, history)),
            ),
        ),
        ("scores", rows_data(&alike(&ids, subject, score_code(history)), &ids)),
        ("peers", Json::List(peers)),
        ("sentences", Json::texts(sentences.all)),
    ])
}

/// Sentences, each once.
#[derive(Default)]
struct Sentences {
    all: Vec<String>,
    places: HashMap<String, usize>,
}

impl Sentences {
    fn place(&mut self, words: &str) -> usize {
        if let Some(&place) = self.places.get(words) {
            return place;
        }
        self.places.insert(words.to_string(), self.all.len());
        self.all.push(words.to_string());
        self.all.len() - 1
    }
}

fn limits(params: Option<&Params>) -> Json {
    let Some(params) = params else { return Json::Object(Vec::new()) };
    let number = |place| Json::text(params.general(place).to_string());
    let threshold = |place| Json::text(points(params.general(place) * 1_000_000));
    Json::Object(vec![
        ("D_lo", number(general::D_LO)),
        ("D", number(general::D)),
        ("D_hi", number(general::D_HI)),
        ("D_out", number(general::D_OUT)),
        ("graylist", threshold(general::GRAYLIST_THRESHOLD)),
    ])
}

fn event(subject: &Subject, place: usize, happened: &Happened) -> Json {
    let line = subject.line(place);
    let (time, said) = match line {
        Line::Event(event) => (event.now, said(event)),
        Line::Bytes(_) => (happened.clock, "Bytes that are no event: the trace stops".to_string()),
    };
    let note = &subject.notes[place];
    let answer = happened.printed.first().map_or("", String::as_str);
    let number = answer.split(' ').next().unwrap_or_default();
    Json::Object(vec![
        ("step", Json::number(subject.steps[place])),
        ("time", Json::Number(time)),
        ("clock", Json::Number(happened.clock)),
        ("said", Json::text(said)),
        ("line", Json::text(print_line(subject.trace.edition, line))),
        ("answer", Json::text(format!("{number} {}", meaning(number)))),
        ("results", Json::texts(results(happened))),
        ("printed", Json::texts(happened.printed.iter().map(String::as_str))),
        ("before", Json::texts(note.before.lines())),
        ("beside", Json::text(note.beside.as_str())),
    ])
}

/// Actions, scores and causes in words; actions that follow each other, of one kind and
/// for one cause, are told together.
pub fn results(happened: &Happened) -> Vec<String> {
    let printed: Vec<&String> = happened.printed.iter().skip(1).collect();
    if printed.is_empty() {
        return happened.causes.clone();
    }
    let causes = happened.causes.iter().map(String::as_str).chain(repeat(""));
    let acted: Vec<(Option<Action>, &String)> = printed
        .into_iter()
        .zip(causes)
        .map(|(line, cause)| (Action::read(line, cause), line))
        .collect();
    let together = acted.chunk_by(|one, other| match (&one.0, &other.0) {
        (Some(one), Some(other)) => one.is_like(other),
        _ => false,
    });
    together.flat_map(told_together).collect()
}

/// An action as it is printed, and its cause.
struct Action<'a> {
    kind: &'a str,
    id: u32,
    seconds: &'a str,
    cause: &'a str,
}

impl Action<'_> {
    fn read<'a>(line: &'a str, cause: &'a str) -> Option<Action<'a>> {
        let words: Vec<&str> = line.split(' ').collect();
        let (kind, id, seconds) = match words.as_slice() {
            ["G", id] => ("GRAFT", id, "0"),
            ["P", id, seconds] => ("PRUNE", id, *seconds),
            _ => return None,
        };
        Some(Action { kind, id: id.parse().ok()?, seconds, cause })
    }

    fn is_like(&self, other: &Action) -> bool {
        (self.kind, self.seconds, self.cause) == (other.kind, other.seconds, other.cause)
    }
}

fn told_together(acted: &[(Option<Action>, &String)]) -> Vec<String> {
    let actions: Vec<&Action> = acted.iter().filter_map(|act| act.0.as_ref()).collect();
    let Some(Action { kind, seconds, cause, .. }) = actions.first() else {
        return acted.iter().flat_map(|act| in_words(act.1)).collect();
    };
    let ids: Vec<u32> = actions.iter().map(|action| action.id).collect();
    let time = if *seconds == "0" { String::new() } else { format!(" for {seconds} s") };
    vec![format!("{kind} to {}{time}: {cause}", hubs(&ids))]
}

/// A topic's sizes, and its rows: peers that stand alike at the end of every step.
fn topic_data(topic: usize, ids: &[u32], subject: &Subject, history: &History) -> Json {
    let sizes = history.sizes[topic]
        .all()
        .iter()
        .map(|(event, size)| Json::list([*event, size.inbound, size.outbound].map(Json::number)));
    let code = |id: u32, event: usize| {
        history.peers[&id].topics[topic]
            .at(event)
            .map_or_else(String::new, |told| told.standing.code())
    };
    let rows = alike(ids, subject, code);
    Json::Object(vec![
        ("topic", Json::number(topic)),
        ("sizes", Json::list(sizes)),
        ("rows", rows_data(&rows, ids)),
    ])
}

/// All numbers of a score, as one text.
fn score_code(history: &History) -> impl Fn(u32, usize) -> String + '_ {
    |id, event| format!("{:?}", history.peers[&id].scores.at(event))
}

/// Rows of ids, by what `code` says of each at the end of every step, in the order of
/// their first ids.
pub fn alike(ids: &[u32], subject: &Subject, code: impl Fn(u32, usize) -> String) -> Vec<Vec<u32>> {
    let ends: Vec<usize> = subject.runs().iter().map(|run| *run.end()).collect();
    let mut rows: Vec<Vec<u32>> = Vec::new();
    let mut places: HashMap<Vec<String>, usize> = HashMap::new();
    for &id in ids {
        let codes: Vec<String> = ends.iter().map(|&event| code(id, event)).collect();
        let place = *places.entry(codes).or_insert(rows.len());
        if place == rows.len() {
            rows.push(Vec::new());
        }
        rows[place].push(id);
    }
    rows
}

/// Each row as its name and the places of its peers.
fn rows_data(rows: &[Vec<u32>], ids: &[u32]) -> Json {
    let place = |id: &u32| Json::number(ids.binary_search(id).unwrap_or_default());
    Json::list(rows.iter().map(|row| {
        Json::Object(vec![
            ("name", Json::text(runs(row))),
            ("peers", Json::list(row.iter().map(place))),
        ])
    }))
}

fn peer_data(id: u32, peer: &PeerHistory, history: &History, sentences: &mut Sentences) -> Json {
    let scores = peer.scores.all().iter().map(|(event, why)| {
        let numbers = why.map_or_else(Vec::new, |why: Why| why.numbers().map(points).to_vec());
        Json::list([Json::number(*event), Json::texts(numbers)])
    });
    let topics = (0..TOPICS).filter(|topic| history.topics.contains(topic)).map(|topic| {
        let changes = peer.topics[topic].all().iter();
        Json::list(changes.map(|(event, told)| told_data(*event, told, sentences)))
    });
    Json::Object(vec![
        ("id", Json::Number(u64::from(id))),
        ("scores", Json::list(scores)),
        ("topics", Json::List(topics.collect())),
    ])
}

fn told_data(event: usize, told: &Told, sentences: &mut Sentences) -> Json {
    Json::list([
        Json::number(event),
        Json::text(told.standing.code()),
        Json::number(sentences.place(&told.words)),
        Json::Number(told.standing.backoff_end),
    ])
}

#[cfg(test)]
mod tests {
    use super::escaped;

    #[test]
    fn text_is_escaped() {
        assert_eq!(escaped("<a href='x'>&\""), "&lt;a href=&#39;x&#39;&gt;&amp;&quot;");
    }
}
