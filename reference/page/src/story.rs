//! What the page shows, as text: of each step, an event or a run of them that one line
//! of the trace stands for, the answers, and what changed in scores, standings and
//! sentences. Peers with the same change share a line.

use crate::history::{History, Size};
use crate::html::results;
use crate::subject::Subject;
use crate::words::{clock, hubs, said};
use reference::replay::{meaning, points};
use reference::router::Why;
use reference::text::Line;
use std::fmt::Write;
use std::ops::RangeInclusive;

type Run = RangeInclusive<usize>;

pub fn story(subject: &Subject, history: &History) -> String {
    let (events, peers) = (history.happened.len(), history.peers.len());
    let topics: Vec<String> = history.topics.iter().map(usize::to_string).collect();
    let topics = if topics.is_empty() { "none".to_string() } else { topics.join(" ") };
    let mut out = format!("{}: {events} events, {peers} hubs, topics {topics}\n", subject.name);
    if let Some(line) = &history.refused {
        let number = line.split(' ').next().unwrap_or_default();
        let _ = writeln!(out, "the parameters are refused: {line} {}", meaning(number));
        return out;
    }
    let _ = writeln!(out, "opens at event {}", history.opening() + 1);
    for run in subject.runs() {
        out.push_str(&head(subject, history, &run));
        for line in scores(history, &run).into_iter().chain(standings(history, &run)) {
            let _ = writeln!(out, "    {line}");
        }
    }
    out
}

/// The events, their answers and what came of them.
fn head(subject: &Subject, history: &History, run: &Run) -> String {
    let (first, last) = (*run.start(), *run.end());
    let mut out =
        format!("\n{} at {}: {}", first + 1, time(subject, history, first), words(subject, first));
    if last > first {
        let _ = write!(out, ", and so on up to {}: {}", last + 1, words(subject, last));
    }
    let _ = writeln!(out, ": {}", answers(history, run));
    for line in run.clone().flat_map(|event| results(&history.happened[event])) {
        let _ = writeln!(out, "    > {line}");
    }
    out
}

fn time(subject: &Subject, history: &History, event: usize) -> String {
    match subject.line(event) {
        Line::Event(event) => clock(event.now),
        Line::Bytes(_) => clock(history.happened[event].clock),
    }
}

fn words(subject: &Subject, event: usize) -> String {
    match subject.line(event) {
        Line::Event(event) => said(event),
        Line::Bytes(_) => "Bytes that are no event".to_string(),
    }
}

/// The answers, those that follow each other and are the same told once.
fn answers(history: &History, run: &Run) -> String {
    let number = |event: usize| {
        let line = history.happened[event].printed.first().map_or("-", String::as_str);
        line.split(' ').next().unwrap_or_default()
    };
    let numbers: Vec<&str> = run.clone().map(number).collect();
    let same = numbers.chunk_by(|one, other| one == other);
    let told = same.map(|same| match same.len() {
        1 => format!("{} {}", same[0], meaning(same[0])),
        count => format!("{} {} ({count} times)", same[0], meaning(same[0])),
    });
    told.collect::<Vec<_>>().join(", ")
}

/// Lines about peers, those of one saying joined, in the order of their first ids.
fn joined(said: Vec<(u32, String)>) -> Vec<String> {
    let mut lines: Vec<(Vec<u32>, String)> = Vec::new();
    for (id, words) in said {
        match lines.iter_mut().find(|line| line.1 == words) {
            Some(line) => line.0.push(id),
            None => lines.push((vec![id], words)),
        }
    }
    lines.into_iter().map(|(ids, words)| format!("{}: {words}", hubs(&ids))).collect()
}

fn scores(history: &History, run: &Run) -> Vec<String> {
    let changed = history.peers.iter().filter_map(|(id, peer)| {
        let why = peer.scores.made_by(run)?;
        Some((*id, why.map_or_else(|| "no score".to_string(), |why| parts(&why))))
    });
    joined(changed.collect())
}

fn parts(why: &Why) -> String {
    let [total, capped, p5, p6, p7, score] = why.numbers().map(points);
    format!(
        "score {score}: topics {capped} (before the cap {total}), application {p5}, \
         address group {p6}, behaviour penalty {p7}"
    )
}

fn standings(history: &History, run: &Run) -> Vec<String> {
    let mut lines = Vec::new();
    for &topic in &history.topics {
        let changed = history.peers.iter().filter_map(|(id, peer)| {
            let told = peer.topics[topic].made_by(run)?;
            Some((*id, format!("topic {topic}: [{}] {}", told.standing.code(), told.words)))
        });
        lines.extend(joined(changed.collect()));
        if let Some(Size { inbound, outbound }) = history.sizes[topic].made_by(run) {
            lines.push(format!("topic {topic}: {inbound} inbound, {outbound} outbound members"));
        }
    }
    lines
}
