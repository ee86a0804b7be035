//! Traces as text, for people. One event to a line, `#` starts a comment, and
//! fields stand in a fixed order:
//!
//! ```text
//! trace edition 2                  # of the trace, or 3; without this line edition 1
//! edition 2                        # of the parameters; without this line edition 1
//! params ordinary                  # or: params none (no parameters at all)
//! param D_hi 12                    # overrides a general number by name
//! topic 0 weight 500               # overrides a topic's number by name
//! connect time=5 id=7 group=1 inbound /meshsub/1.1.0
//! connect time=5 id=8 group=1 outbound explicit /meshsub/1.0.0
//! connect time=5 id=9 groups=1,4 inbound /meshsub/1.1.0    # in edition 3, or groups=none
//! disconnect time=5 id=7
//! join time=5 topic=0
//! leave time=5 topic=0
//! subscribe time=5 id=7 topic=0
//! unsubscribe time=5 id=7 topic=0
//! graft time=5 id=7 topic=0
//! prune time=5 id=7 topic=0 seconds=60
//! delivery time=5 id=7 topic=0 first      # or near-first, invalid
//! p5 time=5 id=7 value=-1000
//! heartbeat time=5 topic=0 opportunism=no permutation=9,4,...
//! decay time=5
//! score time=5 id=7
//! bytes 0e 80 00                   # bytes as they are, event or not
//! ```
//!
//! Numbers out of range can be written too: `flags=9` for the two words of a
//! connect, `kind=9` for a delivery's, `opportunism=9`, and `hex:2f00` for a
//! protocol name with odd bytes. A permutation has as many slots as the trace's edition
//! says; `9-4` are the slots from 9 down to 4, and `...` stands for the slots not named
//! yet, upward. A line with `id=3-9` stands for one with each of these ids.

use crate::event::{
    by_slot, Call, Event, Permutation, CALL_NAMES, EXPLICIT_FLAG, OUTBOUND_FLAG, SLOTS,
};
use crate::params::{self, field_at, Edition, Params, COUNT, GENERAL_COUNT, TOPICS, TOPIC_COUNT};
use crate::trace::{self, TraceEdition};
use std::fmt::Write;

/// A trace as lines: its edition, its parameters, if it has any, then events or bytes.
#[derive(Clone, PartialEq, Eq, Debug)]
pub struct Trace {
    pub edition: TraceEdition,
    pub params: Option<Params>,
    pub lines: Vec<Line>,
}

#[derive(Clone, PartialEq, Eq, Debug)]
pub enum Line {
    Event(Event),
    /// Bytes that are no event.
    Bytes(Vec<u8>),
}

impl Line {
    pub fn to_bytes(&self, edition: TraceEdition) -> Vec<u8> {
        match self {
            Line::Event(event) => trace::write_event(edition, event),
            Line::Bytes(bytes) => bytes.clone(),
        }
    }
}

impl Trace {
    pub fn to_bytes(&self) -> Vec<u8> {
        let mut out = self.edition.front().to_vec();
        out.extend(self.params.as_ref().map_or(Vec::new(), Params::to_bytes));
        for line in &self.lines {
            out.extend(line.to_bytes(self.edition));
        }
        out
    }

    /// Takes bytes apart; from where they are malformed on they stay bytes, the front of
    /// no edition too.
    pub fn from_bytes(bytes: &[u8]) -> Trace {
        let front = TraceEdition::of(bytes);
        let edition = front.unwrap_or_default();
        let rest = &bytes[edition.front().len()..];
        let (params, mut rest) = match params::read_numbers(rest) {
            Ok((params, length)) if front.is_ok() => (Some(params), &rest[length..]),
            _ => (None, rest),
        };
        let mut lines = Vec::new();
        while !rest.is_empty() {
            let event = trace::read_event(edition, rest);
            let (line, length) = match event {
                Ok((event, length)) if params.is_some() => (Line::Event(event), length),
                _ => (Line::Bytes(rest.to_vec()), rest.len()),
            };
            lines.push(line);
            rest = &rest[length..];
        }
        Trace { edition, params, lines }
    }
}

// Printing.

/// The whole trace as text.
pub fn print(trace: &Trace) -> String {
    let mut out = match trace.edition {
        TraceEdition::One => String::new(),
        edition => format!("trace edition {}\n", edition.number()),
    };
    match &trace.params {
        Some(params) => out.push_str(&print_params(params)),
        None => out.push_str("params none\n"),
    }
    for line in &trace.lines {
        out.push_str(&print_line(trace.edition, line));
        out.push('\n');
    }
    out
}

/// The edition if it is not the first, the ordinary parameters, and the numbers that
/// differ from them.
fn print_params(params: &Params) -> String {
    let mut out = match params.edition {
        Edition::One => String::new(),
        edition => format!("edition {}\n", edition.number()),
    };
    out.push_str("params ordinary\n");
    for (index, &value) in params.numbers.iter().enumerate() {
        let field = field_at(index);
        if value != field.ordinary {
            let _ = match index.checked_sub(GENERAL_COUNT) {
                None => writeln!(out, "param {} {value}", field.name),
                Some(rest) => writeln!(out, "topic {} {} {value}", rest / TOPIC_COUNT, field.name),
            };
        }
    }
    out
}

/// One line, without its end.
pub fn print_line(edition: TraceEdition, line: &Line) -> String {
    match line {
        Line::Bytes(bytes) => bytes.iter().fold("bytes".to_string(), |mut out, byte| {
            let _ = write!(out, " {byte:02x}");
            out
        }),
        Line::Event(event) => print_event(edition, event),
    }
}

fn print_event(edition: TraceEdition, Event { now, call }: &Event) -> String {
    match call {
        Call::Connect { id, groups, flags, name } => format!(
            "connect time={now} id={id} {} {} {}",
            print_groups(edition, groups),
            print_flags(*flags),
            print_name(name)
        ),
        Call::Disconnect { id } => format!("disconnect time={now} id={id}"),
        Call::Join { topic } => format!("join time={now} topic={topic}"),
        Call::Leave { topic } => format!("leave time={now} topic={topic}"),
        Call::Subscribe { id, topic } => format!("subscribe time={now} id={id} topic={topic}"),
        Call::Unsubscribe { id, topic } => format!("unsubscribe time={now} id={id} topic={topic}"),
        Call::Graft { id, topic } => format!("graft time={now} id={id} topic={topic}"),
        Call::Prune { id, topic, seconds } => {
            format!("prune time={now} id={id} topic={topic} seconds={seconds}")
        }
        Call::Delivery { id, topic, kind } => {
            format!("delivery time={now} id={id} topic={topic} {}", print_kind(*kind))
        }
        Call::SetP5 { id, value } => format!("p5 time={now} id={id} value={value}"),
        Call::Heartbeat { topic, ask, permutation } => format!(
            "heartbeat time={now} topic={topic} opportunism={} permutation={}",
            print_ask(*ask),
            print_permutation(&permutation[..edition.permuted()])
        ),
        Call::Decay => format!("decay time={now}"),
        Call::Score { id } => format!("score time={now} id={id}"),
    }
}

fn print_groups(edition: TraceEdition, groups: &[u64]) -> String {
    let words: Vec<String> = groups.iter().map(u64::to_string).collect();
    match words.first() {
        None => format!("groups={NO_GROUPS}"),
        Some(group) if groups.len() == 1 || !edition.counts_groups() => format!("group={group}"),
        _ => format!("groups={}", words.join(",")),
    }
}

/// In the place of groups, where there are none.
const NO_GROUPS: &str = "none";

fn print_flags(flags: u64) -> String {
    match flags {
        0 => "inbound".to_string(),
        1 => "outbound".to_string(),
        2 => "inbound explicit".to_string(),
        3 => "outbound explicit".to_string(),
        _ => format!("flags={flags}"),
    }
}

/// A name that reads as one word is written as it is.
fn print_name(name: &[u8]) -> String {
    let plain = name.first() == Some(&b'/') && name.iter().all(u8::is_ascii_graphic);
    if plain {
        return String::from_utf8_lossy(name).into_owned();
    }
    name.iter().fold("hex:".to_string(), |mut out, byte| {
        let _ = write!(out, "{byte:02x}");
        out
    })
}

const DELIVERY_KINDS: [&str; 3] = ["first", "near-first", "invalid"];

fn print_kind(kind: u64) -> String {
    match kind {
        1..=3 => DELIVERY_KINDS[kind as usize - 1].to_string(),
        _ => format!("kind={kind}"),
    }
}

fn print_ask(ask: u64) -> String {
    match ask {
        0 => "no".to_string(),
        1 => "yes".to_string(),
        _ => ask.to_string(),
    }
}

/// As few slots as the rest can be told from, and then `...`.
fn print_permutation(permutation: &[u64]) -> String {
    let rising = permutation.windows(2).rev().take_while(|pair| pair[0] < pair[1]).count();
    // From here on the slots rise, so no place before this one can be the last told.
    let first = (permutation.len() - rising).saturating_sub(1);
    let count = permutation.len();
    let told = (first..count).find(|&told| completed(&permutation[..told], count) == permutation);
    let mut words = print_runs(&permutation[..told.unwrap_or(count)]);
    if told.is_some() {
        words.push("...".to_string());
    }
    words.join(",")
}

/// The named slots, then the others of so many upward.
fn completed(named: &[u64], count: usize) -> Vec<u64> {
    let others = (0..count as u64).filter(|slot| !named.contains(slot));
    named.iter().copied().chain(others).collect()
}

/// Shorter runs of neighbours are told one by one.
const SHORTEST_RUN: usize = 4;

/// The slots one by one, and runs of neighbours, upward or downward, by their ends.
fn print_runs(slots: &[u64]) -> Vec<String> {
    let mut words = Vec::new();
    let mut rest = slots;
    while let [first, ..] = rest {
        let run = [1, u64::MAX].map(|step| run_length(rest, step)).into_iter().max().unwrap_or(1);
        if run >= SHORTEST_RUN {
            words.push(format!("{first}-{}", rest[run - 1]));
            rest = &rest[run..];
        } else {
            words.push(first.to_string());
            rest = &rest[1..];
        }
    }
    words
}

/// How many numbers from the first on go by this step.
fn run_length(slots: &[u64], step: u64) -> usize {
    let follows = |pair: &&[u64]| pair[1] == pair[0].wrapping_add(step);
    1 + slots.windows(2).take_while(follows).count()
}

// Parsing.

/// What is wrong, and in which line (from 1 on).
#[derive(Clone, PartialEq, Eq, Debug)]
pub struct TextError {
    pub line: usize,
    pub message: String,
}

/// How far a text has come.
#[derive(Clone, Copy)]
enum Start {
    Open,
    /// The trace's edition is told.
    TraceEdition,
    /// The edition is told, and the parameters have to follow.
    Edition(Edition),
    Done,
}

/// Reads a whole text.
pub fn parse(text: &str) -> Result<Trace, TextError> {
    parse_placed(text).map(|(trace, _)| trace)
}

/// The same, and of each line of the trace its line in the text (from 1 on).
pub fn parse_placed(text: &str) -> Result<(Trace, Vec<usize>), TextError> {
    let mut trace = Trace { edition: TraceEdition::One, params: None, lines: Vec::new() };
    let mut places = Vec::new();
    let mut start = Start::Open;
    let mut last = 1;
    for (place, line) in text.lines().enumerate() {
        let words: Vec<&str> =
            line.split_whitespace().take_while(|word| !word.starts_with('#')).collect();
        if words.is_empty() {
            continue;
        }
        last = place + 1;
        let parsed = match start {
            Start::Done => parse_each(&words, &mut trace),
            _ => {
                let rest = &mut Words { words: &words[1..] };
                parse_start(words[0], rest, &mut start, &mut trace).and_then(|()| rest.end())
            }
        };
        parsed.map_err(|message| TextError { line: place + 1, message })?;
        places.resize(trace.lines.len(), place + 1);
    }
    match start {
        Start::Done => Ok((trace, places)),
        _ => Err(TextError { line: last, message: START.to_string() }),
    }
}

const START: &str = "a trace starts with `params ordinary` or `params none`; before them \
    `trace edition 2` or 3 may stand, and `edition 2` before the first";

/// The lines up to `params`.
fn parse_start(
    word: &str,
    rest: &mut Words,
    start: &mut Start,
    trace: &mut Trace,
) -> Result<(), String> {
    *start = match (word, rest.word()?, *start) {
        ("trace", "edition", Start::Open) => {
            let number = rest.word()?;
            let mut all = TraceEdition::ALL.into_iter();
            let named = all.find(|each| each.number().to_string() == number);
            trace.edition = named.ok_or_else(|| format!("no trace has the edition {number}"))?;
            Start::TraceEdition
        }
        ("edition", number, Start::Open | Start::TraceEdition) => {
            let named = Edition::ALL.into_iter().find(|each| each.number().to_string() == number);
            Start::Edition(named.ok_or_else(|| format!("there is no edition {number}"))?)
        }
        ("params", "ordinary", Start::Open | Start::TraceEdition) => {
            trace.params = Some(Params::ordinary());
            Start::Done
        }
        ("params", "ordinary", Start::Edition(edition)) => {
            trace.params = Some(Params::ordinary().in_edition(edition));
            Start::Done
        }
        ("params", "none", Start::Open | Start::TraceEdition) => Start::Done,
        _ => return Err(START.to_string()),
    };
    Ok(())
}

/// A line, or with `id=3-9` in it a line for each of these ids.
fn parse_each(words: &[&str], trace: &mut Trace) -> Result<(), String> {
    let is_run = |word: &&str| word.starts_with("id=") && word.contains('-');
    let Some(place) = words.iter().position(is_run) else { return parse_line(words, trace) };
    for id in parse_run(&words[place]["id=".len()..])? {
        let named = format!("id={id}");
        let mut words = words.to_vec();
        words[place] = &named;
        parse_line(&words, trace)?;
    }
    Ok(())
}

fn parse_line(words: &[&str], trace: &mut Trace) -> Result<(), String> {
    let rest = &mut Words { words: &words[1..] };
    parse_words(words[0], rest, trace)?;
    rest.end()
}

fn parse_words(word: &str, rest: &mut Words, trace: &mut Trace) -> Result<(), String> {
    match word {
        "param" => override_number(trace, None, rest),
        "topic" => {
            let topic = rest.number()?;
            override_number(trace, Some(topic), rest)
        }
        "bytes" => {
            trace.lines.push(Line::Bytes(rest.hex_bytes()?));
            Ok(())
        }
        _ => {
            trace.lines.push(Line::Event(parse_event(trace.edition, word, rest)?));
            Ok(())
        }
    }
}

/// Parameters come before events in the bytes, so in the text as well.
fn override_number(trace: &mut Trace, topic: Option<u64>, rest: &mut Words) -> Result<(), String> {
    let name = rest.word()?;
    let value: i64 = rest.number()?;
    if !trace.lines.is_empty() {
        return Err("parameters stand before the first event".to_string());
    }
    let params = trace.params.as_mut().ok_or("there are no parameters to override")?;
    let range = match topic {
        None => 0..GENERAL_COUNT,
        Some(k) if k < TOPICS as u64 => params::topic_index(k as usize, 0)..COUNT,
        Some(k) => return Err(format!("there is no topic {k}")),
    };
    let index = range.into_iter().find(|&index| field_at(index).name == name);
    let index = index.ok_or_else(|| format!("no number is called {name}"))?;
    params.numbers[index] = value;
    Ok(())
}

fn parse_event(edition: TraceEdition, word: &str, rest: &mut Words) -> Result<Event, String> {
    if !CALL_NAMES.contains(&word) {
        return Err(format!("no event is called {word}"));
    }
    let now = rest.field("time")?;
    Ok(Event { now, call: parse_call(edition, word, rest)? })
}

fn parse_call(edition: TraceEdition, word: &str, rest: &mut Words) -> Result<Call, String> {
    if let "join" | "leave" | "heartbeat" | "decay" = word {
        return parse_topic_call(edition, word, rest);
    }
    let id = rest.field("id")?;
    Ok(match word {
        "connect" => Call::Connect {
            id,
            groups: rest.groups(edition)?,
            flags: rest.flags()?,
            name: rest.name()?,
        },
        "disconnect" => Call::Disconnect { id },
        "subscribe" => Call::Subscribe { id, topic: rest.field("topic")? },
        "unsubscribe" => Call::Unsubscribe { id, topic: rest.field("topic")? },
        "graft" => Call::Graft { id, topic: rest.field("topic")? },
        "prune" => Call::Prune { id, topic: rest.field("topic")?, seconds: rest.field("seconds")? },
        "delivery" => Call::Delivery { id, topic: rest.field("topic")?, kind: rest.kind()? },
        "p5" => Call::SetP5 { id, value: rest.field("value")? },
        _ => Call::Score { id },
    })
}

/// The calls that name no peer.
fn parse_topic_call(edition: TraceEdition, word: &str, rest: &mut Words) -> Result<Call, String> {
    if word == "decay" {
        return Ok(Call::Decay);
    }
    let topic = rest.field("topic")?;
    Ok(match word {
        "join" => Call::Join { topic },
        "leave" => Call::Leave { topic },
        _ => {
            let (ask, permutation) = (rest.ask()?, rest.permutation(edition.permuted())?);
            Call::Heartbeat { topic, ask, permutation }
        }
    })
}

/// The words of a line that are still to be read.
struct Words<'a> {
    words: &'a [&'a str],
}

impl<'a> Words<'a> {
    fn word(&mut self) -> Result<&'a str, String> {
        let (word, rest) = self.words.split_first().ok_or("the line is too short")?;
        self.words = rest;
        Ok(word)
    }

    fn end(&self) -> Result<(), String> {
        self.words.first().map_or(Ok(()), |word| Err(format!("{word} is too much")))
    }

    fn number<T: std::str::FromStr>(&mut self) -> Result<T, String> {
        parse_number(self.word()?)
    }

    /// What follows `name=`.
    fn value(&mut self, name: &str) -> Result<&'a str, String> {
        let word = self.word()?;
        let value = word.strip_prefix(name).and_then(|rest| rest.strip_prefix('='));
        value.ok_or_else(|| format!("{name}= is expected, not {word}"))
    }

    fn field<T: std::str::FromStr>(&mut self, name: &str) -> Result<T, String> {
        parse_number(self.value(name)?)
    }

    /// One group in every edition, and any number of them in one that counts them.
    fn groups(&mut self, edition: TraceEdition) -> Result<Vec<u64>, String> {
        let several = self.words.first().is_some_and(|word| word.starts_with("groups="));
        if !several {
            return Ok(vec![self.field("group")?]);
        }
        if !edition.counts_groups() {
            return Err("a connect has one group before edition 3 of a trace".to_string());
        }
        match self.value("groups")? {
            NO_GROUPS => Ok(Vec::new()),
            groups => groups.split(',').map(parse_number).collect(),
        }
    }

    fn flags(&mut self) -> Result<u64, String> {
        let mut flags = match self.words.first() {
            Some(&"inbound") => 0,
            Some(&"outbound") => OUTBOUND_FLAG,
            _ => return self.field("flags"),
        };
        self.word()?;
        if self.words.first() == Some(&"explicit") {
            self.word()?;
            flags += EXPLICIT_FLAG;
        }
        Ok(flags)
    }

    fn name(&mut self) -> Result<Vec<u8>, String> {
        let word = self.word()?;
        match word.strip_prefix("hex:") {
            Some(digits) => hex(digits),
            None => Ok(word.as_bytes().to_vec()),
        }
    }

    fn kind(&mut self) -> Result<u64, String> {
        let word = self.words.first().copied().unwrap_or_default();
        match DELIVERY_KINDS.iter().position(|&kind| kind == word) {
            Some(place) => self.word().map(|_| place as u64 + 1),
            None => self.field("kind"),
        }
    }

    fn ask(&mut self) -> Result<u64, String> {
        match self.value("opportunism")? {
            "no" => Ok(0),
            "yes" => Ok(1),
            number => parse_number(number),
        }
    }

    /// So many slots; those that the edition does not tell follow by slot.
    fn permutation(&mut self, count: usize) -> Result<Box<Permutation>, String> {
        let word = self.value("permutation")?;
        let named = word.strip_suffix("...").unwrap_or(word);
        let runs = named.split_terminator(',').map(parse_run);
        let mut slots = runs.collect::<Result<Vec<_>, String>>()?.concat();
        if named.len() < word.len() {
            slots = completed(&slots, count);
        }
        if slots.len() != count {
            return Err(format!("a permutation has {count} slots here, not {}", slots.len()));
        }
        let mut permutation = by_slot();
        permutation[..count].copy_from_slice(&slots);
        Ok(permutation)
    }

    fn hex_bytes(&mut self) -> Result<Vec<u8>, String> {
        let mut bytes = Vec::new();
        while !self.words.is_empty() {
            bytes.extend(hex(self.word()?)?);
        }
        Ok(bytes)
    }
}

/// One number, or those from one to another, at most as many as there are slots.
fn parse_run(word: &str) -> Result<Vec<u64>, String> {
    let Some((first, last)) = word.split_once('-') else { return Ok(vec![parse_number(word)?]) };
    let (first, last): (u64, u64) = (parse_number(first)?, parse_number(last)?);
    if first.abs_diff(last) >= SLOTS as u64 {
        return Err(format!("{word} are more than the slots"));
    }
    Ok(if first <= last { (first..=last).collect() } else { (last..=first).rev().collect() })
}

fn parse_number<T: std::str::FromStr>(word: &str) -> Result<T, String> {
    word.parse().map_err(|_| format!("{word} is no number that fits here"))
}

fn hex(digits: &str) -> Result<Vec<u8>, String> {
    let digit = |c: u8| (c as char).to_digit(16).ok_or(format!("{digits} is not hexadecimal"));
    let pairs = digits.as_bytes().chunks(2);
    pairs
        .map(|pair| match *pair {
            [high, low] => Ok((digit(high)? * 16 + digit(low)?) as u8),
            _ => Err(format!("{digits} has half a byte")),
        })
        .collect()
}
