//! Counts what generated traces reach: each call with each answer, and the
//! cases inside the rules. A run that misses one of them proves too little.

mod answers;
pub mod gossip;
mod heartbeat;
mod traces;

pub use answers::{Answers, Rows};

use crate::event::{Call, Event, CALL_NAMES, GROUPS};
use crate::params::{self, topic, Edition, Params};
use crate::router::{
    number, Answer, GraftCase, Peer, Place, Refusal, Router, Status, Version, Why,
};
use crate::trace::TraceEdition;
use std::collections::BTreeMap;
use std::fmt::Write;

/// The answers within a trace's reach. It lends long lists and true tables, so
/// 8 and 12 are not.
const REACHABLE: [u32; 9] = [0, 1, 2, 3, 4, 5, 6, 7, 11];

/// The cases that every run reaches.
const CASES: [&str; 53] = [
    "connect: fresh slot",
    "connect: resumed record",
    "connect: own record reclaimed",
    "connect: other records reclaimed",
    "connect: a record reclaimed in a backoff's slack",
    "connect: by /meshsub/1.2.0",
    "connect: one group",
    "connect: four groups",
    "connect: resumed with other groups",
    "connect: no group",
    "connect: a group twice",
    "connect: groups out of order",
    "disconnect: member",
    "leave: PRUNEs",
    "leave: P3b grows",
    "leave: a 1.2.0 peer is told seconds",
    "unsubscribe: member",
    "graft: NotJoined",
    "graft: Graylisted",
    "graft: AlreadyMember",
    "graft: Explicit",
    "graft: BackoffRunning",
    "graft: NegativeScore",
    "graft: NotSubscribed",
    "graft: FullForInbound",
    "graft: Accepted",
    "graft: outbound into a full mesh",
    "graft: accepted in the slack",
    "graft: P7 at its limit",
    "graft: a 1.2.0 peer is told seconds",
    "prune: member",
    "prune: not a member",
    "prune: the old end is later",
    "prune: 0 seconds",
    "prune: over 3600 seconds",
    "delivery: first, member",
    "delivery: first, not a member",
    "delivery: near-first, member",
    "delivery: near-first, not a member",
    "delivery: invalid",
    "delivery: P2 at its cap",
    "delivery: P3 at its cap",
    "delivery: P4 at its limit",
    "score: negative",
    "score: positive",
    "score: P6 counts",
    "score: P6 counts several groups",
    "score: P6 counts some of its groups",
    "score: a retained peer holds a group of a surplus",
    "score: the cap cuts",
    "score: P5 counts",
    "score: P7 counts",
    "score: every part counts",
];

/// The parameters with which routers are made.
const PARAMETERS: [&str; 3] = [
    "parameters: edition 1",
    "parameters: edition 2, by 01's rules",
    "parameters: edition 2, that edition 1 refuses",
];

/// Parameters that are edition 1, since these two bytes are no front.
const OTHER_FRONT: &str = "parameters behind 00 03";

/// What only a table made by hand reaches.
const MADE_CASE: &str = heartbeat::EARLY_END;

#[derive(Default)]
pub struct Coverage {
    answers: Answers,
    cases: BTreeMap<String, usize>,
}

impl Coverage {
    /// Counts a call with its answer, and its cases if it was heard; those of a
    /// heartbeat tell refusals as well.
    pub fn count_call(&mut self, event: &Event, answer: &Answer, cases: &[String]) {
        self.answers.count(event.call.kind(), number(answer));
        // What is out of range has no cases but those that say so.
        let heard = matches!(answer, Ok(_) | Err(Refusal::Ignored | Refusal::OutOfRange));
        if heard || matches!(event.call, Call::Heartbeat { .. }) {
            for case in cases {
                *self.cases.entry(case.clone()).or_default() += 1;
            }
        }
    }

    /// Counts good parameters of which a router is made.
    pub fn count_made(&mut self, params: &Params) {
        let in_first = params.clone().in_edition(Edition::One).check().is_ok();
        let case = match (params.edition, in_first) {
            (Edition::One, _) => PARAMETERS[0],
            (Edition::Two, true) => PARAMETERS[1],
            (Edition::Two, false) => PARAMETERS[2],
        };
        *self.cases.entry(case.to_string()).or_default() += 1;
    }

    /// Counts what an event of a trace meets by the trace's edition.
    pub fn count_edition(&mut self, edition: TraceEdition, router: &Router, event: &Event) {
        for case in traces::cases(edition, router, event) {
            *self.cases.entry(format!("trace: {case}")).or_default() += 1;
        }
    }

    /// Counts how the front and the parameters of a trace are read.
    pub fn count_start(&mut self, bytes: &[u8]) {
        match TraceEdition::of(bytes) {
            Err(refusal) => self.count_stop(&format!("front, answer {}", refusal.number)),
            Ok(edition) => {
                let bytes = &bytes[edition.front().len()..];
                let (trace, sheet) = (edition.number(), Edition::of(bytes).number());
                if let Err(refusal) = params::read_prefix(bytes) {
                    let number = refusal.number;
                    self.count_stop(&behind_front(trace, sheet, number));
                }
                self.count_params(bytes);
            }
        }
    }

    /// Counts how the parameters of a trace are read.
    fn count_params(&mut self, bytes: &[u8]) {
        let edition = Edition::of(bytes).number();
        let (answer, place) = match params::read_prefix(bytes) {
            Ok((_, length)) => (0, length),
            Err(refusal) => (refusal.number, refusal.place),
        };
        self.count_stop(&format!("parameters of edition {edition}, answer {answer}"));
        if bytes.starts_with(&[0x00, 0x03]) {
            self.count_stop(OTHER_FRONT);
        }
        if (answer, place) == (9, params::FIRST_RULE + params::SCORE_RULE) {
            self.count_stop(&format!("parameters of edition {edition}, the rule on D_score"));
        }
    }

    pub fn count_stop(&mut self, what: &str) {
        *self.cases.entry(format!("stop: {what}")).or_default() += 1;
    }

    /// What the run should have reached and did not.
    pub fn missing(&self) -> Vec<String> {
        let mut missing = self.answers.missing(&REACHABLE);
        missing.extend(wanted_cases().filter(|case| !self.cases.contains_key(case)));
        missing
    }

    /// The same, with what only a table made by hand reaches.
    pub fn missing_with_made(&self) -> Vec<String> {
        let mut missing = self.missing();
        let made = format!("heartbeat: {MADE_CASE}");
        missing.extend(Some(made).filter(|case| !self.cases.contains_key(case)));
        missing
    }

    /// Answers that 01 does not permit to a call.
    pub fn not_permitted(&self) -> Vec<String> {
        self.answers.not_permitted(&REACHABLE)
    }

    /// The counts as text.
    pub fn table(&self) -> String {
        let mut out = self.answers.table(&REACHABLE);
        let mut cases = self.cases.clone();
        for case in wanted_cases() {
            cases.entry(case).or_default();
        }
        for (case, count) in &cases {
            let _ = writeln!(out, "{case:62}{count:>9}");
        }
        out
    }
}

fn wanted_cases() -> impl Iterator<Item = String> {
    let heartbeats = heartbeat::CASES.iter().chain(&heartbeat::EDITION_2_CASES);
    let heartbeats = heartbeats.map(|case| format!("heartbeat: {case}"));
    let calls = CASES.iter().chain(&PARAMETERS).map(|case| case.to_string());
    let traces = traces::CASES.iter().map(|case| format!("trace: {case}"));
    calls.chain(heartbeats).chain(traces).chain(stops())
}

/// Is it a case of a trace alone, which calls by themselves do not meet?
pub fn of_traces(case: &str) -> bool {
    case.starts_with("trace: ") || case.starts_with("stop: ")
}

/// How parameters behind a front are counted, by the editions of both.
fn behind_front(trace: u32, sheet: u32, answer: u32) -> String {
    format!("trace of edition {trace}, parameters of edition {sheet}, answer {answer}")
}

/// How a permutation of another edition is counted.
pub fn other_permutation(edition: TraceEdition) -> String {
    format!("a permutation of another edition in edition {}", edition.number())
}

/// Is it a case that parameters of edition 1 cannot meet?
pub fn of_edition_2(case: &str) -> bool {
    let heartbeat = case.strip_prefix("heartbeat: ");
    PARAMETERS[1..].contains(&case)
        || heartbeat.is_some_and(|case| heartbeat::EDITION_2_CASES.contains(&case))
}

/// How many groups a connect has, in an edition that counts them.
pub const GROUP_COUNT: &str = "group count";

/// A connect that counts more groups than a record holds.
pub const MANY_GROUPS: &str = "a group count above four";

/// The names of an event's numbers after kind and time, in the trace's order. A connect
/// has a number for each group.
fn argument_names(kind: u64) -> &'static [&'static str] {
    match kind {
        1 => &["id", GROUP_COUNT, "group", "flags", "name length", "name"],
        2 | 13 => &["id"],
        3 | 4 => &["topic"],
        5..=7 => &["id", "topic"],
        8 => &["id", "topic", "seconds"],
        9 => &["id", "topic", "kind of delivery"],
        10 => &["id", "value"],
        11 => &["topic", "ask", "permutation"],
        _ => &[],
    }
}

/// What a piece of an event's bytes is.
pub fn piece_name(edition: TraceEdition, call: &Call, place: usize) -> &'static str {
    let mut names = argument_names(call.kind()).to_vec();
    if let Call::Connect { groups, .. } = call {
        let counted = edition.counts_groups();
        let groups = if counted { groups.len() } else { 1 };
        names.splice(1..3, [GROUP_COUNT].into_iter().take(usize::from(counted)));
        let from = 1 + usize::from(counted);
        names.splice(from..from, std::iter::repeat_n("group", groups));
    }
    match place {
        0 => "kind",
        1 => "time",
        _ => names[(place - 2).min(names.len() - 1)],
    }
}

/// How bad bytes in one piece are counted.
pub fn bad_bytes(edition: TraceEdition, call: &Call, place: usize) -> String {
    match place {
        0 => "bad kind".to_string(),
        _ => format!("bad {} {}", call.name(), piece_name(edition, call, place)),
    }
}

/// Every way in which a trace can stop.
fn stops() -> impl Iterator<Item = String> {
    let of_params = Edition::ALL.iter().flat_map(|edition| {
        let told = ["answer 9", "answer 10", "the rule on D_score"];
        told.map(|what| format!("parameters of edition {}, {what}", edition.number()))
    });
    let fixed = [OTHER_FRONT, MANY_GROUPS, "unknown kind", "bad kind"];
    let calls = CALL_NAMES.iter().zip(1..).flat_map(|(name, kind)| {
        let pieces = ["time"].iter().chain(argument_names(kind));
        pieces.map(move |piece| format!("bad {name} {piece}"))
    });
    let fronts = [9, 10].map(|answer| format!("front, answer {answer}"));
    let permutations = TraceEdition::ALL.map(other_permutation);
    let behind = TraceEdition::ALL.into_iter().flat_map(|trace| {
        let sheets = Edition::ALL.into_iter().flat_map(|sheet| [(sheet, 9), (sheet, 10)]);
        sheets.map(move |(sheet, answer)| behind_front(trace.number(), sheet.number(), answer))
    });
    let fixed = fixed.map(str::to_string).into_iter().chain(of_params);
    let fixed = fixed.chain(fronts).chain(permutations).chain(behind);
    fixed.chain(calls).map(|stop| format!("stop: {stop}"))
}

/// The cases of an event that is about to be made.
pub fn cases(router: &Router, event: &Event) -> Vec<String> {
    if matches!(event.call, Call::Heartbeat { .. }) {
        let cases = heartbeat::cases(router, event);
        return cases.into_iter().map(|case| format!("heartbeat: {case}")).collect();
    }
    if event.now < router.clock {
        return Vec::new();
    }
    if !event.in_range() {
        return named(event, refused_groups(event));
    }
    let facts = match event.call {
        Call::Connect { id, ref groups, ref name, .. } => {
            connect_cases(router, id as u32, groups, name, event.now)
        }
        Call::Leave { topic } => leave_cases(router, topic as usize),
        Call::Disconnect { id }
        | Call::Unsubscribe { id, .. }
        | Call::Graft { id, .. }
        | Call::Prune { id, .. }
        | Call::Delivery { id, .. }
        | Call::Score { id } => match router.connected(id as u32) {
            Ok(slot) => peer_cases(router, slot, event),
            Err(_) => Vec::new(),
        },
        _ => Vec::new(),
    };
    named(event, facts)
}

/// The cases that hold, with the call's name.
fn named(event: &Event, facts: Facts) -> Vec<String> {
    let held = facts.into_iter().filter(|(_, holds)| *holds);
    held.map(|(case, _)| format!("{}: {case}", event.call.name())).collect()
}

type Facts = Vec<(String, bool)>;

fn fact(case: &str, holds: bool) -> (String, bool) {
    (case.to_string(), holds)
}

/// What is wrong with the groups of a connect that would else be in range.
fn refused_groups(event: &Event) -> Facts {
    let Call::Connect { id, ref groups, flags, ref name } = event.call else { return Vec::new() };
    let with_one = Call::Connect { id, groups: vec![1], flags, name: name.clone() };
    if !(Event { now: event.now, call: with_one }).in_range() {
        return Vec::new();
    }
    let any = |wrong: fn(u64, u64) -> bool| groups.windows(2).any(|pair| wrong(pair[0], pair[1]));
    vec![
        fact("no group", groups.is_empty()),
        fact("a group twice", any(|first, second| first == second)),
        fact("groups out of order", any(|first, second| first > second)),
    ]
}

fn connect_cases(router: &Router, id: u32, groups: &[u64], name: &[u8], now: u64) -> Facts {
    let place = router.place_for(id, now);
    let reclaimed = router.reclaimable_slots(now);
    let own = |slot: &usize| router.peers[*slot].id == id;
    let ends = |slot: usize| router.peers[slot].backoff_ends.iter();
    let in_slack = |slot: &usize| ends(*slot).any(|&end| heartbeat::in_slack(end, now));
    let other = |slot: usize| router.peers[slot].groups().map(u64::from).ne(groups.iter().copied());
    vec![
        fact("by /meshsub/1.2.0", name == b"/meshsub/1.2.0"),
        fact("one group", groups.len() == 1),
        fact("four groups", groups.len() == GROUPS),
        fact(
            "resumed with other groups",
            matches!(place, Some(Place::Resumed(slot)) if other(slot)),
        ),
        fact("fresh slot", matches!(place, Some(Place::Fresh(_)))),
        fact("resumed record", matches!(place, Some(Place::Resumed(_)))),
        fact("own record reclaimed", reclaimed.iter().any(own)),
        fact("other records reclaimed", !reclaimed.iter().all(own)),
        fact("a record reclaimed in a backoff's slack", reclaimed.iter().any(in_slack)),
    ]
}

/// Order 6 of 02: a PRUNE of ours to a peer of version 1.2.0, whose backoff is at least a second.
const TOLD: &str = "a 1.2.0 peer is told seconds";

fn is_newest(router: &Router, slot: usize) -> bool {
    router.peers[slot].version == Version::V12
}

/// Is a GRAFT answered by a PRUNE?
fn is_pruned(case: GraftCase) -> bool {
    use GraftCase::{Accepted, AlreadyMember, Graylisted, NotJoined};
    !matches!(case, NotJoined | Graylisted | AlreadyMember | Accepted)
}

fn leave_cases(router: &Router, topic: usize) -> Facts {
    let mesh = router.mesh(topic);
    let fails = |&slot: &usize| router.score(slot) < 0 && router.p3(slot, topic) > 0;
    vec![
        fact("PRUNEs", !mesh.is_empty()),
        fact("P3b grows", mesh.iter().any(fails)),
        fact(TOLD, mesh.iter().any(|&slot| is_newest(router, slot))),
    ]
}

fn peer_cases(router: &Router, slot: usize, event: &Event) -> Facts {
    let peer = &router.peers[slot];
    match event.call {
        Call::Disconnect { .. } => vec![fact("member", peer.topics.iter().any(|r| r.member))],
        Call::Unsubscribe { topic, .. } => vec![fact("member", peer.topics[topic as usize].member)],
        Call::Graft { topic, .. } => graft_cases(router, slot, topic as usize, event.now),
        Call::Prune { topic, seconds, .. } => {
            let end = peer.backoff_ends[topic as usize];
            let member = peer.topics[topic as usize].member;
            vec![
                fact("member", member),
                fact("not a member", !member),
                fact("the old end is later", end > event.now + 1000 * seconds.clamp(1, 3600)),
                fact("0 seconds", seconds == 0),
                fact("over 3600 seconds", seconds > 3600),
            ]
        }
        Call::Delivery { topic, kind, .. } => delivery_cases(router, slot, topic as usize, kind),
        _ => score_cases(router, slot),
    }
}

fn score_cases(router: &Router, slot: usize) -> Facts {
    let why = router.why(slot);
    let Why { total, capped, p5, p6, p7 } = why;
    let threshold = router.params.general(params::general::P6_THRESHOLD);
    let peer = &router.peers[slot];
    let over = |&group: &u32| router.sharing(group) > threshold;
    let paid: Vec<u32> = peer.groups().filter(over).collect();
    let kept =
        |other: &Peer| other.status == Status::Retained && paid.iter().any(|&g| other.holds(g));
    vec![
        fact("P6 counts several groups", paid.len() > 1),
        fact(
            "P6 counts some of its groups",
            !paid.is_empty() && paid.len() < peer.groups().count(),
        ),
        fact("a retained peer holds a group of a surplus", router.peers.iter().any(kept)),
        fact("negative", why.score() < 0),
        fact("positive", why.score() > 0),
        fact("P6 counts", p6 < 0),
        fact("the cap cuts", capped < total),
        fact("P5 counts", p5 != 0),
        fact("P7 counts", p7 < 0),
        fact("every part counts", capped < total && p5 != 0 && p6 < 0 && p7 < 0),
    ]
}

fn graft_cases(router: &Router, slot: usize, topic: usize, now: u64) -> Facts {
    let case = router.graft_case(now, slot, topic);
    let peer = &router.peers[slot];
    let slack = heartbeat::in_slack(peer.backoff_ends[topic], now);
    let full = router.mesh(topic).len() >= router.params.general(params::general::D_HI) as usize;
    vec![
        fact(&format!("{case:?}"), true),
        fact("outbound into a full mesh", case == GraftCase::Accepted && full),
        fact("accepted in the slack", case == GraftCase::Accepted && slack),
        fact("P7 at its limit", case == GraftCase::BackoffRunning && peer.p7 == 1_000_000),
        fact(TOLD, is_pruned(case) && is_newest(router, slot)),
    ]
}

fn delivery_cases(router: &Router, slot: usize, k: usize, kind: u64) -> Facts {
    let record = &router.peers[slot].topics[k];
    let member = record.member;
    let cap = |place| router.params.topic(k, place);
    vec![
        fact("first, member", kind == 1 && member),
        fact("first, not a member", kind == 1 && !member),
        fact("near-first, member", kind == 2 && member),
        fact("near-first, not a member", kind == 2 && !member),
        fact("invalid", kind == 3),
        fact("P2 at its cap", kind == 1 && record.p2 == cap(topic::P2_CAP)),
        fact("P3 at its cap", kind < 3 && member && record.p3 == cap(topic::P3_CAP)),
        fact("P4 at its limit", kind == 3 && record.p4 == 1_000_000),
    ]
}
