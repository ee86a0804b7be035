//! A difference told to people: a run made as short and as plain as it still differs.

use crate::cells::{Spot, CELLS};
use crate::library::Library;
use crate::request::Request;
use crate::{edges, forms, parameters, runs, swept};
use reference::event::SLOTS;
use reference::params::{field_at, COUNT};
use reference::router::{Peer, Router, ACTION_LIST};
use reference::shrink::shrink;
use reference::text::{self, Trace};
use reference::trace::TraceEdition;
use std::fmt::Write;
use std::time::{Duration, Instant};

/// Shrinking a long run stops after this time.
const PATIENCE: Duration = Duration::from_secs(30);

/// Longer bytes are told by their start.
const SHOWN: usize = 1000;

/// The run up to its first difference, without the calls that it does not need.
pub fn of_run<L: Library>(library: &L, failure: &runs::Failure) -> String {
    let mut out = format!("a difference at call {}:\n", failure.call);
    let runs::Run { start, requests } = &failure.run;
    if let Some(last) = requests.last() {
        let _ = writeln!(out, "  {}", last.text());
    }
    write_lines(&failure.difference.0, &mut out);
    let (start, requests) = shrunk(library, start.clone(), requests.clone());
    let _ = writeln!(out, "the shortest list of calls found, {} of them:", requests.len());
    write_start(&start, &mut out);
    for request in &requests {
        let _ = writeln!(out, "{}", request.text());
    }
    match runs::replay(library, &start, &requests) {
        Some(difference) => write_lines(&difference.0, &mut out),
        None => out += "  made again, it shows no difference\n",
    }
    out
}

fn write_lines(lines: &[String], out: &mut String) {
    for line in lines {
        let _ = writeln!(out, "  {line}");
    }
}

/// Fewer calls first, then lists of the usual length, fewer peers at the start, and the ordinary parameters.
fn shrunk<L: Library>(
    library: &L,
    mut start: Router,
    requests: Vec<Request>,
) -> (Router, Vec<Request>) {
    let began = Instant::now();
    let fails = |start: &Router, requests: &[Request]| {
        began.elapsed() < PATIENCE && runs::replay(library, start, requests).is_some()
    };
    let mut requests = shrink(requests, |requests| fails(&start, requests));
    for place in 0..requests.len() {
        let list = std::mem::replace(&mut requests[place].list, ACTION_LIST);
        if !fails(&start, &requests) {
            requests[place].list = list;
        }
    }
    let mut attempt = |change: &dyn Fn(&mut Router)| {
        let mut plainer = start.clone();
        change(&mut plainer);
        if plainer != start && plainer.is_valid() && fails(&plainer, &requests) {
            start = plainer;
        }
    };
    for slot in 0..SLOTS {
        attempt(&|router| router.peers[slot] = Peer::default());
    }
    // Twice, since a joint rule can hold one number until another is changed.
    for index in (0..COUNT).chain(0..COUNT) {
        attempt(&|router| router.params.numbers[index] = field_at(index).ordinary);
    }
    (start, requests)
}

/// The start: its parameters, and its state where it is not fresh.
fn write_start(start: &Router, out: &mut String) {
    let edition = TraceEdition::Three;
    let trace = Trace { edition, params: Some(start.params.clone()), lines: Vec::new() };
    *out += &text::print(&trace);
    if *start == Router::unchecked(start.params.clone()) {
        return;
    }
    let _ = writeln!(out, "# from a made table: clock {}, joined {:?}", start.clock, start.joined);
    for (slot, peer) in start.peers.iter().enumerate().filter(|(_, peer)| peer.id != 0) {
        let _ = writeln!(out, "# slot {slot}: {peer:?}");
    }
}

pub fn of_edge(failure: &edges::Failure) -> String {
    let mut out = format!("a difference on state {}:\n", failure.state);
    let _ = writeln!(out, "  {}", failure.request.text());
    write_lines(&failure.difference.0, &mut out);
    out
}

pub fn of_damage(failure: &swept::Failure) -> String {
    let mut out = format!("a difference on state {}, {}:\n", failure.state, failure.kind);
    for &(cell, value) in failure.changes.iter().filter(|&&(cell, _)| cell < CELLS) {
        let spot = Spot::of(cell);
        let _ = writeln!(out, "  cell {cell}, {spot}, set to {}", spot.shown(value));
    }
    match &failure.request {
        Some(request) => {
            let _ = writeln!(out, "  {}", request.text());
        }
        None => out += "  is_router\n",
    }
    write_lines(&failure.difference.0, &mut out);
    out
}

pub fn of_forms(failure: &forms::Failure) -> String {
    let mut out = format!("a difference on state {}, {}:\n", failure.state, failure.kind);
    if let Some(request) = &failure.request {
        let _ = writeln!(out, "  {}", request.text());
    }
    write_lines(&failure.difference.0, &mut out);
    out
}

pub fn of_parameters(failure: &parameters::Failure) -> String {
    let (kind, length) = (failure.kind, failure.bytes.len());
    let mut out = format!("a difference at input {} ({kind}, {length} bytes):\n ", failure.input);
    for byte in failure.bytes.iter().take(SHOWN) {
        let _ = write!(out, " {byte:02x}");
    }
    out.push('\n');
    write_lines(&failure.difference.0, &mut out);
    out
}
