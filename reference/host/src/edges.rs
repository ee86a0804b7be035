//! Each argument of each call at the ends of its range and past them, the others as a router would hear
//! them; every call on a state of its own, so that none is in another's way.

use crate::cells::{self, Cells};
use crate::counts::Counts;
use crate::library::Library;
use crate::pair::{Difference, Pair};
use crate::request::{thirteen, Request};
use reference::event::{Call, Event, LAST_TIME, P5_LIMIT};
use reference::random::Random;
use reference::router::{number, Refusal, Router, ACTION_LIST};

/// Past 32 bits: a number that a narrower type would take for another.
const WRAP: u64 = 1 << 32;

/// An argument's values, in its range and outside.
struct Range {
    argument: &'static str,
    inside: &'static [u64],
    outside: &'static [u64],
}

const TIME: Range = Range {
    argument: "time",
    inside: &[LAST_TIME],
    outside: &[LAST_TIME + 1, 2 * LAST_TIME, 1 << 63, u64::MAX],
};
const ID: Range = Range {
    argument: "id",
    inside: &[1, u32::MAX as u64],
    outside: &[0, WRAP, WRAP + 1, WRAP + 7, u64::MAX],
};
const GROUP: Range = Range {
    argument: "group",
    inside: &[0, u32::MAX as u64],
    outside: &[WRAP, WRAP + 1, u64::MAX],
};
/// How many groups, each above the one before it.
const COUNT: Range =
    Range { argument: "count of groups", inside: &[1, 2, 3, 4], outside: &[0, 5, 6, 256, 1000] };
/// A step of two groups, and where it goes down or nowhere, of the last two of three.
const ORDER: Range = Range {
    argument: "order of groups",
    inside: &[1, 2, WRAP - 2],
    outside: &[0, WRAP - 1, u64::MAX, u64::MAX - 1],
};
const FLAGS: Range = Range {
    argument: "flags",
    inside: &[0, 1, 2, 3],
    outside: &[4, 5, 7, 256, WRAP, WRAP + 1, u64::MAX],
};
const TOPIC: Range =
    Range { argument: "topic", inside: &[0, 7], outside: &[8, 9, 256, WRAP, u64::MAX] };
const SECONDS: Range = Range {
    argument: "seconds",
    // Above 3600 they count as 3600, however many.
    inside: &[0, 1, 3599, 3600, 3601, WRAP, u64::MAX / 1000 + 1, u64::MAX],
    outside: &[],
};
const KIND: Range =
    Range { argument: "kind", inside: &[1, 2, 3], outside: &[0, 4, 257, WRAP, WRAP + 1, u64::MAX] };
const ASK: Range =
    Range { argument: "ask", inside: &[0, 1], outside: &[2, 3, 256, WRAP, WRAP + 1, u64::MAX] };
/// As the bits of signed numbers.
const P5: Range = Range {
    argument: "P5",
    inside: &[P5_LIMIT as u64, -P5_LIMIT as u64, 0, -1i64 as u64],
    outside: &[
        (P5_LIMIT + 1) as u64,
        (-P5_LIMIT - 1) as u64,
        i64::MAX as u64,
        i64::MIN as u64,
        WRAP,
    ],
};

/// A call with one argument changed, and whether it is in its range still.
struct Edge {
    name: String,
    inside: bool,
    request: Request,
}

/// A difference at the ends of a range.
pub struct Failure {
    /// The number of the state that the call was made on.
    pub state: usize,
    pub request: Request,
    pub difference: Difference,
}

/// Makes every such call on each state; gives how many calls they were.
pub fn compare<L: Library>(
    library: &L,
    states: &[Router],
    random: &mut Random,
    counts: &mut Counts,
) -> Result<u64, Box<Failure>> {
    let mut made = 0;
    for (place, state) in states.iter().enumerate() {
        let table = cells::table_of(state);
        let mut pair = Pair::new(library, state);
        for mut edge in edges(state, random) {
            also_refused(&mut edge.request, random);
            let outcome = make(&mut pair, &table, state, &edge, counts);
            outcome.map_err(|difference| {
                Box::new(Failure { state: place, request: edge.request, difference })
            })?;
            made += 1;
        }
    }
    Ok(made)
}

/// Sometimes a short list or an early time comes with it: a number out of its range is told before these.
fn also_refused(request: &mut Request, random: &mut Random) {
    if random.chance(1, 8) {
        request.list = random.below(ACTION_LIST);
    }
    if random.chance(1, 8) && request.event.now <= LAST_TIME {
        request.event.now = request.event.now.saturating_sub(1);
    }
}

fn make<L: Library>(
    pair: &mut Pair<L>,
    table: &Cells,
    state: &Router,
    edge: &Edge,
    counts: &mut Counts,
) -> Result<(), Difference> {
    pair.load(table);
    let answer = pair.make(&mut state.clone(), &edge.request)?;
    if (answer == Err(Refusal::OutOfRange)) == edge.inside {
        let told = format!("{}: both sides answer {}", edge.name, number(&answer));
        return Err(Difference(vec![told]));
    }
    counts.count(edge.name.clone());
    Ok(())
}

/// The names that a comparison counts here: those of a state without peers will do.
pub fn wanted() -> impl Iterator<Item = String> {
    let state = Router::unchecked(reference::params::Params::ordinary());
    edges(&state, &mut Random::new(0)).into_iter().map(|edge| edge.name)
}

fn edges(state: &Router, random: &mut Random) -> Vec<Edge> {
    let calls = thirteen(state, random);
    calls.iter().flat_map(|request| edges_of(&request.event)).collect()
}

fn edges_of(event: &Event) -> Vec<Edge> {
    let mut list = Vec::new();
    for (range, set) in arguments(&event.call) {
        let inside = range.inside.iter().map(|value| (true, *value));
        let outside = range.outside.iter().map(|value| (false, *value));
        for (inside, value) in inside.chain(outside) {
            let mut event = event.clone();
            set(&mut event, value);
            let place = if inside { "in its range" } else { "past its range" };
            let name = format!("edge: {} {} {place}", event.call.name(), range.argument);
            list.push(Edge { name, inside, request: Request::plain(event) });
        }
    }
    list
}

/// Puts a value in the place of an argument.
type Set = fn(&mut Event, u64);

fn arguments(call: &Call) -> Vec<(Range, Set)> {
    let mut list: Vec<(Range, Set)> = vec![(TIME, |event, value| event.now = value)];
    match call {
        Call::Join { .. } | Call::Leave { .. } => list.push((TOPIC, set_topic)),
        Call::Heartbeat { .. } => list.extend([(TOPIC, set_topic as Set), (ASK, set_other)]),
        Call::Decay => {}
        Call::Connect { .. } => {
            list.extend([(ID, set_id as Set), (GROUP, set_group), (FLAGS, set_other)]);
            list.extend([(COUNT, set_count as Set), (ORDER, set_order)]);
        }
        Call::Disconnect { .. } | Call::Score { .. } => list.push((ID, set_id)),
        Call::Subscribe { .. } | Call::Unsubscribe { .. } | Call::Graft { .. } => {
            list.extend([(ID, set_id as Set), (TOPIC, set_topic)]);
        }
        Call::Prune { .. } => {
            list.extend([(ID, set_id as Set), (TOPIC, set_topic), (SECONDS, set_other)]);
        }
        Call::Delivery { .. } => {
            list.extend([(ID, set_id as Set), (TOPIC, set_topic), (KIND, set_other)]);
        }
        Call::SetP5 { .. } => list.extend([(ID, set_id as Set), (P5, set_other)]),
    }
    list
}

fn set_id(event: &mut Event, value: u64) {
    match &mut event.call {
        Call::Connect { id, .. }
        | Call::Disconnect { id }
        | Call::Subscribe { id, .. }
        | Call::Unsubscribe { id, .. }
        | Call::Graft { id, .. }
        | Call::Prune { id, .. }
        | Call::Delivery { id, .. }
        | Call::SetP5 { id, .. }
        | Call::Score { id } => *id = value,
        _ => {}
    }
}

fn set_topic(event: &mut Event, value: u64) {
    match &mut event.call {
        Call::Join { topic }
        | Call::Leave { topic }
        | Call::Subscribe { topic, .. }
        | Call::Unsubscribe { topic, .. }
        | Call::Graft { topic, .. }
        | Call::Prune { topic, .. }
        | Call::Delivery { topic, .. }
        | Call::Heartbeat { topic, .. } => *topic = value,
        _ => {}
    }
}

fn set_groups(event: &mut Event, new: Vec<u64>) {
    if let Call::Connect { groups, .. } = &mut event.call {
        *groups = new;
    }
}

fn set_group(event: &mut Event, value: u64) {
    set_groups(event, vec![value]);
}

fn set_count(event: &mut Event, count: u64) {
    set_groups(event, (0..count).collect());
}

fn set_order(event: &mut Event, step: u64) {
    set_groups(event, vec![0, 1, step.wrapping_add(1)]);
}

/// The one argument that only this call has.
fn set_other(event: &mut Event, new: u64) {
    match &mut event.call {
        Call::Connect { flags, .. } => *flags = new,
        Call::Prune { seconds, .. } => *seconds = new,
        Call::Delivery { kind, .. } => *kind = new,
        Call::Heartbeat { ask, .. } => *ask = new,
        Call::SetP5 { value, .. } => *value = new as i64,
        _ => {}
    }
}
