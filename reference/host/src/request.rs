//! A call as it is made on both sides: an event of the second program, the length of the action list,
//! and a permutation of any length.

use reference::event::{by_slot, Call, Event, Permutation, LAST_TIME, OLD_SLOTS, SLOTS};
use reference::random::Random;
use reference::router::{Router, Status, ACTION_LIST};
use reference::text::{self, Line};
use reference::trace::TraceEdition;

/// The lengths of action lists that every call is to meet: refused, and long enough.
pub const SHORT_LISTS: [usize; 8] =
    [0, 1, 2, 3, OLD_LIST, ACTION_LIST - 3, ACTION_LIST - 2, ACTION_LIST - 1];
pub const LONG_LISTS: [usize; 5] =
    [ACTION_LIST, ACTION_LIST + 1, ACTION_LIST + 2, ACTION_LIST + 3, ACTION_LIST + 100];

/// What was enough for the old slots.
const OLD_LIST: usize = 3 * OLD_SLOTS;

/// The lengths of lists of slots that are no permutation by their length alone.
pub const ODD_PERMUTATIONS: [usize; 11] = [
    0,
    1,
    32,
    OLD_SLOTS - 1,
    OLD_SLOTS,
    SLOTS - 2,
    SLOTS - 1,
    SLOTS + 1,
    SLOTS + 2,
    2 * SLOTS,
    1000,
];

/// How many groups are more than a record holds.
const MANY_GROUPS: [usize; 4] = [5, 6, 8, 1000];

const ODD_NAMES: [usize; 9] = [0, 1, 13, 15, 16, 28, 65, 256, 1000];

#[derive(Clone, PartialEq, Eq, Debug)]
pub struct Request {
    pub event: Event,
    /// A heartbeat's list of slots, where it has another length than theirs.
    odd_permutation: Option<Vec<u64>>,
    /// How many numbers the lent action list has.
    pub list: usize,
}

impl Request {
    pub fn plain(event: Event) -> Request {
        Request { event, odd_permutation: None, list: ACTION_LIST }
    }

    /// A call at a time, with a list that is just long enough.
    pub fn at(now: u64, call: Call) -> Request {
        Request::plain(Event { now, call })
    }

    /// The event with a list of some length and, now and then, with a permutation or a name of a length
    /// that no trace can give it.
    pub fn dressed(event: Event, random: &mut Random) -> Request {
        // Leaves are few, and are to meet every length as well.
        let seldom = matches!(event.call, Call::Leave { .. });
        let mut request = Request::plain(event);
        request.list = if seldom && random.chance(1, 4) {
            *random.pick(&SHORT_LISTS)
        } else {
            list_length(random)
        };
        if random.chance(1, 24) {
            request.set_permutation(*random.pick(&ODD_PERMUTATIONS), random);
        }
        if let Call::Connect { groups, name, .. } = &mut request.event.call {
            if random.chance(1, 60) {
                // More than a record holds, which no trace can give it.
                let first = groups.first().copied().unwrap_or(0);
                *groups =
                    (0..*random.pick(&MANY_GROUPS) as u64).map(|k| first.wrapping_add(k)).collect();
            }
            if random.chance(1, 60) {
                let length = *random.pick(&ODD_NAMES);
                *name = name.iter().copied().chain([0; 1000]).take(length).collect();
            }
        }
        request
    }

    /// Cuts or lengthens a heartbeat's permutation.
    fn set_permutation(&mut self, length: usize, random: &mut Random) {
        let Call::Heartbeat { permutation, .. } = &mut self.event.call else { return };
        self.odd_permutation = Some(odd_slots(permutation, length, random));
    }

    /// The slots that the library is handed.
    pub fn permutation<'a>(&'a self, of_event: &'a Permutation) -> &'a [u64] {
        self.odd_permutation.as_deref().unwrap_or(of_event)
    }

    /// The length of a heartbeat's list of slots.
    pub fn permutation_length(&self) -> Option<usize> {
        match &self.event.call {
            Call::Heartbeat { permutation, .. } => Some(self.permutation(permutation).len()),
            _ => None,
        }
    }

    /// The call as text, as in traces, with what a trace cannot say as a comment.
    pub fn text(&self) -> String {
        let line = Line::Event(self.event.clone());
        let mut out = text::print_line(TraceEdition::Three, &line);
        if let Some(slots) = &self.odd_permutation {
            out += &format!("  # permutation of {} numbers: {slots:?}", slots.len());
        }
        if self.list != ACTION_LIST {
            out += &format!("  # action list of {} numbers", self.list);
        }
        out
    }
}

/// A permutation cut or lengthened. The second program takes all slots and no other number of them; it gets so
/// many that are no permutation, since a list of another length is none.
pub fn odd_slots(permutation: &mut Permutation, length: usize, random: &mut Random) -> Vec<u64> {
    let more = match random.below(3) {
        0 => permutation.to_vec(),
        1 => vec![0; length],
        _ => (SLOTS as u64..).take(length).collect(),
    };
    // Often each of the first so many slots once.
    let lowest = if random.chance(1, 2) { length as u64 } else { u64::MAX };
    let slots = permutation.iter().filter(|&&slot| slot < lowest).chain(more.iter().cycle());
    let slots = slots.copied().take(length).collect();
    *permutation = [SLOTS as u64; SLOTS];
    slots
}

pub fn list_length(random: &mut Random) -> usize {
    match random.below(100) {
        0..=4 => *random.pick(&SHORT_LISTS),
        5 => random.below(ACTION_LIST),
        6..=45 => ACTION_LIST,
        46..=80 => *random.pick(&LONG_LISTS),
        _ => ACTION_LIST + random.below(220),
    }
}

/// The thirteen calls with arguments that a router in this state would mostly hear: a connected id, a
/// joined topic, the clock's own time.
pub fn thirteen(router: &Router, random: &mut Random) -> Vec<Request> {
    let now = router.clock.min(LAST_TIME);
    let connected = ids(router, Status::Connected);
    let id = if connected.is_empty() { 1 } else { *random.pick(&connected) };
    let joined: Vec<u64> = (0..8).filter(|&k| router.joined[k as usize]).collect();
    let topic = if joined.is_empty() { 0 } else { *random.pick(&joined) };
    let mut permutation = by_slot();
    random.shuffle(&mut permutation[..]);
    let name = random.pick(&[b"/meshsub/1.0.0", b"/meshsub/1.1.0", b"/meshsub/1.2.0"]).to_vec();
    let new = new_id(router, random);
    let (kind, ask) = (1 + random.below(3) as u64, random.below(2) as u64);
    let calls = [
        Call::Connect {
            id: new,
            groups: vec![random.below(4) as u64, 4 + random.below(4) as u64],
            flags: random.below(4) as u64,
            name,
        },
        Call::Disconnect { id },
        Call::Join { topic: random.below(8) as u64 },
        Call::Leave { topic },
        Call::Subscribe { id, topic },
        Call::Unsubscribe { id, topic },
        Call::Graft { id, topic },
        Call::Prune { id, topic, seconds: random.below(4000) as u64 },
        Call::Delivery { id, topic, kind },
        Call::SetP5 { id, value: random.between(-1_000_000_000, 1_000_000_000) },
        Call::Heartbeat { topic, ask, permutation },
        Call::Decay,
        Call::Score { id },
    ];
    calls.into_iter().map(|call| Request::at(now, call)).collect()
}

fn ids(router: &Router, status: Status) -> Vec<u64> {
    let peers = router.peers.iter().filter(|peer| peer.status == status);
    peers.map(|peer| u64::from(peer.id)).collect()
}

/// A retained id, or one that no record holds.
fn new_id(router: &Router, random: &mut Random) -> u64 {
    let retained = ids(router, Status::Retained);
    if !retained.is_empty() && random.chance(1, 2) {
        return *random.pick(&retained);
    }
    let taken = |id: u64| router.peers.iter().any(|peer| u64::from(peer.id) == id);
    (1..).find(|&id| !taken(id)).expect("no more ids than records")
}

/// The calls again, each with one more reason to be refused: too large a time, a short list, an early
/// time. Test 12 comes before them all.
pub fn also_bad(requests: &mut [Request], random: &mut Random) {
    for request in requests {
        match random.below(5) {
            0 => request.event.now = LAST_TIME + 1,
            1 => request.list = random.below(ACTION_LIST),
            2 => request.event.now = request.event.now.saturating_sub(1),
            _ => {}
        }
    }
}
