//! The load that is timed: a fixed list of calls on a router with so many connected
//! peers, in which each of the thirteen calls comes hundreds of times and nearly
//! all are answered by 0. The second program is the guide while it is recorded.

use reference::event::{by_slot, Call, Event, GROUPS, OLD_SLOTS, OUTBOUND_FLAG, SLOTS};
use reference::params::{Params, TOPICS};
use reference::random::Random;
use reference::router::{Router, ACTION_LIST};
use reference::trace::{self, TraceEdition};

const ROUNDS: u64 = 250;

/// How many peers are connected in a load, and how many groups each has.
#[derive(Clone, Copy)]
pub struct Size {
    pub connected: usize,
    pub groups: usize,
}

/// The loads that are timed: some of the slots, all of them, and all with four groups each.
pub const SIZES: [Size; 3] = [
    Size { connected: OLD_SLOTS, groups: 1 },
    Size { connected: SLOTS, groups: 1 },
    Size { connected: SLOTS, groups: GROUPS },
];

pub struct Load {
    pub size: Size,
    pub params: Params,
    /// The calls that fill the router.
    pub opening: Vec<Event>,
    /// The calls that are timed.
    pub events: Vec<Event>,
}

struct Recorder {
    size: Size,
    router: Router,
    random: Random,
    now: u64,
    events: Vec<Event>,
}

/// A router after the opening.
fn recorder(size: Size) -> Recorder {
    let params = Params::ordinary();
    let router = Router::new(params).expect("the ordinary parameters are accepted");
    let (random, events) = (Random::new(64), Vec::new());
    let mut recorder = Recorder { size, router, random, now: 0, events };
    recorder.open();
    recorder
}

/// The second program's router after the opening of a load.
pub fn opened(size: Size) -> Router {
    recorder(size).router
}

/// The recorded load, always the same.
pub fn load(size: Size) -> Load {
    let mut recorder = recorder(size);
    let opening = std::mem::take(&mut recorder.events);
    for round in 0..ROUNDS {
        recorder.now += 1000;
        recorder.round(round);
    }
    Load { size, params: Params::ordinary(), opening, events: recorder.events }
}

impl Load {
    /// The calls as a trace's bytes, those of the opening first and apart, so that a
    /// program need not record them again.
    pub fn to_bytes(&self) -> (Vec<u8>, Vec<u8>) {
        let bytes = |events: &[Event]| {
            events.iter().flat_map(|event| trace::write_event(TraceEdition::Three, event)).collect()
        };
        (bytes(&self.opening), bytes(&self.events))
    }

    pub fn from_bytes(size: Size, opening: &[u8], events: &[u8]) -> Load {
        let (opening, events) = (read(opening), read(events));
        Load { size, params: Params::ordinary(), opening, events }
    }
}

fn read(mut bytes: &[u8]) -> Vec<Event> {
    let mut events = Vec::new();
    while !bytes.is_empty() {
        let (event, length) =
            trace::read_event(TraceEdition::Three, bytes).expect("events that were written");
        events.push(event);
        bytes = &bytes[length..];
    }
    events
}

impl Recorder {
    fn push(&mut self, call: Call) {
        let event = Event { now: self.now, call };
        let _ = self.router.call(&event, &mut [0; ACTION_LIST]);
        self.events.push(event);
    }

    /// Peers 1 to as many as are connected, four to each group, every fourth outbound, all subscribed to all
    /// topics; meshes are filled by a heartbeat each.
    fn open(&mut self) {
        for id in 1..=self.size.connected as u64 {
            self.connect(id);
        }
        for topic in 0..TOPICS as u64 {
            self.push(Call::Join { topic });
            self.heartbeat(topic);
        }
        self.now = 60_000;
        self.push(Call::Decay);
    }

    fn connect(&mut self, id: u64) {
        let flags = if id.is_multiple_of(4) { OUTBOUND_FLAG } else { 0 };
        let name = if id.is_multiple_of(5) { b"/meshsub/1.0.0" } else { b"/meshsub/1.1.0" };
        let groups = (0..self.size.groups as u64).map(|place| 1000 * place + id / 4).collect();
        self.push(Call::Connect { id, groups, flags, name: name.to_vec() });
        for topic in 0..TOPICS as u64 {
            self.push(Call::Subscribe { id, topic });
        }
    }

    fn heartbeat(&mut self, topic: u64) {
        let mut permutation = by_slot();
        self.random.shuffle(&mut permutation[..]);
        self.push(Call::Heartbeat { topic, ask: self.now / 1000 % 2, permutation });
    }

    fn id(&mut self) -> u64 {
        1 + self.random.below(self.size.connected) as u64
    }

    /// A topic other than the last, which is left and joined in every round.
    fn topic(&mut self) -> u64 {
        self.random.below(TOPICS - 1) as u64
    }

    fn round(&mut self, round: u64) {
        let (gone, quiet, other) = (self.id(), self.id(), self.topic());
        self.push(Call::Disconnect { id: gone });
        self.connect(gone);
        self.push(Call::Unsubscribe { id: quiet, topic: other });
        self.push(Call::Subscribe { id: quiet, topic: other });
        let last = TOPICS as u64 - 1;
        self.heartbeat(last);
        self.push(Call::Leave { topic: last });
        self.push(Call::Join { topic: last });
        for _ in 0..3 {
            self.traffic();
        }
        self.heartbeat(round % last);
        let (id, value) = (self.id(), self.random.between(-500_000, 2_000_000));
        self.push(Call::SetP5 { id, value });
        let id = self.id();
        self.push(Call::Score { id });
        self.push(Call::Decay);
    }

    /// A GRAFT that is accepted, a few deliveries of a member, and its PRUNE.
    fn traffic(&mut self) {
        let topic = self.topic();
        let k = topic as usize;
        let is_candidate = |slot: &usize| self.router.is_candidate(*slot, k, self.now);
        let candidates: Vec<usize> = (0..SLOTS).filter(is_candidate).collect();
        if !candidates.is_empty() {
            let id = 1 + *self.random.pick(&candidates) as u64;
            self.push(Call::Graft { id, topic });
        }
        let mesh = self.router.mesh(k);
        if !mesh.is_empty() {
            let id = 1 + *self.random.pick(&mesh) as u64;
            for kind in [1, 1, 2] {
                self.push(Call::Delivery { id, topic, kind });
            }
            self.push(Call::Prune { id, topic, seconds: 5 });
        }
        if self.random.chance(1, 8) {
            let id = self.id();
            self.push(Call::Delivery { id, topic, kind: 3 });
        }
    }
}
