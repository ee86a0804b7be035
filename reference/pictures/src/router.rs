//! One hub's router: a table of its own, and the proved library's calls on it.
//! Nothing is decided here: arguments go in, and what comes back is read.

pub use hivepadlet::Numbers;

use hivepadlet::cells::{self, bit, end_cell, member_word};
use hivepadlet::{number, value, Cells, ACTION_NUMBERS, CELLS, GRAFT, NUMBERS, OUTBOUND, PRUNE};
use hivepadlet::{SLOTS, WHY_NUMBERS};

/// All hubs speak of one topic.
const TOPIC: u64 = 0;

const PROTOCOL: &[u8] = b"/meshsub/1.1.0";

/// The answer's numbers that a simulation may get: done, and ignored.
const DONE: u32 = 0;
const IGNORED: u32 = 11;

/// The ordinary parameters, as the library gives them.
pub fn ordinary() -> Numbers {
    let mut numbers = [0; NUMBERS];
    hivepadlet::ordinary(&mut numbers);
    numbers
}

/// What a router tells its host to send.
#[derive(Clone, Copy, PartialEq, Eq, Debug)]
pub enum Action {
    Graft { to: u32 },
    Prune { to: u32, seconds: u32 },
}

/// A message as its receiver judges it.
#[derive(Clone, Copy, PartialEq, Eq, Debug)]
pub enum Delivery {
    First = 1,
    NearFirst = 2,
    Invalid = 3,
}

/// What a table holds of one peer, in the topic.
#[derive(Clone, Copy, PartialEq, Eq, Debug)]
pub struct Peer {
    pub id: u32,
    /// False for a record that is kept after a disconnect.
    pub connected: bool,
    pub outbound: bool,
    pub member: bool,
    pub backoff_end: u64,
}

pub struct Router {
    table: Box<Cells>,
    list: [u32; ACTION_NUMBERS],
}

impl Router {
    pub fn new(numbers: &Numbers) -> Router {
        let mut table = Box::new([0; CELLS]);
        let result = hivepadlet::fresh(numbers, hivepadlet::EDITION_1, &mut table);
        assert_eq!(result, 0, "the parameters were refused");
        Router { table, list: [0; ACTION_NUMBERS] }
    }

    pub fn connect(&mut self, time: u64, id: u32, group: u32, outbound: bool) {
        let (id, group) = (u64::from(id), u64::from(group));
        let flags = if outbound { OUTBOUND } else { 0 };
        let groups = [group];
        let name = PROTOCOL;
        self.done(|table, list| hivepadlet::connect(table, time, id, &groups, flags, name, list));
    }

    pub fn disconnect(&mut self, time: u64, id: u32) {
        self.done(|table, list| hivepadlet::disconnect(table, time, u64::from(id), list));
    }

    pub fn join(&mut self, time: u64) {
        self.done(|table, list| hivepadlet::join(table, time, TOPIC, list));
    }

    pub fn leave(&mut self, time: u64) -> Vec<Action> {
        self.done(|table, list| hivepadlet::leave(table, time, TOPIC, list))
    }

    pub fn subscribe(&mut self, time: u64, id: u32) {
        self.done(|table, list| hivepadlet::subscribe(table, time, u64::from(id), TOPIC, list));
    }

    pub fn unsubscribe(&mut self, time: u64, id: u32) {
        self.done(|table, list| hivepadlet::unsubscribe(table, time, u64::from(id), TOPIC, list));
    }

    pub fn graft(&mut self, time: u64, id: u32) -> Vec<Action> {
        self.done(|table, list| hivepadlet::graft(table, time, u64::from(id), TOPIC, list))
    }

    pub fn prune(&mut self, time: u64, id: u32, seconds: u32) {
        let (id, seconds) = (u64::from(id), u64::from(seconds));
        self.done(|table, list| hivepadlet::prune(table, time, id, TOPIC, seconds, list));
    }

    pub fn deliver(&mut self, time: u64, id: u32, delivery: Delivery) {
        let (id, kind) = (u64::from(id), delivery as u64);
        self.done(|table, list| hivepadlet::deliver(table, time, id, TOPIC, kind, list));
    }

    pub fn heartbeat(&mut self, time: u64, ask: bool, permutation: &[u64]) -> Vec<Action> {
        let ask = u64::from(ask);
        self.done(|table, list| hivepadlet::heartbeat(table, time, TOPIC, ask, permutation, list))
    }

    pub fn decay(&mut self, time: u64) {
        self.done(|table, list| hivepadlet::decay(table, time, list));
    }

    /// A connected peer's score, in 10^-9 points.
    pub fn score(&mut self, time: u64, id: u32) -> i64 {
        let mut why = [0; WHY_NUMBERS];
        self.done(|table, list| hivepadlet::score(table, time, u64::from(id), &mut why, list));
        let [.., score] = why;
        score
    }

    /// The peers that the table has a record of, by slot.
    pub fn peers(&self) -> impl Iterator<Item = Peer> + '_ {
        (0..SLOTS).filter_map(|slot| self.peer(slot))
    }

    /// The ids of the mesh, by slot.
    pub fn members(&self) -> Vec<u32> {
        self.peers().filter(|peer| peer.member).map(|peer| peer.id).collect()
    }

    /// The ids of the connected peers, by slot.
    pub fn connected(&self) -> Vec<u32> {
        self.peers().filter(|peer| peer.connected).map(|peer| peer.id).collect()
    }

    fn peer(&self, slot: usize) -> Option<Peer> {
        let topic = TOPIC as usize;
        let flag = |word| bit(&self.table, word, slot);
        let seen = Peer {
            id: self.table[cells::ID + slot] as u32,
            connected: flag(cells::CONNECTED),
            outbound: flag(cells::OUTBOUND),
            member: flag(member_word(topic)),
            backoff_end: self.table[end_cell(slot, topic)],
        };
        (flag(cells::CONNECTED) || flag(cells::RETAINED)).then_some(seen)
    }

    /// Makes a call and gives its actions. A refusal would be a fault of the simulation,
    /// which makes no call that the rules refuse.
    fn done(&mut self, call: impl FnOnce(&mut Cells, &mut [u32]) -> u64) -> Vec<Action> {
        let result = call(&mut self.table, &mut self.list);
        let (number, count) = (number(result), value(result) as usize);
        assert!(number == DONE || number == IGNORED, "the router refused a call by {number}");
        self.list.chunks(3).take(count).map(action).collect()
    }
}

fn action(numbers: &[u32]) -> Action {
    match *numbers {
        [GRAFT, to, _] => Action::Graft { to },
        [PRUNE, to, seconds] => Action::Prune { to, seconds },
        _ => panic!("no action: {numbers:?}"),
    }
}
