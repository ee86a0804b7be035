//! A host with one router, for short tests.

use reference::event::{by_slot, Call, Event};
use reference::generate::params::with;
use reference::gossip::{GossipCall, GossipEvent, NUMBER_LIST};
use reference::params::Params;
use reference::router::{number, Done, Router, ACTION_LIST};
use reference::set_up::SetUp;

pub const EXPLICIT: u64 = 2;

/// A number that no call writes, to see what stays.
const MARK: u32 = 77;

pub type Action = [u32; 3];

pub struct Host {
    pub router: Router,
}

impl Host {
    pub fn new(set_up: SetUp, changes: &[(usize, i64)]) -> Host {
        let params = with(&Params::ordinary(), changes);
        Host { router: Router::with_set_up(params, set_up).expect("good numbers") }
    }

    /// One of 01's calls, at the clock.
    pub fn call(&mut self, call: Call) -> (u32, Vec<Action>) {
        let event = Event { now: self.router.clock, call };
        let mut list = [MARK; ACTION_LIST + 3];
        let answer = self.router.call(&event, &mut list);
        let count = if let Ok(Done::Actions(count)) = answer { count } else { 0 };
        (number(&answer), actions_of(&list, count))
    }

    /// A call that is answered 0 with no action.
    pub fn done(&mut self, call: Call) {
        assert_eq!(self.call(call), (0, vec![]));
    }

    pub fn gossip(&mut self, call: GossipCall) -> (u32, Vec<Action>) {
        let now = self.router.clock;
        self.gossip_at(now, call)
    }

    pub fn gossip_at(&mut self, now: u64, call: GossipCall) -> (u32, Vec<Action>) {
        let (answer, actions, numbers) = self.told_at(now, call);
        assert!(numbers.is_empty());
        (answer, actions)
    }

    /// A call with the numbers that it leaves in the lent list.
    pub fn told(&mut self, call: GossipCall) -> (u32, Vec<Action>, Vec<u64>) {
        let now = self.router.clock;
        self.told_at(now, call)
    }

    fn told_at(&mut self, now: u64, call: GossipCall) -> (u32, Vec<Action>, Vec<u64>) {
        let mut list = [MARK; ACTION_LIST + 3];
        let mut numbers = [u64::from(MARK); NUMBER_LIST + 1];
        let answer = self.router.gossip(&GossipEvent { now, call }, &mut list, &mut numbers);
        let given = answer.unwrap_or_default();
        let past = &numbers[given.numbers..];
        assert!(past.iter().all(|&number| number == u64::from(MARK)), "numbers past those told");
        let told = numbers[..given.numbers].to_vec();
        (number(&answer), actions_of(&list, given.actions), told)
    }

    pub fn beat(&mut self) {
        assert_eq!(self.gossip(GossipCall::Beat), (0, vec![]));
    }

    /// A peer of version 1.`minor`.0 in a group of its own.
    pub fn connect(&mut self, id: u64, minor: u8, flags: u64) {
        let name = format!("/meshsub/1.{minor}.0").into_bytes();
        self.done(Call::Connect { id, groups: vec![id], flags, name });
    }

    pub fn subscribe(&mut self, id: u64, topic: u64) {
        self.done(Call::Subscribe { id, topic });
    }

    /// A connected and subscribed peer that enters the mesh of a joined topic.
    pub fn member(&mut self, id: u64, minor: u8, topic: u64) {
        self.connect(id, minor, 0);
        self.subscribe(id, topic);
        self.done(Call::Graft { id, topic });
    }

    pub fn slot(&self, id: u32) -> usize {
        self.router.connected(id).expect("connected")
    }

    /// Answers a damaged copy of the tables: a call that would be answered 0 otherwise.
    pub fn damaged(&self, damage: impl FnOnce(&mut Router)) -> u32 {
        let mut copy = Host { router: self.router.clone() };
        assert!(copy.router.is_valid());
        damage(&mut copy.router);
        let damaged = copy.router.clone();
        let old = number(&copy.router.call(&decay(&damaged), &mut [0; ACTION_LIST]));
        let new = copy.gossip(GossipCall::Beat).0;
        assert_eq!(old, new, "old and new calls make the same test 12");
        assert!(old == 0 || copy.router == damaged, "a refusal changes nothing");
        old
    }
}

fn decay(router: &Router) -> Event {
    Event { now: router.clock, call: Call::Decay }
}

/// The actions in front; the numbers past them are unchanged.
fn actions_of(list: &[u32], count: usize) -> Vec<Action> {
    assert!(list[3 * count..].iter().all(|&number| number == MARK), "numbers past the actions");
    list[..3 * count].chunks(3).map(|a| [a[0], a[1], a[2]]).collect()
}

/// A tidy that draws the slots in their order.
pub fn tidy(topic: u64) -> Call {
    Call::Heartbeat { topic, ask: 0, permutation: by_slot() }
}
