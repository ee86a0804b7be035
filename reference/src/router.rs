//! The mesh router of 01: its tables, and the one entry by which every call
//! comes in.

mod connection;
mod control;
mod gossip;
mod heartbeat;
mod notices;
mod score;
mod stores;
mod tables;

pub use connection::Place;
pub use control::GraftCase;
pub use gossip::{Given, GossipAnswer};
pub use heartbeat::{is_permutation, Plan, Swap};
pub use notices::{Notice, NoticeCase, IDONTWANT, MOST_NOTICES, NOTICE_LIFE, RELAY};
pub use score::Why;
pub use stores::{IHaveCase, IWantCase, Store, StoreCase, IHAVE, MOST_STORED, STORED_HEARTBEATS};
pub use tables::{
    Groups, Peer, Status, TopicRecord, Version, GRAFT_SLACK, LONGEST_BACKOFF_MS, LONGEST_RETAIN_MS,
    P3B_LIMIT, P4_P7_LIMIT,
};

use crate::event::{Call, Event, SLOTS};
use crate::params::{self, general, Params, TOPICS};
use crate::set_up::SetUp;

/// An action list has three numbers for each slot.
pub const ACTION_LIST: usize = 3 * SLOTS;

/// The first number of an action.
pub const GRAFT: u32 = 1;
pub const PRUNE: u32 = 2;

/// 01, "Calls and their order of tests": why a call is not done.
#[derive(Clone, Copy, PartialEq, Eq, Debug)]
pub enum Refusal {
    ClockBack = 1,
    OutOfRange = 2,
    NotConnected = 3,
    AlreadyConnected = 4,
    NoSlot = 5,
    UnknownProtocol = 6,
    BadPermutation = 7,
    ShortActionList = 8,
    Ignored = 11,
    NotARouter = 12,
    /// 02: a save's buffer (order 8) or a heartbeat's store (order 7) has no room for it.
    NoRoom = 13,
}

/// What an accepted call gives back.
#[derive(Clone, Copy, PartialEq, Eq, Debug)]
pub enum Done {
    Actions(usize),
    Score(Why),
}

pub type Answer = Result<Done, Refusal>;

/// The number of 01's table for an answer.
pub fn number<T>(answer: &Result<T, Refusal>) -> u32 {
    match answer {
        Ok(_) => 0,
        Err(refusal) => *refusal as u32,
    }
}

#[derive(Clone, PartialEq, Eq, Debug)]
pub struct Router {
    pub params: Params,
    pub set_up: SetUp,
    pub clock: u64,
    pub joined: [bool; TOPICS],
    pub peers: Vec<Peer>,
    /// Order 7 of 02: the message numbers of each topic.
    pub stores: [Store; TOPICS],
    /// A joint rule that this router does without: none, but in the experiment
    /// that shows what the rule is for.
    pub waived_rule: Option<usize>,
}

impl Router {
    /// A fresh router; answer 9 if the parameters are broken.
    pub fn new(params: Params) -> Result<Router, params::Refusal> {
        params.check()?;
        Ok(Router::unchecked(params))
    }

    /// A fresh router of all orders, with set-up numbers: 2 if one is out of its range,
    /// "tested before the sheet".
    pub fn with_set_up(params: Params, set_up: SetUp) -> Result<Router, params::Refusal> {
        set_up.check()?;
        Ok(Router { set_up, ..Router::new(params)? })
    }

    /// A fresh router whose parameters nobody has checked.
    pub fn unchecked(params: Params) -> Router {
        Router {
            params,
            set_up: SetUp::ORDINARY,
            clock: 0,
            joined: [false; TOPICS],
            peers: vec![Peer::default(); SLOTS],
            stores: Default::default(),
            waived_rule: None,
        }
    }

    /// Makes a call. A refusal changes nothing; an ignored call moves only the
    /// clock; past the actions the lent list stays as it was.
    pub fn call(&mut self, event: &Event, list: &mut [u32]) -> Answer {
        let answer = self.attempt(event, list);
        if matches!(answer, Ok(_) | Err(Refusal::Ignored)) {
            self.clock = event.now;
        }
        answer
    }

    /// 01: "Tests run in the order 12, 2, 8, 1, 6, 7, 3, 4, 5, 11". The first
    /// four are common; each call below makes its own of the others in order,
    /// and only then changes anything.
    fn attempt(&mut self, event: &Event, list: &mut [u32]) -> Answer {
        refuse_if(!self.is_valid(), Refusal::NotARouter)?;
        refuse_if(!event.in_range(), Refusal::OutOfRange)?;
        refuse_if(list.len() < ACTION_LIST, Refusal::ShortActionList)?;
        refuse_if(event.now < self.clock, Refusal::ClockBack)?;
        let mut actions = Actions { list, count: 0 };
        let score = self.dispatch(event, &mut actions)?;
        Ok(score.unwrap_or(Done::Actions(actions.count)))
    }

    /// Hands a call, whose arguments are in range, to its rule. Only the score
    /// gives something back besides its actions.
    fn dispatch(&mut self, event: &Event, actions: &mut Actions) -> Result<Option<Done>, Refusal> {
        let now = event.now;
        match event.call {
            Call::Connect { id, ref groups, flags, ref name } => {
                self.connect(now, id as u32, groups, flags, name)
            }
            Call::Disconnect { id } => self.disconnect(now, id as u32),
            Call::Join { topic } => self.join(topic as usize),
            Call::Leave { topic } => self.leave(now, topic as usize, actions),
            Call::Subscribe { id, topic } => self.subscribe(id as u32, topic as usize),
            Call::Unsubscribe { id, topic } => self.unsubscribe(id as u32, topic as usize),
            Call::Graft { id, topic } => self.graft(now, id as u32, topic as usize, actions),
            Call::Prune { id, topic, seconds } => {
                self.prune(now, id as u32, topic as usize, seconds)
            }
            Call::Delivery { id, topic, kind } => self.deliver(id as u32, topic as usize, kind),
            Call::SetP5 { id, value } => self.set_p5(id as u32, value),
            Call::Heartbeat { topic, ask, ref permutation } => {
                self.heartbeat(now, topic as usize, ask == 1, permutation, actions)
            }
            Call::Decay => {
                self.decay(now);
                Ok(())
            }
            Call::Score { id } => {
                let slot = self.connected(id as u32)?;
                return Ok(Some(Done::Score(self.why(slot))));
            }
        }?;
        Ok(None)
    }

    /// 01, answer 3: "no connected record holds the id".
    pub fn connected(&self, id: u32) -> Result<usize, Refusal> {
        let holds = |peer: &Peer| peer.status == Status::Connected && peer.id == id;
        self.peers.iter().position(holds).ok_or(Refusal::NotConnected)
    }

    /// The slots of a topic's mesh, in their order.
    pub fn mesh(&self, topic: usize) -> Vec<usize> {
        (0..SLOTS).filter(|&slot| self.peers[slot].topics[topic].member).collect()
    }

    /// Setting P5 knows no graylist.
    fn set_p5(&mut self, id: u32, value: i64) -> Result<(), Refusal> {
        let slot = self.connected(id)?;
        self.peers[slot].p5 = value;
        Ok(())
    }

    /// A member from now on: its graft time is now, its mesh time 0.
    fn enter_mesh(&mut self, slot: usize, topic: usize, now: u64) {
        let record = &mut self.peers[slot].topics[topic];
        record.member = true;
        record.graft_time = now;
        record.mesh_time = 0;
    }

    /// PRUNEs a peer: out of the mesh, the backoff's end the later of the old
    /// and the new, and the action told with its seconds (01, "Actions").
    fn send_prune(
        &mut self,
        slot: usize,
        topic: usize,
        now: u64,
        seconds: u64,
        actions: &mut Actions,
    ) {
        let peer = &mut self.peers[slot];
        peer.leave_mesh(topic);
        peer.extend_backoff(topic, now + 1000 * seconds);
        let told = match peer.version {
            Version::V10 => 0,
            Version::V11 | Version::V12 => seconds as u32,
        };
        actions.push([PRUNE, peer.id, told]);
    }

    fn prune_backoff(&self) -> u64 {
        self.params.general(general::PRUNE_BACKOFF) as u64
    }
}

fn refuse_if(holds: bool, refusal: Refusal) -> Result<(), Refusal> {
    if holds {
        Err(refusal)
    } else {
        Ok(())
    }
}

/// The lent list and how many actions it holds so far.
struct Actions<'a> {
    list: &'a mut [u32],
    count: usize,
}

impl Actions<'_> {
    fn push(&mut self, action: [u32; 3]) {
        let place = 3 * self.count;
        self.list[place..place + 3].copy_from_slice(&action);
        self.count += 1;
    }
}
