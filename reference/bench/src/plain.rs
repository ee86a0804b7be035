//! A plain Rust router written for speed: no heap, structs changed in place, a
//! peer's eight topics side by side so that the compiler takes several at once,
//! sets of topics and of slots as bits. It makes the same tests and the same thirteen calls as 01
//! wants, test 12 included, so that it can be timed against the proved one. The
//! second program is the judge of it (`tests/plain.rs`).

mod calls;
mod heartbeat;
mod score;
mod slots;
mod valid;

use reference::event::{Call, Event, GROUPS, LAST_TIME, SLOTS};
use reference::params::{general, Edition, Params, COUNT, TOPICS};
use reference::router::{Answer, Done, Refusal, ACTION_LIST, GRAFT, PRUNE};

#[derive(Clone, Copy, PartialEq, Eq, Debug, Default)]
#[repr(u8)]
pub enum Status {
    #[default]
    Empty,
    Connected,
    Retained,
}

/// A peer's records in the topics; the types are as narrow as 01's ranges.
#[derive(Clone, Copy, PartialEq, Eq, Debug, Default)]
pub struct Topics {
    pub graft_times: [u64; TOPICS],
    pub mesh_times: [u64; TOPICS],
    pub p3b: [u64; TOPICS],
    pub p2: [u32; TOPICS],
    pub p3: [u32; TOPICS],
    pub p4: [u32; TOPICS],
    /// Bit k: in topic k.
    pub subscribed: u8,
    pub member: u8,
}

#[derive(Clone, Copy, PartialEq, Eq, Debug, Default)]
pub struct Peer {
    pub id: u32,
    /// Lowest first, 0 past the last; how many there are stands below.
    pub groups: [u32; GROUPS],
    pub p5: i32,
    pub p7: u32,
    pub status: Status,
    pub group_count: u8,
    pub outbound: bool,
    pub explicit: bool,
    /// Speaks /meshsub/1.1.0 or /meshsub/1.2.0, and not /meshsub/1.0.0.
    pub v11: bool,
    pub retain_end: u64,
    pub backoff_ends: [u64; TOPICS],
    pub topics: Topics,
}

#[derive(Clone, PartialEq, Eq, Debug)]
pub struct Router {
    pub clock: u64,
    /// Bit k: topic k is joined.
    pub joined: u8,
    /// The parameters, which all fit 32 bits.
    pub edition: Edition,
    pub numbers: [i32; COUNT],
    pub peers: [Peer; SLOTS],
}

/// The lent list and how many actions it holds so far.
struct Actions<'a> {
    list: &'a mut [u32],
    count: usize,
}

impl Actions<'_> {
    fn push(&mut self, kind: u32, id: u32, seconds: u32) {
        let place = 3 * self.count;
        self.list[place..place + 3].copy_from_slice(&[kind, id, seconds]);
        self.count += 1;
    }
}

impl Router {
    /// A fresh router with parameters that are in order.
    pub fn new(params: &Params) -> Box<Router> {
        Box::new(Router {
            clock: 0,
            joined: 0,
            edition: params.edition,
            numbers: params.numbers.map(|number| number as i32),
            peers: [Peer::default(); SLOTS],
        })
    }

    /// Makes the call of an event.
    pub fn call(&mut self, event: &Event, list: &mut [u32]) -> Answer {
        let now = event.now;
        match event.call {
            Call::Connect { id, ref groups, flags, ref name } => {
                self.connect(now, id, groups, flags, name, list)
            }
            Call::Disconnect { id } => self.disconnect(now, id, list),
            Call::Join { topic } => self.join(now, topic, list),
            Call::Leave { topic } => self.leave(now, topic, list),
            Call::Subscribe { id, topic } => self.subscribe(now, id, topic, list),
            Call::Unsubscribe { id, topic } => self.unsubscribe(now, id, topic, list),
            Call::Graft { id, topic } => self.graft(now, id, topic, list),
            Call::Prune { id, topic, seconds } => self.prune(now, id, topic, seconds, list),
            Call::Delivery { id, topic, kind } => self.deliver(now, id, topic, kind, list),
            Call::SetP5 { id, value } => self.set_p5(now, id, value, list),
            Call::Heartbeat { topic, ask, ref permutation } => {
                self.heartbeat(now, topic, ask, permutation, list)
            }
            Call::Decay => self.decay(now, list),
            Call::Score { id } => self.score(now, id, list),
        }
    }

    /// The tests 12, 2, 8, 1, which every call begins with.
    fn admit(&self, in_range: bool, now: u64, list: &[u32]) -> Result<(), Refusal> {
        if !self.is_valid() {
            Err(Refusal::NotARouter)
        } else if !in_range || now > LAST_TIME {
            Err(Refusal::OutOfRange)
        } else if list.len() < ACTION_LIST {
            Err(Refusal::ShortActionList)
        } else if now < self.clock {
            Err(Refusal::ClockBack)
        } else {
            Ok(())
        }
    }

    fn done(&mut self, now: u64, count: usize) -> Answer {
        self.clock = now;
        Ok(Done::Actions(count))
    }

    /// Only the clock moves.
    fn ignored(&mut self, now: u64) -> Answer {
        self.clock = now;
        Err(Refusal::Ignored)
    }

    /// The slot of a connected id, or answer 3.
    fn connected(&self, id: u64) -> Result<usize, Refusal> {
        let holds = |peer: &Peer| u64::from(peer.id) == id && peer.status == Status::Connected;
        self.peers.iter().position(holds).ok_or(Refusal::NotConnected)
    }

    fn general(&self, place: usize) -> i64 {
        i64::from(self.numbers[place])
    }

    fn topic(&self, topic: usize) -> &[i32; reference::params::TOPIC_COUNT] {
        let from = reference::params::topic_index(topic, 0);
        let numbers = &self.numbers[from..from + reference::params::TOPIC_COUNT];
        numbers.try_into().expect("a topic has 16 numbers")
    }

    /// The backoff of a PRUNE in seconds.
    fn prune_backoff(&self) -> u64 {
        self.general(general::PRUNE_BACKOFF) as u64
    }

    fn is_joined(&self, topic: usize) -> bool {
        self.joined >> topic & 1 == 1
    }

    fn mesh_size(&self, topic: usize) -> usize {
        self.peers.iter().map(|peer| usize::from(peer.is_member(topic))).sum()
    }

    /// Out of the mesh, the later backoff end, and the action.
    fn send_prune(&mut self, slot: usize, topic: usize, end: u64, seconds: u64, to: &mut Actions) {
        let peer = &mut self.peers[slot];
        peer.leave_mesh(topic);
        peer.extend_backoff(topic, end);
        to.push(PRUNE, peer.id, if peer.v11 { seconds as u32 } else { 0 });
    }

    fn send_graft(&mut self, slot: usize, topic: usize, now: u64, to: &mut Actions) {
        let peer = &mut self.peers[slot];
        peer.enter_mesh(topic, now);
        to.push(GRAFT, peer.id, 0);
    }
}

impl Peer {
    fn groups(&self) -> &[u32] {
        &self.groups[..self.group_count as usize]
    }

    /// Whether a peer that has groups holds this one. All four places are compared at
    /// once; the group 0, which stands past the last as well, can only be the first.
    #[inline(always)]
    fn holds(&self, group: u32) -> bool {
        let [first, second, third, fourth] = self.groups;
        let later = (second == group) | (third == group) | (fourth == group);
        (first == group) | (later & (group != 0))
    }

    fn is_member(&self, topic: usize) -> bool {
        self.topics.member >> topic & 1 == 1
    }

    fn is_subscribed(&self, topic: usize) -> bool {
        self.topics.subscribed >> topic & 1 == 1
    }

    fn enter_mesh(&mut self, topic: usize, now: u64) {
        self.topics.member |= 1 << topic;
        self.topics.graft_times[topic] = now;
        self.topics.mesh_times[topic] = 0;
    }

    fn leave_mesh(&mut self, topic: usize) {
        self.topics.member &= !(1 << topic);
        self.topics.graft_times[topic] = 0;
        self.topics.mesh_times[topic] = 0;
    }

    fn extend_backoff(&mut self, topic: usize, end: u64) {
        let old = &mut self.backoff_ends[topic];
        *old = end.max(*old);
    }
}

fn is_id(id: u64) -> bool {
    id != 0 && id <= u64::from(u32::MAX)
}

fn is_topic(topic: u64) -> bool {
    topic < TOPICS as u64
}
