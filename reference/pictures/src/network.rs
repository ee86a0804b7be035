//! Some tens of hubs in one process, each a router of its own, joined by
//! queues with a small delay. One seed gives one run.

use crate::history::History;
use crate::router::{Action, Delivery, Numbers, Router};
use reference::event::{by_slot, OLD_SLOTS};
use reference::random::Random;
use std::collections::BTreeMap;

/// Milliseconds.
pub const SECOND: u64 = 1000;
pub const MINUTE: u64 = 60 * SECOND;

/// A message takes so long from hub to hub; a link keeps its delay, so that
/// nothing overtakes.
const DELAYS: (i64, i64) = (5, 40);

/// A copy that comes so soon after the first one is near-first.
const NEAR: u64 = 50;

/// Opportunism is asked for at every so many heartbeats.
const OPPORTUNISM: u64 = 60;

/// A pushy hub's GRAFTs, and a spoiler's messages, come every so many seconds.
const PUSH_EVERY: u64 = 5;
const SPOIL_EVERY: u64 = 25;

/// What a hub does beside its router's actions.
#[derive(Clone, Copy, PartialEq, Eq, Debug)]
pub enum Conduct {
    /// Passes messages on.
    Honest,
    /// Takes messages and passes none on.
    Silent,
    /// Silent, and sends GRAFTs whatever its backoff.
    Pushy,
    /// Silent, and sends invalid messages to its mesh.
    Spoiler,
}

/// What a scene has happen.
#[derive(Clone, Copy, PartialEq, Eq, Debug)]
pub enum Step {
    /// The first opens a connection to the second.
    Open(u32, u32),
    /// All connections of a hub break.
    CutOff(u32),
    Join(u32),
    Leave(u32),
    /// A hub has news of its own.
    Publish(u32),
}

/// What goes over a link.
#[derive(Clone, Copy, PartialEq, Eq, Debug)]
enum Packet {
    Subscribe,
    Unsubscribe,
    Graft,
    Prune { seconds: u32 },
    Message { number: usize },
    Invalid,
}

enum Event {
    Step(Step),
    Heartbeat(u32),
    /// `link` is the number of the connection that the packet was sent over.
    Arrival {
        link: usize,
        from: u32,
        to: u32,
        packet: Packet,
    },
}

struct Hub {
    group: u32,
    conduct: Conduct,
    router: Router,
    joined: bool,
    heartbeats: u64,
    /// When each message first came, by its number.
    seen: BTreeMap<usize, u64>,
}

#[derive(Clone, Copy)]
struct Link {
    number: usize,
    delay: u64,
}

pub struct Network {
    numbers: Numbers,
    random: Random,
    hubs: BTreeMap<u32, Hub>,
    /// By the two ids, the smaller one first.
    links: BTreeMap<(u32, u32), Link>,
    opened: usize,
    /// When each message was published, by its number.
    published: Vec<u64>,
    /// By time, and at one time in the order in which they were queued.
    queue: BTreeMap<(u64, usize), Event>,
    queued: usize,
    now: u64,
    watched: u32,
    history: History,
}

impl Network {
    /// A network with no hub yet; the history is that of the hub `watched`.
    pub fn new(numbers: Numbers, seed: u64, watched: u32) -> Network {
        Network {
            numbers,
            random: Random::new(seed),
            hubs: BTreeMap::new(),
            links: BTreeMap::new(),
            opened: 0,
            published: Vec::new(),
            queue: BTreeMap::new(),
            queued: 0,
            now: 0,
            watched,
            history: History::default(),
        }
    }

    /// Adds a hub that joins the topic at `start`; hubs do not beat in time
    /// with each other.
    pub fn add(&mut self, id: u32, group: u32, conduct: Conduct, start: u64) {
        let router = Router::new(&self.numbers);
        let hub =
            Hub { group, conduct, router, joined: false, heartbeats: 0, seen: BTreeMap::new() };
        self.hubs.insert(id, hub);
        self.at(start, Step::Join(id));
        let phase = self.random.below(SECOND as usize) as u64;
        self.queue(start + phase, Event::Heartbeat(id));
    }

    pub fn at(&mut self, time: u64, step: Step) {
        self.queue(time, Event::Step(step));
    }

    pub fn random(&mut self) -> &mut Random {
        &mut self.random
    }

    /// Runs up to a time, and gives what the watched hub saw.
    pub fn run(mut self, end: u64) -> History {
        while let Some(((time, _), event)) = self.queue.pop_first() {
            if time > end {
                break;
            }
            self.now = time;
            self.handle(event);
            self.history.note(time, &self.hubs[&self.watched].router);
        }
        let seen = &self.hubs[&self.watched].seen;
        for (number, &published) in self.published.iter().enumerate() {
            self.history.note_news(published, seen.contains_key(&number));
        }
        self.history
    }

    fn queue(&mut self, time: u64, event: Event) {
        self.queue.insert((time, self.queued), event);
        self.queued += 1;
    }

    fn hub(&mut self, id: u32) -> &mut Hub {
        self.hubs.get_mut(&id).expect("a scene names hubs that it has added")
    }

    fn handle(&mut self, event: Event) {
        match event {
            Event::Step(Step::Open(from, to)) => self.open(from, to),
            Event::Step(Step::CutOff(id)) => self.cut_off(id),
            Event::Step(Step::Join(id)) => self.join(id),
            Event::Step(Step::Leave(id)) => self.leave(id),
            Event::Step(Step::Publish(id)) => self.publish(id),
            Event::Heartbeat(id) => self.heartbeat(id),
            Event::Arrival { link, from, to, packet } => {
                // What was under way when a link broke is lost.
                if self.link(from, to).is_some_and(|open| open.number == link) {
                    self.arrive(from, to, packet);
                }
            }
        }
    }

    fn open(&mut self, from: u32, to: u32) {
        let delay = self.random.between(DELAYS.0, DELAYS.1) as u64;
        self.links.insert(pair(from, to), Link { number: self.opened, delay });
        self.opened += 1;
        self.connect(from, to, true);
        self.connect(to, from, false);
    }

    /// One end's part of a new connection; it says what it is subscribed to.
    fn connect(&mut self, id: u32, peer: u32, outbound: bool) {
        let (now, group) = (self.now, self.hub(peer).group);
        let hub = self.hub(id);
        hub.router.connect(now, peer, group, outbound);
        if hub.joined {
            self.send(id, peer, Packet::Subscribe);
        }
    }

    /// Both ends of every link see that it broke.
    fn cut_off(&mut self, id: u32) {
        let now = self.now;
        for peer in self.hub(id).router.connected() {
            self.links.remove(&pair(id, peer));
            self.hub(id).router.disconnect(now, peer);
            self.hub(peer).router.disconnect(now, id);
        }
    }

    fn join(&mut self, id: u32) {
        let now = self.now;
        let hub = self.hub(id);
        hub.router.join(now);
        hub.joined = true;
        for peer in hub.router.connected() {
            self.send(id, peer, Packet::Subscribe);
        }
    }

    fn leave(&mut self, id: u32) {
        let now = self.now;
        let hub = self.hub(id);
        let actions = hub.router.leave(now);
        hub.joined = false;
        self.carry_out(id, &actions);
        for peer in self.hub(id).router.connected() {
            self.send(id, peer, Packet::Unsubscribe);
        }
    }

    fn publish(&mut self, id: u32) {
        let (now, number) = (self.now, self.published.len());
        self.published.push(now);
        self.hub(id).seen.insert(number, now);
        for peer in self.hub(id).router.members() {
            self.send(id, peer, Packet::Message { number });
        }
    }

    fn heartbeat(&mut self, id: u32) {
        let now = self.now;
        // No hub has a peer past the old slots, so only these are drawn.
        let mut permutation = by_slot();
        self.random.shuffle(&mut permutation[..OLD_SLOTS]);
        let hub = self.hubs.get_mut(&id).expect("only hubs have heartbeats");
        hub.heartbeats += 1;
        let ask = hub.heartbeats.is_multiple_of(OPPORTUNISM);
        hub.router.decay(now);
        if id == self.watched {
            self.history.rate(now, &mut hub.router);
        }
        let actions = hub.router.heartbeat(now, ask, &permutation[..]);
        if id == self.watched {
            self.history.note_heartbeat(now, &hub.router);
        }
        self.carry_out(id, &actions);
        self.misbehave(id);
        self.queue(now + SECOND, Event::Heartbeat(id));
    }

    /// What a hub sends on its own account, once a second.
    fn misbehave(&mut self, id: u32) {
        let hub = self.hub(id);
        // Hubs of one conduct do not act all at one time.
        let (conduct, turn) = (hub.conduct, hub.heartbeats + u64::from(7 * id));
        if conduct == Conduct::Pushy && turn.is_multiple_of(PUSH_EVERY) {
            for peer in hub.router.connected() {
                self.send(id, peer, Packet::Graft);
            }
        } else if conduct == Conduct::Spoiler && turn.is_multiple_of(SPOIL_EVERY) {
            for peer in hub.router.members() {
                self.send(id, peer, Packet::Invalid);
            }
        }
    }

    fn arrive(&mut self, from: u32, to: u32, packet: Packet) {
        let now = self.now;
        let router = &mut self.hub(to).router;
        match packet {
            Packet::Subscribe => router.subscribe(now, from),
            Packet::Unsubscribe => router.unsubscribe(now, from),
            Packet::Graft => {
                let actions = router.graft(now, from);
                self.carry_out(to, &actions);
            }
            Packet::Prune { seconds } => router.prune(now, from, seconds),
            Packet::Message { number } => self.receive(from, to, number),
            Packet::Invalid => router.deliver(now, from, Delivery::Invalid),
        }
    }

    /// A valid message: the first copy is passed on to the mesh.
    fn receive(&mut self, from: u32, to: u32, number: usize) {
        let now = self.now;
        let hub = self.hub(to);
        let Some(&first) = hub.seen.get(&number) else {
            hub.seen.insert(number, now);
            hub.router.deliver(now, from, Delivery::First);
            if hub.conduct == Conduct::Honest {
                for peer in hub.router.members() {
                    if peer != from {
                        self.send(to, peer, Packet::Message { number });
                    }
                }
            }
            return;
        };
        if now <= first + NEAR {
            hub.router.deliver(now, from, Delivery::NearFirst);
        }
    }

    /// Sends what a router tells its hub to send.
    fn carry_out(&mut self, id: u32, actions: &[Action]) {
        for &action in actions {
            match action {
                Action::Graft { to } => self.send(id, to, Packet::Graft),
                Action::Prune { to, seconds } => self.send(id, to, Packet::Prune { seconds }),
            }
        }
    }

    fn send(&mut self, from: u32, to: u32, packet: Packet) {
        if let Some(Link { number, delay }) = self.link(from, to) {
            let arrival = Event::Arrival { link: number, from, to, packet };
            self.queue(self.now + delay, arrival);
        }
    }

    fn link(&self, one: u32, other: u32) -> Option<Link> {
        self.links.get(&pair(one, other)).copied()
    }
}

fn pair(one: u32, other: u32) -> (u32, u32) {
    (one.min(other), one.max(other))
}
