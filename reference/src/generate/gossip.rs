//! Random calls of orders 6 and 7, mixed with those of 01. They know the router's state, so
//! that they reach its corners.

use super::calls::Caller;
use crate::event::{by_slot, Call, Event, LAST_TIME};
use crate::gossip::{AnyEvent, GossipCall, GossipEvent, NUMBER_LIST};
use crate::params::{general, TOPICS};
use crate::random::Random;
use crate::router::{Peer, Router, Status, Store, Version, MOST_STORED};
use crate::set_up::{SetUp, LIMITS};
use std::collections::VecDeque;

const NEWEST: &[u8] = b"/meshsub/1.2.0";

/// Numbers at and past the ends of the ranges of topics, ids and senders.
const EDGES: [u64; 8] = [0, 7, 8, 9, u32::MAX as u64, 1 << 32, (1 << 32) + 7, u64::MAX];

/// Set-up numbers in their ranges, often at an end, mostly small.
pub fn set_up(random: &mut Random) -> SetUp {
    SetUp::of_numbers(LIMITS.map(|(_, low, high)| {
        let high = if random.chance(1, 2) { high.min(low + 3) } else { high };
        random.often_an_end(low as i64, high as i64) as u64
    }))
}

/// A call that is planned; its time is found when its turn comes.
enum Planned {
    Old(Call),
    New(GossipCall),
}

pub struct GossipCaller {
    pub caller: Caller,
    /// The message numbers of the run.
    pool: Vec<u64>,
    queue: VecDeque<Planned>,
}

impl GossipCaller {
    pub fn new(mut caller: Caller) -> GossipCaller {
        let size = *caller.random.pick(&[3, 40, 40, 200]);
        let from = *caller.random.pick(&[0, 1, 1 << 40, u64::MAX - 199]);
        let pool = (0..size).map(|place| from + place).collect();
        GossipCaller { caller, pool, queue: VecDeque::new() }
    }

    /// The router on which the calls are to be made.
    pub fn router(&mut self) -> &mut Router {
        &mut self.caller.router
    }

    fn chance(&mut self, part: usize, whole: usize) -> bool {
        self.caller.random.chance(part, whole)
    }

    fn below(&mut self, bound: usize) -> usize {
        self.caller.random.below(bound)
    }

    pub fn next_event(&mut self) -> AnyEvent {
        if self.queue.is_empty() && self.chance(1, 12) {
            self.plan_burst();
        }
        let planned = if self.chance(9, 10) { self.queue.pop_front() } else { None };
        match planned {
            Some(Planned::Old(call)) => {
                let now = self.caller.next_time();
                AnyEvent::Old(Event { now, call })
            }
            Some(Planned::New(call)) => self.timed(call),
            None if self.chance(1, 2) => {
                let event = self.caller.next_event();
                AnyEvent::Old(self.newest(event))
            }
            None => {
                let call = self.single_call();
                self.timed(call)
            }
        }
    }

    /// At a time, now and then with a number out of its range.
    fn timed(&mut self, call: GossipCall) -> AnyEvent {
        let now = self.caller.next_time();
        let mut event = GossipEvent { now, call };
        if self.chance(1, 40) {
            self.spoil(&mut event);
        }
        AnyEvent::New(event)
    }

    /// Most peers come with version 1.2.0.
    fn newest(&mut self, mut event: Event) -> Event {
        if let Call::Connect { name, .. } = &mut event.call {
            if name.starts_with(b"/meshsub/1.") && name.len() == NEWEST.len() && self.chance(2, 3) {
                *name = NEWEST.to_vec();
            }
        }
        event
    }

    fn spoil(&mut self, event: &mut GossipEvent) {
        let edge = *self.caller.random.pick(&EDGES);
        if self.chance(1, 4) {
            event.now = *self.caller.random.pick(&[LAST_TIME + 1, u64::MAX]);
            return;
        }
        let first = self.chance(1, 2);
        match &mut event.call {
            GossipCall::Ask { topic, sender, .. } | GossipCall::Relay { topic, sender, .. } => {
                *(if first { topic } else { sender }) = edge;
            }
            GossipCall::Notice { id, .. } | GossipCall::IWant { id, .. } => *id = edge,
            GossipCall::Store { topic, .. } | GossipCall::Announce { topic, .. } => *topic = edge,
            GossipCall::IHave { numbers, .. } if first => numbers.resize(NUMBER_LIST + 1, edge),
            GossipCall::IHave { id, topic, .. } => *(if edge < 9 { topic } else { id }) = edge,
            GossipCall::Beat => {}
        }
    }

    // Arguments.

    /// A message number, often one that is stored.
    fn number(&mut self) -> u64 {
        let stored: Vec<u64> = self.caller.router.stores.iter().flat_map(Store::numbers).collect();
        if stored.is_empty() || self.chance(1, 2) {
            *self.caller.random.pick(&self.pool)
        } else {
            *self.caller.random.pick(&stored)
        }
    }

    /// Ourselves, or a peer, which may be gone.
    fn sender(&mut self) -> u64 {
        match self.chance(1, 3) {
            true => 0,
            false => self.caller.id(),
        }
    }

    /// A peer whose notices are heard, if there is one; now and then any.
    fn newest_peer(&mut self) -> u64 {
        let heard = |peer: &&Peer| peer.status == Status::Connected && peer.version == Version::V12;
        let ids: Vec<u32> = self.caller.router.peers.iter().filter(heard).map(|p| p.id).collect();
        if ids.is_empty() || self.chance(1, 8) {
            return self.caller.id();
        }
        u64::from(*self.caller.random.pick(&ids))
    }

    fn numbers(&mut self) -> Vec<u64> {
        let most = *self.caller.random.pick(&[1, 6, 6, NUMBER_LIST]);
        let count = self.caller.random.often_an_end(0, most as i64);
        (0..count).map(|_| self.number()).collect()
    }

    // Calls.

    fn single_call(&mut self) -> GossipCall {
        let topic = self.caller.topic();
        let number = self.number();
        match self.below(100) {
            0..=11 => GossipCall::Ask { topic, number, sender: self.sender() },
            12..=35 => GossipCall::Notice { id: self.newest_peer(), number },
            36..=49 => GossipCall::Relay { topic, number, sender: self.sender() },
            50..=57 => GossipCall::Beat,
            58..=69 => GossipCall::Store { topic, number },
            70..=79 => GossipCall::Announce { topic, permutation: self.caller.permutation() },
            80..=88 => GossipCall::IHave { id: self.caller.id(), topic, numbers: self.numbers() },
            _ => GossipCall::IWant { id: self.caller.id(), number },
        }
    }

    fn plan(&mut self, call: GossipCall) {
        self.queue.push_back(Planned::New(call));
    }

    fn plan_old(&mut self, call: Call) {
        self.queue.push_back(Planned::Old(call));
    }

    // Bursts: calls that belong together.

    fn plan_burst(&mut self) {
        let topic = self.caller.topic();
        match self.below(16) {
            0..=2 => self.plan_flood(),
            3 | 4 => self.plan_store(topic, 1),
            5 if self.chance(1, 2) => self.plan_store(topic, 3),
            5 | 6 => self.plan_wanting(),
            7 | 8 => self.plan_two_topics(),
            9 => self.plan_ihaves(topic),
            10 | 11 => self.plan_threshold(topic),
            12 => self.plan_return(topic),
            13 => self.plan_explicit(topic),
            _ => self.plan_beats(),
        }
    }

    /// One peer sends many notices, some of them twice, and a heartbeat comes between.
    fn plan_flood(&mut self) {
        let id = self.newest_peer();
        let mut numbers = self.pool.clone();
        self.caller.random.shuffle(&mut numbers);
        numbers.truncate(40);
        for (place, &number) in numbers.iter().enumerate() {
            self.plan(GossipCall::Notice { id, number });
            if self.chance(1, 12) {
                let number = numbers[self.below(place + 1)];
                self.plan(GossipCall::Notice { id, number });
                self.plan(GossipCall::Beat);
            }
        }
        self.plan_relays(id);
    }

    /// What a peer holds is relayed over the heartbeats until it goes.
    fn plan_relays(&mut self, id: u64) {
        let topic = self.caller.topic();
        let number = self.number();
        self.plan_old(Call::Join { topic });
        self.plan_old(Call::Subscribe { id, topic });
        self.plan_old(Call::Graft { id, topic });
        self.plan(GossipCall::Notice { id, number });
        for _ in 0..4 {
            self.plan(GossipCall::Relay { topic, number, sender: 0 });
            self.plan(GossipCall::Beat);
        }
    }

    /// A topic's store is filled in so many heartbeats, and announced.
    fn plan_store(&mut self, topic: u64, heartbeats: usize) {
        self.plan_old(Call::Join { topic });
        for heartbeat in 0..heartbeats {
            if heartbeat > 0 {
                self.plan(GossipCall::Beat);
            }
            let from = self.caller.random.bits() >> 1;
            // Some are refused on their way.
            for place in 0..MOST_STORED as u64 + 16 {
                self.plan(GossipCall::Store { topic, number: from + place });
            }
            self.plan(GossipCall::Store { topic, number: from });
        }
        self.plan(GossipCall::Announce { topic, permutation: by_slot() });
    }

    /// One peer wants one number more often than it may.
    fn plan_wanting(&mut self) {
        let (id, number) = (self.caller.id(), self.number());
        for _ in 0..=self.caller.router.set_up.iwant_bound {
            self.plan(GossipCall::IWant { id, number });
        }
        if self.chance(1, 2) {
            self.plan_back(id);
            self.plan(GossipCall::IWant { id, number });
        }
    }

    /// A number is stored in two topics and wanted too often; one topic lets it go, and then
    /// the other.
    fn plan_two_topics(&mut self) {
        let first = self.below(TOPICS) as u64;
        let second = (first + 1 + self.below(TOPICS - 1) as u64) % TOPICS as u64;
        let (id, number) = (self.caller.id(), self.number());
        for topic in [first, second] {
            self.plan_old(Call::Join { topic });
            self.plan(GossipCall::Store { topic, number });
            if self.chance(1, 3) {
                self.plan(GossipCall::Beat);
            }
        }
        for _ in 0..=self.caller.router.set_up.iwant_bound {
            self.plan(GossipCall::IWant { id, number });
        }
        for topic in [first, second] {
            match self.chance(1, 2) {
                true => self.plan_old(Call::Leave { topic }),
                false => self.plan_beats(),
            }
            self.plan(GossipCall::IWant { id, number });
        }
        self.plan_old(Call::Join { topic: first });
        self.plan(GossipCall::Store { topic: first, number });
        self.plan(GossipCall::IWant { id, number });
    }

    /// One peer sends more IHAVEs than it may, and comes back to send another.
    fn plan_ihaves(&mut self, topic: u64) {
        let id = self.caller.id();
        self.plan_old(Call::Join { topic });
        for _ in 0..=self.caller.router.set_up.ihave_bound {
            let numbers = self.numbers();
            self.plan(GossipCall::IHave { id, topic, numbers });
        }
        self.plan_back(id);
        self.plan(GossipCall::IHave { id, topic, numbers: vec![] });
    }

    /// A peer is brought beside the gossip threshold or below graylist, and speaks.
    fn plan_threshold(&mut self, topic: u64) {
        let (id, number) = (self.newest_peer(), self.number());
        let gossip = self.caller.router.gossip_threshold();
        let graylist = self.caller.router.params.general(general::GRAYLIST_THRESHOLD) * 1_000_000;
        let target = *self.caller.random.pick(&[gossip, gossip, graylist]);
        let value = self.caller.p5_for(id, target) + self.caller.random.between(-1, 1);
        self.plan_old(Call::Join { topic });
        self.plan_old(Call::Subscribe { id, topic });
        self.plan(GossipCall::Store { topic, number });
        self.plan(GossipCall::Notice { id, number });
        self.plan_old(Call::SetP5 { id, value });
        self.plan(GossipCall::Notice { id, number });
        self.plan(GossipCall::IHave { id, topic, numbers: vec![number] });
        self.plan(GossipCall::IWant { id, number });
        self.plan(GossipCall::Announce { topic, permutation: by_slot() });
    }

    /// A peer with notices, IHAVEs and replies of its own goes and comes back.
    fn plan_return(&mut self, topic: u64) {
        let (id, number) = (self.newest_peer(), self.number());
        self.plan_old(Call::Join { topic });
        self.plan(GossipCall::Store { topic, number });
        for _ in 0..2 {
            for number in self.pool.clone().into_iter().take(12) {
                self.plan(GossipCall::Notice { id, number });
            }
            self.plan(GossipCall::IWant { id, number });
            self.plan(GossipCall::IHave { id, topic, numbers: vec![number] });
            self.plan_back(id);
        }
    }

    fn plan_back(&mut self, id: u64) {
        let connect = Event { now: 0, call: self.caller.connect_of(id) };
        let connect = self.newest(connect).call;
        self.plan_old(Call::Disconnect { id });
        if self.chance(1, 4) {
            self.plan(GossipCall::Beat);
        }
        self.plan_old(connect);
    }

    /// An explicit peer hears, sends notices, and has any score.
    fn plan_explicit(&mut self, topic: u64) {
        let (id, number) = (self.caller.id(), self.number());
        let name = NEWEST.to_vec();
        self.plan_old(Call::Disconnect { id });
        self.plan_old(Call::Connect { id, groups: vec![1], flags: 2, name });
        self.plan_old(Call::Subscribe { id, topic });
        self.plan_old(Call::Join { topic });
        self.plan_old(Call::SetP5 { id, value: -1_000_000_000 });
        self.plan(GossipCall::Store { topic, number });
        self.plan(GossipCall::Relay { topic, number, sender: 0 });
        self.plan(GossipCall::Notice { id, number });
        self.plan(GossipCall::Relay { topic, number, sender: 0 });
        self.plan(GossipCall::Relay { topic, number, sender: id });
        self.plan(GossipCall::IHave { id, topic, numbers: vec![number, number] });
        self.plan(GossipCall::IWant { id, number });
    }

    fn plan_beats(&mut self) {
        for _ in 0..=self.below(5) {
            self.plan(GossipCall::Beat);
        }
    }
}
