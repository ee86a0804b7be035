//! Random calls that know the router's state, so that they reach its corners.

use crate::event::*;
use crate::groups;
use crate::params::{general, topic, TOPICS};
use crate::random::Random;
use crate::router::{Answer, Router, Status, ACTION_LIST, GRAFT_SLACK};
use crate::trace::{self, TraceEdition};
use std::collections::VecDeque;

const NAMES: [&[u8]; 3] = [b"/meshsub/1.0.0", b"/meshsub/1.1.0", b"/meshsub/1.2.0"];

/// The ends of the ranges of ids, groups, topics, flags, kinds, asks, times and
/// (as codes) P5, and the numbers one past them.
const EDGES: [u64; 18] = [
    0,
    1,
    2,
    3,
    4,
    7,
    8,
    SLOTS as u64 - 1,
    u32::MAX as u64,
    1 << 32,
    (1 << 32) + 7,
    LAST_TIME,
    LAST_TIME + 1,
    2 * P5_LIMIT as u64 - 1,
    2 * P5_LIMIT as u64,
    2 * P5_LIMIT as u64 + 1,
    2 * P5_LIMIT as u64 + 2,
    u64::MAX,
];

/// A backoff that ends within so many milliseconds is waited for.
const SOON: u64 = 70_000;

/// The size of a run: which ids come, in how many groups and topics; and the edition that
/// tells how many slots a permutation orders.
pub struct Scene {
    pub edition: TraceEdition,
    pub ids: Vec<u64>,
    pub groups: u64,
    pub topics: usize,
    /// Of four connections, how many are outbound.
    pub outbound: usize,
    /// Whether meshes are crowded over D_hi again and again.
    pub crowding: bool,
    /// Whether much happens in the first second, in which an end of 0 has no slack.
    pub slow_start: bool,
}

/// Makes events and makes each on a router of its own as well.
pub struct Caller {
    pub router: Router,
    pub random: Random,
    scene: Scene,
    /// Calls planned already, each with a wait before it. A heartbeat's
    /// permutation is made only when its turn comes, since it looks at the mesh.
    queue: VecDeque<(u64, Call)>,
    gathering_next: bool,
}

impl Caller {
    pub fn new(router: Router, scene: Scene, random: Random) -> Caller {
        Caller { router, random, scene, queue: VecDeque::new(), gathering_next: false }
    }

    pub fn next_event(&mut self) -> Event {
        if self.queue.is_empty() {
            self.plan_more();
        }
        let planned = self.queue.pop_front();
        let (wait, mut call) = planned.unwrap_or_else(|| (0, self.single_call()));
        if let Call::Heartbeat { permutation, .. } = &mut call {
            *permutation = self.permutation();
        }
        let now = match (wait, &call) {
            (0, &Call::Heartbeat { topic, .. }) if self.random.chance(1, 4) => {
                self.time_beside_slack(topic as usize)
            }
            (0, _) => self.next_time(),
            _ => LAST_TIME.min(self.router.clock + wait),
        };
        let mut event = Event { now, call };
        if self.random.chance(1, 40) {
            self.spoil(&mut event);
        }
        event
    }

    /// Makes the event on the own router.
    pub fn apply(&mut self, event: &Event) -> Answer {
        self.router.call(event, &mut [0; ACTION_LIST])
    }

    /// Calls whose answers lay the tables open: every score, every mesh.
    pub fn survey(&self) -> Vec<Event> {
        let now = self.router.clock;
        let scores = self.ids_of(Status::Connected).into_iter().map(|id| Call::Score { id });
        let leaves = (0..TOPICS as u64).map(|topic| Call::Leave { topic });
        let retained = self.ids_of(Status::Retained).into_iter();
        let returns = retained.flat_map(|id| {
            let name = NAMES[1].to_vec();
            [Call::Connect { id, groups: vec![0], flags: 0, name }, Call::Score { id }]
        });
        scores.chain(leaves).chain(returns).map(|call| Event { now, call }).collect()
    }

    // Times.

    /// Mostly the clock or a little later; now and then just beside an instant
    /// at which something ends, or a time to be refused.
    pub(super) fn next_time(&mut self) -> u64 {
        let clock = self.router.clock;
        if self.scene.slow_start && clock < GRAFT_SLACK && self.random.chance(19, 20) {
            return clock + self.random.below(10) as u64;
        }
        let time = match self.random.below(400) {
            0..=229 => clock,
            230..=309 => clock + self.random.below(2000) as u64,
            310..=379 => self.instant() + self.random.below(3) as u64,
            380..=389 => clock.saturating_sub(1 + self.random.below(3) as u64),
            _ => clock + self.random.below(100_000) as u64,
        };
        LAST_TIME.min(time)
    }

    /// One millisecond before a backoff or a retain period ends, or before a
    /// member's P3 counts.
    fn instant(&mut self) -> u64 {
        let router = &self.router;
        let mut instants = vec![router.clock + 1];
        for peer in &router.peers {
            instants.push(peer.retain_end);
            instants.extend(peer.backoff_ends);
            for (k, record) in peer.topics.iter().enumerate().filter(|(_, r)| r.member) {
                let activation = router.params.topic(k, topic::ACTIVATION) as u64;
                instants.push(record.graft_time + activation);
            }
        }
        instants.retain(|&instant| instant > router.clock);
        self.random.pick(&instants) - 1
    }

    /// A heartbeat's time beside the instant at which our own GRAFT may go out again
    /// to a subscribed peer, or beside the end of the backoff before it.
    fn time_beside_slack(&mut self, topic: usize) -> u64 {
        let clock = self.router.clock;
        let waits = self.router.peers.iter().filter(|peer| {
            let record = &peer.topics[topic];
            record.subscribed && !record.member && peer.backoff_ends[topic] > 0
        });
        let ends: Vec<u64> = waits.map(|peer| peer.backoff_ends[topic]).collect();
        let soon = |end: &u64| (clock..clock + SOON).contains(&(end + GRAFT_SLACK));
        let ends: Vec<u64> = ends.into_iter().filter(soon).collect();
        if ends.is_empty() {
            return self.next_time();
        }
        let beside = [0, 1, 500, GRAFT_SLACK - 1, GRAFT_SLACK, GRAFT_SLACK, GRAFT_SLACK + 1];
        let time = self.random.pick(&ends) + self.random.pick(&beside);
        time.clamp(clock, LAST_TIME)
    }

    // Arguments.

    pub(super) fn ids_of(&self, status: Status) -> Vec<u64> {
        let peers = self.router.peers.iter().filter(|peer| peer.status == status);
        peers.map(|peer| u64::from(peer.id)).collect()
    }

    pub(super) fn id(&mut self) -> u64 {
        let status = match self.random.below(20) {
            0 => Status::Retained,
            1 => return *self.random.pick(&self.scene.ids),
            _ => Status::Connected,
        };
        let ids = self.ids_of(status);
        if ids.is_empty() {
            *self.random.pick(&self.scene.ids)
        } else {
            *self.random.pick(&ids)
        }
    }

    pub(super) fn topic(&mut self) -> u64 {
        let joined: Vec<u64> =
            (0..TOPICS as u64).filter(|&k| self.router.joined[k as usize]).collect();
        match self.random.below(20) {
            0 => self.random.below(TOPICS) as u64,
            1..=9 if !joined.is_empty() => *self.random.pick(&joined),
            _ => self.random.below(self.scene.topics) as u64,
        }
    }

    /// The joined topic with the most subscribers, where a heartbeat has most to do.
    fn busiest_topic(&self) -> u64 {
        let subscribers =
            |k: usize| self.router.peers.iter().filter(|peer| peer.topics[k].subscribed).count();
        let joined = (0..TOPICS).filter(|&k| self.router.joined[k]);
        joined.max_by_key(|&k| subscribers(k)).unwrap_or(0) as u64
    }

    fn flags(&mut self) -> u64 {
        let outbound = self.random.chance(self.scene.outbound, 4);
        let explicit = self.random.chance(1, 16);
        u64::from(outbound) * OUTBOUND_FLAG + u64::from(explicit) * EXPLICIT_FLAG
    }

    fn group(&mut self) -> u64 {
        let group = self.random.bits() % self.scene.groups;
        if group == 3 {
            u64::from(u32::MAX)
        } else {
            group
        }
    }

    /// One group, or in an edition that counts them one to four; now and then none, one
    /// twice, or some out of order.
    fn groups(&mut self) -> Vec<u64> {
        if !self.scene.edition.counts_groups() {
            return vec![self.group()];
        }
        let count = *self.random.pick(&[1, 1, 2, 2, 3, GROUPS]);
        let mut groups: Vec<u64> = (0..count).map(|_| self.group()).collect();
        groups.sort_unstable();
        groups.dedup();
        if self.random.chance(1, 30) {
            match self.random.below(3) {
                0 => groups.clear(),
                1 => groups.insert(0, groups[0]),
                _ => groups.insert(0, groups[0] + 1),
            }
            groups.truncate(GROUPS);
        }
        groups
    }

    fn name(&mut self) -> Vec<u8> {
        let mut name = self.random.pick(&NAMES).to_vec();
        if self.random.chance(1, 30) {
            match self.random.below(6) {
                0 => name = b"/meshsub/1.3.0".to_vec(),
                1 => name.truncate(self.random.below(14)),
                2 => name.push(0),
                3 => name[self.random.below(14)] ^= 1 << self.random.below(8),
                4 => name = self.random.bytes(64),
                _ => name.extend(b"/meshsub/1.1.0"),
            }
        }
        name
    }

    fn seconds(&mut self) -> u64 {
        match self.random.below(10) {
            0..=1 => 0,
            2..=5 => 1 + self.random.below(5) as u64,
            6..=7 => *self.random.pick(&[60, 3599, 3600, 3601]),
            8 => self.random.of_any_width(),
            _ => self.random.below(4000) as u64,
        }
    }

    /// Any P5, or one that brings the score to a value that a rule asks about.
    fn p5(&mut self, id: u64) -> i64 {
        match self.random.below(8) {
            0 => self.random.between(-P5_LIMIT, P5_LIMIT),
            1 => *self.random.pick(&[-P5_LIMIT, P5_LIMIT, 0, 1, -1]),
            2 => self.random.between(-100_000, 100_000),
            _ => self.aimed_p5(id),
        }
    }

    fn aimed_p5(&mut self, id: u64) -> i64 {
        let router = &self.router;
        let target = match self.random.below(6) {
            0 => router.params.general(general::GRAYLIST_THRESHOLD) * 1_000_000,
            1 => router.params.general(general::OPPORTUNISTIC_THRESHOLD) * 1_000_000,
            2 => router.score(self.random.below(SLOTS)),
            3 => self.random.between(0, 2_000_000_000),
            _ => 0,
        };
        let beside = self.random.between(-1, 2);
        (self.p5_for(id, target) + beside).clamp(-P5_LIMIT, P5_LIMIT)
    }

    /// The P5 that brings a peer's score near the target, if one can.
    pub(super) fn p5_for(&self, id: u64, target: i64) -> i64 {
        let router = &self.router;
        let Ok(slot) = router.connected(id as u32) else { return 0 };
        let step = router.params.general(general::W5) * 1000;
        let base = router.score(slot) - step * router.peers[slot].p5;
        (target - base).div_euclid(step).clamp(-P5_LIMIT, P5_LIMIT)
    }

    /// Mostly a shuffle; sometimes one that sets outbound members last, so that
    /// they are left out and swapped in; sometimes damaged.
    pub(super) fn permutation(&mut self) -> Box<Permutation> {
        let mut permutation = by_slot();
        let ordered = &mut permutation[..self.scene.edition.permuted()];
        let (count, style) = (ordered.len(), self.random.below(12));
        if style > 0 {
            self.random.shuffle(ordered);
        }
        if style > 6 {
            ordered.sort_by_key(|&slot| self.router.peers[slot as usize].outbound);
        }
        if self.random.chance(1, 30) {
            let place = self.random.below(count);
            ordered[place] = match self.random.below(4) {
                0 => SLOTS as u64,
                1 => count as u64,
                2 => self.random.of_any_width(),
                _ => ordered[(place + 1) % count],
            };
        }
        permutation
    }

    // Calls.

    fn single_call(&mut self) -> Call {
        let (id, topic) = (self.id(), self.topic());
        match self.random.below(100) {
            0..=9 => self.connect_call(),
            10..=13 => Call::Disconnect { id },
            14..=16 => Call::Join { topic },
            17 => Call::Leave { topic },
            18..=26 => Call::Subscribe { id, topic },
            27..=29 => Call::Unsubscribe { id, topic },
            30..=45 => Call::Graft { id, topic },
            46..=50 => Call::Prune { id, topic, seconds: self.seconds() },
            51..=65 => Call::Delivery { id, topic, kind: self.random.below(3) as u64 + 1 },
            66..=75 => Call::SetP5 { id, value: self.p5(id) },
            76..=84 => {
                let topic = if self.random.chance(1, 2) { self.busiest_topic() } else { topic };
                self.heartbeat_call(topic)
            }
            85..=88 => Call::Decay,
            _ => Call::Score { id },
        }
    }

    fn connect_call(&mut self) -> Call {
        let id = *self.random.pick(&self.scene.ids);
        self.connect_of(id)
    }

    pub(super) fn connect_of(&mut self, id: u64) -> Call {
        Call::Connect { id, groups: self.groups(), flags: self.flags(), name: self.name() }
    }

    fn heartbeat_call(&mut self, topic: u64) -> Call {
        let ask = u64::from(self.random.chance(2, 3));
        Call::Heartbeat { topic, ask, permutation: by_slot() }
    }

    // Bursts: calls that belong together.

    /// A full start: many peers come, and then gather in a topic. Some runs
    /// start late, so that the last time is near.
    pub fn plan_opening(&mut self) {
        if self.random.chance(1, 12) {
            let late = LAST_TIME - self.random.below(1_000_000) as u64;
            self.queue.push_back((late, Call::Decay));
        }
        self.plan_arrival();
        self.gathering_next = true;
    }

    fn plan_more(&mut self) {
        let topic = self.topic();
        let few = self.ids_of(Status::Connected).len() < self.scene.ids.len() / 3;
        if std::mem::take(&mut self.gathering_next) {
            self.plan_gathering(topic);
        } else if few && self.random.chance(1, 4) {
            self.plan_arrival();
        } else if self.scene.crowding && self.random.chance(1, 4) {
            self.plan_crowding(topic);
        } else if self.random.chance(1, 8) {
            self.plan_burst();
        }
    }

    fn plan_burst(&mut self) {
        let topic = self.topic();
        match self.random.below(13) {
            0 => self.plan_arrival(),
            1 | 2 => self.plan_gathering(topic),
            3 | 4 => self.plan_crowding(topic),
            5 if self.random.chance(1, 2) => self.plan_departure(),
            5 => self.plan_return(topic),
            6 | 7 => {
                self.plan_judgement();
                self.plan_heartbeats(topic);
            }
            8 => self.plan_traffic(topic),
            9 => self.plan_scores(),
            10 => self.plan_every_part(topic),
            _ => self.plan_short_backoffs(topic),
        }
    }

    fn plan(&mut self, call: Call) {
        self.queue.push_back((0, call));
    }

    pub fn plan_join(&mut self, topic: u64) {
        self.plan(Call::Join { topic });
    }

    pub fn plan_arrival(&mut self) {
        let mut ids = self.scene.ids.clone();
        self.random.shuffle(&mut ids);
        ids.truncate(ids.len() - self.random.below(ids.len().div_ceil(2)));
        for id in ids {
            if self.router.connected(id as u32).is_err() || self.random.chance(1, 8) {
                let call = self.connect_of(id);
                self.plan(call);
            }
        }
    }

    /// Every id connects, in the order of the scene.
    pub fn plan_all(&mut self) {
        for id in self.scene.ids.clone() {
            let call = self.connect_of(id);
            self.plan(call);
        }
    }

    /// With all slots taken: some peers of the first slots and of the last ones come to a
    /// topic, and a heartbeat chooses of them; many more of the last ask for the mesh, and
    /// heartbeats follow; then some go, and others come in their place.
    pub fn plan_full(&mut self, topic: u64) {
        let ids = self.ids_of(Status::Connected);
        let last = &ids[ids.len().saturating_sub(40)..];
        for few in [&ids[..3.min(ids.len())], &last[..5.min(last.len())]] {
            self.plan_for(few, |id| Call::Subscribe { id, topic });
        }
        let call = self.heartbeat_call(topic);
        self.plan(call);
        self.plan_for(last, |id| Call::Subscribe { id, topic });
        self.plan_for(last, |id| Call::Graft { id, topic });
        self.plan_heartbeats(topic);
        self.plan_for(&ids[..3.min(ids.len())], |id| Call::Disconnect { id });
        self.queue.push_back((60_000, Call::Decay));
        let count = self.scene.ids.len();
        for place in count.saturating_sub(4)..count {
            let call = self.connect_of(self.scene.ids[place]);
            self.plan(call);
        }
        self.plan_heartbeats(topic);
        self.plan_for(&ids[ids.len() - 2.min(ids.len())..], |id| Call::Score { id });
    }

    /// Many peers come to a topic, and all or some ask to be grafted; outbound
    /// peers often last, so that they pass D_hi. Then heartbeats.
    fn plan_gathering(&mut self, topic: u64) {
        let mut ids = self.ids_of(Status::Connected);
        self.random.shuffle(&mut ids);
        if self.random.chance(1, 2) {
            ids.sort_by_key(|&id| self.is_outbound(id));
        }
        self.plan_for(&ids, |id| Call::Subscribe { id, topic });
        self.plan(Call::Join { topic });
        match self.random.below(4) {
            0 => ids.clear(),
            1 => ids.retain(|&id| !self.is_outbound(id)),
            2 => ids.truncate(self.random.below(ids.len() + 1)),
            _ => {}
        }
        self.plan_for(&ids, |id| Call::Graft { id, topic });
        self.plan_heartbeats(topic);
    }

    fn plan_for(&mut self, ids: &[u64], call: impl Fn(u64) -> Call) {
        self.queue.extend(ids.iter().map(|&id| (0, call(id))));
    }

    /// When backoffs are over, a mesh of few different scores is filled by
    /// inbound peers, and then a few outbound ones pass D_hi; others of them may
    /// stay candidates.
    fn plan_crowding(&mut self, topic: u64) {
        let mut ids = self.ids_of(Status::Connected);
        self.random.shuffle(&mut ids);
        ids.sort_by_key(|&id| self.is_outbound(id));
        let inbound = ids.partition_point(|&id| !self.is_outbound(id));
        ids.truncate(inbound + self.random.below(5));
        self.queue.push_back((25_000, Call::Decay));
        self.plan(Call::Join { topic });
        for &id in &ids {
            let target = self.random.below(3) as i64 * 1_000_000_000;
            let value = self.p5_for(id, target);
            self.plan(Call::SetP5 { id, value });
        }
        self.plan_for(&ids, |id| Call::Subscribe { id, topic });
        if self.random.chance(1, 2) {
            ids.truncate(inbound + self.random.below(2));
        }
        self.plan_for(&ids, |id| Call::Graft { id, topic });
        self.plan_heartbeats(topic);
    }

    fn is_outbound(&self, id: u64) -> bool {
        let slot = self.router.connected(id as u32);
        slot.is_ok_and(|slot| self.router.peers[slot].outbound)
    }

    /// Heartbeats, now and then a decay, with something to do for most of them.
    fn plan_heartbeats(&mut self, topic: u64) {
        for round in 0..=self.random.below(5) {
            if round > 0 && self.random.chance(3, 4) {
                self.plan_disturbance(topic);
            }
            let call = match self.random.chance(5, 6) {
                true => self.heartbeat_call(topic),
                false => Call::Decay,
            };
            self.plan(call);
        }
    }

    /// Backoffs end, a few peers get another P5, and a few ask for the mesh,
    /// often outbound ones alone, which pass D_hi.
    fn plan_disturbance(&mut self, topic: u64) {
        if self.random.chance(1, 2) {
            let wait = 1 + self.random.below(70_000) as u64;
            self.queue.push_back((wait, Call::Decay));
        }
        let mut ids = self.ids_of(Status::Connected);
        self.random.shuffle(&mut ids);
        let judged = self.random.below(6).min(ids.len());
        for &id in &ids[..judged] {
            let value = self.p5(id);
            self.plan(Call::SetP5 { id, value });
        }
        self.random.shuffle(&mut ids);
        if self.random.chance(1, 2) {
            ids.retain(|&id| self.is_outbound(id));
        }
        ids.truncate(self.random.below(6));
        self.plan_for(&ids, |id| Call::Subscribe { id, topic });
        self.plan_for(&ids, |id| Call::Graft { id, topic });
    }

    /// One round of a mesh whose scores are P5 and P7 alone: backoffs mostly end,
    /// few different scores are given, often the outbound members go, inbound
    /// peers and then some outbound ones ask for the mesh, and a heartbeat or two
    /// follow.
    pub fn plan_round(&mut self, topic: u64) {
        let wait = if self.random.chance(4, 5) { 60_000 } else { 1 };
        self.queue.push_back((wait, Call::Decay));
        let mut ids = self.ids_of(Status::Connected);
        self.random.shuffle(&mut ids);
        let threshold = self.router.params.general(general::OPPORTUNISTIC_THRESHOLD) * 1_000_000;
        let targets = [0, 0, 1_000_000_000, 2_000_000_000, threshold, threshold - 1000, -1000];
        // Where the inbound ones are the better, a quota is taken from the best.
        let inbound_better = self.random.chance(1, 3);
        for &id in &ids {
            let target = match inbound_better {
                true if self.is_outbound(id) => 0,
                true => self.random.between(1, 2) * 1_000_000_000,
                false => *self.random.pick(&targets),
            };
            if inbound_better || self.random.chance(1, 3) {
                let value = self.p5_for(id, target);
                self.plan(Call::SetP5 { id, value });
            }
        }
        ids.sort_by_key(|&id| self.is_outbound(id));
        let inbound = ids.partition_point(|&id| !self.is_outbound(id));
        if inbound_better || self.random.chance(1, 2) {
            self.plan_for(&ids[inbound..], |id| Call::Unsubscribe { id, topic });
        }
        let mut asking = ids[..self.random.below(inbound + 1)].to_vec();
        asking.extend(ids[inbound..].iter().take(self.random.below(6)));
        self.plan_for(&ids, |id| Call::Subscribe { id, topic });
        self.plan_for(&asking, |id| Call::Graft { id, topic });
        for _ in 0..=self.random.below(2) {
            let call = self.heartbeat_call(topic);
            self.plan(call);
        }
        if self.random.chance(1, 2) {
            self.plan_short_backoffs(topic);
        }
    }

    /// Whether nothing is planned any more.
    pub fn is_idle(&self) -> bool {
        self.queue.is_empty()
    }

    fn plan_departure(&mut self) {
        let mut ids = self.ids_of(Status::Connected);
        self.random.shuffle(&mut ids);
        let most = if self.random.chance(1, 4) { ids.len() } else { ids.len() / 3 };
        ids.truncate(self.random.below(most + 1));
        self.plan_for(&ids, |id| Call::Disconnect { id });
    }

    /// One peer goes, comes back, and enters the mesh again; its score then
    /// tells what its record kept.
    fn plan_return(&mut self, topic: u64) {
        let id = self.id();
        let away = 1 + self.random.below(20_000) as u64;
        let connect = self.connect_of(id);
        self.plan(Call::Disconnect { id });
        self.queue.push_back((away, connect));
        self.plan(Call::Score { id });
        self.plan(Call::Subscribe { id, topic });
        self.queue.push_back((25_000, Call::Graft { id, topic }));
        self.queue.push_back((5_000, Call::Decay));
        self.plan(Call::Score { id });
    }

    /// The host gives many peers a P5.
    fn plan_judgement(&mut self) {
        for id in self.ids_of(Status::Connected) {
            if self.random.chance(2, 3) {
                let value = self.p5(id);
                self.plan(Call::SetP5 { id, value });
            }
        }
    }

    /// One peer sends much, up to the caps.
    fn plan_traffic(&mut self, topic: u64) {
        let id = self.id();
        let kind = self.random.below(3) as u64 + 1;
        for _ in 0..self.random.below(30) {
            self.plan(Call::Delivery { id, topic, kind });
        }
        self.plan(Call::Decay);
        self.plan(Call::Score { id });
    }

    /// One peer delivers first, is rated by the host and sends a GRAFT in its backoff:
    /// much of what a score is made of.
    fn plan_every_part(&mut self, topic: u64) {
        let id = self.id();
        self.plan(Call::Join { topic });
        let value = self.random.between(1, P5_LIMIT);
        self.plan(Call::SetP5 { id, value });
        for _ in 0..self.random.below(12) {
            self.plan(Call::Delivery { id, topic, kind: 1 });
        }
        self.plan(Call::Prune { id, topic, seconds: 60 });
        self.plan(Call::Graft { id, topic });
        self.plan(Call::Score { id });
    }

    /// Some peers, often outbound ones alone, send a PRUNE of a few seconds, and
    /// heartbeats want them back.
    fn plan_short_backoffs(&mut self, topic: u64) {
        let mut ids = self.ids_of(Status::Connected);
        self.random.shuffle(&mut ids);
        if self.random.chance(2, 3) {
            ids.retain(|&id| self.is_outbound(id));
        }
        ids.truncate(1 + self.random.below(6));
        let seconds = 1 + self.random.below(3) as u64;
        for &id in &ids {
            let target = self.random.between(0, 2) * 1_000_000_000;
            let value = self.p5_for(id, target);
            self.plan(Call::SetP5 { id, value });
        }
        self.plan_for(&ids, |id| Call::Subscribe { id, topic });
        self.plan_for(&ids, |id| Call::Prune { id, topic, seconds });
        for _ in 0..=self.random.below(3) {
            let call = self.heartbeat_call(topic);
            self.plan(call);
        }
    }

    fn plan_scores(&mut self) {
        let ids = self.ids_of(Status::Connected);
        self.plan_for(&ids, |id| Call::Score { id });
    }

    // Numbers at and past the ranges.

    /// Puts such a number in the place of the time or of an argument.
    fn spoil(&mut self, event: &mut Event) {
        let edition = self.scene.edition;
        let mut pieces = trace::event_pieces(edition, event);
        // Further places are a permutation's, which has damage of its own.
        let place = 1 + self.random.below(pieces.len().min(6) - 1);
        let wide = self.random.of_any_width();
        let number = if self.random.chance(1, 4) { wide } else { *self.random.pick(&EDGES) };
        // A leap of the clock ends much that could still happen.
        let leap = place == 1 && (self.router.clock..=LAST_TIME).contains(&number);
        if leap && self.random.chance(15, 16) {
            return;
        }
        pieces[place].clear();
        groups::write_unsigned(number, &mut pieces[place]);
        // A name's length may not fit now; such bytes are made elsewhere.
        let read = trace::read_event(edition, &pieces.concat());
        if let Ok((spoilt, _)) = read {
            *event = spoilt;
        }
    }
}
