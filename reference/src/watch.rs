//! A router seen from outside: joined topics, meshes and pools, as the calls made
//! and the lines printed tell them. No program's tables are looked at, so demand 3
//! can be asked of any trace program.

use crate::event::{Call, Event, EXPLICIT_FLAG, OUTBOUND_FLAG};
use crate::params::{general, Params, TOPICS};
use crate::replay::{self, printed, Printed};
use crate::router::GRAFT_SLACK;
use crate::text::{Line, Trace};
use std::collections::BTreeMap;

/// What is known of one id.
#[derive(Clone, Default)]
struct Peer {
    connected: bool,
    outbound: bool,
    explicit: bool,
    subscribed: [bool; TOPICS],
    member: [bool; TOPICS],
    backoff_ends: [u64; TOPICS],
    /// As last printed, until a call may have changed it.
    score: Option<i64>,
}

/// What a heartbeat answered by 0 left in its topic.
#[derive(Clone, Debug, Default)]
pub struct Left {
    pub members: usize,
    pub outbound: usize,
    /// The pool at the heartbeat's start, and how many of it are not in the mesh.
    pub pool: usize,
    pub pool_outside: usize,
    pub pool_outbound: usize,
    pub pool_outbound_outside: usize,
    /// Members whose score at the start was negative.
    pub negative: usize,
}

pub struct Watch {
    params: Params,
    joined: [bool; TOPICS],
    peers: BTreeMap<u64, Peer>,
    /// The most inbound members that a joined topic's mesh has had.
    pub most_inbound: usize,
    pub heartbeats: Vec<Left>,
}

/// The trace with every id's score asked for before each heartbeat; a score
/// changes nothing, and a heartbeat's pool goes by the scores at its start.
pub fn with_scores(trace: &Trace) -> Trace {
    let mut ids: Vec<u64> = Vec::new();
    let mut lines = Vec::new();
    for line in &trace.lines {
        if let Line::Event(event) = line {
            match event.call {
                Call::Connect { id, .. } => ids.push(id),
                Call::Heartbeat { .. } => lines
                    .extend(ids.iter().map(|&id| {
                        Line::Event(Event { now: event.now, call: Call::Score { id } })
                    })),
                _ => {}
            }
        }
        lines.push(line.clone());
    }
    Trace { lines, ..trace.clone() }
}

/// Follows a trace of events by what a program printed of it.
pub fn follow(trace: &Trace, output: &str) -> Result<Watch, String> {
    let params = trace.params.clone().ok_or("the trace has no parameters")?;
    let peers = BTreeMap::new();
    let heartbeats = Vec::new();
    let mut watch = Watch { params, joined: [false; TOPICS], peers, most_inbound: 0, heartbeats };
    let printed = printed(output);
    if printed.len() != trace.lines.len() {
        let (answers, lines) = (printed.len(), trace.lines.len());
        return Err(format!("{answers} answers to {lines} events"));
    }
    for (line, printed) in trace.lines.iter().zip(&printed) {
        let Line::Event(event) = line else { return Err("bytes that are no event".to_string()) };
        if printed.answer.starts_with("0 ") {
            watch.done(event, printed)?;
        }
    }
    Ok(watch)
}

impl Watch {
    pub fn general(&self, place: usize) -> usize {
        self.params.general(place) as usize
    }

    /// An event answered by 0, with the lines of its actions or its score.
    fn done(&mut self, event: &Event, printed: &Printed) -> Result<(), String> {
        let now = event.now;
        match event.call {
            Call::Connect { id, flags, .. } => self.connect(id, flags)?,
            Call::Disconnect { id } => *self.peer(id)? = Peer::default(),
            Call::Join { topic } => self.joined[topic as usize] = true,
            Call::Leave { topic } => {
                self.acted(topic, now, general::UNSUBSCRIBE_BACKOFF, printed)?;
                self.joined[topic as usize] = false;
            }
            Call::Subscribe { id, topic } => self.peer(id)?.subscribed[topic as usize] = true,
            Call::Unsubscribe { id, topic } => {
                let peer = self.peer(id)?;
                peer.subscribed[topic as usize] = false;
                peer.member[topic as usize] = false;
            }
            Call::Graft { id, topic } => {
                self.peer(id)?.member[topic as usize] = true;
                self.acted(topic, now, general::PRUNE_BACKOFF, printed)?;
            }
            Call::Prune { id, topic, seconds } => {
                let given = if seconds == 0 {
                    self.general(general::PRUNE_BACKOFF) as u64
                } else {
                    seconds
                };
                self.prune(id, topic, now + 1000 * given.min(3600))?;
            }
            Call::Heartbeat { topic, .. } => self.heartbeat(topic, now, printed)?,
            Call::Score { id } => {
                let why = printed.lines.first().and_then(|line| replay::score_numbers(line));
                let [.., score] = why.ok_or("a score without its line")?;
                self.peer(id)?.score = Some(score);
            }
            Call::Delivery { .. } | Call::SetP5 { .. } | Call::Decay => {}
        }
        if !matches!(event.call, Call::Score { .. } | Call::Join { .. } | Call::Subscribe { .. }) {
            self.peers.values_mut().for_each(|peer| peer.score = None);
        }
        let joined = (0..TOPICS).filter(|&topic| self.joined[topic]);
        let inbound = joined.map(|topic| self.members(topic).filter(|peer| !peer.outbound).count());
        self.most_inbound = self.most_inbound.max(inbound.max().unwrap_or(0));
        Ok(())
    }

    fn peer(&mut self, id: u64) -> Result<&mut Peer, String> {
        let peer = self.peers.get_mut(&id).filter(|peer| peer.connected);
        peer.ok_or_else(|| format!("{id} is not connected, and yet the answer is 0"))
    }

    fn members(&self, topic: usize) -> impl Iterator<Item = &Peer> {
        self.peers.values().filter(move |peer| peer.member[topic])
    }

    /// What a record keeps after a disconnect is not followed.
    fn connect(&mut self, id: u64, flags: u64) -> Result<(), String> {
        let peer = Peer {
            connected: true,
            outbound: flags & OUTBOUND_FLAG != 0,
            explicit: flags & EXPLICIT_FLAG != 0,
            ..Peer::default()
        };
        match self.peers.insert(id, peer) {
            None => Ok(()),
            Some(_) => Err(format!("{id} comes back, which is not followed")),
        }
    }

    fn prune(&mut self, id: u64, topic: u64, end: u64) -> Result<(), String> {
        let peer = self.peer(id)?;
        peer.member[topic as usize] = false;
        let old = &mut peer.backoff_ends[topic as usize];
        *old = end.max(*old);
        Ok(())
    }

    /// The lines `G id` and `P id seconds`; the backoff is the one that the
    /// parameters give, whatever a 1.0.0 peer is told.
    fn acted(
        &mut self,
        topic: u64,
        now: u64,
        backoff: usize,
        printed: &Printed,
    ) -> Result<(), String> {
        let end = now + 1000 * self.general(backoff) as u64;
        for line in &printed.lines {
            let words: Vec<&str> = line.split(' ').collect();
            let id =
                words.get(1).and_then(|id| id.parse().ok()).ok_or("an action without its id")?;
            match words[0] {
                "G" => self.peer(id)?.member[topic as usize] = true,
                "P" => self.prune(id, topic, end)?,
                _ => return Err(format!("{line} is no action")),
            }
        }
        Ok(())
    }

    fn heartbeat(&mut self, topic: u64, now: u64, printed: &Printed) -> Result<(), String> {
        let topic = topic as usize;
        let mut negative = Vec::new();
        let mut pool = Vec::new();
        for (&id, peer) in self.peers.iter().filter(|(_, peer)| peer.connected) {
            let score = peer.score.ok_or_else(|| format!("the score of {id} was not asked"))?;
            let end = peer.backoff_ends[topic];
            let free = end == 0 || now >= end + GRAFT_SLACK;
            let candidate = peer.subscribed[topic] && !peer.explicit && free;
            match score >= 0 {
                true if peer.member[topic] || candidate => pool.push(id),
                true => {}
                false => negative.push(id),
            }
        }
        self.acted(topic as u64, now, general::PRUNE_BACKOFF, printed)?;
        let outbound = |id: &&u64| self.peers[id].outbound;
        let outside = |id: &&u64| !self.peers[id].member[topic];
        self.heartbeats.push(Left {
            members: self.members(topic).count(),
            outbound: self.members(topic).filter(|peer| peer.outbound).count(),
            pool: pool.len(),
            pool_outside: pool.iter().filter(outside).count(),
            pool_outbound: pool.iter().filter(outbound).count(),
            pool_outbound_outside: pool.iter().filter(outbound).filter(outside).count(),
            negative: negative.iter().filter(|id| !outside(id)).count(),
        });
        Ok(())
    }

    /// Demand 3, as far as it can be seen from outside.
    pub fn demand_3(&self) -> Result<(), String> {
        let most = self.general(general::D_HI) + 2;
        if self.most_inbound > most {
            return Err(format!("{} inbound members, over D_hi + 2 = {most}", self.most_inbound));
        }
        self.heartbeats.iter().try_for_each(|left| self.demand_3_at(left))
    }

    fn demand_3_at(&self, left: &Left) -> Result<(), String> {
        let few = left.members < self.general(general::D_LO);
        let few_outbound = left.outbound < self.general(general::D_OUT);
        if left.negative > 0 {
            Err("a heartbeat left a member of negative score".to_string())
        } else if few_outbound && left.pool_outbound_outside > 0 {
            Err("a heartbeat left too few outbound members, with some in the pool".to_string())
        } else if few && left.pool_outside > 0 {
            Err("a heartbeat left too few members, with some in the pool".to_string())
        } else {
            Ok(())
        }
    }
}
