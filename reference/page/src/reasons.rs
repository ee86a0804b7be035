//! Why a peer is in a mesh or out of it, in plain sentences.

use crate::causes::Turns;
use crate::standing::{self, Level, Place, Standing};
use crate::words::clock;
use reference::params::{general, TOPICS};
use reference::replay::points;
use reference::router::{Peer, Router, Why, GRAFT_SLACK};

/// A peer that has a record, seen after an event.
pub struct Seen<'a> {
    router: &'a Router,
    peer: &'a Peer,
    pub level: Level,
    /// What is said of a score below zero.
    score: String,
}

impl Seen<'_> {
    /// The peer of a slot; its score's parts, if it is connected.
    pub fn new(router: &Router, slot: usize, why: Option<Why>) -> Seen<'_> {
        let peer = &router.peers[slot];
        let level = why.map_or(Level::ZeroOrMore, |why| standing::level(router, peer, why.score()));
        let below = why.filter(|_| level > Level::ZeroOrMore);
        let score = below.map_or_else(String::new, |why| score(router, slot, &why, level));
        Seen { router, peer, level, score }
    }

    pub fn standing(&self, topic: usize) -> Standing {
        standing::standing(self.router, self.peer, topic, self.level)
    }

    /// The sentences about the peer in a topic.
    pub fn sentences(&self, topic: usize, how: &Standing, turns: &Turns) -> String {
        let mut said = vec![self.past(how, turns)];
        if how.place.is_member() {
            said.push(match how.level {
                Level::ZeroOrMore => "Its score is zero or more, so it stays.".to_string(),
                _ => format!("{} The next heartbeat prunes it.", self.score),
            });
            return said.join(" ");
        }
        if let Some(refused) = turns.refused {
            let (time, cause) = (clock(refused.time), refused.cause.words(self.router));
            said.push(format!("Its GRAFT at {time} was not taken: {cause}."));
        }
        said.extend(self.hindrances(topic, how));
        said.join(" ")
    }

    fn past(&self, how: &Standing, turns: &Turns) -> String {
        let side = if how.place.is_member() { "In" } else { "Out" };
        let Some(turn) = turns.last else { return "Not in this mesh so far.".to_string() };
        format!("{side} since {}: {}.", clock(turn.time), turn.cause.words(self.router))
    }

    /// All that keeps a peer out now.
    fn hindrances(&self, topic: usize, how: &Standing) -> Vec<String> {
        let mut said = Vec::new();
        if how.place == Place::Kept {
            let end = clock(self.peer.retain_end);
            said.push(format!(
                "It is not connected; its record is kept until {end}, or its backoffs' end."
            ));
            return said;
        }
        if how.place == Place::Explicit {
            said.push(
                "It is an explicit hub: it is in no mesh, and gets every message.".to_string(),
            );
            return said;
        }
        if how.level > Level::ZeroOrMore {
            said.push(self.score.clone());
        }
        said.extend(self.backoff(topic));
        if !self.router.joined[topic] {
            said.push("We are not in this topic.".to_string());
        } else if !self.peer.topics[topic].subscribed {
            said.push("It has not subscribed to this topic.".to_string());
        }
        if how.place == Place::Free && how.level == Level::ZeroOrMore {
            let free = "Nothing keeps it out: the heartbeat takes it in when the mesh needs hubs.";
            said.push(free.to_string());
        }
        said
    }

    fn backoff(&self, topic: usize) -> Option<String> {
        let end = self.peer.backoff_ends[topic];
        let waits = clock(end + GRAFT_SLACK);
        if self.router.clock < end {
            let end = clock(end);
            return Some(format!(
                "Its backoff runs until {end}, and our own GRAFT waits until {waits}."
            ));
        }
        let over = self.peer.slack_over(topic, self.router.clock);
        (!over).then(|| format!("Its backoff is over, and our own GRAFT waits until {waits}."))
    }
}

/// A score below zero: what costs, the dearest first, and what speaks for the peer.
fn score(router: &Router, slot: usize, why: &Why, level: Level) -> String {
    let offences = " (GRAFTs during a backoff)".to_string();
    let parts = [
        ("topics", topic_faults(router, slot), why.capped),
        ("application", String::new(), why.p5),
        ("address group", crowds(router, slot), why.p6),
        ("behaviour penalty", offences, why.p7),
    ];
    let mut costs: Vec<_> = parts.iter().filter(|part| part.2 < 0).collect();
    costs.sort_by_key(|part| part.2);
    let costs: Vec<String> =
        costs.iter().map(|(name, note, part)| format!("{name} {}{note}", points(*part))).collect();
    let gains = parts.iter().filter(|part| part.2 > 0);
    let gains: Vec<String> =
        gains.map(|(name, _, part)| format!("{name} {}", points(*part))).collect();
    let offset =
        if gains.is_empty() { String::new() } else { format!(", offset by {}", gains.join(", ")) };
    let graylist = if level == Level::Graylisted { graylisted(router) } else { String::new() };
    let score = points(why.score());
    format!("Its score is {score} points: {}{offset}.{graylist}", costs.join(", "))
}

fn graylisted(router: &Router) -> String {
    let threshold = points(router.params.general(general::GRAYLIST_THRESHOLD) * 1_000_000);
    format!(" That is under the graylist threshold {threshold}: what it sends is ignored.")
}

/// The groups that have more hubs than are free.
fn crowds(router: &Router, slot: usize) -> String {
    let free = router.params.general(general::P6_THRESHOLD);
    let crowded = router.peers[slot].groups().filter(|&group| router.sharing(group) > free);
    let told: Vec<String> = crowded
        .map(|group| {
            format!(
                "{} hubs in group {group}, where {free} are free of charge",
                router.sharing(group)
            )
        })
        .collect();
    if told.is_empty() {
        String::new()
    } else {
        format!(" ({})", told.join("; "))
    }
}

/// What costs points in the topics.
fn topic_faults(router: &Router, slot: usize) -> String {
    let topics = &router.peers[slot].topics;
    let faults = (0..TOPICS).flat_map(|topic| {
        let record = &topics[topic];
        let found = [
            (record.p4 > 0, "invalid messages"),
            (router.p3(slot, topic) > 0, "too few messages"),
            (record.p3b > 0, "too few messages when it was pruned"),
        ];
        let found = found.into_iter().filter(|fault| fault.0);
        found.map(move |fault| format!("{} in topic {topic}", fault.1))
    });
    let told: Vec<String> = faults.collect();
    if told.is_empty() {
        String::new()
    } else {
        format!(" ({})", told.join("; "))
    }
}
