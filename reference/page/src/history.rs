//! The second program over a trace, and what is kept of it: of each event its lines,
//! of each peer its score and its standing in each topic after every event.

use crate::causes::{foresee, Cause, Foreseen, Ledger};
use crate::changes::Changes;
use crate::reasons::Seen;
use crate::standing::Standing;
use crate::subject::Subject;
use reference::event::{Call, Event};
use reference::params::TOPICS;
use reference::router::{GraftCase, Router, Status, Why, ACTION_LIST};
use reference::text::{Line, Trace};
use reference::trace;
use std::cmp::Reverse;
use std::collections::{BTreeMap, BTreeSet};

/// An event, and what came of it.
#[derive(Clone, PartialEq, Eq, Debug)]
pub struct Happened {
    /// The router's clock after it.
    pub clock: u64,
    /// What is printed: the answer's line, then those of actions or a score. None where
    /// the trace has stopped before.
    pub printed: Vec<String>,
    /// Why each action was told, or a GRAFT taken or not.
    pub causes: Vec<String>,
}

/// A peer's standing in a topic, with its sentences.
#[derive(Clone, PartialEq, Eq, Debug)]
pub struct Told {
    pub standing: Standing,
    pub words: String,
}

/// One id over the events.
#[derive(Clone, Debug, Default)]
pub struct PeerHistory {
    /// None while it is not connected.
    pub scores: Changes<Option<Why>>,
    pub topics: [Changes<Told>; TOPICS],
}

/// How many members a mesh has.
#[derive(Clone, Copy, PartialEq, Eq, Debug, Default)]
pub struct Size {
    pub inbound: usize,
    pub outbound: usize,
}

#[derive(Default)]
pub struct History {
    /// The line that is printed instead of any event's, where the parameters are refused.
    pub refused: Option<String>,
    pub happened: Vec<Happened>,
    pub peers: BTreeMap<u32, PeerHistory>,
    /// The topics that events speak of.
    pub topics: BTreeSet<usize>,
    pub sizes: [Changes<Size>; TOPICS],
    /// By event: the peers connected after it, and of these the ones whose score changed.
    pub connected: Vec<Vec<u32>>,
    pub rescored: Vec<Vec<u32>>,
}

impl History {
    /// Runs the second program; `tick` is told how many events are done.
    pub fn of(subject: &Subject, tick: &mut dyn FnMut(usize)) -> History {
        let bytes = subject.trace.to_bytes();
        let mut history = History { topics: topics(&subject.trace), ..History::default() };
        let params = match trace::read_start(&bytes) {
            Ok((_, params, _)) => params,
            Err(refusal) => {
                history.refused = Some(format!("{} {}", refusal.number, refusal.place));
                return history;
            }
        };
        let mut run = Run { router: Router::unchecked(params), ledger: Ledger::default(), history };
        for (place, line) in subject.trace.lines.iter().enumerate() {
            run.line(place, line, &subject.trace);
            tick(place + 1);
        }
        run.history
    }

    /// All that the trace program prints.
    pub fn printed(&self) -> String {
        let lines = self.happened.iter().flat_map(|happened| &happened.printed);
        self.refused.iter().chain(lines).map(|line| format!("{line}\n")).collect()
    }

    /// The members of a topic after an event, by id.
    pub fn members(&self, event: usize, topic: usize) -> Vec<u32> {
        let is_member = |peer: &PeerHistory| {
            peer.topics[topic].at(event).is_some_and(|told| told.standing.place.is_member())
        };
        self.peers.iter().filter(|peer| is_member(peer.1)).map(|peer| *peer.0).collect()
    }

    /// The event at which the page opens: of those after which the most peers are held
    /// out, the first with the least points among these; where none ever is, the first
    /// with the lowest score below zero, or else the last event.
    pub fn opening(&self) -> usize {
        let last = self.happened.len().saturating_sub(1);
        let best = (0..=last).max_by_key(|&event| (self.rank(event), Reverse(event)));
        best.filter(|&event| self.rank(event) != Rank::default()).unwrap_or(last)
    }

    fn rank(&self, event: usize) -> Rank {
        let score = |peer: &PeerHistory| peer.scores.at(event).copied().flatten();
        let held = self.peers.values().filter(|peer| peer.is_held_out(event));
        let points: Vec<i128> = held.filter_map(score).map(|why| i128::from(why.score())).collect();
        let lowest = self.peers.values().filter_map(score).map(|why| why.score()).min();
        Rank {
            held: points.len(),
            points: Reverse(points.iter().sum()),
            lowest: Reverse(lowest.unwrap_or(0).min(0)),
        }
    }
}

/// How much there is to see after an event, the first number first.
#[derive(PartialEq, Eq, PartialOrd, Ord)]
struct Rank {
    held: usize,
    points: Reverse<i128>,
    lowest: Reverse<i64>,
}

impl Default for Rank {
    fn default() -> Rank {
        Rank { held: 0, points: Reverse(0), lowest: Reverse(0) }
    }
}

impl PeerHistory {
    /// Held out of some topic after an event.
    fn is_held_out(&self, event: usize) -> bool {
        let mut standings = self.topics.iter().filter_map(|topic| topic.at(event));
        standings.any(|told| told.standing.is_held_out())
    }
}

/// The topics that good events speak of.
fn topics(trace: &Trace) -> BTreeSet<usize> {
    let of = |line: &Line| match line {
        Line::Event(event) if event.in_range() => match event.call {
            Call::Join { topic }
            | Call::Leave { topic }
            | Call::Subscribe { topic, .. }
            | Call::Unsubscribe { topic, .. }
            | Call::Graft { topic, .. }
            | Call::Prune { topic, .. }
            | Call::Delivery { topic, .. }
            | Call::Heartbeat { topic, .. } => Some(topic as usize),
            _ => None,
        },
        _ => None,
    };
    trace.lines.iter().filter_map(of).collect()
}

struct Run {
    router: Router,
    ledger: Ledger,
    history: History,
}

impl Run {
    fn line(&mut self, place: usize, line: &Line, trace: &Trace) {
        let (printed, causes) = match line {
            Line::Event(event) => self.event(event),
            Line::Bytes(bytes) => {
                let stop = trace::read_event(trace.edition, bytes).err();
                (stop.map_or_else(Vec::new, |stop| lines_of(trace::stop_line(stop))), Vec::new())
            }
        };
        // A refused call changes nothing.
        let heard = printed.first().is_some_and(|answer| is_heard(answer));
        self.history.happened.push(Happened { clock: self.router.clock, printed, causes });
        if heard || place == 0 {
            self.note(place);
        } else {
            self.history.connected.push(self.history.connected[place - 1].clone());
            self.history.rescored.push(Vec::new());
        }
    }

    fn event(&mut self, event: &Event) -> (Vec<String>, Vec<String>) {
        let foreseen = foresee(&self.router, event);
        let mut list = [0; ACTION_LIST];
        let answer = self.router.call(event, &mut list);
        if answer.is_ok() {
            self.ledger.note(event.now, &foreseen);
        }
        let printed = lines_of(&trace::lines(&answer, &list));
        let causes = self.causes(event, &foreseen, &printed);
        (printed, causes)
    }

    /// Beside each action its cause; beside a GRAFT without one what became of it.
    fn causes(&self, event: &Event, foreseen: &Foreseen, printed: &[String]) -> Vec<String> {
        let cause_of = |id: &str| {
            let found = foreseen.iter().find(|turn| turn.0.to_string() == id);
            found.map_or_else(String::new, |turn| turn.2.words(&self.router))
        };
        let actions = printed.iter().skip(1).filter(|line| !line.starts_with('S'));
        let told: Vec<String> =
            actions.map(|line| cause_of(line.split(' ').nth(1).unwrap_or_default())).collect();
        let heard = printed.first().is_some_and(|answer| is_heard(answer));
        let graft = heard && matches!(event.call, Call::Graft { .. });
        match foreseen.first() {
            Some((_, _, Cause::Refused(case))) if graft && told.is_empty() => {
                let ignored = *case != GraftCase::AlreadyMember;
                let cause = Cause::Refused(*case).words(&self.router);
                vec![format!("{}: {cause}", if ignored { "ignored" } else { "nothing changes" })]
            }
            Some(_) if graft && told.is_empty() => vec!["taken into the mesh".to_string()],
            _ => told,
        }
    }

    /// Notes every peer as it is now.
    fn note(&mut self, event: usize) {
        let slots: BTreeMap<u32, usize> =
            self.router.peers.iter().enumerate().map(|(slot, peer)| (peer.id, slot)).collect();
        let known: BTreeSet<u32> =
            self.history.peers.keys().chain(slots.keys()).copied().filter(|&id| id != 0).collect();
        let (mut connected, mut rescored) = (Vec::new(), Vec::new());
        for id in known {
            let slot = slots.get(&id).copied();
            if slot.is_none() {
                self.ledger.forget(id);
            }
            let why = slot
                .filter(|&slot| self.router.peers[slot].status == Status::Connected)
                .map(|slot| self.router.why(slot));
            connected.extend(why.map(|_| id));
            let changed = self.note_peer(event, id, slot, why);
            rescored.extend(why.filter(|_| changed).map(|_| id));
        }
        self.history.connected.push(connected);
        self.history.rescored.push(rescored);
        for topic in self.history.topics.clone() {
            let size = self.size(topic);
            self.history.sizes[topic].note(event, size);
        }
    }

    /// Says whether the score changed.
    fn note_peer(&mut self, event: usize, id: u32, slot: Option<usize>, why: Option<Why>) -> bool {
        let peer = self.history.peers.entry(id).or_default();
        let seen = slot.map(|slot| Seen::new(&self.router, slot, why));
        for &topic in &self.history.topics {
            let told = match &seen {
                Some(seen) => {
                    let standing = seen.standing(topic);
                    let words = seen.sentences(topic, &standing, &self.ledger.of(id, topic));
                    Told { standing, words }
                }
                None => {
                    let words = "Its record is gone.".to_string();
                    Told { standing: Standing::ABSENT, words }
                }
            };
            peer.topics[topic].note(event, told);
        }
        peer.scores.note(event, why)
    }

    fn size(&self, topic: usize) -> Size {
        let mesh = self.router.mesh(topic);
        let outbound = mesh.iter().filter(|&&slot| self.router.peers[slot].outbound).count();
        Size { outbound, inbound: mesh.len() - outbound }
    }
}

/// Whether a call with this answer moves the clock at least.
fn is_heard(answer: &str) -> bool {
    answer.starts_with("0 ") || answer.starts_with("11 ")
}

fn lines_of(text: &str) -> Vec<String> {
    text.lines().map(str::to_string).collect()
}
