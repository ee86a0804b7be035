//! What brought a peer into a mesh or out of it: asked of the router before each
//! call, told once the call is done.

use reference::event::{Call, Event};
use reference::params::general;
use reference::router::{GraftCase, Plan, Router};
use std::collections::BTreeMap;

#[derive(Clone, Copy, PartialEq, Eq, Debug)]
pub enum Cause {
    TheirGraft,
    Fill,
    Quota,
    Opportunistic,
    Negative,
    Surplus,
    Swapped,
    TheirPrune,
    Unsubscribed,
    WeLeft,
    Disconnected,
    Refused(GraftCase),
}

impl Cause {
    fn enters(self) -> bool {
        matches!(self, Cause::TheirGraft | Cause::Fill | Cause::Quota | Cause::Opportunistic)
    }

    /// After "Out since 3.000 s: " and its like.
    pub fn words(self, router: &Router) -> String {
        let number = |place| router.params.general(place);
        match self {
            Cause::TheirGraft => "its own GRAFT was taken".to_string(),
            Cause::Fill => {
                format!(
                    "the heartbeat took it in, as the mesh was under D_lo = {}",
                    number(general::D_LO)
                )
            }
            Cause::Quota => format!(
                "the heartbeat took it in, as the mesh had fewer outbound hubs than D_out = {}",
                number(general::D_OUT)
            ),
            Cause::Opportunistic => {
                "the heartbeat took it in, as it scores above the median of a weak mesh".to_string()
            }
            Cause::Negative => "the heartbeat pruned it, as its score was below zero".to_string(),
            Cause::Surplus => format!(
                "the heartbeat pruned it, as the mesh was over D_hi = {} and others were kept",
                number(general::D_HI)
            ),
            Cause::Swapped => format!(
                "the heartbeat pruned it for an outbound hub, of which it wants D_out = {}",
                number(general::D_OUT)
            ),
            Cause::TheirPrune => "it sent a PRUNE".to_string(),
            Cause::Unsubscribed => "it unsubscribed".to_string(),
            Cause::WeLeft => "we left the topic".to_string(),
            Cause::Disconnected => "its connection ended".to_string(),
            Cause::Refused(case) => refusal(case, number(general::D_HI)),
        }
    }
}

fn refusal(case: GraftCase, d_hi: i64) -> String {
    match case {
        GraftCase::NotJoined => "we were not in the topic".to_string(),
        GraftCase::Graylisted => "it was graylisted".to_string(),
        GraftCase::AlreadyMember => "it was a member already".to_string(),
        GraftCase::Explicit => "it is an explicit hub, which is in no mesh".to_string(),
        GraftCase::BackoffRunning => "its backoff was still running, an offence".to_string(),
        GraftCase::NegativeScore => "its score was below zero".to_string(),
        GraftCase::NotSubscribed => "it had not subscribed to the topic".to_string(),
        GraftCase::FullForInbound => format!("the mesh was full at D_hi = {d_hi} for inbound hubs"),
        GraftCase::Accepted => "it was taken".to_string(),
    }
}

/// A cause, and when.
#[derive(Clone, Copy, PartialEq, Eq, Debug)]
pub struct Turn {
    pub cause: Cause,
    pub time: u64,
}

/// The last turn of a peer in a topic, and the last GRAFT refused since.
#[derive(Clone, Copy, PartialEq, Eq, Debug, Default)]
pub struct Turns {
    pub last: Option<Turn>,
    pub refused: Option<Turn>,
}

/// What a call would do to meshes: peers by id, topic and cause.
pub type Foreseen = Vec<(u32, usize, Cause)>;

/// What an event does, if it is done.
pub fn foresee(router: &Router, event: &Event) -> Foreseen {
    if !event.in_range() {
        return Vec::new();
    }
    match event.call {
        Call::Graft { id, topic } => foresee_graft(router, event.now, id as u32, topic as usize),
        Call::Heartbeat { topic, ask, ref permutation } => {
            if !reference::router::is_permutation(permutation) {
                return Vec::new();
            }
            let plan = router.heartbeat_plan(event.now, topic as usize, ask == 1, permutation);
            foresee_heartbeat(router, topic as usize, &plan)
        }
        Call::Leave { topic } => members(router, topic as usize, Cause::WeLeft),
        Call::Prune { id, topic, .. } => {
            one_member(router, id as u32, topic as usize, Cause::TheirPrune)
        }
        Call::Unsubscribe { id, topic } => {
            one_member(router, id as u32, topic as usize, Cause::Unsubscribed)
        }
        Call::Disconnect { id } => (0..router.joined.len())
            .flat_map(|topic| one_member(router, id as u32, topic, Cause::Disconnected))
            .collect(),
        _ => Vec::new(),
    }
}

fn foresee_graft(router: &Router, now: u64, id: u32, topic: usize) -> Foreseen {
    let Ok(slot) = router.connected(id) else { return Vec::new() };
    let cause = match router.graft_case(now, slot, topic) {
        GraftCase::Accepted => Cause::TheirGraft,
        case => Cause::Refused(case),
    };
    vec![(id, topic, cause)]
}

fn foresee_heartbeat(router: &Router, topic: usize, plan: &Plan) -> Foreseen {
    let swapped = |slot: &usize| plan.swaps.iter().any(|swap| swap.goes == *slot);
    let (swapped, surplus): (Vec<usize>, Vec<usize>) =
        plan.surplus.iter().partition(|slot| swapped(slot));
    let all = [
        (&plan.negative, Cause::Negative),
        (&plan.fill, Cause::Fill),
        (&surplus, Cause::Surplus),
        (&swapped, Cause::Swapped),
        (&plan.quota, Cause::Quota),
        (&plan.opportunistic, Cause::Opportunistic),
    ];
    let told = |(slots, cause): (&Vec<usize>, Cause)| {
        slots.iter().map(|&slot| (router.peers[slot].id, topic, cause)).collect::<Vec<_>>()
    };
    all.into_iter().flat_map(told).collect()
}

fn members(router: &Router, topic: usize, cause: Cause) -> Foreseen {
    router.mesh(topic).iter().map(|&slot| (router.peers[slot].id, topic, cause)).collect()
}

fn one_member(router: &Router, id: u32, topic: usize, cause: Cause) -> Foreseen {
    members(router, topic, cause).into_iter().filter(|turn| turn.0 == id).collect()
}

/// The turns of all peers, by id and topic.
#[derive(Default)]
pub struct Ledger(BTreeMap<(u32, usize), Turns>);

impl Ledger {
    /// Notes what a call has done. A GRAFT of a member changes nothing.
    pub fn note(&mut self, time: u64, foreseen: &Foreseen) {
        for &(id, topic, cause) in foreseen {
            let turns = self.0.entry((id, topic)).or_default();
            let turn = Some(Turn { cause, time });
            match cause {
                Cause::Refused(GraftCase::AlreadyMember) => {}
                Cause::Refused(_) => turns.refused = turn,
                _ if cause.enters() => *turns = Turns { last: turn, refused: None },
                _ => turns.last = turn,
            }
        }
    }

    /// A record that is gone leaves nothing behind.
    pub fn forget(&mut self, id: u32) {
        self.0.retain(|key, _| key.0 != id);
    }

    pub fn of(&self, id: u32, topic: usize) -> Turns {
        self.0.get(&(id, topic)).copied().unwrap_or_default()
    }
}
