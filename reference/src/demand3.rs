//! The mission's demand 3, checked after every call of a list of calls.

use crate::event::{Call, Event, SLOTS};
use crate::params::general;
use crate::router::{number, Answer, Router};

/// One call of a list, with the length of the action list that is lent to it.
#[derive(Clone, Debug)]
pub struct Lent {
    pub event: Event,
    pub list: usize,
}

/// Opportunism can add this many inbound peers to a mesh of D_hi.
const OVER_D_HI: usize = 2;

/// Makes a call and checks what demand 3 says of the state after it.
pub fn checked_call(router: &mut Router, lent: &Lent) -> Result<Answer, String> {
    let start = Start::of(router, &lent.event);
    let answer = router.call(&lent.event, &mut vec![0; lent.list]);
    check_after(router, start.as_ref(), number(&answer))?;
    Ok(answer)
}

/// What demand 3 says of the state after a call, a heartbeat's start given.
pub fn check_after(router: &Router, start: Option<&Start>, answer: u32) -> Result<(), String> {
    if answer == 12 {
        return Err("a call left tables that are no router's".to_string());
    }
    for topic in (0..router.joined.len()).filter(|&topic| router.joined[topic]) {
        check_inbound(router, topic)?;
    }
    match start {
        Some(start) if answer == 0 => start.check_end(router),
        _ => Ok(()),
    }
}

/// "A joined topic's mesh holds at most D_hi + 2 inbound peers."
fn check_inbound(router: &Router, topic: usize) -> Result<(), String> {
    let most = router.params.general(general::D_HI) as usize + OVER_D_HI;
    let count = inbound(router, topic);
    if count <= most {
        Ok(())
    } else {
        Err(format!("topic {topic} has {count} inbound members, over D_hi + 2 = {most}"))
    }
}

pub fn inbound(router: &Router, topic: usize) -> usize {
    router.mesh(topic).iter().filter(|&&slot| !router.peers[slot].outbound).count()
}

/// Is one of the meshes as full of inbound peers as it may be?
pub fn is_tight(router: &Router) -> bool {
    let most = router.params.general(general::D_HI) as usize + OVER_D_HI;
    (0..router.joined.len()).any(|topic| inbound(router, topic) == most)
}

/// What a heartbeat's start fixes: the scores, and the pool, which is "the
/// members at that start whose score was zero or more, and all candidates".
pub struct Start {
    topic: usize,
    scores: Vec<i64>,
    pool: Vec<usize>,
}

impl Start {
    /// None of a call that is no heartbeat.
    pub fn of(router: &Router, event: &Event) -> Option<Start> {
        let Call::Heartbeat { topic, .. } = event.call else { return None };
        if !event.in_range() {
            return None;
        }
        let topic = topic as usize;
        let scores = router.scores();
        let in_pool = |&slot: &usize| {
            let member = router.peers[slot].topics[topic].member;
            member && scores[slot] >= 0 || router.is_candidate(slot, topic, event.now)
        };
        let pool = (0..SLOTS).filter(in_pool).collect();
        Some(Start { topic, scores, pool })
    }

    /// The three conclusions about the mesh after a heartbeat answered by 0.
    fn check_end(&self, router: &Router) -> Result<(), String> {
        let mesh = router.mesh(self.topic);
        let outbound = |slot: &&usize| router.peers[**slot].outbound;
        let in_mesh = |slot: &usize| mesh.contains(slot);
        let d_lo = router.params.general(general::D_LO) as usize;
        let d_out = router.params.general(general::D_OUT) as usize;
        if mesh.iter().any(|&slot| self.scores[slot] < 0) {
            return Err(format!("topic {} has a member of negative score", self.topic));
        }
        let quota = mesh.iter().filter(outbound).count() >= d_out;
        if !quota && !self.pool.iter().filter(outbound).all(in_mesh) {
            return Err(format!("topic {} lacks outbound members, with some left", self.topic));
        }
        if mesh.len() < d_lo && !self.pool.iter().all(in_mesh) {
            return Err(format!("topic {} is under D_lo, with peers left", self.topic));
        }
        Ok(())
    }
}
