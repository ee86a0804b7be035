//! 01: subscribe, unsubscribe, "GRAFT in" and "PRUNE in".

use super::tables::P4_P7_LIMIT;
use super::{refuse_if, Actions, Refusal, Router, GRAFT};
use crate::params::general;

/// A given backoff of more seconds counts as this many.
const LONGEST_BACKOFF: u64 = 3600;

/// A GRAFT during the backoff adds one whole offence to P7.
const OFFENCE: i64 = 1000;

/// What decides a GRAFT that comes in: the first that holds, in this order.
#[derive(Clone, Copy, PartialEq, Eq, PartialOrd, Ord, Debug)]
pub enum GraftCase {
    NotJoined,
    Graylisted,
    AlreadyMember,
    Explicit,
    BackoffRunning,
    NegativeScore,
    NotSubscribed,
    FullForInbound,
    Accepted,
}

impl Router {
    /// "A subscription is recorded in any topic; one that changes nothing is 0".
    pub(super) fn subscribe(&mut self, id: u32, topic: usize) -> Result<(), Refusal> {
        let slot = self.connected(id)?;
        refuse_if(self.graylisted(slot), Refusal::Ignored)?;
        self.peers[slot].topics[topic].subscribed = true;
        Ok(())
    }

    /// "Unsubscribe takes a member out, with no action".
    pub(super) fn unsubscribe(&mut self, id: u32, topic: usize) -> Result<(), Refusal> {
        let slot = self.connected(id)?;
        refuse_if(self.graylisted(slot), Refusal::Ignored)?;
        let peer = &mut self.peers[slot];
        peer.leave_mesh(topic);
        peer.topics[topic].subscribed = false;
        Ok(())
    }

    /// "PRUNE in": out of the mesh, with a backoff, member or not.
    pub(super) fn prune(
        &mut self,
        now: u64,
        id: u32,
        topic: usize,
        seconds: u64,
    ) -> Result<(), Refusal> {
        let slot = self.connected(id)?;
        refuse_if(!self.joined[topic] || self.graylisted(slot), Refusal::Ignored)?;
        let seconds =
            if seconds == 0 { self.prune_backoff() } else { seconds.min(LONGEST_BACKOFF) };
        let peer = &mut self.peers[slot];
        peer.leave_mesh(topic);
        peer.extend_backoff(topic, now + 1000 * seconds);
        Ok(())
    }

    pub(super) fn graft(
        &mut self,
        now: u64,
        id: u32,
        topic: usize,
        actions: &mut Actions,
    ) -> Result<(), Refusal> {
        let slot = self.connected(id)?;
        let case = self.graft_case(now, slot, topic);
        match case {
            GraftCase::NotJoined | GraftCase::Graylisted => return Err(Refusal::Ignored),
            GraftCase::AlreadyMember => {}
            GraftCase::Accepted => self.enter_mesh(slot, topic, now),
            _ => {
                if case == GraftCase::BackoffRunning {
                    let peer = &mut self.peers[slot];
                    peer.p7 = (peer.p7 + OFFENCE).min(P4_P7_LIMIT);
                }
                self.send_prune(slot, topic, now, self.prune_backoff(), actions);
            }
        }
        Ok(())
    }

    /// 01, "GRAFT in, first that holds".
    pub fn graft_case(&self, now: u64, slot: usize, topic: usize) -> GraftCase {
        let peer = &self.peers[slot];
        let d_hi = self.params.general(general::D_HI) as usize;
        let cases = [
            (GraftCase::NotJoined, !self.joined[topic]),
            (GraftCase::Graylisted, self.graylisted(slot)),
            (GraftCase::AlreadyMember, peer.topics[topic].member),
            (GraftCase::Explicit, peer.explicit),
            (GraftCase::BackoffRunning, peer.backoff_running(topic, now)),
            (GraftCase::NegativeScore, self.score(slot) < 0),
            (GraftCase::NotSubscribed, !peer.topics[topic].subscribed),
            (GraftCase::FullForInbound, self.mesh(topic).len() >= d_hi && !peer.outbound),
        ];
        let first = cases.iter().find(|(_, holds)| *holds);
        first.map_or(GraftCase::Accepted, |&(case, _)| case)
    }

    /// Takes a candidate into the mesh and tells it.
    pub(super) fn send_graft(
        &mut self,
        slot: usize,
        topic: usize,
        now: u64,
        actions: &mut Actions,
    ) {
        self.enter_mesh(slot, topic, now);
        actions.push([GRAFT, self.peers[slot].id, 0]);
    }
}
