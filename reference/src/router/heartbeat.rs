//! 01, "Tidy": the heartbeat's work for one topic.

use super::{refuse_if, Actions, Refusal, Router, Status};
use crate::event::Permutation;
use crate::params::{general, Edition};
use std::cmp::Reverse;
use std::collections::BTreeSet;

/// Opportunism grafts at most this many peers.
const OPPORTUNISTIC_GRAFTS: usize = 2;

/// A keeper that goes out for a left-out outbound member.
#[derive(Clone, Copy, PartialEq, Eq, Debug)]
pub struct Swap {
    pub goes: usize,
    pub comes: usize,
    /// Whether the one that goes was among the D_score best, and not drawn.
    pub of_the_best: bool,
}

/// What the five steps do: PRUNEs by slot, GRAFTs in the permutation's order.
#[derive(Clone, PartialEq, Eq, Debug, Default)]
pub struct Plan {
    /// Step 1 PRUNEs negative members.
    pub negative: Vec<usize>,
    /// Step 2 grafts when the mesh is under D_lo.
    pub fill: Vec<usize>,
    /// Step 3 PRUNEs when the mesh is over D_hi, after swaps of a keeper for a
    /// left-out outbound member.
    pub surplus: Vec<usize>,
    pub swaps: Vec<Swap>,
    /// Step 4 grafts for the quota of outbound peers.
    pub quota: Vec<usize>,
    /// Step 5 grafts for a better median.
    pub opportunistic: Vec<usize>,
    /// The median that step 5 saw, if it was asked and the mesh had two members.
    pub median: Option<i64>,
}

/// "Scores and candidates are those at the start."
struct Start<'a> {
    router: &'a Router,
    /// All slots, in the permutation's order.
    order: Vec<usize>,
    /// The candidates, in the permutation's order.
    candidates: Vec<usize>,
    scores: Vec<i64>,
}

impl Router {
    pub(super) fn heartbeat(
        &mut self,
        now: u64,
        topic: usize,
        opportunism: bool,
        permutation: &Permutation,
        actions: &mut Actions,
    ) -> Result<(), Refusal> {
        refuse_if(!is_permutation(permutation), Refusal::BadPermutation)?;
        refuse_if(!self.joined[topic], Refusal::Ignored)?;
        let plan = self.heartbeat_plan(now, topic, opportunism, permutation);
        for &slot in &plan.negative {
            self.punish_failure(slot, topic);
            self.send_prune(slot, topic, now, self.prune_backoff(), actions);
        }
        for &slot in &plan.fill {
            self.send_graft(slot, topic, now, actions);
        }
        for &slot in &plan.surplus {
            self.send_prune(slot, topic, now, self.prune_backoff(), actions);
        }
        for &slot in plan.quota.iter().chain(&plan.opportunistic) {
            self.send_graft(slot, topic, now, actions);
        }
        Ok(())
    }

    /// "Each step sees the mesh left by the one before."
    pub fn heartbeat_plan(
        &self,
        now: u64,
        topic: usize,
        opportunism: bool,
        permutation: &Permutation,
    ) -> Plan {
        let start = self.heartbeat_start(now, topic, permutation);
        let mut mesh: BTreeSet<usize> = self.mesh(topic).into_iter().collect();
        let mut plan = Plan { negative: start.negative(&mesh), ..Plan::default() };
        mesh.retain(|slot| !plan.negative.contains(slot));
        plan.fill = start.fill(&mesh);
        mesh.extend(&plan.fill);
        (plan.surplus, plan.swaps) = start.surplus(&mesh);
        mesh.retain(|slot| !plan.surplus.contains(slot));
        plan.quota = start.quota(&mesh);
        mesh.extend(&plan.quota);
        if opportunism && mesh.len() >= 2 {
            let median = start.median(&mesh);
            plan.opportunistic = start.opportunistic(&mesh, median);
            plan.median = Some(median);
        }
        plan
    }

    fn heartbeat_start(&self, now: u64, topic: usize, permutation: &Permutation) -> Start<'_> {
        let order: Vec<usize> = permutation.iter().map(|&slot| slot as usize).collect();
        let scores = self.scores();
        let is_candidate = |&slot: &usize| self.is_free(slot, topic, now) && scores[slot] >= 0;
        let candidates = order.iter().copied().filter(is_candidate).collect();
        Start { router: self, order, candidates, scores }
    }

    /// The threshold of step 5 as a score.
    pub fn opportunistic_threshold(&self) -> i64 {
        self.params.general(general::OPPORTUNISTIC_THRESHOLD) * 1_000_000
    }

    /// 01: "A candidate is connected, subscribed, not explicit, not a member,
    /// score ≥ 0, backoff not running"; order 3 of 02 puts its slack in the place
    /// of the last.
    pub fn is_candidate(&self, slot: usize, topic: usize, now: u64) -> bool {
        self.is_free(slot, topic, now) && self.score(slot) >= 0
    }

    /// All of that but the score.
    fn is_free(&self, slot: usize, topic: usize, now: u64) -> bool {
        let peer = &self.peers[slot];
        let record = &peer.topics[topic];
        peer.status == Status::Connected
            && record.subscribed
            && !peer.explicit
            && !record.member
            && peer.slack_over(topic, now)
    }
}

impl Start<'_> {
    fn general(&self, place: usize) -> usize {
        self.router.params.general(place) as usize
    }

    fn outbound(&self, slot: usize) -> bool {
        self.router.peers[slot].outbound
    }

    /// Candidates that no step has taken yet.
    fn candidates_outside<'b>(
        &'b self,
        mesh: &'b BTreeSet<usize>,
    ) -> impl Iterator<Item = usize> + 'b {
        self.candidates.iter().copied().filter(|slot| !mesh.contains(slot))
    }

    /// Step 1: "PRUNE negative members."
    fn negative(&self, mesh: &BTreeSet<usize>) -> Vec<usize> {
        mesh.iter().copied().filter(|&slot| self.scores[slot] < 0).collect()
    }

    /// Step 2: "Under D_lo: graft candidates in draw order up to D."
    fn fill(&self, mesh: &BTreeSet<usize>) -> Vec<usize> {
        if mesh.len() >= self.general(general::D_LO) {
            return Vec::new();
        }
        let missing = self.general(general::D) - mesh.len();
        self.candidates_outside(mesh).take(missing).collect()
    }

    /// Step 3: "Over D_hi: keep the D_score best (ties in draw order), then others
    /// in draw order to make D. ... PRUNE the rest." With it, the swaps.
    fn surplus(&self, mesh: &BTreeSet<usize>) -> (Vec<usize>, Vec<Swap>) {
        if mesh.len() <= self.general(general::D_HI) {
            return (Vec::new(), Vec::new());
        }
        let mut best = self.best(mesh);
        let mut drawn: Vec<usize> = self.order.clone();
        drawn.retain(|slot| mesh.contains(slot) && !best.contains(slot));
        // D_score passes D only where the rule against it is waived.
        let room = self.general(general::D).saturating_sub(best.len());
        let mut left_out = drawn.split_off(room);
        let swaps = self.swap_for_quota(&mut best, &mut drawn, &mut left_out);
        left_out.sort_unstable();
        (left_out, swaps)
    }

    /// The D_score best members, the best first; of equal scores the earlier in the
    /// permutation is the better, since the sort is stable.
    fn best(&self, mesh: &BTreeSet<usize>) -> Vec<usize> {
        let mut ranked = self.order.clone();
        ranked.retain(|slot| mesh.contains(slot));
        ranked.sort_by_key(|&slot| Reverse(self.scores[slot]));
        ranked.truncate(self.general(general::D_SCORE));
        ranked
    }

    /// "If fewer than D_out kept are outbound, swap: out goes the last drawn
    /// inbound keeper of the non-best, in comes the first left-out outbound in
    /// draw order, until D_out or none is left."
    fn swap_for_quota(
        &self,
        best: &mut [usize],
        drawn: &mut [usize],
        left_out: &mut [usize],
    ) -> Vec<Swap> {
        let kept = best.iter().chain(drawn.iter());
        let outbound = kept.filter(|&&slot| self.outbound(slot)).count();
        let mut swaps = Vec::new();
        while outbound + swaps.len() < self.general(general::D_OUT) {
            let left = left_out.iter_mut().find(|slot| self.outbound(**slot));
            let Some((comes, (goes, of_the_best))) = left.zip(self.goer(best, drawn)) else {
                break;
            };
            swaps.push(Swap { goes: *goes, comes: *comes, of_the_best });
            std::mem::swap(goes, comes);
        }
        swaps
    }

    /// Who goes out of the keepers, and whether it is one of the best. Order 14 of
    /// 02, of edition 2: "Its step 3 first swaps out inbound keepers that were drawn,
    /// last drawn first, then inbound ones among the best, lowest score first, of
    /// equals the later drawn." The best stand in the order of `best`, whose last is
    /// the lowest and, of equals, the later drawn. In edition 1 the best never go.
    fn goer<'b>(
        &self,
        best: &'b mut [usize],
        drawn: &'b mut [usize],
    ) -> Option<(&'b mut usize, bool)> {
        let last_drawn = drawn.iter_mut().rev().find(|slot| !self.outbound(**slot));
        if let Some(slot) = last_drawn {
            return Some((slot, false));
        }
        match self.router.params.edition {
            Edition::One => None,
            Edition::Two => {
                let lowest = best.iter_mut().rev().find(|slot| !self.outbound(**slot));
                lowest.map(|slot| (slot, true))
            }
        }
    }

    /// Step 4: "Under D_out outbound: graft outbound candidates not yet grafted, in
    /// draw order, until D_out or none is left."
    fn quota(&self, mesh: &BTreeSet<usize>) -> Vec<usize> {
        let outbound = mesh.iter().filter(|&&slot| self.outbound(slot)).count();
        let missing = self.general(general::D_OUT).saturating_sub(outbound);
        let candidates = self.candidates_outside(mesh).filter(|&slot| self.outbound(slot));
        candidates.take(missing).collect()
    }

    /// Step 5: "Mesh ≥ 2 and median < threshold: graft up to 2 candidates not yet
    /// grafted with scores above the median, in draw order."
    fn opportunistic(&self, mesh: &BTreeSet<usize>, median: i64) -> Vec<usize> {
        if median >= self.router.opportunistic_threshold() {
            return Vec::new();
        }
        let better = |slot: &usize| self.scores[*slot] > median;
        self.candidates_outside(mesh).filter(better).take(OPPORTUNISTIC_GRAFTS).collect()
    }

    /// "The median of n sorted upward is at index floor(n/2)."
    fn median(&self, mesh: &BTreeSet<usize>) -> i64 {
        let mut scores: Vec<i64> = mesh.iter().map(|&slot| self.scores[slot]).collect();
        scores.sort_unstable();
        scores[scores.len() / 2]
    }
}

/// 01, answer 7, with the slots of order 9 of 02: a "draw is each of 0..255 once".
pub fn is_permutation(permutation: &Permutation) -> bool {
    let mut sorted = *permutation;
    sorted.sort_unstable();
    sorted.iter().enumerate().all(|(place, &slot)| slot == place as u64)
}
