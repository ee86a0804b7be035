//! The cases of a heartbeat: which steps act, and where a step's limits decide.

use crate::event::{Call, Event, Permutation, SLOTS};
use crate::params::{general, Edition};
use crate::router::{is_permutation, Plan, Router, Swap, GRAFT_SLACK};
use std::cmp::Reverse;

/// The cases that every run reaches. Each is counted once a heartbeat. Those of
/// edition 2 stand apart.
pub const CASES: [&str; 39] = [
    "ask over 1",
    "permutation: a slot twice",
    "permutation: a number past the slots",
    "permutation: bad, and the topic not joined",
    "topic not joined",
    "step 1 prunes",
    "step 1 adds to P3b",
    "step 2 grafts",
    "step 2 stops at D",
    "step 2 ends for want of candidates",
    "step 3 cuts",
    "step 3 has equal scores at the edge of the best",
    "step 3 swaps",
    "step 3 swaps more than once",
    "step 3 swaps past an outbound keeper",
    "step 3 ends for want of outbound members",
    "step 4 grafts",
    "step 4 stops at D_out",
    "step 4 ends for want of outbound candidates",
    "step 4 grafts after a cut",
    "step 5 grafts one",
    "step 5 grafts two",
    "step 5 leaves a third that is better",
    "step 5 leaves one at the median",
    "step 5 decides by another median than the start's",
    "asked: mesh under two",
    "asked: median at or over the threshold",
    "asked: median at the threshold",
    "nothing to do",
    super::TOLD,
    "step 2 goes without one for its slack alone",
    "step 4 goes without one for its slack alone",
    "step 5 goes without one for its slack alone",
    "the slack keeps one out at its backoff's end",
    "the slack keeps one out in its last millisecond",
    "step 2 grafts one as its slack ends",
    "step 4 grafts one as its slack ends",
    "step 5 grafts one as its slack ends",
    "grafts one without a backoff in the first second",
];

/// Cases that only parameters of edition 2 meet.
pub const EDITION_2_CASES: [&str; 8] = [
    "step 3 cuts in edition 2, D_score + D_out over D",
    "step 3 swaps in edition 2, D_score + D_out at most D",
    "step 3 swaps one of the best",
    "step 3 swaps more than one of the best",
    "step 3 swaps a drawn keeper, then one of the best",
    "step 3 swaps the later drawn of equals among the best",
    "step 3 swaps the lowest of the best, drawn before another",
    "step 3 swaps one of the best, past an outbound one",
];

/// No call leaves an end of 1 to 999, but a router's table may hold one.
pub const EARLY_END: &str = "the slack keeps one out whose end is under 1000";

type Facts = Vec<(&'static str, bool)>;

/// The cases that an event, if it is a heartbeat, is about to meet.
pub fn cases(router: &Router, event: &Event) -> Vec<&'static str> {
    let facts = facts(router, event);
    facts.into_iter().filter(|(_, holds)| *holds).map(|(case, _)| case).collect()
}

/// In the order of the tests 2, 1, 7, 11.
fn facts(router: &Router, event: &Event) -> Facts {
    let Call::Heartbeat { topic, ask, ref permutation } = event.call else { return Vec::new() };
    if !event.in_range() {
        let answered = Call::Heartbeat { topic, ask: 0, permutation: permutation.clone() };
        let else_in_range = Event { now: event.now, call: answered }.in_range();
        return vec![("ask over 1", else_in_range)];
    }
    let joined = router.joined[topic as usize];
    if event.now < router.clock {
        Vec::new()
    } else if !is_permutation(permutation) {
        let over = permutation.iter().any(|&slot| slot >= SLOTS as u64);
        vec![
            ("permutation: a slot twice", !over),
            ("permutation: a number past the slots", over),
            ("permutation: bad, and the topic not joined", !joined),
        ]
    } else if joined {
        Seen::new(router, event.now, topic as usize, ask == 1, permutation).facts()
    } else {
        vec![("topic not joined", true)]
    }
}

/// All that a plan grafts, in its order.
fn grafted_by(plan: &Plan) -> Vec<usize> {
    [&plan.fill[..], &plan.quota, &plan.opportunistic].concat()
}

/// Is a backoff over, and our own GRAFT still to wait?
pub fn in_slack(end: u64, now: u64) -> bool {
    end > 0 && (end..end + GRAFT_SLACK).contains(&now)
}

/// The router with the backoffs forgotten for which our own GRAFT still waits, if there are any.
fn without_slack(router: &Router, now: u64, topic: usize) -> Option<Router> {
    let waits = |slot: &usize| in_slack(router.peers[*slot].backoff_ends[topic], now);
    let waiting: Vec<usize> = (0..SLOTS).filter(waits).collect();
    if waiting.is_empty() {
        return None;
    }
    let mut hasty = router.clone();
    for slot in waiting {
        hasty.peers[slot].backoff_ends[topic] = 0;
    }
    Some(hasty)
}

/// A heartbeat that will be answered by 0: its plan, and what its start holds.
struct Seen<'a> {
    router: &'a Router,
    now: u64,
    topic: usize,
    asked: bool,
    plan: Plan,
    /// The plan that would be, did our own GRAFT not wait after a backoff.
    hasty: Plan,
    scores: Vec<i64>,
    /// All slots, and the candidates, in the permutation's order.
    order: Vec<usize>,
    candidates: Vec<usize>,
    members: Vec<usize>,
}

impl Seen<'_> {
    fn new<'a>(
        router: &'a Router,
        now: u64,
        topic: usize,
        asked: bool,
        permutation: &Permutation,
    ) -> Seen<'a> {
        let order: Vec<usize> = permutation.iter().map(|&slot| slot as usize).collect();
        let is_candidate = |slot: &usize| router.is_candidate(*slot, topic, now);
        let plan = router.heartbeat_plan(now, topic, asked, permutation);
        let hasty = match without_slack(router, now, topic) {
            Some(router) => router.heartbeat_plan(now, topic, asked, permutation),
            None => plan.clone(),
        };
        Seen {
            router,
            now,
            topic,
            asked,
            plan,
            hasty,
            scores: router.scores(),
            candidates: order.iter().copied().filter(is_candidate).collect(),
            order,
            members: router.mesh(topic),
        }
    }

    fn facts(&self) -> Facts {
        let steps = [
            self.first_steps(),
            self.third_step(),
            self.fourth_step(),
            self.fifth_step(),
            self.slack(),
        ];
        let mut facts = steps.concat();
        facts.push(("nothing to do", self.pruned() + grafted_by(&self.plan).len() == 0));
        facts.push((super::TOLD, self.tells_newest()));
        facts
    }

    fn general(&self, place: usize) -> usize {
        self.router.params.general(place) as usize
    }

    fn outbound(&self, slots: &[usize]) -> usize {
        slots.iter().filter(|&&slot| self.router.peers[slot].outbound).count()
    }

    fn pruned(&self) -> usize {
        self.plan.negative.len() + self.plan.surplus.len()
    }

    fn tells_newest(&self) -> bool {
        let mut pruned = self.plan.negative.iter().chain(&self.plan.surplus);
        pruned.any(|&slot| super::is_newest(self.router, slot))
    }

    /// The mesh that step 3 sees when it acts, since step 2 then did not.
    fn after_first(&self) -> Vec<usize> {
        let stays = |slot: &usize| !self.plan.negative.contains(slot);
        self.members.iter().copied().filter(stays).collect()
    }

    fn after_third(&self) -> Vec<usize> {
        let mut mesh = self.after_first();
        mesh.extend(&self.plan.fill);
        mesh.retain(|slot| !self.plan.surplus.contains(slot));
        mesh
    }

    fn first_steps(&self) -> Facts {
        let fails = |&slot: &usize| self.router.p3(slot, self.topic) > 0;
        let left = self.after_first().len();
        let filled = left + self.plan.fill.len();
        let grafts = !self.plan.fill.is_empty();
        let more = self.candidates.len() > self.plan.fill.len();
        let d = self.general(general::D);
        vec![
            ("step 1 prunes", !self.plan.negative.is_empty()),
            ("step 1 adds to P3b", self.plan.negative.iter().any(fails)),
            ("step 2 grafts", grafts),
            ("step 2 stops at D", grafts && filled == d && more),
            (
                "step 2 ends for want of candidates",
                left < self.general(general::D_LO) && filled < d,
            ),
        ]
    }

    fn third_step(&self) -> Facts {
        if self.plan.surplus.is_empty() {
            return Vec::new();
        }
        let place = |slot: &usize| self.order.iter().position(|other| other == slot);
        let mut ranked = self.after_first();
        ranked.sort_by_key(|slot| (Reverse(self.scores[*slot]), place(slot)));
        let others = ranked.split_off(self.general(general::D_SCORE));
        let tie = ranked.last().is_some_and(|&last| self.scores[last] == self.scores[others[0]]);
        let kept = self.after_third();
        let swaps = &self.plan.swaps;
        let passed = |goes: usize| {
            let comes = |slot| swaps.iter().any(|swap| swap.comes == slot);
            let later = |slot: &usize| place(slot) > place(&goes) && self.outbound(&[*slot]) == 1;
            others.iter().any(|slot| kept.contains(slot) && !comes(*slot) && later(slot))
        };
        let drawn = |swap: &Swap| !swap.of_the_best;
        let mut facts = vec![
            ("step 3 cuts", true),
            ("step 3 has equal scores at the edge of the best", tie),
            ("step 3 swaps", !swaps.is_empty()),
            ("step 3 swaps more than once", swaps.len() > 1),
            (
                "step 3 swaps past an outbound keeper",
                swaps.iter().any(|swap| drawn(swap) && passed(swap.goes)),
            ),
            (
                "step 3 ends for want of outbound members",
                self.outbound(&kept) < self.general(general::D_OUT),
            ),
        ];
        facts.extend(self.swaps_of_edition_2(&ranked));
        facts
    }

    /// Who goes out in edition 2 alone. The best are ranked, the lowest last; one that
    /// decides is a keeper still, so that another choice would be seen.
    fn swaps_of_edition_2(&self, best: &[usize]) -> Facts {
        if self.router.params.edition != Edition::Two {
            return Vec::new();
        }
        let swaps = &self.plan.swaps;
        let place = |slot: &usize| self.order.iter().position(|other| other == slot);
        let gone: Vec<usize> =
            swaps.iter().filter(|swap| swap.of_the_best).map(|swap| swap.goes).collect();
        let inbound = |slot: &usize| self.outbound(&[*slot]) == 0;
        let stays: Vec<usize> = best.iter().copied().filter(|slot| !gone.contains(slot)).collect();
        let any = |fits: &dyn Fn(usize, usize) -> bool| {
            gone.iter().any(|&goes| stays.iter().any(|&other| fits(goes, other)))
        };
        let equal = |one: usize, other: usize| self.scores[one] == self.scores[other];
        let rank = |slot: usize| best.iter().position(|&other| other == slot);
        let over = self.general(general::D_SCORE) + self.general(general::D_OUT)
            > self.general(general::D);
        vec![
            ("step 3 cuts in edition 2, D_score + D_out over D", over),
            ("step 3 swaps in edition 2, D_score + D_out at most D", !over && !swaps.is_empty()),
            ("step 3 swaps one of the best", !gone.is_empty()),
            ("step 3 swaps more than one of the best", gone.len() > 1),
            (
                "step 3 swaps a drawn keeper, then one of the best",
                !gone.is_empty() && gone.len() < swaps.len(),
            ),
            (
                "step 3 swaps the later drawn of equals among the best",
                any(&|goes, other| inbound(&other) && equal(goes, other)),
            ),
            (
                "step 3 swaps the lowest of the best, drawn before another",
                any(&|goes, other| {
                    inbound(&other) && !equal(goes, other) && place(&other) > place(&goes)
                }),
            ),
            (
                "step 3 swaps one of the best, past an outbound one",
                any(&|goes, other| !inbound(&other) && rank(other) > rank(goes)),
            ),
        ]
    }

    fn fourth_step(&self) -> Facts {
        let grafts = !self.plan.quota.is_empty();
        let d_out = self.general(general::D_OUT);
        let before = self.after_third();
        let missing = d_out.saturating_sub(self.outbound(&before));
        let free = self.candidates.iter().filter(|slot| !before.contains(slot));
        let free: Vec<usize> = free.copied().collect();
        vec![
            ("step 4 grafts", grafts),
            ("step 4 stops at D_out", grafts && self.outbound(&free) > missing),
            ("step 4 ends for want of outbound candidates", self.plan.quota.len() < missing),
            ("step 4 grafts after a cut", grafts && !self.plan.surplus.is_empty()),
        ]
    }

    fn fifth_step(&self) -> Facts {
        if !self.asked {
            return Vec::new();
        }
        let Some(median) = self.plan.median else { return vec![("asked: mesh under two", true)] };
        let threshold = self.router.opportunistic_threshold();
        let low = median < threshold;
        let free = self.free_for_fifth();
        let better = free.iter().filter(|&&slot| self.scores[slot] > median).count();
        let at_median = free.iter().any(|&slot| self.scores[slot] == median);
        let grafts = self.plan.opportunistic.len();
        vec![
            ("step 5 grafts one", grafts == 1),
            ("step 5 grafts two", grafts == 2),
            ("step 5 leaves a third that is better", low && better > 2),
            ("step 5 leaves one at the median", low && grafts > 0 && at_median),
            (
                "step 5 decides by another median than the start's",
                self.by_starts_median(&free) != self.plan.opportunistic,
            ),
            ("asked: median at or over the threshold", !low),
            ("asked: median at the threshold", median == threshold),
        ]
    }

    /// Where a backoff is over and our own GRAFT still waits, or waits no more.
    fn slack(&self) -> Facts {
        let end = |slot: usize| self.router.peers[slot].backoff_ends[self.topic];
        let held = |slot: usize| in_slack(end(slot), self.now);
        let ends = |slot: usize| end(slot) > 0 && self.now == end(slot) + GRAFT_SLACK;
        let any = |slots: &[usize], fits: &dyn Fn(usize) -> bool| slots.iter().any(|&s| fits(s));
        let hasty = grafted_by(&self.hasty);
        let (plan, early) = (&self.plan, &self.hasty);
        vec![
            ("step 2 goes without one for its slack alone", any(&early.fill, &held)),
            ("step 4 goes without one for its slack alone", any(&early.quota, &held)),
            ("step 5 goes without one for its slack alone", any(&early.opportunistic, &held)),
            (
                "the slack keeps one out at its backoff's end",
                any(&hasty, &|slot| held(slot) && self.now == end(slot)),
            ),
            (
                "the slack keeps one out in its last millisecond",
                any(&hasty, &|slot| held(slot) && self.now + 1 == end(slot) + GRAFT_SLACK),
            ),
            ("step 2 grafts one as its slack ends", any(&plan.fill, &ends)),
            ("step 4 grafts one as its slack ends", any(&plan.quota, &ends)),
            ("step 5 grafts one as its slack ends", any(&plan.opportunistic, &ends)),
            (
                "grafts one without a backoff in the first second",
                self.now < GRAFT_SLACK && any(&grafted_by(plan), &|slot| end(slot) == 0),
            ),
            (EARLY_END, any(&hasty, &|slot| held(slot) && end(slot) < GRAFT_SLACK)),
        ]
    }

    /// The candidates that no step before the fifth has grafted.
    fn free_for_fifth(&self) -> Vec<usize> {
        let taken = |slot: &usize| self.plan.fill.contains(slot) || self.plan.quota.contains(slot);
        self.candidates.iter().copied().filter(|slot| !taken(slot)).collect()
    }

    /// What step 5 would graft by the slip that 01 names: the median of the mesh
    /// at the start.
    fn by_starts_median(&self, free: &[usize]) -> Vec<usize> {
        let mut scores: Vec<i64> = self.members.iter().map(|&slot| self.scores[slot]).collect();
        scores.sort_unstable();
        let Some(&median) = scores.get(scores.len() / 2) else { return Vec::new() };
        if scores.len() < 2 || median >= self.router.opportunistic_threshold() {
            return Vec::new();
        }
        let better = free.iter().filter(|&&slot| self.scores[slot] > median);
        better.copied().take(2).collect()
    }
}
