//! The cases of an event in a trace of an edition (orders 9 and 11 of 02): what an old
//! permutation orders, and what it leaves by slot; several groups.

use crate::event::{Call, Event, OLD_SLOTS, SLOTS};
use crate::router::{is_permutation, Plan, Router, Status};
use crate::trace::TraceEdition;

pub const CASES: [&str; 13] = [
    "edition 1",
    "edition 2",
    "edition 1, more peers than its permutation orders",
    "edition 1, a heartbeat grafts past the old slots, by slot",
    "edition 1, an old slot is grafted before one past them",
    "edition 1, a permutation names the first slot past the old ones",
    "editions 2 and 3, a heartbeat grafts past the old slots",
    "editions 2 and 3, a slot past the old ones is grafted before an old one",
    "editions 2 and 3, a heartbeat prunes past the old slots",
    "all slots are connected",
    "a group of more peers than the old slots",
    "edition 3",
    "edition 3, several groups",
];

/// The cases that an event is about to meet.
pub fn cases(edition: TraceEdition, router: &Router, event: &Event) -> Vec<&'static str> {
    let old = edition == TraceEdition::One;
    let mut facts = vec![
        ("edition 1", old),
        ("edition 2", edition == TraceEdition::Two),
        ("edition 3", edition == TraceEdition::Three),
    ];
    let connected = router.peers.iter().filter(|peer| peer.status == Status::Connected).count();
    let many = connected > OLD_SLOTS;
    facts.push(("all slots are connected", connected == SLOTS));
    match &event.call {
        Call::Heartbeat { topic, ask, permutation } if event.in_range() => {
            let beyond = permutation[..edition.permuted()].contains(&(OLD_SLOTS as u64));
            facts.push((CASES[5], old && beyond));
            facts.push((CASES[2], old && many));
            if event.now >= router.clock
                && is_permutation(permutation)
                && router.joined[*topic as usize]
            {
                let topic = *topic as usize;
                let plan = router.heartbeat_plan(event.now, topic, *ask == 1, permutation);
                facts.extend(of_plan(old, &plan));
            }
        }
        Call::Score { id } if event.in_range() => {
            let crowded = |group| router.sharing(group) > OLD_SLOTS as i64;
            let slot = router.connected(*id as u32);
            let crowd = slot.is_ok_and(|slot| router.peers[slot].groups().any(crowded));
            facts.push(("a group of more peers than the old slots", crowd));
        }
        Call::Connect { groups, .. } if event.in_range() => {
            facts.push(("edition 3, several groups", groups.len() > 1));
        }
        _ => {}
    }
    facts.into_iter().filter(|(_, holds)| *holds).map(|(case, _)| case).collect()
}

fn of_plan(old: bool, plan: &Plan) -> Vec<(&'static str, bool)> {
    let past = |slot: &usize| *slot >= OLD_SLOTS;
    let steps = [&plan.fill, &plan.quota, &plan.opportunistic];
    let grafts = steps.iter().any(|step| step.iter().any(past));
    let prunes = plan.negative.iter().chain(&plan.surplus).any(past);
    let pairs = |first: fn(usize) -> bool| {
        let fits = move |pair: &[usize]| first(pair[0]) && !first(pair[1]);
        steps.iter().any(|step| step.windows(2).any(fits))
    };
    let old_first = pairs(|slot| slot < OLD_SLOTS);
    let new_first = pairs(|slot| slot >= OLD_SLOTS);
    match old {
        true => vec![(CASES[3], grafts), (CASES[4], old_first)],
        false => vec![(CASES[6], grafts), (CASES[7], new_first), (CASES[8], prunes)],
    }
}
