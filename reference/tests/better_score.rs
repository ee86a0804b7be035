//! Order 13 of 02, "A better score never loses the place", tried on random states: two routers alike but for
//! one peer's P5, no less in the second, are given the same heartbeat; a member after the first is one after
//! the second.

use reference::coverage::Coverage;
use reference::event::{Call, Event, P5_LIMIT, SLOTS};
use reference::generate::traces;
use reference::random::Random;
use reference::router::{number, Router, Status, ACTION_LIST};
use reference::text::{Line, Trace};

const TRACES: usize = 300;

/// What the tries met; without these they would show little.
#[derive(Default, Debug)]
struct Met {
    tries: u32,
    /// A member after both heartbeats, and one that the first cut away or did not take.
    both: u32,
    second_alone: u32,
    /// The better score changed what is done to others.
    others_change: u32,
}

/// Whether the peer of a slot is a member after a heartbeat, and the actions.
fn heartbeat(
    router: &Router,
    event: &Event,
    topic: usize,
    slot: usize,
) -> (bool, [u32; ACTION_LIST]) {
    let mut router = router.clone();
    let mut list = [0; ACTION_LIST];
    let answer = router.call(event, &mut list);
    assert!(matches!(number(&answer), 0 | 1 | 2 | 7 | 11));
    (router.peers[slot].topics[topic].member, list)
}

fn compare(router: &Router, event: &Event, random: &mut Random, met: &mut Met) {
    let Call::Heartbeat { topic, .. } = event.call else { return };
    let connected = |slot: &usize| router.peers[*slot].status == Status::Connected;
    let slots: Vec<usize> = (0..SLOTS).filter(connected).collect();
    if topic >= 8 || slots.is_empty() {
        return;
    }
    for _ in 0..4 {
        let slot = *random.pick(&slots);
        let mut better = router.clone();
        let p5 = &mut better.peers[slot].p5;
        let step = *random.pick(&[1, 1_000, 500_000, 1_000_000, 10_000_000, P5_LIMIT]);
        *p5 = (*p5 + random.between(0, step)).min(P5_LIMIT);
        let (first, first_list) = heartbeat(router, event, topic as usize, slot);
        let (second, second_list) = heartbeat(&better, event, topic as usize, slot);
        assert!(second || !first, "slot {slot} loses its place: {event:?}\n{router:?}");
        met.tries += 1;
        met.both += u32::from(first);
        met.second_alone += u32::from(second && !first);
        met.others_change += u32::from(first && first_list != second_list);
    }
}

#[test]
fn a_better_score_never_loses_the_place() {
    let mut random = Random::new(13);
    let mut met = Met::default();
    for _ in 0..TRACES {
        let bytes = traces::trace(&mut random, &mut Coverage::default()).bytes;
        let trace = Trace::from_bytes(&bytes);
        let Some(params) = trace.params.filter(|params| params.check().is_ok()) else { continue };
        let mut router = Router::unchecked(params);
        for line in &trace.lines {
            let Line::Event(event) = line else { break };
            compare(&router, event, &mut random, &mut met);
            let _ = router.call(event, &mut [0; ACTION_LIST]);
        }
    }
    let Met { tries, both, second_alone, others_change } = met;
    assert!(tries > 1000 && both > 100 && second_alone > 20 && others_change > 20, "{met:?}");
}
