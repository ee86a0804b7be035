//! Random lists of old and new calls, saves and loads; and the checker of order 7's bound.

use reference::coverage::gossip::GossipCoverage;
use reference::event::{Call, Event};
use reference::gossip::{AnyEvent, GossipCall, GossipEvent};
use reference::mixed::List;
use reference::random::Random;
use reference::remember;
use reference::replies::Replies;

/// What `check_lists` runs, in little: nothing may break. How much is reached it says itself.
#[test]
fn random_lists_break_nothing() {
    let mut coverage = GossipCoverage::default();
    let mut seeds = Random::new(6);
    for _ in 0..6 {
        let mut beside = Random::new(seeds.bits());
        let mut list = List::new(200, Random::new(seeds.bits()), &mut coverage);
        for _ in 0..200 {
            list.step(&mut coverage).unwrap();
        }
        for _ in 0..20 {
            remember::check_save(list.caller.router(), &mut beside, &mut coverage).unwrap();
            remember::check_load(&mut beside, &mut coverage).unwrap();
        }
    }
    assert_eq!(coverage.not_permitted(), [""; 0]);
    let wanted = remember::wanted();
    assert!(GossipCoverage::default().missing(&wanted).len() > coverage.missing(&wanted).len());
}

fn old(call: Call) -> AnyEvent {
    AnyEvent::Old(Event { now: 0, call })
}

fn new(call: GossipCall) -> AnyEvent {
    AnyEvent::New(GossipEvent { now: 0, call })
}

fn want() -> AnyEvent {
    new(GossipCall::IWant { id: 1, number: 5 })
}

fn store(topic: u64) -> AnyEvent {
    new(GossipCall::Store { topic, number: 5 })
}

/// Whether answers of 0 to all events keep the bound of 1.
fn keeps(events: &[AnyEvent]) -> bool {
    let mut replies = Replies::default();
    events.iter().all(|event| replies.see(event, 0, 1).is_ok())
}

#[test]
fn the_checker_counts_for_itself() {
    let beat = || new(GossipCall::Beat);
    let leave = |topic| old(Call::Leave { topic });
    assert!(keeps(&[store(0), want()]));
    assert!(!keeps(&[want()]), "never stored");
    assert!(!keeps(&[store(0), want(), want()]));
    assert!(!keeps(&[store(0), store(1), want(), want()]), "not once for each topic");
    assert!(!keeps(&[store(0), want(), store(1), leave(0), want()]), "no gap");
    assert!(keeps(&[store(0), want(), leave(0), store(1), want()]), "a gap");
    assert!(!keeps(&[store(0), leave(0), want()]));
    assert!(keeps(&[store(0), want(), old(Call::Disconnect { id: 1 }), want()]));
    let beats = |count: usize| std::iter::repeat_with(beat).take(count);
    let after = |count: usize| -> Vec<AnyEvent> {
        [store(0)].into_iter().chain(beats(count)).chain([want()]).collect()
    };
    assert!(keeps(&after(4)) && !keeps(&after(5)), "gone at the fifth heartbeat");
    let mut renewed: Vec<AnyEvent> = [store(0), want(), store(0)].into_iter().collect();
    renewed.extend(beats(4));
    assert!(!keeps(&[&renewed[..], &[store(1), beat(), want()]].concat()), "no gap");
    assert!(keeps(&[&renewed[..], &[beat(), store(1), want()]].concat()), "a gap");
}

#[test]
fn refused_calls_count_for_nothing() {
    let mut replies = Replies::default();
    assert!(replies.see(&store(0), 0, 1).is_ok());
    for answer in [1, 2, 3, 8, 11, 12] {
        assert!(replies.see(&want(), answer, 1).is_ok());
        assert!(!replies.is_tight(1));
    }
    assert!(replies.see(&want(), 0, 1).is_ok());
    assert!(replies.is_tight(1));
}
