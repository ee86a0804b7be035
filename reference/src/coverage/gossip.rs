//! What lists of the calls of orders 6, 7 and 8 reach: each call with each answer, and the
//! cases inside the rules.

use super::{fact, Answers, Facts, Rows};
use crate::event::{Call, Event};
use crate::generate::damage::Damage;
use crate::gossip::{AnyEvent, GossipCall, GossipEvent, NUMBER_LIST};
use crate::router::{IHaveCase, IWantCase, NoticeCase, Place, StoreCase};
use crate::router::{Notice, Peer, Router, Status, Store, Version};
use crate::router::{MOST_NOTICES, MOST_STORED, NOTICE_LIFE, STORED_HEARTBEATS};
use std::collections::BTreeMap;
use std::fmt::Write;

/// The answers that 02 permits to each call. Every one of them is wanted.
pub static GOSSIP: Rows = Rows {
    names: &[
        "ask", "notice", "relay", "beat", "store", "announce", "ihave", "iwant", "save", "load",
    ],
    permitted: &[
        &[0, 1, 2, 3, 8, 11, 12],
        &[0, 1, 2, 3, 8, 11, 12],
        &[0, 1, 2, 3, 8, 11, 12],
        &[0, 1, 2, 8, 12],
        &[0, 1, 2, 8, 11, 12, 13],
        &[0, 1, 2, 7, 8, 11, 12],
        &[0, 1, 2, 3, 8, 11, 12],
        &[0, 1, 2, 3, 8, 11, 12],
        &[0, 1, 2, 12, 13],
        &[0, 2, 9, 10],
    ],
};

/// The kinds of saving and loading in that table.
pub const SAVE: u64 = 9;
pub const LOAD: u64 = 10;

const REACHABLE: [u32; 11] = [0, 1, 2, 3, 7, 8, 9, 10, 11, 12, 13];

/// The cases that every run of lists reaches.
const CASES: [&str; 73] = [
    "ask: nobody",
    "ask: several",
    "ask: the sender left out",
    "ask: an older member passed over",
    "ask: a member that holds the number",
    "relay: the sender left out",
    "relay: an explicit peer",
    "relay: a member that holds the number",
    "relay: an explicit peer that holds the number",
    "relay: a holder two heartbeats old",
    "notice: Older",
    "notice: Graylisted",
    "notice: Held",
    "notice: OverLimit",
    "notice: Full",
    "notice: PutIn",
    "notice: graylisted, held",
    "notice: held, over the limit",
    "notice: held, full",
    "notice: explicit, put in",
    "notice: over the limit, with an empty set",
    "beat: an entry goes",
    "beat: an entry stays for its last heartbeat",
    "beat: a count of a retained record",
    "beat: a stored number goes",
    "beat: replies forgotten",
    "beat: replies kept by another topic",
    "store: NotJoined",
    "store: Held",
    "store: Full",
    "store: Stored",
    "store: held, heartbeat full",
    "store: held in an older heartbeat",
    "store: stored by another topic too",
    "announce: no numbers",
    "announce: numbers stored, none announced",
    "announce: numbers, no target",
    "announce: 192 numbers",
    "announce: every target taken",
    "announce: as many as D_lazy",
    "announce: as many as the factor says",
    "announce: a target at the threshold",
    "announce: a peer under the threshold",
    "announce: an explicit peer",
    "ihave: NotJoined",
    "ihave: UnderThreshold",
    "ihave: OverBound",
    "ihave: Answered",
    "ihave: no number",
    "ihave: 192 numbers",
    "ihave: 193 numbers",
    "ihave: a stored number",
    "ihave: a number twice",
    "ihave: at the threshold",
    "ihave: explicit, under the threshold",
    "iwant: UnderThreshold",
    "iwant: NotStored",
    "iwant: OverBound",
    "iwant: Replied",
    "iwant: at the threshold",
    "iwant: explicit, under the threshold",
    "iwant: the last reply",
    "iwant: over the bound, in two topics",
    "leave: a store emptied",
    "leave: replies forgotten",
    "leave: replies kept by another topic",
    "disconnect: notices go",
    "disconnect: replies go",
    "disconnect: a count stays",
    "connect: resumed with a count",
    "connect: a record with a count reclaimed",
    "list: from a fresh router",
    "list: from a loaded router",
];

pub struct GossipCoverage {
    answers: Answers,
    cases: BTreeMap<String, u64>,
}

impl Default for GossipCoverage {
    fn default() -> GossipCoverage {
        GossipCoverage { answers: Answers::of(&GOSSIP), cases: BTreeMap::new() }
    }
}

impl GossipCoverage {
    /// Counts a call with its answer, and its cases if it was heard; one of 01's by its cases
    /// alone.
    pub fn count_call(&mut self, event: &AnyEvent, answer: u32, cases: &[String]) {
        if let AnyEvent::New(event) = event {
            self.answers.count(event.call.index() as u64 + 1, answer);
        }
        let too_many = |case: &String| case.ends_with("193 numbers");
        for case in cases {
            if matches!(answer, 0 | 11 | 13) || answer == 2 && too_many(case) {
                self.count_case(case);
            }
        }
    }

    /// Counts a save or a load.
    pub fn count_answer(&mut self, kind: u64, answer: u32) {
        self.answers.count(kind, answer);
    }

    pub fn count_damage(&mut self, damage: Damage) {
        self.count_case(&damage_name(damage));
    }

    pub fn count_case(&mut self, case: &str) {
        *self.cases.entry(case.to_string()).or_default() += 1;
    }

    /// What the run should have reached and did not, of the calls and of further cases.
    pub fn missing(&self, further: &[String]) -> Vec<String> {
        let mut missing = self.answers.missing(&REACHABLE);
        let cases = wanted().chain(further.iter().cloned());
        missing.extend(cases.filter(|case| !self.cases.contains_key(case)));
        missing
    }

    /// Answers that 02 does not permit to a call.
    pub fn not_permitted(&self) -> Vec<String> {
        self.answers.not_permitted(&REACHABLE)
    }

    /// The counts as text.
    pub fn table(&self) -> String {
        let mut out = self.answers.table(&REACHABLE);
        for (case, count) in &self.cases {
            let _ = writeln!(out, "{case:62}{count:>9}");
        }
        out
    }
}

fn damage_name(damage: Damage) -> String {
    format!("damage: {damage:?}")
}

fn wanted() -> impl Iterator<Item = String> {
    let cases = CASES.iter().map(|case| case.to_string());
    cases.chain(Damage::ALL.into_iter().map(damage_name))
}

/// The cases of an event that is about to be made.
pub fn cases(router: &Router, event: &AnyEvent) -> Vec<String> {
    let (name, facts) = match event {
        AnyEvent::Old(event) => (event.call.name(), old_facts(router, event)),
        AnyEvent::New(event) => (event.call.name(), new_facts(router, event)),
    };
    let held = facts.into_iter().filter(|(_, holds)| *holds);
    held.map(|(case, _)| format!("{name}: {case}")).collect()
}

fn old_facts(router: &Router, event: &Event) -> Facts {
    if !event.in_range() || event.now < router.clock {
        return Vec::new();
    }
    let counts = |peer: &Peer| peer.notices_in > 0 || peer.ihaves_in > 0;
    match event.call {
        Call::Leave { topic } => leave_facts(router, topic as usize),
        Call::Disconnect { id } => match router.connected(id as u32) {
            Err(_) => Vec::new(),
            Ok(slot) => {
                let peer = &router.peers[slot];
                vec![
                    fact("notices go", !peer.notices.is_empty()),
                    fact("replies go", !peer.replies.is_empty()),
                    fact("a count stays", counts(peer)),
                ]
            }
        },
        Call::Connect { id, .. } => {
            let place = router.place_for(id as u32, event.now);
            let resumed = |slot: usize| counts(&router.peers[slot]);
            let reclaimed = router.reclaimable_slots(event.now);
            vec![
                fact(
                    "resumed with a count",
                    matches!(place, Some(Place::Resumed(slot)) if resumed(slot)),
                ),
                fact(
                    "a record with a count reclaimed",
                    reclaimed.iter().any(|&slot| counts(&router.peers[slot])),
                ),
            ]
        }
        _ => Vec::new(),
    }
}

fn leave_facts(router: &Router, topic: usize) -> Facts {
    let store = &router.stores[topic];
    let gone = |number: u64| holders(router, number).iter().all(|&k| k == topic);
    vec![
        fact("a store emptied", store.numbers().next().is_some()),
        fact("replies forgotten", store.numbers().any(|n| replied(router, n) && gone(n))),
        fact(
            "replies kept by another topic",
            store.numbers().any(|n| replied(router, n) && !gone(n)),
        ),
    ]
}

/// The topics that store a number.
fn holders(router: &Router, number: u64) -> Vec<usize> {
    (0..router.stores.len()).filter(|&k| router.stores[k].holds(number)).collect()
}

/// Has somebody got the number?
fn replied(router: &Router, number: u64) -> bool {
    router.peers.iter().any(|peer| peer.replies.contains_key(&number))
}

fn new_facts(router: &Router, event: &GossipEvent) -> Facts {
    if let GossipCall::IHave { numbers, .. } = &event.call {
        if numbers.len() == NUMBER_LIST + 1 {
            return vec![fact("193 numbers", true)];
        }
    }
    if !event.in_range() || event.now < router.clock {
        return Vec::new();
    }
    match event.call {
        GossipCall::Ask { topic, number, sender } => {
            ask_facts(router, topic as usize, number, sender as u32)
        }
        GossipCall::Relay { topic, number, sender } => {
            relay_facts(router, topic as usize, number, sender as u32)
        }
        GossipCall::Beat => beat_facts(router),
        GossipCall::Store { topic, number } => store_facts(router, topic as usize, number),
        GossipCall::Announce { topic, .. } => announce_facts(router, topic as usize),
        GossipCall::Notice { id, number } => {
            with_peer(router, id, |slot| notice_facts(router, slot, number))
        }
        GossipCall::IHave { id, topic, ref numbers } => {
            with_peer(router, id, |slot| ihave_facts(router, slot, topic as usize, numbers))
        }
        GossipCall::IWant { id, number } => {
            with_peer(router, id, |slot| iwant_facts(router, slot, number))
        }
    }
}

fn with_peer(router: &Router, id: u64, facts: impl Fn(usize) -> Facts) -> Facts {
    router.connected(id as u32).map_or_else(|_| Vec::new(), facts)
}

/// The peers of a topic's mesh.
fn members(router: &Router, topic: usize) -> Vec<&Peer> {
    router.mesh(topic).into_iter().map(|slot| &router.peers[slot]).collect()
}

fn ask_facts(router: &Router, topic: usize, number: u64, sender: u32) -> Facts {
    let members = members(router, topic);
    let newest = |peer: &&&Peer| peer.version == Version::V12;
    let asked = members.iter().filter(newest).filter(|peer| peer.id != sender).count();
    vec![
        fact("nobody", asked == 0),
        fact("several", asked > 1),
        fact("the sender left out", members.iter().filter(newest).any(|peer| peer.id == sender)),
        fact("an older member passed over", members.iter().any(|peer| !newest(&peer))),
        fact(
            "a member that holds the number",
            members.iter().any(|peer| peer.id != sender && peer.holds_notice(number)),
        ),
    ]
}

fn relay_facts(router: &Router, topic: usize, number: u64, sender: u32) -> Facts {
    if !router.joined[topic] {
        return Vec::new();
    }
    let members = members(router, topic);
    let explicit = |peer: &&Peer| peer.explicit && peer.topics[topic].subscribed;
    let explicit: Vec<&Peer> = router.peers.iter().filter(explicit).collect();
    let both = || members.iter().chain(&explicit);
    let holds = |peer: &&Peer| peer.id != sender && peer.holds_notice(number);
    let old = |notice: &Notice| notice.number == number && notice.age + 1 == NOTICE_LIFE;
    vec![
        fact("the sender left out", both().any(|peer| peer.id == sender)),
        fact("an explicit peer", explicit.iter().any(|peer| peer.id != sender && !holds(peer))),
        fact("a member that holds the number", members.iter().any(holds)),
        fact("an explicit peer that holds the number", explicit.iter().any(holds)),
        fact("a holder two heartbeats old", both().any(|peer| peer.notices.iter().any(old))),
    ]
}

fn notice_facts(router: &Router, slot: usize, number: u64) -> Facts {
    let case = router.notice_case(slot, number);
    let peer = &router.peers[slot];
    let held = peer.holds_notice(number);
    let over = peer.notices_in >= router.set_up.notice_limit;
    vec![
        fact(&format!("{case:?}"), true),
        fact("graylisted, held", case == NoticeCase::Graylisted && held),
        fact("held, over the limit", case == NoticeCase::Held && over),
        fact("held, full", case == NoticeCase::Held && peer.notices.len() == MOST_NOTICES),
        fact("explicit, put in", case == NoticeCase::PutIn && peer.explicit),
        fact(
            "over the limit, with an empty set",
            case == NoticeCase::OverLimit && peer.notices.is_empty(),
        ),
    ]
}

fn beat_facts(router: &Router) -> Facts {
    let of_age = |age: u64| {
        let mut notices = router.peers.iter().flat_map(|peer| &peer.notices);
        notices.any(|notice| notice.age == age)
    };
    let retained = |peer: &Peer| peer.status == Status::Retained && peer.notices_in > 0;
    let last = |store: &Store| store.heartbeats[STORED_HEARTBEATS - 1].clone();
    let going: Vec<u64> = router.stores.iter().flat_map(last).collect();
    let stays = |number: u64| {
        let kept = |store: &Store| store.heartbeats[..STORED_HEARTBEATS - 1].concat();
        router.stores.iter().any(|store| kept(store).contains(&number))
    };
    let with_replies = || going.iter().copied().filter(|&number| replied(router, number));
    vec![
        fact("an entry goes", of_age(NOTICE_LIFE - 1)),
        fact("an entry stays for its last heartbeat", of_age(NOTICE_LIFE - 2)),
        fact("a count of a retained record", router.peers.iter().any(retained)),
        fact("a stored number goes", !going.is_empty()),
        fact("replies forgotten", with_replies().any(|number| !stays(number))),
        fact("replies kept by another topic", with_replies().any(stays)),
    ]
}

fn store_facts(router: &Router, topic: usize, number: u64) -> Facts {
    let case = router.store_case(topic, number);
    let running = &router.stores[topic].heartbeats[0];
    let held = case == StoreCase::Held;
    vec![
        fact(&format!("{case:?}"), true),
        fact("held, heartbeat full", held && running.len() == MOST_STORED),
        fact("held in an older heartbeat", held && !running.contains(&number)),
        fact(
            "stored by another topic too",
            case == StoreCase::Stored && !holders(router, number).is_empty(),
        ),
    ]
}

fn announce_facts(router: &Router, topic: usize) -> Facts {
    if !router.joined[topic] {
        return Vec::new();
    }
    let store = &router.stores[topic];
    let told = store.announced().len();
    let threshold = router.gossip_threshold();
    let targets: Vec<usize> =
        (0..router.peers.len()).filter(|&slot| router.is_target(slot, topic)).collect();
    let count = targets.len() as u64;
    let (lazy, share) = (router.set_up.d_lazy, count * router.set_up.factor / 1000);
    let outside = |slot: &usize| {
        let peer = &router.peers[*slot];
        peer.status == Status::Connected && peer.topics[topic].subscribed && !targets.contains(slot)
    };
    let outside: Vec<usize> = (0..router.peers.len()).filter(outside).collect();
    let under = |&slot: &usize| !router.peers[slot].explicit && router.score(slot) < threshold;
    vec![
        fact("no numbers", told == 0),
        fact("numbers stored, none announced", told == 0 && store.numbers().next().is_some()),
        fact("numbers, no target", told > 0 && count == 0),
        fact("192 numbers", told == NUMBER_LIST),
        fact("every target taken", told > 0 && count > 0 && lazy.max(share) >= count),
        fact("as many as D_lazy", told > 0 && share < lazy && lazy < count),
        fact("as many as the factor says", told > 0 && lazy < share && share < count),
        fact("a target at the threshold", targets.iter().any(|&s| router.score(s) == threshold)),
        fact("a peer under the threshold", outside.iter().any(under)),
        fact("an explicit peer", outside.iter().any(|&slot| router.peers[slot].explicit)),
    ]
}

fn ihave_facts(router: &Router, slot: usize, topic: usize, numbers: &[u64]) -> Facts {
    let case = router.ihave_case(slot, topic);
    let answered = case == IHaveCase::Answered;
    let mut distinct = numbers.to_vec();
    distinct.sort_unstable();
    distinct.dedup();
    let [at, below] = beside_threshold(router, slot);
    vec![
        fact(&format!("{case:?}"), true),
        fact("no number", answered && numbers.is_empty()),
        fact("192 numbers", answered && numbers.len() == NUMBER_LIST),
        fact("a stored number", answered && numbers.iter().any(|&n| router.is_stored(n))),
        fact("a number twice", answered && distinct.len() < numbers.len()),
        fact("at the threshold", answered && at),
        fact("explicit, under the threshold", answered && below),
    ]
}

/// Is the score at the gossip threshold, is it below?
fn beside_threshold(router: &Router, slot: usize) -> [bool; 2] {
    let (score, threshold) = (router.score(slot), router.gossip_threshold());
    [score == threshold, score < threshold]
}

fn iwant_facts(router: &Router, slot: usize, number: u64) -> Facts {
    let case = router.iwant_case(slot, number);
    let replies = router.peers[slot].replies.get(&number).copied().unwrap_or(0);
    let replied = case == IWantCase::Replied;
    let over = case == IWantCase::OverBound;
    let [at, below] = beside_threshold(router, slot);
    vec![
        fact(&format!("{case:?}"), true),
        fact("at the threshold", replied && at),
        fact("explicit, under the threshold", replied && below),
        fact("the last reply", replied && replies + 1 == router.set_up.iwant_bound),
        fact("over the bound, in two topics", over && holders(router, number).len() > 1),
    ]
}
