//! A crowd of cheap hubs connects to one hub of a building, and each wants to
//! be in its mesh.

use crate::building::{self, HUBS, WATCHED};
use crate::chart::{Band, Chart, Mark, Scale};
use crate::history::{History, State};
use crate::network::{Conduct, Step, MINUTE, SECOND};
use crate::router::Numbers;
use crate::scene::{fact, Fact, Scene};
use crate::svg::px;
use reference::params::general;
use std::ops::RangeInclusive;

const SEED: u64 = 40;
const ARRIVAL: u64 = MINUTE;
const OUTAGE: u64 = 4 * MINUTE;
const END: u64 = 6 * MINUTE;

/// The crowd comes within two seconds.
const APART: u64 = 50;

/// The crowd, by what its hubs do.
const SILENT: RangeInclusive<u32> = 101..=108;
const SPOILERS: RangeInclusive<u32> = 109..=114;
const PUSHY: RangeInclusive<u32> = 115..=120;
const ONE_GROUP: RangeInclusive<u32> = 121..=140;

/// The address group that twenty of them share.
const GROUP: u32 = 1000;

/// The outage takes these of the building's hubs.
const DARK: RangeInclusive<u32> = 2..=6;

pub fn scene() -> Scene {
    Scene::new("crowd.svg", run, &chart(), facts)
}

fn run(numbers: Numbers) -> History {
    let mut network = building::network(numbers, SEED);
    let hubs: Vec<u32> = (1..=HUBS).collect();
    building::talk(&mut network, &hubs, 10 * SECOND, OUTAGE, 1);
    let lit: Vec<u32> = hubs.into_iter().filter(|id| !DARK.contains(id)).collect();
    building::talk(&mut network, &lit, OUTAGE, END, 1);
    let mut crowd: Vec<u32> = (*SILENT.start()..=*ONE_GROUP.end()).collect();
    network.random().shuffle(&mut crowd);
    for (id, place) in crowd.into_iter().zip(0..) {
        let conduct = if SPOILERS.contains(&id) {
            Conduct::Spoiler
        } else if PUSHY.contains(&id) {
            Conduct::Pushy
        } else {
            Conduct::Silent
        };
        let group = if ONE_GROUP.contains(&id) { GROUP } else { id };
        let arrival = ARRIVAL + APART * place;
        network.add(id, group, conduct, arrival);
        network.at(arrival, Step::Open(id, WATCHED));
    }
    for id in DARK {
        network.at(OUTAGE, Step::CutOff(id));
    }
    network.run(END)
}

fn chart() -> Chart {
    let name = |id| format!("cheap {}", id - SILENT.start() + 1);
    let cheap = |ids: RangeInclusive<u32>| ids.map(|id| (id, name(id))).collect();
    let [outbound, inbound] = building::bands();
    Chart {
        title: "A crowd of cheap inbound hubs arrives",
        words: &[
            "The mesh of one hub in a building of twenty-one. Forty cheap hubs connect to it and \
             send GRAFT: the mesh stays bounded,",
            "keeps its quota of outbound members, and throws out whoever sends what is invalid, \
             pushes, or comes with too many from one place.",
        ],
        scale: Scale::new(&[(END, 1)]),
        closer: None,
        ticks: (0..=END / MINUTE).map(|minute| minute * MINUTE).collect(),
        marks: vec![
            Mark { time: ARRIVAL, words: "forty cheap hubs connect and send GRAFT" },
            Mark { time: OUTAGE, words: "five hubs that we connected to lose power" },
        ],
        bands: vec![
            outbound,
            inbound,
            Band { heading: &["Crowd:", "silent, and", "patient"], rows: cheap(SILENT) },
            Band { heading: &["Crowd:", "send invalid", "messages"], rows: cheap(SPOILERS) },
            Band { heading: &["Crowd:", "send GRAFT all", "the time"], rows: cheap(PUSHY) },
            Band {
                heading: &["Crowd:", "twenty that", "share one", "address group"],
                rows: cheap(ONE_GROUP),
            },
        ],
        row: px(11),
    }
}

/// What the picture is said to show.
fn facts(history: &History, numbers: &Numbers) -> Vec<Fact> {
    let most = numbers[general::D_HI] as usize + 2;
    let quota = numbers[general::D_OUT] as usize;
    let spans = history.size_spans(END);
    let mut settled = history.after_heartbeats().iter().filter(|beat| beat.0 >= ARRIVAL);
    let ever_in = |id, from| history.ever_member(id, from, END);
    let below = |id| history.first(id, State::Below);
    let stays_out = |id: &u32| below(*id).is_some_and(|from| !ever_in(*id, from));
    let some_and_all = |ids: &[u32]| !ids.is_empty() && ids.iter().all(stays_out);
    let thrown_out: Vec<u32> =
        SPOILERS.filter(|&id| ever_in(id, ARRIVAL) && below(id).is_some()).collect();
    let in_backoff: Vec<u32> =
        PUSHY.filter(|&id| history.first(id, State::Backoff).is_some()).collect();
    vec![
        fact(
            "the mesh never has more than D_hi + 2 inbound members",
            spans.iter().all(|span| span.2.inbound <= most),
        ),
        fact(
            "each heartbeat since the arrival leaves D_out outbound members",
            settled.all(|beat| beat.1.outbound >= quota),
        ),
        fact(
            "some that send invalid messages get in, are thrown out, and are never in again",
            some_and_all(&thrown_out),
        ),
        fact(
            "some send GRAFT in their backoff, fall below zero, and are never in again",
            some_and_all(&in_backoff),
        ),
        fact(
            "of those that share a group none is in four seconds after the arrival, or later",
            !ONE_GROUP.clone().any(|id| ever_in(id, ARRIVAL + 4 * SECOND)),
        ),
        fact(
            "all news of the building since the arrival comes to the hub",
            history.all_news_came(ARRIVAL, END - SECOND),
        ),
    ]
}
