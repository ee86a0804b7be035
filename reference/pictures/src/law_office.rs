//! The law office's three hubs go dark for an evening and return.

use crate::building::{self, HUBS, WATCHED, WATCHED_FROM};
use crate::chart::{Band, Chart, Closer, Mark, Scale};
use crate::history::{History, State};
use crate::network::{Conduct, Network, Step, MINUTE, SECOND};
use crate::router::Numbers;
use crate::scene::{fact, Fact, Scene};
use crate::svg::px;
use reference::params::general;
use reference::router::GRAFT_SLACK;

const SEED: u64 = 4;
const DARK: u64 = 5 * MINUTE;
const RETURN: u64 = 55 * MINUTE;
const RESTART: u64 = 57 * MINUTE;
const END: u64 = 60 * MINUTE;

/// The three hubs, on the fourth floor; the watched hub connects to the first.
const LAW: [u32; 3] = [401, 402, 403];
const GROUP: u32 = 4;

/// Their other neighbours in the building.
const NEIGHBOURS: [u32; 3] = [16, 17, 18];

/// The third is restarted later: it leaves, and is back so soon.
const RESTARTED: u32 = LAW[2];
const AWAY: u64 = 4 * SECOND;

/// The hubs that return are members again so soon.
const SOON: u64 = 2 * SECOND;

pub fn scene() -> Scene {
    Scene::new("law_office.svg", run, &chart(), facts)
}

fn run(numbers: Numbers) -> History {
    let mut network = building::network(numbers, SEED);
    for id in LAW {
        network.add(id, GROUP, Conduct::Honest, WATCHED_FROM);
        network.at(DARK, Step::CutOff(id));
    }
    for (from, to) in connections() {
        network.at(WATCHED_FROM, Step::Open(from, to));
        network.at(RETURN, Step::Open(from, to));
    }
    restart(&mut network);
    let all: Vec<u32> = (1..=HUBS).chain(LAW).collect();
    let others: Vec<u32> = (1..=HUBS).collect();
    building::talk(&mut network, &all, 15 * SECOND, DARK, 1);
    building::talk(&mut network, &others, DARK, RETURN, 20);
    building::talk(&mut network, &all, RETURN, END, 1);
    network.run(END)
}

/// The links of the three hubs, each with the one that opens it first.
fn connections() -> Vec<(u32, u32)> {
    let [first, second, third] = LAW;
    let mut all = vec![(WATCHED, first), (second, WATCHED), (third, WATCHED)];
    all.extend([(first, second), (second, third), (third, first)]);
    all.extend(LAW.iter().flat_map(|&law| NEIGHBOURS.map(|neighbour| (law, neighbour))));
    all
}

/// The hub leaves as a hub should, its links close once that is told, and it
/// keeps its table.
fn restart(network: &mut Network) {
    network.at(RESTART, Step::Leave(RESTARTED));
    network.at(RESTART + SECOND, Step::CutOff(RESTARTED));
    for (from, to) in connections() {
        if from == RESTARTED || to == RESTARTED {
            network.at(RESTART + AWAY, Step::Open(from, to));
        }
    }
    network.at(RESTART + AWAY, Step::Join(RESTARTED));
}

fn chart() -> Chart {
    let law = LAW.iter().zip(1..).map(|(&id, place)| (id, format!("law office {place}"))).collect();
    let [outbound, inbound] = building::bands();
    Chart {
        title: "The law office's three hubs go dark for an evening and return",
        words: &[
            "The mesh of one hub in the same building. The three return within the hour for which \
             their records are kept, and each is a",
            "member again within two seconds. One that is restarted later waits until a second \
             after the backoff of its own leaving.",
        ],
        scale: Scale::new(&[(DARK, 4), (RETURN, 2), (END, 5)]),
        closer: Some(Closer { from: DARK, to: RETURN, words: "fifty minutes, drawn closer" }),
        ticks: [0, 1, 2, 3, 4, 5, 30, 55, 56, 57, 58, 59, 60].map(|minute| minute * MINUTE).into(),
        marks: vec![
            Mark { time: DARK, words: "the law office goes dark" },
            Mark { time: RETURN, words: "its three hubs return" },
            Mark { time: RESTART, words: "the third is restarted" },
        ],
        bands: vec![Band { heading: &["Law office"], rows: law }, outbound, inbound],
        row: px(15),
    }
}

/// What the picture is said to show.
fn facts(history: &History, numbers: &Numbers) -> Vec<Fact> {
    let backoff = numbers[general::UNSUBSCRIBE_BACKOFF] as u64 * SECOND;
    let member = |id: u32, time: u64| history.at(id, time).is_member();
    let over = RESTART + backoff;
    let least = numbers[general::D_LO] as usize;
    let mut settled = history.after_heartbeats().iter().filter(|beat| beat.0 >= MINUTE);
    vec![
        fact("the three are members when they go", LAW.iter().all(|&id| member(id, DARK - 1))),
        fact(
            "their records are kept while they are away",
            LAW.iter().all(|&id| history.at(id, RETURN - 1) == State::Retained),
        ),
        fact(
            "they are members again two seconds after their return",
            LAW.iter().all(|&id| member(id, RETURN + SOON)),
        ),
        fact(
            "the one that is restarted is no member while its backoff runs, nor a second longer",
            !history.ever_member(RESTARTED, RESTART + SECOND, over + GRAFT_SLACK),
        ),
        fact("and is one two seconds after it", member(RESTARTED, over + SOON)),
        fact(
            "each heartbeat from the first minute on leaves D_lo members or more",
            settled.all(|beat| beat.1.total() >= least),
        ),
    ]
}
