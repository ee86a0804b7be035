//! The hubs that both scenes share: a building whose hubs pass each other's
//! news on. Hub 1 is the one that is watched.

use crate::chart::Band;
use crate::network::{Conduct, Network, Step, SECOND};
use crate::router::Numbers;
use std::collections::BTreeSet;
use std::ops::RangeInclusive;

pub const WATCHED: u32 = 1;

/// The hubs of the building, the watched one among them.
pub const HUBS: u32 = 21;

/// Those that the watched hub connects to, and those that connect to it.
const OPENED: RangeInclusive<u32> = 2..=8;
const OPENING: RangeInclusive<u32> = 9..=15;

/// Six hubs share a floor, and a floor an address group.
const FLOOR: u32 = 6;

/// Every other hub opens so many connections.
const CONNECTIONS: usize = 4;

/// Hubs are switched on one after the other, and the watched one last, so that
/// it finds a building whose meshes are formed.
const APART: u64 = 200;
pub const WATCHED_FROM: u64 = 8 * SECOND;

/// The building's hubs and their connections.
pub fn network(numbers: Numbers, seed: u64) -> Network {
    let mut network = Network::new(numbers, seed, WATCHED);
    for id in 1..=HUBS {
        network.add(id, id / FLOOR, Conduct::Honest, switched_on(id));
    }
    for (from, to) in connections(&mut network) {
        network.at(switched_on(from).max(switched_on(to)), Step::Open(from, to));
    }
    network
}

/// The rows of the building's hubs that the watched one is connected to.
pub fn bands() -> [Band; 2] {
    let rows = |ids: RangeInclusive<u32>| ids.map(|id| (id, format!("hub {id}"))).collect();
    [
        Band { heading: &["Building:", "we connected to", "them (outbound)"], rows: rows(OPENED) },
        Band { heading: &["Building:", "they connected to", "us (inbound)"], rows: rows(OPENING) },
    ]
}

fn switched_on(id: u32) -> u64 {
    if id == WATCHED {
        WATCHED_FROM
    } else {
        APART * u64::from(id)
    }
}

fn connections(network: &mut Network) -> BTreeSet<(u32, u32)> {
    let mut all = BTreeSet::new();
    all.extend(OPENED.map(|id| (WATCHED, id)));
    all.extend(OPENING.map(|id| (id, WATCHED)));
    for id in WATCHED + 1..=HUBS {
        let mut others: Vec<u32> = (WATCHED + 1..=HUBS).filter(|&other| other != id).collect();
        network.random().shuffle(&mut others);
        others.retain(|&other| !all.contains(&(other, id)));
        all.extend(others.into_iter().take(CONNECTIONS).map(|other| (id, other)));
    }
    all
}

/// From one time to another, now one of these hubs has news and now another,
/// about so many seconds apart.
pub fn talk(network: &mut Network, hubs: &[u32], from: u64, to: u64, apart: u64) {
    let mut time = from;
    while time < to {
        let id = *network.random().pick(hubs);
        network.at(time, Step::Publish(id));
        time += network.random().between(1, 2 * (apart * SECOND) as i64) as u64;
    }
}
