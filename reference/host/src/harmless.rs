//! Changes of cells that no state reads: the table stays a router's, of the same state, and every call
//! answers and acts as before.

use crate::cells::*;
use crate::damage::Change;
use reference::event::SLOTS;
use reference::router::Router;

pub const EVERY: &str = "every cell that no state reads";
const HIGHER_MARK: &str = "a higher mark";
pub const OWN_ID: &str = "an id of a record, past the mark";

const KINDS: [&str; 11] = [
    EVERY,
    HIGHER_MARK,
    OWN_ID,
    "kept for later orders",
    "between two columns",
    "a column, past the mark",
    "a backoff end, past the mark",
    "counters, past the mark",
    "P3b, past the mark",
    "a graft time of a non-member",
    "a mesh time of a non-member",
];

/// Every kind of harmless change, each of which a comparison is to do.
pub fn kinds() -> impl Iterator<Item = &'static str> {
    KINDS.into_iter()
}

/// What a cell that is not read would be.
fn kind_of(cell: usize) -> &'static str {
    KINDS[match Spot::of(cell) {
        Spot::Between => 4,
        Spot::Peer { .. } => 5,
        Spot::Record { field: Field::BackoffEnd, .. } => 6,
        Spot::Record { field: Field::Counters, .. } => 7,
        Spot::Record { field: Field::P3b, .. } => 8,
        Spot::Record { field: Field::GraftTime, .. } => 9,
        Spot::Record { field: Field::MeshTime, .. } => 10,
        _ => 3,
    }]
}

/// Any number that the cell does not hold, small or large.
fn other(cell: usize) -> u64 {
    [1, u64::MAX, 1 << 40, 7][cell % 4]
}

/// Every harmless change of the router's table, which has 0 in every cell that its state does not read.
pub fn all(router: &Router, table: &Cells) -> Vec<Change> {
    let unread: Vec<usize> = (0..CELLS).filter(|&cell| !is_read(table, cell)).collect();
    let one = |cell: &usize| change(kind_of(*cell), vec![(*cell, other(*cell))]);
    let mut list: Vec<Change> = unread.iter().map(one).collect();
    list.push(change(EVERY, unread.iter().map(|&cell| (cell, other(cell))).collect()));
    let higher = [table[USED].saturating_add(1), SLOTS as u64, SLOTS as u64 + 1, u64::MAX];
    for mark in higher.into_iter().filter(|&mark| mark >= table[USED]) {
        list.push(change(HIGHER_MARK, vec![(USED, mark)]));
    }
    // An id of a record, or the lowest of none, which a connect may bring.
    let ids = router.peers.iter().map(|peer| u64::from(peer.id)).filter(|&id| id != 0).chain(1..);
    for (slot, id) in (used(table)..SLOTS).zip(ids) {
        list.push(change(OWN_ID, vec![(ID + slot, id)]));
    }
    list
}

/// An id right past the mark, if there is a slot.
pub fn id_past_mark(id: u64, table: &Cells) -> Option<Change> {
    let slot = used(table);
    (slot < SLOTS).then(|| change(OWN_ID, vec![(ID + slot, id)]))
}

fn change(kind: &'static str, changes: Vec<(usize, u64)>) -> Change {
    Change { kind, place: changes[0].0, changes }
}
