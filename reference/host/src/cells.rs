//! The second program's router written to the cells of the lent table and read from them. A number of the
//! parameters stands by its magnitude, P5 by its code: 2n, or -2n-1 when negative.

pub use crate::spot::{Field, Spot};
pub use hivepadlet::cells::*;

use hivepadlet::GROUPS;
use reference::event::SLOTS;
use reference::groups::{code_from_signed, signed_from_code};
use reference::params::{Edition, Params, COUNT, TOPICS};
use reference::router::{Groups, Peer, Router, Status, TopicRecord, Version};

/// An edition as its number, and back.
pub fn edition_cell(edition: Edition) -> u64 {
    u64::from(edition.number())
}

pub fn edition_of(number: u64) -> Option<Edition> {
    Edition::ALL.into_iter().find(|&edition| edition_cell(edition) == number)
}

/// The counters of a router are never negative, so each is its own cell.
pub fn unsigned(counter: i64) -> u64 {
    u64::try_from(counter).expect("no counter is negative")
}

/// A flag that has a cell.
pub fn flag(cell: u64) -> Option<bool> {
    match cell {
        0 => Some(false),
        1 => Some(true),
        _ => None,
    }
}

/// A group and one more, 0 for none.
pub fn group_cell(group: Option<u32>) -> u64 {
    group.map_or(0, |group| u64::from(group) + 1)
}

/// The group of a cell; none where it is wider than a group.
pub fn group_of(cell: u64) -> Option<Option<u32>> {
    match cell.checked_sub(1) {
        None => Some(None),
        Some(number) => u32::try_from(number).ok().map(Some),
    }
}

/// The cell of a peer's group.
pub fn group_place(slot: usize, place: usize) -> usize {
    GROUP + place * STRIDE + slot
}

/// The packed cells.
pub fn p5_p7(p5: i64, p7: i64) -> u64 {
    code_from_signed(p5) + unsigned(p7) * P7_LANE
}

pub fn counters(record: &TopicRecord) -> u64 {
    unsigned(record.p2) + unsigned(record.p3) * P3_LANE + unsigned(record.p4) * P4_LANE
}

/// The slot past the last record: as low as the mark can be.
pub fn records_end(router: &Router) -> usize {
    router.peers.iter().rposition(|peer| !peer.is_zero()).map_or(0, |slot| slot + 1)
}

/// The slots before the mark.
pub fn used(cells: &Cells) -> usize {
    cells[USED].min(SLOTS as u64) as usize
}

/// Whether the router's state reads a cell; the mark says which of them it reads.
pub fn is_read(cells: &Cells, cell: usize) -> bool {
    match Spot::of(cell) {
        Spot::Kept | Spot::Between => false,
        Spot::Peer { slot, .. } => slot < used(cells),
        Spot::Record { field: Field::GraftTime | Field::MeshTime, slot, topic } => {
            bit(cells, member_word(topic), slot)
        }
        Spot::Record { slot, .. } => slot < used(cells),
        _ => true,
    }
}

/// Writes every cell that the state reads, and no other. The mark rises to the last record and never falls,
/// so that what it passes over is written too.
pub fn write(router: &Router, cells: &mut Cells) {
    cells[CLOCK] = router.clock;
    for (cell, &joined) in cells[JOINED..USED].iter_mut().zip(&router.joined) {
        *cell = u64::from(joined);
    }
    for (index, number) in router.params.numbers.iter().enumerate() {
        cells[number_cell(index)] = number.unsigned_abs();
    }
    cells[EDITION] = edition_cell(router.params.edition);
    cells[USED] = cells[USED].max(records_end(router) as u64);
    cells[CONNECTED..ID].fill(0);
    cells[SUBSCRIBED..COUNTERS].fill(0);
    for (slot, peer) in router.peers.iter().enumerate().take(used(cells)) {
        write_columns(peer, slot, cells);
        if peer.status != Status::Empty {
            write_bits(peer, slot, cells);
        }
    }
}

fn write_columns(peer: &Peer, slot: usize, cells: &mut Cells) {
    cells[ID + slot] = u64::from(peer.id);
    for (place, &group) in peer.groups.iter().enumerate() {
        cells[group_place(slot, place)] = group_cell(group);
    }
    cells[P5_P7 + slot] = p5_p7(peer.p5, peer.p7);
    cells[RETAIN_END + slot] = peer.retain_end;
    cells[end_cell(slot, 0)..][..TOPICS].copy_from_slice(&peer.backoff_ends);
    for (topic, record) in peer.topics.iter().enumerate() {
        cells[counters_cell(slot, topic)] = counters(record);
        cells[p3b_cell(slot, topic)] = unsigned(record.p3b);
    }
}

/// The bits of a record, where all are 0 before, and the times of a member.
fn write_bits(peer: &Peer, slot: usize, cells: &mut Cells) {
    set_bit(cells, CONNECTED, slot, peer.status == Status::Connected);
    set_bit(cells, RETAINED, slot, peer.status == Status::Retained);
    set_bit(cells, EXPLICIT, slot, peer.explicit);
    set_bit(cells, OUTBOUND, slot, peer.outbound);
    set_bit(cells, VERSION, slot, peer.version == Version::V11);
    set_bit(cells, VERSION_HIGH, slot, peer.version == Version::V12);
    for (topic, record) in peer.topics.iter().enumerate() {
        set_bit(cells, subscribed_word(topic), slot, record.subscribed);
        set_bit(cells, member_word(topic), slot, record.member);
        if record.member {
            cells[graft_cell(slot, topic)] = record.graft_time;
            cells[mesh_cell(slot, topic)] = record.mesh_time;
        }
    }
}

/// A whole table on the heap, 0 in every cell that the state does not read.
pub fn table_of(router: &Router) -> Box<Cells> {
    let mut cells = Box::new([0; CELLS]);
    write(router, &mut cells);
    cells
}

/// The router that the cells hold, valid or not; none where a cell is wider than the second program's
/// type for it, and so out of its range.
pub fn router_of(cells: &Cells) -> Option<Router> {
    let mut numbers = [0; COUNT];
    for (index, number) in numbers.iter_mut().enumerate() {
        let magnitude = i64::try_from(cells[number_cell(index)]).ok()?;
        *number = if is_below(index) { -magnitude } else { magnitude };
    }
    let edition = edition_of(cells[EDITION])?;
    let mut router = Router::unchecked(Params { edition, numbers });
    router.clock = cells[CLOCK];
    for (topic, joined) in router.joined.iter_mut().enumerate() {
        *joined = flag(cells[JOINED + topic])?;
    }
    for (slot, peer) in router.peers.iter_mut().enumerate() {
        *peer = read_peer(cells, slot)?;
    }
    Some(router)
}

fn read_peer(cells: &Cells, slot: usize) -> Option<Peer> {
    let p5_p7 = live(cells, slot, P5_P7 + slot);
    let mut peer = Peer {
        status: match (bit(cells, CONNECTED, slot), bit(cells, RETAINED, slot)) {
            (false, false) => Status::Empty,
            (true, false) => Status::Connected,
            (false, true) => Status::Retained,
            (true, true) => return None,
        },
        id: u32::try_from(live(cells, slot, ID + slot)).ok()?,
        groups: read_groups(cells, slot)?,
        outbound: bit(cells, OUTBOUND, slot),
        explicit: bit(cells, EXPLICIT, slot),
        version: match (bit(cells, VERSION, slot), bit(cells, VERSION_HIGH, slot)) {
            (false, false) => Version::V10,
            (true, false) => Version::V11,
            (false, true) => Version::V12,
            (true, true) => return None,
        },
        p5: signed_from_code(p5_p7 % P7_LANE),
        p7: (p5_p7 / P7_LANE) as i64,
        retain_end: live(cells, slot, RETAIN_END + slot),
        ..Peer::default()
    };
    for topic in 0..TOPICS {
        peer.backoff_ends[topic] = live(cells, slot, end_cell(slot, topic));
        peer.topics[topic] = read_record(cells, slot, topic)?;
    }
    Some(peer)
}

fn read_groups(cells: &Cells, slot: usize) -> Option<Groups> {
    let mut groups = [None; GROUPS];
    for (place, group) in groups.iter_mut().enumerate() {
        *group = group_of(live(cells, slot, group_place(slot, place)))?;
    }
    Some(groups)
}

fn read_record(cells: &Cells, slot: usize, topic: usize) -> Option<TopicRecord> {
    let counters = live(cells, slot, counters_cell(slot, topic));
    let member = bit(cells, member_word(topic), slot);
    let time = |cell: usize| if member { cells[cell] } else { 0 };
    Some(TopicRecord {
        p2: (counters % P3_LANE) as i64,
        p3: (counters / P3_LANE % P3_LANE) as i64,
        p4: (counters / P4_LANE) as i64,
        p3b: i64::try_from(live(cells, slot, p3b_cell(slot, topic))).ok()?,
        subscribed: bit(cells, subscribed_word(topic), slot),
        member,
        graft_time: time(graft_cell(slot, topic)),
        mesh_time: time(mesh_cell(slot, topic)),
    })
}

#[cfg(test)]
mod tests {
    use super::*;
    use crate::made;
    use reference::params::{field_at, Field as Limits};
    use reference::random::Random;

    #[test]
    fn regions_begin_where_the_crate_layout_says() {
        assert_eq!((JOINED, USED, EDITION, PARAMETERS, CONNECTED), (1, 9, 10, 24, 176));
        assert_eq!((ID, GROUP, P5_P7, RETAIN_END, BACKOFF_ENDS), (200, 464, 1520, 1784, 2048));
        assert_eq!((SUBSCRIBED, MEMBER, COUNTERS, P3B), (4096, 4128, 4160, 6272));
        assert_eq!((GRAFT_TIMES, MESH_TIMES, CELLS), (8320, 10_432, 12_544));
        assert_eq!((number_cell(18), number_cell(19), number_cell(35)), (42, 43, 44));
        assert_eq!((number_cell(20), number_cell(146)), (51, 170));
    }

    #[test]
    fn each_number_of_the_parameters_has_its_sign_and_its_cell() {
        let mut seen = [false; CELLS];
        for index in 0..COUNT {
            let Limits { low, high, .. } = *field_at(index);
            assert!(if is_below(index) { high <= 0 } else { low >= 0 }, "{index}");
            assert!(!std::mem::replace(&mut seen[number_cell(index)], true), "{index}");
        }
        assert!(seen[PARAMETERS..PARAMETERS_END].iter().all(|&seen| seen));
    }

    #[test]
    fn reading_undoes_writing() {
        let mut random = Random::new(1);
        for _ in 0..200 {
            let router = made::router(&mut random);
            assert_eq!(router_of(&table_of(&router)), Some(router));
        }
    }

    /// Over any noise but in the mark: what is written is what the state reads, and nothing else.
    #[test]
    fn writing_leaves_what_is_not_read() {
        let mut random = Random::new(2);
        for mark in [0, 0, 0, 256, 257, u64::MAX] {
            let router = made::router(&mut random);
            let mut tables = [1, 2].map(|noise| Box::new([noise; CELLS]));
            for table in &mut tables {
                table[USED] = mark;
                write(&router, table);
                assert_eq!(router_of(table).as_ref(), Some(&router));
            }
            let [first, second] = &tables;
            for cell in 0..CELLS {
                let same = first[cell] == second[cell];
                assert_eq!(same, is_read(first, cell), "cell {cell}, {}", Spot::of(cell));
            }
        }
    }
}
