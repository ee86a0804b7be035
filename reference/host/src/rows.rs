//! The second program's router in the old form of the table, rows of peers and of topic records, which 02's
//! order 10 asks to turn into the new form and back. A signed number stands as its code: 2n, or -2n-1 when
//! negative.

pub use hivepadlet::rows::*;

use crate::cells::{edition_cell, edition_of, flag, group_cell, group_of, unsigned};
use reference::groups::{code_from_signed, signed_from_code};
use reference::params::{Params, TOPICS};
use reference::router::{Groups, Peer, Router, Status, TopicRecord, Version};

/// Writes every cell of the table that holds the router's state.
pub fn write(router: &Router, rows: &mut Rows) {
    rows[CLOCK] = router.clock;
    for (cell, &joined) in rows[JOINED..CODES].iter_mut().zip(&router.joined) {
        *cell = u64::from(joined);
    }
    for (cell, &number) in rows[CODES..EDITION].iter_mut().zip(&router.params.numbers) {
        *cell = code_from_signed(number);
    }
    rows[EDITION] = edition_cell(router.params.edition);
    let (peers, records) = rows[PEERS..].split_at_mut(RECORDS - PEERS);
    let peers = peers.chunks_exact_mut(PEER_CELLS);
    let records = records.chunks_exact_mut(TOPICS * RECORD_CELLS);
    for ((row, records), peer) in peers.zip(records).zip(&router.peers) {
        write_peer(peer, row);
        for (row, record) in records.chunks_exact_mut(RECORD_CELLS).zip(&peer.topics) {
            write_record(record, row);
        }
    }
}

fn write_peer(peer: &Peer, row: &mut [u64]) {
    row[peer::STATUS] = peer.status as u64;
    row[peer::ID] = u64::from(peer.id);
    for (cell, group) in row[peer::GROUPS..].iter_mut().zip(peer.groups) {
        *cell = group_cell(group);
    }
    row[peer::OUTBOUND] = u64::from(peer.outbound);
    row[peer::EXPLICIT] = u64::from(peer.explicit);
    row[peer::VERSION] = peer.version as u64;
    row[peer::P5] = code_from_signed(peer.p5);
    row[peer::P7] = unsigned(peer.p7);
    row[peer::RETAIN_END] = peer.retain_end;
    row[peer::BACKOFF_ENDS..].copy_from_slice(&peer.backoff_ends);
}

fn write_record(record: &TopicRecord, row: &mut [u64]) {
    row[record::P2] = unsigned(record.p2);
    row[record::P3] = unsigned(record.p3);
    row[record::P4] = unsigned(record.p4);
    row[record::P3B] = unsigned(record.p3b);
    row[record::SUBSCRIBED] = u64::from(record.subscribed);
    row[record::MEMBER] = u64::from(record.member);
    row[record::GRAFT] = record.graft_time;
    row[record::MESH] = record.mesh_time;
}

/// A whole table of the old form on the heap.
pub fn rows_of(router: &Router) -> Box<Rows> {
    let mut rows = Box::new([0; ROWS]);
    write(router, &mut rows);
    rows
}

/// The router that the rows hold, valid or not; none where a cell is wider than the second program's type
/// for it, and so out of its range.
pub fn router_of(rows: &Rows) -> Option<Router> {
    let numbers = std::array::from_fn(|index| signed_from_code(rows[CODES + index]));
    let edition = edition_of(rows[EDITION])?;
    let mut router = Router::unchecked(Params { edition, numbers });
    router.clock = rows[CLOCK];
    for (topic, joined) in router.joined.iter_mut().enumerate() {
        *joined = flag(rows[JOINED + topic])?;
    }
    for (slot, peer) in router.peers.iter_mut().enumerate() {
        *peer = read_peer(rows, slot)?;
    }
    Some(router)
}

fn read_peer(rows: &Rows, slot: usize) -> Option<Peer> {
    let row = &rows[peer_cell(slot, 0)..][..PEER_CELLS];
    let mut groups = Groups::default();
    for (group, &cell) in groups.iter_mut().zip(&row[peer::GROUPS..]) {
        *group = group_of(cell)?;
    }
    let mut peer = Peer {
        status: *[Status::Empty, Status::Connected, Status::Retained]
            .get(usize::try_from(row[peer::STATUS]).ok()?)?,
        id: u32::try_from(row[peer::ID]).ok()?,
        groups,
        outbound: flag(row[peer::OUTBOUND])?,
        explicit: flag(row[peer::EXPLICIT])?,
        version: *[Version::V10, Version::V11, Version::V12]
            .get(usize::try_from(row[peer::VERSION]).ok()?)?,
        p5: signed_from_code(row[peer::P5]),
        p7: i64::try_from(row[peer::P7]).ok()?,
        retain_end: row[peer::RETAIN_END],
        ..Peer::default()
    };
    peer.backoff_ends.copy_from_slice(&row[peer::BACKOFF_ENDS..]);
    for (topic, record) in peer.topics.iter_mut().enumerate() {
        *record = read_record(&rows[record_cell(slot, topic, 0)..][..RECORD_CELLS])?;
    }
    Some(peer)
}

fn read_record(row: &[u64]) -> Option<TopicRecord> {
    Some(TopicRecord {
        p2: i64::try_from(row[record::P2]).ok()?,
        p3: i64::try_from(row[record::P3]).ok()?,
        p4: i64::try_from(row[record::P4]).ok()?,
        p3b: i64::try_from(row[record::P3B]).ok()?,
        subscribed: flag(row[record::SUBSCRIBED])?,
        member: flag(row[record::MEMBER])?,
        graft_time: row[record::GRAFT],
        mesh_time: row[record::MESH],
    })
}

#[cfg(test)]
mod tests {
    use super::*;
    use crate::made;
    use reference::random::Random;

    #[test]
    fn regions_begin_where_they_did() {
        assert_eq!((CODES, EDITION, PEERS, RECORDS, ROWS), (9, 156, 157, 5277, 21_661));
        assert_eq!((peer_cell(255, 19), record_cell(255, 7, 7)), (5276, 21_660));
    }

    #[test]
    fn reading_undoes_writing() {
        let mut random = Random::new(1);
        for _ in 0..200 {
            let router = made::router(&mut random);
            assert_eq!(router_of(&rows_of(&router)), Some(router));
        }
    }
}
