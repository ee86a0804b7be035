//! The old form of the table: rows of peers and rows of topic records, a cell for each number. A router's
//! tables turn from each form into the other without loss (02, order 10).

use crate::{GROUPS, NUMBERS, SLOTS, TOPICS};

/// How many numbers a table has in the old form, and where its regions begin.
pub const ROWS: usize = 21_661;
pub const CLOCK: usize = 0;
pub const JOINED: usize = 1;
pub const CODES: usize = JOINED + TOPICS;
/// The set-up beside the numbers: the edition of the parameters.
pub const EDITION: usize = CODES + NUMBERS;
pub const PEERS: usize = EDITION + 1;
pub const PEER_CELLS: usize = 20;
pub const RECORDS: usize = PEERS + SLOTS * PEER_CELLS;
pub const RECORD_CELLS: usize = 8;

const _: () = assert!(RECORDS + SLOTS * TOPICS * RECORD_CELLS == ROWS);
const _: () = assert!(peer::BACKOFF_ENDS + TOPICS == PEER_CELLS);

pub type Rows = [u64; ROWS];

/// The cells of a peer's record, counted from its first.
pub mod peer {
    pub const STATUS: usize = 0;
    pub const ID: usize = 1;
    /// Four cells, a group and one more in each, lowest first; 0 past the last.
    pub const GROUPS: usize = 2;
    pub const OUTBOUND: usize = GROUPS + super::GROUPS;
    pub const EXPLICIT: usize = OUTBOUND + 1;
    pub const VERSION: usize = OUTBOUND + 2;
    pub const P5: usize = OUTBOUND + 3;
    pub const P7: usize = OUTBOUND + 4;
    pub const RETAIN_END: usize = OUTBOUND + 5;
    /// One end for each topic, to the record's last cell.
    pub const BACKOFF_ENDS: usize = OUTBOUND + 6;
}

/// The cells of a topic record, counted from its first.
pub mod record {
    pub const P2: usize = 0;
    pub const P3: usize = 1;
    pub const P4: usize = 2;
    pub const P3B: usize = 3;
    pub const SUBSCRIBED: usize = 4;
    pub const MEMBER: usize = 5;
    pub const GRAFT: usize = 6;
    pub const MESH: usize = 7;
}

pub fn peer_cell(slot: usize, field: usize) -> usize {
    PEERS + slot * PEER_CELLS + field
}

pub fn record_cell(slot: usize, topic: usize, field: usize) -> usize {
    RECORDS + (slot * TOPICS + topic) * RECORD_CELLS + field
}
