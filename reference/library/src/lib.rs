//! The proved mesh router for hosts in Rust. It is the static library `libhost.a`, by the functions of
//! `include/hivepadlet.h`, which says all that a host has to know; here each takes slices and references in
//! the place of pointers and lengths, so that every one is safe to call. There is no other dependency, no
//! heap and no state between calls: the host lends a table and an action list.
//!
//! `libhost.a` (`rt lib` in crates/host writes it) is linked where `HIVEPADLET_LIB` names its folder; without it
//! the functions are missing, and all else is there.
//!
//! ```ignore
//! use hivepadlet::*;
//!
//! let (mut numbers, mut table) = ([0; NUMBERS], [0; CELLS]);
//! let mut actions = [0; ACTION_NUMBERS];
//! ordinary(&mut numbers);
//! fresh(&numbers, EDITION_1, &mut table);
//! let result = join(&mut table, 1000, 0, &mut actions);
//! assert_eq!(number(result), 0);
//! ```
//!
//! `tests/host.rs` is a small host.

pub mod cells;
#[cfg(linked)]
pub mod forms;
pub mod gossip;
#[cfg(linked)]
mod linked;
#[cfg(linked)]
pub mod messages;
pub mod rows;
#[cfg(saves)]
pub mod saves;
#[cfg(linked)]
pub mod supplier;

pub use cells::{Cells, CELLS};
#[cfg(linked)]
pub use linked::*;

/// Peers that a router holds, and numbers of a permutation.
pub const SLOTS: usize = 256;
pub const TOPICS: usize = 8;

/// Address groups that a peer may have.
pub const GROUPS: usize = 4;

/// Numbers of the parameters, of an action list, and of a score with its parts.
pub const NUMBERS: usize = 147;
pub const ACTION_NUMBERS: usize = 3 * SLOTS;
pub const WHY_NUMBERS: usize = 6;

/// Bytes that written parameters may take (edition 1: 735).
pub const PARAMETER_BYTES: usize = 737;

/// The editions of the parameters.
pub const EDITION_1: u64 = 1;
pub const EDITION_2: u64 = 2;

/// Bytes that a save may take.
pub const SAVE_BYTES: usize = 3 + SLOTS * (17 + TOPICS * 19);

/// Bytes of the topics' names: for each topic a length, 0 for no name, and 64 bytes.
pub const NAMES_BYTES: usize = TOPICS * 65;

/// Numbers of a list of entries, and the longest message that is written.
pub const ENTRY_NUMBERS: usize = 3 * 8192;
pub const WRITTEN_BYTES: usize = 5107;

/// The flags of a connect, which are added.
pub const OUTBOUND: u64 = 1;
pub const EXPLICIT: u64 = 2;

/// The first number of an action: its kind (those of IDONTWANT, IHAVE and IWANT are in `gossip`). The peer's id
/// and the seconds of a PRUNE follow.
pub const GRAFT: u32 = 1;
pub const PRUNE: u32 = 2;

/// The parameters.
pub type Numbers = [i64; NUMBERS];

/// The parts of a score and then the score, in 10^-9 points: topics before the cap, topics after it, P5, P6,
/// P7, score.
pub type Why = [i64; WHY_NUMBERS];

pub type Names = [u8; NAMES_BYTES];

/// A number of the answers' table and the value that goes with it, as one number.
pub fn packed(number: u32, value: usize) -> u64 {
    u64::from(number) + 256 * value as u64
}

/// The answer's number, 0 where the call was done.
pub fn number(result: u64) -> u32 {
    (result % 256) as u32
}

/// The value that goes with it.
pub fn value(result: u64) -> u64 {
    result / 256
}
