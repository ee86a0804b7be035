//! The functions of include/hivepadlet.h that remember a router's records across a power cycle, with slices
//! in the place of pointers and lengths.

use crate::{Cells, Numbers};

extern "C" {
    fn hivepadlet_save(table: &Cells, time: u64, buffer: *mut u8, buffer_length: usize) -> u64;
    fn hivepadlet_load(
        numbers: &Numbers,
        edition: u64,
        clock: u64,
        bytes: *const u8,
        bytes_length: usize,
        table: &mut Cells,
    ) -> u64;
}

// SAFETY, for both functions: as in linked.rs.

/// The records of a moment as bytes. 0 with the length, 12, 2, 1, or 13; the buffer changes only on 0.
pub fn save(table: &Cells, time: u64, buffer: &mut [u8]) -> u64 {
    unsafe { hivepadlet_save(table, time, buffer.as_mut_ptr(), buffer.len()) }
}

/// A router with the records of a save. 0, 2, 9 with the index, rule or place, or 10 with the place; the
/// table changes only on 0.
pub fn load(numbers: &Numbers, edition: u64, clock: u64, bytes: &[u8], table: &mut Cells) -> u64 {
    let (start, length) = (bytes.as_ptr(), bytes.len());
    unsafe { hivepadlet_load(numbers, edition, clock, start, length, table) }
}
