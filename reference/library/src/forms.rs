//! The functions of include/hivepadlet.h that turn a router's table from each form into the other.

use crate::rows::Rows;
use crate::Cells;

extern "C" {
    fn hivepadlet_from_old(old: &Rows, table: &mut Cells) -> u64;
    fn hivepadlet_to_old(table: &Cells, old: &mut Rows) -> u64;
}

// SAFETY, for both functions: as in linked.rs.

/// A table from one of the old form. 0, or 12; the table changes only on 0.
pub fn from_old(old: &Rows, table: &mut Cells) -> u64 {
    unsafe { hivepadlet_from_old(old, table) }
}

/// A table of the old form, from one of today's. 0, or 12; the old one changes only on 0.
pub fn to_old(table: &Cells, old: &mut Rows) -> u64 {
    unsafe { hivepadlet_to_old(table, old) }
}
