//! What the comparison asks of the library: its C functions, each with slices in the place of pointers
//! and lengths.

pub use hivepadlet::{number, packed, value, Numbers, Why};

use crate::cells::Cells;
use crate::request::Request;
use crate::rows::Rows;

pub trait Library {
    /// Makes one of the thirteen calls. The answer's number is the low eight bits of what comes back, the
    /// count of actions stands above it; a score and its parts go to the lent numbers.
    fn call(&self, request: &Request, table: &mut Cells, why: &mut Why, list: &mut [u32]) -> u64;

    fn ordinary(&self, numbers: &mut Numbers);

    /// 0 with the length, 9 with the index or rule, 10 with the place.
    fn read(&self, bytes: &[u8], numbers: &mut Numbers, edition: &mut u64) -> u64;

    /// 0 with the length, 2, 8, or 9 with the index or rule.
    fn write(&self, numbers: &Numbers, edition: u64, buffer: &mut [u8]) -> u64;

    /// 0, 2, or 9 with the index or rule.
    fn fresh(&self, numbers: &Numbers, edition: u64, table: &mut Cells) -> u64;

    /// 1 if the table is a router's, else 0.
    fn is_router(&self, table: &Cells) -> u32;

    /// A table of the old form as one of the new, and back: 0, or 12.
    fn turn_rows(&self, rows: &Rows, table: &mut Cells) -> u64;
    fn turn_table(&self, table: &Cells, rows: &mut Rows) -> u64;
}

/// Its functions that remember records across a power cycle (02, order 8).
pub trait Saving {
    /// 0 with the length, 12, 2, 1, or 13.
    fn save(&self, table: &Cells, time: u64, buffer: &mut [u8]) -> u64;

    /// 0, 2, 9 with the index, rule or place, or 10 with the place.
    fn load(
        &self,
        numbers: &Numbers,
        edition: u64,
        clock: u64,
        bytes: &[u8],
        table: &mut Cells,
    ) -> u64;
}
