//! What the comparison asks of the library besides its functions of a table alone: those that are handed the
//! second array too.

pub use hivepadlet::gossip::{Gossip, SetUp};

use super::request::NewRequest;
use crate::cells::Cells;
use crate::library::{Library, Numbers};
use crate::request::Request;

/// A router as it is lent: its table and its array.
pub struct Both<'a> {
    pub table: &'a mut Cells,
    pub gossip: &'a mut Gossip,
}

/// How a router is made of a save.
pub struct Loading<'a> {
    pub clock: u64,
    pub bytes: &'a [u8],
}

pub trait Gossiping: Library {
    /// A connect, disconnect or leave of a router with an array.
    fn old_call(&self, request: &Request, both: Both, list: &mut [u32]) -> u64;

    /// One of the eight calls of orders 6 and 7: the answer's number, the count of actions from bit 8 on and
    /// that of numbers from bit 24 on.
    fn new_call(
        &self,
        request: &NewRequest,
        both: Both,
        list: &mut [u32],
        numbers: &mut [u64],
    ) -> u64;

    fn ordinary_setup(&self, setup: &mut SetUp);

    /// 0, 2, or 9 with the index or rule.
    fn gossip_fresh(&self, numbers: &Numbers, edition: u64, setup: &SetUp, both: Both) -> u64;

    /// 0, 2, 9 with the index, rule or place, or 10 with the place.
    fn gossip_load(
        &self,
        numbers: &Numbers,
        edition: u64,
        setup: &SetUp,
        loading: &Loading,
        both: Both,
    ) -> u64;

    /// 1 if table and array are a router's, else 0.
    fn gossip_is_router(&self, table: &Cells, gossip: &Gossip) -> u32;
}
