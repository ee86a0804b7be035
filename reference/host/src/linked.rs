//! The proved library, libhost.a.

use crate::cells::Cells;
#[cfg(saves)]
use crate::library::Saving;
use crate::library::{Library, Numbers, Why};
use crate::request::Request;
use crate::rows::Rows;
use reference::event::{Call, Event};

pub struct Linked;

/// Makes an event's call. A score and its parts go to the lent numbers, with the answer 0 alone.
pub fn call(table: &mut Cells, event: &Event, why: &mut Why, list: &mut [u32]) -> u64 {
    let now = event.now;
    match event.call {
        Call::Connect { id, ref groups, flags, ref name } => {
            hivepadlet::connect(table, now, id, groups, flags, name, list)
        }
        Call::Disconnect { id } => hivepadlet::disconnect(table, now, id, list),
        Call::Join { topic } => hivepadlet::join(table, now, topic, list),
        Call::Leave { topic } => hivepadlet::leave(table, now, topic, list),
        Call::Subscribe { id, topic } => hivepadlet::subscribe(table, now, id, topic, list),
        Call::Unsubscribe { id, topic } => hivepadlet::unsubscribe(table, now, id, topic, list),
        Call::Graft { id, topic } => hivepadlet::graft(table, now, id, topic, list),
        Call::Prune { id, topic, seconds } => {
            hivepadlet::prune(table, now, id, topic, seconds, list)
        }
        Call::Delivery { id, topic, kind } => {
            hivepadlet::deliver(table, now, id, topic, kind, list)
        }
        Call::SetP5 { id, value } => hivepadlet::rate(table, now, id, value, list),
        Call::Heartbeat { topic, ask, ref permutation } => {
            hivepadlet::heartbeat(table, now, topic, ask, &permutation[..], list)
        }
        Call::Decay => hivepadlet::decay(table, now, list),
        Call::Score { id } => hivepadlet::score(table, now, id, why, list),
    }
}

impl Library for Linked {
    /// A request's permutation may have any length; an event's has one number for each slot.
    fn call(&self, request: &Request, table: &mut Cells, why: &mut Why, list: &mut [u32]) -> u64 {
        let event = &request.event;
        match event.call {
            Call::Heartbeat { topic, ask, ref permutation } => {
                let slots = request.permutation(permutation);
                hivepadlet::heartbeat(table, event.now, topic, ask, slots, list)
            }
            _ => call(table, event, why, list),
        }
    }

    fn ordinary(&self, numbers: &mut Numbers) {
        hivepadlet::ordinary(numbers)
    }

    fn read(&self, bytes: &[u8], numbers: &mut Numbers, edition: &mut u64) -> u64 {
        hivepadlet::read(bytes, numbers, edition)
    }

    fn write(&self, numbers: &Numbers, edition: u64, buffer: &mut [u8]) -> u64 {
        hivepadlet::write(numbers, edition, buffer)
    }

    fn fresh(&self, numbers: &Numbers, edition: u64, table: &mut Cells) -> u64 {
        hivepadlet::fresh(numbers, edition, table)
    }

    fn is_router(&self, table: &Cells) -> u32 {
        hivepadlet::is_router(table)
    }

    fn turn_rows(&self, rows: &Rows, table: &mut Cells) -> u64 {
        hivepadlet::forms::from_old(rows, table)
    }

    fn turn_table(&self, table: &Cells, rows: &mut Rows) -> u64 {
        hivepadlet::forms::to_old(table, rows)
    }
}

#[cfg(saves)]
impl Saving for Linked {
    fn save(&self, table: &Cells, time: u64, buffer: &mut [u8]) -> u64 {
        hivepadlet::saves::save(table, time, buffer)
    }

    fn load(
        &self,
        numbers: &Numbers,
        edition: u64,
        clock: u64,
        bytes: &[u8],
        table: &mut Cells,
    ) -> u64 {
        hivepadlet::saves::load(numbers, edition, clock, bytes, table)
    }
}
