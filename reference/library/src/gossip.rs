//! IDONTWANT, IHAVE and IWANT: the form of the second array, which a router that takes part in them has beside
//! its table, and the functions of include/hivepadlet.h that are handed it.
//!
//! No part of the state are the cells 5 to 7, the numbers and ages past the length of a set, the numbers past
//! the count of a heartbeat, the rows past those in use, the hint of a row, and what a cell of counts holds
//! past its lanes or its last slot.

use crate::{SLOTS, TOPICS};

#[cfg(gossip)]
pub use linked::*;

/// How many numbers the array has.
pub const GOSSIP_CELLS: usize = 82_993;

pub type Gossip = [u64; GOSSIP_CELLS];

/// The set-up numbers, in the first cells: the IDONTWANT limit, D_lazy, the gossip factor, the IHAVE bound and
/// the bound of replies.
pub const SETUP_NUMBERS: usize = 5;

pub type SetUp = [u64; SETUP_NUMBERS];

/// Numbers of a list of message numbers.
pub const MESSAGE_NUMBERS: usize = 192;

/// The kinds of actions that these functions give. Their third number is 0.
pub const IDONTWANT: u32 = 3;
pub const RELAY: u32 = 4;
pub const IHAVE: u32 = 5;

// Where the regions begin.
pub const NOTES: usize = 8;
pub const STORES: usize = NOTES + SLOTS + SLOTS * SET_CELLS;
pub const REPLIES: usize = STORES + WINDOWS + WINDOWS * WINDOW_NUMBERS;

/// A set: numbers, rising, and their ages as the digits of one number to the base 4.
pub const SET_NUMBERS: usize = 32;
pub const SET_CELLS: usize = SET_NUMBERS + 1;
pub const AGE_BASE: u64 = 4;

/// The cell of a slot's counts: numbers put in, IHAVEs from bit 6 on, the length of the set from bit 12 on.
pub const IHAVES_LANE: u64 = 1 << 6;
pub const LENGTH_LANE: u64 = 1 << 12;

/// A topic has so many heartbeats, the running one first, with so many numbers each at most.
pub const HEARTBEATS: usize = 5;
pub const WINDOWS: usize = TOPICS * HEARTBEATS;
pub const WINDOW_NUMBERS: usize = 64;

/// A row of replies: a number, a hint, and the counts of the slots in lanes of six bits.
pub const ROWS: usize = WINDOWS * WINDOW_NUMBERS;
pub const ROW_CELLS: usize = 2 + SLOTS.div_ceil(LANES);
pub const HINT: usize = 1;
pub const LANES: usize = 10;
pub const LANE_BITS: usize = 6;

const _: () = assert!(REPLIES + 1 + ROWS * ROW_CELLS == GOSSIP_CELLS);

/// The cell of a slot's counts, and the first of its set.
pub const fn counts_cell(slot: usize) -> usize {
    NOTES + slot
}

pub const fn set_cell(slot: usize) -> usize {
    NOTES + SLOTS + slot * SET_CELLS
}

pub const fn ages_cell(slot: usize) -> usize {
    set_cell(slot) + SET_NUMBERS
}

/// The cell of a heartbeat's count, and the first of its numbers; heartbeat 0 is the running one.
pub const fn window_cell(topic: usize, heartbeat: usize) -> usize {
    STORES + topic * HEARTBEATS + heartbeat
}

pub const fn numbers_cell(topic: usize, heartbeat: usize) -> usize {
    STORES + WINDOWS + (topic * HEARTBEATS + heartbeat) * WINDOW_NUMBERS
}

/// The first cell of a row of replies; the rows in use are counted in the cell `REPLIES`.
pub const fn row_cell(row: usize) -> usize {
    REPLIES + 1 + row * ROW_CELLS
}

/// The cell of a slot's count in a row, and how far up in it the count stands.
pub const fn reply_cell(row: usize, slot: usize) -> usize {
    row_cell(row) + 2 + slot / LANES
}

pub const fn reply_shift(slot: usize) -> usize {
    slot % LANES * LANE_BITS
}

/// How many actions a call has written, and how many message numbers.
pub fn actions(result: u64) -> usize {
    (result >> 8 & 0xffff) as usize
}

pub fn numbers(result: u64) -> usize {
    (result >> 24) as usize
}

/// An answer's number, actions and message numbers, as one number.
pub fn packed(number: u32, actions: usize, numbers: usize) -> u64 {
    u64::from(number) + ((actions as u64) << 8) + ((numbers as u64) << 24)
}

#[cfg(gossip)]
mod linked {
    use super::{Gossip, SetUp};
    use crate::{Cells, Numbers};

    // SAFETY, for every function below: as in ../linked.rs.

    /// Calls whose own arguments C takes as they are; the array is changed, or read alone.
    macro_rules! calls {
        ($($(#[$about:meta])* $name:ident = $of_c:ident($of_array:ty; $($argument:ident),*);)*) => {
            extern "C" {
                $(fn $of_c(
                    table: &mut Cells,
                    gossip: $of_array,
                    time: u64,
                    $($argument: u64,)*
                    actions: *mut u32,
                    actions_length: usize,
                ) -> u64;)*
            }
            $($(#[$about])*
            pub fn $name(
                table: &mut Cells,
                gossip: $of_array,
                time: u64,
                $($argument: u64,)*
                actions: &mut [u32],
            ) -> u64 {
                let (list, length) = (actions.as_mut_ptr(), actions.len());
                unsafe { $of_c(table, gossip, time, $($argument,)* list, length) }
            })*
        };
    }

    calls! {
        /// A peer disconnects: its set and what it was sent end. 0, or 3.
        disconnect = hivepadlet_gossip_disconnect(&mut Gossip; id);
        /// We leave a topic: its message numbers go. 0, or 11.
        leave = hivepadlet_gossip_leave(&mut Gossip; topic);
        /// We have a large message, from a sender (0: ourselves): whom to send IDONTWANT. 0, 3, or 11.
        send_idontwant = hivepadlet_send_idontwant(&Gossip; topic, sender, number);
        /// A peer sent IDONTWANT. 0, 3, or 11.
        idontwant = hivepadlet_idontwant(&mut Gossip; id, number);
        /// To whom a message from a sender (0: ourselves) is passed on. 0, 3, or 11.
        relay = hivepadlet_relay(&Gossip; topic, sender, number);
        /// A heartbeat of all topics. 0.
        beat = hivepadlet_beat(&mut Gossip;);
        /// We have a message of a topic. 0, 11, or 13.
        store = hivepadlet_store(&mut Gossip; topic, number);
        /// A peer sent IWANT: 0 is the reply. 0, 3, or 11.
        iwant = hivepadlet_iwant(&mut Gossip; id, number);
    }

    extern "C" {
        fn hivepadlet_ordinary_setup(setup: &mut SetUp);
        fn hivepadlet_gossip_fresh(
            numbers: &Numbers,
            edition: u64,
            setup: &SetUp,
            table: &mut Cells,
            gossip: &mut Gossip,
        ) -> u64;
        fn hivepadlet_gossip_load(
            numbers: &Numbers,
            edition: u64,
            setup: &SetUp,
            clock: u64,
            bytes: *const u8,
            length: usize,
            table: &mut Cells,
            gossip: &mut Gossip,
        ) -> u64;
        fn hivepadlet_gossip_is_router(table: &Cells, gossip: &Gossip) -> u32;
        fn hivepadlet_gossip_connect(
            table: &mut Cells,
            gossip: &mut Gossip,
            time: u64,
            id: u64,
            groups: *const u64,
            groups_length: usize,
            flags: u64,
            name: *const u8,
            name_length: usize,
            actions: *mut u32,
            actions_length: usize,
        ) -> u64;
        fn hivepadlet_announce(
            table: &mut Cells,
            gossip: &Gossip,
            time: u64,
            topic: u64,
            permutation: *const u64,
            permutation_length: usize,
            numbers: *mut u64,
            numbers_length: usize,
            actions: *mut u32,
            actions_length: usize,
        ) -> u64;
        fn hivepadlet_ihave(
            table: &mut Cells,
            gossip: &mut Gossip,
            time: u64,
            id: u64,
            topic: u64,
            given: *const u64,
            given_length: usize,
            numbers: *mut u64,
            numbers_length: usize,
            actions: *mut u32,
            actions_length: usize,
        ) -> u64;
    }

    /// The ordinary set-up numbers.
    pub fn ordinary_setup(setup: &mut SetUp) {
        unsafe { hivepadlet_ordinary_setup(setup) }
    }

    /// A fresh router with an array. 0, 2, or 9 with the index or rule; nothing changes but on 0.
    pub fn fresh(
        numbers: &Numbers,
        edition: u64,
        setup: &SetUp,
        table: &mut Cells,
        gossip: &mut Gossip,
    ) -> u64 {
        unsafe { hivepadlet_gossip_fresh(numbers, edition, setup, table, gossip) }
    }

    /// A router with the records of a save, and an array in which nothing is held. 0, 2, 9 with the index, rule
    /// or place, or 10 with the place; nothing changes but on 0.
    pub fn load(
        numbers: &Numbers,
        edition: u64,
        setup: &SetUp,
        clock: u64,
        bytes: &[u8],
        table: &mut Cells,
        gossip: &mut Gossip,
    ) -> u64 {
        let (start, length) = (bytes.as_ptr(), bytes.len());
        unsafe {
            hivepadlet_gossip_load(numbers, edition, setup, clock, start, length, table, gossip)
        }
    }

    /// 1 if the table and the array are a router's, else 0.
    pub fn is_router(table: &Cells, gossip: &Gossip) -> u32 {
        unsafe { hivepadlet_gossip_is_router(table, gossip) }
    }

    /// A peer connects: a record that is given up takes its counts with it. 0, or 6, 4, 5.
    #[allow(clippy::too_many_arguments)]
    pub fn connect(
        table: &mut Cells,
        gossip: &mut Gossip,
        time: u64,
        id: u64,
        groups: &[u64],
        flags: u64,
        name: &[u8],
        actions: &mut [u32],
    ) -> u64 {
        let (bytes, size) = (name.as_ptr(), name.len());
        let (list, length) = (actions.as_mut_ptr(), actions.len());
        let (of_peer, count) = (groups.as_ptr(), groups.len());
        unsafe {
            hivepadlet_gossip_connect(
                table, gossip, time, id, of_peer, count, flags, bytes, size, list, length,
            )
        }
    }

    /// IHAVE of a topic: its numbers, and to whom, in the order of the permutation. 0, or 7, 11.
    pub fn announce(
        table: &mut Cells,
        gossip: &Gossip,
        time: u64,
        topic: u64,
        permutation: &[u64],
        numbers: &mut [u64],
        actions: &mut [u32],
    ) -> u64 {
        let (slots, count) = (permutation.as_ptr(), permutation.len());
        let (told, room) = (numbers.as_mut_ptr(), numbers.len());
        let (list, length) = (actions.as_mut_ptr(), actions.len());
        unsafe {
            hivepadlet_announce(table, gossip, time, topic, slots, count, told, room, list, length)
        }
    }

    /// A peer sent IHAVE of a topic: those of the given numbers that no topic stores. 0, 3, or 11.
    #[allow(clippy::too_many_arguments)]
    pub fn ihave(
        table: &mut Cells,
        gossip: &mut Gossip,
        time: u64,
        id: u64,
        topic: u64,
        given: &[u64],
        numbers: &mut [u64],
        actions: &mut [u32],
    ) -> u64 {
        let (heard, count) = (given.as_ptr(), given.len());
        let (told, room) = (numbers.as_mut_ptr(), numbers.len());
        let (list, length) = (actions.as_mut_ptr(), actions.len());
        unsafe {
            hivepadlet_ihave(table, gossip, time, id, topic, heard, count, told, room, list, length)
        }
    }
}
