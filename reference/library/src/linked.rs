//! The functions of include/hivepadlet.h as C has them, and, safe to call, with slices in the place of
//! pointers and lengths. What comes back is an answer's number and its value (`number`, `value`).

use crate::{Cells, Numbers, Why};

// SAFETY, for every function below: the header ("MEMORY") asks for pointers that are aligned, not NULL and
// of as much memory as is said, for no overlap with what is written, and for one call at a time on a table.
// References and slices, empty ones too, give all of it.

/// Calls on a table whose own arguments C takes as they are.
macro_rules! calls {
    ($($(#[$about:meta])* $name:ident = $of_c:ident($($argument:ident: $of:ty),*);)*) => {
        extern "C" {
            $(fn $of_c(
                table: &mut Cells,
                time: u64,
                $($argument: $of,)*
                actions: *mut u32,
                actions_length: usize,
            ) -> u64;)*
        }
        $($(#[$about])*
        pub fn $name(table: &mut Cells, time: u64, $($argument: $of,)* actions: &mut [u32]) -> u64 {
            unsafe { $of_c(table, time, $($argument,)* actions.as_mut_ptr(), actions.len()) }
        })*
    };
}

calls! {
    /// A peer disconnects. 0, or 3.
    disconnect = hivepadlet_disconnect(id: u64);
    /// Sets P5, the host's own points. 0, or 3.
    rate = hivepadlet_rate(id: u64, p5: i64);
    /// A score and its parts, written with the answer 0 alone. 0, or 3.
    score = hivepadlet_score(id: u64, why: &mut Why);
    /// We join a topic. 0, or 11.
    join = hivepadlet_join(topic: u64);
    /// We leave a topic. 0, or 11.
    leave = hivepadlet_leave(topic: u64);
    /// Counters fade, and mesh times are brought up to now. 0.
    decay = hivepadlet_decay();
    /// A peer subscribes. 0, 3, or 11.
    subscribe = hivepadlet_subscribe(id: u64, topic: u64);
    /// A peer unsubscribes. 0, 3, or 11.
    unsubscribe = hivepadlet_unsubscribe(id: u64, topic: u64);
    /// A GRAFT came in. 0, 3, or 11.
    graft = hivepadlet_graft(id: u64, topic: u64);
    /// A PRUNE came in, with the seconds of its backoff. 0, 3, or 11.
    prune = hivepadlet_prune(id: u64, topic: u64, seconds: u64);
    /// A message came in: first (1), near-first (2), invalid (3). 0, 3, or 11.
    deliver = hivepadlet_deliver(id: u64, topic: u64, kind: u64);
}

extern "C" {
    fn hivepadlet_connect(
        table: &mut Cells,
        time: u64,
        id: u64,
        groups: *const u64,
        groups_length: usize,
        flags: u64,
        name: *const u8,
        name_length: usize,
        actions: *mut u32,
        actions_length: usize,
    ) -> u64;
    fn hivepadlet_heartbeat(
        table: &mut Cells,
        time: u64,
        topic: u64,
        ask: u64,
        permutation: *const u64,
        permutation_length: usize,
        actions: *mut u32,
        actions_length: usize,
    ) -> u64;
    fn hivepadlet_ordinary(numbers: &mut Numbers);
    fn hivepadlet_read(
        bytes: *const u8,
        length: usize,
        numbers: &mut Numbers,
        edition: &mut u64,
    ) -> u64;
    fn hivepadlet_write(numbers: &Numbers, edition: u64, buffer: *mut u8, length: usize) -> u64;
    fn hivepadlet_fresh(numbers: &Numbers, edition: u64, table: &mut Cells) -> u64;
    fn hivepadlet_is_router(table: &Cells) -> u32;
}

/// A peer with one to four address groups, lowest first, connects and speaks the protocol of that name. 0, or
/// 6, 4, 5.
#[allow(clippy::too_many_arguments)]
pub fn connect(
    table: &mut Cells,
    time: u64,
    id: u64,
    groups: &[u64],
    flags: u64,
    name: &[u8],
    actions: &mut [u32],
) -> u64 {
    let (bytes, size) = (name.as_ptr(), name.len());
    let (list, length) = (actions.as_mut_ptr(), actions.len());
    let (of_peer, count) = (groups.as_ptr(), groups.len());
    unsafe { hivepadlet_connect(table, time, id, of_peer, count, flags, bytes, size, list, length) }
}

/// The heartbeat's work for one topic, with a permutation of the slots. 0, or 7, 11.
pub fn heartbeat(
    table: &mut Cells,
    time: u64,
    topic: u64,
    ask: u64,
    permutation: &[u64],
    actions: &mut [u32],
) -> u64 {
    let (slots, count) = (permutation.as_ptr(), permutation.len());
    let (list, length) = (actions.as_mut_ptr(), actions.len());
    unsafe { hivepadlet_heartbeat(table, time, topic, ask, slots, count, list, length) }
}

/// The ordinary parameters.
pub fn ordinary(numbers: &mut Numbers) {
    unsafe { hivepadlet_ordinary(numbers) }
}

/// Parameters of either edition from bytes. 0 with the length, 9 with the index or rule, 10 with the place.
pub fn read(bytes: &[u8], numbers: &mut Numbers, edition: &mut u64) -> u64 {
    unsafe { hivepadlet_read(bytes.as_ptr(), bytes.len(), numbers, edition) }
}

/// Parameters of an edition to bytes. 0 with the length, 2, 8, or 9 with the index or rule.
pub fn write(numbers: &Numbers, edition: u64, buffer: &mut [u8]) -> u64 {
    unsafe { hivepadlet_write(numbers, edition, buffer.as_mut_ptr(), buffer.len()) }
}

/// A fresh router. 0, 2, or 9 with the index or rule.
pub fn fresh(numbers: &Numbers, edition: u64, table: &mut Cells) -> u64 {
    unsafe { hivepadlet_fresh(numbers, edition, table) }
}

/// 1 if the table is a router's, else 0.
pub fn is_router(table: &Cells) -> u32 {
    unsafe { hivepadlet_is_router(table) }
}
