//! The functions of include/hivepadlet.h for RPC messages, with slices in the place of pointers and
//! lengths.

use crate::Names;

/// A table of message ids: rows of a length and 64 bytes, shorter ids first and those of one length by their
/// bytes; the rows' numbers; and the rows by rising number. The default has no rows.
#[derive(Clone, Copy, Default)]
pub struct Ids<'a> {
    pub ids: &'a [u8],
    pub numbers: &'a [u64],
    pub order: &'a [u64],
}

extern "C" {
    fn hivepadlet_names(names: &Names) -> u64;
    fn hivepadlet_read_message(
        names: &Names,
        ids: *const u8,
        ids_length: usize,
        numbers: *const u64,
        numbers_length: usize,
        order: *const u64,
        order_length: usize,
        message: *const u8,
        length: usize,
        entries: *mut u64,
        entries_length: usize,
    ) -> u64;
    fn hivepadlet_write_message(
        names: &Names,
        ids: *const u8,
        ids_length: usize,
        numbers: *const u64,
        numbers_length: usize,
        order: *const u64,
        order_length: usize,
        actions: *const u32,
        actions_length: usize,
        topics: *const u64,
        topics_length: usize,
        changes: *const u64,
        changes_length: usize,
        buffer: *mut u8,
        length: usize,
    ) -> u64;
}

// SAFETY, for every function below: the header ("MEMORY") asks for pointers that are aligned, not NULL and
// of as much memory as is said, and for no overlap with what is written. References and slices, empty ones
// too, give all of it.

/// 0, or 2.
pub fn names(names: &Names) -> u64 {
    unsafe { hivepadlet_names(names) }
}

/// 0 with the number of entries, 8, 2 for the table of ids, or 10 with the place.
pub fn read_message(names: &Names, ids: Ids, message: &[u8], entries: &mut [u64]) -> u64 {
    unsafe {
        hivepadlet_read_message(
            names,
            ids.ids.as_ptr(),
            ids.ids.len(),
            ids.numbers.as_ptr(),
            ids.numbers.len(),
            ids.order.as_ptr(),
            ids.order.len(),
            message.as_ptr(),
            message.len(),
            entries.as_mut_ptr(),
            entries.len(),
        )
    }
}

/// Actions for one peer, the topic or the message's number of each, and our own joins and leaves. 0 with the
/// length of the message, 2, or 13.
pub fn write_message(
    names: &Names,
    ids: Ids,
    actions: &[u32],
    topics: &[u64],
    changes: &[u64],
    buffer: &mut [u8],
) -> u64 {
    unsafe {
        hivepadlet_write_message(
            names,
            ids.ids.as_ptr(),
            ids.ids.len(),
            ids.numbers.as_ptr(),
            ids.numbers.len(),
            ids.order.as_ptr(),
            ids.order.len(),
            actions.as_ptr(),
            actions.len(),
            topics.as_ptr(),
            topics.len(),
            changes.as_ptr(),
            changes.len(),
            buffer.as_mut_ptr(),
            buffer.len(),
        )
    }
}
