//! The functions of include/hivepadlet.h for the other supplier's parameters, with slices in the place of
//! pointers and lengths.

use crate::NUMBERS;

extern "C" {
    fn hivepadlet_import(bytes: *const u8, length: usize, numbers: &mut [i64; NUMBERS]) -> u64;
    fn hivepadlet_export(numbers: &[i64; NUMBERS], buffer: *mut u8, length: usize) -> u64;
}

// SAFETY, for both functions: as in messages.rs.

/// 0 with the number of bytes, 10 or 9; the numbers change only on 0.
pub fn import(bytes: &[u8], numbers: &mut [i64; NUMBERS]) -> u64 {
    unsafe { hivepadlet_import(bytes.as_ptr(), bytes.len(), numbers) }
}

/// 0 with the number of bytes, 13 or 9; the buffer changes only on 0.
pub fn export(numbers: &[i64; NUMBERS], buffer: &mut [u8]) -> u64 {
    unsafe { hivepadlet_export(numbers, buffer.as_mut_ptr(), buffer.len()) }
}
