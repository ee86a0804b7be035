//! RPC messages on both sides: names tested, messages read, lists written, and what was written read and
//! written again. Answers, places, whole lists and whole buffers must be the same.

pub mod library;
pub mod reached;
pub mod report;
pub mod runs;
pub mod sides;

pub use library::{MessageLibrary, Tables};
pub use reached::Reached;
pub use runs::{compare, Failure, Subject, PARTS};
