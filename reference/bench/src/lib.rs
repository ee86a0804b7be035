//! What the benchmark times: a plain Rust router, and a plain reader and writer of messages,
//! all written for speed; and the loads.

pub mod converted;
pub mod load;
pub mod message_load;
pub mod plain;
pub mod plain_message;
pub mod tables;
