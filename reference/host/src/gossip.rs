//! The comparison of the calls with the second array: IDONTWANT, IHAVE and IWANT (02, orders 6 and 7), mixed
//! with all others.

pub mod array;
pub mod damage;
pub mod held;
pub mod library;
#[cfg(gossip)]
mod linked;
pub mod reached;
pub mod report;
pub mod request;
pub mod runs;
pub mod script;
pub mod sides;
pub mod stand_in;
pub mod starts;
