//! Seeded generators of inputs on which two programs are compared.

pub mod calls;
pub mod damage;
pub mod gossip;
pub mod lists;
pub mod messages;
pub mod names;
pub mod notices;
pub mod params;
pub mod saves;
pub mod supplier;
pub mod traces;
