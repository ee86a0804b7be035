//! The second program: a gossipsub v1.1 mesh router written from the paper
//! alone (quoted as "01" throughout), to be compared with the first by running.

pub mod child;
pub mod command;
pub mod coverage;
pub mod demand3;
pub mod event;
pub mod generate;
pub mod gossip;
pub mod groups;
pub mod message;
pub mod mixed;
pub mod params;
pub mod random;
pub mod remember;
pub mod replay;
pub mod replies;
pub mod router;
pub mod saves;
pub mod set_up;
pub mod shrink;
pub mod supplier;
pub mod text;
pub mod trace;
pub mod watch;
