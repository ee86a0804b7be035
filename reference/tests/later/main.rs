//! Orders 6, 7 and 8 of 02, sentence by sentence; the expected values are worked out by hand.

mod gossip;
mod host;
mod lists;
mod notices;
mod saves;
mod wire;
