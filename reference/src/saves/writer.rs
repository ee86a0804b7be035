//! Saving. "A save tests 12, 2, 1, and a buffer shorter than the save is 13 and unchanged; it
//! moves no clock."

use super::{Field, EDITION, RECORD_FIELDS};
use crate::event::LAST_TIME;
use crate::groups::{write_signed, write_unsigned};
use crate::router::{Peer, Refusal, Router, Status};

impl Router {
    /// Writes a save to the start of the buffer and says how long it is; bytes past it stay.
    pub fn save(&self, now: u64, buffer: &mut [u8]) -> Result<usize, Refusal> {
        if !self.is_valid() {
            return Err(Refusal::NotARouter);
        }
        if now > LAST_TIME {
            return Err(Refusal::OutOfRange);
        }
        if now < self.clock {
            return Err(Refusal::ClockBack);
        }
        let bytes = self.saved(now);
        let start = buffer.get_mut(..bytes.len()).ok_or(Refusal::NoRoom)?;
        start.copy_from_slice(&bytes);
        Ok(bytes.len())
    }

    /// The save of a moment, which may lie after the clock.
    pub fn saved(&self, now: u64) -> Vec<u8> {
        let mut records: Vec<Peer> = self.peers.iter().map(|peer| self.parted(peer, now)).collect();
        // "reclaimable ones are not written"
        records.retain(|peer| peer.status == Status::Retained && !peer.is_reclaimable(now));
        records.sort_by_key(|peer| peer.id);
        let mut out = Vec::new();
        write_unsigned(EDITION, &mut out);
        write_unsigned(records.len() as u64, &mut out);
        for peer in &records {
            for place in 0..RECORD_FIELDS {
                write_field(peer, Field::at(place), now, &mut out);
            }
        }
        out
    }

    /// "A connected peer is saved as if disconnected at that moment".
    fn parted(&self, peer: &Peer, now: u64) -> Peer {
        let mut peer = peer.clone();
        if peer.status == Status::Connected {
            peer.retain_from(now, &self.params);
        }
        peer
    }
}

/// "times are in milliseconds, 0 when over"
fn write_field(peer: &Peer, field: Field, now: u64, out: &mut Vec<u8>) {
    let remaining = |end: u64| end.saturating_sub(now);
    let value = match field {
        Field::P5 => return write_signed(peer.p5, out),
        Field::Id => u64::from(peer.id),
        Field::Retain => remaining(peer.retain_end),
        Field::P7 => peer.p7 as u64,
        Field::P2(k) => peer.topics[k].p2 as u64,
        Field::P3(k) => peer.topics[k].p3 as u64,
        Field::P3b(k) => peer.topics[k].p3b as u64,
        Field::P4(k) => peer.topics[k].p4 as u64,
        Field::Backoff(k) => remaining(peer.backoff_ends[k]),
    };
    write_unsigned(value, out);
}
