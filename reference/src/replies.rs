//! Order 7's bound on "IWANT replies per connection and message while it stays stored", by
//! the calls and their answers alone: what is stored and what was replied is kept here again,
//! and the router's own counts are not looked at.

use crate::event::{Call, Event};
use crate::gossip::{AnyEvent, GossipCall, GossipEvent};
use crate::router::STORED_HEARTBEATS;
use std::collections::BTreeMap;

/// What the calls of a list have come to.
#[derive(Default)]
pub struct Replies {
    /// The heartbeats since a number was stored in a topic.
    stored: BTreeMap<(u64, u64), usize>,
    /// The replies in a peer's connection, by its id and the number.
    replies: BTreeMap<(u64, u64), u64>,
}

impl Replies {
    /// Takes note of a call with its answer, and says what it breaks.
    pub fn see(&mut self, event: &AnyEvent, answer: u32, bound: u64) -> Result<(), String> {
        if answer != 0 {
            return Ok(());
        }
        match event {
            AnyEvent::Old(event) => {
                self.see_old(event);
                Ok(())
            }
            AnyEvent::New(event) => self.see_new(event, bound),
        }
    }

    fn see_old(&mut self, event: &Event) {
        match event.call {
            // A connection begins at one of them and ends at the other.
            Call::Connect { id, .. } | Call::Disconnect { id } => {
                self.replies.retain(|&(peer, _), _| peer != id);
            }
            Call::Leave { topic } => {
                self.stored.retain(|&(of, _), _| of != topic);
                self.forget();
            }
            _ => {}
        }
    }

    fn see_new(&mut self, event: &GossipEvent, bound: u64) -> Result<(), String> {
        match event.call {
            GossipCall::Store { topic, number } => {
                self.stored.entry((topic, number)).or_default();
            }
            GossipCall::Beat => {
                self.stored.values_mut().for_each(|age| *age += 1);
                self.stored.retain(|_, age| *age < STORED_HEARTBEATS);
                self.forget();
            }
            GossipCall::IWant { id, number } => return self.reply(id, number, bound),
            _ => {}
        }
        Ok(())
    }

    fn reply(&mut self, id: u64, number: u64, bound: u64) -> Result<(), String> {
        if !self.is_stored(number) {
            return Err(format!("peer {id} got {number}, which no topic stores"));
        }
        let count = self.replies.entry((id, number)).or_default();
        *count += 1;
        if *count > bound {
            return Err(format!("peer {id} got {number} for the {count}th time, over {bound}"));
        }
        Ok(())
    }

    fn is_stored(&self, number: u64) -> bool {
        self.stored.keys().any(|&(_, stored)| stored == number)
    }

    /// Counts go with the last topic that stores their number.
    fn forget(&mut self) {
        let stored = std::mem::take(&mut self.replies);
        let stays = |&((_, number), _): &((u64, u64), u64)| self.is_stored(number);
        self.replies = stored.into_iter().filter(stays).collect();
    }

    /// Is a connection at the bound for some number?
    pub fn is_tight(&self, bound: u64) -> bool {
        self.replies.values().any(|&count| count == bound)
    }
}
