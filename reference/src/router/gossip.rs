//! The one entry by which the calls of orders 6 and 7 of 02 come in.

use super::{refuse_if, Actions, Refusal, Router, ACTION_LIST};
use crate::gossip::{GossipCall, GossipEvent, NUMBER_LIST};

/// What an accepted call gives back.
#[derive(Clone, Copy, PartialEq, Eq, Debug, Default)]
pub struct Given {
    pub actions: usize,
    /// Order 6: "with a 64-bit message number carried beside the list", that of an ask.
    pub beside: Option<u64>,
    /// Order 7: how many numbers stand in the lent list of numbers.
    pub numbers: usize,
}

pub type GossipAnswer = Result<Given, Refusal>;

impl Router {
    /// Makes a call. A refusal changes nothing, an ignored call moves only the clock; past the
    /// actions and the numbers the lent lists stay as they were. Only an announcement and an
    /// IHAVE look at the list of numbers.
    pub fn gossip(
        &mut self,
        event: &GossipEvent,
        actions: &mut [u32],
        numbers: &mut [u64],
    ) -> GossipAnswer {
        let answer = self.attempt_gossip(event, actions, numbers);
        if matches!(answer, Ok(_) | Err(Refusal::Ignored)) {
            self.clock = event.now;
        }
        answer
    }

    /// Tests in the order 12, 2, 8, 1, 7, 3, 11, 13. The first four are common; each call
    /// makes its own of the others in order, and only then changes anything.
    fn attempt_gossip(
        &mut self,
        event: &GossipEvent,
        list: &mut [u32],
        numbers: &mut [u64],
    ) -> GossipAnswer {
        let short =
            list.len() < ACTION_LIST || event.call.lends_numbers() && numbers.len() < NUMBER_LIST;
        refuse_if(!self.is_valid(), Refusal::NotARouter)?;
        refuse_if(!event.in_range(), Refusal::OutOfRange)?;
        refuse_if(short, Refusal::ShortActionList)?;
        refuse_if(event.now < self.clock, Refusal::ClockBack)?;
        let mut actions = Actions { list, count: 0 };
        let told = self.dispatch_gossip(&event.call, &mut actions)?;
        numbers[..told.len()].copy_from_slice(&told);
        let beside = match event.call {
            GossipCall::Ask { number, .. } => Some(number),
            _ => None,
        };
        Ok(Given { actions: actions.count, beside, numbers: told.len() })
    }

    /// Hands a call, whose arguments are in range, to its rule; gives the numbers for the
    /// lent list.
    fn dispatch_gossip(
        &mut self,
        call: &GossipCall,
        actions: &mut Actions,
    ) -> Result<Vec<u64>, Refusal> {
        match *call {
            GossipCall::Ask { topic, sender, .. } => {
                self.ask(topic as usize, sender as u32, actions)?;
            }
            GossipCall::Notice { id, number } => self.notice(id as u32, number)?,
            GossipCall::Relay { topic, number, sender } => {
                self.relay(topic as usize, number, sender as u32, actions)?;
            }
            GossipCall::Beat => self.beat(),
            GossipCall::Store { topic, number } => self.store(topic as usize, number)?,
            GossipCall::Announce { topic, ref permutation } => {
                return self.announce(topic as usize, permutation, actions);
            }
            GossipCall::IHave { id, topic, ref numbers } => {
                return self.ihave(id as u32, topic as usize, numbers);
            }
            GossipCall::IWant { id, number } => self.iwant(id as u32, number)?,
        }
        Ok(Vec::new())
    }

    /// Order 6: "A new heartbeat call sets the counts to 0", also those of retained records.
    /// Order 7: every store moves on by a heartbeat.
    fn beat(&mut self) {
        for peer in &mut self.peers {
            peer.age_notices();
            peer.ihaves_in = 0;
        }
        for store in &mut self.stores {
            store.next_heartbeat();
        }
        self.forget_replies();
    }
}
