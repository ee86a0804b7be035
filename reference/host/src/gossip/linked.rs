//! The proved library, libhost.a, with the second array.

use super::library::{Both, Gossip, Gossiping, Loading, SetUp};
use super::request::NewRequest;
use crate::cells::Cells;
use crate::library::{Library, Numbers};
use crate::linked::Linked;
use crate::request::Request;
use hivepadlet::gossip;
use reference::event::Call;
use reference::gossip::GossipCall;

impl Gossiping for Linked {
    fn old_call(&self, request: &Request, both: Both, list: &mut [u32]) -> u64 {
        let Both { table, gossip } = both;
        let now = request.event.now;
        match request.event.call {
            Call::Connect { id, ref groups, flags, ref name } => {
                gossip::connect(table, gossip, now, id, groups, flags, name, list)
            }
            Call::Disconnect { id } => gossip::disconnect(table, gossip, now, id, list),
            Call::Leave { topic } => gossip::leave(table, gossip, now, topic, list),
            _ => self.call(request, table, &mut [0; 6], list),
        }
    }

    fn new_call(
        &self,
        request: &NewRequest,
        both: Both,
        list: &mut [u32],
        numbers: &mut [u64],
    ) -> u64 {
        let Both { table, gossip } = both;
        let now = request.event.now;
        match request.event.call {
            GossipCall::Ask { topic, number, sender } => {
                gossip::send_idontwant(table, gossip, now, topic, sender, number, list)
            }
            GossipCall::Notice { id, number } => {
                gossip::idontwant(table, gossip, now, id, number, list)
            }
            GossipCall::Relay { topic, number, sender } => {
                gossip::relay(table, gossip, now, topic, sender, number, list)
            }
            GossipCall::Beat => gossip::beat(table, gossip, now, list),
            GossipCall::Store { topic, number } => {
                gossip::store(table, gossip, now, topic, number, list)
            }
            GossipCall::Announce { topic, ref permutation } => {
                let slots = request.permutation(permutation);
                gossip::announce(table, gossip, now, topic, slots, numbers, list)
            }
            GossipCall::IHave { id, topic, numbers: ref given } => {
                gossip::ihave(table, gossip, now, id, topic, given, numbers, list)
            }
            GossipCall::IWant { id, number } => gossip::iwant(table, gossip, now, id, number, list),
        }
    }

    fn ordinary_setup(&self, setup: &mut SetUp) {
        gossip::ordinary_setup(setup)
    }

    fn gossip_fresh(&self, numbers: &Numbers, edition: u64, setup: &SetUp, both: Both) -> u64 {
        gossip::fresh(numbers, edition, setup, both.table, both.gossip)
    }

    fn gossip_load(
        &self,
        numbers: &Numbers,
        edition: u64,
        setup: &SetUp,
        loading: &Loading,
        both: Both,
    ) -> u64 {
        let Loading { clock, bytes } = *loading;
        gossip::load(numbers, edition, setup, clock, bytes, both.table, both.gossip)
    }

    fn gossip_is_router(&self, table: &Cells, gossip: &Gossip) -> u32 {
        gossip::is_router(table, gossip)
    }
}
