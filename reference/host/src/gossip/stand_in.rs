//! The second program in the place of the library, with the second array.

use super::held::Held;
use super::library::{Both, Gossip, Gossiping, Loading, SetUp};
use super::request::NewRequest;
use crate::cells::{self, Cells};
use crate::library::{packed, Numbers};
use crate::request::Request;
use crate::stand_in::{code, StandIn};
use hivepadlet::gossip;
use reference::params::{self, Params};
use reference::router::{number, GossipAnswer, Refusal, Router};
use reference::saves;
use reference::set_up;

/// The router that table and array hold, valid or not; none where it is none by its form.
pub fn router_of(table: &Cells, gossip: &Gossip) -> Option<Router> {
    let mut router = cells::router_of(table)?;
    Held::read(gossip)?.put_into(&mut router);
    Some(router)
}

/// Writes every cell that the state reads, and no other.
pub fn write(router: &Router, both: Both) {
    cells::write(router, both.table);
    Held::of(router).write(both.gossip);
}

/// What a call leaves: an ignored one moves the clock, a refused one nothing.
fn leave<T>(router: &Router, answer: &Result<T, Refusal>, both: Both) {
    match answer {
        Ok(_) => write(router, both),
        Err(Refusal::Ignored) => both.table[cells::CLOCK] = router.clock,
        Err(_) => {}
    }
}

const NOT_A_ROUTER: u64 = 12;

/// An answer as the library gives it.
pub fn code_of_gossip(answer: &GossipAnswer) -> u64 {
    let given = answer.unwrap_or_default();
    gossip::packed(number(answer), given.actions, given.numbers)
}

fn made(router: Result<Router, params::Refusal>, both: Both) -> u64 {
    match router {
        Ok(router) => {
            both.table[cells::USED] = 0;
            write(&router, both);
            packed(0, 0)
        }
        Err(refusal) => packed(refusal.number, refusal.place),
    }
}

/// The parameters of an edition's number; 2 for the set-up numbers comes first, and is the same.
fn params_of(numbers: &Numbers, edition: u64) -> Result<Params, params::Refusal> {
    let edition = cells::edition_of(edition).ok_or(params::Refusal { number: 2, place: 0 })?;
    Ok(Params { edition, numbers: *numbers })
}

impl Gossiping for StandIn {
    fn old_call(&self, request: &Request, both: Both, list: &mut [u32]) -> u64 {
        let Some(mut router) = router_of(both.table, both.gossip) else { return NOT_A_ROUTER };
        let answer = router.call(&request.event, list);
        leave(&router, &answer, both);
        code(&answer)
    }

    fn new_call(
        &self,
        request: &NewRequest,
        both: Both,
        list: &mut [u32],
        numbers: &mut [u64],
    ) -> u64 {
        let Some(mut router) = router_of(both.table, both.gossip) else { return NOT_A_ROUTER };
        let answer = router.gossip(&request.event, list, numbers);
        leave(&router, &answer, both);
        code_of_gossip(&answer)
    }

    fn ordinary_setup(&self, setup: &mut SetUp) {
        *setup = set_up::SetUp::ORDINARY.numbers();
    }

    fn gossip_fresh(&self, numbers: &Numbers, edition: u64, setup: &SetUp, both: Both) -> u64 {
        let set_up = set_up::SetUp::of_numbers(*setup);
        let params = params_of(numbers, edition);
        made(params.and_then(|params| Router::with_set_up(params, set_up)), both)
    }

    fn gossip_load(
        &self,
        numbers: &Numbers,
        edition: u64,
        setup: &SetUp,
        loading: &Loading,
        both: Both,
    ) -> u64 {
        let set_up = set_up::SetUp::of_numbers(*setup);
        let params = params_of(numbers, edition);
        let load = |params| saves::load(&params, set_up, loading.clock, loading.bytes);
        made(params.and_then(load), both)
    }

    fn gossip_is_router(&self, table: &Cells, gossip: &Gossip) -> u32 {
        u32::from(router_of(table, gossip).is_some_and(|router| router.is_valid()))
    }
}
