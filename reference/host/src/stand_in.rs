//! The second program in the place of the library, by the same functions: with it the comparison runs
//! where there is no libhost.a, and its tests set faults into it.

use crate::cells::{self, Cells};
use crate::library::{packed, Library, Numbers, Saving, Why};
use crate::request::Request;
use crate::rows::{self, Rows};
use reference::params::{self, Params};
use reference::router::{number, Answer, Done, Refusal, Router};
use reference::saves;
use reference::set_up::SetUp;

pub struct StandIn;

/// What comes back for an edition that there is not.
const OUT_OF_RANGE: u64 = 2;

/// An answer as the library gives it; a score goes another way.
pub fn code(answer: &Answer) -> u64 {
    match answer {
        Ok(Done::Actions(count)) => packed(0, *count),
        _ => packed(number(answer), 0),
    }
}

fn code_of_refusal(refusal: params::Refusal) -> u64 {
    packed(refusal.number, refusal.place)
}

impl Library for StandIn {
    fn call(&self, request: &Request, table: &mut Cells, why: &mut Why, list: &mut [u32]) -> u64 {
        let Some(mut router) = cells::router_of(table) else {
            return code(&Err(Refusal::NotARouter));
        };
        let answer = router.call(&request.event, list);
        if let Ok(Done::Score(given)) = answer {
            *why = given.numbers();
        }
        // The tables of a router that is none may hold what no cell can.
        if answer != Err(Refusal::NotARouter) {
            cells::write(&router, table);
        }
        code(&answer)
    }

    fn ordinary(&self, numbers: &mut Numbers) {
        *numbers = Params::ordinary().numbers;
    }

    fn read(&self, bytes: &[u8], numbers: &mut Numbers, edition: &mut u64) -> u64 {
        match params::read(bytes) {
            Ok((params, length)) => {
                *numbers = params.numbers;
                *edition = cells::edition_cell(params.edition);
                packed(0, length)
            }
            Err(refusal) => code_of_refusal(refusal),
        }
    }

    fn write(&self, numbers: &Numbers, edition: u64, buffer: &mut [u8]) -> u64 {
        let Some(edition) = cells::edition_of(edition) else { return OUT_OF_RANGE };
        let params = Params { edition, numbers: *numbers };
        params::write(&params, buffer).map_or_else(code_of_refusal, |length| packed(0, length))
    }

    fn fresh(&self, numbers: &Numbers, edition: u64, table: &mut Cells) -> u64 {
        let Some(edition) = cells::edition_of(edition) else { return OUT_OF_RANGE };
        match Router::new(Params { edition, numbers: *numbers }) {
            Ok(router) => {
                table[cells::USED] = 0;
                cells::write(&router, table);
                packed(0, 0)
            }
            Err(refusal) => code_of_refusal(refusal),
        }
    }

    fn is_router(&self, table: &Cells) -> u32 {
        u32::from(cells::router_of(table).is_some_and(|router| router.is_valid()))
    }

    fn turn_rows(&self, rows: &Rows, table: &mut Cells) -> u64 {
        match rows::router_of(rows).filter(Router::is_valid) {
            Some(router) => {
                table[cells::USED] = 0;
                cells::write(&router, table);
                packed(0, 0)
            }
            None => code(&Err(Refusal::NotARouter)),
        }
    }

    fn turn_table(&self, table: &Cells, rows: &mut Rows) -> u64 {
        match cells::router_of(table).filter(Router::is_valid) {
            Some(router) => {
                rows::write(&router, rows);
                packed(0, 0)
            }
            None => code(&Err(Refusal::NotARouter)),
        }
    }
}

impl Saving for StandIn {
    fn save(&self, table: &Cells, time: u64, buffer: &mut [u8]) -> u64 {
        let Some(router) = cells::router_of(table) else {
            return code(&Err(Refusal::NotARouter));
        };
        match router.save(time, buffer) {
            Ok(length) => packed(0, length),
            Err(refusal) => code(&Err(refusal)),
        }
    }

    fn load(
        &self,
        numbers: &Numbers,
        edition: u64,
        clock: u64,
        bytes: &[u8],
        table: &mut Cells,
    ) -> u64 {
        let Some(edition) = cells::edition_of(edition) else { return OUT_OF_RANGE };
        let params = Params { edition, numbers: *numbers };
        match saves::load(&params, SetUp::ORDINARY, clock, bytes) {
            Ok(router) => {
                table[cells::USED] = 0;
                cells::write(&router, table);
                packed(0, 0)
            }
            Err(refusal) => code_of_refusal(refusal),
        }
    }
}
