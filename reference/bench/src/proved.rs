//! The proved library behind the same interface as the plain router.

use crate::Timed;
use hivepadlet::{number, value, Cells, CELLS};
use reference::event::{Call, Event};
use reference::params::Params;
use reference::router::{Answer, Done, Refusal, Router as Second, Why};

/// A router of the library: a lent table.
#[derive(Clone)]
pub struct Router {
    table: Box<Cells>,
}

impl Router {
    /// A fresh router with parameters that are in order.
    pub fn new(params: &Params) -> Router {
        let mut table = Box::new([0; CELLS]);
        let result =
            hivepadlet::fresh(&params.numbers, u64::from(params.edition.number()), &mut table);
        assert_eq!(number(result), 0, "accepted parameters");
        Router { table }
    }

    /// The second program's state in a table.
    pub fn of(router: &Second) -> Router {
        Router { table: host_compare::cells::table_of(router) }
    }

    pub fn is_valid(&self) -> bool {
        hivepadlet::is_router(&self.table) == 1
    }
}

impl Timed for Router {
    fn call(&mut self, event: &Event, list: &mut [u32]) -> Answer {
        let mut why = [0; 6];
        let result = host_compare::linked::call(&mut self.table, event, &mut why, list);
        let why = matches!(event.call, Call::Score { .. }).then(|| parts(&why));
        answer_of(result, why)
    }
}

/// The parts of a score, the sum of which is checked.
fn parts(&[total, capped, p5, p6, p7, score]: &hivepadlet::Why) -> Why {
    let why = Why { total, capped, p5, p6, p7 };
    assert_eq!(why.score(), score, "a score is the sum of its parts");
    why
}

fn answer_of(result: u64, why: Option<Why>) -> Answer {
    Err(match number(result) {
        0 => {
            let actions = Done::Actions(value(result) as usize);
            return Ok(why.map_or(actions, Done::Score));
        }
        1 => Refusal::ClockBack,
        2 => Refusal::OutOfRange,
        3 => Refusal::NotConnected,
        4 => Refusal::AlreadyConnected,
        5 => Refusal::NoSlot,
        6 => Refusal::UnknownProtocol,
        7 => Refusal::BadPermutation,
        8 => Refusal::ShortActionList,
        11 => Refusal::Ignored,
        _ => Refusal::NotARouter,
    })
}
