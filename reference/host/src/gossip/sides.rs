//! The two sides of one call: the library with its table, its array and its lent lists, and the second
//! program's router.

use super::array::Array;
use super::library::{Both, Gossiping};
use super::request::Asked;
use crate::cells::Cells;
use crate::lent::Lent;
use crate::pair::Difference;
use crate::table::{owe, Table};
use hivepadlet::gossip::{self, Gossip};
use hivepadlet::{number, WHY_NUMBERS};
use reference::event::Call;
use reference::gossip::{AnyEvent, Outcome};
use reference::router::Router;

/// The library's side between calls, and room for comparing.
pub struct Sides<'a, L> {
    library: &'a L,
    pub table: Table,
    pub array: Array,
    list: Lent<u32>,
    numbers: Lent<u64>,
    why: Lent<i64>,
    /// The second program's lists.
    other_list: Vec<u32>,
    other_numbers: Vec<u64>,
    made: u64,
}

impl<'a, L: Gossiping> Sides<'a, L> {
    /// With a table and an array that no function has made yet.
    pub fn unmade(library: &'a L) -> Sides<'a, L> {
        Sides {
            library,
            table: Table::unmade(),
            array: Array::unmade(),
            list: Lent::default(),
            numbers: Lent::default(),
            why: Lent::default(),
            other_list: Vec::new(),
            other_numbers: Vec::new(),
            made: 0,
        }
    }

    /// The second program's state written into both.
    pub fn of(library: &'a L, router: &Router) -> Sides<'a, L> {
        let (table, array) = (Table::of(router), Array::of(router));
        Sides { table, array, ..Sides::unmade(library) }
    }

    /// Goes on from another router's.
    pub fn load(&mut self, table: &Cells, gossip: &Gossip) {
        self.table.load(table);
        self.array.load(gossip);
    }

    pub fn both(&mut self) -> Both<'_> {
        Both { table: self.table.cells_mut(), gossip: self.array.cells_mut() }
    }

    /// Makes a call on both sides. The router is the second program's, and holds the state of table and array.
    pub fn make(&mut self, router: &mut Router, asked: &Asked) -> Result<Outcome, Difference> {
        let result = self.make_here(asked);
        let event = asked.event();
        let outcome = event.make(router, &mut self.other_list, &mut self.other_numbers);
        self.table.expect(router);
        let mut found = Vec::new();
        let due = gossip::packed(outcome.answer, outcome.actions, outcome.numbers);
        if result != due {
            found.push(format!("answer: library {}, due {}", shown(result), shown(due)));
        }
        compare_list("action list", self.list.lent(), &self.other_list, &mut found);
        compare_list("list of numbers", self.numbers.lent(), &self.other_numbers, &mut found);
        self.compare_score(router, asked, result, &mut found);
        self.table.compare(&mut found);
        self.array.compare(router, &mut found);
        self.judge(asked, result, &mut found);
        ended(found)?;
        self.table.go_on();
        self.array.go_on();
        Ok(outcome)
    }

    /// Makes a call of tables that are no router's: 12 is due, and no change.
    pub fn refuse(&mut self, asked: &Asked) -> Result<(), Difference> {
        let result = self.make_here(asked);
        let mut found = Vec::new();
        owe(result == 12, &format!("answer: library {}, due 12", shown(result)), &mut found);
        self.judge(asked, result, &mut found);
        ended(found)
    }

    /// The library's own test 12.
    pub fn is_router(&self) -> Result<bool, Difference> {
        match self.library.gossip_is_router(self.table.cells(), self.array.cells()) {
            0 => Ok(false),
            1 => Ok(true),
            other => Err(Difference(vec![format!("is_router: {other}, neither 0 nor 1")])),
        }
    }

    /// Test 12 is as it is due.
    pub fn judges_as(&self, due: bool) -> Result<(), Difference> {
        let said = self.is_router()?;
        let told = || vec![format!("is_router: {}, due {}", u8::from(said), u8::from(due))];
        if said == due {
            Ok(())
        } else {
            Err(Difference(told()))
        }
    }

    /// What was just made is the second program's router.
    pub fn begin(&mut self, router: &Router) -> Result<(), Difference> {
        let mut found = Vec::new();
        self.table.note();
        self.table.expect(router);
        self.table.compare(&mut found);
        self.table.judge(0, 0, &mut found);
        self.array.compare(router, &mut found);
        self.array.judge(0, &mut found);
        self.array.note();
        ended(found)?;
        self.judges_as(true)
    }

    /// Makes a call on the library's side; gives what came back. Those that are not handed the array are made
    /// on the table alone.
    fn make_here(&mut self, asked: &Asked) -> u64 {
        self.made += 1;
        self.list.refill(asked.list(), self.made);
        self.numbers.refill(asked.numbers().unwrap_or(0), self.made);
        self.why.refill(WHY_NUMBERS, self.made);
        self.other_list.clear();
        self.other_list.extend_from_slice(self.list.lent());
        self.other_numbers.clear();
        self.other_numbers.extend_from_slice(self.numbers.lent());
        let list = self.list.lent_mut();
        let both = Both { table: self.table.cells_mut(), gossip: self.array.cells_mut() };
        match asked {
            Asked::New(request) => {
                self.library.new_call(request, both, list, self.numbers.lent_mut())
            }
            Asked::Old(request) if asked.is_handed() => self.library.old_call(request, both, list),
            Asked::Old(request) => {
                let why = self.why.lent_mut().try_into().expect("six numbers are lent");
                self.library.call(request, both.table, why, list)
            }
        }
    }

    /// The numbers of an accepted score; the second program has told its answer already.
    fn compare_score(&self, router: &Router, asked: &Asked, result: u64, found: &mut Vec<String>) {
        let AnyEvent::Old(event) = asked.event() else { return };
        let (Call::Score { id }, 0) = (event.call, number(result)) else { return };
        if let Ok(slot) = router.connected(id as u32) {
            let due = router.why(slot).numbers();
            owe(*self.why.lent() == due, &format!("the score is not {due:?}"), found);
        }
    }

    /// What the library owes whatever the second program says: nothing written outside of what is lent; a
    /// refusal changes nothing, an ignored call the clock alone; past what is told the lists stand.
    fn judge(&self, asked: &Asked, result: u64, found: &mut Vec<String>) {
        let number = number(result);
        self.table.judge(number, asked.now(), found);
        self.array.judge(number, found);
        let (actions, numbers) = match number {
            0 => (3 * gossip::actions(result), gossip::numbers(result)),
            _ => (0, 0),
        };
        let list = self.list.guards_stand() && self.list.stands_from(actions);
        owe(list, "the action list was changed past its actions", found);
        let list = self.numbers.guards_stand() && self.numbers.stands_from(numbers);
        owe(list, "the list of numbers was changed past what is told", found);
        let scored = number == 0 && asked.name() == "score";
        let stands = self.why.guards_stand() && (scored || self.why.stands_from(0));
        owe(stands, "a call that gives no score changed its numbers", found);
    }
}

fn ended(found: Vec<String>) -> Result<(), Difference> {
    if found.is_empty() {
        Ok(())
    } else {
        Err(Difference(found))
    }
}

/// The first number that differs.
fn compare_list<T: PartialEq + std::fmt::Debug>(
    name: &str,
    library: &[T],
    second: &[T],
    found: &mut Vec<String>,
) {
    let mut pairs = library.iter().zip(second).enumerate();
    if let Some((place, (ours, theirs))) = pairs.find(|(_, (ours, theirs))| ours != theirs) {
        found.push(format!("{name}, number {place}: library {ours:?}, due {theirs:?}"));
    }
}

/// A result as number, actions and message numbers.
fn shown(result: u64) -> String {
    format!("{} {} {}", number(result), gossip::actions(result), gossip::numbers(result))
}
