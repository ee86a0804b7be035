//! The two sides of one call: the library with its lent memory, and the second program's router.

use crate::cells::Cells;
use crate::lent::Lent;
use crate::library::{number, value, Library};
use crate::request::Request;
use crate::stand_in::code;
use crate::table::{owe, Table};
use reference::event::Call;
use reference::router::{Answer, Done, Router};

/// A score is lent so many numbers, and what each of them is.
const WHY: usize = PARTS.len();
const PARTS: [&str; 6] =
    ["topics before the cap", "topics after it", "P5", "P6", "P7", "the score itself"];

/// What differs, a line each.
#[derive(Clone, PartialEq, Eq, Debug)]
pub struct Difference(pub Vec<String>);

/// The library's table between calls, and room for comparing.
pub struct Pair<'a, L> {
    library: &'a L,
    table: Table,
    list: Lent<u32>,
    /// A score and its parts.
    why: Lent<i64>,
    /// The second program's list.
    other_list: Vec<u32>,
    made: u64,
}

impl<'a, L: Library> Pair<'a, L> {
    pub fn new(library: &'a L, start: &Router) -> Pair<'a, L> {
        Pair {
            library,
            table: Table::of(start),
            list: Lent::default(),
            why: Lent::default(),
            other_list: Vec::new(),
            made: 0,
        }
    }

    /// Goes on from another table.
    pub fn load(&mut self, cells: &Cells) {
        self.table.load(cells);
    }

    pub fn table(&self) -> &Cells {
        self.table.cells()
    }

    /// Makes a call on both sides. The router is the second program's, and holds the state of the table.
    pub fn make(&mut self, router: &mut Router, request: &Request) -> Result<Answer, Difference> {
        let result = self.make_here(request);
        let answer = router.call(&request.event, &mut self.other_list);
        self.table.expect(router);
        let mut found = Vec::new();
        self.compare_answer(result, &answer, &mut found);
        self.compare_list(&mut found);
        self.table.compare(&mut found);
        self.judge(request, result, &mut found);
        if found.is_empty() {
            self.table.go_on();
            Ok(answer)
        } else {
            Err(Difference(found))
        }
    }

    /// Makes a call of a table that is no router's: 12 is due, and no change.
    pub fn refuse(&mut self, request: &Request) -> Result<(), Difference> {
        let result = self.make_here(request);
        let mut found = Vec::new();
        if result != 12 {
            found.push(format!("answer: library {}, due 12", shown(result)));
        }
        self.judge(request, result, &mut found);
        if found.is_empty() {
            Ok(())
        } else {
            Err(Difference(found))
        }
    }

    /// The library's own test 12.
    pub fn is_router(&self) -> Result<bool, Difference> {
        match self.library.is_router(self.table()) {
            0 => Ok(false),
            1 => Ok(true),
            other => Err(Difference(vec![format!("is_router: {other}, neither 0 nor 1")])),
        }
    }

    /// 01: "Each call keeps this so".
    pub fn keeps_a_router(&self) -> Result<(), Difference> {
        match self.is_router()? {
            true => Ok(()),
            false => Err(Difference(vec!["is_router: 0 of a table that a call left".to_string()])),
        }
    }

    /// Makes a call on the library's side; gives what came back.
    fn make_here(&mut self, request: &Request) -> u64 {
        self.made += 1;
        self.list.refill(request.list, self.made);
        self.why.refill(WHY, self.made);
        self.other_list.clear();
        self.other_list.extend_from_slice(self.list.lent());
        let why = self.why.lent_mut().try_into().expect("six numbers are lent");
        self.library.call(request, self.table.cells_mut(), why, self.list.lent_mut())
    }

    fn compare_answer(&self, result: u64, answer: &Answer, found: &mut Vec<String>) {
        let due = code(answer);
        if result != due {
            let (library, second) = (shown(result), shown(due));
            found.push(format!("answer: library {library}, second program {second}"));
        }
        let Ok(Done::Score(why)) = *answer else { return };
        for (place, (library, due)) in self.why.lent().iter().zip(why.numbers()).enumerate() {
            if *library != due {
                found.push(format!("score, {}: library {library}, due {due}", PARTS[place]));
            }
        }
    }

    fn compare_list(&self, found: &mut Vec<String>) {
        if self.list.lent() != self.other_list {
            let pairs = self.list.lent().iter().zip(&self.other_list).enumerate();
            let (place, (library, second)) =
                pairs.into_iter().find(|(_, (a, b))| a != b).expect("the lengths are the same");
            found.push(format!(
                "action list, number {place}: library {library}, second program {second}"
            ));
        }
    }

    /// What the library owes whatever the second program says: nothing written outside of what is lent; a
    /// refusal changes nothing, an ignored call the clock alone; the list past the actions stands, and the
    /// score's numbers of every call but an accepted score.
    fn judge(&self, request: &Request, result: u64, found: &mut Vec<String>) {
        let (number, count) = (number(result), value(result) as usize);
        self.table.judge(number, request.event.now, found);
        owe(self.list.guards_stand(), "the library wrote outside of the action list", found);
        let told = if number == 0 { 3 * count } else { 0 };
        let stands = self.list.stands_from(told);
        owe(stands, "the library changed the list past its actions", found);
        owe(self.why.guards_stand(), "the library wrote outside of the score's numbers", found);
        let scored = number == 0 && matches!(request.event.call, Call::Score { .. });
        let stands = scored || self.why.stands_from(0);
        owe(stands, "a call that gives no score changed its numbers", found);
    }
}

/// A result as number and value.
fn shown(result: u64) -> String {
    format!("{} {}", number(result), value(result))
}
