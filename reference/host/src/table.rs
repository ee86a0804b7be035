//! The library's table between calls, beside what the second program says that it should hold.

use crate::cells::{self, Cells, Spot, CELLS, CLOCK, USED};
use crate::lent::Lent;
use reference::router::Router;

/// Of many cells that differ, so many are told.
const SHOWN: usize = 12;

pub struct Table {
    lent: Lent<u64>,
    /// The table before the call; after it, by the second program, where the state reads it.
    before: Box<Cells>,
    expected: Box<Cells>,
}

/// Adds a line where what is owed does not hold.
pub fn owe(holds: bool, what: &str, found: &mut Vec<String>) {
    if !holds {
        found.push(what.to_string());
    }
}

impl Table {
    /// Nothing but a pattern.
    pub fn unmade() -> Table {
        let lent = Lent::new(CELLS, 0);
        Table { lent, before: Box::new([0; CELLS]), expected: Box::new([0; CELLS]) }
    }

    /// A router's state; the cells that no state reads are full of other numbers.
    pub fn of(router: &Router) -> Table {
        let mut table = Table::unmade();
        let cells = table.cells_mut();
        cells[USED] = 0;
        cells::write(router, cells);
        table.note();
        table
    }

    /// Goes on from another table.
    pub fn load(&mut self, cells: &Cells) {
        self.lent.lent_mut().copy_from_slice(cells);
        self.note();
    }

    /// What stands now is what was there before the next call.
    pub fn note(&mut self) {
        self.before.copy_from_slice(self.lent.lent());
    }

    pub fn cells(&self) -> &Cells {
        self.lent.lent().try_into().expect("a table has its cells")
    }

    pub fn cells_mut(&mut self) -> &mut Cells {
        self.lent.lent_mut().try_into().expect("a table has its cells")
    }

    /// The pattern stands: nothing was ever written.
    pub fn is_unmade(&self) -> bool {
        self.lent.guards_stand() && self.lent.stands_from(0)
    }

    /// The table as the second program has it: what its state reads, and the mark, which rises to the last
    /// record and never falls. The other cells are as they came.
    pub fn expect(&mut self, router: &Router) {
        self.expected.copy_from_slice(self.lent.lent());
        self.expected[USED] = self.before[USED];
        cells::write(router, &mut self.expected);
    }

    /// Where the table is not what is expected.
    pub fn compare(&self, found: &mut Vec<String>) {
        if *self.cells() == *self.expected {
            return;
        }
        let differ: Vec<usize> =
            (0..CELLS).filter(|&cell| self.cells()[cell] != self.expected[cell]).collect();
        for &cell in differ.iter().take(SHOWN) {
            let spot = Spot::of(cell);
            let [library, second, before] =
                [self.cells(), &self.expected, &self.before].map(|table| spot.shown(table[cell]));
            found.push(format!(
                "cell {cell}, {spot}: library {library}, second program {second}, before {before}"
            ));
        }
        found.push(format!("{} cells differ", differ.len()));
    }

    /// The table is what is expected, cell by cell: the next call begins with it.
    pub fn go_on(&mut self) {
        std::mem::swap(&mut self.before, &mut self.expected);
    }

    /// What the library owes of it whatever the second program says: nothing written outside; a refusal
    /// changes nothing, an ignored call the clock alone.
    pub fn judge(&self, number: u32, now: u64, found: &mut Vec<String>) {
        owe(self.lent.guards_stand(), "the library wrote outside of the table", found);
        let changed_from = |cell: usize| self.cells()[cell..] != self.before[cell..];
        match number {
            0 => {}
            11 => {
                let more = changed_from(CLOCK + 1);
                owe(!more, "an ignored call changed more than the clock", found);
                let moved = self.cells()[CLOCK] == now;
                owe(moved, "an ignored call's clock is not its time", found);
            }
            _ => owe(!changed_from(0), "a refused call changed the table", found),
        }
    }
}
