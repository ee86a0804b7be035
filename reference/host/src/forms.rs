//! Tables turned from each form into the other, in which nothing is lost (02, order 10): rows into a table of
//! the same state, and that table into the same rows; what is no router's is refused, and nothing written.

use crate::cells::{self, Cells, CELLS};
use crate::counts::Counts;
use crate::damage;
use crate::lent::Lent;
use crate::library::{number, Library};
use crate::pair::{Difference, Pair};
use crate::request::{thirteen, Request};
use crate::rows::{self, Rows, ROWS};
use reference::random::Random;
use reference::router::Router;

/// Of the damages of one state every so-many-th is tried.
const STRIDE: usize = 61;

/// How many tables of the old form are changed at random, of each state.
const CHANGES: usize = 200;

/// What comes back.
const DONE: u64 = 0;
const NOT_ROUTER: u64 = 12;

/// A difference in turning a table.
pub struct Failure {
    /// The number of the state whose table was turned.
    pub state: usize,
    pub kind: String,
    pub request: Option<Request>,
    pub difference: Difference,
}

const TURNED: &str = "turned: rows into a table and back";
const FROM_NOISE: &str = "turned: a table with noise where no state reads it";
const CALLED: &str = "turned: a call of a turned table";
const ROWS_TAKEN: &str = "turned: rows changed at random, a router's still";
const ROWS_REFUSED: &str = "turned: rows changed at random, 12";
const TABLE_REFUSED: &str = "turned: a damaged table, 12";

/// The names that a comparison counts here.
pub fn wanted() -> impl Iterator<Item = String> {
    let names = [TURNED, FROM_NOISE, CALLED, ROWS_TAKEN, ROWS_REFUSED, TABLE_REFUSED];
    names.into_iter().map(str::to_string)
}

/// Turns the tables of each state; gives how many tables were turned or refused.
pub fn compare<L: Library>(
    library: &L,
    states: &[Router],
    random: &mut Random,
    counts: &mut Counts,
) -> Result<u64, Box<Failure>> {
    let mut turns = Turns { library, random, counts, made: 0 };
    for (place, state) in states.iter().enumerate() {
        turns.all(state, place).map_err(|found| {
            let (kind, request, difference) = *found;
            Box::new(Failure { state: place, kind: kind.to_string(), request, difference })
        })?;
    }
    Ok(turns.made)
}

struct Turns<'a, L> {
    library: &'a L,
    random: &'a mut Random,
    counts: &'a mut Counts,
    made: u64,
}

type Found = Box<(&'static str, Option<Request>, Difference)>;

fn differ_if(differs: bool, told: impl FnOnce() -> String) -> Result<(), Difference> {
    if differs {
        Err(Difference(vec![told()]))
    } else {
        Ok(())
    }
}

fn answered(result: u64, due: u64) -> Result<(), Difference> {
    differ_if(result != due, || format!("answer: library {}, due {due}", number(result)))
}

impl<L: Library> Turns<'_, L> {
    fn all(&mut self, state: &Router, place: usize) -> Result<(), Found> {
        let rows = rows::rows_of(state);
        let told = |kind| move |difference| Box::new((kind, None, difference));
        let table = self.rows(&rows, state).map_err(told(TURNED))?;
        self.table(&table, &rows).map_err(told(TURNED))?;
        self.counts.count(TURNED);
        let noisy = Pair::new(self.library, state);
        self.table(noisy.table(), &rows).map_err(told(FROM_NOISE))?;
        self.counts.count(FROM_NOISE);
        self.calls(&table, state)?;
        for change in damage::all(state, &table, true) {
            if change.place % STRIDE != place % STRIDE {
                continue;
            }
            let mut damaged = table.clone();
            for &(cell, value) in &change.changes {
                damaged[cell] = value;
            }
            self.refuse_table(&damaged).map_err(told(change.kind))?;
        }
        for _ in 0..CHANGES {
            self.changed_rows(&rows).map_err(told(ROWS_TAKEN))?;
        }
        Ok(())
    }

    fn next_salt(&mut self) -> u64 {
        self.made += 1;
        self.made
    }

    /// The table that the rows become: of this state, a router's, and nothing else written.
    fn rows(&mut self, rows: &Rows, state: &Router) -> Result<Box<Cells>, Difference> {
        let mut lent: Lent<u64> = Lent::new(CELLS, self.next_salt());
        let cells = lent.lent_mut().try_into().expect("a table has its cells");
        answered(self.library.turn_rows(rows, cells), DONE)?;
        differ_if(!lent.guards_stand(), || "the library wrote outside of the table".to_string())?;
        let mut table = Box::new([0; CELLS]);
        table.copy_from_slice(lent.lent());
        let mut expected = table.clone();
        cells::write(state, &mut expected);
        if let Some(cell) = (0..CELLS).find(|&cell| table[cell] != expected[cell]) {
            let spot = cells::Spot::of(cell);
            let [library, due] = [&table, &expected].map(|of| spot.shown(of[cell]));
            let told = format!("cell {cell}, {spot}: library {library}, due {due}");
            return Err(Difference(vec![told]));
        }
        let router = self.library.is_router(&table);
        differ_if(router != 1, || format!("is_router: {router} of a turned table"))?;
        Ok(table)
    }

    /// The rows that the table becomes, every one of them.
    fn table(&mut self, table: &Cells, due: &Rows) -> Result<(), Difference> {
        let mut lent: Lent<u64> = Lent::new(ROWS, self.next_salt());
        let rows = lent.lent_mut().try_into().expect("all rows");
        answered(self.library.turn_table(table, rows), DONE)?;
        differ_if(!lent.guards_stand(), || "the library wrote outside of the rows".to_string())?;
        match (0..ROWS).find(|&cell| lent.lent()[cell] != due[cell]) {
            None => Ok(()),
            Some(cell) => {
                let (library, due) = (lent.lent()[cell], due[cell]);
                Err(Difference(vec![format!("row cell {cell}: library {library}, due {due}")]))
            }
        }
    }

    /// Calls of a turned table go as those of the state.
    fn calls(&mut self, table: &Cells, state: &Router) -> Result<(), Found> {
        let mut pair = Pair::new(self.library, state);
        for request in thirteen(state, self.random) {
            pair.load(table);
            if let Err(difference) = pair.make(&mut state.clone(), &request) {
                return Err(Box::new((CALLED, Some(request), difference)));
            }
            self.counts.count(CALLED);
        }
        Ok(())
    }

    /// A damaged table is no router's, and no row is written.
    fn refuse_table(&mut self, table: &Cells) -> Result<(), Difference> {
        let mut lent: Lent<u64> = Lent::new(ROWS, self.next_salt());
        let rows = lent.lent_mut().try_into().expect("all rows");
        answered(self.library.turn_table(table, rows), NOT_ROUTER)?;
        let untouched = lent.guards_stand() && lent.stands_from(0);
        differ_if(!untouched, || "a refused table wrote rows".to_string())?;
        self.counts.count(TABLE_REFUSED);
        Ok(())
    }

    /// Rows with a cell changed are turned where they are a router's still, and else refused.
    fn changed_rows(&mut self, rows: &Rows) -> Result<(), Difference> {
        let mut changed = Box::new(*rows);
        let parts = [0..rows::CODES, rows::CODES..rows::PEERS, rows::PEERS..ROWS];
        let part = self.random.pick(&parts).clone();
        let cell = part.start + self.random.below(part.len());
        let value = [0, 1, 2, 3, rows[cell].wrapping_add(1), self.random.of_any_width(), u64::MAX];
        changed[cell] = *self.random.pick(&value);
        if let Some(router) = rows::router_of(&changed).filter(Router::is_valid) {
            let table = self.rows(&changed, &router)?;
            self.table(&table, &changed)?;
            self.counts.count(ROWS_TAKEN);
            return Ok(());
        }
        let mut lent: Lent<u64> = Lent::new(CELLS, self.next_salt());
        let cells = lent.lent_mut().try_into().expect("a table has its cells");
        answered(self.library.turn_rows(&changed, cells), NOT_ROUTER)?;
        let untouched = lent.guards_stand() && lent.stands_from(0);
        differ_if(!untouched, || format!("refused rows wrote a table, row cell {cell} changed"))?;
        self.counts.count(ROWS_REFUSED);
        Ok(())
    }
}
