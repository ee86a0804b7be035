//! Damaged tables on both sides: those that are no router's are refused by every call, cells that no state
//! reads may hold anything, and cells changed at random are judged alike.

use crate::cells::{self, Cells, Field, Spot, CELLS, CLOCK, USED};
use crate::counts::Counts;
use crate::damage::{self, Change};
use crate::harmless;
use crate::library::Library;
use crate::pair::{Difference, Pair};
use crate::request::{also_bad, thirteen, Request};
use crate::spot::{BETWEEN, KEPT, REGIONS};
use reference::event::{Call, SLOTS};
use reference::params::TOPICS;
use reference::random::Random;
use reference::router::{number, Router, ACTION_LIST};

/// Of the changes of one state every so-many-th is done, others in the next state. Primes, so that the
/// fields of the records take turns: one for the cells before the peers', which are few, and one for theirs,
/// of which each gets its turn in an even and in an odd state. The first and the last slot are changed in
/// every state.
const STRIDE: usize = 13;
const PEERS_STRIDE: usize = 31;

/// Every so-many-th changed table is handed to all thirteen calls, the others to a few.
const THOROUGH: u64 = 8;
const FEW: usize = 3;

/// In every so-many-th state the largest number is put into cells as well.
const LARGEST: usize = 4;

/// How many random changes each state gets.
const CHANGES: usize = 400;

/// A difference on a damaged table.
pub struct Failure {
    /// The number of the state whose table was damaged.
    pub state: usize,
    pub kind: String,
    pub changes: Vec<(usize, u64)>,
    pub request: Option<Request>,
    pub difference: Difference,
}

/// What was damaged, and with which call a difference showed.
type Found = Box<(Option<Request>, Difference)>;

/// How many tables were damaged, how many changed where no state reads them, and how many at random.
#[derive(Default)]
pub struct Tables {
    pub damaged: u64,
    pub harmless: u64,
    pub changed: u64,
}

/// Damages and changes the table of each state.
pub fn compare<L: Library>(
    library: &L,
    states: &[Router],
    random: &mut Random,
    counts: &mut Counts,
) -> Result<Tables, Box<Failure>> {
    let mut tables = Tables::default();
    let mut seen = vec![false; damage::PLACES];
    for (place, state) in states.iter().enumerate() {
        // Even states have the highest mark, so that every slot's cells are read; odd ones the lowest.
        let mark = if place.is_multiple_of(2) { SLOTS } else { cells::records_end(state) };
        let mut sweep = Sweep::new(library, (state, mark), random, counts);
        sweep.all(place, &mut tables, &mut seen)?;
    }
    if damage::alone().all(|place| seen[place]) {
        counts.count(EVERY_PLACE);
    }
    Ok(tables)
}

/// Whether a change has its turn in a state. Joint rules, the mark, the clock and all unread cells at once are
/// few, and have it in every state; so have the times of a state in which each is read.
fn has_turn(change: &Change, state: usize, router: &Router) -> bool {
    let in_turn = |stride: usize| change.place % stride == state % stride;
    let few = damage::RULES.contains(&change.kind)
        || matches!(change.changes[0].0, USED | CLOCK)
        || change.kind == harmless::EVERY;
    let slot = if change.place >= CELLS {
        Some((change.place - CELLS) % SLOTS)
    } else {
        match Spot::of(change.place) {
            Spot::Record { field: Field::GraftTime | Field::MeshTime, .. } if is_full(router) => {
                return true;
            }
            Spot::Peer { slot, .. } | Spot::Record { slot, .. } => Some(slot),
            _ => None,
        }
    };
    few || in_turn(if slot.is_some() { PEERS_STRIDE } else { STRIDE })
        || slot.is_some_and(|slot| slot == 0 || slot == SLOTS - 1)
}

/// Whether every slot is a member of every topic.
fn is_full(router: &Router) -> bool {
    (0..TOPICS).all(|topic| router.mesh(topic).len() == SLOTS)
}

/// Each number alone, one past its range or at odds with the others, and each bit that can be.
const EVERY_PLACE: &str = "every number damaged by itself";

/// The names that a comparison counts here.
pub fn wanted() -> impl Iterator<Item = String> {
    let damaged = damage::kinds().map(|kind| format!("damaged {kind}"));
    let harmless = harmless::kinds().map(harmless_name);
    // No change of what is not read takes a table from its router.
    let read = || REGIONS.into_iter().filter(|&region| region != KEPT && region != BETWEEN);
    let refused = read().map(|region| changed(region, false));
    let regions = REGIONS.into_iter().map(|region| changed(region, true)).chain(refused);
    let answers = [0, 3, 5, 11].map(answered);
    let regions = regions.chain(damage::AT_THE_END.into_iter().map(taken));
    let damaged = damaged.chain(harmless).chain(read().map(damaged_region));
    damaged.chain(regions).chain(answers).chain([EVERY_PLACE.to_string()])
}

fn taken(kind: &str) -> String {
    format!("taken {kind}")
}

fn harmless_name(kind: &str) -> String {
    format!("harmless: {kind}")
}

fn damaged_region(region: &str) -> String {
    format!("damaged tables: {region}")
}

fn changed(region: &str, valid: bool) -> String {
    let verdict = if valid { "a router's still" } else { "12" };
    format!("changed at random: {region}, {verdict}")
}

/// A call of a table that was changed at random and is a router's still.
fn answered(number: u32) -> String {
    format!("changed at random: a router's still, a call answered {number}")
}

fn failure(
    state: usize,
    kind: &str,
    changes: &[(usize, u64)],
    found: (Option<Request>, Difference),
) -> Box<Failure> {
    let (request, difference) = found;
    let (kind, changes) = (kind.to_string(), changes.to_vec());
    Box::new(Failure { state, kind, changes, request, difference })
}

/// One state, and its table in room to be damaged.
struct Sweep<'a, L> {
    pair: Pair<'a, L>,
    router: &'a Router,
    /// The cells of the peer that the calls are about, or of slot 0.
    own: Vec<usize>,
    table: Box<Cells>,
    requests: Vec<Request>,
    random: &'a mut Random,
    counts: &'a mut Counts,
}

impl<'a, L: Library> Sweep<'a, L> {
    fn new(
        library: &'a L,
        (router, mark): (&'a Router, usize),
        random: &'a mut Random,
        counts: &'a mut Counts,
    ) -> Sweep<'a, L> {
        let requests = thirteen(router, random);
        let pair = Pair::new(library, router);
        let slot = requests.iter().find_map(|request| match request.event.call {
            Call::Score { id } => router.connected(id as u32).ok(),
            _ => None,
        });
        let own = cells_of(slot.unwrap_or(0));
        let mut table = cells::table_of(router);
        table[USED] = mark as u64;
        Sweep { pair, router, own, table, requests, random, counts }
    }

    /// Every change that has its turn; places damaged by themselves are noted.
    fn all(
        &mut self,
        place: usize,
        tables: &mut Tables,
        seen: &mut [bool],
    ) -> Result<(), Box<Failure>> {
        let state = self.router;
        let mut damages = damage::all(state, &self.table, place.is_multiple_of(LARGEST));
        damages.retain(|change| has_turn(change, place, state));
        for change in damages {
            let found = self.damage(&change, tables.damaged.is_multiple_of(THOROUGH));
            found.map_err(|found| failure(place, change.kind, &change.changes, *found))?;
            tables.damaged += 1;
            seen[change.place] |= change.changes.len() == 1 && change.kind != damage::LARGEST;
        }
        let mut ends = damage::at_the_end(state);
        ends.retain(|change| has_turn(change, place, state));
        for change in ends {
            let found = self.at_the_end(&change);
            found.map_err(|found| failure(place, change.kind, &change.changes, *found))?;
            tables.changed += 1;
        }
        let mut changes = harmless::all(state, &self.table);
        changes.retain(|change| has_turn(change, place, state));
        let ids = self.requests.iter().filter_map(|request| match request.event.call {
            Call::Connect { id, .. } => Some(id),
            _ => None,
        });
        changes.extend(ids.filter_map(|id| harmless::id_past_mark(id, &self.table)));
        for change in changes {
            let thorough =
                change.kind == harmless::OWN_ID || tables.harmless.is_multiple_of(THOROUGH);
            let found = self.harmless(&change, thorough);
            found.map_err(|found| failure(place, change.kind, &change.changes, *found))?;
            tables.harmless += 1;
        }
        for _ in 0..CHANGES {
            let changes = self.random_changes();
            let found = self.change(&changes);
            found.map_err(|found| failure(place, "changed at random", &changes, *found))?;
            tables.changed += 1;
        }
        Ok(())
    }

    /// All thirteen requests, or a few.
    fn some_requests(&mut self, thorough: bool) -> Vec<Request> {
        let mut requests = self.requests.clone();
        if !thorough {
            self.random.shuffle(&mut requests);
            requests.truncate(FEW);
        }
        requests
    }

    /// The table damaged so is no router's by both, and the calls refuse it: all thirteen, or a few.
    fn damage(&mut self, damage: &Change, thorough: bool) -> Result<(), Found> {
        let (valid, mut router) =
            self.agree(&damage.changes).map_err(|difference| Box::new((None, difference)))?;
        if valid {
            let told = "both sides take the table for a router's".to_string();
            return Err(Box::new((None, Difference(vec![told]))));
        }
        let mut requests = self.some_requests(thorough);
        also_bad(&mut requests, self.random);
        for request in &requests {
            self.refuse(&mut router, request)?;
        }
        if router != cells::router_of(self.pair.table()) {
            let told = "the second program changed what it refused".to_string();
            return Err(Box::new((None, Difference(vec![told]))));
        }
        self.counts.count(format!("damaged {}", damage.kind));
        self.counts.count(damaged_region(Spot::of(damage.changes[0].0).region()));
        Ok(())
    }

    /// The table with a number at the end of its range is a router's by both, and a few calls are answered alike.
    fn at_the_end(&mut self, change: &Change) -> Result<(), Found> {
        let (_, router) =
            self.agree(&change.changes).map_err(|difference| Box::new((None, difference)))?;
        let Some(router) = router.filter(Router::is_valid) else {
            let told = "both sides refuse the table".to_string();
            return Err(Box::new((None, Difference(vec![told]))));
        };
        let table = self.changed(&change.changes);
        for request in self.some_requests(false) {
            self.pair.load(&table);
            if let Err(difference) = self.pair.make(&mut router.clone(), &request) {
                return Err(Box::new((Some(request), difference)));
            }
        }
        self.counts.count(taken(change.kind));
        Ok(())
    }

    /// The table changed so is a router's, of the same state, by both, and each call goes as before.
    fn harmless(&mut self, change: &Change, thorough: bool) -> Result<(), Found> {
        let (valid, router) =
            self.agree(&change.changes).map_err(|difference| Box::new((None, difference)))?;
        if !valid || router.as_ref() != Some(self.router) {
            let told = "the second program takes the table for another".to_string();
            return Err(Box::new((None, Difference(vec![told]))));
        }
        let table = self.changed(&change.changes);
        for request in self.some_requests(thorough) {
            self.pair.load(&table);
            if let Err(difference) = self.pair.make(&mut self.router.clone(), &request) {
                return Err(Box::new((Some(request), difference)));
            }
        }
        self.counts.count(harmless_name(change.kind));
        Ok(())
    }

    /// The state's table with other cells.
    fn changed(&self, changes: &[(usize, u64)]) -> Box<Cells> {
        let mut table = self.table.clone();
        for &(cell, value) in changes {
            table[cell] = value;
        }
        table
    }

    /// Changes cells of the state's table, and makes test 12 on both sides, which must be of one mind.
    fn agree(&mut self, changes: &[(usize, u64)]) -> Result<(bool, Option<Router>), Difference> {
        let table = self.changed(changes);
        self.pair.load(&table);
        let router = cells::router_of(&table);
        let library = self.pair.is_router()?;
        let second = router.as_ref().is_some_and(Router::is_valid);
        if library == second {
            Ok((library, router))
        } else {
            let told = format!("test 12: library {library}, second program {second}");
            Err(Difference(vec![told]))
        }
    }

    /// A call of a table that is no router's: 12 by both, and nothing changed, so that the next call finds
    /// the same table.
    fn refuse(&mut self, router: &mut Option<Router>, request: &Request) -> Result<(), Found> {
        let told = |difference| Box::new((Some(request.clone()), difference));
        self.pair.refuse(request).map_err(told)?;
        self.counts.count_answer(request, 12);
        // What the second program's types cannot hold, its own calls are never handed.
        let Some(router) = router else { return Ok(()) };
        let mut list = [7; ACTION_LIST];
        let answer = router.call(&request.event, &mut list);
        if number(&answer) != 12 || list != [7; ACTION_LIST] {
            let difference = format!("answer: second program {}, due 12", number(&answer));
            return Err(told(Difference(vec![difference])));
        }
        Ok(())
    }

    /// Mostly one cell.
    fn random_changes(&mut self) -> Vec<(usize, u64)> {
        let count = *self.random.pick(&[1, 1, 1, 1, 2, 3]);
        (0..count).map(|_| self.random_change()).collect()
    }

    /// A cell of any region, the small ones as likely as the large, and often one of the peer that the calls
    /// are about; and a value near the old one, a small one, one bit turned, that of another record, or any.
    fn random_change(&mut self) -> (usize, u64) {
        let random = &mut *self.random;
        let place = random.below(PARTS.len() + 3);
        let pick = |random: &mut Random| match PARTS.get(place) {
            Some(&(from, to)) => from + random.below(to - from),
            None => *random.pick(&self.own),
        };
        let cell = pick(random);
        let old = self.table[cell];
        let value = match random.below(8) {
            0 => old.wrapping_add(1),
            1 => old.wrapping_sub(1),
            2 => random.below(3) as u64,
            3 => random.of_any_width(),
            4 => old ^ (1 << random.below(64)),
            5 => self.table[pick(random)],
            6 => old.wrapping_add(random.below(1000) as u64),
            _ => random.below(5000) as u64,
        };
        (cell, value)
    }

    /// A changed table is judged alike; if it is a router's still, a call of it is answered alike, and if
    /// not, refused.
    fn change(&mut self, changes: &[(usize, u64)]) -> Result<(), Found> {
        let (valid, router) =
            self.agree(changes).map_err(|difference| Box::new((None, difference)))?;
        let region = Spot::of(changes[0].0).region();
        self.counts.count(changed(region, valid));
        let request = self.random.pick(&self.requests).clone();
        match router {
            Some(mut router) if valid => {
                let answer = self.pair.make(&mut router, &request);
                let answer = answer.map_err(|difference| Box::new((Some(request), difference)))?;
                self.counts.count(answered(number(&answer)));
                Ok(())
            }
            mut router => self.refuse(&mut router, &request),
        }
    }
}

/// The parts of the table, from a cell to another.
const PARTS: [(usize, usize); 14] = [
    (cells::CLOCK, cells::JOINED),
    (cells::JOINED, cells::USED),
    (cells::USED, cells::EDITION),
    (cells::EDITION, cells::HEAD_END),
    (cells::HEAD_END, cells::PARAMETERS),
    (cells::PARAMETERS, cells::PARAMETERS_END),
    (cells::CONNECTED, cells::ID),
    (cells::ID, cells::BACKOFF_ENDS),
    (cells::BACKOFF_ENDS, cells::SUBSCRIBED),
    (cells::SUBSCRIBED, cells::COUNTERS),
    (cells::COUNTERS, cells::P3B),
    (cells::P3B, cells::GRAFT_TIMES),
    (cells::GRAFT_TIMES, cells::MESH_TIMES),
    (cells::MESH_TIMES, CELLS),
];

/// The cells that hold something of a slot.
fn cells_of(slot: usize) -> Vec<usize> {
    let holds = |cell: &usize| match Spot::of(*cell) {
        Spot::PeerBits { first, .. } | Spot::TopicBits { first, .. } => slot / 64 * 64 == first,
        Spot::Peer { slot: other, .. } | Spot::Record { slot: other, .. } => slot == other,
        _ => false,
    };
    (0..CELLS).filter(holds).collect()
}
