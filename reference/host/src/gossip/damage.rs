//! Arrays that are no router's: the second program's damages written into table and array, and single cells of
//! good arrays changed. Test 12 must find of each what the second program finds of the state that it holds.

use super::held::Held;
use super::library::Gossiping;
use super::reached::Reached;
use super::request::Asked;
use super::sides::Sides;
use crate::pair::Difference;
use hivepadlet::gossip::*;
use reference::event::SLOTS;
use reference::generate::damage::Damage;
use reference::params::TOPICS;
use reference::random::Random;
use reference::router::Router;

/// The damages that are in the table; all others are in the array.
const OF_TABLE: [Damage; 2] = [Damage::BackoffTooFar, Damage::RetainTooFar];

/// What a cell of the array is.
#[derive(Clone, Copy, PartialEq, Eq, PartialOrd, Ord, Debug)]
pub enum Region {
    SetUp,
    Unused,
    Counts,
    Set,
    Ages,
    PastASet,
    Window,
    Number,
    PastAWindow,
    Rows,
    RowNumber,
    Hint,
    Lanes,
    PastTheRows,
}

/// What may become of table and array: a router's still, or not.
const STILL: &[bool] = &[true];
const REFUSED: &[bool] = &[false];
const EITHER: &[bool] = &[true, false];

impl Region {
    pub const ALL: [Region; 14] = [
        Region::SetUp,
        Region::Unused,
        Region::Counts,
        Region::Set,
        Region::Ages,
        Region::PastASet,
        Region::Window,
        Region::Number,
        Region::PastAWindow,
        Region::Rows,
        Region::RowNumber,
        Region::Hint,
        Region::Lanes,
        Region::PastTheRows,
    ];

    pub fn name(self) -> &'static str {
        match self {
            Region::SetUp => "a set-up number",
            Region::Unused => "an unused cell of the head",
            Region::Counts => "the counts of a slot",
            Region::Set => "a number of a set",
            Region::Ages => "the ages of a set",
            Region::PastASet => "past the numbers of a set",
            Region::Window => "the count of a heartbeat",
            Region::Number => "a number of a heartbeat",
            Region::PastAWindow => "past the numbers of a heartbeat",
            Region::Rows => "the count of rows",
            Region::RowNumber => "the number of a row",
            Region::Hint => "the hint of a row",
            Region::Lanes => "the counts of a row",
            Region::PastTheRows => "past the rows",
        }
    }

    /// The outcomes that a comparison is to meet.
    pub fn outcomes(self) -> &'static [bool] {
        match self {
            _ if self.is_unread() => STILL,
            Region::RowNumber => REFUSED,
            _ => EITHER,
        }
    }

    /// No state reads it.
    fn is_unread(self) -> bool {
        use Region::*;
        matches!(self, Unused | PastASet | PastAWindow | Hint | PastTheRows)
    }

    /// A cell of it; none where the array has none.
    fn cell(self, gossip: &Gossip, random: &mut Random) -> Option<usize> {
        match self {
            Region::SetUp => Some(random.below(SETUP_NUMBERS)),
            Region::Unused => Some(SETUP_NUMBERS + random.below(NOTES - SETUP_NUMBERS)),
            Region::Counts => Some(counts_cell(random.below(SLOTS))),
            Region::Set | Region::Ages | Region::PastASet => self.cell_of_set(gossip, random),
            Region::Window | Region::Number | Region::PastAWindow => {
                self.cell_of_window(gossip, random)
            }
            _ => self.cell_of_row(gossip, random),
        }
    }

    /// Of a set that is neither empty nor, where a cell past it is wanted, full.
    fn cell_of_set(self, gossip: &Gossip, random: &mut Random) -> Option<usize> {
        let length = |slot: usize| (gossip[counts_cell(slot)] / LENGTH_LANE) as usize;
        let most = if self == Region::PastASet { SET_NUMBERS } else { SET_NUMBERS + 1 };
        let sets: Vec<usize> =
            (0..SLOTS).filter(|&slot| (1..most).contains(&length(slot))).collect();
        let slot = (!sets.is_empty()).then(|| *random.pick(&sets))?;
        Some(match self {
            Region::Ages => ages_cell(slot),
            Region::Set => set_cell(slot) + random.below(length(slot)),
            _ => set_cell(slot) + length(slot) + random.below(SET_NUMBERS - length(slot)),
        })
    }

    fn cell_of_window(self, gossip: &Gossip, random: &mut Random) -> Option<usize> {
        let windows = (0..TOPICS).flat_map(|topic| (0..HEARTBEATS).map(move |k| (topic, k)));
        let count = |(topic, k): (usize, usize)| gossip[window_cell(topic, k)] as usize;
        let fits = |window: &(usize, usize)| match self {
            Region::Number => count(*window) > 0,
            Region::PastAWindow => count(*window) < WINDOW_NUMBERS,
            _ => true,
        };
        let windows: Vec<(usize, usize)> = windows.filter(fits).collect();
        let (topic, k) = (!windows.is_empty()).then(|| *random.pick(&windows))?;
        let count = count((topic, k));
        Some(match self {
            Region::Window => window_cell(topic, k),
            Region::Number => numbers_cell(topic, k) + random.below(count),
            _ => numbers_cell(topic, k) + count + random.below(WINDOW_NUMBERS - count),
        })
    }

    fn cell_of_row(self, gossip: &Gossip, random: &mut Random) -> Option<usize> {
        let rows = gossip[REPLIES] as usize;
        match self {
            Region::Rows => return Some(REPLIES),
            Region::PastTheRows => {
                let from = row_cell(rows);
                return (from < GOSSIP_CELLS).then(|| from + random.below(GOSSIP_CELLS - from));
            }
            _ => {}
        }
        let row = (rows > 0).then(|| random.below(rows))?;
        Some(match self {
            Region::RowNumber => row_cell(row),
            Region::Hint => row_cell(row) + HINT,
            _ => reply_cell(row, random.below(SLOTS)),
        })
    }
}

/// Makes the call on damaged copies of a router's table and array; none where they have no place for a damage.
pub fn try_named<L: Gossiping>(
    trial: &mut Sides<L>,
    sides: &Sides<L>,
    router: &Router,
    asked: &Asked,
    random: &mut Random,
    reached: &mut Reached,
) -> Result<(), (String, Difference)> {
    let damage = *random.pick(&Damage::ALL);
    let mut damaged = router.clone();
    if damage.put_in(&mut damaged, random).is_none() {
        return Ok(());
    }
    trial.load(sides.table.cells(), sides.array.cells());
    let both = trial.both();
    crate::cells::write(&damaged, both.table);
    Held::of(&damaged).write(both.gossip);
    trial.table.note();
    trial.array.note();
    let told = |difference| (format!("{damage:?}"), difference);
    trial.judges_as(false).map_err(told)?;
    // Ten calls are handed the table alone, and do not see the array.
    if asked.is_handed() || OF_TABLE.contains(&damage) {
        trial.refuse(asked).map_err(told)?;
        reached.count_damage(damage, asked);
    }
    Ok(())
}

/// Changes one cell of a copy of the array, and makes the call on it.
pub fn try_cell<L: Gossiping>(
    trial: &mut Sides<L>,
    sides: &Sides<L>,
    router: &Router,
    asked: &Asked,
    random: &mut Random,
    reached: &mut Reached,
) -> Result<(), (String, Difference)> {
    let gossip = sides.array.cells();
    let region = *random.pick(&Region::ALL);
    let Some(cell) = region.cell(gossip, random) else { return Ok(()) };
    let value = other_value(gossip, cell, random);
    trial.load(sides.table.cells(), gossip);
    trial.array.cells_mut()[cell] = value;
    trial.array.note();
    let judged = held_by(trial.array.cells(), router);
    let told = |difference| {
        (format!("{}, cell {cell}: {} is now {value}", region.name(), gossip[cell]), difference)
    };
    trial.judges_as(judged.is_some()).map_err(told)?;
    reached.count_change(region, judged.is_some());
    match judged {
        Some(mut router) => trial.make(&mut router, asked).map(|_| ()).map_err(told),
        None if asked.is_handed() => trial.refuse(asked).map_err(told),
        None => Ok(()),
    }
}

/// The second program's router with what an array holds; none where that is no router.
fn held_by(gossip: &Gossip, router: &Router) -> Option<Router> {
    let held = Held::read(gossip)?;
    let mut router = router.clone();
    held.put_into(&mut router);
    router.is_valid().then_some(router)
}

/// Another number for a cell: one beside it, one bit of it, one of another cell, or any.
fn other_value(gossip: &Gossip, cell: usize, random: &mut Random) -> u64 {
    let old = gossip[cell];
    let any = random.bits();
    let bit = 1 << random.below(64);
    let low = 1 << random.below(16);
    let near = gossip[cell.saturating_sub(1)];
    let far = gossip[random.below(REPLIES)];
    let value = *random.pick(&[
        old.wrapping_add(1),
        old.wrapping_sub(1),
        old ^ bit,
        old ^ low,
        old ^ low,
        near,
        far,
        any,
        0,
        u64::MAX,
    ]);
    if value == old {
        old ^ low
    } else {
        value
    }
}
