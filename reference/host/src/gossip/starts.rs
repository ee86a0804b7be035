//! How routers are made, fresh and of a save: with good set-up numbers, and with some that are refused, beside
//! parameters, editions, clocks and saves that are refused too.

use super::library::{Gossiping, Loading, SetUp};
use super::reached::Reached;
use super::sides::Sides;
use crate::cells;
use crate::library::packed;
use crate::pair::Difference;
use reference::event::LAST_TIME;
use reference::generate::saves as made_saves;
use reference::mixed::{Origin, Saved};
use reference::params::{general, Params, Refusal};
use reference::random::Random;
use reference::router::Router;
use reference::saves;
use reference::set_up::{SetUp as Numbers, COUNT, LIMITS};

/// What the second program makes of a start, the edition as a number that may be none's.
pub fn due(start: &Origin, edition: u64) -> Result<Router, Refusal> {
    start.set_up.check()?;
    let Some(edition) = cells::edition_of(edition) else {
        return Err(Refusal { number: 2, place: 0 });
    };
    let params = start.params.clone().in_edition(edition);
    match &start.save {
        None => Router::with_set_up(params, start.set_up),
        Some(Saved { clock, bytes }) => saves::load(&params, start.set_up, *clock, bytes),
    }
}

/// Makes a router by the library; gives what came back.
pub fn made<L: Gossiping>(library: &L, start: &Origin, edition: u64, sides: &mut Sides<L>) -> u64 {
    let (numbers, setup) = (&start.params.numbers, start.set_up.numbers());
    match &start.save {
        None => library.gossip_fresh(numbers, edition, &setup, sides.both()),
        Some(Saved { clock, bytes }) => {
            let loading = Loading { clock: *clock, bytes };
            library.gossip_load(numbers, edition, &setup, &loading, sides.both())
        }
    }
}

/// The library's side of a good start, which holds what the second program's router holds.
pub fn begun<'a, L: Gossiping>(
    library: &'a L,
    start: &Origin,
) -> Result<(Sides<'a, L>, Router), Difference> {
    let mut sides = Sides::unmade(library);
    let router = start.router();
    let result = made(library, start, cells::edition_cell(start.params.edition), &mut sides);
    match result {
        0 => sides.begin(&router)?,
        _ => return Err(Difference(vec![format!("a good start was answered {result}")])),
    }
    Ok((sides, router))
}

/// The ordinary set-up numbers, and so many starts with something that is refused; gives how many.
pub fn compare<L: Gossiping>(
    library: &L,
    count: usize,
    random: &mut Random,
    reached: &mut Reached,
) -> Result<usize, Difference> {
    let mut setup: SetUp = [u64::MAX; COUNT];
    library.ordinary_setup(&mut setup);
    if setup != Numbers::ORDINARY.numbers() {
        return Err(Difference(vec![format!("the ordinary set-up numbers are {setup:?}")]));
    }
    // What a refusal leaves is looked at, and what is made is made over it.
    let mut sides = Sides::unmade(library);
    for _ in 0..count {
        let mut start = Origin::of(random);
        let mut edition = cells::edition_cell(start.params.edition);
        let spoilt = spoil(&mut start, &mut edition, random);
        refuse(library, &start, edition, &mut sides, reached, spoilt)?;
    }
    Ok(count)
}

/// What is wrong with a start, by name: the number whose range it leaves first of all.
struct Spoilt {
    set_up: Option<usize>,
    other: bool,
}

/// A start with a set-up number out of its range, or something else that is refused, or both.
fn spoil(start: &mut Origin, edition: &mut u64, random: &mut Random) -> Spoilt {
    let set_up = random.chance(3, 4).then(|| spoil_set_up(&mut start.set_up, random));
    let other = set_up.is_none() || random.chance(1, 2);
    if other {
        match (random.below(4), &mut start.save) {
            (0, _) => *edition = *random.pick(&[0, 3, 257, u64::MAX]),
            (1, Some(saved)) => saved.clock = *random.pick(&[LAST_TIME + 1, u64::MAX]),
            (2, Some(saved)) => saved.bytes = made_saves::bad(&start.params, random).bytes,
            _ => spoil_params(&mut start.params, random),
        }
    }
    Spoilt { set_up, other }
}

/// One number, out of its range by one or by much; gives its place.
fn spoil_set_up(set_up: &mut Numbers, random: &mut Random) -> usize {
    let place = random.below(COUNT);
    let (_, low, high) = LIMITS[place];
    let mut numbers = set_up.numbers();
    let below = low.wrapping_sub(1);
    numbers[place] = *random.pick(&[high + 1, 1 << 32, u64::MAX, below]);
    *set_up = Numbers::of_numbers(numbers);
    place
}

fn spoil_params(params: &mut Params, random: &mut Random) {
    let numbers = &mut params.numbers;
    if random.chance(1, 2) {
        numbers[general::D_OUT] = 25;
    } else {
        (numbers[general::D_LO], numbers[general::D], numbers[general::D_HI]) = (48, 47, 48);
    }
}

/// A refused start: the same answer on both sides, and nothing written.
fn refuse<L: Gossiping>(
    library: &L,
    start: &Origin,
    edition: u64,
    sides: &mut Sides<L>,
    reached: &mut Reached,
    spoilt: Spoilt,
) -> Result<(), Difference> {
    let result = made(library, start, edition, sides);
    let name = if start.save.is_some() { "load" } else { "fresh" };
    let Err(Refusal { number, place }) = due(start, edition) else {
        return Err(Difference(vec![format!("{name}: the second program refuses nothing")]));
    };
    let told = |what: String| Err(Difference(vec![format!("{name}, {:?}: {what}", start.set_up)]));
    if result != packed(number, place) {
        return told(format!("library {result}, due {number} {place}"));
    }
    if !sides.table.is_unmade() || !sides.array.is_unmade() {
        return told("a refused start changed table or array".to_string());
    }
    reached.count_start(name, number, spoilt.set_up, spoilt.other);
    Ok(())
}
