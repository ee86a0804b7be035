//! Lists of all 21 calls, made on both sides.

use super::damage;
use super::library::Gossiping;
use super::reached::Reached;
use super::request::Asked;
use super::script;
use super::sides::Sides;
use super::starts;
use crate::pair::Difference;
use reference::coverage::gossip::cases;
use reference::mixed::Origin;
use reference::random::Random;
use reference::router::Router;

/// Of so many calls one is made on a damaged router first, and one on an array with one cell changed.
const DAMAGED: usize = 12;
const CHANGED: usize = 6;

/// To so many peers the full array has replies: to all where everything is full, which takes the second program
/// long.
const REPLIED: usize = 6;

/// What a list begins with.
#[derive(Clone)]
pub enum Begin {
    Origin(Box<Origin>),
    Made(Box<Router>),
}

/// A list that ended in a difference, which its last call showed, alone or on a damaged router.
pub struct Failure {
    pub begin: Begin,
    pub asked: Vec<Asked>,
    pub difference: Difference,
    /// The damage, where the call was made on a damaged router.
    pub damage: Option<String>,
}

impl Begin {
    /// The library's side, and the second program's router.
    fn sides<'a, L: Gossiping>(
        &self,
        library: &'a L,
    ) -> Result<(Sides<'a, L>, Router), Difference> {
        match self {
            Begin::Origin(start) => starts::begun(library, start),
            Begin::Made(router) => Ok((Sides::of(library, router), (**router).clone())),
        }
    }
}

/// Makes so many lists of so many calls, and the scripts.
pub fn compare<L: Gossiping>(
    library: &L,
    lists: u64,
    calls: u64,
    random: &mut Random,
    reached: &mut Reached,
) -> Result<(), Box<Failure>> {
    for _ in 0..lists {
        list(library, calls, Random::new(random.bits()), reached)?;
    }
    let fresh = Begin::Origin(Box::new(script::fresh()));
    scripted(library, fresh.clone(), script::crowd(), reached)?;
    scripted(library, fresh, script::lengths(), reached)?;
    let full = Begin::Made(Box::new(script::full(REPLIED)));
    scripted(library, full, script::on_full(), reached)
}

/// Where a list is, so that a difference can be told.
struct Told {
    begin: Begin,
    asked: Vec<Asked>,
}

impl Told {
    fn failure(&mut self, difference: Difference, damage: Option<String>) -> Box<Failure> {
        let (begin, asked) = (self.begin.clone(), std::mem::take(&mut self.asked));
        Box::new(Failure { begin, asked, difference, damage })
    }
}

fn list<L: Gossiping>(
    library: &L,
    calls: u64,
    mut random: Random,
    reached: &mut Reached,
) -> Result<(), Box<Failure>> {
    let mut beside = Random::new(random.bits());
    let start = Origin::of(&mut random);
    reached.count_list(start.name(), start.save.is_some());
    let mut told = Told { begin: Begin::Origin(Box::new(start.clone())), asked: Vec::new() };
    let (mut sides, _) =
        starts::begun(library, &start).map_err(|difference| told.failure(difference, None))?;
    let mut trial = Sides::unmade(library);
    let mut caller = start.caller(calls as usize, random);
    for _ in 0..calls {
        let event = caller.next_event();
        let asked = Asked::dressed(event, &mut beside);
        told.asked.push(asked.clone());
        let router = caller.router();
        tried(&mut trial, &sides, router, &asked, &mut beside, reached)
            .map_err(|(damage, difference)| told.failure(difference, Some(damage)))?;
        make(&mut sides, router, &asked, reached)
            .map_err(|difference| told.failure(difference, None))?;
    }
    Ok(())
}

/// Now and then the call is made on damaged copies first.
fn tried<L: Gossiping>(
    trial: &mut Sides<L>,
    sides: &Sides<L>,
    router: &Router,
    asked: &Asked,
    random: &mut Random,
    reached: &mut Reached,
) -> Result<(), (String, Difference)> {
    if random.chance(1, DAMAGED) {
        damage::try_named(trial, sides, router, asked, random, reached)?;
    }
    if random.chance(1, CHANGED) {
        damage::try_cell(trial, sides, router, asked, random, reached)?;
    }
    Ok(())
}

/// One call on both sides, counted. Now and then test 12 is asked by itself.
fn make<L: Gossiping>(
    sides: &mut Sides<L>,
    router: &mut Router,
    asked: &Asked,
    reached: &mut Reached,
) -> Result<(), Difference> {
    let cases = cases(router, &asked.event());
    let outcome = sides.make(router, asked)?;
    reached.count_call(asked, &outcome, &cases);
    match reached.calls() % 8 {
        0 => sides.judges_as(true),
        _ => Ok(()),
    }
}

fn scripted<L: Gossiping>(
    library: &L,
    begin: Begin,
    script: Vec<Asked>,
    reached: &mut Reached,
) -> Result<(), Box<Failure>> {
    let mut told = Told { begin: begin.clone(), asked: Vec::new() };
    let begun = begin.sides(library);
    let (mut sides, mut router) = begun.map_err(|difference| told.failure(difference, None))?;
    for asked in script {
        told.asked.push(asked.clone());
        make(&mut sides, &mut router, &asked, reached)
            .map_err(|difference| told.failure(difference, None))?;
    }
    Ok(())
}

/// Makes a list again from its start; gives the first difference.
pub fn replay<L: Gossiping>(library: &L, begin: &Begin, asked: &[Asked]) -> Option<Difference> {
    let (mut sides, mut router) = match begin.sides(library) {
        Ok(begun) => begun,
        Err(difference) => return Some(difference),
    };
    let make = |asked| sides.make(&mut router, asked).and_then(|_| sides.judges_as(true)).err();
    asked.iter().find_map(make)
}
