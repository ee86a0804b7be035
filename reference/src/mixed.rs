//! Lists of the calls of 01 and of orders 6 and 7, mixed, with everything checked that holds
//! after every call of every list: demand 3, order 7's bound on replies, and what refusals,
//! ignored calls and the new calls leave alone.

use crate::coverage::gossip::{cases, GossipCoverage};
use crate::demand3::{check_after, Start};
use crate::generate::calls::Caller;
use crate::generate::damage::Damage;
use crate::generate::gossip::{set_up, GossipCaller};
use crate::generate::{saves, traces};
use crate::gossip::{AnyEvent, Outcome, NUMBER_LIST};
use crate::params::{Params, TOPICS};
use crate::random::Random;
use crate::replies::Replies;
use crate::router::{Router, ACTION_LIST};
use crate::saves::load;
use crate::set_up::SetUp;
use crate::trace::TraceEdition;

/// What the lent lists hold before a call.
const MARK: u32 = 0x7777_7777;

/// A list of calls as it goes on.
pub struct List {
    pub caller: GossipCaller,
    replies: Replies,
    /// Calls that left a connection at the bound of replies.
    pub tight: u64,
}

/// Lent lists of random lengths, mostly long enough.
struct Lent {
    actions: Vec<u32>,
    numbers: Vec<u64>,
}

impl Lent {
    fn of(random: &mut Random) -> Lent {
        let mut length = |enough: usize| match random.below(80) {
            0 => random.below(enough),
            1 => enough - 1,
            2 => enough + 1,
            _ => enough,
        };
        let (actions, numbers) = (length(ACTION_LIST), length(NUMBER_LIST));
        Lent { actions: vec![MARK; actions], numbers: vec![u64::from(MARK); numbers] }
    }

    fn make(&mut self, event: &AnyEvent, router: &mut Router) -> Outcome {
        event.make(router, &mut self.actions, &mut self.numbers)
    }

    /// Past what is told the lists are as they were.
    fn check(&self, outcome: &Outcome) -> Result<(), String> {
        let actions = &self.actions[3 * outcome.actions..];
        let numbers = &self.numbers[outcome.numbers..];
        let marked = actions.iter().all(|&number| number == MARK)
            && numbers.iter().all(|&number| number == u64::from(MARK));
        ensure(marked, "a lent list was changed past what is told")
    }
}

fn ensure(holds: bool, otherwise: &str) -> Result<(), String> {
    if holds {
        Ok(())
    } else {
        Err(otherwise.to_string())
    }
}

/// A save that a router is made of, and the clock that it is given.
#[derive(Clone, Debug)]
pub struct Saved {
    pub clock: u64,
    pub bytes: Vec<u8>,
}

/// How a list's router is made: fresh, or of a save.
#[derive(Clone, Debug)]
pub struct Origin {
    pub params: Params,
    pub set_up: SetUp,
    pub save: Option<Saved>,
}

impl Origin {
    pub fn of(random: &mut Random) -> Origin {
        let rounds = random.chance(1, 2);
        let params = if rounds { traces::mesh_params(random) } else { traces::params(random) };
        let set_up = set_up(random);
        let save = random.chance(1, 3).then(|| {
            let save = saves::good(&params, random);
            Saved { clock: saves::clock(random), bytes: save.bytes }
        });
        Origin { params, set_up, save }
    }

    /// The name of the case.
    pub fn name(&self) -> &'static str {
        match self.save {
            Some(_) => "list: from a loaded router",
            None => "list: from a fresh router",
        }
    }

    pub fn router(&self) -> Router {
        let Origin { params, set_up, save } = self;
        match save {
            Some(Saved { clock, bytes }) => {
                load(params, *set_up, *clock, bytes).expect("a good save")
            }
            None => Router::with_set_up(params.clone(), *set_up).expect("good numbers"),
        }
    }

    /// Makes a list of so many calls on the router.
    pub fn caller(&self, calls: usize, mut random: Random) -> GossipCaller {
        let scene = traces::scene(TraceEdition::Three, calls, &mut random);
        let mut caller = Caller::new(self.router(), scene, random);
        caller.plan_opening();
        GossipCaller::new(caller)
    }
}

impl List {
    /// From a fresh router, or from one that is loaded.
    pub fn new(calls: usize, mut random: Random, coverage: &mut GossipCoverage) -> List {
        let origin = Origin::of(&mut random);
        coverage.count_case(origin.name());
        List { caller: origin.caller(calls, random), replies: Replies::default(), tight: 0 }
    }

    /// Makes the next call and checks everything.
    pub fn step(&mut self, coverage: &mut GossipCoverage) -> Result<(), String> {
        let event = self.caller.next_event();
        let mut lent = Lent::of(&mut self.caller.caller.random);
        self.try_damaged(&event, coverage)?;
        let router = &mut self.caller.caller.router;
        let before = router.clone();
        let start = match &event {
            AnyEvent::Old(event) => Start::of(router, event),
            AnyEvent::New(_) => None,
        };
        let cases = cases(router, &event);
        let outcome = lent.make(&event, router);
        let told = |message| format!("{message}, after {event:?} answered {}", outcome.answer);
        lent.check(&outcome).map_err(told)?;
        check_change(&before, router, &event, outcome.answer).map_err(told)?;
        check_after(router, start.as_ref(), outcome.answer).map_err(told)?;
        let bound = router.set_up.iwant_bound;
        self.replies.see(&event, outcome.answer, bound).map_err(told)?;
        self.tight += u64::from(self.replies.is_tight(bound));
        coverage.count_call(&event, outcome.answer, &cases);
        Ok(())
    }

    /// Now and then the call is made on damaged tables first: 12, and nothing changed.
    fn try_damaged(
        &mut self,
        event: &AnyEvent,
        coverage: &mut GossipCoverage,
    ) -> Result<(), String> {
        let random = &mut self.caller.caller.random;
        if !random.chance(1, 15) {
            return Ok(());
        }
        let mut damaged = self.caller.caller.router.clone();
        let damage = *random.pick(&Damage::ALL);
        if damage.put_in(&mut damaged, random).is_none() {
            return Ok(());
        }
        let before = damaged.clone();
        let mut lent = Lent::of(random);
        let outcome = lent.make(event, &mut damaged);
        lent.check(&outcome)?;
        let refused = outcome.answer == 12 && damaged == before;
        ensure(refused, &format!("{damage:?} was answered {}", outcome.answer))?;
        coverage.count_damage(damage);
        coverage.count_call(event, outcome.answer, &[]);
        Ok(())
    }
}

/// "A refused call leaves the tables, the clock and the lent action list untouched; an ignored
/// one moves only the clock"; no call of orders 6 and 7 "touches a mesh or a score".
fn check_change(
    before: &Router,
    after: &Router,
    event: &AnyEvent,
    answer: u32,
) -> Result<(), String> {
    match answer {
        0 => ensure(after.clock == event.now(), "the clock is not the call's time")?,
        11 => {
            let moved = Router { clock: event.now(), ..before.clone() };
            ensure(*after == moved, "an ignored call moved more than the clock")?;
        }
        _ => ensure(after == before, "a refused call changed something")?,
    }
    let meshes = |router: &Router| (0..TOPICS).map(|topic| router.mesh(topic)).collect::<Vec<_>>();
    match event {
        AnyEvent::New(_) => ensure(
            meshes(before) == meshes(after) && before.scores() == after.scores(),
            "a notice or gossip touched a mesh or a score",
        ),
        AnyEvent::Old(_) => Ok(()),
    }
}
