//! Compares the proved library, libhost.a, with the second program on lists of all calls, those of IDONTWANT,
//! IHAVE and IWANT among them, in one process: `compare_gossip [LISTS] [CALLS] [SEED]`.

use host_compare::gossip::library::Gossiping;
use host_compare::gossip::reached::Reached;
use host_compare::gossip::{report, runs, starts};
use host_compare::UNLINKED;
use reference::command;
use reference::random::Random;
use std::process::ExitCode;

#[cfg(gossip)]
use host_compare::linked::Linked as Tested;
#[cfg(not(gossip))]
use host_compare::stand_in::StandIn as Tested;

const LISTS: u64 = 400;
const CALLS: u64 = 500;
const SEED: u64 = 20_261_117;
const USAGE: &str = "usage: compare_gossip [LISTS] [CALLS] [SEED]";

/// Routers that are not made.
const STARTS: usize = 2000;

fn main() -> ExitCode {
    command::run("compare_gossip", run)
}

fn run(arguments: &[String]) -> Result<bool, String> {
    let number = |place, otherwise| command::number(arguments, place, otherwise).ok_or(USAGE);
    let (lists, calls, seed) = (number(0, LISTS)?, number(1, CALLS)?, number(2, SEED)?);
    if arguments.len() > 3 {
        return Err(USAGE.to_string());
    }
    if cfg!(not(gossip)) {
        return Err(UNLINKED.to_string());
    }
    println!("seed {seed}");
    let mut reached = Reached::default();
    if let Err(told) = compare(&Tested, lists, calls, &mut Random::new(seed), &mut reached) {
        print!("{told}");
        println!("compare_gossip: a difference with seed {seed}");
        return Ok(false);
    }
    print!("{}", reached.table());
    let (missing, strange) = (reached.missing(), reached.not_permitted());
    for what in &missing {
        println!("never reached: {what}");
    }
    for what in &strange {
        println!("not permitted: {what}");
    }
    let (made, damaged, changed) = (reached.calls(), reached.damaged(), reached.changed());
    println!(
        "compare_gossip: {lists} lists, {made} calls, {damaged} damaged routers, {changed} changed arrays, \
         {STARTS} refused starts, 0 differences"
    );
    Ok(missing.is_empty() && strange.is_empty())
}

/// A difference is told.
fn compare<L: Gossiping>(
    library: &L,
    lists: u64,
    calls: u64,
    random: &mut Random,
    reached: &mut Reached,
) -> Result<(), String> {
    let starts = starts::compare(library, STARTS, random, reached);
    starts.map_err(|difference| difference.0.join("\n") + "\n")?;
    let runs = runs::compare(library, lists, calls, random, reached);
    runs.map_err(|failure| report::of_list(library, &failure))
}
