//! Random lists of the calls of 01 and of orders 6 and 7 on the second program alone, from
//! fresh and from loaded routers, with saves and loads beside them:
//! `check_lists [LISTS] [CALLS] [SEED]`. After every call it checks demand 3, order 7's bound on
//! replies, and what a call may change; of saves, that they load and are saved alike again.

use reference::command::{self, number};
use reference::coverage::gossip::GossipCoverage;
use reference::mixed::List;
use reference::random::Random;
use reference::remember;
use std::process::ExitCode;

const LISTS: u64 = 400;
const CALLS: u64 = 500;
const SEED: u64 = 20_261_117;
const USAGE: &str = "usage: check_lists [LISTS] [CALLS] [SEED]";

/// How many loads go with a list, and after how many calls a save is made.
const LOADS: usize = 20;
const SAVE_AFTER: u64 = 10;

fn main() -> ExitCode {
    command::run("check_lists", check)
}

fn check(arguments: &[String]) -> Result<bool, String> {
    let argument = |place, otherwise| number(arguments, place, otherwise).ok_or(USAGE.to_string());
    let (lists, calls, seed) = (argument(0, LISTS)?, argument(1, CALLS)?, argument(2, SEED)?);
    println!("seed {seed}");
    let mut random = Random::new(seed);
    let mut coverage = GossipCoverage::default();
    let mut tight = 0;
    for list in 0..lists {
        let random = Random::new(random.bits());
        match run(calls, random, &mut coverage) {
            Ok(count) => tight += count,
            Err(message) => {
                println!("check_lists: broken in list {list}: {message}");
                return Ok(false);
            }
        }
    }
    print!("{}", coverage.table());
    println!("calls that left a connection at the bound of replies {tight}");
    let missing = coverage.missing(&remember::wanted());
    let strange = coverage.not_permitted();
    for case in &missing {
        println!("never reached: {case}");
    }
    for answer in &strange {
        println!("not permitted: {answer}");
    }
    println!("check_lists: {lists} lists of {calls} calls, never broken");
    Ok(missing.is_empty() && strange.is_empty() && tight > 0)
}

/// One list, with saves of its router and loads of others; gives how often the bound of
/// replies was reached.
fn run(calls: u64, mut random: Random, coverage: &mut GossipCoverage) -> Result<u64, String> {
    let mut beside = Random::new(random.bits());
    let mut list = List::new(calls as usize, random, coverage);
    for call in 0..calls {
        list.step(coverage)?;
        if call % SAVE_AFTER == 0 {
            remember::check_save(list.caller.router(), &mut beside, coverage)?;
        }
    }
    for _ in 0..LOADS {
        remember::check_load(&mut beside, coverage)?;
    }
    Ok(list.tight)
}
