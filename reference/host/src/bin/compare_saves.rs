//! Compares the proved library, libhost.a, with the second program on saves and loads, in one process:
//! `compare_saves [ROUTERS] [SEED]`.

use host_compare::saves::{compare, Compared, Reached};
use host_compare::UNLINKED;
use reference::command;
use reference::random::Random;
use std::process::ExitCode;

#[cfg(saves)]
use host_compare::linked::Linked as Tested;
#[cfg(not(saves))]
use host_compare::stand_in::StandIn as Tested;

const ROUTERS: u64 = 400;
const SEED: u64 = 20_261_115;
const USAGE: &str = "usage: compare_saves [ROUTERS] [SEED]";

fn main() -> ExitCode {
    command::run("compare_saves", run)
}

fn run(arguments: &[String]) -> Result<bool, String> {
    let number = |place, otherwise| command::number(arguments, place, otherwise).ok_or(USAGE);
    let (routers, seed) = (number(0, ROUTERS)?, number(1, SEED)?);
    if arguments.len() > 2 {
        return Err(USAGE.to_string());
    }
    if cfg!(not(saves)) {
        return Err(UNLINKED.to_string());
    }
    println!("seed {seed}");
    let mut reached = Reached::default();
    let compared = compare(&Tested, routers as usize, &mut Random::new(seed), &mut reached);
    let Compared { saves, loads } = match compared {
        Ok(compared) => compared,
        Err(failure) => {
            println!("{}", failure.told);
            println!("bytes {:02x?}", failure.bytes);
            println!("compare_saves: a difference with seed {seed}");
            return Ok(false);
        }
    };
    print!("{}", reached.table());
    let missing = reached.missing();
    for what in &missing {
        println!("never reached: {what}");
    }
    println!("compare_saves: {routers} routers, {saves} saves, {loads} loads, 0 differences");
    Ok(missing.is_empty())
}
