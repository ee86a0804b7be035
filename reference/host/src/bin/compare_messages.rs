//! Compares the proved library, libhost.a, with the second program on RPC messages, in one process:
//! `compare_messages [COUNT] [SEED] [PART]`.

use host_compare::messages::{compare, report, Reached, PARTS};
use host_compare::UNLINKED;
use reference::command;
use reference::random::Random;
use std::process::ExitCode;

#[cfg(linked)]
use host_compare::linked::Linked as Tested;
#[cfg(not(linked))]
use host_compare::stand_in::StandIn as Tested;

const COUNT: u64 = 200_000;
const SEED: u64 = 20_261_115;
const USAGE: &str = "usage: compare_messages [COUNT] [SEED] [names | read | short | write]";

fn main() -> ExitCode {
    command::run("compare_messages", run)
}

fn run(arguments: &[String]) -> Result<bool, String> {
    let number = |place, otherwise| command::number(arguments, place, otherwise).ok_or(USAGE);
    let (count, seed) = (number(0, COUNT)?, number(1, SEED)?);
    let parts: Vec<&str> = match arguments.get(2) {
        None => PARTS.to_vec(),
        Some(word) => PARTS.into_iter().filter(|part| part == word).collect(),
    };
    if parts.is_empty() || arguments.len() > 3 {
        return Err(USAGE.to_string());
    }
    if cfg!(not(linked)) {
        return Err(UNLINKED.to_string());
    }
    println!("seed {seed}");
    let mut reached = Reached::default();
    let told = match compare(&Tested, count, &parts, &mut Random::new(seed), &mut reached) {
        Ok(told) => told,
        Err(failure) => {
            print!("{}", report::of_failure(&Tested, &failure));
            println!("compare_messages: a difference with seed {seed}");
            return Ok(false);
        }
    };
    print!("{}", reached.table());
    let missing = reached.missing(&parts);
    for what in &missing {
        println!("never reached: {what}");
    }
    let totals: Vec<String> = told.iter().map(|(part, count)| total(part, *count)).collect();
    println!("compare_messages: {}, 0 differences", totals.join(", "));
    Ok(missing.is_empty())
}

fn total(part: &str, count: u64) -> String {
    let what = match part {
        "names" => "tables of names",
        "read" => "messages read",
        "short" => "short ones",
        _ => "lists written",
    };
    format!("{count} {what}")
}
