//! Compares the proved library, libhost.a, with the second program in one process:
//! `compare_calls [CALLS] [SEED]`.

use host_compare::counts::Counts;
use host_compare::library::Library;
use host_compare::{edges, forms, made, parameters, report, runs, swept, UNLINKED};
use reference::command;
use reference::random::Random;
use std::process::ExitCode;

#[cfg(linked)]
use host_compare::linked::Linked as Tested;
#[cfg(not(linked))]
use host_compare::stand_in::StandIn as Tested;

const CALLS: u64 = 1_000_000;
const SEED: u64 = 20_261_115;
const USAGE: &str = "usage: compare_calls [CALLS] [SEED] [LONGEST-PARAMETERS]";

/// Inputs of parameters.
const INPUTS: usize = 24_000;

/// States whose tables are damaged: met in the runs, and made.
const MET: u64 = 48;
const MADE: usize = 16;

fn main() -> ExitCode {
    let arguments: Vec<String> = std::env::args().skip(1).collect();
    let number = |place, otherwise| command::number(&arguments, place, otherwise);
    let numbers = (number(0, CALLS), number(1, SEED), number(2, u64::MAX));
    let ((Some(calls), Some(seed), Some(longest)), ..=3) = (numbers, arguments.len()) else {
        eprintln!("{USAGE}");
        return ExitCode::from(2);
    };
    if cfg!(not(linked)) {
        eprintln!("compare_calls: {UNLINKED}");
        return ExitCode::from(2);
    }
    println!("seed {seed}");
    match compare(&Tested, calls, longest as usize, &mut Random::new(seed)) {
        Ok(true) => ExitCode::SUCCESS,
        Ok(false) => ExitCode::FAILURE,
        Err(told) => {
            print!("{told}");
            println!("compare_calls: a difference with seed {seed}");
            ExitCode::FAILURE
        }
    }
}

/// Whether everything that should be reached was; a difference is told.
fn compare<L: Library>(
    library: &L,
    calls: u64,
    longest: usize,
    random: &mut Random,
) -> Result<bool, String> {
    let mut counts = Counts::default();
    let mut states = runs::compare(library, calls, MET, random, &mut counts)
        .map_err(|failure| report::of_run(library, &failure))?;
    println!("{calls} calls in runs");
    states.extend((0..MADE).map(|_| made::router(random)));
    // Every slot a member of every topic, so that every time is read.
    states.push(made::extreme(true));
    let edges = edges::compare(library, &states, random, &mut counts)
        .map_err(|failure| report::of_edge(&failure))?;
    println!("{edges} calls at the ends of ranges");
    let tables = swept::compare(library, &states, random, &mut counts)
        .map_err(|failure| report::of_damage(&failure))?;
    let swept::Tables { damaged, harmless, changed } = tables;
    println!(
        "{damaged} damaged tables, {harmless} changed where no state reads, {changed} at random"
    );
    let turned = forms::compare(library, &states, random, &mut counts)
        .map_err(|failure| report::of_forms(&failure))?;
    println!("{turned} tables turned from each form into the other, or refused");
    let parameters = parameters::compare(library, INPUTS, longest, random, &mut counts)
        .map_err(|failure| report::of_parameters(&failure))?;
    print!("{}", counts.table());
    if parameters.left_out > 0 {
        println!("left out: {} parameters of more than {longest} bytes", parameters.left_out);
    }
    let reached = tell_missing(&counts);
    let inputs = parameters.inputs;
    println!(
        "compare_calls: {calls} calls, {damaged} damaged tables, {inputs} parameters, 0 differences"
    );
    Ok(reached)
}

/// Whether the comparison reached all that it should, and nothing that 01 rules out.
fn tell_missing(counts: &Counts) -> bool {
    let wanted = parameters::wanted().chain(swept::wanted()).chain(edges::wanted());
    let wanted = wanted.chain(forms::wanted());
    let (missing, strange) = (counts.missing(wanted), counts.not_permitted());
    for what in &missing {
        println!("never reached: {what}");
    }
    for what in &strange {
        println!("not permitted: {what}");
    }
    missing.is_empty() && strange.is_empty()
}
