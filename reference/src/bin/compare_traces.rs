//! Compares the first program's answers to random traces with the reference:
//! `compare_traces FIRST-PROGRAM [TRACES] [EVENTS-AT-LEAST] [SEED]`.

use reference::coverage::Coverage;
use reference::generate::traces;
use reference::random::Random;
use reference::shrink::shrink_trace;
use reference::text::{self, Trace};
use reference::{child, command, trace};
use std::process::ExitCode;

const TRACES: u64 = 3000;
const EVENTS: u64 = 500_000;
const SEED: u64 = 20_261_115;
const USAGE: &str = "usage: compare_traces FIRST-PROGRAM [TRACES] [EVENTS-AT-LEAST] [SEED]";

/// Of long outputs, so many lines are shown.
const SHOWN: usize = 40;

fn main() -> ExitCode {
    command::run("compare_traces", compare)
}

fn compare(arguments: &[String]) -> Result<bool, String> {
    if arguments.len() > 4 {
        return Err(USAGE.to_string());
    }
    let program = arguments.first().ok_or(USAGE)?;
    let number = |place, otherwise| command::number(arguments, place, otherwise).ok_or(USAGE);
    let (least_traces, least_events) = (number(1, TRACES)?, number(2, EVENTS)?);
    let seed = number(3, SEED)?;
    child::check(program)?;
    println!("seed {seed}");
    let mut random = Random::new(seed);
    let mut coverage = Coverage::default();
    let (mut count, mut events) = (0, 0);
    while count < least_traces || events < least_events {
        let generated = traces::trace(&mut random, &mut coverage);
        if differs(program, &generated.bytes) {
            report(program, &generated.bytes);
            println!("compare_traces: a difference at trace {count}");
            return Ok(false);
        }
        count += 1;
        events += generated.events as u64;
    }
    print!("{}", coverage.table());
    let (missing, strange) = (coverage.missing(), coverage.not_permitted());
    for case in &missing {
        println!("never reached: {case}");
    }
    for case in &strange {
        println!("not permitted: {case}");
    }
    println!("compare_traces: {count} traces, {events} events, 0 differences");
    Ok(missing.is_empty() && strange.is_empty())
}

fn differs(program: &str, bytes: &[u8]) -> bool {
    child::run(program, bytes).as_deref() != Ok(trace::run(bytes).as_bytes())
}

/// Shows the shortest trace found on which the programs differ.
fn report(program: &str, bytes: &[u8]) {
    let trace = Trace::from_bytes(bytes);
    let trace = shrink_trace(trace, |trace| differs(program, &trace.to_bytes()));
    let bytes = trace.to_bytes();
    print!("{}", text::print(&trace));
    println!("-- reference:\n{}", short(&trace::run(&bytes)));
    let got = child::run(program, &bytes).map(|out| String::from_utf8_lossy(&out).into_owned());
    println!("-- first program:\n{}", short(&got.unwrap_or_else(|message| message)));
}

/// The last lines, where the difference is.
fn short(output: &str) -> String {
    let lines: Vec<&str> = output.lines().collect();
    let from = lines.len().saturating_sub(SHOWN);
    lines[from..].join("\n")
}
