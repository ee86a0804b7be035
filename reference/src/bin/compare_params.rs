//! Compares the first program's reading of parameters with the reference:
//! `compare_params FIRST-PROGRAM [COUNT] [SEED]`.

use reference::generate::params as generate_params;
use reference::params::{self, Edition, Params};
use reference::random::Random;
use reference::{child, command};
use std::collections::{BTreeMap, BTreeSet};
use std::process::ExitCode;

const COUNT: u64 = 24_000;
const SEED: u64 = 20_261_115;

/// Answer 9 names one of 147 numbers or of eight rules; a run meets them all, in
/// both editions.
const PLACES: usize = Edition::ALL.len() * (params::COUNT + 8);

/// Longer inputs and outputs are shown by their start.
const SHOWN: usize = 2000;

fn main() -> ExitCode {
    command::run("compare_params", compare)
}

fn compare(arguments: &[String]) -> Result<bool, String> {
    let program = arguments.first().ok_or("usage: compare_params FIRST-PROGRAM [COUNT] [SEED]")?;
    let number = |place: usize, otherwise| {
        command::number(arguments, place, otherwise)
            .ok_or_else(|| format!("{} is no whole number", arguments[place]))
    };
    let (count, seed) = (number(1, COUNT)? as usize, number(2, SEED)?);
    child::check(program)?;
    println!("seed {seed}");
    let inputs = generate_params::inputs(count, &mut Random::new(seed));
    let mut kinds = BTreeMap::new();
    let mut answers = BTreeMap::new();
    let mut broken = BTreeSet::new();
    let mut second_alone = 0;
    for (place, input) in inputs.iter().enumerate() {
        let expected = params::show(&input.bytes);
        let got = child::run(program, &input.bytes);
        if got.as_deref() != Ok(expected.as_bytes()) {
            report(place, input, &expected, got);
            return Ok(false);
        }
        let edition = Edition::of(&input.bytes);
        *kinds.entry(input.kind).or_insert(0) += 1;
        let answer = format!("{}, edition {}", answer(&expected), edition.number());
        *answers.entry(answer).or_insert(0) += 1;
        if expected.starts_with("9 ") {
            broken.insert((edition, expected));
        }
        second_alone += usize::from(of_the_second_alone(&input.bytes));
    }
    print_counts("inputs", &kinds);
    print_counts("answer", &answers);
    println!("accepted in edition 2, and refused with edition 1's rule: {second_alone}");
    println!("places of answer 9 in both editions: {} of {PLACES}", broken.len());
    println!("compare_params: {} inputs, 0 differences", inputs.len());
    Ok(broken.len() == PLACES && second_alone > 0)
}

/// Parameters that are good, and would not be so as edition 1.
fn of_the_second_alone(bytes: &[u8]) -> bool {
    let read = params::read(bytes).ok();
    let as_first = |params: Params| params.in_edition(Edition::One).check();
    read.is_some_and(|(params, _)| as_first(params).is_err())
}

/// The answer's number: the first word of the output.
fn answer(output: &str) -> u32 {
    let word = output.split(' ').next().unwrap_or_default();
    word.parse().expect("the reference prints its answer first")
}

fn print_counts<K: std::fmt::Display>(what: &str, counts: &BTreeMap<K, usize>) {
    for (key, count) in counts {
        println!("{what} {key}: {count}");
    }
}

fn report(
    place: usize,
    input: &generate_params::Input,
    expected: &str,
    got: Result<Vec<u8>, String>,
) {
    let hex: String = input.bytes.iter().map(|byte| format!("{byte:02x}")).collect();
    let got = match got {
        Ok(bytes) => String::from_utf8_lossy(&bytes).into_owned(),
        Err(message) => message,
    };
    println!("input {place} ({}, {} bytes): {}", input.kind, input.bytes.len(), short(&hex));
    println!("reference: {}", short(expected));
    println!("first program: {}", short(&got));
    println!("compare_params: a difference at input {place}");
}

fn short(text: &str) -> String {
    let line = text.trim_end().replace('\n', " ");
    match line.char_indices().nth(SHOWN) {
        Some((end, _)) => format!("{} ...", &line[..end]),
        None => line,
    }
}
