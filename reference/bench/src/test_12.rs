//! Test 12 by itself, on tables from a fresh router's to the one that has most to be looked at: the plain
//! router's, and the proved library's beside it.

use crate::count::{collected, print_missing};
use crate::time;
use bench::converted::plain_of;
use bench::plain;
use bench::tables::TABLES;
use std::hint::black_box;

#[cfg(linked)]
use crate::proved;

/// So many tests are counted.
const RUNS: usize = 100;

/// A test of the plain router that is counted.
#[no_mangle]
#[inline(never)]
fn tested_plain(router: &plain::Router) -> bool {
    black_box(router).is_valid()
}

/// A test of the proved library that is counted.
#[cfg(linked)]
#[no_mangle]
#[inline(never)]
fn tested_proved(router: &proved::Router) -> bool {
    black_box(router).is_valid()
}

fn run(mut test: impl FnMut() -> bool) {
    for _ in 0..RUNS {
        assert!(test(), "the table is a router's");
    }
}

/// What callgrind runs.
pub fn only(place: usize, which: &str) {
    let router = TABLES[place].router();
    match which {
        "plain" => {
            let router = plain_of(&router);
            run(|| tested_plain(&router));
        }
        #[cfg(linked)]
        "proved" => {
            let router = proved::Router::of(&router);
            run(|| tested_proved(&router));
        }
        _ => panic!("plain or proved"),
    }
}

pub fn print_times() {
    println!("test 12 alone, nanoseconds");
    println!("{:58}{:>9}{:>9}{:>7}", "table", "plain", "proved", "ratio");
    for table in &TABLES {
        let router = table.router();
        let plain = plain_of(&router);
        let plain = time(|| black_box(&plain).is_valid());
        #[cfg(linked)]
        let proved = {
            let router = proved::Router::of(&router);
            time(|| black_box(&router).is_valid())
        };
        #[cfg(not(linked))]
        let proved = f64::NAN;
        println!("{:58}{plain:>9.0}{proved:>9.0}{:>7.2}", table.name, proved / plain);
    }
}

pub fn print_instructions() {
    println!("test 12 alone, plain and proved");
    println!(
        "{:58}{:>25}{:>16}{:>12}{:>12}",
        "table", "instructions, ratio", "branches", "wrong", "misses"
    );
    for (place, table) in TABLES.iter().enumerate() {
        let place = place.to_string();
        let of = |which: &str| {
            collected(&["--only-test-12", &place, which], &format!("tested_{which}"), RUNS)
        };
        let (Some(plain), Some(proved)) = (of("plain"), of("proved")) else {
            return print_missing();
        };
        println!("{:58}{}", table.name, plain.beside(&proved));
    }
}
