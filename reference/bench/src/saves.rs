//! Times of saving 256 records and of loading them: the second program's own functions, and the proved ones
//! beside them.

use crate::supplier::best;
use bench::tables::TABLES;
use reference::router::Router;
use reference::saves::{load, LONGEST_SAVE};
use reference::set_up::SetUp;
use std::hint::black_box;

/// Of the tables these have 256 records: few numbers in them, and all as large as can be.
const PLACES: [usize; 2] = [2, 3];

#[cfg(saves)]
fn proved(rounds: usize, router: &Router, bytes: &[u8]) -> [f64; 2] {
    use hivepadlet::{packed, CELLS};
    let table = host_compare::cells::table_of(router);
    let (mut buffer, mut other) = (vec![0; LONGEST_SAVE], Box::new([0; CELLS]));
    let (time, edition) = (router.clock, u64::from(router.params.edition.number()));
    let mut result = 0;
    let saved = best(rounds, || {
        result = black_box(hivepadlet::saves::save(black_box(&table), time, &mut buffer));
    });
    assert_eq!(result, packed(0, bytes.len()), "the save is done");
    assert_eq!(buffer[..bytes.len()], *bytes, "the bytes of the second program");
    let numbers = &router.params.numbers;
    let loaded = best(rounds, || {
        let bytes = black_box(bytes);
        result = black_box(hivepadlet::saves::load(numbers, edition, time, bytes, &mut other));
    });
    assert_eq!(result, 0, "the save is loaded");
    [saved, loaded]
}

#[cfg(not(saves))]
fn proved(_: usize, _: &Router, _: &[u8]) -> [f64; 2] {
    [f64::NAN; 2]
}

pub fn print_times(rounds: usize) {
    println!("256 records saved and loaded, nanoseconds; plain is the second program, not written for speed");
    println!("{:64}{:>9}{:>9}{:>7}", "", "plain", "proved", "ratio");
    for place in PLACES {
        let router = TABLES[place].router();
        let bytes = router.saved(router.clock);
        let mut buffer = vec![0; LONGEST_SAVE];
        let saved = best(rounds, || {
            let _ = black_box(black_box(&router).save(router.clock, &mut buffer));
        });
        let loaded = best(rounds, || {
            let bytes = black_box(&bytes);
            let _ = black_box(load(&router.params, SetUp::ORDINARY, router.clock, bytes));
        });
        let [proved_save, proved_load] = proved(rounds, &router, &bytes);
        for (what, plain, proved) in [("save", saved, proved_save), ("load", loaded, proved_load)] {
            let name = format!("{what}, {}", TABLES[place].name);
            println!("{name:64}{plain:>9.0}{proved:>9.0}{:>7.2}", proved / plain);
        }
    }
}
