//! Times of importing and exporting the other supplier's parameters, the ordinary ones: the second program's
//! own functions, and the proved ones beside them.

use reference::params::Params;
use reference::supplier::{export, import, write, LENGTH};
use std::hint::black_box;
use std::time::Instant;

/// Nanoseconds of the best round.
pub fn best(rounds: usize, mut work: impl FnMut()) -> f64 {
    let one = |_| {
        let start = Instant::now();
        work();
        start.elapsed().as_secs_f64() * 1e9
    };
    (0..rounds).map(one).fold(f64::INFINITY, f64::min)
}

#[cfg(linked)]
fn proved(rounds: usize, sheet: &[u8], params: &Params) -> [f64; 2] {
    let (mut numbers, mut buffer) = ([0; hivepadlet::NUMBERS], [0; LENGTH]);
    let imported = best(rounds, || {
        black_box(hivepadlet::supplier::import(black_box(sheet), &mut numbers));
    });
    assert_eq!(numbers, params.numbers, "the numbers that were exported");
    let exported = best(rounds, || {
        black_box(hivepadlet::supplier::export(black_box(&numbers), &mut buffer));
    });
    assert_eq!(buffer[..], *sheet, "the bytes that were imported");
    [imported, exported]
}

#[cfg(not(linked))]
fn proved(_: usize, _: &[u8], _: &Params) -> [f64; 2] {
    [f64::NAN; 2]
}

pub fn print_times(rounds: usize) {
    let params = Params::ordinary();
    let sheet = export(&params).expect("the ordinary parameters are exported");
    let mut buffer = [0; LENGTH];
    let imported = best(rounds, || {
        let _ = black_box(import(black_box(&sheet)));
    });
    let exported = best(rounds, || {
        let _ = black_box(write(black_box(&params), &mut buffer));
    });
    let [proved_import, proved_export] = proved(rounds, &sheet, &params);
    println!("the other supplier's parameters, nanoseconds; plain searches factors one by one");
    println!("{:42}{:>9}{:>9}{:>7}", "", "plain", "proved", "ratio");
    for (name, plain, proved) in
        [("import", imported, proved_import), ("export", exported, proved_export)]
    {
        println!("{name:42}{plain:>9.0}{proved:>9.0}{:>7.2}", proved / plain);
    }
}
