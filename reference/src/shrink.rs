//! Makes a failing trace smaller, for people to read.

use crate::event::{by_slot, Call};
use crate::params::{field_at, Edition, COUNT};
use crate::text::{Line, Trace};
use crate::trace::TraceEdition;

/// A trace that still fails, with as few events, as few odd parameters and as
/// plain permutations as can be found.
pub fn shrink_trace(trace: Trace, fails: impl Fn(&Trace) -> bool) -> Trace {
    let Trace { edition, params, lines } = trace;
    let with_lines =
        |lines: &[Line]| Trace { edition, params: params.clone(), lines: lines.to_vec() };
    let lines = shrink(lines, |lines| fails(&with_lines(lines)));
    let mut trace = with_lines(&lines);
    // Twice, since a joint rule can hold one number until another is changed.
    for index in (0..COUNT).chain(0..COUNT) {
        try_change(&mut trace, &fails, |trace| {
            if let Some(params) = &mut trace.params {
                params.numbers[index] = field_at(index).ordinary;
            }
        });
    }
    try_change(&mut trace, &fails, |trace| {
        if let Some(params) = &mut trace.params {
            params.edition = Edition::One;
        }
    });
    try_change(&mut trace, &fails, |trace| trace.edition = TraceEdition::One);
    for place in 0..trace.lines.len() {
        try_change(&mut trace, &fails, |trace| plain_permutation(&mut trace.lines[place]));
    }
    trace
}

fn try_change(trace: &mut Trace, fails: impl Fn(&Trace) -> bool, change: impl Fn(&mut Trace)) {
    let mut changed = trace.clone();
    change(&mut changed);
    if changed != *trace && fails(&changed) {
        *trace = changed;
    }
}

fn plain_permutation(line: &mut Line) {
    if let Line::Event(event) = line {
        if let Call::Heartbeat { permutation, .. } = &mut event.call {
            *permutation = by_slot();
        }
    }
}

/// Drops as many items as it can while the list still fails: first long
/// stretches, then shorter ones, then single items.
pub fn shrink<T: Clone>(mut items: Vec<T>, fails: impl Fn(&[T]) -> bool) -> Vec<T> {
    let mut stretch = items.len().div_ceil(2);
    while stretch > 0 {
        let mut dropped = false;
        let mut from = 0;
        while from < items.len() {
            let to = items.len().min(from + stretch);
            let fewer = [&items[..from], &items[to..]].concat();
            if fails(&fewer) {
                items = fewer;
                dropped = true;
            } else {
                from = to;
            }
        }
        // Dropping one item can make another needless.
        if stretch > 1 || !dropped {
            stretch /= 2;
        }
    }
    items
}

#[cfg(test)]
mod tests {
    use super::shrink;

    #[test]
    fn keeps_what_is_needed() {
        let needed = [3, 50, 99];
        let fails = |items: &[i32]| needed.iter().all(|n| items.contains(n));
        assert_eq!(shrink((0..100).collect(), fails), needed);
    }
}
