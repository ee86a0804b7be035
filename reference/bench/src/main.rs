//! Times the plain router, and where HIVEPADLET_LIB names the proved library's
//! folder the proved one beside it, on one recorded load in one process. Times are
//! nanoseconds; each event's is the best of many rounds, so that the state, the
//! arguments and the answer are the same for both.

use bench::load::{load, Load, Size, SIZES};
use bench::plain;
use reference::event::{Event, CALL_NAMES, SLOTS};
use reference::router::{number, Answer, Router, ACTION_LIST};
use std::hint::black_box;
use std::time::Instant;

mod count;
mod gossip;
mod messages;
#[cfg(linked)]
mod proved;
mod saves;
mod supplier;
mod test_12;

/// How many rounds are timed where no number is given.
const ROUNDS: usize = 200;

/// A router that is timed: made anew for each round, by copying. The action list is
/// not cleared between calls.
trait Timed: Clone {
    fn call(&mut self, event: &Event, list: &mut [u32]) -> Answer;
}

impl Timed for Box<plain::Router> {
    fn call(&mut self, event: &Event, list: &mut [u32]) -> Answer {
        plain::Router::call(self, event, list)
    }
}

/// The best nanoseconds of each event.
fn best_times(filled: &impl Timed, events: &[Event], rounds: usize) -> Vec<u64> {
    let mut best = vec![u64::MAX; events.len()];
    let mut list = [0; ACTION_LIST];
    for _ in 0..rounds {
        let mut router = filled.clone();
        for (event, best) in events.iter().zip(&mut best) {
            let start = Instant::now();
            let answer = router.call(black_box(event), &mut list);
            let time = start.elapsed().as_nanos() as u64;
            black_box(&answer);
            *best = time.min(*best);
        }
    }
    best
}

/// What reading the clock twice takes at best.
fn clock_time() -> u64 {
    let once = |_| Instant::now().elapsed().as_nanos() as u64;
    (0..100_000).map(once).min().unwrap_or(0)
}

/// The router after the opening, every answer and action checked against the
/// second program's, and then those of the timed events as well.
fn filled<T: Timed>(fresh: T, load: &Load) -> T {
    let mut second = Router::new(load.params.clone()).expect("accepted parameters");
    let mut router = fresh;
    let mut check = |router: &mut T, event: &Event| {
        let (mut expected, mut got) = ([0; ACTION_LIST], [0; ACTION_LIST]);
        assert_eq!(router.call(event, &mut got), second.call(event, &mut expected), "{event:?}");
        assert_eq!(got, expected, "{event:?}");
    };
    load.opening.iter().for_each(|event| check(&mut router, event));
    let filled = router.clone();
    load.events.iter().for_each(|event| check(&mut router, event));
    filled
}

/// The mean of the best times, by kind of call.
fn means(events: &[Event], times: &[u64], clock: u64) -> Vec<f64> {
    let mean = |kind: u64| {
        let own = events.iter().zip(times).filter(|(event, _)| event.call.kind() == kind);
        let own: Vec<u64> = own.map(|(_, time)| time.saturating_sub(clock)).collect();
        own.iter().sum::<u64>() as f64 / own.len() as f64
    };
    (1..=CALL_NAMES.len() as u64).map(mean).collect()
}

/// How many events of a kind the load has, and how many are answered by 0.
fn counts(load: &Load) -> Vec<(usize, usize)> {
    let mut router = Router::new(load.params.clone()).expect("accepted parameters");
    let mut counts = vec![(0, 0); CALL_NAMES.len()];
    let mut list = [0; ACTION_LIST];
    for event in &load.opening {
        let _ = router.call(event, &mut list);
    }
    for event in &load.events {
        let (all, done) = &mut counts[event.call.kind() as usize - 1];
        *all += 1;
        *done += usize::from(number(&router.call(event, &mut list)) == 0);
    }
    counts
}

fn main() {
    let words: Vec<String> = std::env::args().skip(1).collect();
    match words.iter().map(String::as_str).collect::<Vec<_>>()[..] {
        [] => print_all_times(ROUNDS),
        ["--instructions"] => {
            count::print_instructions();
            println!();
            test_12::print_instructions();
            println!();
            messages::print_instructions();
        }
        ["--only-test-12", place, which] => test_12::only(place.parse().expect("a place"), which),
        ["--only", folder, kind, which] => {
            count::only(folder, kind.parse().expect("a kind"), which)
        }
        ["--only-message", place, which] => messages::only(place.parse().expect("a place"), which),
        [rounds] => print_all_times(rounds.parse().expect("a number of rounds")),
        _ => panic!("usage: bench [ROUNDS | --instructions]"),
    }
}

fn print_all_times(rounds: usize) {
    print_times(rounds);
    println!();
    test_12::print_times();
    println!();
    messages::print_times(rounds);
    println!();
    supplier::print_times(rounds);
    println!();
    saves::print_times(rounds);
    println!();
    gossip::print_times(rounds);
}

/// What the calls of one load take by one router: the mean by kind, and test 12 alone.
struct Times {
    calls: Vec<f64>,
    test: f64,
}

impl Times {
    fn of<T: Timed>(fresh: T, load: &Load, rounds: usize, is_valid: impl Fn(&T) -> bool) -> Times {
        let clock = clock_time();
        let router = filled(fresh, load);
        let calls = means(&load.events, &best_times(&router, &load.events, rounds), clock);
        Times { calls, test: time(|| is_valid(black_box(&router))) }
    }

    fn plain(load: &Load, rounds: usize) -> Times {
        Times::of(plain::Router::new(&load.params), load, rounds, |router| router.is_valid())
    }

    #[cfg(linked)]
    fn proved(load: &Load, rounds: usize) -> Times {
        Times::of(proved::Router::new(&load.params), load, rounds, |router| router.is_valid())
    }

    #[cfg(not(linked))]
    fn proved(_: &Load, _: usize) -> Times {
        Times { calls: vec![f64::NAN; CALL_NAMES.len()], test: f64::NAN }
    }
}

/// Both routers on one load.
struct Beside {
    plain: Times,
    proved: Times,
}

fn print_times(rounds: usize) {
    let loads = SIZES.map(load);
    let all = [0, 1, 2].map(|place: usize| Beside {
        plain: Times::plain(&loads[place], rounds),
        proved: Times::proved(&loads[place], rounds),
    });
    println!("nanoseconds a call, test 12 included, its share of the proved call beside; of {SLOTS} slots");
    let of = |size: Size| format!("{} connected, {}", size.connected, groups(size.groups));
    let sizes: String = SIZES.map(|size| format!("{:>33}", of(size))).concat();
    println!("{:20}{sizes}{:>16}{:>16}", "", "256 / 64", "groups 4 / 1");
    let head =
        format!("{:>9}{:>9}{:>7}{:>8}", "plain", "proved", "ratio", "test 12").repeat(SIZES.len());
    let grown = format!("{:>8}{:>8}", "plain", "proved").repeat(2);
    println!("{:12}{:>8}{head}{grown}", "call", "events");
    for (place, (name, (events, _))) in CALL_NAMES.iter().zip(counts(&loads[0])).enumerate() {
        let columns = |of: &Beside| {
            let (plain, proved) = (of.plain.calls[place], of.proved.calls[place]);
            let (ratio, share) = (proved / plain, 100.0 * of.proved.test / proved);
            format!("{plain:>9.0}{proved:>9.0}{ratio:>7.2}{share:>7.0}%")
        };
        let grown = |many: &Beside, few: &Beside| {
            let plain = many.plain.calls[place] / few.plain.calls[place];
            let proved = many.proved.calls[place] / few.proved.calls[place];
            format!("{plain:>8.2}{proved:>8.2}")
        };
        let [few, many, wide] = &all;
        let times = [few, many, wide].map(columns).concat();
        println!("{name:12}{events:>8}{times}{}{}", grown(many, few), grown(wide, many));
    }
    for (size, Beside { plain, proved }) in SIZES.into_iter().zip(&all) {
        let (plain, proved) = (plain.test, proved.test);
        let ratio = proved / plain;
        println!(
            "test 12 alone, {}: plain {plain:.0} ns, proved {proved:.0} ns, ratio {ratio:.2}",
            of(size)
        );
    }
}

/// So many groups, in words.
fn groups(count: usize) -> String {
    match count {
        1 => "one group".to_string(),
        _ => format!("{count} groups each"),
    }
}

/// The nanoseconds of one run of `test`, the best of many short rounds.
fn time(test: impl Fn() -> bool) -> f64 {
    times_in_turn([&test])[0]
}

/// The best of each test. They take turns, so that what slows the machine for a while slows them all.
fn times_in_turn<const N: usize>(tests: [&dyn Fn() -> bool; N]) -> [f64; N] {
    const RUNS: u32 = 100;
    let mut best = [f64::INFINITY; N];
    for _ in 0..2000 {
        for (test, best) in tests.iter().zip(&mut best) {
            let start = Instant::now();
            for _ in 0..RUNS {
                assert!(test(), "the table is a router's");
            }
            *best = best.min(start.elapsed().as_nanos() as f64 / f64::from(RUNS));
        }
    }
    best
}
