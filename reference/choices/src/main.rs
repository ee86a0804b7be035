//! Times the two proved choices of the best: by picking the best remaining one, as mesh
//! maintenance does, and by comparing every pair. What is timed has 64 members, for which
//! 02 asks (order 2), and then all slots; ties are frequent. Before that both are compared with each other and with a
//! plain sort, for sets of members of every size too.

use reference::event::SLOTS;
use reference::random::Random;
use std::cmp::Reverse;
use std::hint::black_box;
use std::process::{Command, ExitCode};
use std::time::Instant;

/// How many members there are in what is timed.
const MEMBERS: [usize; 2] = [64, SLOTS];
/// How many are chosen in what is timed: D_score as in the ordinary parameters, and its limit.
const CHOSEN: [u64; 2] = [4, 48];
const CASES: usize = 200;
const ROUNDS: usize = 100;

type Numbers = [u64; SLOTS];
type Flags = [bool; SLOTS];

extern "C" {
    fn choices_by_picks(
        k: u64,
        scores: &Numbers,
        members: &Flags,
        order: &Numbers,
        kept: &mut Flags,
    );
    fn choices_by_pairs(
        k: u64,
        scores: &Numbers,
        members: &Flags,
        order: &Numbers,
        kept: &mut Flags,
    );
}

struct Case {
    scores: Numbers,
    members: Flags,
    order: Numbers,
}

#[derive(Clone, Copy)]
enum Way {
    Picks,
    Pairs,
}

impl Way {
    fn name(self) -> &'static str {
        match self {
            Way::Picks => "picks",
            Way::Pairs => "pairs",
        }
    }

    fn choose(self, k: u64, case: &Case) -> Flags {
        let mut kept = [false; SLOTS];
        let Case { scores, members, order } = case;
        // SAFETY: references to whole arrays, and `kept` overlaps none of them; every flag is 0 or 1.
        unsafe {
            match self {
                Way::Picks => choices_by_picks(k, scores, members, order, &mut kept),
                Way::Pairs => choices_by_pairs(k, scores, members, order, &mut kept),
            }
        }
        kept
    }
}

/// Scores below a bound, from all alike to hardly any, and a permutation.
fn case(random: &mut Random, members: Flags) -> Case {
    let bound = *random.pick(&[1, 2, 5, 20, SLOTS as u64, 1_000, u64::MAX]);
    let scores = std::array::from_fn(|_| random.bits() % bound);
    let mut order: Numbers = std::array::from_fn(|slot| slot as u64);
    random.shuffle(&mut order);
    Case { scores, members, order }
}

/// Cases of so many members, in any slots.
fn cases(members: usize) -> Vec<Case> {
    let mut random = Random::new(2);
    let one = |_| {
        let mut flags: Flags = std::array::from_fn(|slot| slot < members);
        random.shuffle(&mut flags);
        case(&mut random, flags)
    };
    (0..CASES).map(one).collect()
}

/// The best by sorting: higher scores first, of equals the earlier in the order.
fn sorted(k: u64, case: &Case) -> Flags {
    let mut line: Vec<usize> = case.order.iter().map(|&slot| slot as usize).collect();
    line.retain(|&slot| case.members[slot]);
    line.sort_by_key(|&slot| Reverse(case.scores[slot]));
    let mut kept = [false; SLOTS];
    line.iter().take(k as usize).for_each(|&slot| kept[slot] = true);
    kept
}

/// Both choices against the sort; how many were compared.
fn compare(timed: &[Vec<Case>]) -> usize {
    let mut random = Random::new(3);
    let fewer = |_| {
        let of = random.below(SLOTS + 1);
        let members = std::array::from_fn(|_| random.chance(of, SLOTS));
        case(&mut random, members)
    };
    let fewer: Vec<Case> = (0..CASES).map(fewer).collect();
    let mut compared = 0;
    for case in timed.iter().flatten().chain(&fewer) {
        for k in [0, 1, 4, 12, 48, 64, SLOTS as u64 - 1, SLOTS as u64, SLOTS as u64 + 1] {
            let expected = sorted(k, case);
            assert_eq!(Way::Picks.choose(k, case), expected, "by picks, {k}");
            assert_eq!(Way::Pairs.choose(k, case), expected, "by pairs, {k}");
            compared += 1;
        }
    }
    compared
}

/// Nanoseconds a choice: the mean over the cases, in the best round.
fn time(way: Way, k: u64, cases: &[Case]) -> f64 {
    let round = |_| {
        let start = Instant::now();
        for case in cases {
            black_box(way.choose(black_box(k), black_box(case)));
        }
        start.elapsed().as_nanos() as f64 / cases.len() as f64
    };
    (0..ROUNDS).map(round).fold(f64::INFINITY, f64::min)
}

/// Instructions a choice, as valgrind's callgrind counts them in this program's own run.
fn instructions(way: Way, k: u64, members: usize) -> Option<f64> {
    let name = way.name();
    let output = Command::new("valgrind")
        .args(["--tool=callgrind", "--callgrind-out-file=/dev/null"])
        .arg(format!("--toggle-collect=choices_by_{name}"))
        .arg(std::env::current_exe().ok()?)
        .args(["--only", &members.to_string(), &k.to_string(), name])
        .output()
        .ok()?;
    let text = String::from_utf8_lossy(&output.stderr).into_owned();
    let line = text.lines().find(|line| line.contains("Collected"))?;
    let all: f64 = line.rsplit(':').next()?.trim().parse().ok()?;
    Some(all / CASES as f64)
}

/// Prints what both cost; whether picks cost less at 64 members and the ordinary D_score, which 02 asks for
/// (order 2).
fn print(unit: &str, mut cost: impl FnMut(Way, u64, usize) -> Option<f64>) -> bool {
    let mut sooner = false;
    println!("the best of the members among {SLOTS} slots, {unit} a choice");
    println!("{:9}{:9}{:>9}{:>9}{:>8}", "members", "D_score", "picks", "pairs", "factor");
    for (place, members) in MEMBERS.into_iter().enumerate() {
        for k in CHOSEN {
            let costs = (cost(Way::Picks, k, place), cost(Way::Pairs, k, place));
            let (Some(picks), Some(pairs)) = costs else {
                println!("valgrind is missing on this machine");
                return true;
            };
            println!("{members:<9}{k:<9}{picks:>9.0}{pairs:>9.0}{:>8.2}", pairs / picks);
            sooner |= (members, k) == (MEMBERS[0], CHOSEN[0]) && picks < pairs;
        }
    }
    sooner
}

fn main() -> ExitCode {
    let words: Vec<String> = std::env::args().skip(1).collect();
    let sooner = match words.iter().map(String::as_str).collect::<Vec<_>>()[..] {
        ["--only", members, k, name] => {
            let number = |word: &str| word.parse().expect("a number");
            let way = if name == "picks" { Way::Picks } else { Way::Pairs };
            let cases = cases(number(members) as usize);
            cases.iter().for_each(|case| _ = black_box(way.choose(number(k), case)));
            true
        }
        ["--instructions"] => {
            compare(&MEMBERS.map(cases));
            print("instructions", |way, k, place| instructions(way, k, MEMBERS[place]))
        }
        _ => {
            let timed = MEMBERS.map(cases);
            println!("{} choices compared with a sort", compare(&timed));
            print("nanoseconds", |way, k, place| Some(time(way, k, &timed[place])))
        }
    };
    if sooner {
        ExitCode::SUCCESS
    } else {
        println!("by picks is not sooner than by pairs");
        ExitCode::FAILURE
    }
}
