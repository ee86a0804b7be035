//! Demand 3 can be made no narrower: `tightness FIRST-PROGRAM [TRACES]`. Lists of
//! calls, the traces of the folder TRACES, are run in both programs. The meshes are
//! counted from outside, by the calls and the lines printed. They reach D_hi + 2
//! inbound members, and each alternative of the demand without the other. One more
//! list needs the joint rule D_score + D_out ≤ D of edition 1: both programs refuse
//! it, and the second one, with the rule waived, breaks the demand. In edition 2 that
//! list is taken: one of the best goes, and the demand is kept.

use reference::params::{general, Edition, FIRST_RULE, SCORE_RULE};
use reference::router::Router;
use reference::text::{self, Line, Trace};
use reference::watch::{self, Left, Watch};
use reference::{child, trace};
use std::process::ExitCode;

const USAGE: &str = "usage: tightness FIRST-PROGRAM [TRACES]";
const TRACES: &str = "traces";

/// What a list shows, said as it was reached, or why it was not.
type Shown = Result<String, String>;
type Shows = fn(&Watch) -> Shown;

/// A trace that both programs accept, and what it shows.
const LISTS: [(&str, Shows); 4] = [
    ("inbound_crowd", most_inbound),
    ("few_outbound", few_outbound),
    ("small_pool", small_pool),
    ("over_d_hi", not_the_whole_pool),
];

/// A trace whose parameters break the joint rule on D_score.
const WITHOUT_RULE: &str = "without_joint_rule";
const REFUSED: &str = "9 204\n";

/// A trace of edition 2, which edition 1's rule would refuse.
const SECOND_EDITION: &str = "keep_five_of_six";

fn main() -> ExitCode {
    let arguments: Vec<String> = std::env::args().skip(1).collect();
    let words: Vec<&str> = arguments.iter().map(String::as_str).collect();
    let (program, folder) = match words[..] {
        [program] => (program, TRACES),
        [program, folder] => (program, folder),
        _ => {
            eprintln!("{USAGE}");
            return ExitCode::from(2);
        }
    };
    let accepted =
        LISTS.iter().map(|(name, shows)| (*name, accepted(program, folder, name, *shows)));
    let of_editions = [
        (WITHOUT_RULE, without_rule(program, folder)),
        (SECOND_EDITION, second_edition(program, folder)),
        (WITHOUT_RULE, without_rule_in_edition_2(program, folder)),
    ];
    let (mut passed, mut failed) = (0, 0);
    for (name, shown) in accepted.chain(of_editions) {
        match shown {
            Ok(text) => {
                println!("{name}: {text}");
                passed += 1;
            }
            Err(text) => {
                println!("{name}: not shown: {text}");
                failed += 1;
            }
        }
    }
    println!("{passed} passed, {failed} failed");
    if failed == 0 {
        ExitCode::SUCCESS
    } else {
        ExitCode::FAILURE
    }
}

/// A list in both programs, which print the same and keep demand 3.
fn accepted(program: &str, folder: &str, name: &str, shows: Shows) -> Shown {
    kept(program, &read(folder, name)?, shows)
}

fn kept(program: &str, trace: &Trace, shows: Shows) -> Shown {
    let trace = watch::with_scores(trace);
    let printed = printed_by_both(program, &trace)?;
    let watch = watch::follow(&trace, &printed)?;
    watch.demand_3()?;
    shows(&watch).map(|text| format!("in both programs, {text}"))
}

fn read(folder: &str, name: &str) -> Result<Trace, String> {
    let path = format!("{folder}/{name}.txt");
    let text = std::fs::read_to_string(&path).map_err(|error| format!("{path}: {error}"))?;
    text::parse(&text).map_err(|error| format!("{path}, line {}: {}", error.line, error.message))
}

fn printed_by_both(program: &str, trace: &Trace) -> Shown {
    let bytes = trace.to_bytes();
    let second = trace::run(&bytes);
    let first = child::run(program, &bytes)?;
    if first == second.as_bytes() {
        Ok(second)
    } else {
        Err("the programs print different lines".to_string())
    }
}

/// The first heartbeat that left what is looked for.
fn find(watch: &Watch, wanted: impl Fn(&Left) -> bool) -> Result<&Left, String> {
    watch.heartbeats.iter().find(|left| wanted(left)).ok_or("no heartbeat left it so".to_string())
}

fn most_inbound(watch: &Watch) -> Shown {
    let most = watch.general(general::D_HI) + 2;
    let text = format!("inbound members {} (D_hi + 2 is {most})", watch.most_inbound);
    if watch.most_inbound == most {
        Ok(text)
    } else {
        Err(text)
    }
}

/// "At least D_out outbound peers" does not hold, "every outbound one in the pool" does.
fn few_outbound(watch: &Watch) -> Shown {
    let d_out = watch.general(general::D_OUT);
    let left = find(watch, |left| left.outbound < d_out && left.pool_outbound_outside == 0)?;
    Ok(outbound_text(left, d_out))
}

/// "At least D_lo peers" does not hold, "the whole pool" does.
fn small_pool(watch: &Watch) -> Shown {
    let d_lo = watch.general(general::D_LO);
    let left = find(watch, |left| left.members < d_lo && left.pool_outside == 0)?;
    Ok(members_text(left, d_lo))
}

/// The numbers are reached while some of the pool is outside of the mesh.
fn not_the_whole_pool(watch: &Watch) -> Shown {
    let (d_lo, d_out) = (watch.general(general::D_LO), watch.general(general::D_OUT));
    let left = find(watch, |left| {
        let outbound = left.outbound >= d_out && left.pool_outbound_outside > 0;
        outbound && left.members >= d_lo && left.pool_outside > 0
    })?;
    Ok(format!("{}; {}", outbound_text(left, d_out), members_text(left, d_lo)))
}

fn outbound_text(left: &Left, d_out: usize) -> String {
    let Left { outbound, pool_outbound, pool_outbound_outside, .. } = left;
    format!(
        "outbound members {outbound} (D_out {d_out}), outbound in the pool {pool_outbound}, \
         of these outside the mesh {pool_outbound_outside}"
    )
}

fn members_text(left: &Left, d_lo: usize) -> String {
    let Left { members, pool, pool_outside, .. } = left;
    format!("members {members} (D_lo {d_lo}), in the pool {pool}, of these outside {pool_outside}")
}

/// The list that both programs refuse, on a second program without the rule.
fn without_rule(program: &str, folder: &str) -> Shown {
    let trace = watch::with_scores(&read(folder, WITHOUT_RULE)?);
    if printed_by_both(program, &trace)? != REFUSED {
        return Err("the parameters are not refused by the joint rule".to_string());
    }
    let params = trace.params.clone().ok_or("the trace has no parameters")?;
    if let Some(place) = params.first_broken_but(Some(SCORE_RULE)) {
        return Err(format!("more is broken than the one rule: {place}"));
    }
    let mut router = Router::unchecked(params);
    router.waived_rule = Some(SCORE_RULE);
    let bytes = |line: &Line| line.to_bytes(trace.edition);
    let events: Vec<u8> = trace.lines.iter().flat_map(bytes).collect();
    let watch = watch::follow(&trace, &trace::run_events(trace.edition, router, &events))?;
    let d_out = watch.general(general::D_OUT);
    let left = find(&watch, |left| left.outbound < d_out && left.pool_outbound_outside > 0)?;
    match watch.demand_3() {
        Ok(()) => Err("demand 3 is kept".to_string()),
        Err(_) => Ok(format!("refused by both; without the rule, {}", outbound_text(left, d_out))),
    }
}

/// A heartbeat that cut a mesh to D, with D_out outbound members: so many that some of
/// the best went.
fn quota_from_the_best(watch: &Watch) -> Shown {
    let [d, d_out, d_score] =
        [general::D, general::D_OUT, general::D_SCORE].map(|place| watch.general(place));
    if d_score + d_out <= d {
        return Err("the best leave room for the quota".to_string());
    }
    let left =
        find(watch, |left| left.members == d && left.outbound == d_out && left.pool_outside > 0)?;
    Ok(format!("D {d}, D_score {d_score}; {}", outbound_text(left, d_out)))
}

/// A list that edition 1 refuses by its rule on D_score, and edition 2 takes.
fn second_edition(program: &str, folder: &str) -> Shown {
    let trace = read(folder, SECOND_EDITION)?;
    let params = trace.params.clone().ok_or("the trace has no parameters")?;
    let as_first = params.in_edition(Edition::One).first_broken();
    if as_first != Some(FIRST_RULE + SCORE_RULE) {
        return Err("edition 1 would not refuse the parameters by its rule".to_string());
    }
    kept(program, &trace, quota_from_the_best)
}

/// The calls that break the demand without the rule, as edition 2.
fn without_rule_in_edition_2(program: &str, folder: &str) -> Shown {
    let mut trace = read(folder, WITHOUT_RULE)?;
    trace.params = trace.params.map(|params| params.in_edition(Edition::Two));
    let shown = kept(program, &trace, quota_from_the_best)?;
    Ok(format!("as edition 2, {shown}"))
}
