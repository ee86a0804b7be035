//! Order 8 checked on random input: loads against the answers that the makers of the saves
//! know, and what holds of every save.

use crate::coverage::gossip::{GossipCoverage, LOAD, SAVE};
use crate::event::{Call, Event, LAST_TIME};
use crate::generate::damage::Damage;
use crate::generate::gossip::set_up;
use crate::generate::{saves as made, traces};
use crate::params::{general, Refusal};
use crate::random::Random;
use crate::router::{number, Peer, Router, Status, ACTION_LIST};
use crate::saves::load;
use crate::set_up::{SetUp, LIMITS};

/// The cases of saves and loads that every run reaches.
pub fn wanted() -> Vec<String> {
    let mut wanted: Vec<String> = SAVES.iter().map(|case| format!("save: {case}")).collect();
    wanted.extend(LOADS.iter().map(|case| format!("load: {case}")));
    wanted.extend(made::bad_kinds().iter().map(|kind| format!("load: {kind}")));
    wanted
}

/// What a save can meet; the last is said of the buffer.
pub const SAVES: [&str; 11] = [
    "no record",
    "over 64 records",
    "a connected peer",
    "a retained peer",
    "a connected peer left out",
    "a retained peer left out",
    "the retain period over, a backoff running",
    "a backoff over",
    "a backoff running",
    "after the clock",
    "a buffer as long as the save",
];

const LOADS: [&str; 7] = [
    "good",
    "of edition 1",
    "of edition 2",
    "set-up numbers",
    "parameters",
    "a clock too late",
    "all of them broken",
];

fn ensure(holds: bool, otherwise: impl Fn() -> String) -> Result<(), String> {
    if holds {
        Ok(())
    } else {
        Err(otherwise())
    }
}

/// Loads a save, good or bad, with good or bad arguments.
pub fn check_load(random: &mut Random, coverage: &mut GossipCoverage) -> Result<(), String> {
    let mut params = traces::params(random);
    let mut numbers = set_up(random);
    let good = random.chance(1, 3);
    let input = if good { made::good(&params, random) } else { made::bad(&params, random) };
    let mut clock = made::clock(random);
    let mut expected = input.refusal;
    let mut kind = input.kind.clone();
    if random.chance(1, 8) {
        let which = random.below(4);
        // In the order of the tests, the last to be tested first.
        if matches!(which, 0 | 3) {
            clock = *random.pick(&[LAST_TIME + 1, u64::MAX]);
            (expected, kind) = (Some((2, 0)), "a clock too late".to_string());
        }
        if matches!(which, 1 | 3) {
            params.numbers[general::D_OUT] = 25;
            (expected, kind) = (Some((9, general::D_OUT)), "parameters".to_string());
        }
        if matches!(which, 2 | 3) {
            numbers = bad_set_up(numbers, random);
            (expected, kind) = (Some((2, 0)), "set-up numbers".to_string());
        }
        if which == 3 {
            kind = "all of them broken".to_string();
        }
    }
    let loaded = load(&params, numbers, clock, &input.bytes);
    let refusal = loaded.as_ref().err().map(|&Refusal { number, place }| (number, place));
    coverage.count_answer(LOAD, refusal.map_or(0, |(number, _)| number));
    coverage.count_case(&format!("load: {kind}"));
    ensure(refusal == expected, || {
        format!("{kind}: {refusal:?} and not {expected:?} of {:02x?}", input.bytes)
    })?;
    match loaded {
        Ok(router) => check_loaded(&router, &input.bytes, coverage),
        Err(_) => Ok(()),
    }
}

fn bad_set_up(good: SetUp, random: &mut Random) -> SetUp {
    let mut numbers = good.numbers();
    let place = random.below(numbers.len());
    numbers[place] = LIMITS[place].2 + 1;
    SetUp::of_numbers(numbers)
}

/// "Saving what was loaded, at the load's time, gives the same bytes if no record was
/// reclaimable then"; of edition 1 those of edition 2.
fn check_loaded(
    router: &Router,
    bytes: &[u8],
    coverage: &mut GossipCoverage,
) -> Result<(), String> {
    coverage.count_case(&format!("load: of edition {}", bytes[0]));
    ensure(router.is_valid(), || "a load gave tables that are no router's".to_string())?;
    if router.reclaimable_slots(router.clock).is_empty() {
        let again = router.saved(router.clock);
        let same = again[0] == 2 && again[1..] == bytes[1..];
        ensure(same, || format!("saved again as {again:02x?}, not {bytes:02x?}"))?;
    }
    Ok(())
}

/// Saves a router, with all that may be refused, and checks what holds of a good save.
pub fn check_save(
    router: &Router,
    random: &mut Random,
    coverage: &mut GossipCoverage,
) -> Result<(), String> {
    let mut router = router.clone();
    let broken =
        random.chance(1, 8) && random.pick(&Damage::ALL).put_in(&mut router, random).is_some();
    let clock = router.clock;
    let later = (clock + random.below(100_000) as u64).min(LAST_TIME);
    let early = clock.saturating_sub(1);
    let now = *random.pick(&[clock, later, later, later, early, LAST_TIME + 1]);
    let length = if broken { 0 } else { router.saved(now).len() };
    let room = *random.pick(&[length, length + 5, length.saturating_sub(1), 0]);
    let expected = match () {
        () if broken => 12,
        () if now > LAST_TIME => 2,
        () if now < clock => 1,
        () if room < length => 13,
        () => 0,
    };
    let mut buffer = vec![0x55; room];
    let before = router.clone();
    let answer = router.save(now, &mut buffer);
    coverage.count_answer(SAVE, number(&answer));
    ensure(number(&answer) == expected && router == before, || {
        format!("a save was answered {answer:?} and not {expected}")
    })?;
    let written = answer.unwrap_or(0);
    let past = buffer[written..].iter().all(|&byte| byte == 0x55);
    ensure(past, || "a save changed bytes past it".to_string())?;
    if expected == 0 {
        if room == length {
            coverage.count_case("save: a buffer as long as the save");
        }
        count_save(&router, now, coverage);
        check_saved(&router, now, &buffer[..written], random)?;
    }
    Ok(())
}

/// The records of a router as they would be disconnected at a time, the reclaimable ones left
/// out.
fn parted(router: &Router, now: u64) -> Result<Vec<Peer>, String> {
    let mut router = router.clone();
    let connected = |peer: &&Peer| peer.status == Status::Connected;
    let ids: Vec<u32> = router.peers.iter().filter(connected).map(|peer| peer.id).collect();
    for id in ids {
        let call = Call::Disconnect { id: u64::from(id) };
        let answer = router.call(&Event { now, call }, &mut [0; ACTION_LIST]);
        ensure(answer.is_ok(), || format!("a disconnect of {id} was answered {answer:?}"))?;
    }
    let stays = |peer: &Peer| peer.status == Status::Retained && !peer.is_reclaimable(now);
    let mut records = router.peers;
    records.retain(stays);
    records.sort_by_key(|peer| peer.id);
    Ok(records)
}

/// "Every save loads with its sheet", with the records that disconnects would have left.
pub fn check_saved(
    router: &Router,
    now: u64,
    bytes: &[u8],
    random: &mut Random,
) -> Result<(), String> {
    let clock = made::clock(random);
    let loaded = load(&router.params, router.set_up, clock, bytes);
    let loaded = loaded.map_err(|refusal| format!("a save was refused by {refusal:?}"))?;
    ensure(loaded.saved(clock) == bytes, || "saved again, it is another save".to_string())?;
    let records = parted(router, now)?;
    let held = loaded.peers.iter().filter(|peer| peer.status != Status::Empty).count();
    ensure(held == records.len(), || format!("{held} records and not {}", records.len()))?;
    for (record, peer) in records.iter().zip(&loaded.peers) {
        ensure(*peer == moved(record, now, clock), || format!("{record:?} became {peer:?}"))?;
    }
    Ok(())
}

/// A record as a load gives it back.
fn moved(record: &Peer, now: u64, clock: u64) -> Peer {
    let mut peer = Peer {
        status: Status::Retained,
        id: record.id,
        groups: [Some(0), None, None, None],
        p5: record.p5,
        p7: record.p7,
        retain_end: clock + record.retain_end.saturating_sub(now),
        topics: record.topics.clone(),
        ..Peer::default()
    };
    for (end, &old) in peer.backoff_ends.iter_mut().zip(&record.backoff_ends) {
        *end = if old > now { clock + (old - now) } else { 0 };
    }
    peer
}

fn count_save(router: &Router, now: u64, coverage: &mut GossipCoverage) {
    for case in save_cases(router, now) {
        coverage.count_case(&format!("save: {case}"));
    }
}

/// The cases, but for those of the buffer, that the save of a moment is one of.
pub fn save_cases(router: &Router, now: u64) -> Vec<&'static str> {
    let Ok(written) = parted(router, now) else { return Vec::new() };
    let is_written = |peer: &Peer| written.iter().any(|other| other.id == peer.id);
    let any = |holds: &dyn Fn(&Peer) -> bool| router.peers.iter().any(holds);
    let connected = |peer: &Peer| peer.status == Status::Connected;
    let retained = |peer: &Peer| peer.status == Status::Retained;
    let ends = || written.iter().flat_map(|peer| peer.backoff_ends);
    let facts = [
        written.is_empty(),
        written.len() > 64,
        any(&|peer| connected(peer) && is_written(peer)),
        any(&|peer| retained(peer) && is_written(peer)),
        any(&|peer| connected(peer) && !is_written(peer)),
        any(&|peer| retained(peer) && !is_written(peer)),
        any(&|peer| retained(peer) && is_written(peer) && peer.retain_end <= now),
        ends().any(|end| end != 0 && end <= now),
        ends().any(|end| end > now),
        now > router.clock,
    ];
    SAVES.into_iter().zip(facts).filter(|(_, holds)| *holds).map(|(case, _)| case).collect()
}
