//! The comparison notices faults: each is set into the stand-in, and the part that is to find it does. The
//! stand-in without a fault shows no difference.

use host_compare::cells::{self, bit, set_bit, Cells, CELLS, CLOCK, CONNECTED, ID, JOINED, USED};
use host_compare::cells::{end_cell, graft_cell, group_place, member_word, mesh_cell, number_cell};
use host_compare::cells::{subscribed_word, EXPLICIT, P5_P7, P7_LANE, RETAINED, RETAIN_END};
use host_compare::cells::{STRIDE, VERSION, VERSION_HIGH};
use host_compare::counts::Counts;
use host_compare::library::{packed, Library, Numbers, Why};
use host_compare::request::Request;
use host_compare::rows::Rows;
use host_compare::stand_in::StandIn;
use host_compare::{edges, forms, made, parameters, report, runs, swept};
use reference::event::{by_slot, Call, GROUPS, LAST_TIME, OLD_SLOTS, P5_LIMIT, SLOTS};
use reference::params::{general, topic, topic_index, COUNT};
use reference::random::Random;
use reference::router::{Router, ACTION_LIST};

type CallOf = fn(&Request, &mut Cells, &mut Why, &mut [u32]) -> u64;

/// The stand-in with some functions replaced.
struct Faulty {
    call: CallOf,
    ordinary: fn(&mut Numbers),
    read: fn(&[u8], &mut Numbers, &mut u64) -> u64,
    write: fn(&Numbers, u64, &mut [u8]) -> u64,
    fresh: fn(&Numbers, u64, &mut Cells) -> u64,
    is_router: fn(&Cells) -> u32,
    turn_rows: fn(&Rows, &mut Cells) -> u64,
    turn_table: fn(&Cells, &mut Rows) -> u64,
}

impl Library for Faulty {
    fn call(&self, r: &Request, table: &mut Cells, why: &mut Why, list: &mut [u32]) -> u64 {
        (self.call)(r, table, why, list)
    }
    fn ordinary(&self, numbers: &mut Numbers) {
        (self.ordinary)(numbers)
    }
    fn read(&self, bytes: &[u8], numbers: &mut Numbers, edition: &mut u64) -> u64 {
        (self.read)(bytes, numbers, edition)
    }
    fn write(&self, numbers: &Numbers, edition: u64, buffer: &mut [u8]) -> u64 {
        (self.write)(numbers, edition, buffer)
    }
    fn fresh(&self, numbers: &Numbers, edition: u64, table: &mut Cells) -> u64 {
        (self.fresh)(numbers, edition, table)
    }
    fn is_router(&self, table: &Cells) -> u32 {
        (self.is_router)(table)
    }
    fn turn_rows(&self, rows: &Rows, table: &mut Cells) -> u64 {
        (self.turn_rows)(rows, table)
    }
    fn turn_table(&self, table: &Cells, rows: &mut Rows) -> u64 {
        (self.turn_table)(table, rows)
    }
}

const SOUND: Faulty = Faulty {
    call: |request, table, why, list| StandIn.call(request, table, why, list),
    ordinary: |numbers| StandIn.ordinary(numbers),
    read: |bytes, numbers, edition| StandIn.read(bytes, numbers, edition),
    write: |numbers, edition, buffer| StandIn.write(numbers, edition, buffer),
    fresh: |numbers, edition, table| StandIn.fresh(numbers, edition, table),
    is_router: |table| StandIn.is_router(table),
    turn_rows: |rows, table| StandIn.turn_rows(rows, table),
    turn_table: |table, rows| StandIn.turn_table(table, rows),
};

fn with_call(call: CallOf) -> Faulty {
    Faulty { call, ..SOUND }
}

/// The stand-in with the groups of each connect put right before.
macro_rules! with_groups {
    ($right:expr) => {
        with_call(|request, table, why, list| {
            let mut request = request.clone();
            if let Call::Connect { groups, .. } = &mut request.event.call {
                let right: fn(&mut Vec<u64>) = $right;
                right(groups);
            }
            StandIn.call(&request, table, why, list)
        })
    };
}

// The parts of the comparison, small.

fn run(library: &Faulty, calls: u64) -> Option<Box<runs::Failure>> {
    let mut counts = Counts::default();
    runs::compare(library, calls, 8, &mut Random::new(3), &mut counts).err()
}

fn states() -> Vec<Router> {
    let mut random = Random::new(4);
    (0..13).map(|_| made::router(&mut random)).collect()
}

fn edges_differ(library: &Faulty) -> bool {
    edges::compare(library, &states(), &mut Random::new(5), &mut Counts::default()).is_err()
}

fn tables_differ(library: &Faulty) -> bool {
    swept::compare(library, &states(), &mut Random::new(6), &mut Counts::default()).is_err()
}

fn forms_differ(library: &Faulty) -> bool {
    forms::compare(library, &states(), &mut Random::new(8), &mut Counts::default()).is_err()
}

fn parameters_differ(library: &Faulty) -> bool {
    let mut counts = Counts::default();
    parameters::compare(library, 4000, usize::MAX, &mut Random::new(7), &mut counts).is_err()
}

fn each_is_seen(faults: &[(&str, Faulty)], differs: impl Fn(&Faulty) -> bool) {
    for (name, faulty) in faults {
        assert!(differs(faulty), "not noticed: {name}");
    }
}

#[test]
fn without_a_fault_there_is_no_difference() {
    assert!(run(&SOUND, 30_000).is_none());
    assert!(!edges_differ(&SOUND));
    assert!(!tables_differ(&SOUND));
    assert!(!forms_differ(&SOUND));
    assert!(!parameters_differ(&SOUND));
}

/// The call on a table that was changed before, the change undone after.
fn with_number(
    request: &Request,
    table: &mut Cells,
    why: &mut Why,
    list: &mut [u32],
    (index, step): (usize, u64),
) -> u64 {
    let cell = number_cell(index);
    let before = table[cell];
    table[cell] += step;
    if StandIn.is_router(table) == 0 {
        table[cell] = before;
    }
    let result = StandIn.call(request, table, why, list);
    table[cell] = before;
    result
}

#[test]
fn wrong_answers_lists_and_tables_are_seen() {
    let faults: [(&str, Faulty); 18] = [
        (
            "11 in the place of 3",
            with_call(|request, table, why, list| match StandIn.call(request, table, why, list) {
                3 => 11,
                other => other,
            }),
        ),
        (
            "one action too many told",
            with_call(|request, table, why, list| {
                let result = StandIn.call(request, table, why, list);
                if result > 255 {
                    result + 256
                } else {
                    result
                }
            }),
        ),
        (
            "a refusal writes the list",
            with_call(|request, table, why, list| {
                let result = StandIn.call(request, table, why, list);
                if let (1, Some(last)) = (result, list.last_mut()) {
                    *last = 0;
                }
                result
            }),
        ),
        (
            "the list past the actions is cleared",
            with_call(|request, table, why, list| {
                let result = StandIn.call(request, table, why, list);
                if result > 255 {
                    list[3 * (result / 256) as usize..].fill(0);
                }
                result
            }),
        ),
        (
            "two actions change places",
            with_call(|request, table, why, list| {
                let result = StandIn.call(request, table, why, list);
                if result == packed(0, 2) {
                    list[..6].rotate_left(3);
                }
                result
            }),
        ),
        (
            "a refusal moves the clock",
            with_call(|request, table, why, list| {
                let result = StandIn.call(request, table, why, list);
                if result == 3 {
                    table[CLOCK] = request.event.now;
                }
                result
            }),
        ),
        (
            "an ignored call leaves the clock",
            with_call(|request, table, why, list| {
                let clock = table[CLOCK];
                let result = StandIn.call(request, table, why, list);
                if result == 11 {
                    table[CLOCK] = clock;
                }
                result
            }),
        ),
        (
            "one backoff end of one slot stands",
            with_call(|request, table, why, list| {
                let cell = end_cell(40, 0);
                let before = table[cell];
                let result = StandIn.call(request, table, why, list);
                if bit(table, CONNECTED, 40) && table[USED] > 41 {
                    table[cell] = before;
                }
                result
            }),
        ),
        (
            "a list of one number less is taken",
            with_call(|request, table, why, list| {
                if list.len() != ACTION_LIST - 1 {
                    return StandIn.call(request, table, why, list);
                }
                let mut longer = [0; ACTION_LIST];
                longer[..list.len()].copy_from_slice(list);
                let result = StandIn.call(request, table, why, &mut longer);
                list.copy_from_slice(&longer[..ACTION_LIST - 1]);
                result
            }),
        ),
        (
            "a permutation is read by its first 256 numbers",
            with_call(|request, table, why, list| {
                let mut event = request.event.clone();
                if let Call::Heartbeat { permutation, .. } = &mut event.call {
                    if let Some(slots) = request.permutation(&permutation.clone()).get(..SLOTS) {
                        permutation.copy_from_slice(slots);
                    }
                }
                StandIn.call(&Request::plain(event), table, why, list)
            }),
        ),
        (
            "an old permutation is taken, the others by slot",
            with_call(|request, table, why, list| {
                let mut event = request.event.clone();
                if let Call::Heartbeat { permutation, .. } = &mut event.call {
                    let given = request.permutation(permutation).to_vec();
                    if given.len() == OLD_SLOTS {
                        *permutation = by_slot();
                        permutation[..OLD_SLOTS].copy_from_slice(&given);
                    }
                }
                StandIn.call(&Request::plain(event), table, why, list)
            }),
        ),
        ("a fifth group is cut off", with_groups!(|groups| groups.truncate(GROUPS))),
        ("groups are sorted", with_groups!(|groups| groups.sort_unstable())),
        ("groups that repeat are taken once", with_groups!(|groups| groups.dedup())),
        (
            "no group is the group 0",
            with_groups!(|groups| {
                if groups.is_empty() {
                    groups.push(0);
                }
            }),
        ),
        (
            "the slots past the old ones are not given",
            with_call(|request, table, why, list| {
                let before = *table;
                let result = StandIn.call(request, table, why, list);
                let is_taken = |table: &Cells| bit(table, CONNECTED, OLD_SLOTS);
                if !is_taken(&before) && is_taken(table) {
                    *table = before;
                    return 5;
                }
                result
            }),
        ),
        (
            "a protocol name is read by its first 14 bytes",
            with_call(|request, table, why, list| {
                let mut request = request.clone();
                if let Call::Connect { name, .. } = &mut request.event.call {
                    name.truncate(14);
                }
                StandIn.call(&request, table, why, list)
            }),
        ),
        (
            "D_hi is one more",
            with_call(|request, table, why, list| {
                with_number(request, table, why, list, (general::D_HI, 1))
            }),
        ),
    ];
    each_is_seen(&faults, |faulty| run(faulty, 60_000).is_some());
}

/// Whether a call gave a score.
fn is_scored(request: &Request, result: u64) -> bool {
    result == 0 && matches!(request.event.call, Call::Score { .. })
}

/// The stand-in with the numbers of each score changed.
macro_rules! with_score {
    ($change:expr) => {
        with_call(|request, table, why, list| {
            let result = StandIn.call(request, table, why, list);
            if is_scored(request, result) {
                let change: fn(&mut Why) = $change;
                change(why);
            }
            result
        })
    };
}

#[test]
fn wrong_scores_are_seen() {
    let faults = [
        (
            "a refused score writes a number",
            with_call(|request, table, why, list| {
                let result = StandIn.call(request, table, why, list);
                if result == 3 {
                    why[4] = 0;
                }
                result
            }),
        ),
        (
            "another call than the score writes its numbers",
            with_call(|request, table, why, list| {
                let result = StandIn.call(request, table, why, list);
                if matches!(request.event.call, Call::Decay) {
                    why[0] = 0;
                }
                result
            }),
        ),
        (
            "the score is told without its parts",
            with_call(|request, table, why, list| {
                let before = *why;
                let result = StandIn.call(request, table, why, list);
                why[..5].copy_from_slice(&before[..5]);
                result
            }),
        ),
        (
            "P6 counts the first group alone",
            with_call(|request, table, why, list| {
                let mut other = *table;
                each_group(&mut other, |group, place| *group *= u64::from(place == 0));
                let result = StandIn.call(request, table, &mut [0; 6], list);
                if is_scored(request, result) {
                    StandIn.call(request, &mut other, why, list);
                }
                result
            }),
        ),
        (
            "P6 counts retained peers",
            with_call(|request, table, why, list| {
                let mut other = *table;
                each_slot(&mut other, |t, slot| {
                    if bit(t, RETAINED, slot) {
                        set_bit(t, RETAINED, slot, false);
                        set_bit(t, CONNECTED, slot, true);
                        t[RETAIN_END + slot] = 0;
                    }
                });
                let result = StandIn.call(request, table, &mut [0; 6], list);
                if is_scored(request, result) {
                    StandIn.call(request, &mut other, why, list);
                }
                result
            }),
        ),
        (
            "a negative score is one off",
            with_score!(|why| {
                if why[5] < 0 {
                    why[5] += 1;
                }
            }),
        ),
        ("the parts are turned round", with_score!(|why| why[..5].reverse())),
        ("the totals before and after the cap change places", with_score!(|why| why.swap(0, 1))),
        ("P5 and P6 change places", with_score!(|why| why.swap(2, 3))),
        ("P6 and P7 change places", with_score!(|why| why.swap(3, 4))),
        ("the total is told after its cap both times", with_score!(|why| why[0] = why[1])),
        (
            "the score is the sum with the total before its cap",
            with_score!(|why| why[5] += why[0] - why[1]),
        ),
    ];
    each_is_seen(&faults, |faulty| run(faulty, 60_000).is_some());
}

/// The call on a table in which a topic's backoff ends are changed before, by the time; those that the call
/// leaves as they are become the old ones again.
fn with_ends(
    (request, topic): (&Request, u64),
    table: &mut Cells,
    why: &mut Why,
    list: &mut [u32],
    other: fn(u64, u64) -> u64,
) -> u64 {
    let before = *table;
    let mut changed = *table;
    let end_of = |slot: usize| end_cell(slot, (topic % 8) as usize);
    for slot in (0..SLOTS).filter(|&slot| bit(&before, CONNECTED, slot)) {
        let cell = end_of(slot);
        changed[cell] = other(before[cell], request.event.now);
    }
    if StandIn.is_router(&changed) == 0 {
        return StandIn.call(request, table, why, list);
    }
    *table = changed;
    let result = StandIn.call(request, table, why, list);
    for cell in (0..SLOTS).map(end_of) {
        if table[cell] == changed[cell] {
            table[cell] = before[cell];
        }
    }
    result
}

/// The stand-in whose heartbeats, or incoming GRAFTs, see other backoff ends.
macro_rules! with_ends_in {
    ($call:ident, $other:expr) => {
        with_call(|request, table, why, list| match request.event.call {
            Call::$call { topic, .. } => with_ends((request, topic), table, why, list, $other),
            _ => StandIn.call(request, table, why, list),
        })
    };
}

/// Order 3's wait after a backoff, in milliseconds.
const SLACK: u64 = 1000;

fn in_slack(end: u64, now: u64) -> bool {
    end > 0 && (end..end + SLACK).contains(&now)
}

#[test]
fn a_wrong_wait_after_a_backoff_is_seen() {
    let faults = [
        (
            "our own GRAFT does not wait",
            with_ends_in!(Heartbeat, |end, now| if in_slack(end, now) { 0 } else { end }),
        ),
        (
            "our own GRAFT waits a millisecond too long",
            with_ends_in!(Heartbeat, |end, now| end + u64::from(end > 0 && now == end + SLACK)),
        ),
        (
            "our own GRAFT waits a millisecond too short",
            with_ends_in!(Heartbeat, |end, now| {
                if end > 0 && now == end + SLACK - 1 {
                    0
                } else {
                    end
                }
            }),
        ),
        (
            "our own GRAFT waits in the first second",
            with_ends_in!(Heartbeat, |end, now| if now < SLACK { end.max(1) } else { end }),
        ),
        (
            "an end under 1000 counts as none",
            with_ends_in!(Heartbeat, |end, now| if end < SLACK && end <= now { 0 } else { end }),
        ),
        (
            "an incoming GRAFT waits as our own",
            with_ends_in!(Graft, |end, now| if in_slack(end, now) { end + SLACK } else { end }),
        ),
    ];
    each_is_seen(&faults, |faulty| run(faulty, 200_000).is_some());
}

#[test]
fn numbers_taken_for_others_are_seen() {
    let faults = [
        (
            "a topic is read by eight bits",
            with_call(|request, table, why, list| {
                let mut request = request.clone();
                if let Call::Join { topic } = &mut request.event.call {
                    *topic %= 256;
                }
                StandIn.call(&request, table, why, list)
            }),
        ),
        (
            "an id is read by 32 bits",
            with_call(|request, table, why, list| {
                let mut request = request.clone();
                if let Call::Disconnect { id } = &mut request.event.call {
                    *id %= 1 << 32;
                }
                StandIn.call(&request, table, why, list)
            }),
        ),
        (
            "seconds are read by 32 bits",
            with_call(|request, table, why, list| {
                let mut request = request.clone();
                if let Call::Prune { seconds, .. } = &mut request.event.call {
                    *seconds %= 1 << 32;
                }
                StandIn.call(&request, table, why, list)
            }),
        ),
        (
            "a P5 one past its range is the last in it",
            with_call(|request, table, why, list| {
                let mut request = request.clone();
                if let Call::SetP5 { value, .. } = &mut request.event.call {
                    if *value == P5_LIMIT + 1 {
                        *value = P5_LIMIT;
                    }
                }
                StandIn.call(&request, table, why, list)
            }),
        ),
        (
            "a short list is told before a number out of its range",
            with_call(|request, table, why, list| match StandIn.call(request, table, why, list) {
                2 if list.len() < ACTION_LIST => 8,
                other => other,
            }),
        ),
    ];
    each_is_seen(&faults, edges_differ);
}

// A test 12 that does not see something: it takes the table for one that was put right before.

fn blind(right: fn(&mut Cells), table: &mut Cells) -> bool {
    let mut better = *table;
    right(&mut better);
    let taken = StandIn.is_router(table) == 0 && StandIn.is_router(&better) == 1;
    if taken {
        *table = better;
    }
    taken
}

macro_rules! blind_to {
    ($right:expr) => {
        Faulty {
            call: |request, table, why, list| {
                blind($right, table);
                StandIn.call(request, table, why, list)
            },
            is_router: |table| {
                let mut table = *table;
                blind($right, &mut table);
                StandIn.is_router(&table)
            },
            ..SOUND
        }
    };
}

fn each_slot(table: &mut Cells, change: impl Fn(&mut Cells, usize)) {
    for slot in 0..SLOTS {
        change(table, slot);
    }
}

/// Each group's cell, with its place among the groups of its record.
fn each_group(table: &mut Cells, change: impl Fn(&mut u64, usize)) {
    each_slot(table, |t, slot| {
        for place in 0..GROUPS {
            change(&mut t[group_place(slot, place)], place);
        }
    });
}

/// The groups' cells of each record.
fn each_row(table: &mut Cells, change: impl Fn(&mut [u64; GROUPS])) {
    each_slot(table, |t, slot| {
        let mut row = std::array::from_fn(|place| t[group_place(slot, place)]);
        change(&mut row);
        for (place, group) in row.into_iter().enumerate() {
            t[group_place(slot, place)] = group;
        }
    });
}

fn is_empty(table: &Cells, slot: usize) -> bool {
    !bit(table, CONNECTED, slot) && !bit(table, RETAINED, slot)
}

fn each_record(table: &mut Cells, change: impl Fn(&mut Cells, usize, usize)) {
    for place in 0..8 * SLOTS {
        change(table, place / 8, place % 8);
    }
}

#[test]
fn a_test_12_that_misses_something_is_seen() {
    let faults = [
        ("the clock", blind_to!(|table| table[CLOCK] = table[CLOCK].min(LAST_TIME))),
        (
            "joined flags",
            blind_to!(|table| table[JOINED..JOINED + 8].iter_mut().for_each(|f| *f = (*f).min(1))),
        ),
        (
            "the last parameter",
            blind_to!(|table| {
                let cell = number_cell(COUNT - 1);
                table[cell] = table[cell].min(999);
            }),
        ),
        (
            "the seventh joint rule",
            blind_to!(|table| {
                for k in 0..8 {
                    let cell = number_cell(topic_index(k, topic::P3_CAP));
                    let threshold = number_cell(topic_index(k, topic::P3_THRESHOLD));
                    table[cell] = table[cell].max(table[threshold]);
                }
            }),
        ),
        (
            "groups past 32 bits",
            blind_to!(|table| each_group(table, |group, _| *group %= (1 << 32) + 1)),
        ),
        (
            "groups of empty records",
            blind_to!(|table| each_slot(table, |t, slot| {
                if is_empty(t, slot) {
                    (0..GROUPS).for_each(|place| t[group_place(slot, place)] = 0);
                }
            })),
        ),
        (
            "the order of groups",
            blind_to!(|table| each_row(table, |row| {
                let count = row.iter().take_while(|&&group| group != 0).count();
                row[..count].sort_unstable();
            })),
        ),
        (
            "a group that stands twice",
            blind_to!(|table| each_row(table, |row| {
                let mut groups: Vec<u64> =
                    row.iter().copied().filter(|&group| group != 0).collect();
                groups.dedup();
                row[..groups.len()].copy_from_slice(&groups);
                row[groups.len()..].fill(0);
            })),
        ),
        (
            "a record without groups",
            blind_to!(|table| each_slot(table, |t, slot| {
                let none = (0..GROUPS).all(|place| t[group_place(slot, place)] == 0);
                if !is_empty(t, slot) && none {
                    t[group_place(slot, 0)] = 1;
                }
            })),
        ),
        (
            "connected and retained at once",
            blind_to!(|table| each_slot(table, |t, slot| {
                if bit(t, CONNECTED, slot) {
                    set_bit(t, RETAINED, slot, false);
                }
            })),
        ),
        ("the version's higher bit", blind_to!(|table| table[VERSION_HIGH..ID].fill(0))),
        (
            "both bits of a version",
            blind_to!(|table| each_slot(table, |t, slot| {
                if bit(t, VERSION, slot) {
                    set_bit(t, VERSION_HIGH, slot, false);
                }
            })),
        ),
        ("bits past the mark", blind_to!(clear_past_mark)),
        (
            "bits past the mark, of the last topic's members",
            blind_to!(|table| {
                let mark = table[USED].min(SLOTS as u64) as usize;
                (mark..SLOTS).for_each(|slot| set_bit(table, member_word(7), slot, false));
            }),
        ),
        (
            "retain ends of connected records",
            blind_to!(|table| each_slot(table, |t, slot| {
                if bit(t, CONNECTED, slot) {
                    t[RETAIN_END + slot] = 0;
                }
            })),
        ),
        (
            "ids that stand twice",
            blind_to!(|table| each_slot(table, |t, slot| {
                let ids = t[ID..ID + slot].to_vec();
                if t[ID + slot] != 0 && ids.contains(&t[ID + slot]) {
                    t[ID + slot] = 1_000_000 + slot as u64;
                }
            })),
        ),
        (
            "members that are not subscribed",
            blind_to!(|table| each_record(table, |t, slot, k| {
                if bit(t, member_word(k), slot) {
                    set_bit(t, subscribed_word(k), slot, true);
                }
            })),
        ),
        (
            "explicit members",
            blind_to!(|table| each_record(table, |t, slot, k| {
                if bit(t, member_word(k), slot) {
                    set_bit(t, EXPLICIT, slot, false);
                }
            })),
        ),
        (
            "P7 above P5",
            blind_to!(|table| each_slot(table, |t, slot| {
                let (p5, p7) = (t[P5_P7 + slot] % P7_LANE, t[P5_P7 + slot] / P7_LANE);
                t[P5_P7 + slot] = p5 + p7.min(1_000_000) * P7_LANE;
            })),
        ),
        (
            "sums of graft and mesh time that do not fit",
            blind_to!(|table| each_record(table, |t, slot, k| {
                let (graft, mesh) = (graft_cell(slot, k), mesh_cell(slot, k));
                if t[graft].checked_add(t[mesh]).is_none() {
                    t[graft] = 0;
                    t[mesh] = 0;
                }
            })),
        ),
        (
            "the slots past the old ones",
            blind_to!(|table| {
                table[USED] = table[USED].min(OLD_SLOTS as u64);
                clear_past_mark(table);
            }),
        ),
        ("the last slot's last mesh time", blind_to!(|table| table[mesh_cell(SLOTS - 1, 7)] = 0)),
    ];
    each_is_seen(&faults, tables_differ);
}

/// No slot from the mark on has a bit.
fn clear_past_mark(table: &mut Cells) {
    let mark = table[USED].min(SLOTS as u64) as usize;
    let words = (CONNECTED..ID).chain(cells::SUBSCRIBED..cells::COUNTERS).step_by(cells::WORD);
    for word in words {
        (mark..SLOTS).for_each(|slot| set_bit(table, word, slot, false));
    }
}

/// The stand-in with a test 12 that also asks for something else.
macro_rules! strict {
    ($holds:expr) => {
        Faulty {
            call: |request, table, why, list| {
                let holds: fn(&Cells) -> bool = $holds;
                if !holds(table) {
                    return 12;
                }
                StandIn.call(request, table, why, list)
            },
            is_router: |table| {
                let holds: fn(&Cells) -> bool = $holds;
                u32::from(holds(table)) & StandIn.is_router(table)
            },
            ..SOUND
        }
    };
}

fn is_zero_past_mark(table: &Cells, column: usize) -> bool {
    let mark = table[USED].min(SLOTS as u64) as usize;
    table[column + mark..column + SLOTS].iter().all(|&cell| cell == 0)
}

#[test]
fn a_library_that_reads_more_than_the_state_is_seen() {
    let faults = [
        ("a mark above the slots", strict!(|table| table[USED] <= SLOTS as u64)),
        ("ids past the mark", strict!(|table| is_zero_past_mark(table, ID))),
        ("retain ends past the mark", strict!(|table| is_zero_past_mark(table, RETAIN_END))),
        ("counters past the mark", strict!(|table| is_zero_past_mark(table, cells::COUNTERS))),
        (
            "graft times of non-members",
            strict!(|table| (0..SLOTS).all(|slot| {
                bit(table, member_word(3), slot) || table[graft_cell(slot, 3)] == 0
            })),
        ),
        (
            "mesh times of non-members",
            strict!(|table| (0..SLOTS).all(|slot| {
                bit(table, member_word(0), slot) || table[mesh_cell(slot, 0)] <= table[CLOCK]
            })),
        ),
        ("a kept cell", strict!(|table| table[cells::PARAMETERS - 1] == 0)),
        ("a cell between columns", strict!(|table| table[ID + STRIDE - 1] == 0)),
        ("the last cell", strict!(|table| table[CELLS - 1] == 0)),
        (
            "a connect finds an id past the mark",
            with_call(|request, table, why, list| {
                if let Call::Connect { id, .. } = request.event.call {
                    let mark = table[USED].min(SLOTS as u64) as usize;
                    if StandIn.is_router(table) == 1 && table[ID + mark..ID + SLOTS].contains(&id) {
                        return 4;
                    }
                }
                StandIn.call(request, table, why, list)
            }),
        ),
    ];
    each_is_seen(&faults, tables_differ);
}

#[test]
fn wrong_marks_and_stale_cells_are_seen() {
    let faults = [
        (
            "the mark does not rise",
            with_call(|request, table, why, list| {
                let mark = table[USED];
                let result = StandIn.call(request, table, why, list);
                table[USED] = mark;
                result
            }),
        ),
        (
            "the mark falls with the last record",
            with_call(|request, table, why, list| {
                let result = StandIn.call(request, table, why, list);
                if let (0, Some(router)) = (result % 256, cells::router_of(table)) {
                    table[USED] = cells::records_end(&router) as u64;
                }
                result
            }),
        ),
        (
            "a member's mesh time is what stood there",
            with_call(|request, table, why, list| {
                let before = *table;
                let result = StandIn.call(request, table, why, list);
                each_record(table, |t, slot, k| {
                    if bit(t, member_word(k), slot) && !bit(&before, member_word(k), slot) {
                        t[mesh_cell(slot, k)] = before[mesh_cell(slot, k)];
                    }
                });
                result
            }),
        ),
        (
            "a record taken keeps a backoff end that stood past the mark",
            with_call(|request, table, why, list| {
                let before = *table;
                let result = StandIn.call(request, table, why, list);
                if table[USED] > before[USED] {
                    let cell = end_cell(before[USED] as usize, 7);
                    table[cell] = before[cell];
                }
                result
            }),
        ),
    ];
    each_is_seen(&faults, |faulty| run(faulty, 60_000).is_some());
}

#[test]
fn wrong_turns_are_seen() {
    let faults = [
        (
            "damaged rows are taken",
            Faulty {
                turn_rows: |rows, table| match StandIn.turn_rows(rows, table) {
                    12 => 0,
                    other => other,
                },
                ..SOUND
            },
        ),
        (
            "refused rows clear the table",
            Faulty {
                turn_rows: |rows, table| {
                    let result = StandIn.turn_rows(rows, table);
                    if result == 12 {
                        table[ID] = 0;
                    }
                    result
                },
                ..SOUND
            },
        ),
        (
            "a refused table writes a row",
            Faulty {
                turn_table: |table, rows| {
                    let result = StandIn.turn_table(table, rows);
                    if result == 12 {
                        rows[0] = 0;
                    }
                    result
                },
                ..SOUND
            },
        ),
        (
            "the mark is that of before",
            Faulty {
                turn_rows: |rows, table| {
                    let mark = table[USED];
                    let result = StandIn.turn_rows(rows, table);
                    table[USED] = mark.min(12);
                    result
                },
                ..SOUND
            },
        ),
        (
            "a parameter loses its sign",
            Faulty {
                turn_table: |table, rows| {
                    let result = StandIn.turn_table(table, rows);
                    if result == 0 {
                        let code = &mut rows[host_compare::rows::CODES + general::W7];
                        *code += *code % 2;
                    }
                    result
                },
                ..SOUND
            },
        ),
        (
            "the last row is not written",
            Faulty {
                turn_table: |table, rows| {
                    let last = host_compare::rows::ROWS - 1;
                    let before = rows[last];
                    let result = StandIn.turn_table(table, rows);
                    rows[last] = before;
                    result
                },
                ..SOUND
            },
        ),
    ];
    each_is_seen(&faults, forms_differ);
}

#[test]
fn a_test_12_that_refuses_too_much_is_seen() {
    let strict: Faulty = Faulty {
        call: |request, table, why, list| {
            if table[CLOCK] == LAST_TIME {
                return 12;
            }
            StandIn.call(request, table, why, list)
        },
        ..SOUND
    };
    assert!(run(&strict, 60_000).is_some());
}

#[test]
fn wrong_refusals_of_damaged_tables_are_seen() {
    let faults = [
        (
            "2 is told before 12",
            with_call(|request, table, why, list| {
                if request.event.now > LAST_TIME {
                    return 2;
                }
                StandIn.call(request, table, why, list)
            }),
        ),
        (
            "8 is told before 12",
            with_call(|request, table, why, list| {
                if list.len() < ACTION_LIST {
                    return 8;
                }
                StandIn.call(request, table, why, list)
            }),
        ),
        (
            "12 changes the table",
            with_call(|request, table, why, list| {
                let result = StandIn.call(request, table, why, list);
                if result == 12 {
                    table[CELLS - 1] ^= 1;
                }
                result
            }),
        ),
        (
            "12 changes the list",
            with_call(|request, table, why, list| {
                let result = StandIn.call(request, table, why, list);
                if result == 12 && !list.is_empty() {
                    list[0] ^= 1;
                }
                result
            }),
        ),
        ("is_router always says so", Faulty { is_router: |_| 1, ..SOUND }),
        ("is_router never says so", Faulty { is_router: |_| 0, ..SOUND }),
        ("is_router says another number", Faulty { is_router: |_| 2, ..SOUND }),
    ];
    each_is_seen(&faults, tables_differ);
}

#[test]
fn wrong_parameters_are_seen() {
    let faults = [
        (
            "the ordinary ones",
            Faulty {
                ordinary: |numbers| {
                    StandIn.ordinary(numbers);
                    numbers[COUNT - 1] -= 1;
                },
                ..SOUND
            },
        ),
        (
            "a place is one off",
            Faulty {
                read: |bytes, numbers, edition| match StandIn.read(bytes, numbers, edition) {
                    result if result % 256 == 10 => result + 256,
                    result => result,
                },
                ..SOUND
            },
        ),
        (
            "refused numbers are given all the same",
            Faulty {
                read: |bytes, numbers, edition| {
                    let result = StandIn.read(bytes, numbers, edition);
                    if result % 256 == 9 {
                        numbers[0] = 0;
                    }
                    result
                },
                ..SOUND
            },
        ),
        (
            "a buffer of 734 bytes is taken",
            Faulty {
                write: |numbers, edition, buffer| {
                    let mut longer = [0; 735];
                    let length = buffer.len();
                    if length != 734 {
                        return StandIn.write(numbers, edition, buffer);
                    }
                    let result = StandIn.write(numbers, edition, &mut longer);
                    buffer.copy_from_slice(&longer[..length]);
                    result
                },
                ..SOUND
            },
        ),
        (
            "bytes past what is written are cleared",
            Faulty {
                write: |numbers, edition, buffer| {
                    let result = StandIn.write(numbers, edition, buffer);
                    if result % 256 == 0 {
                        buffer[(result / 256) as usize..].fill(0);
                    }
                    result
                },
                ..SOUND
            },
        ),
        (
            "refused parameters are written",
            Faulty {
                write: |numbers, edition, buffer| {
                    let result = StandIn.write(numbers, edition, buffer);
                    if result % 256 == 9 {
                        buffer[0] ^= 1;
                    }
                    result
                },
                ..SOUND
            },
        ),
        (
            "the edition that was read is not told",
            Faulty { read: |bytes, numbers, _| StandIn.read(bytes, numbers, &mut 0), ..SOUND },
        ),
        (
            "edition 2 is written as edition 1",
            Faulty { write: |numbers, _, buffer| StandIn.write(numbers, 1, buffer), ..SOUND },
        ),
        (
            "edition 1 has the rule of edition 2",
            Faulty {
                fresh: |numbers, edition, table| {
                    let result = StandIn.fresh(numbers, edition.max(2), table);
                    if result == 0 {
                        table[cells::EDITION] = edition;
                    }
                    result
                },
                ..SOUND
            },
        ),
        (
            "there is an edition 0",
            Faulty {
                fresh: |numbers, edition, table| StandIn.fresh(numbers, edition.max(1), table),
                ..SOUND
            },
        ),
        (
            "a fresh table keeps a cell",
            Faulty {
                fresh: |numbers, edition, table| {
                    let before = table[member_word(7)];
                    let result = StandIn.fresh(numbers, edition, table);
                    table[member_word(7)] = before;
                    result
                },
                ..SOUND
            },
        ),
        (
            "a fresh table keeps its mark",
            Faulty {
                fresh: |numbers, edition, table| {
                    let before = table[USED];
                    let result = StandIn.fresh(numbers, edition, table);
                    table[USED] = before;
                    result
                },
                ..SOUND
            },
        ),
        (
            "refused parameters clear the table",
            Faulty {
                fresh: |numbers, edition, table| {
                    let result = StandIn.fresh(numbers, edition, table);
                    if result != 0 {
                        *table = [0; CELLS];
                    }
                    result
                },
                ..SOUND
            },
        ),
    ];
    each_is_seen(&faults, parameters_differ);
}

#[test]
fn a_difference_is_told_by_few_calls() {
    // A peer's P7 grows by 1001.
    let faulty = with_call(|request, table, why, list| {
        let before = *table;
        let result = StandIn.call(request, table, why, list);
        let p7 = |table: &Cells, slot: usize| cells::live(table, slot, P5_P7 + slot) / P7_LANE;
        for slot in 0..SLOTS {
            if p7(table, slot) > p7(&before, slot) {
                table[P5_P7 + slot] += P7_LANE;
            }
        }
        result
    });
    let failure = run(&faulty, 60_000).expect("the fault is noticed");
    let told = report::of_run(&faulty, &failure);
    let words = "library P5 code 0, P7 1001, second program P5 code 0, P7 1000";
    assert!(told.contains(words), "{told}");
    let shortest = told.split("the shortest list").nth(1).expect("a shorter list is told");
    let calls = shortest.lines().filter(|line| line.contains("time=")).count();
    // Connect, join, PRUNE and GRAFT would do; the shrinking may stop a little before.
    assert!((1..=10).contains(&calls) && calls < failure.run.requests.len(), "{told}");
}
