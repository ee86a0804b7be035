//! The comparison of IDONTWANT, IHAVE and IWANT notices faults: each is set into the stand-in. Without a fault
//! it shows no difference and reaches all that it should.

use hivepadlet::gossip::*;
use host_compare::cells::{Cells, CELLS};
use host_compare::gossip::library::{Both, Gossiping, Loading};
use host_compare::gossip::reached::Reached;
use host_compare::gossip::request::NewRequest;
use host_compare::gossip::{report, runs, starts};
use host_compare::library::{number, Library, Numbers, Why};
use host_compare::request::Request;
use host_compare::rows::Rows;
use host_compare::stand_in::StandIn;
use reference::event::{Call, SLOTS};
use reference::gossip::GossipCall;
use reference::params::TOPICS;
use reference::random::Random;

type OldCall = fn(&Request, Both, &mut [u32]) -> u64;
type NewCall = fn(&NewRequest, Both, &mut [u32], &mut [u64]) -> u64;

/// The stand-in with some functions replaced.
struct Faulty {
    old: OldCall,
    new: NewCall,
    ordinary: fn(&mut SetUp),
    fresh: fn(&Numbers, u64, &SetUp, Both) -> u64,
    load: fn(&Numbers, u64, &SetUp, &Loading, Both) -> u64,
    is_router: fn(&Cells, &Gossip) -> u32,
}

const SOUND: Faulty = Faulty {
    old: |request, both, list| StandIn.old_call(request, both, list),
    new: |request, both, list, numbers| StandIn.new_call(request, both, list, numbers),
    ordinary: |setup| StandIn.ordinary_setup(setup),
    fresh: |numbers, edition, setup, both| StandIn.gossip_fresh(numbers, edition, setup, both),
    load: |numbers, edition, setup, loading, both| {
        StandIn.gossip_load(numbers, edition, setup, loading, both)
    },
    is_router: |table, gossip| StandIn.gossip_is_router(table, gossip),
};

/// Of the functions on a table alone only the calls are asked for.
impl Library for Faulty {
    fn call(&self, request: &Request, table: &mut Cells, why: &mut Why, list: &mut [u32]) -> u64 {
        StandIn.call(request, table, why, list)
    }
    fn ordinary(&self, _: &mut Numbers) {
        unreachable!()
    }
    fn read(&self, _: &[u8], _: &mut Numbers, _: &mut u64) -> u64 {
        unreachable!()
    }
    fn write(&self, _: &Numbers, _: u64, _: &mut [u8]) -> u64 {
        unreachable!()
    }
    fn fresh(&self, _: &Numbers, _: u64, _: &mut Cells) -> u64 {
        unreachable!()
    }
    fn is_router(&self, _: &Cells) -> u32 {
        unreachable!()
    }
    fn turn_rows(&self, _: &Rows, _: &mut Cells) -> u64 {
        unreachable!()
    }
    fn turn_table(&self, _: &Cells, _: &mut Rows) -> u64 {
        unreachable!()
    }
}

impl Gossiping for Faulty {
    fn old_call(&self, request: &Request, both: Both, list: &mut [u32]) -> u64 {
        (self.old)(request, both, list)
    }
    fn new_call(&self, r: &NewRequest, both: Both, list: &mut [u32], numbers: &mut [u64]) -> u64 {
        (self.new)(r, both, list, numbers)
    }
    fn ordinary_setup(&self, setup: &mut SetUp) {
        (self.ordinary)(setup)
    }
    fn gossip_fresh(&self, numbers: &Numbers, edition: u64, setup: &SetUp, both: Both) -> u64 {
        (self.fresh)(numbers, edition, setup, both)
    }
    fn gossip_load(
        &self,
        numbers: &Numbers,
        edition: u64,
        setup: &SetUp,
        loading: &Loading,
        both: Both,
    ) -> u64 {
        (self.load)(numbers, edition, setup, loading, both)
    }
    fn gossip_is_router(&self, table: &Cells, gossip: &Gossip) -> u32 {
        (self.is_router)(table, gossip)
    }
}

fn copied(gossip: &Gossip) -> Box<Gossip> {
    gossip.to_vec().try_into().expect("an array has its cells")
}

#[test]
fn without_a_fault_there_is_no_difference() {
    let (mut random, mut reached) = (Random::new(3), Reached::default());
    assert!(starts::compare(&SOUND, 1000, &mut random, &mut reached).is_ok());
    if let Err(failure) = runs::compare(&SOUND, 50, 500, &mut random, &mut reached) {
        panic!("{}", report::of_list(&SOUND, &failure));
    }
    assert_eq!(reached.missing(), Vec::<String>::new());
    assert_eq!(reached.not_permitted(), Vec::<String>::new());
}

fn differs(library: &Faulty) -> bool {
    let (mut random, mut reached) = (Random::new(4), Reached::default());
    starts::compare(library, 200, &mut random, &mut reached).is_err()
        || runs::compare(library, 30, 500, &mut random, &mut reached).is_err()
}

fn all_differ(faults: &[(&str, Faulty)]) {
    for (name, faulty) in faults {
        assert!(differs(faulty), "{name}");
    }
}

/// The stand-in with the call changed that it is asked to make.
macro_rules! asked {
    ($change:expr) => {
        Faulty {
            new: |request, both, list, numbers| {
                let change: fn(&mut GossipCall) = $change;
                let mut request = request.clone();
                change(&mut request.event.call);
                StandIn.new_call(&request, both, list, numbers)
            },
            ..SOUND
        }
    };
}

#[test]
fn wrong_arguments_are_seen() {
    all_differ(&[
        (
            "an ask goes to the sender too",
            asked!(|call| {
                if let GossipCall::Ask { sender, .. } = call {
                    *sender = 0;
                }
            }),
        ),
        (
            "a message is relayed to its sender",
            asked!(|call| {
                if let GossipCall::Relay { sender, .. } = call {
                    *sender = 0;
                }
            }),
        ),
        (
            "a notice loses the higher bits of its number",
            asked!(|call| {
                if let GossipCall::Notice { number, .. } = call {
                    *number &= 0xffff_ffff;
                }
            }),
        ),
        (
            "targets are taken by slot",
            asked!(|call| {
                if let GossipCall::Announce { permutation, .. } = call {
                    permutation.sort_unstable();
                }
            }),
        ),
        (
            "an IHAVE ends at 191 numbers",
            asked!(|call| {
                if let GossipCall::IHave { numbers, .. } = call {
                    numbers.truncate(191);
                }
            }),
        ),
    ]);
}

/// The stand-in with a cell of the array another one during the new calls.
macro_rules! with_cell {
    ($cell:expr, $value:expr) => {
        Faulty {
            new: |request, both, list, numbers| {
                let Both { table, gossip } = both;
                let old = gossip[$cell];
                let value: fn(u64) -> u64 = $value;
                // A damaged array is left as it is.
                if StandIn.gossip_is_router(table, gossip) == 1 {
                    gossip[$cell] = value(old);
                }
                let result = StandIn.new_call(request, Both { table, gossip }, list, numbers);
                gossip[$cell] = old;
                result
            },
            ..SOUND
        }
    };
}

#[test]
fn wrong_set_up_numbers_are_seen() {
    all_differ(&[
        ("one notice more", with_cell!(0, |limit| (limit + 1).min(32))),
        ("a larger D_lazy", with_cell!(1, |lazy| (lazy + 1).min(48))),
        ("a smaller factor", with_cell!(2, |factor| factor.saturating_sub(1))),
        ("one IHAVE more", with_cell!(3, |bound| (bound + 1).min(32))),
        ("one reply more", with_cell!(4, |bound| (bound + 1).min(32))),
        (
            "the ordinary ones are others",
            Faulty { ordinary: |setup| *setup = [10, 6, 25, 10, 3], ..SOUND },
        ),
    ]);
}

/// The stand-in with the array changed after each new call of a kind that is done.
macro_rules! after_new {
    ($call:pat, $change:expr) => {
        Faulty {
            new: |request, both, list, numbers| {
                let Both { table, gossip } = both;
                let before = copied(gossip);
                let result = StandIn.new_call(request, Both { table, gossip }, list, numbers);
                let change: fn(&Gossip, &mut Gossip) = $change;
                if result % 256 == 0 && matches!(request.event.call, $call) {
                    change(&before, gossip);
                }
                result
            },
            ..SOUND
        }
    };
}

#[test]
fn wrong_heartbeats_are_seen() {
    all_differ(&[
        (
            "the counts of IHAVEs stay",
            after_new!(GossipCall::Beat, |before, gossip| {
                for slot in 0..SLOTS {
                    let ihaves = before[counts_cell(slot)] / IHAVES_LANE % IHAVES_LANE;
                    gossip[counts_cell(slot)] += ihaves * IHAVES_LANE;
                }
            }),
        ),
        (
            "ages stand",
            after_new!(GossipCall::Beat, |_, gossip| {
                for slot in 0..SLOTS {
                    gossip[ages_cell(slot)] = 0;
                }
            }),
        ),
        (
            "a sixth heartbeat is kept in place of the fifth",
            after_new!(GossipCall::Beat, |before, gossip| {
                for topic in 0..TOPICS {
                    let last = numbers_cell(topic, HEARTBEATS - 1);
                    let cells = last..last + WINDOW_NUMBERS;
                    gossip[cells.clone()].copy_from_slice(&before[cells]);
                    let window = window_cell(topic, HEARTBEATS - 1);
                    gossip[window] = before[window];
                }
            }),
        ),
        (
            "all replies are forgotten",
            after_new!(GossipCall::Beat, |_, gossip| gossip[REPLIES] = 0),
        ),
        (
            "a row too many is kept",
            after_new!(GossipCall::Beat, |before, gossip| {
                if before[REPLIES] > gossip[REPLIES] {
                    gossip[REPLIES] += 1;
                }
            }),
        ),
    ]);
}

#[test]
fn wrong_changes_are_seen() {
    all_differ(&[
        (
            "a number is stored at the front",
            after_new!(GossipCall::Store { .. }, |before, gossip| {
                for topic in 0..TOPICS {
                    let (cell, from) = (window_cell(topic, 0), numbers_cell(topic, 0));
                    let count = gossip[cell] as usize;
                    if before[cell] < gossip[cell] {
                        gossip[from..from + count].rotate_right(1);
                    }
                }
            }),
        ),
        (
            "a set is kept by arrival",
            after_new!(GossipCall::Notice { .. }, |before, gossip| {
                for slot in 0..SLOTS {
                    let (old, new) = (before[counts_cell(slot)], gossip[counts_cell(slot)]);
                    let length = (new / LENGTH_LANE) as usize;
                    if old < new && length > 1 {
                        gossip[set_cell(slot)..][..length].rotate_left(1);
                    }
                }
            }),
        ),
        (
            "a reply is counted to the next slot",
            after_new!(GossipCall::IWant { .. }, |before, gossip| {
                let rows = gossip[REPLIES] as usize;
                let cells = row_cell(0)..row_cell(rows);
                let changed = cells.clone().find(|&cell| before[cell] != gossip[cell]);
                if let (Some(cell), true) = (changed, before[REPLIES] == rows as u64) {
                    gossip[cell] = before[cell] + ((gossip[cell] - before[cell]) << LANE_BITS);
                }
            }),
        ),
        (
            "an IHAVE is not counted",
            after_new!(GossipCall::IHave { .. }, |before, gossip| gossip.copy_from_slice(before)),
        ),
    ]);
}

/// The stand-in with the array changed after each old call of a kind that is done.
macro_rules! after_old {
    ($call:pat, $change:expr) => {
        Faulty {
            old: |request, both, list| {
                let Both { table, gossip } = both;
                let before = copied(gossip);
                let result = StandIn.old_call(request, Both { table, gossip }, list);
                let change: fn(&Gossip, &mut Gossip) = $change;
                if result % 256 == 0 && matches!(request.event.call, $call) {
                    change(&before, gossip);
                }
                result
            },
            ..SOUND
        }
    };
}

#[test]
fn wrong_old_calls_are_seen() {
    all_differ(&[
        (
            "a leave keeps the store",
            after_old!(Call::Leave { .. }, |before, gossip| gossip.copy_from_slice(before)),
        ),
        (
            "a leave keeps the rows of replies",
            after_old!(Call::Leave { .. }, |before, gossip| {
                gossip[REPLIES..].copy_from_slice(&before[REPLIES..]);
            }),
        ),
        (
            "a disconnect keeps the replies",
            after_old!(Call::Disconnect { .. }, |before, gossip| {
                gossip[REPLIES..].copy_from_slice(&before[REPLIES..]);
            }),
        ),
        (
            "a disconnect clears the counts",
            after_old!(Call::Disconnect { .. }, |before, gossip| {
                for slot in 0..SLOTS {
                    if before[counts_cell(slot)] / LENGTH_LANE > 0 {
                        gossip[counts_cell(slot)] &= LENGTH_LANE - 1;
                        gossip[counts_cell(slot)] /= 2;
                    }
                }
            }),
        ),
        (
            "a connect keeps the counts of a record that goes",
            after_old!(Call::Connect { .. }, |before, gossip| {
                for slot in 0..SLOTS {
                    gossip[counts_cell(slot)] |= before[counts_cell(slot)];
                }
            }),
        ),
    ]);
}

/// The stand-in with the lent lists and the array changed after a new call with an answer.
macro_rules! leaving {
    ($answer:expr, $change:expr) => {
        Faulty {
            new: |request, both, list, numbers| {
                let Both { table, gossip } = both;
                let result = StandIn.new_call(request, Both { table, gossip }, list, numbers);
                let change: fn(u64, &mut Gossip, &mut [u32], &mut [u64]) = $change;
                if number(result) == $answer {
                    change(result, gossip, list, numbers);
                }
                result
            },
            ..SOUND
        }
    };
}

#[test]
fn writes_where_none_may_be_are_seen() {
    all_differ(&[
        (
            "an ignored call touches a hint",
            leaving!(11, |_, gossip, _, _| gossip[row_cell(0) + HINT] += 1),
        ),
        ("a refused call touches the head", leaving!(3, |_, gossip, _, _| gossip[7] ^= 1)),
        ("13 touches a number", leaving!(13, |_, gossip, _, _| gossip[numbers_cell(0, 0)] ^= 1)),
        (
            "a number past the list of numbers",
            leaving!(0, |result, _, _, list| {
                if let Some(next) = list.get_mut(numbers(result)) {
                    *next = !*next;
                }
            }),
        ),
        (
            "an action past the list",
            leaving!(0, |result, _, list, _| {
                if let Some(next) = list.get_mut(3 * actions(result)) {
                    *next = !*next;
                }
            }),
        ),
        (
            "IHAVE is announced newest first",
            leaving!(0, |result, _, _, list| list[..numbers(result)].reverse()),
        ),
        (
            "a third number is not 0",
            leaving!(0, |result, _, list, _| {
                if actions(result) > 0 {
                    list[2] = 1;
                }
            }),
        ),
    ]);
}

/// Test 12 of an array with a part of it mended first.
macro_rules! blind {
    ($mend:expr) => {
        Faulty {
            is_router: |table, gossip| {
                let mend: fn(&mut Gossip) = $mend;
                let mut mended = copied(gossip);
                mend(&mut mended);
                StandIn.gossip_is_router(table, &mended)
            },
            ..SOUND
        }
    };
}

#[test]
fn what_test_12_does_not_look_at_is_seen() {
    all_differ(&[
        ("a set-up number", blind!(|gossip| gossip[3] = gossip[3].clamp(1, 32))),
        ("ages", blind!(|gossip| (0..SLOTS).for_each(|slot| gossip[ages_cell(slot)] = 0))),
        (
            "the length of a set",
            blind!(|gossip| {
                for slot in 0..SLOTS {
                    let counts = &mut gossip[counts_cell(slot)];
                    *counts = (*counts % (33 * LENGTH_LANE)).min(*counts);
                }
            }),
        ),
        (
            "the order of a set",
            blind!(|gossip| {
                for slot in 0..SLOTS {
                    let length = (gossip[counts_cell(slot)] / LENGTH_LANE).min(32) as usize;
                    gossip[set_cell(slot)..][..length].sort_unstable();
                }
            }),
        ),
        (
            "the count of a heartbeat",
            blind!(|gossip| {
                for topic in 0..TOPICS {
                    for heartbeat in 0..HEARTBEATS {
                        let count = &mut gossip[window_cell(topic, heartbeat)];
                        *count = (*count).min(64);
                    }
                }
            }),
        ),
        ("the count of rows", blind!(|gossip| gossip[REPLIES] = gossip[REPLIES].min(1))),
        (
            "a count of replies",
            blind!(|gossip| {
                if gossip[REPLIES] > 0 {
                    gossip[reply_cell(0, 0)..row_cell(1)].fill(0);
                }
            }),
        ),
    ]);
    // And what it looks at though no state reads it.
    all_differ(&[
        (
            "a hint",
            blind!(|gossip| gossip[0] += u64::from(gossip[row_cell(0) + HINT] == u64::MAX) << 9),
        ),
        ("the head", blind!(|gossip| gossip[0] += u64::from(gossip[6] == 0) << 9)),
    ]);
}

const ORDINARY: SetUp = [10, 6, 250, 10, 3];

#[test]
fn wrong_starts_are_seen() {
    all_differ(&[
        (
            "set-up numbers are tested after the sheet",
            Faulty {
                fresh: |numbers, edition, setup, both| {
                    let (mut table, mut gossip) = (Box::new([0; CELLS]), copied(both.gossip));
                    let beside = Both { table: &mut table, gossip: &mut gossip };
                    match StandIn.gossip_fresh(numbers, edition, &ORDINARY, beside) {
                        0 => StandIn.gossip_fresh(numbers, edition, setup, both),
                        refused => refused,
                    }
                },
                ..SOUND
            },
        ),
        (
            "a load has the ordinary set-up numbers",
            Faulty {
                load: |numbers, edition, setup, loading, both| {
                    let Both { table, gossip } = both;
                    let beside = Both { table, gossip };
                    let result = StandIn.gossip_load(numbers, edition, setup, loading, beside);
                    if result == 0 {
                        gossip[..SETUP_NUMBERS].copy_from_slice(&ORDINARY);
                    }
                    result
                },
                ..SOUND
            },
        ),
        (
            "a refused load has written",
            Faulty {
                load: |numbers, edition, setup, loading, both| {
                    both.gossip[0] = setup[0];
                    StandIn.gossip_load(numbers, edition, setup, loading, both)
                },
                ..SOUND
            },
        ),
        (
            "a fresh router keeps what was in its stores",
            Faulty {
                fresh: |numbers, edition, setup, both| {
                    let Both { table, gossip } = both;
                    let beside = Both { table, gossip };
                    let result = StandIn.gossip_fresh(numbers, edition, setup, beside);
                    if result == 0 {
                        gossip[window_cell(0, 0)] = 1;
                    }
                    result
                },
                ..SOUND
            },
        ),
    ]);
}
