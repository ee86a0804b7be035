//! The comparison of saves notices faults: each is set into the stand-in. Without a fault it shows no
//! difference and reaches all that it should.

use host_compare::cells::{self, end_cell, Cells, CLOCK, GROUP, RETAIN_END, USED};
use host_compare::library::{number, packed, Numbers, Saving};
use host_compare::saves::{compare, Reached};
use host_compare::stand_in::StandIn;
use reference::random::Random;

/// The stand-in with functions replaced.
struct Faulty {
    save: fn(&Cells, u64, &mut [u8]) -> u64,
    load: fn(&Numbers, u64, u64, &[u8], &mut Cells) -> u64,
}

impl Saving for Faulty {
    fn save(&self, table: &Cells, time: u64, buffer: &mut [u8]) -> u64 {
        (self.save)(table, time, buffer)
    }
    fn load(
        &self,
        numbers: &Numbers,
        edition: u64,
        clock: u64,
        bytes: &[u8],
        table: &mut Cells,
    ) -> u64 {
        (self.load)(numbers, edition, clock, bytes, table)
    }
}

const SOUND: Faulty = Faulty {
    save: |table, time, buffer| StandIn.save(table, time, buffer),
    load: |numbers, edition, clock, bytes, table| {
        StandIn.load(numbers, edition, clock, bytes, table)
    },
};

fn differs(library: &Faulty) -> bool {
    compare(library, 40, &mut Random::new(9), &mut Reached::default()).is_err()
}

#[test]
fn without_a_fault_there_is_no_difference() {
    let mut reached = Reached::default();
    assert!(compare(&SOUND, 150, &mut Random::new(2), &mut reached).is_ok());
    assert_eq!(reached.missing(), Vec::<String>::new());
}

/// The stand-in with each loaded table changed.
macro_rules! with_loaded {
    ($change:expr) => {
        Faulty {
            load: |numbers, edition, clock, bytes, table| {
                let result = StandIn.load(numbers, edition, clock, bytes, table);
                let change: fn(&mut Cells) = $change;
                if result == 0 {
                    change(table);
                }
                result
            },
            ..SOUND
        }
    };
}

#[test]
fn wrong_saves_are_seen() {
    let faults: [(&str, Faulty); 6] = [
        (
            "edition 1 is written",
            Faulty {
                save: |table, time, buffer| {
                    let result = StandIn.save(table, time, buffer);
                    if number(result) == 0 {
                        buffer[0] = 1;
                    }
                    result
                },
                ..SOUND
            },
        ),
        (
            "a buffer as long as the save is too short",
            Faulty {
                save: |table, time, buffer| {
                    let before = buffer.to_vec();
                    let result = StandIn.save(table, time, buffer);
                    if result != packed(0, buffer.len()) {
                        return result;
                    }
                    buffer.copy_from_slice(&before);
                    13
                },
                ..SOUND
            },
        ),
        (
            "a short buffer is written as far as it goes",
            Faulty {
                save: |table, time, buffer| {
                    let result = StandIn.save(table, time, buffer);
                    if let (13, Some(first)) = (result, buffer.first_mut()) {
                        *first = first.wrapping_add(1);
                    }
                    result
                },
                ..SOUND
            },
        ),
        (
            "the byte past the save is cleared",
            Faulty {
                save: |table, time, buffer| {
                    let result = StandIn.save(table, time, buffer);
                    if number(result) == 0 {
                        if let Some(byte) = buffer.get_mut((result / 256) as usize) {
                            *byte = !*byte;
                        }
                    }
                    result
                },
                ..SOUND
            },
        ),
        (
            "times are counted from the clock",
            Faulty {
                save: |table, time, buffer| match StandIn.save(table, time, buffer) {
                    result if number(result) == 0 => StandIn.save(table, table[CLOCK], buffer),
                    result => result,
                },
                ..SOUND
            },
        ),
        (
            "an early time is taken",
            Faulty {
                save: |table, time, buffer| StandIn.save(table, time.max(table[CLOCK]), buffer),
                ..SOUND
            },
        ),
    ];
    for (name, faulty) in &faults {
        assert!(differs(faulty), "not noticed: {name}");
    }
}

#[test]
fn wrong_loads_are_seen() {
    let faults: [(&str, Faulty); 8] = [
        (
            "a backoff of 0 ends now",
            with_loaded!(|table| {
                for slot in 0..cells::used(table) {
                    let cell = end_cell(slot, 3);
                    table[cell] = table[cell].max(table[CLOCK]);
                }
            }),
        ),
        (
            "the last retain end is one more",
            with_loaded!(|table| {
                if let Some(slot) = cells::used(table).checked_sub(1) {
                    table[RETAIN_END + slot] += 1;
                }
            }),
        ),
        (
            "no group",
            with_loaded!(|table| {
                if table[USED] > 0 {
                    table[GROUP] = 0;
                }
            }),
        ),
        ("the mark one too low", with_loaded!(|table| table[USED] = table[USED].saturating_sub(1))),
        (
            "a refusal clears the clock",
            Faulty {
                load: |numbers, edition, clock, bytes, table| {
                    let result = StandIn.load(numbers, edition, clock, bytes, table);
                    if number(result) == 10 {
                        table[CLOCK] = 0;
                    }
                    result
                },
                ..SOUND
            },
        ),
        (
            "a byte left over is let pass",
            Faulty {
                load: |numbers, edition, clock, bytes, table| {
                    let all = StandIn.load(numbers, edition, clock, bytes, table);
                    match bytes.split_last() {
                        Some((_, less)) if all == packed(10, less.len()) => {
                            StandIn.load(numbers, edition, clock, less, table)
                        }
                        _ => all,
                    }
                },
                ..SOUND
            },
        ),
        (
            "edition 1 has all slots",
            Faulty {
                load: |numbers, edition, clock, bytes, table| {
                    let mut bytes = bytes.to_vec();
                    if bytes.first() == Some(&1) {
                        bytes[0] = 2;
                    }
                    StandIn.load(numbers, edition, clock, &bytes, table)
                },
                ..SOUND
            },
        ),
        (
            "the clock before the parameters",
            Faulty {
                load: |numbers, edition, clock, bytes, table| {
                    if clock > reference::event::LAST_TIME {
                        return 2;
                    }
                    StandIn.load(numbers, edition, clock, bytes, table)
                },
                ..SOUND
            },
        ),
    ];
    for (name, faulty) in &faults {
        assert!(differs(faulty), "not noticed: {name}");
    }
}
