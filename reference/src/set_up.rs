//! The set-up numbers, which a router is given beside its parameters (orders 6 and 7 of 02).

use crate::params::Refusal;

pub const COUNT: usize = 5;

/// Each number's name and its two limits.
pub const LIMITS: [(&str, u64, u64); COUNT] = [
    ("notice_limit", 1, 32),
    ("D_lazy", 0, 48),
    ("factor", 0, 1000),
    ("ihave_bound", 1, 32),
    ("iwant_bound", 1, 32),
];

#[derive(Clone, Copy, PartialEq, Eq, Debug)]
pub struct SetUp {
    /// Order 6: "A limit of 1..32 numbers put in per record and heartbeat".
    pub notice_limit: u64,
    /// Order 7: "D_lazy 0..48 and the factor 0..1000", in thousandths.
    pub d_lazy: u64,
    pub factor: u64,
    /// "and bound, each 1..32, IHAVE messages per record and heartbeat and .. IWANT replies
    /// per connection and message".
    pub ihave_bound: u64,
    pub iwant_bound: u64,
}

impl SetUp {
    /// Ours, where nobody gives others: those of the trace program.
    pub const ORDINARY: SetUp =
        SetUp { notice_limit: 10, d_lazy: 6, factor: 250, ihave_bound: 10, iwant_bound: 3 };

    /// In the order of the limits.
    pub fn numbers(&self) -> [u64; COUNT] {
        [self.notice_limit, self.d_lazy, self.factor, self.ihave_bound, self.iwant_bound]
    }

    pub fn of_numbers(numbers: [u64; COUNT]) -> SetUp {
        let [notice_limit, d_lazy, factor, ihave_bound, iwant_bound] = numbers;
        SetUp { notice_limit, d_lazy, factor, ihave_bound, iwant_bound }
    }

    pub fn in_range(&self) -> bool {
        let within =
            |(number, (_, low, high)): (&u64, &(_, u64, u64))| (*low..=*high).contains(number);
        self.numbers().iter().zip(&LIMITS).all(within)
    }

    /// Order 6: "else 2, tested before the sheet"; it has no place.
    pub fn check(&self) -> Result<(), Refusal> {
        if self.in_range() {
            Ok(())
        } else {
            Err(Refusal { number: 2, place: 0 })
        }
    }
}
