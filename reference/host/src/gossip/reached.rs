//! What the comparison reached. A run that misses something shows too little, and fails.

use super::damage::Region;
use super::request::{Asked, LONG_NUMBERS, SHORT_NUMBERS};
use crate::request::{LONG_LISTS, ODD_PERMUTATIONS, SHORT_LISTS};
use hivepadlet::gossip::MESSAGE_NUMBERS;
use reference::coverage::gossip::{GossipCoverage, LOAD};
use reference::coverage::Answers;
use reference::event::SLOTS;
use reference::generate::damage::Damage;
use reference::gossip::{Outcome, GOSSIP_NAMES};
use reference::router::ACTION_LIST;
use reference::set_up::LIMITS;
use std::collections::BTreeMap;

/// Every answer to a call of 01 is within reach here.
const REACHABLE: [u32; 11] = [0, 1, 2, 3, 4, 5, 6, 7, 8, 11, 12];

/// The calls of 01 that are handed the array, and the calls that fill an action list to its end.
const HANDED: [&str; 3] = ["connect", "disconnect", "leave"];
const FULL_LISTS: [&str; 4] = ["ask", "relay", "announce", "leave"];
const LENT_NUMBERS: [&str; 2] = ["announce", "ihave"];

/// Starts that are refused.
const STARTS: [&str; 2] = ["fresh", "load"];

#[derive(Default)]
pub struct Reached {
    coverage: GossipCoverage,
    old: Answers,
    calls: u64,
    damaged: u64,
    changed: u64,
    /// By call and length of the action list: refused for it where it is short, done where it is not.
    lists: BTreeMap<(&'static str, usize), u64>,
    /// Everything else, by its name.
    named: BTreeMap<String, u64>,
}

impl Reached {
    fn count(&mut self, what: String) {
        *self.named.entry(what).or_default() += 1;
    }

    /// A call of a list, with the cases that it met.
    pub fn count_call(&mut self, asked: &Asked, outcome: &Outcome, cases: &[String]) {
        self.calls += 1;
        self.count_answer(asked, outcome.answer, cases);
        let (name, answer) = (asked.name(), outcome.answer);
        if matches!(answer, 0 | 8) && asked.is_handed() {
            *self.lists.entry((name, asked.list())).or_default() += 1;
            if let Some(numbers) = asked.numbers() {
                // An action list that is too short says nothing of the other.
                let known = SHORT_NUMBERS.contains(&numbers) || LONG_NUMBERS.contains(&numbers);
                if known && asked.list() >= ACTION_LIST {
                    self.count(numbers_name(name, numbers));
                }
            }
        }
        if let (Asked::New(request), 0 | 7) = (asked, answer) {
            if let Some(length) = request.permutation_length() {
                self.count(permutation_name(length));
            }
        }
        if outcome.actions == SLOTS && asked.list() == ACTION_LIST {
            self.count(full_name(name));
        }
    }

    /// Its answer alone.
    fn count_answer(&mut self, asked: &Asked, answer: u32, cases: &[String]) {
        self.coverage.count_call(&asked.event(), answer, cases);
        if let Asked::Old(request) = asked {
            self.old.count(request.event.call.kind(), answer);
        }
    }

    /// A call that was refused for a damage.
    pub fn count_damage(&mut self, damage: Damage, asked: &Asked) {
        self.damaged += 1;
        self.coverage.count_damage(damage);
        self.count_answer(asked, 12, &[]);
    }

    /// A cell was changed, and table and array are a router's still, or not.
    pub fn count_change(&mut self, region: Region, still: bool) {
        self.changed += 1;
        self.count(change_name(region, still));
    }

    /// The start of a list.
    pub fn count_list(&mut self, name: &str, loaded: bool) {
        self.coverage.count_case(name);
        if loaded {
            self.coverage.count_answer(LOAD, 0);
        }
    }

    /// A start that was refused, with the set-up number that was out of its range and whether something else
    /// was wrong too.
    pub fn count_start(&mut self, name: &str, answer: u32, place: Option<usize>, other: bool) {
        if name == "load" {
            self.coverage.count_answer(LOAD, answer);
        }
        match place {
            Some(place) => {
                self.count(set_up_name(name, place));
                if other {
                    self.count(before_name(name));
                }
            }
            None => self.count(start_name(name, answer)),
        }
    }

    pub fn calls(&self) -> u64 {
        self.calls
    }

    pub fn damaged(&self) -> u64 {
        self.damaged
    }

    pub fn changed(&self) -> u64 {
        self.changed
    }

    pub fn missing(&self) -> Vec<String> {
        // A save is handed the table alone.
        let mut missing = self.coverage.missing(&[]);
        missing.retain(|what| !what.starts_with("save "));
        missing.extend(self.old.missing(&REACHABLE).into_iter().filter(|what| of_handed(what)));
        missing.extend(self.missing_lists());
        missing.extend(wanted().into_iter().filter(|what| !self.named.contains_key(what)));
        missing
    }

    fn missing_lists(&self) -> Vec<String> {
        let names = GOSSIP_NAMES.iter().chain(&HANDED);
        let lists = names.flat_map(|&name| list_lengths().map(move |length| (name, length)));
        let absent = lists.filter(|list| !self.lists.contains_key(list));
        absent.map(|(name, length)| format!("{name} with an action list of {length}")).collect()
    }

    pub fn not_permitted(&self) -> Vec<String> {
        let mut strange = self.coverage.not_permitted();
        strange.extend(self.old.not_permitted(&REACHABLE));
        strange
    }

    pub fn table(&self) -> String {
        let of_length = |length: usize| {
            let counts = self.lists.iter().filter(|((_, other), _)| *other == length);
            counts.map(|(_, count)| count).sum::<u64>()
        };
        let lists = list_lengths().map(|length| {
            let told = if length < ACTION_LIST { "refused" } else { "done" };
            (format!("action list of {length} numbers, {told}"), of_length(length))
        });
        let named = self.named.iter().map(|(what, &count)| (what.clone(), count));
        let lines = lists.chain(named).map(|(what, count)| format!("{what:62}{count:>9}\n"));
        self.old.table(&REACHABLE) + &self.coverage.table() + &lines.collect::<String>()
    }
}

fn list_lengths() -> impl Iterator<Item = usize> {
    SHORT_LISTS.into_iter().chain(LONG_LISTS)
}

/// An answer to one of the old calls that are handed the array.
fn of_handed(answer: &str) -> bool {
    HANDED.iter().any(|name| answer.starts_with(&format!("{name} ")))
}

fn numbers_name(name: &str, length: usize) -> String {
    format!("{name} with a list of {length} numbers")
}

fn permutation_name(length: usize) -> String {
    format!("announce with a permutation of {length} numbers")
}

fn full_name(name: &str) -> String {
    format!("{name} with {SLOTS} actions in {ACTION_LIST} numbers")
}

fn change_name(region: Region, still: bool) -> String {
    let outcome = if still { "a router's still" } else { "refused" };
    format!("a cell changed, {}: {outcome}", region.name())
}

fn set_up_name(name: &str, place: usize) -> String {
    format!("{name}: 2 for {}", LIMITS[place].0)
}

fn before_name(name: &str) -> String {
    format!("{name}: 2 for a set-up number before all else")
}

fn start_name(name: &str, answer: u32) -> String {
    format!("{name}: {answer} with good set-up numbers")
}

/// What is wanted besides the second program's cases and the answers.
fn wanted() -> Vec<String> {
    let mut wanted = Vec::new();
    for name in LENT_NUMBERS {
        let lengths = SHORT_NUMBERS.iter().chain(&LONG_NUMBERS);
        wanted.extend(lengths.map(|&length| numbers_name(name, length)));
    }
    let lengths = ODD_PERMUTATIONS.iter().chain(&[SLOTS]);
    wanted.extend(lengths.map(|&length| permutation_name(length)));
    wanted.extend(FULL_LISTS.map(full_name));
    for region in Region::ALL {
        let outcomes = region.outcomes().iter();
        wanted.extend(outcomes.map(|&still| change_name(region, still)));
    }
    for name in STARTS {
        wanted.extend((0..LIMITS.len()).map(|place| set_up_name(name, place)));
        wanted.push(before_name(name));
        wanted.extend([2, 9].map(|answer| start_name(name, answer)));
    }
    wanted.push(start_name("load", 10));
    wanted
}

const _: () = assert!(MESSAGE_NUMBERS == reference::gossip::NUMBER_LIST);
