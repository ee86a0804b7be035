//! A call as it is made on both sides: one of 01's, or one of orders 6 and 7 with the lengths of its lent
//! lists and a permutation of any length.

use crate::request::{list_length, odd_slots, Request, ODD_PERMUTATIONS, SHORT_LISTS};
use hivepadlet::gossip::MESSAGE_NUMBERS;
use reference::event::{Call, Permutation, SLOTS};
use reference::gossip::{AnyEvent, GossipCall, GossipEvent};
use reference::random::Random;
use reference::router::ACTION_LIST;

/// The lengths of lists of numbers that announcements and IHAVEs are to meet: refused, and long enough.
pub const SHORT_NUMBERS: [usize; 5] = [0, 1, 2, 64, MESSAGE_NUMBERS - 1];
pub const LONG_NUMBERS: [usize; 4] =
    [MESSAGE_NUMBERS, MESSAGE_NUMBERS + 1, MESSAGE_NUMBERS + 2, MESSAGE_NUMBERS + 100];

#[derive(Clone, PartialEq, Eq, Debug)]
pub struct NewRequest {
    pub event: GossipEvent,
    /// An announcement's list of slots, where it has another length than theirs.
    odd_permutation: Option<Vec<u64>>,
    /// How many numbers the lent lists have.
    pub list: usize,
    pub numbers: usize,
}

#[derive(Clone, PartialEq, Eq, Debug)]
pub enum Asked {
    Old(Request),
    New(NewRequest),
}

impl NewRequest {
    /// With lists that are just long enough.
    pub fn plain(event: GossipEvent) -> NewRequest {
        let (list, numbers) = (ACTION_LIST, MESSAGE_NUMBERS);
        NewRequest { event, odd_permutation: None, list, numbers }
    }

    fn dressed(event: GossipEvent, random: &mut Random) -> NewRequest {
        let mut request = NewRequest::plain(event);
        request.list = list_length(random);
        request.numbers = numbers_length(random);
        // Both are short at times, and each alone more often.
        if random.chance(1, 40) {
            request.list = *random.pick(&SHORT_LISTS);
        }
        if let GossipCall::Announce { permutation, .. } = &mut request.event.call {
            if random.chance(1, 8) {
                let length = *random.pick(&ODD_PERMUTATIONS);
                request.odd_permutation = Some(odd_slots(permutation, length, random));
            }
        }
        request
    }

    /// The slots that the library is handed.
    pub fn permutation<'a>(&'a self, of_event: &'a Permutation) -> &'a [u64] {
        self.odd_permutation.as_deref().unwrap_or(of_event)
    }

    /// The length of an announcement's list of slots.
    pub fn permutation_length(&self) -> Option<usize> {
        match &self.event.call {
            GossipCall::Announce { permutation, .. } => Some(self.permutation(permutation).len()),
            _ => None,
        }
    }

    fn text(&self) -> String {
        let GossipEvent { now, call } = &self.event;
        let mut out = format!("time={now} {call:?}");
        if let Some(slots) = &self.odd_permutation {
            out += &format!("  # permutation of {} numbers: {slots:?}", slots.len());
        }
        if self.list != ACTION_LIST {
            out += &format!("  # action list of {} numbers", self.list);
        }
        if call.lends_numbers() && self.numbers != MESSAGE_NUMBERS {
            out += &format!("  # list of {} numbers", self.numbers);
        }
        out
    }
}

impl Asked {
    pub fn plain(event: AnyEvent) -> Asked {
        match event {
            AnyEvent::Old(event) => Asked::Old(Request::plain(event)),
            AnyEvent::New(event) => Asked::New(NewRequest::plain(event)),
        }
    }

    /// The event with lent lists of some length and, now and then, with a permutation or a name of a length
    /// that no generator gives it.
    pub fn dressed(event: AnyEvent, random: &mut Random) -> Asked {
        match event {
            AnyEvent::New(event) => Asked::New(NewRequest::dressed(event, random)),
            AnyEvent::Old(event) => Asked::Old(Request::dressed(event, random)),
        }
    }

    pub fn event(&self) -> AnyEvent {
        match self {
            Asked::Old(request) => AnyEvent::Old(request.event.clone()),
            Asked::New(request) => AnyEvent::New(request.event.clone()),
        }
    }

    pub fn now(&self) -> u64 {
        match self {
            Asked::Old(request) => request.event.now,
            Asked::New(request) => request.event.now,
        }
    }

    pub fn name(&self) -> &'static str {
        match self {
            Asked::Old(request) => request.event.call.name(),
            Asked::New(request) => request.event.call.name(),
        }
    }

    /// Whether the library is handed the array: ten calls are not.
    pub fn is_handed(&self) -> bool {
        match self {
            Asked::Old(request) => matches!(
                request.event.call,
                Call::Connect { .. } | Call::Disconnect { .. } | Call::Leave { .. }
            ),
            Asked::New(_) => true,
        }
    }

    /// How many numbers the lent action list has.
    pub fn list(&self) -> usize {
        match self {
            Asked::Old(request) => request.list,
            Asked::New(request) => request.list,
        }
    }

    /// The same of the list of numbers, where the call is lent one.
    pub fn numbers(&self) -> Option<usize> {
        match self {
            Asked::New(request) if request.event.call.lends_numbers() => Some(request.numbers),
            _ => None,
        }
    }

    /// Another length of the action list.
    pub fn with_list(mut self, length: usize) -> Asked {
        match &mut self {
            Asked::Old(request) => request.list = length,
            Asked::New(request) => request.list = length,
        }
        self
    }

    /// Lists of the usual length.
    pub fn with_usual_lists(mut self) -> Asked {
        match &mut self {
            Asked::Old(request) => request.list = ACTION_LIST,
            Asked::New(request) => {
                (request.list, request.numbers) = (ACTION_LIST, MESSAGE_NUMBERS);
            }
        }
        self
    }

    pub fn text(&self) -> String {
        match self {
            Asked::Old(request) => request.text(),
            Asked::New(request) => request.text(),
        }
    }
}

fn numbers_length(random: &mut Random) -> usize {
    match random.below(40) {
        0..=2 => *random.pick(&SHORT_NUMBERS),
        3 => random.below(MESSAGE_NUMBERS),
        4..=20 => MESSAGE_NUMBERS,
        21..=34 => *random.pick(&LONG_NUMBERS),
        _ => MESSAGE_NUMBERS + random.below(SLOTS),
    }
}
