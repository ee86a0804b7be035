//! The ways in which a router's table is damaged here: each number one past its range, and numbers in their
//! ranges that do not go together. None of what comes out is a router's (01: "Tables are a router's if").

use crate::cells::*;
use crate::made::{LAST_BACKOFF_END, LAST_RETAIN_END, P3B_LIMIT, P4_P7_LIMIT};
use reference::event::{GROUPS, LAST_TIME, P5_LIMIT, SLOTS};
use reference::params::{
    field_at, general, topic, topic_index, Edition, Params, COUNT, FIRST_RULE, TOPICS,
};
use reference::router::{
    Router, Status, TopicRecord, Version, LONGEST_BACKOFF_MS, LONGEST_RETAIN_MS,
};

/// Cells of a table, and what is put there.
pub struct Change {
    pub kind: &'static str,
    /// Of what it is a change: the first of its cells, or a bit of a word (`bit_place`).
    pub place: usize,
    pub changes: Vec<(usize, u64)>,
}

/// One past the range of ids and of groups.
const WIDE: u64 = 1 << 32;

pub const RULES: [&str; 8] = [
    "parameters: rule 0 broken",
    "parameters: rule 1 broken",
    "parameters: rule 2 broken",
    "parameters: rule 3 broken",
    "parameters: rule 4 broken",
    "parameters: rule 5 broken",
    "parameters: rule 6 broken",
    "parameters: rule 7 broken",
];

/// A record past the mark has its flags still, and the id 0.
pub const MARKS: [&str; 3] =
    ["mark: at the last record", "mark: at the first record", "mark: 0 with a record"];

/// The words, first those of the peers; all topics' are one kind.
const WORDS: usize = 8;

const EMPTY_BITS: [&str; WORDS] = [
    "empty record: connected",
    "empty record: retained",
    "empty record: explicit",
    "empty record: outbound",
    "empty record: version",
    "empty record: version's higher bit",
    "empty record: subscribed",
    "empty record: member",
];

const BITS_PAST_MARK: [&str; WORDS] = [
    "past the mark: connected",
    "past the mark: retained",
    "past the mark: explicit",
    "past the mark: outbound",
    "past the mark: version",
    "past the mark: version's higher bit",
    "past the mark: subscribed",
    "past the mark: member",
];

const EMPTY_GROUPS: [&str; GROUPS] = [
    "empty record: first group",
    "empty record: second group",
    "empty record: third group",
    "empty record: fourth group",
];

const EMPTY_NUMBERS: [&str; 9] = [
    "empty record: id",
    "empty record: P5",
    "empty record: P7",
    "empty record: retain end",
    "empty record: backoff end",
    "empty record: P2",
    "empty record: P3",
    "empty record: P4",
    "empty record: P3b",
];

/// The kind that tries no range's end.
pub const LARGEST: &str = "any number: 2^64 - 1";

const OTHERS: [&str; 55] = [
    LARGEST,
    "clock: past 2^40",
    "clock: under a member's graft and mesh time",
    "clock: more than an hour before a backoff end",
    "clock: more than a day before a retain end",
    "joined flag: 2",
    "joined flag: 0 with a member",
    "parameter: under its lower limit",
    "parameter: over its upper limit",
    "edition: 0",
    "edition: 3",
    "edition: 1 of parameters that only edition 2 takes",
    "empty record: connected and retained",
    "status: connected and retained",
    "status: empty, the record not zero",
    "status: retained with a subscription",
    "status: connected with a retain end",
    "id: 0",
    "id: past 2^32 - 1",
    "id: stands twice",
    "group: past 2^32 - 1",
    "groups: none",
    "groups: none in front",
    "groups: a gap",
    "groups: one twice",
    "groups: out of order",
    "groups: the last below the one before it",
    "explicit: a member",
    "version: both bits",
    "P5: under -10^9",
    "P5: over 10^9",
    "P5: its lane full",
    "P7: past 10^6",
    "retain end: past its range",
    "retain end: one past a day from the clock",
    "retain end: of a connected record",
    "backoff end: past its range",
    "backoff end: one past an hour from the clock",
    "P2: past its cap",
    "P2: its lane full",
    "P3: past its cap",
    "P3: its lane full",
    "P4: past 10^6",
    "P4: its lane full",
    "P3b: past 10^12",
    "subscribed: not, and a member",
    "subscribed: a retained record",
    "member: not subscribed",
    "member: in a topic not joined",
    "member: explicit",
    "member: retained",
    "graft time: past the clock, with the mesh time",
    "graft time: its sum with the mesh time past 2^64",
    "mesh time: past the clock, with the graft time",
    "mesh time: past 2^40",
];

/// Every kind of damage, each of which a comparison is to do.
pub fn kinds() -> impl Iterator<Item = &'static str> {
    let empty = EMPTY_BITS.into_iter().chain(EMPTY_GROUPS).chain(EMPTY_NUMBERS);
    let others = BITS_PAST_MARK.into_iter().chain(OTHERS);
    RULES.into_iter().chain(MARKS).chain(empty).chain(others)
}

/// How many places there are to be damaged: the cells, and then the bits of the words by slot.
pub const PLACES: usize = CELLS + (6 + 2 * TOPICS) * SLOTS;

/// A slot's bit of a word as a place, behind the cells.
pub fn bit_place(word: usize, slot: usize) -> usize {
    let number = match word {
        CONNECTED..ID => (word - CONNECTED) / WORD,
        _ => 6 + (word - SUBSCRIBED) / WORD,
    };
    CELLS + number * SLOTS + slot
}

/// The places that can be damaged by themselves, whatever the others are.
pub fn alone() -> impl Iterator<Item = usize> {
    let is_number = |cell: &usize| match Spot::of(*cell) {
        Spot::Kept | Spot::Between => false,
        spot => !spot.is_word(),
    };
    let words = [CONNECTED, RETAINED];
    let bits = words.into_iter().flat_map(|word| (0..SLOTS).map(move |slot| bit_place(word, slot)));
    (0..CELLS).filter(is_number).chain(bits)
}

/// Every damage of the router's table; with `largest`, 2^64 - 1 in every number too.
pub fn all(router: &Router, table: &Cells, largest: bool) -> Vec<Change> {
    let mut list = Damages { router, table, list: Vec::new() };
    list.clock();
    list.joined();
    list.limits();
    list.rules();
    list.edition();
    list.mark();
    for slot in 0..SLOTS {
        if slot >= used(table) {
            list.bits_set(slot, BITS_PAST_MARK);
        } else if router.peers[slot].status == Status::Empty {
            list.empty_record(slot);
        } else {
            list.peer(slot);
            for k in 0..TOPICS {
                list.counters(slot, k);
                list.flags(slot, k);
                list.times(slot, k);
            }
        }
    }
    let is_number = |cell: &usize| *cell != USED && !Spot::of(*cell).is_word();
    for cell in (0..CELLS).filter(|cell| largest && is_number(cell) && is_read(table, *cell)) {
        list.add(LARGEST, &[(cell, u64::MAX)]);
    }
    list.list
}

/// Numbers at the very end of their range from the clock (02, order 8): the table is a router's still.
pub const AT_THE_END: [&str; 2] =
    ["backoff end: an hour from the clock", "retain end: a day from the clock"];

/// Every such change of the router's table.
pub fn at_the_end(router: &Router) -> Vec<Change> {
    let mut list = Vec::new();
    let mut add = |kind: &'static str, cell: usize, value: u64| {
        list.push(Change { kind, place: cell, changes: vec![(cell, value)] });
    };
    let [backoff, retain] = AT_THE_END;
    for (slot, peer) in router.peers.iter().enumerate() {
        if peer.status != Status::Empty {
            for k in 0..TOPICS {
                add(backoff, end_cell(slot, k), router.clock + LONGEST_BACKOFF_MS);
            }
        }
        if peer.status == Status::Retained {
            add(retain, RETAIN_END + slot, router.clock + LONGEST_RETAIN_MS);
        }
    }
    list
}

struct Damages<'a> {
    router: &'a Router,
    table: &'a Cells,
    list: Vec<Change>,
}

impl Damages<'_> {
    fn add(&mut self, kind: &'static str, changes: &[(usize, u64)]) {
        self.list.push(Change { kind, place: changes[0].0, changes: changes.to_vec() });
    }

    fn add_if(&mut self, holds: bool, kind: &'static str, changes: &[(usize, u64)]) {
        if holds {
            self.add(kind, changes);
        }
    }

    /// A slot's bits of words, each turned.
    fn turn(&mut self, kind: &'static str, slot: usize, words: &[usize]) {
        let turned = |&word: &usize| {
            let cell = word + slot / 64;
            (cell, self.table[cell] ^ 1 << (slot % 64))
        };
        let changes = words.iter().map(turned).collect();
        self.list.push(Change { kind, place: bit_place(words[0], slot), changes });
    }

    fn turn_if(&mut self, holds: bool, kind: &'static str, slot: usize, words: &[usize]) {
        if holds {
            self.turn(kind, slot, words);
        }
    }

    fn clock(&mut self) {
        self.add("clock: past 2^40", &[(CLOCK, LAST_TIME + 1)]);
        let records = self.router.peers.iter().flat_map(|peer| &peer.topics);
        let last = records.map(|record| record.graft_time + record.mesh_time).max().unwrap_or(0);
        if let Some(before) = last.checked_sub(1) {
            self.add("clock: under a member's graft and mesh time", &[(CLOCK, before)]);
        }
        let last = |ends: &mut dyn Iterator<Item = u64>| ends.max().unwrap_or(0);
        let peers = &self.router.peers;
        let backoff_end = last(&mut peers.iter().flat_map(|peer| peer.backoff_ends));
        let retain_end = last(&mut peers.iter().map(|peer| peer.retain_end));
        if let Some(clock) = backoff_end.checked_sub(LONGEST_BACKOFF_MS + 1) {
            self.add("clock: more than an hour before a backoff end", &[(CLOCK, clock)]);
        }
        if let Some(clock) = retain_end.checked_sub(LONGEST_RETAIN_MS + 1) {
            self.add("clock: more than a day before a retain end", &[(CLOCK, clock)]);
        }
    }

    fn joined(&mut self) {
        for k in 0..TOPICS {
            self.add("joined flag: 2", &[(JOINED + k, 2)]);
            let meshed = !self.router.mesh(k).is_empty();
            self.add_if(meshed, "joined flag: 0 with a member", &[(JOINED + k, 0)]);
        }
    }

    /// One past the limits, where a number with the sign of its field can be.
    fn limits(&mut self) {
        for index in 0..COUNT {
            let field = field_at(index);
            let (under, over) = (field.low - 1, field.high + 1);
            let fits = |number: i64| if is_below(index) { number <= 0 } else { number >= 0 };
            let change = |number: i64| [(number_cell(index), number.unsigned_abs())];
            self.add_if(fits(under), "parameter: under its lower limit", &change(under));
            self.add_if(fits(over), "parameter: over its upper limit", &change(over));
        }
    }

    /// Changes that keep every limit, and after which a given rule is the first that is broken.
    fn rules(&mut self) {
        for (rule, changes) in rule_breakers(&self.router.params) {
            let mut params = self.router.params.clone();
            for &(index, value) in &changes {
                params.numbers[index] = value;
            }
            let cells: Vec<(usize, u64)> = changes
                .iter()
                .map(|&(index, value)| (number_cell(index), value.unsigned_abs()))
                .collect();
            let alone = params.first_broken() == Some(FIRST_RULE + rule);
            self.add_if(alone, RULES[rule], &cells);
        }
    }

    /// The editions are 1 and 2, and the parameters pass by the rules of theirs (order 14 of 02).
    fn edition(&mut self) {
        self.add("edition: 0", &[(EDITION, 0)]);
        self.add("edition: 3", &[(EDITION, 3)]);
        let mut params = self.router.params.clone();
        params.numbers[general::D_SCORE] = params.general(general::D);
        let second = params.clone().in_edition(Edition::Two);
        let only_2 = second.first_broken().is_none()
            && params.in_edition(Edition::One).first_broken().is_some();
        let d_score = second.general(general::D_SCORE);
        let kind = "edition: 1 of parameters that only edition 2 takes";
        let first = (EDITION, edition_cell(Edition::One));
        let most = (number_cell(general::D_SCORE), d_score.unsigned_abs());
        self.add_if(only_2, kind, &[first, most]);
    }

    /// Some record stands past it.
    fn mark(&mut self) {
        let Some(first) = self.router.peers.iter().position(|peer| !peer.is_zero()) else { return };
        let places = [records_end(self.router) - 1, first, 0];
        for (kind, slot) in MARKS.into_iter().zip(places) {
            self.add(kind, &[(USED, slot as u64)]);
        }
    }

    /// Each bit of a slot that has none.
    fn bits_set(&mut self, slot: usize, kinds: [&'static str; WORDS]) {
        let of_peer = (0..6).map(|place| CONNECTED + place * WORD);
        for (word, kind) in of_peer.zip(kinds) {
            self.turn(kind, slot, &[word]);
        }
        for k in 0..TOPICS {
            self.turn(kinds[6], slot, &[subscribed_word(k)]);
            self.turn(kinds[7], slot, &[member_word(k)]);
        }
    }

    /// "Empty records are all zero".
    fn empty_record(&mut self, slot: usize) {
        self.bits_set(slot, EMPTY_BITS);
        self.turn("empty record: connected and retained", slot, &[CONNECTED, RETAINED]);
        for (place, kind) in EMPTY_GROUPS.into_iter().enumerate() {
            self.add(kind, &[(group_place(slot, place), 1)]);
        }
        self.add("empty record: id", &[(ID + slot, 1)]);
        self.add("empty record: P5", &[(P5_P7 + slot, 1)]);
        self.add("empty record: P7", &[(P5_P7 + slot, P7_LANE)]);
        self.add("empty record: retain end", &[(RETAIN_END + slot, 1)]);
        for k in 0..TOPICS {
            self.add("empty record: backoff end", &[(end_cell(slot, k), 1)]);
            self.add("empty record: P2", &[(counters_cell(slot, k), 1)]);
            self.add("empty record: P3", &[(counters_cell(slot, k), P3_LANE)]);
            self.add("empty record: P4", &[(counters_cell(slot, k), P4_LANE)]);
            self.add("empty record: P3b", &[(p3b_cell(slot, k), 1)]);
        }
    }

    fn peer(&mut self, slot: usize) {
        let peer = &self.router.peers[slot];
        self.status(slot);
        self.id(slot);
        self.groups(slot);
        let unset: &[usize] = match peer.version {
            Version::V10 => &[VERSION, VERSION_HIGH],
            Version::V11 => &[VERSION_HIGH],
            Version::V12 => &[VERSION],
        };
        self.turn("version: both bits", slot, unset);
        let cell = P5_P7 + slot;
        self.add("P5: under -10^9", &[(cell, p5_p7(-P5_LIMIT - 1, peer.p7))]);
        self.add("P5: over 10^9", &[(cell, p5_p7(P5_LIMIT + 1, peer.p7))]);
        self.add("P5: its lane full", &[(cell, self.table[cell] | (P7_LANE - 1))]);
        self.add("P7: past 10^6", &[(cell, p5_p7(peer.p5, P4_P7_LIMIT + 1))]);
        if peer.status == Status::Retained {
            let cell = RETAIN_END + slot;
            self.add("retain end: past its range", &[(cell, LAST_RETAIN_END + 1)]);
            let late = self.router.clock + LONGEST_RETAIN_MS + 1;
            self.add("retain end: one past a day from the clock", &[(cell, late)]);
        } else {
            self.add("retain end: of a connected record", &[(RETAIN_END + slot, 1)]);
        }
        for k in 0..TOPICS {
            let cell = end_cell(slot, k);
            self.add("backoff end: past its range", &[(cell, LAST_BACKOFF_END + 1)]);
            let late = self.router.clock + LONGEST_BACKOFF_MS + 1;
            self.add("backoff end: one past an hour from the clock", &[(cell, late)]);
        }
    }

    fn status(&mut self, slot: usize) {
        let peer = &self.router.peers[slot];
        let (subscribes, retained) =
            (peer.topics.iter().any(|record| record.subscribed), peer.retain_end > 0);
        let (own, other) = match peer.status {
            Status::Retained => (RETAINED, CONNECTED),
            _ => (CONNECTED, RETAINED),
        };
        self.turn("status: connected and retained", slot, &[other]);
        self.turn("status: empty, the record not zero", slot, &[own]);
        let both = [own, other];
        self.turn_if(subscribes, "status: retained with a subscription", slot, &both);
        self.turn_if(retained, "status: connected with a retain end", slot, &both);
    }

    fn id(&mut self, slot: usize) {
        let cell = ID + slot;
        self.add("id: 0", &[(cell, 0)]);
        self.add("id: past 2^32 - 1", &[(cell, WIDE)]);
        let peers = &self.router.peers;
        let others: Vec<u32> =
            (1..SLOTS).map(|step| peers[(slot + step) % SLOTS].id).filter(|&id| id != 0).collect();
        // The next record's, the last one's, and one between.
        for place in [0, others.len() / 2, others.len().saturating_sub(1)] {
            if let Some(&id) = others.get(place) {
                self.add("id: stands twice", &[(cell, u64::from(id))]);
            }
        }
    }

    /// "One to four different address groups .., lowest first", a cell each, the group and one.
    fn groups(&mut self, slot: usize) {
        let cell = |place: usize| group_place(slot, place);
        let set = |values: [u64; GROUPS]| [0, 1, 2, 3].map(|place| (cell(place), values[place]));
        for place in 0..GROUPS {
            self.add("group: past 2^32 - 1", &[(cell(place), WIDE + 1)]);
        }
        let groups: Vec<u64> =
            self.router.peers[slot].groups().map(|group| u64::from(group) + 1).collect();
        let count = groups.len();
        self.add("groups: none", &set([0; GROUPS]));
        self.add("groups: none in front", &set([0, groups[0], 0, 0]));
        self.add("groups: a gap", &set([1, 2, 0, 3]));
        self.add("groups: out of order", &set([2, 3, 1, 0]));
        self.add("groups: the last below the one before it", &set([1, 2, 4, 3]));
        // A cell alone: the first group again in the first place without one, or in the second's.
        self.add(
            "groups: one twice",
            &[(cell(count.min(GROUPS - 1)), groups[count.min(GROUPS - 1) - 1])],
        );
        if count > 1 {
            self.add("groups: one twice", &[(cell(count - 1), groups[count - 2])]);
            self.add("groups: none in front", &[(cell(0), 0)]);
        }
    }

    /// One past the range, and all bits of a lane, the numbers beside it as they are.
    fn counters(&mut self, slot: usize, k: usize) {
        let params = &self.router.params;
        let caps = (params.topic(k, topic::P2_CAP), params.topic(k, topic::P3_CAP));
        let record = &self.router.peers[slot].topics[k];
        let full = [P3_LANE, P3_LANE, u64::MAX / P4_LANE + 1].map(|lane| lane as i64 - 1);
        let packed = |p2, p3, p4| {
            let record = TopicRecord { p2, p3, p4, ..TopicRecord::default() };
            [(counters_cell(slot, k), counters(&record))]
        };
        let TopicRecord { p2, p3, p4, .. } = *record;
        self.add("P2: past its cap", &packed(caps.0 + 1, p3, p4));
        self.add("P2: its lane full", &packed(full[0], p3, p4));
        self.add("P3: past its cap", &packed(p2, caps.1 + 1, p4));
        self.add("P3: its lane full", &packed(p2, full[1], p4));
        self.add("P4: past 10^6", &packed(p2, p3, P4_P7_LIMIT + 1));
        self.add("P4: its lane full", &packed(p2, p3, full[2]));
        self.add("P3b: past 10^12", &[(p3b_cell(slot, k), P3B_LIMIT as u64 + 1)]);
    }

    /// "A retained record has no subscription and no membership; a member is connected, subscribed, not
    /// explicit, in a joined topic."
    fn flags(&mut self, slot: usize, k: usize) {
        let peer = &self.router.peers[slot];
        let (subscribed, member) = (peer.topics[k].subscribed, peer.topics[k].member);
        let (joined, explicit) = (self.router.joined[k], peer.explicit);
        let (connected, outside) = (peer.status == Status::Connected, !member);
        let (subscription, membership) = (subscribed_word(k), member_word(k));
        self.turn_if(member, "subscribed: not, and a member", slot, &[subscription]);
        self.turn_if(member, "explicit: a member", slot, &[EXPLICIT]);
        self.turn_if(!connected, "subscribed: a retained record", slot, &[subscription]);
        let allowed = joined && !explicit;
        let both = [subscription, membership];
        self.turn_if(!connected && allowed, "member: retained", slot, &both);
        let alone = connected && outside;
        let no_subscription = alone && allowed && !subscribed;
        self.turn_if(no_subscription, "member: not subscribed", slot, &[membership]);
        let not_joined = alone && subscribed && !joined && !explicit;
        self.turn_if(not_joined, "member: in a topic not joined", slot, &[membership]);
        let by_explicit = alone && subscribed && joined && explicit;
        self.turn_if(by_explicit, "member: explicit", slot, &[membership]);
    }

    /// "Graft time plus mesh time is at most the clock", of a member.
    fn times(&mut self, slot: usize, k: usize) {
        let record = &self.router.peers[slot].topics[k];
        if !record.member {
            return;
        }
        let (graft, mesh) = (graft_cell(slot, k), mesh_cell(slot, k));
        let clock = self.router.clock;
        let (graft_room, mesh_room) = (clock - record.mesh_time, clock - record.graft_time);
        let kind = "graft time: past the clock, with the mesh time";
        self.add(kind, &[(graft, graft_room + 1)]);
        let kind = "mesh time: past the clock, with the graft time";
        self.add(kind, &[(mesh, mesh_room + 1)]);
        self.add("mesh time: past 2^40", &[(mesh, LAST_TIME + 1)]);
        let kind = "graft time: its sum with the mesh time past 2^64";
        self.add(kind, &[(graft, u64::MAX), (mesh, 1)]);
    }
}

/// For every joint rule, changes of these parameters that may break it.
fn rule_breakers(params: &Params) -> Vec<(usize, Vec<(usize, i64)>)> {
    use general::*;
    let g = |place| params.general(place);
    let mut breakers = vec![
        (0, vec![(D_LO, g(D) + 1)]),
        (0, vec![(D, g(D_LO) - 1)]),
        (1, vec![(D_HI, g(D) - 1)]),
        (2, vec![(D_OUT, g(D_LO))]),
        (2, vec![(D_LO, g(D_OUT))]),
        (3, vec![(D_OUT, g(D) / 2 + 1), (D_LO, g(D)), (D_SCORE, 0)]),
        (4, vec![(D_SCORE, g(D) - g(D_OUT) + 1)]),
        (5, vec![(GOSSIP_THRESHOLD, g(PUBLISH_THRESHOLD) - 1)]),
        (5, vec![(PUBLISH_THRESHOLD, g(GOSSIP_THRESHOLD) + 1)]),
        (6, vec![(GRAYLIST_THRESHOLD, g(PUBLISH_THRESHOLD))]),
        (6, vec![(PUBLISH_THRESHOLD, g(GRAYLIST_THRESHOLD))]),
    ];
    for k in 0..TOPICS {
        let (cap, threshold) = (topic_index(k, topic::P3_CAP), topic_index(k, topic::P3_THRESHOLD));
        breakers.push((7, vec![(cap, params.numbers[threshold] - 1)]));
        breakers.push((7, vec![(threshold, params.numbers[cap] + 1)]));
    }
    breakers
}
