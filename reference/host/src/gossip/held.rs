//! What the second array holds, in one form for one content, and the array written and read. A set and the
//! replies rise by number there; the second program keeps a set by arrival.

use hivepadlet::gossip::*;
use reference::event::SLOTS;
use reference::params::TOPICS;
use reference::router::{Notice, Peer, Router, Store, MOST_NOTICES, MOST_STORED};
use reference::set_up::SetUp;
use std::collections::BTreeMap;

/// A peer's set, as numbers with their ages, and the counts of the heartbeat.
#[derive(Clone, PartialEq, Eq, Debug, Default)]
pub struct Note {
    pub set: Vec<(u64, u64)>,
    pub puts: u64,
    pub ihaves: u64,
}

#[derive(Clone, PartialEq, Eq, Debug)]
pub struct Held {
    pub set_up: SetUp,
    pub notes: Vec<Note>,
    pub stores: [Store; TOPICS],
    /// By number and slot, none 0.
    pub replies: BTreeMap<(u64, usize), u64>,
}

impl Note {
    fn of(peer: &Peer) -> Note {
        let mut set: Vec<(u64, u64)> =
            peer.notices.iter().map(|notice| (notice.number, notice.age)).collect();
        set.sort_unstable();
        Note { set, puts: peer.notices_in, ihaves: peer.ihaves_in }
    }

    /// One number more than a set may have stands for all that are too many.
    fn read(gossip: &Gossip, slot: usize) -> Note {
        let counts = gossip[counts_cell(slot)];
        let length = (counts / LENGTH_LANE).min(MOST_NOTICES as u64 + 1) as usize;
        let ages = gossip[ages_cell(slot)];
        let age = |place: usize| match place {
            MOST_NOTICES => 0,
            _ => ages >> (2 * place) & (AGE_BASE - 1),
        };
        Note {
            set: (0..length).map(|place| (gossip[set_cell(slot) + place], age(place))).collect(),
            puts: counts % IHAVES_LANE,
            ihaves: counts / IHAVES_LANE % IHAVES_LANE,
        }
    }

    /// Of a set that is too long the numbers that fit.
    fn write(&self, gossip: &mut Gossip, slot: usize) {
        let length = self.set.len() as u64;
        gossip[counts_cell(slot)] = self.puts + self.ihaves * IHAVES_LANE + length * LENGTH_LANE;
        let mut ages = 0;
        for (place, &(number, age)) in self.set.iter().enumerate().take(MOST_NOTICES) {
            gossip[set_cell(slot) + place] = number;
            ages |= age << (2 * place);
        }
        if length > 0 {
            gossip[ages_cell(slot)] = ages;
        }
    }

    /// The form of a set: its numbers, as many as it may have, do not fall.
    fn is_sorted(&self) -> bool {
        let set = &self.set[..self.set.len().min(MOST_NOTICES)];
        set.windows(2).all(|pair| pair[0].0 <= pair[1].0)
    }
}

impl Held {
    pub fn of(router: &Router) -> Held {
        let mut replies = BTreeMap::new();
        for (slot, peer) in router.peers.iter().enumerate() {
            replies.extend(peer.replies.iter().map(|(&number, &count)| ((number, slot), count)));
        }
        Held {
            set_up: router.set_up,
            notes: router.peers.iter().map(Note::of).collect(),
            stores: router.stores.clone(),
            replies,
        }
    }

    /// What an array holds; none where it is not in form: sets or rows that fall, more rows than there are, a
    /// row without a count for a number that no topic stores.
    pub fn read(gossip: &Gossip) -> Option<Held> {
        let set_up: &[u64; SETUP_NUMBERS] = gossip[..SETUP_NUMBERS].try_into().ok()?;
        let notes: Vec<Note> = (0..SLOTS).map(|slot| Note::read(gossip, slot)).collect();
        let stores = std::array::from_fn(|topic| read_store(gossip, topic));
        let replies = read_replies(gossip, &stores)?;
        let held = Held { set_up: SetUp::of_numbers(*set_up), notes, stores, replies };
        held.notes.iter().all(Note::is_sorted).then_some(held)
    }

    /// Writes every cell that the state reads, and no other.
    pub fn write(&self, gossip: &mut Gossip) {
        gossip[..SETUP_NUMBERS].copy_from_slice(&self.set_up.numbers());
        for (slot, note) in self.notes.iter().enumerate() {
            note.write(gossip, slot);
        }
        for (topic, store) in self.stores.iter().enumerate() {
            write_store(gossip, topic, store);
        }
        self.write_replies(gossip);
    }

    fn write_replies(&self, gossip: &mut Gossip) {
        let mut rows = 0;
        let mut last = None;
        for (&(number, slot), &count) in &self.replies {
            if last != Some(number) {
                last = Some(number);
                let from = row_cell(rows);
                gossip[from] = number;
                gossip[from + HINT + 1..from + ROW_CELLS].fill(0);
                rows += 1;
            }
            gossip[reply_cell(rows - 1, slot)] |= count << reply_shift(slot);
        }
        gossip[REPLIES] = rows as u64;
    }

    /// Puts all of it into a router.
    pub fn put_into(&self, router: &mut Router) {
        router.set_up = self.set_up;
        router.stores = self.stores.clone();
        for (peer, note) in router.peers.iter_mut().zip(&self.notes) {
            peer.notices = note.set.iter().map(|&(number, age)| Notice { number, age }).collect();
            (peer.notices_in, peer.ihaves_in) = (note.puts, note.ihaves);
            peer.replies.clear();
        }
        for (&(number, slot), &count) in &self.replies {
            router.peers[slot].replies.insert(number, count);
        }
    }
}

/// One number more than a heartbeat may have stands for all that are too many.
fn read_store(gossip: &Gossip, topic: usize) -> Store {
    let heartbeats = std::array::from_fn(|heartbeat| {
        let count = gossip[window_cell(topic, heartbeat)].min(MOST_STORED as u64 + 1) as usize;
        gossip[numbers_cell(topic, heartbeat)..][..count].to_vec()
    });
    Store { heartbeats }
}

/// Of a heartbeat that is too long the numbers that fit.
fn write_store(gossip: &mut Gossip, topic: usize, store: &Store) {
    for (heartbeat, numbers) in store.heartbeats.iter().enumerate() {
        gossip[window_cell(topic, heartbeat)] = numbers.len() as u64;
        let fit = &numbers[..numbers.len().min(MOST_STORED)];
        gossip[numbers_cell(topic, heartbeat)..][..fit.len()].copy_from_slice(fit);
    }
}

fn read_replies(gossip: &Gossip, stores: &[Store; TOPICS]) -> Option<BTreeMap<(u64, usize), u64>> {
    let rows = usize::try_from(gossip[REPLIES]).ok().filter(|&rows| rows <= ROWS)?;
    let mut replies = BTreeMap::new();
    let mut last = None;
    for row in 0..rows {
        let number = gossip[row_cell(row)];
        if last >= Some(number) {
            return None;
        }
        last = Some(number);
        let counts = (0..SLOTS).map(|slot| read_reply(gossip, row, slot)).enumerate();
        let counts: Vec<(usize, u64)> = counts.filter(|&(_, count)| count > 0).collect();
        if counts.is_empty() && !stores.iter().any(|store| store.holds(number)) {
            return None;
        }
        replies.extend(counts.into_iter().map(|(slot, count)| ((number, slot), count)));
    }
    Some(replies)
}

fn read_reply(gossip: &Gossip, row: usize, slot: usize) -> u64 {
    gossip[reply_cell(row, slot)] >> reply_shift(slot) & ((1 << LANE_BITS) - 1)
}

#[cfg(test)]
mod tests {
    use super::*;
    use crate::gossip::script;
    use reference::gossip::NUMBER_LIST;
    use reference::mixed::Origin;
    use reference::random::Random;
    use reference::router::ACTION_LIST;

    #[test]
    fn regions_begin_where_the_crate_gossip_table_says() {
        assert_eq!((NOTES, STORES, REPLIES, GOSSIP_CELLS), (8, 8712, 11_312, 82_993));
        assert_eq!((set_cell(0), set_cell(1), ages_cell(0)), (264, 297, 296));
        assert_eq!((window_cell(1, 2), numbers_cell(1, 2)), (8719, 9200));
        assert_eq!((row_cell(1), reply_cell(0, 10), reply_shift(19)), (11_341, 11_316, 54));
    }

    fn noise(number: u64) -> Box<Gossip> {
        vec![number; GOSSIP_CELLS].try_into().expect("an array has its cells")
    }

    /// Over any noise what was written is read, and the state reads nothing else.
    fn undoes(router: &Router) {
        let due = Held::of(router);
        for number in [0, 1, u64::MAX] {
            let mut gossip = noise(number);
            due.write(&mut gossip);
            assert_eq!(Held::read(&gossip).as_ref(), Some(&due));
            let mut other = router.clone();
            Held::read(&gossip).expect("in form").put_into(&mut other);
            assert_eq!(Held::of(&other), due);
        }
    }

    #[test]
    fn reading_undoes_writing() {
        undoes(&script::members());
        undoes(&script::full(3));
        let mut random = Random::new(5);
        for _ in 0..20 {
            let origin = Origin::of(&mut random);
            let mut caller = origin.caller(300, Random::new(random.bits()));
            for _ in 0..300 {
                let event = caller.next_event();
                let mut numbers = [0; NUMBER_LIST];
                event.make(caller.router(), &mut [0; ACTION_LIST], &mut numbers);
            }
            undoes(caller.router());
        }
    }

    #[test]
    fn what_is_not_in_form_is_none() {
        let mut gossip = noise(0);
        Held::of(&script::full(3)).write(&mut gossip);
        let refused = |cell: usize, value: u64| {
            let mut gossip = gossip.clone();
            gossip[cell] = value;
            Held::read(&gossip).is_none()
        };
        assert!(refused(set_cell(4), u64::MAX), "a set that falls");
        assert!(refused(REPLIES, ROWS as u64 + 1), "too many rows");
        assert!(refused(row_cell(0), u64::MAX), "rows that fall");
        assert!(!refused(row_cell(0) + HINT, u64::MAX), "no state reads a hint");
        assert!(!refused(counts_cell(4), 40 * LENGTH_LANE), "too long is for test 12");
    }
}
