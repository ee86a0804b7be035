//! Writing.

use super::{good_table, id_with, name_of, packed};
use reference::message::{IdTable, Lists, NamesTable};
use reference::router::{GRAFT, IDONTWANT, PRUNE};

/// Writes lists: 0 with the length, 2, or 13.
pub fn write_message(names: &NamesTable, ids: &IdTable, lists: &Lists, buffer: &mut [u8]) -> u64 {
    let Some(lengths) = lengths(names, ids, lists) else { return packed(2, 0) };
    let Some(buffer) = buffer.get_mut(..lengths.message()) else { return packed(13, 0) };
    let mut out = Out { buffer, at: 0 };
    for change in lists.changes.chunks_exact(2) {
        let Some(name) = name_of(names, change[1]) else { continue };
        out.put(&[1 << 3 | 2, (name.len() + 2 + 2 * change[0] as usize) as u8]);
        if change[0] == 1 {
            out.put(&[1 << 3, 1]);
        }
        out.name(2 << 3 | 2, name);
    }
    if lengths.control() > 0 {
        out.put(&[3 << 3 | 2]);
        out.number(lengths.control());
        out.actions(names, lists, GRAFT);
        out.actions(names, lists, PRUNE);
    }
    if lengths.ids > 0 {
        out.put(&[5 << 3 | 2]);
        out.number(lengths.ids);
        out.ids(ids, lists);
    }
    packed(0, lengths.message())
}

/// The length of the subscriptions, of GRAFTs and PRUNEs, and of what the IDONTWANT holds.
struct Lengths {
    subscriptions: usize,
    actions: usize,
    ids: usize,
}

/// A field of so many bytes with its tag and length, and none of no bytes.
fn field_length(bytes: usize) -> usize {
    match bytes {
        0 => 0,
        1..=127 => 2 + bytes,
        _ => 3 + bytes,
    }
}

impl Lengths {
    fn control(&self) -> usize {
        self.actions + field_length(self.ids)
    }

    fn message(&self) -> usize {
        self.subscriptions + field_length(self.control())
    }
}

/// The bytes of a PRUNE's backoff, its tag too.
fn backoff_length(seconds: u32) -> usize {
    match seconds {
        0 => 0,
        1..=127 => 2,
        _ => 3,
    }
}

/// Tests the lists and adds up their lengths; none where they are wrong.
fn lengths(names: &NamesTable, table: &IdTable, lists: &Lists) -> Option<Lengths> {
    let Lists { actions, topics, changes } = lists;
    if actions.len() != 3 * topics.len() || topics.len() > 64 {
        return None;
    }
    if changes.len() % 2 == 1 || changes.len() > 16 {
        return None;
    }
    if !good_table(table) {
        return None;
    }
    let (mut of_actions, mut ids) = (0, 0);
    for (action, &topic) in actions.chunks_exact(3).zip(topics) {
        let good = match action[0] {
            GRAFT => action[2] == 0,
            PRUNE => action[2] <= 3600,
            IDONTWANT => action[2] == 0,
            _ => false,
        };
        if !good || action[1] == 0 || action[1] != actions[1] {
            return None;
        }
        if action[0] == IDONTWANT {
            ids += 2 + id_with(table, topic)?.len();
        } else {
            of_actions += 4 + name_of(names, topic)?.len() + backoff_length(action[2]);
        }
    }
    let mut subscriptions = 0;
    for change in changes.chunks_exact(2) {
        if change[0] > 1 {
            return None;
        }
        subscriptions += 4 + 2 * change[0] as usize + name_of(names, change[1])?.len();
    }
    Some(Lengths { subscriptions, actions: of_actions, ids })
}

/// The buffer, which is as long as the message, and the place up to which it is written.
struct Out<'a> {
    buffer: &'a mut [u8],
    at: usize,
}

impl Out<'_> {
    #[inline(always)]
    fn put(&mut self, bytes: &[u8]) {
        self.buffer[self.at..self.at + bytes.len()].copy_from_slice(bytes);
        self.at += bytes.len();
    }

    /// A number under 16,384.
    fn number(&mut self, value: usize) {
        if value < 0x80 {
            self.put(&[value as u8]);
        } else {
            self.put(&[value as u8 | 0x80, (value >> 7) as u8]);
        }
    }

    fn name(&mut self, tag: u8, name: &[u8]) {
        self.put(&[tag, name.len() as u8]);
        self.put(name);
    }

    fn ids(&mut self, ids: &IdTable, lists: &Lists) {
        for (action, &number) in lists.actions.chunks_exact(3).zip(&lists.topics) {
            if action[0] == IDONTWANT {
                let Some(id) = id_with(ids, number) else { continue };
                self.name(1 << 3 | 2, id);
            }
        }
    }

    fn actions(&mut self, names: &NamesTable, lists: &Lists, kind: u32) {
        for (action, &topic) in lists.actions.chunks_exact(3).zip(&lists.topics) {
            if action[0] != kind {
                continue;
            }
            let Some(name) = name_of(names, topic) else { continue };
            let tag = if kind == GRAFT { 3 << 3 | 2 } else { 4 << 3 | 2 };
            self.put(&[tag, (2 + name.len() + backoff_length(action[2])) as u8]);
            self.name(1 << 3 | 2, name);
            if action[2] > 0 {
                self.put(&[3 << 3]);
                self.number(action[2] as usize);
            }
        }
    }
}
