//! What one hub saw over time: the state of each of its peers and the size of
//! its mesh, as its table has them, and the news that came.

use crate::router::{Peer, Router};
use std::collections::{BTreeMap, BTreeSet};

/// How a hub stands to one of its peers.
#[derive(Clone, Copy, PartialEq, Eq, PartialOrd, Ord, Debug)]
pub enum State {
    /// No record of it.
    Absent,
    /// Disconnected, its record kept.
    Retained,
    /// Connected and no member, with nothing against it.
    Connected,
    /// No member, and its backoff runs.
    Backoff,
    /// No member, and its score is below zero.
    Below,
    Inbound,
    Outbound,
}

impl State {
    pub fn is_member(self) -> bool {
        matches!(self, State::Inbound | State::Outbound)
    }
}

/// How many members a mesh has.
#[derive(Clone, Copy, PartialEq, Eq, Debug, Default)]
pub struct Size {
    pub inbound: usize,
    pub outbound: usize,
}

impl Size {
    pub fn total(self) -> usize {
        self.inbound + self.outbound
    }
}

#[derive(Default)]
pub struct History {
    /// The changes of each peer's state, and the time of each.
    rows: BTreeMap<u32, Vec<(u64, State)>>,
    /// The changes of the mesh's size, and the time of each.
    sizes: Vec<(u64, Size)>,
    /// The size after each heartbeat.
    after_heartbeats: Vec<(u64, Size)>,
    /// When each message was published, and whether it came.
    news: Vec<(u64, bool)>,
    /// The peers whose score was below zero at the last heartbeat.
    below: BTreeSet<u32>,
}

impl History {
    /// Takes the scores at a heartbeat's start. Asking for a score moves
    /// nothing but the clock, which stands there already.
    pub fn rate(&mut self, time: u64, router: &mut Router) {
        let connected = router.connected();
        self.below = connected.into_iter().filter(|&id| router.score(time, id) < 0).collect();
    }

    /// Notes what has changed in the table.
    pub fn note(&mut self, time: u64, router: &Router) {
        let mut size = Size::default();
        let mut seen = BTreeMap::new();
        for peer in router.peers() {
            let state = self.state(time, &peer);
            size.inbound += usize::from(state == State::Inbound);
            size.outbound += usize::from(state == State::Outbound);
            seen.insert(peer.id, state);
        }
        for &id in seen.keys() {
            self.rows.entry(id).or_default();
        }
        for (id, changes) in &mut self.rows {
            change(changes, time, *seen.get(id).unwrap_or(&State::Absent));
        }
        change(&mut self.sizes, time, size);
    }

    /// Notes what a heartbeat has left.
    pub fn note_heartbeat(&mut self, time: u64, router: &Router) {
        self.note(time, router);
        self.after_heartbeats.extend(self.sizes.last().map(|last| (time, last.1)));
    }

    pub fn note_news(&mut self, published: u64, came: bool) {
        self.news.push((published, came));
    }

    fn state(&self, time: u64, peer: &Peer) -> State {
        if !peer.connected {
            State::Retained
        } else if peer.member && peer.outbound {
            State::Outbound
        } else if peer.member {
            State::Inbound
        } else if self.below.contains(&peer.id) {
            State::Below
        } else if time < peer.backoff_end {
            State::Backoff
        } else {
            State::Connected
        }
    }

    /// A peer's states from its first record to the end, each with the times
    /// at which it begins and ends.
    pub fn spans(&self, id: u32, end: u64) -> Vec<(u64, u64, State)> {
        spans(self.rows.get(&id).map_or(&[], Vec::as_slice), end)
    }

    pub fn size_spans(&self, end: u64) -> Vec<(u64, u64, Size)> {
        spans(&self.sizes, end)
    }

    pub fn after_heartbeats(&self) -> &[(u64, Size)] {
        &self.after_heartbeats
    }

    /// Did all come that was published from `from` to before `to`?
    pub fn all_news_came(&self, from: u64, to: u64) -> bool {
        self.news.iter().all(|&(published, came)| came || published < from || published >= to)
    }

    /// A peer's state at a time.
    pub fn at(&self, id: u32, time: u64) -> State {
        let changes = self.rows.get(&id).map_or(&[][..], Vec::as_slice);
        let before = changes.iter().take_while(|change| change.0 <= time).last();
        before.map_or(State::Absent, |change| change.1)
    }

    /// When a peer was first in a state.
    pub fn first(&self, id: u32, state: State) -> Option<u64> {
        let mut changes = self.rows.get(&id)?.iter();
        changes.find(|change| change.1 == state).map(|change| change.0)
    }

    /// Was a peer a member at any time from `from` to before `to`?
    pub fn ever_member(&self, id: u32, from: u64, to: u64) -> bool {
        let overlaps = |&(begin, end, state): &(u64, u64, State)| {
            state.is_member() && begin < to && from < end
        };
        self.spans(id, to).iter().any(overlaps)
    }
}

/// Adds a change, if it is one.
fn change<T: PartialEq>(changes: &mut Vec<(u64, T)>, time: u64, value: T) {
    if changes.last().is_some_and(|last| last.1 == value) {
        return;
    }
    // Of several changes at one time the last stands.
    if changes.last().is_some_and(|last| last.0 == time) {
        changes.pop();
        return change(changes, time, value);
    }
    changes.push((time, value));
}

fn spans<T: Copy>(changes: &[(u64, T)], end: u64) -> Vec<(u64, u64, T)> {
    let ends = changes.iter().skip(1).map(|change| change.0).chain([end]);
    let spans = changes.iter().zip(ends).map(|(&(begin, value), end)| (begin, end, value));
    spans.filter(|span| span.0 < span.1).collect()
}

#[cfg(test)]
mod tests {
    use super::*;

    #[test]
    fn only_changes_are_kept() {
        let mut changes = Vec::new();
        for (time, value) in [(0, 'a'), (1, 'a'), (2, 'b'), (2, 'a'), (3, 'c'), (3, 'd')] {
            change(&mut changes, time, value);
        }
        assert_eq!(changes, [(0, 'a'), (3, 'd')]);
    }

    #[test]
    fn the_last_span_ends_at_the_end() {
        assert_eq!(spans(&[(0, 'a'), (3, 'd')], 9), [(0, 3, 'a'), (3, 9, 'd')]);
        assert_eq!(spans::<char>(&[], 9), []);
    }
}
