//! A value over events, of which only the changes are kept.

use std::ops::RangeInclusive;

/// Pairs of an event's place and the value after it.
#[derive(Clone, PartialEq, Eq, Debug)]
pub struct Changes<T>(Vec<(usize, T)>);

impl<T> Default for Changes<T> {
    fn default() -> Changes<T> {
        Changes(Vec::new())
    }
}

impl<T: PartialEq> Changes<T> {
    /// Notes the value after an event; says whether it is a change.
    pub fn note(&mut self, event: usize, value: T) -> bool {
        let changed = self.0.last().is_none_or(|last| last.1 != value);
        if changed {
            self.0.push((event, value));
        }
        changed
    }

    pub fn all(&self) -> &[(usize, T)] {
        &self.0
    }

    /// The value after an event; none before the first that is known.
    pub fn at(&self, event: usize) -> Option<&T> {
        let known = self.0.partition_point(|change| change.0 <= event);
        known.checked_sub(1).map(|place| &self.0[place].1)
    }

    /// The value after a run of events, if it is another than before them.
    pub fn made_by(&self, run: &RangeInclusive<usize>) -> Option<&T> {
        let before = run.start().checked_sub(1).and_then(|event| self.at(event));
        self.at(*run.end()).filter(|&after| before != Some(after))
    }
}

#[cfg(test)]
mod tests {
    use super::*;

    #[test]
    fn only_changes_are_kept() {
        let mut changes = Changes::default();
        let noted = [(2, 'a'), (3, 'a'), (5, 'b')].map(|(event, value)| changes.note(event, value));
        assert_eq!(noted, [true, false, true]);
        assert_eq!(changes.all(), [(2, 'a'), (5, 'b')]);
        let seen = [1, 2, 4, 5, 9].map(|event| changes.at(event).copied());
        assert_eq!(seen, [None, Some('a'), Some('a'), Some('b'), Some('b')]);
        let made = [2..=2, 3..=4, 3..=9, 6..=9].map(|run| changes.made_by(&run).copied());
        assert_eq!(made, [Some('a'), None, Some('b'), None]);
    }
}
