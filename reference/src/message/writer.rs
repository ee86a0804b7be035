//! 02, order 4: "Write the messages too", and order 6's notices.

use super::{control, graft, idontwant, prune, rpc, subscription, wire};
use super::{Entry, Ids, Kind, Names, Refusal};
use crate::groups::write_unsigned;
use crate::params::TOPICS;
use crate::router::{GRAFT, IDONTWANT, PRUNE};
use std::collections::BTreeSet;

/// "at most 64 actions of 01's form) and at most 8 joins and leaves of ours"
const MOST_ACTIONS: usize = 64;
const MOST_CHANGES: usize = 8;

/// A backoff of 01's form, in seconds.
const LONGEST_BACKOFF: u32 = 3600;

/// The longest message that is written: 64 PRUNEs with a backoff of two bytes in a control
/// field whose length has two bytes, 8 joins, all with names of 64 bytes.
pub const LONGEST_WRITTEN: usize = (3 + 64 * 71) + 8 * 70;

/// The lists as they are lent.
#[derive(Clone, PartialEq, Eq, Debug, Default)]
pub struct Lists {
    /// Three numbers for each action, as 01 has them: kind, peer id, seconds.
    pub actions: Vec<u32>,
    /// The topic of each action; of kind 3 the message's number: "each with its number for a
    /// topic".
    pub topics: Vec<u64>,
    /// Two numbers for each join (1) or leave (0) of ours: which of them, and the topic.
    pub changes: Vec<u64>,
}

/// What keeps lists from being written.
#[derive(Clone, Copy, PartialEq, Eq, PartialOrd, Ord, Debug)]
pub enum Wrong {
    NotATopicEach,
    TooManyActions,
    ActionKind,
    IdZero,
    TwoIds,
    GraftSeconds,
    PruneSeconds,
    ActionTopic,
    ActionTopicUnnamed,
    HalfAChange,
    TooManyChanges,
    ChangeKind,
    ChangeTopic,
    ChangeTopicUnnamed,
    /// The third number of an action of kind 3 is not 0.
    NoticeThird,
    /// "a number not in it 2"
    NumberNotInTable,
    /// "ids of 1 to 64 bytes, no id or number twice (else 2 ..)"
    Table,
}

impl Wrong {
    /// Those of lists with notices.
    pub const OF_NOTICES: [Wrong; 3] = [Wrong::NoticeThird, Wrong::NumberNotInTable, Wrong::Table];

    /// The others.
    pub const ALL: [Wrong; 14] = [
        Wrong::NotATopicEach,
        Wrong::TooManyActions,
        Wrong::ActionKind,
        Wrong::IdZero,
        Wrong::TwoIds,
        Wrong::GraftSeconds,
        Wrong::PruneSeconds,
        Wrong::ActionTopic,
        Wrong::ActionTopicUnnamed,
        Wrong::HalfAChange,
        Wrong::TooManyChanges,
        Wrong::ChangeKind,
        Wrong::ChangeTopic,
        Wrong::ChangeTopicUnnamed,
    ];
}

/// Writes a message to the start of the buffer and says how long it is: "Any other list is
/// 2, first; a buffer shorter than the message, and here only that, a new number 13. The
/// buffer is unchanged by either, and past the message."
pub fn write(names: &Names, lists: &Lists, buffer: &mut [u8]) -> Result<usize, Refusal> {
    write_with(names, &Ids::default(), lists, buffer)
}

/// The same with a lent table of message ids: "order 4's list takes kind 3".
pub fn write_with(
    names: &Names,
    ids: &Ids,
    lists: &Lists,
    buffer: &mut [u8],
) -> Result<usize, Refusal> {
    if !lists.wrongs_with(names, ids).is_empty() {
        return Err(Refusal::OutOfRange);
    }
    let message = written_with(names, ids, &lists.entries());
    let start = buffer.get_mut(..message.len()).ok_or(Refusal::ShortBuffer)?;
    start.copy_from_slice(&message);
    Ok(message.len())
}

/// What is wrong so far.
struct Wrongs(BTreeSet<Wrong>);

impl Wrongs {
    fn add_if(&mut self, holds: bool, wrong: Wrong) {
        if holds {
            self.0.insert(wrong);
        }
    }

    /// "each with a named topic"
    fn add_topic(&mut self, names: &Names, topic: u64, none: Wrong, unnamed: Wrong) {
        let is_topic = topic < TOPICS as u64;
        self.add_if(!is_topic, none);
        self.add_if(is_topic && names.name(topic).is_none(), unnamed);
    }
}

impl Lists {
    /// Everything that is wrong where the table of message ids has none.
    pub fn wrongs(&self, names: &Names) -> BTreeSet<Wrong> {
        self.wrongs_with(names, &Ids::default())
    }

    /// Everything that is wrong: each list must be "an action list for one peer (at most 64
    /// actions of 01's form) and at most 8 joins and leaves of ours, each with a named
    /// topic".
    pub fn wrongs_with(&self, names: &Names, ids: &Ids) -> BTreeSet<Wrong> {
        let mut wrongs = Wrongs(BTreeSet::new());
        wrongs.add_if(!ids.is_good(), Wrong::Table);
        wrongs.add_if(self.actions.len() != 3 * self.topics.len(), Wrong::NotATopicEach);
        wrongs.add_if(self.topics.len() > MOST_ACTIONS, Wrong::TooManyActions);
        self.add_actions(&mut wrongs);
        self.add_topics(names, ids, &mut wrongs);
        self.add_changes(names, &mut wrongs);
        wrongs.0
    }

    fn add_actions(&self, wrongs: &mut Wrongs) {
        for action in self.actions.chunks_exact(3) {
            let (kind, id, third) = (action[0], action[1], action[2]);
            let notice = kind == IDONTWANT;
            wrongs.add_if(kind != GRAFT && kind != PRUNE && !notice, Wrong::ActionKind);
            wrongs.add_if(id == 0, Wrong::IdZero);
            wrongs.add_if(id != self.actions[1], Wrong::TwoIds);
            wrongs.add_if(kind == GRAFT && third != 0, Wrong::GraftSeconds);
            wrongs.add_if(kind == PRUNE && third > LONGEST_BACKOFF, Wrong::PruneSeconds);
            wrongs.add_if(notice && third != 0, Wrong::NoticeThird);
        }
    }

    fn add_topics(&self, names: &Names, ids: &Ids, wrongs: &mut Wrongs) {
        for (place, &topic) in self.topics.iter().enumerate() {
            if self.actions.get(3 * place) == Some(&IDONTWANT) {
                wrongs.add_if(ids.id(topic).is_none(), Wrong::NumberNotInTable);
            } else {
                wrongs.add_topic(names, topic, Wrong::ActionTopic, Wrong::ActionTopicUnnamed);
            }
        }
    }

    fn add_changes(&self, names: &Names, wrongs: &mut Wrongs) {
        wrongs.add_if(!self.changes.len().is_multiple_of(2), Wrong::HalfAChange);
        wrongs.add_if(self.changes.len() / 2 > MOST_CHANGES, Wrong::TooManyChanges);
        for change in self.changes.chunks_exact(2) {
            wrongs.add_if(change[0] > 1, Wrong::ChangeKind);
            wrongs.add_topic(names, change[1], Wrong::ChangeTopic, Wrong::ChangeTopicUnnamed);
        }
    }

    /// The entries of good lists in order 1's order: the joins and leaves, the GRAFTs, the
    /// PRUNEs, the notices, each as listed.
    pub fn entries(&self) -> Vec<Entry> {
        let change = |change: &[u64]| Entry {
            kind: Kind::Subscription,
            topic: Some(change[1] as usize),
            value: change[0],
        };
        let actions = self.actions.chunks(3).zip(&self.topics).map(action_entry);
        let mut entries: Vec<Entry> = self.changes.chunks(2).map(change).chain(actions).collect();
        // The sort is stable: of one kind they stay as listed.
        entries.sort_by_key(|entry| entry.kind);
        entries
    }

    /// The lists that give these entries, for a peer; none where an entry has no topic or a
    /// number does not fit.
    pub fn of_entries(entries: &[Entry], id: u32) -> Option<Lists> {
        let mut lists = Lists::default();
        for entry in entries {
            let topic = entry.topic? as u64;
            let (action, beside) = match entry.kind {
                Kind::Subscription => {
                    lists.changes.extend([entry.value, topic]);
                    continue;
                }
                Kind::Graft => ([GRAFT, id, u32::try_from(entry.value).ok()?], topic),
                Kind::Prune => ([PRUNE, id, u32::try_from(entry.value).ok()?], topic),
                Kind::Notice => ([IDONTWANT, id, 0], entry.value),
            };
            lists.actions.extend(action);
            lists.topics.push(beside);
        }
        Some(lists)
    }
}

/// The entry of an action with what stands beside it.
fn action_entry((action, &beside): (&[u32], &u64)) -> Entry {
    let (topic, value) = (Some(beside as usize), u64::from(action[2]));
    match action[0] {
        GRAFT => Entry { kind: Kind::Graft, topic, value },
        PRUNE => Entry { kind: Kind::Prune, topic, value },
        _ => Entry { kind: Kind::Notice, topic: Some(0), value: beside },
    }
}

/// The message of entries without notices.
pub fn written(names: &Names, entries: &[Entry]) -> Vec<u8> {
    written_with(names, &Ids::default(), entries)
}

/// The message of entries that all have named topics, or numbers in the table, and stand in
/// their order: "fields in ascending order, one control field or none, shortest numbers,
/// absent rather than zero". Order 6: "written, all ids in one field".
pub fn written_with(names: &Names, ids: &Ids, entries: &[Entry]) -> Vec<u8> {
    let (mut message, mut inside_control, mut wanted_not) = (Vec::new(), Vec::new(), Vec::new());
    for entry in entries {
        let topic = || entry.topic.and_then(|topic| names.name(topic as u64)).expect("a name");
        let mut inside = Vec::new();
        match entry.kind {
            Kind::Subscription => {
                put_number(subscription::SUBSCRIBE, entry.value, &mut inside);
                put_bytes(subscription::TOPIC, topic(), &mut inside);
                put_bytes(rpc::SUBSCRIPTIONS, &inside, &mut message);
            }
            Kind::Graft => {
                put_bytes(graft::TOPIC_ID, topic(), &mut inside);
                put_bytes(control::GRAFT, &inside, &mut inside_control);
            }
            Kind::Prune => {
                put_bytes(prune::TOPIC_ID, topic(), &mut inside);
                put_number(prune::BACKOFF, entry.value, &mut inside);
                put_bytes(control::PRUNE, &inside, &mut inside_control);
            }
            Kind::Notice => {
                let id = ids.id(entry.value).expect("an id");
                put_bytes(idontwant::MESSAGE_IDS, id, &mut wanted_not);
            }
        }
    }
    if !wanted_not.is_empty() {
        put_bytes(control::IDONTWANT, &wanted_not, &mut inside_control);
    }
    if !inside_control.is_empty() {
        put_bytes(rpc::CONTROL, &inside_control, &mut message);
    }
    message
}

/// "absent rather than zero"
fn put_number(field: u64, value: u64, out: &mut Vec<u8>) {
    if value != 0 {
        write_unsigned(field << 3 | wire::NUMBER, out);
        write_unsigned(value, out);
    }
}

fn put_bytes(field: u64, bytes: &[u8], out: &mut Vec<u8>) {
    write_unsigned(field << 3 | wire::LENGTH, out);
    write_unsigned(bytes.len() as u64, out);
    out.extend_from_slice(bytes);
}
