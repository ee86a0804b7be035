//! 02, order 1: "Read the real messages", and order 6's notices.

use super::field::{Broken, Content, Field, Fields};
use super::{control, graft, idontwant, prune, rpc, subscription};
use super::{Entry, Ids, Kind, Names, Refusal, ENTRY_LIST, LONGEST_MESSAGE};

/// Reads a message into the lent list and says how many entries it has, with a table of
/// message ids that has none. A refusal leaves the list as it was, and so are the numbers past
/// the entries.
pub fn read(names: &Names, message: &[u8], list: &mut [u64]) -> Result<usize, Refusal> {
    read_with(names, &Ids::default(), message, list)
}

/// The same with a lent table of message ids.
pub fn read_with(
    names: &Names,
    ids: &Ids,
    message: &[u8],
    list: &mut [u64],
) -> Result<usize, Refusal> {
    // "A lent list with no room for 8,192 entries is 8, tested first."
    if list.len() < ENTRY_LIST {
        return Err(Refusal::ShortList);
    }
    // "(else 2, after 8)"
    if !ids.is_good() {
        return Err(Refusal::OutOfRange);
    }
    // "A message over 16,384 bytes gives 10 with place 16,384."
    if message.len() > LONGEST_MESSAGE {
        return Err(Refusal::TooLong);
    }
    let entries = entries_with(names, ids, message).map_err(Refusal::Malformed)?;
    for (numbers, entry) in list.chunks_exact_mut(3).zip(&entries) {
        numbers.copy_from_slice(&entry.numbers());
    }
    Ok(entries.len())
}

/// The entries of a message in their order, or the field that is found broken first.
pub fn entries(names: &Names, message: &[u8]) -> Result<Vec<Entry>, Broken> {
    entries_with(names, &Ids::default(), message)
}

/// The same with a lent table of message ids.
pub fn entries_with(names: &Names, ids: &Ids, message: &[u8]) -> Result<Vec<Entry>, Broken> {
    let mut found = Found {
        names,
        ids,
        subscriptions: vec![],
        grafts: vec![],
        prunes: vec![],
        notices: vec![],
    };
    let mut fields = Fields::of_message(message);
    while let Some(field) = fields.next_field()? {
        found.take_of_rpc(field)?;
    }
    // "subscriptions come first, then GRAFTs, then PRUNEs, each in message order"; order 6:
    // "an entry for each id, after the PRUNEs".
    Ok([found.subscriptions, found.grafts, found.prunes, found.notices].concat())
}

/// The entries found so far. A repeated control field adds to them: "Entries of a repeated
/// control field are joined."
struct Found<'a> {
    names: &'a Names,
    ids: &'a Ids,
    subscriptions: Vec<Entry>,
    grafts: Vec<Entry>,
    prunes: Vec<Entry>,
    notices: Vec<Entry>,
}

// In each match below: "Unknown fields, and known ones of another wire type, are skipped".
// What a field holds is read before the field after it: so the first that is found broken
// is the first from the front, and the innermost.
impl Found<'_> {
    /// "RPC subscriptions 1 (subscribe 1, topic 2), publish 2 skipped, control 3"
    fn take_of_rpc(&mut self, field: Field) -> Result<(), Broken> {
        match (field.number, field.content) {
            (rpc::SUBSCRIPTIONS, Content::Bytes(inside)) => {
                let entry = self.subscription(inside.fields())?;
                self.subscriptions.push(entry);
            }
            (rpc::CONTROL, Content::Bytes(inside)) => {
                let mut fields = inside.fields();
                while let Some(field) = fields.next_field()? {
                    self.take_of_control(field)?;
                }
            }
            _ => {}
        }
        Ok(())
    }

    /// "control holds ihave 1, iwant 2 (both skipped), graft 3, prune 4"; order 6: "Control
    /// entry 5 (messageIDs 1) is read".
    fn take_of_control(&mut self, field: Field) -> Result<(), Broken> {
        match (field.number, field.content) {
            (control::GRAFT, Content::Bytes(inside)) => {
                let entry = self.graft(inside.fields())?;
                self.grafts.push(entry);
            }
            (control::PRUNE, Content::Bytes(inside)) => {
                let entry = self.prune(inside.fields())?;
                self.prunes.push(entry);
            }
            (control::IDONTWANT, Content::Bytes(inside)) => {
                self.notices(inside.fields())?;
            }
            _ => {}
        }
        Ok(())
    }

    /// "an id not in it is 11"
    fn notices(&mut self, mut fields: Fields) -> Result<(), Broken> {
        while let Some(field) = fields.next_field()? {
            if let (idontwant::MESSAGE_IDS, Content::Bytes(inside)) = (field.number, field.content)
            {
                let number = self.ids.number(inside.bytes());
                let (topic, value) = (number.map(|_| 0), number.unwrap_or(0));
                self.notices.push(Entry { kind: Kind::Notice, topic, value });
            }
        }
        Ok(())
    }

    // In the three below an optional field is set again each time: "a repeated optional
    // field's last counts".

    /// "subscribe 1, topic 2"; "a missing backoff or subscribe is 0, a subscribe above 0
    /// is 1"
    fn subscription(&self, mut fields: Fields) -> Result<Entry, Broken> {
        let (mut topic, mut value) = (None, 0);
        while let Some(field) = fields.next_field()? {
            match (field.number, field.content) {
                (subscription::SUBSCRIBE, Content::Number(number)) => value = number.min(1),
                (subscription::TOPIC, Content::Bytes(inside)) => {
                    topic = self.names.topic(inside.bytes());
                }
                _ => {}
            }
        }
        Ok(Entry { kind: Kind::Subscription, topic, value })
    }

    /// "GRAFT has topicID 1"
    fn graft(&self, mut fields: Fields) -> Result<Entry, Broken> {
        let mut topic = None;
        while let Some(field) = fields.next_field()? {
            if let (graft::TOPIC_ID, Content::Bytes(inside)) = (field.number, field.content) {
                topic = self.names.topic(inside.bytes());
            }
        }
        Ok(Entry { kind: Kind::Graft, topic, value: 0 })
    }

    /// "PRUNE topicID 1, peers 2 (skipped), backoff 3 in seconds"
    fn prune(&self, mut fields: Fields) -> Result<Entry, Broken> {
        let (mut topic, mut value) = (None, 0);
        while let Some(field) = fields.next_field()? {
            match (field.number, field.content) {
                (prune::TOPIC_ID, Content::Bytes(inside)) => {
                    topic = self.names.topic(inside.bytes());
                }
                (prune::BACKOFF, Content::Number(seconds)) => value = seconds,
                _ => {}
            }
        }
        Ok(Entry { kind: Kind::Prune, topic, value })
    }
}
