//! The topics' names, given at set-up.

use super::Refusal;
use crate::params::TOPICS;

/// 02, order 1: "Topic names of 1 to 64 bytes".
pub const LONGEST_NAME: usize = 64;

/// In the lent table a topic has a row: the length of its name, 0 for none, and 64 bytes.
pub const NAME_ROW: usize = 1 + LONGEST_NAME;
pub const NAMES_BYTES: usize = TOPICS * NAME_ROW;

pub type NamesTable = [u8; NAMES_BYTES];

/// The name of each topic that has one.
#[derive(Clone, PartialEq, Eq, Debug)]
pub struct Names {
    names: [Option<Vec<u8>>; TOPICS],
}

/// 02, order 1: "Topic names of 1 to 64 bytes are given at set-up, eight at most, no two
/// alike, or 2."
pub fn check_names(table: &NamesTable) -> Result<Names, Refusal> {
    if table.chunks(NAME_ROW).any(|row| usize::from(row[0]) > LONGEST_NAME) {
        return Err(Refusal::OutOfRange);
    }
    let names = Names::of_table(table);
    for topic in 0..TOPICS {
        for other in 0..topic {
            let (name, other) = (&names.names[topic], &names.names[other]);
            if name.is_some() && name == other {
                return Err(Refusal::OutOfRange);
            }
        }
    }
    Ok(names)
}

impl Names {
    /// The names of a table that set-up may have refused: a row with a length over 64 has
    /// no name.
    pub fn of_table(table: &NamesTable) -> Names {
        let name = |topic: usize| {
            let row = &table[NAME_ROW * topic..][..NAME_ROW];
            let length = usize::from(row[0]);
            (1..=LONGEST_NAME).contains(&length).then(|| row[1..=length].to_vec())
        };
        Names { names: std::array::from_fn(name) }
    }

    /// The topic of a name; of names alike, which set-up refuses, the first.
    pub fn topic(&self, name: &[u8]) -> Option<usize> {
        self.names.iter().position(|other| other.as_deref() == Some(name))
    }

    /// The name of a topic, none where it has none or there is no such topic.
    pub fn name(&self, topic: u64) -> Option<&[u8]> {
        self.names.get(usize::try_from(topic).ok()?)?.as_deref()
    }
}
