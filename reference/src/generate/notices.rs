//! Tables of message ids, good and bad, and lists with notices to be written: order 6 on the
//! wire. Messages with notices are made in `messages`.

use super::lists;
use crate::message::{IdTable, Ids, Lists, Names, Wrong, ID_ROW, LONGEST_ID};
use crate::random::Random;
use crate::router::IDONTWANT;

/// The kinds of tables that are refused.
pub const BAD: [&str; 4] =
    ["an id of 0 bytes", "an id of 65 bytes", "an id twice", "a number twice"];

/// A table of different ids: few or many, some of which begin others or are of 64 bytes.
pub fn good(random: &mut Random) -> Ids {
    let most = *random.pick(&[0, 1, 5, 5, 70]);
    let count = random.below(most + 1);
    let mut rows: Vec<(Vec<u8>, u64)> = Vec::new();
    for place in 0..count {
        let id = match random.below(4) {
            0 if place > 0 => [&rows[place - 1].0[..], &[random.bits() as u8]].concat(),
            1 => random.bytes(LONGEST_ID),
            _ => {
                let length = 1 + random.below(8);
                random.bytes(length)
            }
        };
        let any = random.bits();
        let number = *random.pick(&[0, u64::MAX, place as u64, any]);
        let known = rows.iter().any(|row| row.0 == id || row.1 == number);
        let fits = id.len() <= LONGEST_ID;
        // Six bytes of a count make any id and any number that of this row alone.
        let own = [&[0xee, place as u8][..], &random.bytes(4)].concat();
        rows.push(if known || !fits { (own, 1 << 50 | place as u64) } else { (id, number) });
    }
    Ids { rows }
}

/// A table that is refused, and why.
pub fn bad(random: &mut Random) -> (&'static str, Ids) {
    let mut ids = good(random);
    while ids.rows.len() < 2 {
        ids = good(random);
    }
    let kind = *random.pick(&BAD);
    let place = random.below(ids.rows.len());
    let other = (place + 1 + random.below(ids.rows.len() - 1)) % ids.rows.len();
    match kind {
        "an id of 0 bytes" => ids.rows[place].0.clear(),
        "an id of 65 bytes" => ids.rows[place].0 = random.bytes(LONGEST_ID + 1),
        "an id twice" => ids.rows[place].0 = ids.rows[other].0.clone(),
        _ => ids.rows[place].1 = ids.rows[other].1,
    }
    (kind, ids)
}

/// The kinds of lent tables that are refused besides.
pub const BAD_LENT: [&str; 8] = [
    "rows in another order",
    "numbers in another order",
    "a row named twice in the order",
    "no row named in the order",
    "ids one byte short",
    "ids one row longer",
    "numbers one short",
    "order one longer",
];

/// A lent table that is refused, and why.
pub fn bad_lent(random: &mut Random) -> (&'static str, IdTable) {
    if random.chance(1, 3) {
        let (kind, ids) = bad(random);
        return (kind, IdTable::sorted(&ids));
    }
    let mut ids = good(random);
    while ids.rows.len() < 2 {
        ids = good(random);
    }
    let mut table = IdTable::sorted(&ids);
    let rows = table.numbers.len();
    let place = random.below(rows - 1);
    let kind = *random.pick(&BAD_LENT);
    match kind {
        "rows in another order" => {
            let (front, back) = table.ids.split_at_mut(ID_ROW * (place + 1));
            front[ID_ROW * place..].swap_with_slice(&mut back[..ID_ROW]);
        }
        "numbers in another order" => table.order.swap(place, place + 1),
        "a row named twice in the order" => table.order[place + 1] = table.order[place],
        "no row named in the order" => {
            table.order[place] = *random.pick(&[rows as u64, 1 << 32, u64::MAX]);
        }
        "ids one byte short" => {
            table.ids.pop();
        }
        "ids one row longer" => table.ids.extend([LONGEST_ID as u8; ID_ROW]),
        "numbers one short" => {
            table.numbers.pop();
        }
        _ => table.order.push(rows as u64),
    }
    (kind, table)
}

/// Lists that are written, some of their actions notices where the table has ids.
pub fn list(random: &mut Random, names: &Names, ids: &Ids) -> Lists {
    let mut list = lists::good(random, names);
    if ids.rows.is_empty() {
        return list;
    }
    if list.topics.is_empty() {
        let id = 1 + random.below(9) as u32;
        for _ in 0..=random.below(64) {
            list.actions.extend([IDONTWANT, id, 0]);
            list.topics.push(random.pick(&ids.rows).1);
        }
        return list;
    }
    for (action, beside) in list.actions.chunks_mut(3).zip(&mut list.topics) {
        if random.chance(1, 2) {
            (action[0], action[2]) = (IDONTWANT, 0);
            *beside = random.pick(&ids.rows).1;
        }
    }
    list
}

/// Lists with one thing wrong that only lists with notices have; none where there is no notice
/// in them.
pub fn wrong(random: &mut Random, names: &Names, ids: &Ids, wrong: Wrong) -> Option<(Lists, Ids)> {
    let mut list = list(random, names, ids);
    let is_notice = |place: &usize| list.actions[3 * place] == IDONTWANT;
    let notices: Vec<usize> = (0..list.topics.len()).filter(is_notice).collect();
    let place = (!notices.is_empty()).then(|| *random.pick(&notices))?;
    let mut ids = ids.clone();
    match wrong {
        Wrong::NoticeThird => list.actions[3 * place + 2] = *random.pick(&[1, 60, u32::MAX]),
        Wrong::NumberNotInTable => {
            list.topics[place] = (0..).find(|&number| ids.id(number).is_none())?;
        }
        // A row that no notice of the list needs.
        _ => ids.rows.push((Vec::new(), (0..).find(|&number| ids.id(number).is_none())?)),
    }
    Some((list, ids))
}

#[cfg(test)]
mod tests {
    use super::*;
    use crate::generate::{messages, names};
    use crate::message::*;
    use std::collections::BTreeSet;

    fn any_names(random: &mut Random) -> Names {
        check_names(&names::good(random).table).expect("good names")
    }

    #[test]
    fn tables_are_good_or_bad() {
        let mut random = Random::new(1);
        let mut reached = BTreeSet::new();
        for _ in 0..3000 {
            assert!(good(&mut random).is_good());
            let (kind, ids) = bad(&mut random);
            assert!(!ids.is_good(), "{kind}");
            reached.insert(kind);
        }
        assert_eq!(reached.len(), BAD.len());
    }

    /// A table without rows changes the notices alone, and no break.
    #[test]
    fn messages_with_and_without_the_table() {
        let mut random = Random::new(2);
        let (mut known, mut unknown, mut inside) = (0, 0, 0);
        for _ in 0..6000 {
            let (names, ids) = (any_names(&mut random), good(&mut random));
            let message = messages::good_with(&mut random, &names, &ids).bytes;
            let entries = entries_with(&names, &ids, &message).expect("a good message");
            let is_notice = |entry: &Entry| entry.kind == Kind::Notice;
            let without = crate::message::entries(&names, &message).expect("a good message");
            assert_eq!(without.len(), entries.len());
            for (with, without) in entries.iter().zip(&without) {
                assert_eq!(with == without, !is_notice(with) || with.topic.is_none());
                known += usize::from(is_notice(with) && with.topic.is_some());
                unknown += usize::from(is_notice(with) && with.topic.is_none());
            }
            let bytes = messages::damaged_with(&mut random, &names, &ids).bytes;
            let with = entries_with(&names, &ids, &bytes).err();
            assert_eq!(with, crate::message::entries(&names, &bytes).err());
            inside += usize::from(with.is_some_and(|broken| broken.level == 2));
        }
        assert!(known > 100 && unknown > 100 && inside > 100, "{known} {unknown} {inside}");
    }

    /// Tables as they are lent: the sorted ones are accepted, with the same rows; in another
    /// order they are not.
    #[test]
    fn lent_tables() {
        let mut random = Random::new(4);
        let mut reached = BTreeSet::new();
        for _ in 0..3000 {
            let ids = good(&mut random);
            let found = IdTable::sorted(&ids).accepted().expect("a good table");
            assert_eq!(found.rows.len(), ids.rows.len());
            for (id, number) in &ids.rows {
                assert_eq!(found.number(id), Some(*number));
            }
            let (kind, table) = bad_lent(&mut random);
            assert_eq!(table.accepted(), None, "{kind}");
            assert!(!table.ids().is_good());
            reached.insert(kind);
        }
        assert_eq!(reached.len(), BAD.len() + BAD_LENT.len());
    }

    /// "Order 1 reads it back as the same entries, in its order, and writing those again gives
    /// the same bytes."
    #[test]
    fn written_messages_are_read_back() {
        let mut random = Random::new(3);
        let mut answers = BTreeSet::new();
        for round in 0..4000 {
            let (names, ids) = (any_names(&mut random), good(&mut random));
            let list = list(&mut random, &names, &ids);
            let mut buffer = vec![0x55; *random.pick(&[LONGEST_WRITTEN, LONGEST_WRITTEN, 40])];
            let answer = write_with(&names, &ids, &list, &mut buffer);
            answers.insert(answer.map_or_else(|refusal| refusal.number(), |_| 0));
            if let Ok(length) = answer {
                let found = entries_with(&names, &ids, &buffer[..length]).expect("written");
                assert_eq!(found, list.entries());
                let again = Lists::of_entries(&found, 9).expect("all known");
                let message = written_with(&names, &ids, &again.entries());
                assert_eq!(message, &buffer[..length]);
            }
            let kind = Wrong::OF_NOTICES[round % Wrong::OF_NOTICES.len()];
            let Some((list, ids)) = wrong(&mut random, &names, &ids, kind) else { continue };
            let wrongs: Vec<Wrong> = list.wrongs_with(&names, &ids).into_iter().collect();
            assert_eq!(wrongs, [kind]);
            let answer = write_with(&names, &ids, &list, &mut []);
            answers.insert(answer.expect_err("a wrong list").number());
        }
        assert_eq!(answers.into_iter().collect::<Vec<_>>(), [0, 2, 13]);
    }
}
