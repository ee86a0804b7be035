//! Lists to be written as messages, good and wrong.

use crate::message::{Lists, Names, Wrong};
use crate::params::TOPICS;
use crate::random::Random;
use crate::router::{GRAFT, PRUNE};

const ACTIONS: i64 = 64;
const CHANGES: i64 = 8;

fn named_topics(names: &Names) -> Vec<u64> {
    (0..TOPICS as u64).filter(|&topic| names.name(topic).is_some()).collect()
}

/// Lists that are written; empty ones where no topic has a name.
pub fn good(random: &mut Random, names: &Names) -> Lists {
    let topics = named_topics(names);
    if topics.is_empty() {
        return Lists::default();
    }
    let most = *random.pick(&[3, 10, ACTIONS]);
    let actions = random.often_an_end(0, most);
    let changes = random.often_an_end(0, CHANGES);
    of_sizes(random, &topics, actions as usize, changes as usize)
}

fn of_sizes(random: &mut Random, topics: &[u64], actions: usize, changes: usize) -> Lists {
    let mut lists = Lists::default();
    let id = an_id(random);
    for _ in 0..actions {
        lists.actions.extend(an_action(random, id));
        lists.topics.push(*random.pick(topics));
    }
    for _ in 0..changes {
        lists.changes.extend([random.below(2) as u64, *random.pick(topics)]);
    }
    lists
}

fn an_id(random: &mut Random) -> u32 {
    random.often_an_end(1, i64::from(u32::MAX)) as u32
}

fn an_action(random: &mut Random, id: u32) -> [u32; 3] {
    if random.chance(1, 2) {
        return [GRAFT, id, 0];
    }
    let any = random.often_an_end(0, 3600) as u32;
    [PRUNE, id, *random.pick(&[0, 1, 127, 128, 3600, any, any])]
}

/// Numbers that are no topics; the low 32 bits of some are.
const NO_TOPIC: [u64; 8] = [8, 9, 11, 255, 256, 1 << 32, (1 << 32) + 1, u64::MAX];

/// Lists with one thing wrong; none where the names do not allow it, or where it takes notices.
pub fn wrong(random: &mut Random, names: &Names, wrong: Wrong) -> Option<Lists> {
    let topics = named_topics(names);
    if topics.is_empty() || Wrong::OF_NOTICES.contains(&wrong) {
        return None;
    }
    let actions = match wrong {
        Wrong::TooManyActions => *random.pick(&[65, 66, 100, 128, 256, 300]),
        Wrong::TwoIds => 2 + random.below(63),
        _ => 1 + random.below(64),
    };
    let changes = match wrong {
        Wrong::TooManyChanges => *random.pick(&[9, 10, 16, 17, 128, 200]),
        _ => 1 + random.below(8),
    };
    let mut lists = of_sizes(random, &topics, actions, changes);
    let unnamed: Vec<u64> = (0..TOPICS as u64).filter(|topic| !topics.contains(topic)).collect();
    put_wrong(random, &mut lists, &unnamed, wrong)?;
    Some(lists)
}

/// Puts the wrong thing into lists with an action and a change at least.
fn put_wrong(random: &mut Random, lists: &mut Lists, unnamed: &[u64], wrong: Wrong) -> Option<()> {
    let place = random.below(lists.topics.len());
    let (action, topic) = (&mut lists.actions[3 * place..][..3], &mut lists.topics[place]);
    let changes = lists.changes.len() / 2;
    let change = &mut lists.changes[2 * random.below(changes)..][..2];
    match wrong {
        Wrong::NotATopicEach => not_a_topic_each(random, lists),
        Wrong::ActionKind => {
            (action[0], action[2]) = (*random.pick(&[0, 4, 5, 255, 257, u32::MAX]), 0);
        }
        Wrong::IdZero => lists.actions.chunks_mut(3).for_each(|action| action[1] = 0),
        Wrong::TwoIds => action[1] = if action[1] == 1 { 2 } else { action[1] - 1 },
        Wrong::GraftSeconds => {
            (action[0], action[2]) = (GRAFT, *random.pick(&[1, 60, 3600, 3601, u32::MAX]));
        }
        Wrong::PruneSeconds => {
            (action[0], action[2]) = (PRUNE, *random.pick(&[3601, 3602, 65_536, u32::MAX]));
        }
        Wrong::ActionTopic => *topic = *random.pick(&NO_TOPIC),
        Wrong::ActionTopicUnnamed | Wrong::ChangeTopicUnnamed if unnamed.is_empty() => return None,
        Wrong::ActionTopicUnnamed => *topic = *random.pick(unnamed),
        Wrong::HalfAChange => {
            lists.changes.pop();
        }
        Wrong::ChangeKind => change[0] = *random.pick(&[2, 3, 256, 1 << 32, u64::MAX]),
        Wrong::ChangeTopic => change[1] = *random.pick(&NO_TOPIC),
        Wrong::ChangeTopicUnnamed => change[1] = *random.pick(unnamed),
        // Too many actions or changes are so already.
        _ => {}
    }
    Some(())
}

/// Numbers of actions, or topics, too many or missing.
fn not_a_topic_each(random: &mut Random, lists: &mut Lists) {
    match random.below(6) {
        0 => lists.actions.truncate(lists.actions.len() - 1),
        1 => lists.actions.truncate(lists.actions.len() - 2),
        2 => lists.actions.truncate(lists.actions.len() - 3),
        3 => lists.actions.push(GRAFT),
        4 => lists.topics.truncate(lists.topics.len() - 1),
        _ => lists.actions.clear(),
    }
}

/// Lists of any length with any numbers, mostly small.
pub fn any(random: &mut Random) -> Lists {
    let numbers = |random: &mut Random, most: usize| -> Vec<u64> {
        let length = random.below(most + 1);
        let small = random.chance(3, 4);
        let number = |_| if small { random.below(9) as u64 } else { random.of_any_width() };
        (0..length).map(number).collect()
    };
    let topics = numbers(random, 70);
    let mut actions: Vec<u32> = numbers(random, 210).iter().map(|&number| number as u32).collect();
    if random.chance(3, 4) {
        actions.resize(3 * topics.len(), 1);
    }
    Lists { actions, topics, changes: numbers(random, 20) }
}

#[cfg(test)]
mod tests {
    use super::*;
    use crate::generate::names;
    use crate::message::check_names;

    #[test]
    fn lists_are_good_or_wrong_in_one_way() {
        let mut random = Random::new(1);
        for round in 0..5000 {
            let table = names::good(&mut random).table;
            let names = check_names(&table).expect("good names");
            assert!(good(&mut random, &names).wrongs(&names).is_empty());
            let kind = Wrong::ALL[round % Wrong::ALL.len()];
            if let Some(lists) = wrong(&mut random, &names, kind) {
                let wrongs: Vec<_> = lists.wrongs(&names).into_iter().collect();
                assert_eq!(wrongs, [kind], "{lists:?}");
            }
        }
    }
}
