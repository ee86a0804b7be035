//! Tables that are no router's by test 12's additions in orders 6, 7 and 8.

use crate::params::TOPICS;
use crate::random::Random;
use crate::router::{Notice, Peer, Router, Status, LONGEST_BACKOFF_MS, LONGEST_RETAIN_MS};
use crate::router::{MOST_NOTICES, MOST_STORED, NOTICE_LIFE, STORED_HEARTBEATS};
use crate::set_up::{SetUp, COUNT, LIMITS};

/// What is damaged.
#[derive(Clone, Copy, PartialEq, Eq, PartialOrd, Ord, Debug)]
pub enum Damage {
    SetUpNumber,
    SetOf33,
    NumberTwiceInASet,
    EntryThreeHeartbeatsOld,
    NoticeOfARetainedRecord,
    NoticeOfAnEmptyRecord,
    NoticesOverTheLimit,
    CountOfAnEmptyRecord,
    IHavesOverTheBound,
    RepliesOverTheBound,
    RepliesForNoStoredNumber,
    RepliesOfARetainedRecord,
    BackoffTooFar,
    RetainTooFar,
    StoreOf65,
    NumberTwiceInAHeartbeat,
    NumberInTwoHeartbeats,
    StoreOfATopicNotJoined,
}

/// A number that no call stores or puts in.
const STRANGE: u64 = 0x5555_5555_5555_5555;

impl Damage {
    pub const ALL: [Damage; 18] = [
        Damage::SetUpNumber,
        Damage::SetOf33,
        Damage::NumberTwiceInASet,
        Damage::EntryThreeHeartbeatsOld,
        Damage::NoticeOfARetainedRecord,
        Damage::NoticeOfAnEmptyRecord,
        Damage::NoticesOverTheLimit,
        Damage::CountOfAnEmptyRecord,
        Damage::IHavesOverTheBound,
        Damage::RepliesOverTheBound,
        Damage::RepliesForNoStoredNumber,
        Damage::RepliesOfARetainedRecord,
        Damage::BackoffTooFar,
        Damage::RetainTooFar,
        Damage::StoreOf65,
        Damage::NumberTwiceInAHeartbeat,
        Damage::NumberInTwoHeartbeats,
        Damage::StoreOfATopicNotJoined,
    ];

    /// Damages the tables; none where they have no place for it.
    pub fn put_in(self, router: &mut Router, random: &mut Random) -> Option<()> {
        match self {
            Damage::SetUpNumber => damage_set_up(router, random),
            _ if self >= Damage::StoreOf65 => self.put_in_store(router, random)?,
            _ if self >= Damage::NoticesOverTheLimit => self.put_in_record(router, random)?,
            _ => self.put_in_set(router, random)?,
        }
        Some(())
    }

    /// The status of the record that is damaged.
    fn status(self) -> Status {
        use Damage::*;
        match self {
            NoticeOfARetainedRecord | RepliesOfARetainedRecord | RetainTooFar => Status::Retained,
            NoticeOfAnEmptyRecord | CountOfAnEmptyRecord => Status::Empty,
            _ => Status::Connected,
        }
    }

    fn put_in_set(self, router: &mut Router, random: &mut Random) -> Option<()> {
        let notice = |number| Notice { number, age: 0 };
        record(router, self.status(), random)?.notices = match self {
            Damage::SetOf33 => (0..=MOST_NOTICES as u64).map(|n| notice(STRANGE + n)).collect(),
            Damage::NumberTwiceInASet => vec![notice(STRANGE), notice(STRANGE)],
            Damage::EntryThreeHeartbeatsOld => vec![Notice { number: STRANGE, age: NOTICE_LIFE }],
            _ => vec![notice(STRANGE)],
        };
        Some(())
    }

    fn put_in_record(self, router: &mut Router, random: &mut Random) -> Option<()> {
        let SetUp { notice_limit, ihave_bound, iwant_bound, .. } = router.set_up;
        let clock = router.clock;
        let stored = router.stores.iter().flat_map(|store| store.numbers()).next();
        let peer = record(router, self.status(), random)?;
        match self {
            Damage::NoticesOverTheLimit => peer.notices_in = notice_limit + 1,
            Damage::CountOfAnEmptyRecord if random.chance(1, 2) => peer.notices_in = 1,
            Damage::CountOfAnEmptyRecord => peer.ihaves_in = 1,
            Damage::IHavesOverTheBound => peer.ihaves_in = ihave_bound + 1,
            Damage::RepliesOverTheBound => {
                peer.replies.insert(stored?, iwant_bound + 1);
            }
            Damage::RepliesForNoStoredNumber => {
                peer.replies.insert(STRANGE, 1);
            }
            Damage::RepliesOfARetainedRecord => {
                peer.replies.insert(stored?, 1);
            }
            Damage::RetainTooFar => peer.retain_end = clock + LONGEST_RETAIN_MS + 1,
            _ => peer.backoff_ends[random.below(TOPICS)] = clock + LONGEST_BACKOFF_MS + 1,
        }
        Some(())
    }

    fn put_in_store(self, router: &mut Router, random: &mut Random) -> Option<()> {
        let joined = self != Damage::StoreOfATopicNotJoined;
        let topics: Vec<usize> = (0..TOPICS).filter(|&k| router.joined[k] == joined).collect();
        let topic = (!topics.is_empty()).then(|| *random.pick(&topics))?;
        let heartbeats = &mut router.stores[topic].heartbeats;
        let first = random.below(STORED_HEARTBEATS);
        let second = (first + 1 + random.below(STORED_HEARTBEATS - 1)) % STORED_HEARTBEATS;
        match self {
            Damage::StoreOf65 => {
                heartbeats[first] = (0..=MOST_STORED as u64).map(|n| STRANGE + n).collect();
            }
            Damage::NumberTwiceInAHeartbeat => heartbeats[first] = vec![STRANGE, STRANGE],
            Damage::NumberInTwoHeartbeats => {
                heartbeats[first] = vec![STRANGE];
                heartbeats[second] = vec![STRANGE];
            }
            _ => heartbeats[first].push(STRANGE),
        }
        Some(())
    }
}

fn damage_set_up(router: &mut Router, random: &mut Random) {
    let mut numbers = router.set_up.numbers();
    let place = random.below(COUNT);
    let (_, low, high) = LIMITS[place];
    numbers[place] = *random.pick(&[high + 1, u64::MAX, low.wrapping_sub(1)]);
    router.set_up = SetUp::of_numbers(numbers);
}

/// A record of a status, if there is one.
fn record<'a>(router: &'a mut Router, status: Status, random: &mut Random) -> Option<&'a mut Peer> {
    let slots: Vec<usize> =
        (0..router.peers.len()).filter(|&slot| router.peers[slot].status == status).collect();
    let slot = (!slots.is_empty()).then(|| *random.pick(&slots))?;
    Some(&mut router.peers[slot])
}
