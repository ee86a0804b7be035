//! Times of the calls with the second array, and of test 12 of table and array: the proved library alone.

#[cfg(gossip)]
pub use linked::print_times;

#[cfg(not(gossip))]
pub fn print_times(_: usize) {
    println!("IDONTWANT, IHAVE and IWANT: not in the library that is linked");
}

#[cfg(gossip)]
mod linked {
    use crate::supplier::best;
    use crate::{clock_time, time, times_in_turn};
    use hivepadlet::gossip::{self, *};
    use hivepadlet::{number, Cells, ACTION_NUMBERS};
    use host_compare::cells::table_of;
    use host_compare::gossip::held::Held;
    use host_compare::gossip::script::{full, members, stored_number};
    use reference::event::SLOTS;
    use reference::params::TOPICS;
    use reference::router::Router;
    use std::collections::BTreeMap;
    use std::hint::black_box;
    use std::time::Instant;

    const TOPIC: u64 = 0;

    /// A number that nobody stores or holds.
    const NEW: u64 = 5;

    /// The library keeps numbers apart by so many buckets; numbers this far from each other share one.
    const BUCKETS: u64 = 8192;

    /// Of some numbers that are stored, and of some that were sent.
    const SOME: usize = 100;
    const SENT: usize = 10;

    /// A router as it is lent.
    #[derive(Clone)]
    struct Lent {
        table: Box<Cells>,
        gossip: Box<Gossip>,
    }

    impl Lent {
        /// The second program's state, each row with the hint that the library gives it.
        fn of(router: &Router) -> Lent {
            let mut lent = Lent::without_hints(router);
            let mut places = BTreeMap::new();
            for (topic, store) in router.stores.iter().enumerate() {
                for (heartbeat, numbers) in store.heartbeats.iter().enumerate() {
                    let from = (topic * HEARTBEATS + heartbeat) * WINDOW_NUMBERS;
                    places.extend(numbers.iter().copied().zip(from as u64..));
                }
            }
            for row in 0..lent.gossip[REPLIES] as usize {
                lent.gossip[row_cell(row) + HINT] = places[&lent.gossip[row_cell(row)]];
            }
            lent
        }

        /// No hint says where its number stands, but the one of the first place of all.
        fn without_hints(router: &Router) -> Lent {
            let gossip = vec![0; GOSSIP_CELLS].into_boxed_slice();
            let mut gossip: Box<Gossip> = gossip.try_into().expect("an array has its cells");
            Held::of(router).write(&mut gossip);
            Lent { table: table_of(router), gossip }
        }

        fn is_router(&self) -> bool {
            gossip::is_router(black_box(&self.table), black_box(&self.gossip)) == 1
        }

        /// The table without its array.
        fn has_table(&self) -> bool {
            hivepadlet::is_router(black_box(&self.table)) == 1
        }
    }

    /// A router that calls are made on, with its lent lists.
    struct Work {
        router: Lent,
        list: [u32; ACTION_NUMBERS],
        told: [u64; MESSAGE_NUMBERS],
    }

    /// The best nanoseconds of a call on one state, made anew for each round; its actions and numbers are as
    /// many as they should be.
    fn call(
        rounds: usize,
        lent: &Lent,
        due: (usize, usize),
        make: impl Fn(&mut Lent, &mut [u32], &mut [u64]) -> u64,
    ) -> f64 {
        let (list, told) = ([0; ACTION_NUMBERS], [0; MESSAGE_NUMBERS]);
        let mut work = Work { router: lent.clone(), list, told };
        let mut best = u64::MAX;
        for _ in 0..rounds {
            work.router.clone_from(lent);
            let Work { router, list, told } = black_box(&mut work);
            let start = Instant::now();
            let result = black_box(make(router, list, told));
            best = best.min(start.elapsed().as_nanos() as u64);
            assert_eq!(number(result), 0, "the call is done");
            assert_eq!((gossip::actions(result), gossip::numbers(result)), due);
        }
        best.saturating_sub(clock_time()) as f64
    }

    /// Some numbers are stored, and some of them were sent.
    fn some() -> Router {
        let mut router = members();
        let numbers: Vec<u64> =
            (0..SOME).map(|k| stored_number(k % TOPICS, 0, k / TOPICS)).collect();
        for (k, &number) in numbers.iter().enumerate() {
            router.stores[k % TOPICS].heartbeats[k / 50].push(number);
        }
        for &number in &numbers[..SENT] {
            router.peers[0].replies.insert(number, 1);
        }
        router
    }

    /// Every set is full.
    fn sets() -> Router {
        let mut router = members();
        for (peer, other) in router.peers.iter_mut().zip(full(0).peers) {
            peer.notices = other.notices;
        }
        router
    }

    /// Every store is full.
    fn stores() -> Router {
        let mut router = members();
        router.stores = full(0).stores;
        router
    }

    /// Number k of those that share a bucket.
    fn in_one_bucket(k: usize) -> u64 {
        NEW + BUCKETS * k as u64
    }

    /// Every store is full, of numbers that share a bucket; behind them come those that nobody stores.
    fn one_bucket() -> Router {
        let mut router = stores();
        let heartbeats = router.stores.iter_mut().flat_map(|store| &mut store.heartbeats);
        for (k, number) in heartbeats.flatten().enumerate() {
            *number = in_one_bucket(k);
        }
        router
    }

    /// Nobody is a member, so that everybody is told; the numbers of three heartbeats are.
    fn outside() -> Router {
        let mut router = stores();
        router.set_up.factor = 1000;
        for peer in &mut router.peers {
            peer.leave_mesh(TOPIC as usize);
        }
        router
    }

    pub fn print_times(rounds: usize) {
        println!("IDONTWANT, IHAVE and IWANT: nanoseconds a call, test 12 of table and array included; 256 connected");
        let line = |what: &str, time: f64| println!("{what:64}{time:>9.0}");
        let [quiet, some, sets, stores, one_bucket, outside, all, lost] = [
            Lent::of(&members()),
            Lent::of(&some()),
            Lent::of(&sets()),
            Lent::of(&stores()),
            Lent::of(&one_bucket()),
            Lent::of(&outside()),
            Lent::of(&full(SLOTS)),
            Lent::without_hints(&full(SLOTS)),
        ];
        print_calls(rounds, [&quiet, &some, &stores, &one_bucket, &outside, &all], line);
        println!("test 12 by itself: one table, alone and with its array, in turns; what the array adds beside");
        let [alone, nothing, hundred] =
            times_in_turn([&|| quiet.has_table(), &|| quiet.is_router(), &|| some.is_router()]);
        line("the table alone", alone);
        let with_array =
            |what: &str, time: f64| println!("{what:64}{time:>9.0}{:>+9.0}", time - alone);
        with_array("nothing held", nothing);
        with_array("100 stored numbers, ten rows of replies", hundred);
        line("every set full", time(|| sets.is_router()));
        line("every store full", time(|| stores.is_router()));
        line("every store full, of numbers that share a bucket", time(|| one_bucket.is_router()));
        line("everything full", best_test(rounds, &all));
        line("the same, no hint right", best_test(rounds.min(20), &lost));
    }

    /// Test 12 where it is too long for many runs.
    fn best_test(rounds: usize, lent: &Lent) -> f64 {
        best(rounds, || assert!(lent.is_router(), "table and array are a router's"))
    }

    fn print_calls(rounds: usize, states: [&Lent; 6], line: impl Fn(&str, f64)) {
        let [quiet, some, stores, one_bucket, outside, all] = states;
        let slots: Vec<u64> = (0..SLOTS as u64).rev().collect();
        let stored = stored_number(1, 0, 1);
        let time = call(rounds, quiet, (SLOTS, 0), |Lent { table, gossip }, list, _| {
            send_idontwant(table, gossip, 1, TOPIC, 0, NEW, list)
        });
        line("send_idontwant, 256 members", time);
        let time = call(rounds, quiet, (0, 0), |Lent { table, gossip }, list, _| {
            idontwant(table, gossip, 1, 1, NEW, list)
        });
        line("idontwant", time);
        let time = call(rounds, quiet, (SLOTS, 0), |Lent { table, gossip }, list, _| {
            relay(table, gossip, 1, TOPIC, 0, NEW, list)
        });
        line("relay, 256 members", time);
        let time = call(rounds, some, (0, 0), |Lent { table, gossip }, list, _| {
            store(table, gossip, 1, TOPIC, NEW, list)
        });
        line("store", time);
        let due = (SLOTS, MESSAGE_NUMBERS);
        let time = call(rounds, outside, due, |Lent { table, gossip }, list, told| {
            announce(table, gossip, 1, TOPIC, &slots, told, list)
        });
        line("announce 192 numbers, 256 targets, 2,560 stored", time);
        print_ihaves(rounds, stores, one_bucket, &line);
        for (name, lent) in [("100 stored", some), ("2,560 stored", stores)] {
            let time = call(rounds, lent, (0, 0), |Lent { table, gossip }, list, _| {
                iwant(table, gossip, 1, 1, stored, list)
            });
            line(&format!("IWANT, {name}"), time);
        }
        let states = [("nothing held", quiet), ("100 stored", some), ("everything full", all)];
        for (name, lent) in states {
            let time = call(rounds, lent, (0, 0), |Lent { table, gossip }, list, _| {
                beat(table, gossip, 1, list)
            });
            line(&format!("beat, {name}"), time);
        }
    }

    fn print_ihaves(rounds: usize, stores: &Lent, one_bucket: &Lent, line: impl Fn(&str, f64)) {
        let numbers = |number: &dyn Fn(usize) -> u64| -> Vec<u64> {
            (0..MESSAGE_NUMBERS).map(number).collect()
        };
        let new = numbers(&|k| NEW + 2 * k as u64);
        let known = numbers(&|k| stored_number(k % TOPICS, 0, k / TOPICS));
        let sharing = numbers(&|k| in_one_bucket(ROWS + k));
        for (name, lent, given, told) in [
            ("192 numbers, 2,560 stored", stores, new, MESSAGE_NUMBERS),
            ("192 stored numbers, 2,560 stored", stores, known, 0),
            ("192 that share a bucket, 2,560 stored do too", one_bucket, sharing, MESSAGE_NUMBERS),
        ] {
            let time = call(rounds, lent, (0, told), |Lent { table, gossip }, list, told| {
                ihave(table, gossip, 1, 1, TOPIC, &given, told, list)
            });
            line(&format!("IHAVE of {name}"), time);
        }
    }
}
