//! The map through its renewals: its calls, growth by threads, what becomes of each key while it is renewed, queues, and as many sessions as it
//! has.

use blink::{Answer, Error, Index, Left, Map, Room, Session};
use std::collections::BTreeMap;
use std::sync::atomic::{AtomicBool, Ordering};
use std::thread;
use std::time::Duration;

// The next of a row of numbers that have no order. The state is not 0.
fn next_random(state: &mut u64) -> u64 {
    *state ^= *state << 13;
    *state ^= *state >> 7;
    *state ^= *state << 17;
    *state
}

#[test]
fn calls_answer_as_those_of_a_map() {
    let index = Index::from_entries(8, [(1, 10), (3, 30), (5, 50)]).unwrap();
    let map = Map::open(&index).unwrap();
    let mut session = map.session().unwrap();
    assert_eq!((session.get(3), session.get(4), session.contains(5)), (Some(30), None, true));
    assert_eq!(session.insert(4, 40), Ok(Answer::Inserted));
    assert_eq!(session.insert(4, 41), Ok(Answer::Exists(40)));
    assert_eq!(session.replace(1, 11), Ok(Answer::Replaced(10)));
    assert_eq!(session.remove(3), Ok(Answer::Removed(30)));
    assert_eq!(session.remove(3), Ok(Answer::Absent));
    assert_eq!(session.compare_exchange(1, 10, 12), Ok(Answer::Exists(11)));
    assert_eq!(session.compare_exchange(1, 11, 12), Ok(Answer::Replaced(11)));
    assert_eq!(session.compare_remove(1, 11), Ok(Answer::Exists(12)));
    assert_eq!((session.put(6, 60), session.put(6, 61)), (Ok(None), Ok(Some(60))));
    assert_eq!((session.first(), session.last()), (Some((1, 12)), Some((6, 61))));
    assert_eq!((session.next(1), session.prev(6)), (Some((4, 40)), Some((5, 50))));
    assert_eq!((session.at_least(2), session.at_most(3)), (Some((4, 40)), Some((1, 12))));
    assert_eq!(session.count(2..6), 2);
    assert_eq!(session.snapshot(2..6, 10), Ok(Some(vec![(4, 40), (5, 50)])));
    let unclosed = map.close().unwrap_err();
    assert_eq!(unclosed.error, Error::Missing);
    drop(session);
    assert_eq!(unclosed.map.close().unwrap().iter().collect::<Vec<_>>(), [(1, 12), (4, 40), (5, 50), (6, 61)]);
}

#[test]
fn a_map_has_places_for_256_sessions() {
    for map in [Map::new(32), Map::with_capacity(100, 1), Map::open(&Index::new(4).unwrap())] {
        let map = map.unwrap();
        let mut sessions: Vec<_> = (0..256).map(|_| map.session().unwrap()).collect();
        assert_eq!(map.session().unwrap_err(), Error::NoSession);
        sessions.pop();
        assert!(map.session().is_ok());
    }
    assert_eq!(Map::new(33).unwrap_err(), Error::BadFan);
}

// A room that nobody has drawn from. An insertion draws 64 page numbers and the session's part of the rows, which is half of them.
#[test]
fn a_map_tells_what_its_pool_has_left() {
    let map = Map::open_fixed(&Index::new(4).unwrap(), Room { pages: 200, rows: 400, sessions: 1 }).unwrap();
    assert_eq!(map.room(), Ok(Left { pages: 200, rows: 400 }));
    let mut session = map.session().unwrap();
    session.insert(1, 10).unwrap();
    assert_eq!(map.room(), Ok(Left { pages: 136, rows: 200 }));
    let held = session.hold();
    assert_eq!(map.room(), Err(Error::Renewing));
    drop(held);
    assert_eq!(map.room(), Ok(Left { pages: 136, rows: 200 }));
}

// Its leaf has 4 entries, and there are rows for one split: the fifth insertion makes it.
const ONE_SPLIT: Room = Room { pages: 200, rows: 44, sessions: 1 };

#[test]
fn a_map_whose_room_is_fixed_is_full_and_goes_on() {
    let map = Map::open_fixed(&Index::new(4).unwrap(), ONE_SPLIT).unwrap();
    assert_eq!(map.renew(10), Err(Error::Full));
    let mut session = map.session().unwrap();
    for key in 1..6 {
        assert_eq!(session.insert(key, 0), Ok(Answer::Inserted));
    }
    assert_eq!((session.insert(6, 60), session.put(6, 60), session.get(6)), (Err(Error::Full), Err(Error::Full), None));
    for pointer in 0..1_000 {
        assert_eq!(session.put(5, pointer + 1), Ok(Some(pointer)));
    }
    assert_eq!(session.insert(5, 50), Ok(Answer::Exists(1_000)));
    assert_eq!(session.remove(1), Ok(Answer::Removed(0)));
    assert_eq!((session.insert(1, 10), map.renew(10)), (Err(Error::Full), Err(Error::Full)));
    drop(session);
    assert_eq!(map.close().unwrap().iter().collect::<Vec<_>>(), [(2, 0), (3, 0), (4, 0), (5, 1_000)]);
}

// A held session finds it full as a free one does, and is held by its next change.
#[test]
fn a_held_session_of_a_full_map_goes_on() {
    let map = Map::open_fixed(&Index::new(4).unwrap(), ONE_SPLIT).unwrap();
    let mut session = map.session().unwrap();
    let mut held = session.hold();
    for key in 1..6 {
        assert_eq!(held.insert(key, 0), Ok(Answer::Inserted));
    }
    assert_eq!((held.insert(6, 60), held.put(5, 50), held.get(5)), (Err(Error::Full), Ok(Some(0)), Some(50)));
    drop(held);
    assert_eq!(session.get(6), None);
}

#[test]
fn a_map_with_room_grows_beyond_it() {
    let map = Map::open_with_room(&Index::new(4).unwrap(), ONE_SPLIT).unwrap();
    let mut session = map.session().unwrap();
    for key in 1..5_000 {
        assert_eq!(session.insert(key, 10 * key), Ok(Answer::Inserted));
    }
    assert_eq!((session.get(4_999), session.count(..)), (Some(49_990), 4_999));
    assert_eq!(map.renew(10), Ok(()));
    drop(session);
    assert_eq!(map.close().unwrap().len(), 4_999);
}

#[test]
fn a_room_that_no_map_has_is_refused() {
    let index = Index::new(32).unwrap();
    let no_sessions = Room { sessions: 0, ..ONE_SPLIT };
    let many_sessions = Room { sessions: 257, ..ONE_SPLIT };
    // the index has a page
    let large = Room { pages: 1_048_575, ..ONE_SPLIT };
    for (room, error) in [(no_sessions, Error::BadSessions), (many_sessions, Error::BadSessions), (large, Error::TooLarge)] {
        assert_eq!(Map::open_with_room(&index, room).unwrap_err(), error);
        assert_eq!(Map::open_fixed(&index, room).unwrap_err(), error);
    }
    assert_eq!(Map::with_capacity(100, 0).unwrap_err(), Error::BadSessions);
    assert_eq!(Map::with_capacity(u32::MAX, 1).unwrap_err(), Error::TooLarge);
}

// A room for all insertions is no more than enough: a fixed map takes them.
#[test]
fn a_fixed_map_takes_the_insertions_that_its_room_is_for() {
    let index = Index::new(32).unwrap();
    let map = Map::open_fixed(&index, Room::for_insertions(&index, 20_000, 2)).unwrap();
    thread::scope(|scope| {
        for thread in 0..2 {
            let mut session = map.session().unwrap();
            scope.spawn(move || {
                for key in (thread..20_000).step_by(2) {
                    assert_eq!(session.insert(key, key), Ok(Answer::Inserted));
                }
            });
        }
    });
    assert_eq!(map.close().unwrap().len(), 20_000);
}

#[test]
fn a_map_that_a_session_holds_is_not_renewed() {
    let map = Map::new(32).unwrap();
    let (mut one, mut other) = (map.session().unwrap(), map.session().unwrap());
    let mut held = one.hold();
    assert_eq!(held.insert(1, 10), Ok(Answer::Inserted));
    assert_eq!(map.renew(10), Err(Error::Renewing));
    assert_eq!(other.get(1), Some(10));
    drop(held);
    assert_eq!(map.renew(10), Ok(()));
    assert_eq!((one.get(1), other.get(1)), (Some(10), Some(10)));
}

// A session that finds the map full while it is held lets itself go for the renewal.
#[test]
fn a_held_session_grows() {
    let map = Map::new(32).unwrap();
    let mut session = map.session().unwrap();
    let mut held = session.hold();
    for key in 0..20_000 {
        assert_eq!(held.insert(key, key), Ok(Answer::Inserted));
    }
    drop(held);
    drop(session);
    assert_eq!(map.close().unwrap().len(), 20_000);
}

#[test]
fn four_threads_grow_a_map_from_nothing() {
    let map = Map::new(32).unwrap();
    thread::scope(|scope| {
        for thread in 0..4 {
            let mut session = map.session().unwrap();
            scope.spawn(move || {
                for key in (thread..100_000).step_by(4) {
                    assert_eq!(session.insert(key, 10 * key), Ok(Answer::Inserted));
                    assert_eq!(session.get(key), Some(10 * key));
                }
            });
        }
    });
    let index = map.close().unwrap();
    assert_eq!(index.len(), 100_000);
    assert!((0..100_000).all(|key| index.get(key) == Some(10 * key)));
}

// A queue: one thread adds at the end, another takes from the front, and both in the room of few entries.
#[test]
fn a_queue_goes_on_through_renewals() {
    let map = Map::new(32).unwrap();
    let (mut adds, mut takes) = (map.session().unwrap(), map.session().unwrap());
    thread::scope(|scope| {
        scope.spawn(move || (0..50_000).for_each(|key| assert_eq!(adds.insert(key, 10 * key), Ok(Answer::Inserted))));
        scope.spawn(move || {
            let mut next = 0;
            while next < 50_000 {
                match takes.pop_first().unwrap() {
                    Some(entry) => {
                        assert_eq!(entry, (next, 10 * next));
                        next += 1;
                    }
                    None => thread::yield_now(),
                }
            }
        });
    });
    assert_eq!(map.close().unwrap().len(), 0);
}

// Each of three threads changes its own keys, and knows what they are; a fourth renews the map all the while, and a fifth scans it.
#[test]
fn each_key_is_what_its_thread_made_it_while_the_map_is_renewed() {
    let map = Map::new(32).unwrap();
    let ended = AtomicBool::new(false);
    let changes = |mut session: Session, thread: u64| {
        let mut own = BTreeMap::new();
        let mut random = 88_172_645_463_325_252 + thread;
        for step in 0..20_000 {
            next_random(&mut random);
            let key = 3 * (random % 500) + thread;
            match random >> 32 & 3 {
                0 => assert_eq!(session.put(key, step).unwrap(), own.insert(key, step)),
                1 => assert_eq!(session.remove(key).unwrap().pointer(), own.remove(&key)),
                2 => assert_eq!(session.update(key, |was| was.map(|was| was + 1)).unwrap(), own.get(&key).copied()),
                _ => assert_eq!(session.get(key), own.get(&key).copied()),
            }
            if random >> 32 & 3 == 2 {
                own.entry(key).and_modify(|was| *was += 1);
            }
        }
        own
    };
    let mut all = BTreeMap::new();
    thread::scope(|scope| {
        let (map, ended) = (&map, &ended);
        let threads: Vec<_> = (0..3)
            .map(|thread| {
                let session = map.session().unwrap();
                scope.spawn(move || changes(session, thread))
            })
            .collect();
        let mut scans = map.session().unwrap();
        scope.spawn(move || {
            while !ended.load(Ordering::Relaxed) {
                let keys: Vec<_> = scans.range(..).map(|(key, _)| key).collect();
                assert!(keys.windows(2).all(|two| two[0] < two[1]));
            }
        });
        scope.spawn(move || {
            let mut renewed = 0;
            while !ended.load(Ordering::Relaxed) {
                renewed += u32::from(map.renew(1_000).is_ok());
                thread::sleep(Duration::from_micros(100));
            }
            assert!(renewed > 0);
        });
        for thread in threads {
            all.extend(thread.join().unwrap());
        }
        ended.store(true, Ordering::Relaxed);
    });
    assert_eq!(map.close().unwrap().iter().collect::<Vec<_>>(), all.into_iter().collect::<Vec<_>>());
}

// ---- a history, with renewals all the while

// So many threads change the map, each its own keys.
const OWNERS: u64 = 4;

// Each has so many keys at a time. They move up: so the map has few entries and little room, but wants new pages all the while.
const WINDOW: u64 = 64;

// A pointer tells its key.
fn pointer(key: u64, step: u64) -> u64 {
    key << 32 | step
}

fn is_of_key((key, pointer): (u64, u64)) -> bool {
    pointer >> 32 == key
}

// A session with the entries that its keys have to have, which nobody else changes.
struct Owner {
    session: Session,
    thread: u64,
    own: BTreeMap<u64, u64>,
    random: u64,
}

impl Owner {
    // The keys that this owner has at a step.
    fn first_key(&self, step: u64) -> u64 {
        OWNERS * (step / 2) + self.thread
    }

    fn end(&self, step: u64) -> u64 {
        self.first_key(step) + OWNERS * WINDOW
    }

    // Carries one operation out at a key of its own, and compares the answer.
    fn change(&mut self, step: u64) {
        let key = self.first_key(step) + OWNERS * (next_random(&mut self.random) % WINDOW);
        let new = pointer(key, step);
        let was = self.own.get(&key).copied();
        let there = was.map_or(Answer::Absent, Answer::Exists);
        let session = &mut self.session;
        match next_random(&mut self.random) % 8 {
            0..=2 => {
                assert_eq!(session.insert(key, new), Ok(was.map_or(Answer::Inserted, Answer::Exists)));
                self.own.entry(key).or_insert(new);
            }
            3 => assert_eq!(session.put(key, new), Ok(self.own.insert(key, new))),
            4 => {
                assert_eq!(session.replace(key, new), Ok(was.map_or(Answer::Absent, Answer::Replaced)));
                self.own.entry(key).and_modify(|it| *it = new);
            }
            5 => assert_eq!(session.remove(key), Ok(self.own.remove(&key).map_or(Answer::Absent, Answer::Removed))),
            6 => {
                // No pointer is the greatest number.
                assert_eq!(session.compare_exchange(key, u64::MAX, new), Ok(there));
                assert_eq!(session.compare_remove(key, u64::MAX), Ok(there));
            }
            _ => {
                assert_eq!(session.update(key, |_| Some(new)), Ok(was));
                self.own.insert(key, new);
            }
        }
        assert_eq!(session.get(key), self.own.get(&key).copied());
    }

    // Takes away what is below the keys of this step.
    fn leave_behind(&mut self, step: u64) {
        let first = self.first_key(step);
        while let Some((&key, &was)) = self.own.range(..first).next() {
            assert_eq!(self.session.compare_remove(key, was), Ok(Answer::Removed(was)));
            self.own.remove(&key);
        }
    }

    // Compares its entries with what scans and a snapshot say of its keys.
    fn look(&mut self, step: u64) {
        let (first, end, thread) = (self.first_key(step), self.end(step), self.thread);
        let is_own = |entry: &(u64, u64)| entry.0 % OWNERS == thread;
        let own: Vec<_> = self.own.iter().map(|(&key, &pointer)| (key, pointer)).collect();
        assert_eq!(self.session.range(first..end).filter(is_own).collect::<Vec<_>>(), own);
        let back: Vec<_> = self.session.range(first..end).rev().filter(is_own).collect();
        assert!(back.iter().eq(own.iter().rev()));
        if let Some(found) = self.session.snapshot(first..end, 10).unwrap() {
            assert!(found.iter().copied().all(is_of_key));
            assert_eq!(found.into_iter().filter(is_own).collect::<Vec<_>>(), own);
        }
    }
}

// A reader beside them: each entry that it finds has a pointer of its key, and scans are in order.
fn reads(mut session: Session, ended: &AtomicBool) {
    let mut random = 362_436_069;
    while !ended.load(Ordering::Relaxed) {
        let up: Vec<_> = session.range(..).collect();
        assert!(up.windows(2).all(|two| two[0].0 < two[1].0) && up.iter().copied().all(is_of_key));
        let down: Vec<_> = session.range(..).rev().collect();
        assert!(down.windows(2).all(|two| two[0].0 > two[1].0) && down.iter().copied().all(is_of_key));
        let mut held = session.hold();
        for _ in 0..20 {
            let Some(&(key, _)) = up.get(next_random(&mut random) as usize % up.len().max(1)) else {
                break;
            };
            assert!(held.get(key).map_or(true, |pointer| is_of_key((key, pointer))));
        }
    }
}

#[test]
fn a_history_goes_on_through_renewals() {
    const STEPS: u64 = 30_000;
    let map = Map::new(4).unwrap();
    let ended = AtomicBool::new(false);
    let mut all = BTreeMap::new();
    thread::scope(|scope| {
        let owners: Vec<_> = (0..OWNERS)
            .map(|thread| {
                let session = map.session().unwrap();
                let mut owner = Owner { session, thread, own: BTreeMap::new(), random: 88_172_645_463_325_252 + thread };
                scope.spawn(move || {
                    for step in 0..STEPS {
                        owner.leave_behind(step);
                        owner.change(step);
                        if step % 100 == 0 {
                            owner.look(step);
                        }
                    }
                    owner.own
                })
            })
            .collect();
        let (session, ended) = (map.session().unwrap(), &ended);
        scope.spawn(move || reads(session, ended));
        for owner in owners {
            all.extend(owner.join().unwrap());
        }
        ended.store(true, Ordering::Relaxed);
    });
    assert_eq!(map.close().unwrap().iter().collect::<Vec<_>>(), all.into_iter().collect::<Vec<_>>());
}

// ---- as many sessions as there are

// Each of 256 threads adds keys that lie among those of all others, while the map is renewed.
#[test]
fn nothing_is_lost_by_256_sessions_at_once() {
    const SESSIONS: u64 = 256;
    const KEYS: u64 = 300;
    let map = Map::new(32).unwrap();
    let all_joined = std::sync::Barrier::new(SESSIONS as usize + 1);
    thread::scope(|scope| {
        let threads: Vec<_> = (0..SESSIONS)
            .map(|thread| {
                let mut session = map.session().unwrap();
                let all_joined = &all_joined;
                scope.spawn(move || {
                    all_joined.wait();
                    for key in (thread..KEYS * SESSIONS).step_by(SESSIONS as usize) {
                        assert_eq!(session.insert(key, !key), Ok(Answer::Inserted));
                    }
                    session
                })
            })
            .collect();
        assert_eq!(map.session().unwrap_err(), Error::NoSession);
        all_joined.wait();
        assert!(matches!(map.renew(1_000), Ok(()) | Err(Error::Renewing)));
        for (thread, session) in (0..SESSIONS).zip(threads) {
            let mut session = session.join().unwrap();
            assert_eq!(session.get(thread), Some(!thread));
        }
    });
    assert_eq!(map.renew(1), Ok(()));
    let index = map.close().unwrap();
    assert_eq!(index.len() as u64, KEYS * SESSIONS);
    assert!((0..KEYS * SESSIONS).all(|key| index.get(key) == Some(!key)));
}

// With at most 4 entries in a page nearly each insertion at the end takes a page number. So this queue uses up more than the 1,048,575 that a
// map has, which would refuse further entries for good.
#[test]
fn a_queue_outlives_the_page_numbers_of_a_map() {
    const LENGTH: u64 = 100;
    let map = Map::new(4).unwrap();
    let mut session = map.session().unwrap();
    for key in 0..1_200_000 {
        assert_eq!(session.insert(key, 10 * key), Ok(Answer::Inserted));
        if let Some(first) = key.checked_sub(LENGTH) {
            assert_eq!(session.remove(first), Ok(Answer::Removed(10 * first)));
        }
        if key % 1_000 == LENGTH {
            assert_eq!((session.first(), session.last()), (Some((key - LENGTH + 1, 10 * (key - LENGTH + 1))), Some((key, 10 * key))));
        }
    }
    drop(session);
    assert_eq!(map.close().unwrap().len() as u64, LENGTH);
}
