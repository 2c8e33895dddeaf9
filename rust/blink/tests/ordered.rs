//! What a session and an index have of an ordered map beside scans: beside a plain map, and by several threads.

use blink::{Index, Map, Room};
use std::collections::BTreeMap;
use std::ops::Bound;
use std::thread;

fn next_random(state: &mut u64) -> u64 {
    *state = state.wrapping_mul(6_364_136_223_846_793_005).wrapping_add(1_442_695_040_888_963_407);
    *state >> 33
}

fn entry((&key, &pointer): (&u64, &u64)) -> (u64, u64) {
    (key, pointer)
}

#[test]
fn a_session_answers_as_a_plain_map() {
    for fan in [4, 32] {
        let map = Map::open_fixed(&Index::new(fan).unwrap(), Room { pages: 10_000, rows: 30_000, sessions: 1 }).unwrap();
        let (mut session, mut plain, mut state) = (map.session().unwrap(), BTreeMap::new(), 1);
        for _ in 0..20_000 {
            let (kind, key) = (next_random(&mut state) % 8, next_random(&mut state) % 500);
            let other = key + next_random(&mut state) % 40;
            match kind {
                0..=2 => assert_eq!(session.put(key, other).unwrap(), plain.insert(key, other)),
                3 => assert_eq!(session.first(), plain.iter().next().map(entry)),
                4 => assert_eq!(session.next(key), plain.range((Bound::Excluded(key), Bound::Unbounded)).next().map(entry)),
                5 => assert_eq!((session.count(key..other), session.contains(key)), (plain.range(key..other).count(), plain.contains_key(&key))),
                6 => assert_eq!(session.pop_first().unwrap(), plain.pop_first()),
                _ => {
                    let before = plain.len();
                    plain.retain(|at, _| !(key..=other).contains(at) || at % 3 == 0);
                    assert_eq!(session.retain(key..=other, |key, _| key % 3 == 0).unwrap(), before - plain.len());
                }
            }
        }
        let entries: Vec<(u64, u64)> = session.range(..).collect();
        assert_eq!(entries, plain.iter().map(entry).collect::<Vec<_>>());
    }
}

#[test]
fn a_range_of_many_parts_is_kept_in_part() {
    let entries: Vec<(u64, u64)> = (0..1_000).map(|key| (key, key)).collect();
    let map = Map::open_fixed(&Index::from_sorted(8, entries.iter().copied()).unwrap(), Room { pages: 100, rows: 1_000, sessions: 1 }).unwrap();
    let mut session = map.session().unwrap();
    assert_eq!(session.retain(100..900, |key, _| key % 100 == 0).unwrap(), 792);
    let left: Vec<u64> = session.range(100..900).map(|(key, _)| key).collect();
    assert_eq!(left, [100, 200, 300, 400, 500, 600, 700, 800]);
    assert_eq!((session.count(..), session.count(..100), session.count(900..)), (208, 100, 100));
}

#[test]
fn threads_that_take_the_first_entry_take_each_once() {
    const KEYS: u64 = 20_000;
    let entries: Vec<(u64, u64)> = (0..KEYS).map(|key| (key, !key)).collect();
    let map = Map::open_fixed(&Index::from_sorted(32, entries.iter().copied()).unwrap(), Room { pages: 2_000, rows: 20_000, sessions: 4 }).unwrap();
    let mut taken: Vec<(u64, u64)> = thread::scope(|scope| {
        let take = |_| {
            let mut session = map.session().unwrap();
            scope.spawn(move || std::iter::from_fn(|| session.pop_first().unwrap()).collect::<Vec<(u64, u64)>>())
        };
        let threads: Vec<_> = (0..4).map(take).collect();
        threads.into_iter().flat_map(|thread| thread.join().unwrap()).collect()
    });
    taken.sort_unstable();
    assert_eq!(taken, entries);
    assert!(map.close().unwrap().is_empty());
}

// An operation at an index and at a plain map, which answer alike.
fn at_both(index: &mut Index, plain: &mut BTreeMap<u64, u64>, kind: u64, key: u64, other: u64) {
    match kind {
        0..=3 => assert_eq!(index.put(key, other).unwrap(), plain.insert(key, other)),
        4 => {
            let next = |pointer: Option<u64>| pointer.map(|pointer| pointer + 1).filter(|pointer| pointer % 3 > 0);
            let before = plain.get(&key).copied();
            match next(before) {
                Some(pointer) => _ = plain.insert(key, pointer),
                None => _ = plain.remove(&key),
            }
            assert_eq!(index.update(key, next).unwrap(), before);
        }
        5 => assert_eq!(index.pop_first(), plain.pop_first()),
        6 => assert_eq!(index.pop_last(), plain.pop_last()),
        _ => {
            let before = plain.len();
            plain.retain(|at, _| !(key..=other).contains(at) || at % 3 == 0);
            assert_eq!(index.retain(key..=other, |key, _| key % 3 == 0), before - plain.len());
        }
    }
    assert_eq!(index.contains(key), plain.contains_key(&key));
}

#[test]
fn an_index_answers_as_a_plain_map() {
    for fan in [4, 32] {
        let (mut index, mut plain, mut state) = (Index::new(fan).unwrap(), BTreeMap::new(), 2);
        for round in 0..20_000 {
            let (kind, key) = (next_random(&mut state) % 8, next_random(&mut state) % 500);
            at_both(&mut index, &mut plain, kind, key, key + next_random(&mut state) % 40);
            if round % 500 == 499 {
                let (mut upper, mut plain_upper) = (index.split_off(key).unwrap(), plain.split_off(&key));
                assert!(upper.iter().eq(plain_upper.iter().map(entry)));
                // The other one's pointers win.
                (0..20).for_each(|near| _ = (upper.put(key / 2 + near, round).unwrap(), plain_upper.insert(key / 2 + near, round)));
                index.append(&mut upper).unwrap();
                plain.append(&mut plain_upper);
                assert!(upper.is_empty());
            }
            if round % 5_000 == 4_999 {
                index.clear().unwrap();
                plain.clear();
                assert_eq!((index.len(), index.pages()), (0, 1));
            }
        }
        assert!(index.iter().eq(plain.iter().map(entry)));
    }
}
