//! The index beside `BTreeMap`, on 1,000,000 random operations.

use blink::{Answer, Index, Op};
use std::collections::btree_map::{BTreeMap, Entry as Slot};

// SplitMix64.
fn next(state: &mut u64) -> u64 {
    *state = state.wrapping_add(0x9e37_79b9_7f4a_7c15);
    let mut z = *state;
    z = (z ^ (z >> 30)).wrapping_mul(0xbf58_476d_1ce4_e5b9);
    z = (z ^ (z >> 27)).wrapping_mul(0x94d0_49bb_1331_11eb);
    z ^ (z >> 31)
}

fn answer(map: &mut BTreeMap<u64, u64>, op: Op) -> Answer {
    match op {
        Op::Get(key) => map.get(&key).map_or(Answer::Absent, |pointer| Answer::Found(*pointer)),
        Op::Insert(key, pointer) => match map.entry(key) {
            Slot::Occupied(slot) => Answer::Exists(*slot.get()),
            Slot::Vacant(slot) => {
                slot.insert(pointer);
                Answer::Inserted
            }
        },
        Op::Remove(key) => map.remove(&key).map_or(Answer::Absent, Answer::Removed),
        Op::Replace(key, pointer) => match map.get_mut(&key) {
            Some(slot) => Answer::Replaced(std::mem::replace(slot, pointer)),
            None => Answer::Absent,
        },
        other => unreachable!("{other:?}"),
    }
}

fn operation(state: &mut u64, keys: u64) -> Op {
    let key = match next(state) % 50 {
        // the ends of the range of keys
        0 => u64::MAX,
        1 => 0,
        _ => next(state) % keys,
    };
    match next(state) % 8 {
        0..=2 => Op::Insert(key, next(state)),
        3 | 4 => Op::Get(key),
        5 | 6 => Op::Remove(key),
        _ => Op::Replace(key, next(state)),
    }
}

fn same_entries(index: &Index, map: &BTreeMap<u64, u64>) {
    assert!(index.iter().eq(map.iter().map(|(&key, &pointer)| (key, pointer))));
    assert_eq!(index.len(), map.len());
}

#[test]
fn a_million_operations_are_those_of_a_btree_map() {
    let mut state = 1;
    for (fan, keys, parts) in [(4, 300, 20), (16, 40_000, 30), (32, u64::MAX, 50)] {
        let mut index = Index::new(fan).unwrap();
        let mut map = BTreeMap::new();
        for _ in 0..parts {
            let ops: Vec<Op> = (0..10_000).map(|_| operation(&mut state, keys)).collect();
            let expected: Vec<Answer> = ops.iter().map(|&op| answer(&mut map, op)).collect();
            assert_eq!(index.run(&ops).unwrap(), expected);
            let (a, b) = (next(&mut state) % keys, next(&mut state) % keys);
            let (lo, hi) = (a.min(b), a.max(b));
            assert!(index.range(lo..hi).map(|(key, _)| key).eq(map.range(lo..hi).map(|(key, _)| *key)));
            assert_eq!(index.count(lo..=hi), map.range(lo..=hi).count());
            assert_eq!(index.get(a), map.get(&a).copied());
        }
        same_entries(&index, &map);
        let entries: Vec<(u64, u64)> = index.iter().collect();
        let shuffled: Vec<(u64, u64)> = entries.iter().rev().copied().collect();
        same_entries(&Index::from_entries(fan, entries.iter().copied()).unwrap(), &map);
        same_entries(&Index::from_entries(fan, shuffled.iter().copied()).unwrap(), &map);
        same_entries(&index.try_clone().unwrap(), &map);
    }
}

#[test]
fn scans_at_the_ends_of_the_keys() {
    let index = Index::from_entries(4, [(0, 1), (u64::MAX, 2)]).unwrap();
    assert_eq!(index.iter().count(), 2);
    assert_eq!(index.range(1..).count(), 1);
    assert_eq!(index.range(..u64::MAX).count(), 1);
    assert_eq!(index.range(..=u64::MAX).count(), 2);
    assert_eq!(index.range(0..0).count(), 0);
    assert_eq!(index.range((std::ops::Bound::Excluded(u64::MAX), std::ops::Bound::Unbounded)).count(), 0);
    assert_eq!(index.count((std::ops::Bound::Excluded(u64::MAX), std::ops::Bound::Unbounded)), 0);
    assert_eq!(format!("{index:?}"), "{0: 1, 18446744073709551615: 2}");
}

#[test]
#[should_panic(expected = "range start is greater than range end: 5 > 2")]
#[allow(clippy::reversed_empty_ranges)]
fn an_inverted_range_panics_as_of_a_btreemap() {
    let _ = Index::new(4).unwrap().range(5..2);
}

#[test]
#[should_panic(expected = "range start and end are equal and excluded: 5")]
fn a_range_that_excludes_its_one_key_twice_panics_as_of_a_btreemap() {
    let _ = Index::new(4).unwrap().range((std::ops::Bound::Excluded(5), std::ops::Bound::Excluded(5)));
}

// As many as were read and not given are still to come, and once the index has been asked for all of them no more are.
#[test]
fn a_range_tells_how_many_are_left() {
    let index: Index = (0..20).map(|key| (key, key)).collect();
    let mut range = index.range(..18);
    assert_eq!(range.size_hint(), (0, None));
    assert_eq!(range.next(), Some((0, 0)));
    assert_eq!(range.size_hint(), (15, None));
    assert_eq!(range.nth(15), Some((16, 16)));
    assert_eq!(range.size_hint(), (1, Some(1)));
    assert_eq!((range.next_back(), range.next(), range.size_hint()), (Some((17, 17)), None, (0, Some(0))));
}

// A scan asks for 16, 32, 64, 128 and then 256 entries at a time: around each of these ends, and in the middle of an index.
#[test]
fn scans_of_every_length_at_the_ends_of_their_parts() {
    let entries: Vec<(u64, u64)> = (0..1000u64).map(|key| (2 * key, key)).collect();
    let index = Index::from_entries(8, entries.iter().copied()).unwrap();
    for length in [0, 1, 15, 16, 17, 47, 48, 49, 111, 112, 113, 239, 240, 241, 495, 496, 497, 700] {
        for first in [0u64, 300] {
            let range = 2 * first..2 * (first + length);
            let expected = &entries[first as usize..(first + length) as usize];
            assert!(index.range(range).eq(expected.iter().copied()), "{length} from {first}");
        }
    }
}
