//! An index that changes in place, beside a `BTreeMap`.

use blink::{Answer, Index, Op};
use std::collections::BTreeMap;
use std::ops::Bound::{Excluded, Included, Unbounded};

// Numbers that look random, the same in each run.
fn mixed(number: u64) -> u64 {
    let spread = number.wrapping_add(0x9E37_79B9_7F4A_7C15).wrapping_mul(0xBF58_476D_1CE4_E5B9);
    let folded = (spread ^ (spread >> 27)).wrapping_mul(0x94D0_49BB_1331_11EB);
    folded ^ (folded >> 31)
}

// The operation of this number, on one of `keys` keys.
fn operation(number: u64, keys: u64) -> Op {
    let drawn = mixed(number);
    let key = mixed(drawn) % keys;
    match drawn >> 61 {
        0..=3 => Op::Insert(key, number),
        4 | 5 => Op::Remove(key),
        6 => Op::Replace(key, number),
        _ => Op::Get(key),
    }
}

// What a `BTreeMap` answers.
fn answer(map: &mut BTreeMap<u64, u64>, op: Op) -> Answer {
    match op {
        Op::Get(key) => map.get(&key).map_or(Answer::Absent, |&kept| Answer::Found(kept)),
        Op::Insert(key, pointer) => match map.get(&key) {
            Some(&kept) => Answer::Exists(kept),
            None => {
                map.insert(key, pointer);
                Answer::Inserted
            }
        },
        Op::Remove(key) => map.remove(&key).map_or(Answer::Absent, Answer::Removed),
        Op::Replace(key, pointer) => match map.get_mut(&key) {
            Some(kept) => Answer::Replaced(std::mem::replace(kept, pointer)),
            None => Answer::Absent,
        },
        other => unreachable!("{other:?}"),
    }
}

// What the index answers.
fn edit(index: &mut Index, op: Op) -> Answer {
    match op {
        Op::Get(key) => index.get(key).map_or(Answer::Absent, Answer::Found),
        Op::Insert(key, pointer) => index.insert(key, pointer).expect("there is memory"),
        Op::Remove(key) => index.remove(key),
        Op::Replace(key, pointer) => index.replace(key, pointer),
        other => unreachable!("{other:?}"),
    }
}

fn entry(pair: Option<(&u64, &u64)>) -> Option<(u64, u64)> {
    pair.map(|(&key, &pointer)| (key, pointer))
}

// A range of keys is read from its end, and by turns from both ends.
fn reads_from_both_ends(index: &Index, map: &BTreeMap<u64, u64>, lo: u64, hi: u64) {
    let pairs = || map.range((Included(lo), Excluded(hi))).map(|pair| entry(Some(pair)).expect("a pair"));
    assert!(index.range(lo..hi).rev().eq(pairs().rev()), "{lo} {hi}");
    let (mut scan, mut expected) = (index.range(lo..hi), pairs());
    for turn in 0.. {
        // so that now one end is ahead and now the other, by more than a part
        let (given, next) = match mixed(lo + turn / 40) % 2 {
            0 => (scan.next(), expected.next()),
            _ => (scan.next_back(), expected.next_back()),
        };
        assert_eq!(given, next, "{lo} {hi}, at turn {turn}");
        if next.is_none() {
            break;
        }
    }
    assert_eq!((scan.next(), scan.next_back()), (None, None));
}

fn goes_as_a_map(fan: u8, operations: u64, keys: u64) {
    let mut index = Index::new(fan).expect("there is memory");
    let mut map = BTreeMap::new();
    for number in 0..operations {
        let op = operation(number, keys);
        assert_eq!(edit(&mut index, op), answer(&mut map, op), "{number}: {op:?}");
        if number % 512 == 0 {
            let key = mixed(number) % keys;
            assert_eq!(index.next(key), entry(map.range((Excluded(key), Unbounded)).next()));
            assert_eq!(index.first(), entry(map.first_key_value()));
            assert_eq!(index.last(), entry(map.last_key_value()));
            assert_eq!(index.prev(key), entry(map.range(..key).next_back()));
            assert_eq!(index.at_least(key), entry(map.range(key..).next()));
            assert_eq!(index.at_most(key), entry(map.range(..=key).next_back()));
            reads_from_both_ends(&index, &map, key, key + keys / 8);
        }
    }
    assert!(index.iter().eq(map.iter().map(|pair| entry(Some(pair)).expect("a pair"))));
    assert!(index.iter().rev().eq(map.iter().rev().map(|pair| entry(Some(pair)).expect("a pair"))));
}

#[test]
fn a_million_operations_go_as_on_a_map() {
    goes_as_a_map(32, 1_000_000, 200_000);
}

#[test]
fn each_fan_goes_as_a_map() {
    for fan in 4..=32 {
        goes_as_a_map(fan, 20_000, 3_000);
    }
}

#[test]
fn operations_in_place_leave_the_pages_of_batches() {
    let operations: Vec<_> = (0..50_000).map(|number| operation(number, 9_000)).collect();
    let mut index = Index::new(4).expect("there is memory");
    let applied = index.apply(&operations);
    assert_eq!(applied.error, None);
    let mut other = Index::new(4).expect("there is memory");
    assert_eq!(applied.answers, other.run(&operations).expect("there is memory"));
    assert_eq!(index.dump(), other.dump());
}

// A scan takes its entries out in parts of 16, 32, 64, 128 and then 256, so a part ends behind entry 16, 48, 112, 240, 496 and 752.
#[test]
fn a_scan_gives_each_entry_once_wherever_its_parts_end() {
    let entry_of = |place: u64| (2 * place + 1, 3 * place);
    for end in [0, 16, 48, 112, 240, 496, 752] {
        for count in [end - u64::from(end > 0), end, end + 1] {
            let entries: Vec<(u64, u64)> = (0..count).map(entry_of).collect();
            let index = Index::from_sorted(16, entries.iter().copied()).unwrap();
            assert!(index.iter().eq((0..count).map(entry_of)), "{count}");
            assert!(index.iter().rev().eq((0..count).rev().map(entry_of)), "{count}");
            // the same entries where more follow, by the key of the last one and by one between it and the next
            let longer: Vec<(u64, u64)> = (0..count + 300).map(entry_of).collect();
            let index = Index::from_sorted(16, longer.iter().copied()).unwrap();
            assert!(index.range(..2 * count).eq((0..count).map(entry_of)), "{count}");
            assert!(index.range(..=2 * count + 1).eq((0..=count).map(entry_of)), "{count}");
            // and from the other end, where others stand before them
            let behind = || (300..count + 300).rev().map(entry_of);
            assert!(index.range(600..).rev().eq(behind()), "{count}");
            assert!(index.range(601..).rev().eq(behind()), "{count}");
            // a copy that is made on the way goes on by itself
            let mut scan = index.range(1..);
            let begun: Vec<(u64, u64)> = scan.by_ref().take(count as usize / 2).collect();
            assert!(scan.clone().eq((count / 2..count + 300).map(entry_of)), "{count}");
            assert!(begun.into_iter().chain(scan).eq((0..count + 300).map(entry_of)), "{count}");
        }
    }
}

#[test]
fn a_scan_ends_at_the_greatest_key_where_a_part_ends() {
    // the last of 16 entries, and of 48
    for count in [16u64, 48] {
        let entry_of = |place: u64| (u64::MAX - (count - 1 - place), place);
        let index = Index::from_sorted(8, (0..count).map(entry_of)).unwrap();
        assert!(index.iter().eq((0..count).map(entry_of)), "{count}");
        assert_eq!(index.range(u64::MAX..).collect::<Vec<_>>(), [entry_of(count - 1)]);
    }
}

#[test]
fn a_scan_from_its_end_ends_at_key_0_where_a_part_ends() {
    for count in [16u64, 48] {
        let entry_of = |key: u64| (key, 2 * key);
        let index = Index::from_sorted(8, (0..count).map(entry_of)).unwrap();
        assert!(index.iter().rev().eq((0..count).rev().map(entry_of)), "{count}");
        assert_eq!(index.range(..=0).rev().collect::<Vec<_>>(), [entry_of(0)]);
    }
}
