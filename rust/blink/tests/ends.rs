//! What a session reads from either end, beside a `BTreeMap` by operations that look like chance.

use blink::{Index, Map, Room, Session};
use std::collections::BTreeMap;
use std::ops::RangeInclusive;

type Plain = BTreeMap<u64, u64>;

// Numbers that look like chance, always the same (xorshift).
struct Draw(u64);

impl Draw {
    fn below(&mut self, end: u64) -> u64 {
        self.0 ^= self.0 << 13;
        self.0 ^= self.0 >> 7;
        self.0 ^= self.0 << 17;
        self.0 % end
    }

    fn range(&mut self, end: u64) -> RangeInclusive<u64> {
        let (one, other) = (self.below(end), self.below(end));
        one.min(other)..=one.max(other)
    }
}

fn pair((key, pointer): (&u64, &u64)) -> (u64, u64) {
    (*key, *pointer)
}

// Takes entries from either end of a range, as the draw says, as many as there are, or as `most` allows: each comes once, the same as from
// the plain map.
fn both_ends(mut given: impl DoubleEndedIterator<Item = (u64, u64)>, plain: &Plain, range: RangeInclusive<u64>, most: usize, draw: &mut Draw) {
    let mut expected = plain.range(range).map(pair);
    // mostly from one end, so that parts of several lengths meet
    let from_front = draw.below(10);
    for count in 0.. {
        let is_front = draw.below(10) < from_front;
        let one = if is_front { given.next() } else { given.next_back() };
        let other = match is_front {
            _ if count == most => None,
            true => expected.next(),
            false => expected.next_back(),
        };
        assert_eq!(one, other);
        if one.is_none() {
            assert_eq!((given.next(), given.next_back()), (None, None));
            return;
        }
    }
}

const KEYS: u64 = 700;

// Changes a key, in a way that leaves many leaves empty at times.
fn change(session: &mut Session, plain: &mut Plain, draw: &mut Draw, turn: u64) {
    let key = draw.below(KEYS);
    if draw.below(10) < if turn / 3_000 % 2 == 0 { 8 } else { 2 } {
        assert_eq!(session.put(key, turn), Ok(plain.insert(key, turn)));
    } else {
        assert_eq!(session.remove(key).map(|answer| answer.pointer()), Ok(plain.remove(&key)));
    }
}

fn ends(session: &mut Session, plain: &Plain, key: u64) {
    assert_eq!(session.first(), plain.iter().next().map(pair));
    assert_eq!(session.last(), plain.iter().next_back().map(pair));
    assert_eq!(session.prev(key), plain.range(..key).next_back().map(pair));
    assert_eq!(session.next(key), plain.range(key + 1..).next().map(pair));
    assert_eq!(session.at_most(key), plain.range(..=key).next_back().map(pair));
    assert_eq!(session.at_least(key), plain.range(key..).next().map(pair));
}

#[test]
fn a_session_reads_from_either_end_as_a_btree_map() {
    let map = Map::open_fixed(&Index::new(4).unwrap(), Room { pages: 20_000, rows: 40_000, sessions: 1 }).unwrap();
    let (mut session, mut plain, mut draw) = (map.session().unwrap(), Plain::new(), Draw(88_172_645_463_325_252));
    for turn in 0..24_000 {
        change(&mut session, &mut plain, &mut draw, turn);
        ends(&mut session, &plain, draw.below(KEYS));
        if turn % 7 == 0 {
            let range = draw.range(KEYS);
            both_ends(session.range(range.clone()), &plain, range.clone(), usize::MAX, &mut draw);
            let most = draw.below(KEYS / 2) as usize;
            both_ends(session.range(range.clone()).limit(most), &plain, range, most, &mut draw);
        }
        if turn % 501 == 0 {
            assert_eq!(session.pop_last(), Ok(plain.pop_last()));
            assert_eq!(session.pop_first(), Ok(plain.pop_first()));
        }
    }
    assert!(session.range(..).rev().eq(plain.iter().rev().map(pair)));
}

#[test]
fn the_greatest_and_the_least_key_are_at_the_ends() {
    let index = Index::from_entries(4, [(0, 1), (u64::MAX, 2)]).unwrap();
    let map = Map::open_fixed(&index, Room { pages: 0, rows: 0, sessions: 1 }).unwrap();
    let mut session = map.session().unwrap();
    assert_eq!((session.first(), session.last()), (Some((0, 1)), Some((u64::MAX, 2))));
    assert_eq!((session.prev(0), session.next(u64::MAX)), (None, None));
    assert_eq!((session.prev(u64::MAX), session.next(0)), (Some((0, 1)), Some((u64::MAX, 2))));
    assert!(session.range(..).rev().eq([(u64::MAX, 2), (0, 1)]));
}

// A limit is asked for by parts of 256 entries and one of the rest: around the ends of these, as from a `take`.
#[test]
fn a_limit_gives_as_many_entries_as_a_take() {
    let index = Index::from_sorted(8, (0..1000).map(|key| (key, 2 * key))).unwrap();
    let map = Map::open_fixed(&index, Room { pages: 0, rows: 0, sessions: 1 }).unwrap();
    let mut session = map.session().unwrap();
    for most in [0, 1, 2, 16, 17, 255, 256, 257, 512, 513, 799, 800, 801, usize::MAX] {
        let (first, last) = (100..100 + most.min(800) as u64, 900 - most.min(800) as u64..900);
        assert!(session.range(100..900).limit(most).eq(first.map(|key| (key, 2 * key))), "{most}");
        assert!(session.range(100..900).limit(most).rev().eq(last.rev().map(|key| (key, 2 * key))), "{most}");
    }
    let mut limit = session.range(..).limit(3);
    assert_eq!((limit.size_hint(), limit.next(), limit.size_hint()), ((0, Some(3)), Some((0, 0)), (2, Some(2))));
    assert_eq!((limit.next_back(), limit.next(), limit.next()), (Some((999, 1998)), Some((1, 2)), None));
}
