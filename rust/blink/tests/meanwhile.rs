//! Reads that are stopped after any of their machine instructions, while another session makes changes from the first to the
//! last. What the read has met before is as it was before all changes, and what it meets afterwards is as it is after them.
#![cfg(all(target_os = "linux", target_arch = "x86_64", target_env = "gnu"))]

mod stepped;

use blink::{Answer, Index, Map, Op, Room, Session};
use std::collections::BTreeMap;
use std::fmt::Debug;
use std::ops::Bound;
use stepped::by_instruction;

// Twelve keys in three full leaves below a root that has room for one more.
fn index() -> Index {
    let entries: Vec<(u64, u64)> = (1..=12).map(|place| (10 * place, place)).collect();
    let index = Index::from_sorted(4, entries.iter().copied()).unwrap();
    assert_eq!(index.pages(), 4);
    index
}

// What other sessions do in one stop.
struct Changes {
    ops: &'static [Op],
    // So often a pointer is put anew three times at the end, and then as it was. Of 13 such changes one takes a row, and the others are
    // appended to it.
    turns: u64,
}

// The leaf of the keys 50 to 80 is split.
const A_SPLIT: Changes = Changes { ops: &[Op::Insert(55, 5)], turns: 0 };

// It is split again and again, and the root too.
const SPLITS_UP_TO_THE_ROOT: Changes = Changes {
    ops: &[
        Op::Insert(79, 1),
        Op::Insert(78, 2),
        Op::Insert(77, 3),
        Op::Insert(76, 4),
        Op::Insert(75, 5),
        Op::Insert(65, 6),
        Op::Insert(5, 7),
        Op::Insert(115, 8),
        Op::Insert(125, 9),
    ],
    turns: 0,
};

// Its entries go, and the next ones on both sides.
const AN_EMPTY_LEAF: Changes = Changes {
    ops: &[Op::Remove(40), Op::Remove(50), Op::Remove(60), Op::Remove(70), Op::Remove(80), Op::Remove(90)],
    turns: 0,
};

// Entries go, and others come.
const OTHER_ENTRIES: Changes = Changes {
    ops: &[
        Op::Remove(60),
        Op::Insert(61, 61),
        Op::Insert(62, 62),
        Op::Remove(61),
        Op::Remove(20),
        Op::Insert(25, 25),
        Op::Replace(100, 9),
        Op::Insert(95, 95),
        Op::Remove(110),
    ],
    turns: 300,
};

type Plain = BTreeMap<u64, u64>;

fn applied(plain: &Plain, ops: &[Op]) -> Plain {
    let mut plain = plain.clone();
    for &op in ops {
        match op {
            Op::Insert(key, pointer) | Op::Replace(key, pointer) => _ = plain.insert(key, pointer),
            Op::Remove(key) => _ = plain.remove(&key),
            _ => {}
        }
    }
    plain
}

fn make(changes: &Changes, session: &mut Session) {
    for &op in changes.ops {
        let answer = match op {
            Op::Insert(key, pointer) => session.insert(key, pointer),
            Op::Replace(key, pointer) => session.replace(key, pointer),
            Op::Remove(key) => session.remove(key),
            _ => continue,
        };
        assert!(!matches!(answer, Err(_) | Ok(Answer::Absent | Answer::Exists(_))), "{op:?}: {answer:?}");
    }
    for turn in 1..changes.turns {
        assert_eq!(session.replace(10, turn + 1), Ok(Answer::Replaced(turn)));
        assert_eq!(session.replace(10, turn), Ok(Answer::Replaced(turn + 1)));
        assert_eq!(session.replace(10, turn + 1), Ok(Answer::Replaced(turn)));
    }
    assert!(changes.turns == 0 || session.put(10, 1) == Ok(Some(changes.turns)));
}

// Stops the call after so many instructions, and makes the changes. `fits` says whether an answer is right, of a call that
// begins before the changes and ends after them. The call's own session then reads all as it is after them. Returns `false`, if
// the call has ended before.
fn stops<T: Debug>(
    instructions: u32,
    changes: &Changes,
    call: &impl Fn(&mut Session) -> T,
    fits: &impl Fn(&T, &Plain, &Plain) -> bool,
) -> bool {
    let index = index();
    let map = Map::open_fixed(&index, Room { pages: 300, rows: 700, sessions: 2 }).unwrap();
    let (mut reader, mut writer) = (map.session().unwrap(), map.session().unwrap());
    let (mut passed, mut made) = (0, false);
    let answer = by_instruction(
        || call(&mut reader),
        || {
            if passed == instructions {
                make(changes, &mut writer);
                made = true;
            }
            passed += 1;
            !made
        },
    );
    let before: Plain = index.iter().collect();
    let after = applied(&before, changes.ops);
    if !made {
        assert!(fits(&answer, &before, &before));
        return false;
    }
    assert!(fits(&answer, &before, &after), "after {instructions} instructions: {answer:?}");
    let plain = |(&key, &pointer): (&u64, &u64)| (key, pointer);
    assert!(reader.range(..).eq(after.iter().map(plain)));
    drop((reader, writer));
    assert!(map.close().unwrap().iter().eq(after.iter().map(plain)));
    true
}

// Stops the call after each `step`th of its instructions, from another one on for each list of changes.
fn stops_anywhere<T: Debug>(step: usize, call: impl Fn(&mut Session) -> T, fits: impl Fn(&T, &Plain, &Plain) -> bool) {
    for (first, changes) in [A_SPLIT, SPLITS_UP_TO_THE_ROOT, AN_EMPTY_LEAF, OTHER_ENTRIES].iter().enumerate() {
        let places = ((17 * first % step) as u32..).step_by(step);
        let count = places.take_while(|&instructions| stops(instructions, changes, &call, &fits)).count();
        assert!(count * step > 100, "{count} stops");
    }
}

#[test]
fn a_find_that_is_stopped_anywhere_answers_as_before_or_after() {
    for key in [5, 55, 60, 61, 80, 100] {
        stops_anywhere(3, |session| session.get(key), |found, before, after| {
            [before, after].iter().any(|plain| plain.get(&key).copied() == *found)
        });
    }
}

// The first places of a scan from `lo` to `hi`, of which the lesser keys were read before, and the others after.
fn is_scan(given: &[(u64, u64)], (lo, hi): (u64, u64), most: usize, before: &Plain, after: &Plain) -> bool {
    let turns = before.keys().chain(after.keys()).copied().chain([0, u64::MAX]);
    turns.into_iter().any(|turn| {
        let lesser = before.range(..turn);
        let all = lesser.chain(after.range(turn..)).filter(|(key, _)| (lo..=hi).contains(*key));
        all.take(most).eq(given.iter().map(|(key, pointer)| (key, pointer)))
    })
}

#[test]
fn a_scan_that_is_stopped_anywhere_goes_on_where_it_was() {
    for (lo, hi, most) in [(0, u64::MAX, usize::MAX), (45, 95, usize::MAX), (41, u64::MAX, 3), (58, 78, 4)] {
        stops_anywhere(61, |session| scan_into(session, lo, hi, most), |given, before, after| {
            is_scan(given, (lo, hi), most, before, after)
        });
    }
}

fn scan_into(session: &mut Session, lo: u64, hi: u64, most: usize) -> Vec<(u64, u64)> {
    session.range(lo..=hi).take(most).collect()
}

// The same of a backward scan, of which the greater keys were read before, and the others after.
fn is_scan_back(given: &[(u64, u64)], (lo, hi): (u64, u64), most: usize, before: &Plain, after: &Plain) -> bool {
    let turns = before.keys().chain(after.keys()).copied().chain([0, u64::MAX]);
    turns.into_iter().any(|turn| {
        let greater = before.range((Bound::Excluded(turn), Bound::Unbounded)).rev();
        let all = greater.chain(after.range(..=turn).rev()).filter(|(key, _)| (lo..=hi).contains(*key));
        all.take(most).eq(given.iter().map(|(key, pointer)| (key, pointer)))
    })
}

#[test]
fn a_backward_scan_that_is_stopped_anywhere_goes_on_where_it_was() {
    for (lo, hi, most) in [(0, u64::MAX, usize::MAX), (45, 95, usize::MAX), (0, 89, 3), (58, 78, 4)] {
        let scan = |session: &mut Session| session.range(lo..=hi).rev().take(most).collect::<Vec<_>>();
        stops_anywhere(61, scan, |given, before, after| is_scan_back(given, (lo, hi), most, before, after));
    }
}

#[test]
fn a_snapshot_that_is_stopped_anywhere_is_of_before_or_after() {
    for (lo, hi) in [(0, u64::MAX), (45, 95)] {
        // The second try succeeds, since nothing changes then.
        let take = |session: &mut Session| session.snapshot(lo..=hi, 2).unwrap().expect("a second try");
        stops_anywhere(97, take, |taken, before, after| {
            [before, after].iter().any(|plain| plain.range(lo..=hi).eq(taken.iter().map(|(key, pointer)| (key, pointer))))
        });
    }
}
