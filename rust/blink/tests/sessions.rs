//! A map and its sessions: one thread beside a plain map, two threads, refusals, and a map that is full.

use blink::{Answer, Error, Index, Left, Map, Room, Session, Reserve};
use std::collections::BTreeMap;
use std::thread::{self, JoinHandle};

fn map_over(index: &Index, pages: u32, rows: u32, sessions: u32) -> Map {
    Map::open_fixed(index, Room { pages, rows, sessions }).unwrap()
}

fn next_random(state: &mut u64) -> u64 {
    *state = state.wrapping_mul(6_364_136_223_846_793_005).wrapping_add(1_442_695_040_888_963_407);
    *state >> 33
}

// One operation at the session and at the plain map, which answer alike.
fn both(session: &mut Session, plain: &mut BTreeMap<u64, u64>, kind: u64, key: u64, pointer: u64) {
    let kept = plain.get(&key).copied();
    let expected = |some: fn(u64) -> Answer, none: Answer| Ok(kept.map_or(none, some));
    match kind {
        0 => {
            assert_eq!(session.insert(key, pointer), expected(Answer::Exists, Answer::Inserted));
            plain.entry(key).or_insert(pointer);
        }
        1 => {
            assert_eq!(session.remove(key), expected(Answer::Removed, Answer::Absent));
            plain.remove(&key);
        }
        2 => {
            assert_eq!(session.replace(key, pointer), expected(Answer::Replaced, Answer::Absent));
            plain.entry(key).and_modify(|there| *there = pointer);
        }
        3 => assert_eq!(session.put(key, pointer), Ok(plain.insert(key, pointer))),
        _ => assert_eq!(session.get(key), kept),
    }
}

#[test]
fn one_thread_answers_as_a_plain_map() {
    for fan in [4, 7, 32] {
        let before: Vec<(u64, u64)> = (0..300).step_by(3).map(|key| (key, key * 2)).collect();
        let index = Index::from_entries(fan, before.iter().copied()).unwrap();
        let mut plain: BTreeMap<u64, u64> = before.iter().copied().collect();
        let map = map_over(&index, 10_000, 40_000, 3);
        // three sessions by turns: each sees all that the others have done, since one call ends before the next begins
        let mut sessions = [map.session().unwrap(), map.session().unwrap(), map.session().unwrap()];
        let mut random = u64::from(fan);
        for pointer in 0..20_000 {
            let (which, kind) = (next_random(&mut random) % 3, next_random(&mut random) % 5);
            let key = next_random(&mut random) % 300;
            both(&mut sessions[which as usize], &mut plain, kind, key, pointer);
            if pointer % 500 == 0 {
                let range = sessions[which as usize].range(key..key + 100);
                assert!(range.eq(plain.range(key..key + 100).map(|(&key, &pointer)| (key, pointer))));
            }
        }
        drop(sessions);
        let closed = map.close().unwrap();
        assert!(closed.iter().eq(plain.into_iter()));
        assert_eq!(closed.fan(), fan);
        assert!(index.iter().eq(before));
    }
}

#[test]
fn the_greatest_keys_and_pointers() {
    let map = map_over(&Index::new(4).unwrap(), 100, 300, 1);
    let mut session = map.session().unwrap();
    for key in [0, u64::MAX, u64::MAX - 1] {
        assert_eq!(session.put(key, u64::MAX), Ok(None));
        assert_eq!(session.replace(key, 0), Ok(Answer::Replaced(u64::MAX)));
        assert_eq!(session.put(key, key), Ok(Some(0)));
    }
    drop(session);
    assert!(map.close().unwrap().iter().eq([0, u64::MAX - 1, u64::MAX].map(|key| (key, key))));
}

#[test]
fn two_threads_change_the_same_keys() {
    const KEYS: u64 = 50;
    const TURNS: u64 = 30_000;
    let map = map_over(&Index::new(4).unwrap(), 70_000, 100_000, 2);
    // how often each thread has inserted a key, less how often it has removed it
    let work = |thread: u64| {
        let mut session = map.session().unwrap();
        let mut random = thread;
        let mut there = vec![0i64; KEYS as usize];
        for turn in 0..TURNS {
            let key = next_random(&mut random) % KEYS;
            match next_random(&mut random) % 4 {
                0 => there[key as usize] += i64::from(session.insert(key, turn) == Ok(Answer::Inserted)),
                1 => there[key as usize] += i64::from(session.put(key, turn) == Ok(None)),
                2 => there[key as usize] -= i64::from(session.remove(key).unwrap() != Answer::Absent),
                _ => _ = session.replace(key, turn).unwrap(),
            }
        }
        there
    };
    let (one, other) = thread::scope(|scope| {
        let workers = [1, 2].map(|thread| scope.spawn(move || work(thread)));
        let [one, other] = workers.map(|worker| worker.join().unwrap());
        (one, other)
    });
    let closed = map.close().unwrap();
    for key in 0..KEYS {
        assert_eq!(one[key as usize] + other[key as usize], i64::from(closed.get(key).is_some()), "key {key}");
    }
}

// The keys are the multiples of 3 below 60,000, and map to seven times their third. Each thread looks all keys up, from a place of its
// own on, and what is between them, and scans and snapshots a range of 100 keys from there.
#[test]
fn eight_threads_read_one_index() {
    const ENTRIES: u64 = 20_000;
    let entries: Vec<(u64, u64)> = (0..ENTRIES).map(|third| (3 * third, 7 * third)).collect();
    let index = Index::from_sorted(16, entries.iter().copied()).unwrap();
    let map = map_over(&index, 0, 0, 8);
    let read = |session: &mut Session, thread: u64| {
        for step in 0..ENTRIES {
            let third = (2_500 * thread + step) % ENTRIES;
            assert_eq!((session.get(3 * third), session.get(3 * third + 1)), (Some(7 * third), None));
            if step % 100 == 0 {
                let within = third + 1..ENTRIES.min(third + 101);
                let range = 3 * third + 1..3 * third + 301;
                assert!(session.range(range.clone()).eq(within.clone().map(|third| entries[third as usize])));
                let pairs = within.map(|third| (3 * third, 7 * third)).collect();
                assert_eq!(session.snapshot(range, 1), Ok(Some(pairs)));
            }
        }
        // the map has no room for changes
        assert_eq!(session.insert(1, 1), Err(Error::Full));
        assert_eq!(session.remove(0), Err(Error::Full));
    };
    thread::scope(|scope| {
        for thread in 0..8 {
            let mut session = map.session().unwrap();
            scope.spawn(move || read(&mut session, thread));
        }
        // the index is a tree of its own, which this thread reads meanwhile
        assert!((0..ENTRIES).all(|third| index.get(3 * third) == Some(7 * third)));
    });
    assert_eq!(map.close().unwrap().len(), 20_000);
}

// Inserts ascending keys by turns of all sessions until each is refused, and returns how many there are.
fn fill(sessions: &mut [Session]) -> u64 {
    let mut next = 0;
    loop {
        let before = next;
        for session in &mut *sessions {
            match session.insert(next, next + 7) {
                Ok(answer) => {
                    assert_eq!(answer, Answer::Inserted);
                    next += 1;
                }
                Err(error) => assert_eq!(error, Error::Full),
            }
        }
        if before == next {
            return next;
        }
    }
}

// All entries are there, also after each session is full, and the refused change nothing.
fn fills_and_loses_nothing(pages: u32, rows: u32) -> (u64, Left) {
    let map = map_over(&Index::new(4).unwrap(), pages, rows, 3);
    let mut sessions = [map.session().unwrap(), map.session().unwrap(), map.session().unwrap()];
    let count = fill(&mut sessions);
    for session in &mut sessions {
        assert_eq!(session.insert(count, 0), Err(Error::Full));
        assert_eq!(session.put(count, 0), Err(Error::Full));
        // a key that is there needs no room for an insertion
        assert_eq!((session.insert(0, 0), session.put(0, 7)), (Ok(Answer::Exists(7)), Ok(Some(7))));
        assert_eq!((session.get(0), session.get(count)), (Some(7), None));
    }
    let left = map.room().unwrap();
    drop(sessions);
    let closed = map.close().unwrap();
    assert!(closed.iter().eq((0..count).map(|key| (key, key + 7))));
    (count, left)
}

#[test]
fn a_map_without_page_numbers_is_full() {
    let (count, left) = fills_and_loses_nothing(3_000, 100_000);
    assert!(count > 1_000 && left.pages < 22 && left.rows >= 44, "{count} {left:?}");
}

// Each draw keeps what the session had left, so that fewer are left than the 22 that an insertion may need.
#[test]
fn one_session_uses_nearly_all_page_numbers() {
    for pages in [200, 1_000, 20_000] {
        let map = map_over(&Index::new(16).unwrap(), pages, 2 * pages + 1_000, 1);
        let mut session = map.session().unwrap();
        let refused = (0..16 * u64::from(pages)).find(|&key| session.insert(key, key).is_err());
        let left = map.room().unwrap().pages + session.reserve().pages;
        assert!(refused.is_some() && left < 22, "{left} of {pages}");
    }
}

// Sessions draw by turns from one pool. Of the numbers that no page has neither has 22, so that all others were used.
#[test]
fn sessions_that_draw_by_turns_lose_no_page_number() {
    for (pages, count) in [(3_000, 8), (20_000, 256)] {
        let map = map_over(&Index::new(4).unwrap(), pages, 2 * pages + 300 * count, count);
        let mut sessions: Vec<Session> = (0..count).map(|_| map.session().unwrap()).collect();
        let filled = fill(&mut sessions);
        let kept: Vec<u64> = sessions.iter_mut().map(|session| session.reserve().pages).collect();
        let pool = map.room().unwrap().pages;
        assert!(pool < 22 && kept.iter().all(|&left| left < 22), "{pool} {kept:?}");
        drop(sessions);
        assert_eq!(map.close().unwrap().len() as u64, filled);
    }
}

// The first insertion has all rows, and the fifth splits the leaf: no insertion has room any more. The puts add records to the leaf's row, or
// write a row that came back.
#[test]
fn a_full_map_takes_puts_of_keys_that_are_there() {
    let map = map_over(&Index::new(4).unwrap(), 200, 44, 1);
    let mut session = map.session().unwrap();
    for key in 1..6 {
        assert_eq!(session.insert(key, 0), Ok(Answer::Inserted));
    }
    for pointer in 0..1_000 {
        assert_eq!(session.put(5, pointer + 1), Ok(Some(pointer)));
    }
    assert_eq!((session.insert(5, 50), session.put(6, 60)), (Ok(Answer::Exists(1_000)), Err(Error::Full)));
}

#[test]
fn a_map_without_rows_is_full() {
    let (count, left) = fills_and_loses_nothing(100_000, 3_000);
    assert!(count > 300 && left.rows < 44 && left.pages >= 22, "{count} {left:?}");
}

#[test]
fn a_map_with_three_rows_takes_any_number_of_changes_that_need_one() {
    let index = Index::from_entries(4, [(1, 10), (2, 20)]).unwrap();
    let map = map_over(&index, 0, 3, 1);
    let mut session = map.session().unwrap();
    assert_eq!(session.insert(3, 30), Err(Error::Full));
    for pointer in 10..1000 {
        assert_eq!(session.replace(1, pointer + 1), Ok(Answer::Replaced(pointer)));
    }
    assert_eq!(session.remove(2), Ok(Answer::Removed(20)));
    assert_eq!(session.insert(3, 30), Err(Error::Full));
    assert_eq!((session.get(1), session.get(2), map.room().unwrap()), (Some(1000), None, Left { pages: 0, rows: 2 }));
    drop(session);
    assert!(map.close().unwrap().iter().eq([(1, 1000)]));
}

// A range takes its entries out in parts of 16, 32, 64, 128 and then 256.
#[test]
fn a_range_gives_each_entry_once_wherever_its_parts_end() {
    let entry_of = |place: u64| (2 * place + 1, 3 * place);
    let entries: Vec<(u64, u64)> = (0..1000).map(entry_of).collect();
    let map = map_over(&Index::from_sorted(16, entries.iter().copied()).unwrap(), 0, 0, 1);
    let mut session = map.session().unwrap();
    for end in [16, 48, 112, 240, 496, 752] {
        for count in [end - 1, end, end + 1] {
            assert!(session.range(..2 * count).eq((0..count).map(entry_of)), "{count}");
            assert!(session.range(1..=2 * count + 1).eq((0..=count).map(entry_of)), "{count}");
        }
    }
    assert!(session.range(..).eq(entries));
}

// What a session has, where no row waits.
fn reserve(pages: u64, unwritten: u64, free: u64, taken_out: u64) -> Reserve {
    Reserve { pages, unwritten, free, taken_out, waiting: 0 }
}

// A leaf has 4 entries. Of two sessions the first insertion draws a quarter of the pool, 50 page numbers and 50 rows. Four insertions are
// appended to the leaf's row, and use none. The fifth splits the leaf: it writes the new leaf, the old one, the new root and the prime block,
// and the rows of the second and the fourth replace others. The eighth splits the new leaf: it writes another new one, that one, and the root.
#[test]
fn a_session_tells_what_its_insertions_use() {
    let map = map_over(&Index::new(4).unwrap(), 200, 200, 2);
    let (mut session, mut other) = (map.session().unwrap(), map.session().unwrap());
    assert_eq!(session.reserve(), reserve(0, 0, 0, 0));
    for key in 1..5 {
        assert_eq!(session.insert(key, key), Ok(Answer::Inserted));
        assert_eq!(session.reserve(), reserve(50, 50, 0, 0));
    }
    for key in 5..8 {
        assert_eq!(session.insert(key, key), Ok(Answer::Inserted));
        assert_eq!(session.reserve(), reserve(48, 46, 0, 2));
    }
    assert_eq!(session.insert(8, 8), Ok(Answer::Inserted));
    assert_eq!(session.reserve(), reserve(47, 43, 0, 4));
    // what changes nothing uses nothing
    assert_eq!((session.remove(9), session.replace(9, 0)), (Ok(Answer::Absent), Ok(Answer::Absent)));
    assert_eq!(session.reserve(), reserve(47, 43, 0, 4));
    // an insertion has to have 44 rows when it begins, so the rows that were replaced come back before; it changes nothing either
    assert_eq!(session.insert(5, 6), Ok(Answer::Exists(5)));
    assert_eq!((session.reserve(), other.reserve()), (reserve(47, 43, 4, 0), reserve(0, 0, 0, 0)));
    assert_eq!(map.room().unwrap(), Left { pages: 150, rows: 150 });
}

// Of one session the first replacement draws half of the pool, 100 rows. Of 13 replacements twelve are appended, and the last writes a row.
// Rows that were replaced begin to wait 64 at a time, and as no other call is in progress they are free at once; free rows are written
// first. A session that joins later has what the last one at its place left.
#[test]
fn a_session_tells_which_rows_have_come_back() {
    let index = Index::from_entries(4, [(1, 0)]).unwrap();
    let map = map_over(&index, 0, 200, 1);
    let mut session = map.session().unwrap();
    for turn in 0..200 * 13 {
        assert_eq!(session.replace(1, turn + 1), Ok(Answer::Replaced(turn)));
        let expected = match (turn + 1) / 13 {
            n @ 0..=63 => reserve(0, 100 - n, 0, n),
            n => reserve(0, 36, 64 - n % 64, n % 64),
        };
        assert_eq!(session.reserve(), expected, "{turn}");
    }
    // 200 rows are three times 64 and 8
    assert_eq!((session.reserve(), map.room().unwrap()), (reserve(0, 36, 56, 8), Left { pages: 0, rows: 100 }));
    drop(session);
    assert_eq!(map.session().unwrap().reserve(), reserve(0, 36, 56, 8));
}

#[test]
fn rows_come_back_while_threads_change_a_map() {
    const KEYS: u64 = 1_000;
    const CHANGES: u64 = 400_000;
    let entries: Vec<(u64, u64)> = (0..KEYS).map(|key| (key, 0)).collect();
    // Leaves are full at first, and such a row has room for one record: so this is a quarter of the rows that the changes write.
    let map = map_over(&Index::from_entries(32, entries.iter().copied()).unwrap(), 1_000, 200_000, 4);
    thread::scope(|scope| {
        for thread in 0..4 {
            let map = &map;
            scope.spawn(move || {
                let mut session = map.session().unwrap();
                let mut random = thread;
                for pointer in 0..CHANGES {
                    let key = next_random(&mut random) % KEYS;
                    assert!(matches!(session.replace(key, pointer), Ok(Answer::Replaced(_))), "{pointer}");
                    assert!(session.get((key + 1) % KEYS).is_some());
                }
            });
        }
    });
    assert_eq!(map.close().unwrap().len() as u64, KEYS);
}

#[test]
fn a_place_is_taken_again() {
    let map = map_over(&Index::new(4).unwrap(), 22, 44, 2);
    let one = map.session().unwrap();
    let mut other = map.session().unwrap();
    assert_eq!(map.session().unwrap_err(), Error::NoSession);
    drop(one);
    let mut again = map.session().unwrap();
    // the session before had drawn nothing, so this one draws what there is
    assert_eq!(again.insert(1, 10), Ok(Answer::Inserted));
    assert_eq!(other.insert(2, 20), Err(Error::Full));
    // the next session at the place goes on with what was drawn
    drop(again);
    assert_eq!(map.session().unwrap().remove(1), Ok(Answer::Removed(10)));
}

#[test]
fn rooms_that_are_refused() {
    let index = Index::from_entries(4, [(1, 10)]).unwrap();
    let open = |pages, sessions| Map::open_fixed(&index, Room { pages, rows: 0, sessions }).map(drop);
    assert_eq!(open(u32::MAX, 0), Err(Error::BadSessions));
    assert_eq!(open(0, 257), Err(Error::BadSessions));
    assert_eq!(open(1_048_575, 256), Err(Error::TooLarge));
    assert_eq!(open(0, 256), Ok(()));
}

#[test]
fn a_leaked_session_is_missing() {
    let map = map_over(&Index::new(4).unwrap(), 0, 0, 1);
    std::mem::forget(map.session().unwrap());
    let unclosed = map.close().unwrap_err();
    assert_eq!(unclosed.error, Error::Missing);
    assert_eq!(unclosed.map.close().map(|index| index.len()).map_err(Error::from), Err(Error::Missing));
}

#[test]
fn a_session_moves_to_another_thread() {
    let map = map_over(&Index::new(4).unwrap(), 44, 88, 2);
    let mut session = map.session().unwrap();
    let mut moved = map.session().unwrap();
    thread::scope(|scope| {
        scope.spawn(move || assert_eq!(moved.insert(1, 10), Ok(Answer::Inserted)));
        // meanwhile another thread asks for a place: there is one, or there is none
        scope.spawn(|| assert!(matches!(map.session(), Ok(_) | Err(Error::NoSession))));
    });
    assert_eq!(session.get(1), Some(10));
    drop(session);
    assert_eq!(map.close().unwrap().len(), 1);
}

// Each of 256 sessions inserts a key, while the tree has few pages, and stays. None takes the part of those that come later.
#[test]
fn each_of_256_sessions_finds_its_part_of_the_room() {
    let room = Room { pages: 20_000, rows: 40_000, sessions: 256 };
    let map = Map::open_fixed(&Index::new(16).unwrap(), room).unwrap();
    let mut sessions: Vec<Session> = (0..256).map(|_| map.session().unwrap()).collect();
    for (key, session) in (0..).zip(&mut sessions) {
        assert_eq!(session.insert(key, 10 * key), Ok(Answer::Inserted), "{key}");
    }
    drop(sessions);
    assert_eq!(map.close().unwrap().len(), 256);
}

// A thread that outlives the call, with a session that owns a share of the map.
fn fills(map: &Map, from: u64) -> JoinHandle<Session> {
    let mut session = map.session().unwrap();
    thread::spawn(move || {
        (from..from + 100).for_each(|key| assert_eq!(session.insert(key, 10 * key), Ok(Answer::Inserted)));
        session
    })
}

#[test]
fn a_session_that_owns_a_share_keeps_its_map() {
    let map = map_over(&Index::new(8).unwrap(), 500, 2_000, 2);
    let mut sessions: Vec<_> = [fills(&map, 0), fills(&map, 100)].map(|thread| thread.join().unwrap()).into();
    assert_eq!(map.session().unwrap_err(), Error::NoSession);
    let unclosed = map.close().unwrap_err();
    assert_eq!(unclosed.error, Error::Missing);
    let map = unclosed.map;
    let mut last = sessions.pop().unwrap();
    drop(sessions);
    // the share of the session that is left keeps the map
    drop(map);
    assert_eq!((last.get(7), last.get(107)), (Some(70), Some(1_070)));
    assert_eq!(last.count(..), 200);
}

// So many insertions by turns of the sessions, none of which is refused.
fn fits(index: &Index, insertions: u32, sessions: u32, key: impl Fn(u64) -> u64) {
    let map = Map::open_fixed(index, Room::for_insertions(index, insertions, sessions)).unwrap();
    let mut sessions: Vec<_> = (0..sessions).map(|_| map.session().unwrap()).collect();
    for at in 0..insertions as usize {
        let turn = at % sessions.len();
        assert_eq!(sessions[turn].insert(key(at as u64), 1), Ok(Answer::Inserted));
    }
}

#[test]
fn a_room_for_insertions_is_enough() {
    for fan in [4, 5, 16, 32] {
        for sessions in [1, 5] {
            let empty = Index::new(fan).unwrap();
            fits(&empty, 0, sessions, |at| at);
            fits(&empty, 5_000, sessions, |at| at);
            fits(&empty, 5_000, sessions, |at| 5_000 - at);
            fits(&empty, 5_000, sessions, |at| at.wrapping_mul(0x9e37_79b9_7f4a_7c15));
            // each leaf is full, and one key comes into each
            let full = Index::from_sorted(fan, (0..2_000).map(|key| (1_000 * key, key))).unwrap();
            fits(&full, 2_000, sessions, |at| 1_000 * at + 500);
            fits(&full, 5_000, sessions, |at| 1_000 * (at % 2_000) + 1 + at / 2_000);
        }
    }
}
