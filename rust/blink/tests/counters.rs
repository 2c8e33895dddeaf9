//! Eight threads that raise one counter, each by a session of its own.

use blink::{Answer, Index, Map, Room, Session};
use std::thread;

const THREADS: u64 = 8;
const TIMES: u64 = 20_000;
const COUNTER: u64 = 7;

const ROOM: Room = Room {
    pages: 5_000,
    rows: 200_000,
    sessions: THREADS as u32,
};

// What `raise` makes of the counter, TIMES times in each thread.
fn raised_by_all(raise: impl Fn(&mut Session) + Sync) -> Option<u64> {
    let mut index = Index::new(8).unwrap();
    for key in 0..20 {
        assert_eq!(index.insert(key, 0), Ok(Answer::Inserted));
    }
    let map = Map::open_fixed(&index, ROOM).unwrap();
    thread::scope(|scope| {
        for _ in 0..THREADS {
            let (mut session, raise) = (map.session().unwrap(), &raise);
            scope.spawn(move || (0..TIMES).for_each(|_| raise(&mut session)));
        }
    });
    map.close().unwrap().get(COUNTER)
}

#[test]
fn no_exchange_is_lost() {
    let counted = raised_by_all(|session| {
        let mut seen = session.get(COUNTER).unwrap();
        // a refused exchange tells the pointer that another thread has left
        while let Answer::Exists(other) = session.compare_exchange(COUNTER, seen, seen + 1).unwrap() {
            assert!(other > seen);
            seen = other;
        }
    });
    assert_eq!(counted, Some(THREADS * TIMES));
}

#[test]
fn no_update_is_lost() {
    let counted = raised_by_all(|session| {
        let before = session.update(COUNTER, |count| count.map(|count| count + 1)).unwrap();
        assert!(before.is_some());
    });
    assert_eq!(counted, Some(THREADS * TIMES));
}

// Each thread inserts the counter where it isn't there, and one of them does it.
#[test]
fn an_update_begins_a_counter() {
    let map = Map::open_fixed(&Index::new(8).unwrap(), ROOM).unwrap();
    let begun: usize = thread::scope(|scope| {
        let threads: Vec<_> = (0..THREADS)
            .map(|_| {
                let mut session = map.session().unwrap();
                scope.spawn(move || session.update(COUNTER, |count| Some(count.unwrap_or(0) + 1)).unwrap().is_none())
            })
            .collect();
        threads.into_iter().map(|thread| usize::from(thread.join().unwrap())).sum()
    });
    assert_eq!(begun, 1);
    assert_eq!(map.close().unwrap().get(COUNTER), Some(THREADS));
}

#[test]
fn an_update_takes_a_key_away_where_its_function_says() {
    let map = Map::open_fixed(&Index::new(8).unwrap(), ROOM).unwrap();
    let mut session = map.session().unwrap();
    assert_eq!(session.update(COUNTER, |_| None), Ok(None));
    assert_eq!(session.insert(COUNTER, 70), Ok(Answer::Inserted));
    assert_eq!(session.update(COUNTER, |seen| seen), Ok(Some(70)));
    assert_eq!(session.get(COUNTER), Some(70));
    assert_eq!(session.update(COUNTER, |_| None), Ok(Some(70)));
    assert_eq!(session.get(COUNTER), None);
}

#[test]
fn a_removal_finds_what_it_expects() {
    let map = Map::open_fixed(&Index::new(8).unwrap(), ROOM).unwrap();
    let (mut one, mut other) = (map.session().unwrap(), map.session().unwrap());
    assert_eq!(one.insert(COUNTER, 70), Ok(Answer::Inserted));
    assert_eq!(other.compare_exchange(COUNTER, 70, 71), Ok(Answer::Replaced(70)));
    assert_eq!(one.compare_remove(COUNTER, 70), Ok(Answer::Exists(71)));
    assert_eq!(other.get(COUNTER), Some(71));
    assert_eq!(one.compare_remove(COUNTER, 71), Ok(Answer::Removed(71)));
    assert_eq!(one.compare_remove(COUNTER, 71), Ok(Answer::Absent));
    assert_eq!(other.get(COUNTER), None);
}

// Each thread raises the counter, which may begin it, and lowers it again, which takes it away at 1. A removal of what another
// thread has raised meanwhile would leave that one with no counter to lower.
#[test]
fn no_update_is_removed_unseen() {
    let left = raised_by_all(|session| {
        session.update(COUNTER, |count| Some(count.unwrap_or(0) + 1)).unwrap();
        let before = session.update(COUNTER, |count| count.filter(|count| *count > 1).map(|count| count - 1)).unwrap();
        assert!(before.is_some_and(|count| count > 0));
    });
    // the counter began at 0, which the first raise made 1
    assert_eq!(left, None);
}
