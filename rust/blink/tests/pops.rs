//! Sessions that take the first or the last entries of one map at once: each entry goes to one of them, and none is left.

use blink::{Error, Index, Map, Session};
use std::thread;

const THREADS: usize = 4;
const KEYS: u64 = 4_000;

type Pop = fn(&mut Session) -> Result<Option<(u64, u64)>, Error>;

// Each thread pops until its session says that the map is empty. All begin at one end, so most pops meet another one.
fn pop_all(pop: Pop) {
    let map = Map::open(&Index::from_sorted(8, (0..KEYS).map(|key| (key, key + 7))).unwrap()).unwrap();
    let mut popped: Vec<(u64, u64)> = Vec::new();
    thread::scope(|scope| {
        let mut workers = Vec::new();
        for _ in 0..THREADS {
            let mut session = map.session().unwrap();
            workers.push(scope.spawn(move || {
                let mut own = Vec::new();
                while let Some(entry) = pop(&mut session).unwrap() {
                    own.push(entry);
                }
                // nobody inserts, so an empty map stays empty
                assert_eq!(session.count(..), 0);
                own
            }));
        }
        for worker in workers {
            popped.extend(worker.join().unwrap());
        }
    });
    popped.sort_unstable();
    assert!(popped.into_iter().eq((0..KEYS).map(|key| (key, key + 7))));
}

#[test]
fn first_entries_go_to_one_session_each() {
    pop_all(Session::pop_first);
}

#[test]
fn last_entries_go_to_one_session_each() {
    pop_all(Session::pop_last);
}
