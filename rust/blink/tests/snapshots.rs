//! Snapshots while others change the tree. Each changes one key at a time, so what every state between two changes has, each snapshot has.

use blink::{Answer, Index, Map, Room, Session};
use std::sync::atomic::{AtomicU64, Ordering};
use std::thread;

const WRITERS: u64 = 4;

// The writer's first keys, in ascending order. They lie among those of the others, so that leaves have keys of all.
fn keys_of(writer: u64, count: u64) -> impl Iterator<Item = u64> {
    (0..count).map(move |turn| turn * WRITERS + writer)
}

// Of each writer the snapshot has its first keys, and no gap: a key is inserted only after the lesser ones.
fn has_no_gap(entries: &[(u64, u64)]) {
    for writer in 0..WRITERS {
        let its = entries.iter().filter(|(key, _)| key % WRITERS == writer);
        assert!(its.zip(keys_of(writer, u64::MAX / WRITERS)).all(|(&entry, key)| entry == (key, key + 7)));
    }
}

// Takes snapshots until all writers have ended, and there are so many entries. It returns how many succeeded.
fn watch(mut snapshot: impl FnMut() -> Option<Vec<(u64, u64)>>, at_work: &AtomicU64, all: u64) -> u64 {
    let (mut taken, mut last) = (0, 0);
    loop {
        let over = at_work.load(Ordering::SeqCst) == 0;
        if let Some(entries) = snapshot() {
            has_no_gap(&entries);
            assert!(entries.len() >= last, "entries that were there are gone");
            last = entries.len();
            taken += 1;
        }
        if over {
            assert_eq!(last as u64, all);
            return taken;
        }
    }
}

#[test]
fn snapshots_of_sessions_have_no_gap() {
    const KEYS: u64 = 2_000;
    // it is renewed again and again as it grows
    let map = Map::new(8).unwrap();
    let at_work = AtomicU64::new(WRITERS);
    let write = |mut session: Session, writer: u64| {
        for key in keys_of(writer, KEYS) {
            assert_eq!(session.insert(key, key + 7), Ok(Answer::Inserted));
        }
        at_work.fetch_sub(1, Ordering::SeqCst);
    };
    thread::scope(|scope| {
        for writer in 0..WRITERS {
            let session = map.session().unwrap();
            scope.spawn(move || write(session, writer));
        }
        for _ in 0..2 {
            let mut session = map.session().unwrap();
            let at_work = &at_work;
            scope.spawn(move || {
                let taken = watch(|| session.snapshot(.., 20).unwrap(), at_work, WRITERS * KEYS);
                assert!(taken > 0);
            });
        }
    });
}

#[test]
fn a_snapshot_has_the_entries_of_its_range() {
    let before: Vec<(u64, u64)> = (0..1_000).map(|key| (key * 3, key)).collect();
    let map = Map::open_fixed(&Index::from_entries(16, before.iter().copied()).unwrap(), Room { pages: 22, rows: 44, sessions: 1 }).unwrap();
    let mut session = map.session().unwrap();
    assert_eq!(session.snapshot(.., 1).unwrap().unwrap(), (0..1_000).map(|key| (key * 3, key)).collect::<Vec<_>>());
    assert_eq!(session.snapshot(4..=9, 1).unwrap(), Some(vec![(6, 2), (9, 3)]));
    assert_eq!(session.snapshot(7..9, 1).unwrap(), Some(vec![]));
    assert_eq!(session.snapshot(9..9, 1).unwrap(), Some(vec![]));
    assert_eq!(session.snapshot(2_998..=u64::MAX, 1).unwrap(), Some(vec![]));
    assert_eq!(session.snapshot(.., 0).unwrap(), None);
}
