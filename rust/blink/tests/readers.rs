//! Threads that read one index at the same time, each by a reader of its own, beside a `BTreeMap`.

use blink::{Index, Reader};
use std::collections::BTreeMap;
use std::ops::Bound::{Excluded, Unbounded};
use std::thread;

const THREADS: u64 = 8;
const ENTRIES: u64 = 100_000;

// Every third key, so that keys between them are absent.
fn entries() -> BTreeMap<u64, u64> {
    (0..ENTRIES).map(|place| (3 * place + 1, place.wrapping_mul(0x9E37_79B9_7F4A_7C15))).collect()
}

fn index_of(entries: &BTreeMap<u64, u64>) -> Index {
    let entries: Vec<(u64, u64)> = entries.iter().map(|(&key, &pointer)| (key, pointer)).collect();
    Index::from_sorted(32, entries.iter().copied()).expect("there is memory")
}

fn shared(index: Index) -> Reader {
    index.share().map_err(|(_, error)| error).expect("there is memory")
}

fn entry(pair: Option<(&u64, &u64)>) -> Option<(u64, u64)> {
    pair.map(|(&key, &pointer)| (key, pointer))
}

// Every answer of a reader, from a key of the thread's own on.
fn reads_as_a_map(reader: &Reader, map: &BTreeMap<u64, u64>, thread: u64) {
    let last = 3 * ENTRIES;
    for key in (0..=last).map(|key| (key + thread * 12_345) % (last + 1)) {
        assert_eq!(reader.get(key), map.get(&key).copied(), "{key}");
    }
    for key in (thread..=last + 1).step_by(11) {
        assert_eq!(reader.next(key), entry(map.range((Excluded(key), Unbounded)).next()), "{key}");
        assert_eq!(reader.prev(key), entry(map.range(..key).next_back()), "{key}");
        assert_eq!(reader.at_least(key), entry(map.range(key..).next()), "{key}");
        assert_eq!(reader.at_most(key), entry(map.range(..=key).next_back()), "{key}");
    }
    for (lo, length) in (0..100).map(|turn| ((turn * 7919 + thread * 101) % last, turn * turn)) {
        let range = lo..lo + length;
        assert!(reader.range(range.clone()).eq(map.range(range).map(|pair| entry(Some(pair)).expect("a pair"))), "{lo} {length}");
        let range = lo..lo + length;
        assert!(reader.range(range.clone()).rev().eq(map.range(range).rev().map(|pair| entry(Some(pair)).expect("a pair"))), "{lo} {length}");
        assert_eq!(reader.count(lo..=lo + length), map.range(lo..=lo + length).count(), "{lo} {length}");
    }
    let keys: Vec<u64> = (thread..last).step_by(7).collect();
    assert!(reader.get_many(&keys).into_iter().eq(keys.iter().map(|key| map.get(key).copied())));
    assert!(reader.into_iter().eq(map.iter().map(|pair| entry(Some(pair)).expect("a pair"))));
    assert_eq!((reader.first(), reader.last()), (entry(map.first_key_value()), entry(map.last_key_value())));
    assert_eq!((reader.len(), reader.is_empty()), (map.len(), false));
}

#[test]
fn eight_threads_read_as_on_a_map() {
    let map = entries();
    let index = index_of(&map);
    let (pages, dump) = (index.pages(), index.dump().expect("there is memory"));
    let reader = shared(index);
    thread::scope(|scope| {
        for thread in 0..THREADS {
            let reader = reader.join().expect("there is memory");
            let map = &map;
            scope.spawn(move || reads_as_a_map(&reader, map, thread));
        }
        reads_as_a_map(&reader, &map, THREADS);
    });
    assert_eq!((reader.pages(), reader.fan()), (pages, 32));
    assert_eq!(reader.dump().as_ref(), Ok(&dump));
    let index = reader.unshare().expect("the others are dropped");
    assert_eq!(index.dump(), Ok(dump));
}

#[test]
fn readers_join_in_every_thread_and_one_of_them_is_the_last() {
    let map = entries();
    let reader = shared(index_of(&map));
    // each thread joins by the reader that another has, reads, and tries to be the last
    let given: Vec<Result<Index, Reader>> = thread::scope(|scope| {
        let threads: Vec<_> = (0..THREADS)
            .map(|thread| {
                let reader = reader.clone();
                scope.spawn(move || {
                    for turn in 0..1000 {
                        let other = reader.join().expect("there is memory");
                        let key = 3 * ((turn * THREADS + thread) * 37 % ENTRIES) + 1;
                        assert_eq!(other.get(key), reader.get(key));
                        assert!(other.unshare().is_err());
                    }
                    reader.unshare()
                })
            })
            .collect();
        threads.into_iter().map(|thread| thread.join().expect("a thread ends well")).collect()
    });
    // the first reader is still there
    let mut readers: Vec<Reader> = given.into_iter().map(|given| given.expect_err("there is another reader")).collect();
    readers.push(reader);
    assert_eq!(readers.len(), 9);
    while readers.len() > 1 {
        let reader = readers.pop().expect("more than one").unshare().expect_err("there is another reader");
        assert_eq!(reader.get(4), map.get(&4).copied());
    }
    let index = readers.pop().expect("the last").unshare().expect("there is no other reader");
    assert_eq!(index.len() as u64, ENTRIES);
}

#[test]
fn an_index_is_changed_between_two_times_that_it_is_shared() {
    let mut map = BTreeMap::from([(1, 10), (3, 30), (5, 50)]);
    let reader = shared(index_of(&map));
    assert_eq!(format!("{reader:?}"), "{1: 10, 3: 30, 5: 50}");
    let other = reader.clone();
    let reader = reader.unshare().expect_err("there is another reader");
    assert_eq!((reader.get(3), other.get(4)), (Some(30), None));
    drop(reader);
    let mut index = other.unshare().expect("there is no other reader");
    for key in 0..1000 {
        index.extend([(key, key + 7)]);
        map.insert(key, key + 7);
    }
    index.remove(3);
    map.remove(&3);
    let reader = shared(index);
    thread::scope(|scope| {
        for _ in 0..THREADS {
            let reader = reader.clone();
            let map = &map;
            scope.spawn(move || assert!(reader.iter().eq(map.iter().map(|pair| entry(Some(pair)).expect("a pair")))));
        }
    });
    assert_eq!((reader.len(), reader.get(3), reader.get(999)), (999, None, Some(1006)));
}

#[test]
fn an_empty_index_is_shared() {
    let reader = shared(Index::new(4).expect("there is memory"));
    assert_eq!((reader.len(), reader.is_empty(), reader.pages(), reader.fan()), (0, true, 1, 4));
    assert_eq!((reader.get(0), reader.first(), reader.last(), reader.next(0)), (None, None, None, None));
    assert_eq!(reader.get_many(&[]), []);
    let index = reader.unshare().expect("there is no other reader");
    assert_eq!((index.fan(), index.is_empty()), (4, true));
}

#[test]
fn the_last_reader_frees_the_index_in_whichever_thread() {
    let reader = shared(index_of(&entries()));
    let other = reader.clone();
    let thread = thread::spawn(move || other.len());
    drop(reader);
    assert_eq!(thread.join().expect("a thread ends well") as u64, ENTRIES);
}
