//! Scans of a map that eight threads change: each report is compared with what the keys can have been between its begin and its end.
//!
//! Each key has versions, which one thread makes one after another: an odd one is the key with its version as the pointer, and an even one
//! is the key's absence. The thread notes a version as begun before the call that makes it, and as made after the call. So a scan may
//! report of a key what a version says that was begun before the scan ended, and not overtaken by one that was made before the scan began.
//! Keys have mates: a thread makes a version of the greater key first, and then the same of the lesser. What a scan says of a greater key
//! is as new as what it says of a lesser one or newer, so it never reports a newer version of the lesser. For backward scans it is the
//! other way round.

use blink::{Answer, Error, Index, Map, Room, Session};
use std::sync::atomic::{AtomicBool, AtomicU64, Ordering::SeqCst};
use std::thread;
use std::time::Duration;

const WRITERS: usize = 8;
const SCANNERS: usize = 2;
// The keys of each writer, half of which are mates of the others.
const KEYS_EACH: usize = 24;
const KEYS: usize = WRITERS * KEYS_EACH;

/// Which way the scans go.
#[derive(Clone, Copy, PartialEq)]
enum Direction {
    Up,
    Down,
}

/// How far each key's versions have come.
struct Versions {
    begun: Vec<AtomicU64>,
    made: Vec<AtomicU64>,
}

impl Versions {
    fn new() -> Versions {
        let zeros = || (0..KEYS).map(|_| AtomicU64::new(0)).collect();
        Versions { begun: zeros(), made: zeros() }
    }

    // Makes the key's next version.
    fn next(&self, session: &mut Session, key: usize) {
        let version = self.begun[key].load(SeqCst) + 1;
        self.begun[key].store(version, SeqCst);
        let answer = match version % 2 {
            1 => session.insert(key as u64, version),
            _ => session.remove(key as u64),
        };
        assert!(matches!(answer, Ok(Answer::Inserted | Answer::Removed(_))), "{answer:?}");
        self.made[key].store(version, SeqCst);
    }
}

fn now(counts: &[AtomicU64]) -> Vec<u64> {
    counts.iter().map(|count| count.load(SeqCst)).collect()
}

// The greatest version of each key that a report allows, if it allows one: with the reported pointer that one; else an even one.
fn allowed(reported: Option<u64>, made: u64, begun: u64) -> Option<u64> {
    match reported {
        Some(version) => (version % 2 == 1 && made <= version && version <= begun).then_some(version),
        None => (made..=begun).rev().find(|version| version % 2 == 0),
    }
}

// Scans once, and compares. Returns how many keys the report says something of.
fn scan_once(session: &mut Session, versions: &Versions, direction: Direction, lo: usize, hi: usize) -> u64 {
    let made = now(&versions.made);
    let range = session.range(lo as u64..=hi as u64);
    let mut entries: Vec<_> = match direction {
        Direction::Up => range.collect(),
        Direction::Down => range.rev().collect(),
    };
    let begun = now(&versions.begun);
    if direction == Direction::Down {
        entries.reverse();
    }
    assert!(entries.windows(2).all(|two| two[0].0 < two[1].0), "{entries:?}");
    assert!(entries.iter().all(|(key, _)| (lo as u64..=hi as u64).contains(key)), "{entries:?}");
    let mut reported = vec![None; KEYS];
    entries.iter().for_each(|&(key, pointer)| reported[key as usize] = Some(pointer));
    for key in lo..=hi {
        let version = allowed(reported[key], made[key], begun[key]);
        assert!(version.is_some(), "key {key}: {:?}, made {}, begun {}", reported[key], made[key], begun[key]);
        let mate = key + KEYS / 2;
        if mate <= hi {
            // the version of the key that is read first is at least that which it shows, and its mate's is at least that
            let (first, then) = match direction {
                Direction::Up => (key, mate),
                Direction::Down => (mate, key),
            };
            if let (Some(old), Some(new)) = (reported[first], allowed(reported[then], made[then], begun[then])) {
                assert!(old <= new, "key {first} at {old}, and its mate at {new}");
            }
        }
    }
    (hi - lo + 1) as u64
}

// A map with room for all changes.
fn with_room(fan: u8) -> Map {
    let room = Room { pages: 200_000, rows: 1_000_000, sessions: (WRITERS + SCANNERS) as u32 };
    Map::open_fixed(&Index::new(fan).unwrap(), room).unwrap()
}

// Compares scans of this map, which is renewed meanwhile, if it isn't one with a fixed room.
fn compare(map: Map, reports: u64, direction: Direction) {
    let versions = Versions::new();
    let ended = AtomicBool::new(false);
    thread::scope(|scope| {
        for writer in 0..WRITERS {
            let (map, versions, ended) = (&map, &versions, &ended);
            scope.spawn(move || {
                let mut session = map.session().unwrap();
                // so that the rows last, however long the scans take
                for turn in 0..30_000 {
                    if ended.load(SeqCst) {
                        return;
                    }
                    let key = writer + WRITERS * (turn * 7 % (KEYS_EACH / 2));
                    let (first, then) = match direction {
                        Direction::Up => (key + KEYS / 2, key),
                        Direction::Down => (key, key + KEYS / 2),
                    };
                    versions.next(&mut session, first);
                    versions.next(&mut session, then);
                }
            });
        }
        let scanners: Vec<_> = (0..SCANNERS)
            .map(|scanner| {
                let (map, versions) = (&map, &versions);
                scope.spawn(move || {
                    let mut session = map.session().unwrap();
                    let (mut told, mut turn) = (0, scanner);
                    while told < reports / SCANNERS as u64 {
                        // ranges of all lengths: the whole, a part in the middle, and one key
                        let (lo, hi) = [(0, KEYS - 1), (turn * 5 % KEYS, KEYS - 1), (turn % KEYS, turn % KEYS)][turn % 3];
                        told += scan_once(&mut session, versions, direction, lo, hi);
                        turn += 1;
                    }
                })
            })
            .collect();
        let renewing = scope.spawn(|| {
            while !ended.load(SeqCst) && map.renew(1_000) != Err(Error::Full) {
                thread::sleep(Duration::from_micros(100));
            }
        });
        scanners.into_iter().for_each(|scanner| scanner.join().unwrap());
        ended.store(true, SeqCst);
        renewing.join().unwrap();
    });
    let closed = map.close().unwrap();
    for key in 0..KEYS {
        let version = versions.made[key].load(SeqCst);
        assert_eq!(closed.get(key as u64), (version % 2 == 1).then_some(version), "key {key}");
    }
}

#[test]
fn a_million_reports_by_pages_of_four() {
    compare(with_room(4), 1_000_000, Direction::Up);
}

#[test]
fn a_million_backward_reports_by_pages_of_four() {
    compare(with_room(4), 1_000_000, Direction::Down);
}

#[test]
fn reports_by_pages_of_32() {
    compare(with_room(32), 500_000, Direction::Up);
}

#[test]
fn backward_reports_by_pages_of_32() {
    compare(with_room(32), 500_000, Direction::Down);
}

#[test]
fn reports_through_renewals() {
    compare(Map::new(4).unwrap(), 300_000, Direction::Up);
    compare(Map::new(32).unwrap(), 300_000, Direction::Down);
}

#[test]
fn the_comparison_refuses_what_no_version_says() {
    // a version that was overtaken before the scan, one that wasn't begun, an absence that was never
    assert_eq!(allowed(Some(3), 4, 6), None);
    assert_eq!(allowed(Some(7), 4, 6), None);
    assert_eq!(allowed(None, 5, 5), None);
    assert_eq!(allowed(Some(5), 4, 6), Some(5));
    assert_eq!(allowed(None, 3, 5), Some(4));
}
