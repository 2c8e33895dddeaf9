//! The index and the map, with pages of at most `FAN` entries.

use crate::side::{timed, Handle, Side};
use crate::soak::{memory, Dice};
use crate::workload::{Case, Mode, Phase, Step, ABSENT, DELETE, INSERT, REPLACE};
use blink::{Answer, Index, Map, Room, Session};
use std::sync::Arc;
use std::time::Instant;

// The index after insertions in this order.
fn grown(fan: u8, entries: &[(u64, u64)]) -> Index {
    let mut index = Index::new(fan).expect("an index");
    for &(key, pointer) in entries {
        index.insert(key, pointer).expect("memory");
    }
    index
}

/// The index: one thread looks up, scans, and changes it in place.
pub struct ByIndex<const FAN: u8> {
    index: Index,
}

impl<const FAN: u8> Handle for &mut ByIndex<FAN> {
    fn find(&mut self, key: u64) -> Option<u64> {
        self.index.get(key)
    }
    fn insert(&mut self, key: u64, pointer: u64) -> bool {
        self.index.insert(key, pointer) == Ok(Answer::Inserted)
    }
    fn delete(&mut self, key: u64) -> Option<u64> {
        self.index.remove(key).pointer()
    }
    fn replace(&mut self, key: u64, pointer: u64) -> Option<u64> {
        self.index.replace(key, pointer).pointer()
    }
    fn scan(&mut self, from: u64, count: usize) -> u64 {
        sum_of_entries(self.index.range(from..).take(count))
    }
    fn find_many(&mut self, keys: &[Step]) -> u64 {
        let keys: Vec<u64> = keys.iter().map(|step| step.key).collect();
        let found = self.index.get_many(&keys);
        found.into_iter().fold(0, |sum, pointer| sum.wrapping_add(pointer.unwrap_or(ABSENT)))
    }
}

impl<const FAN: u8> Side for ByIndex<FAN> {
    fn open(case: &Case, _: Option<Self>) -> Self {
        ByIndex { index: grown(FAN, &case.entries) }
    }

    // An index isn't shared, so it has one thread.
    fn run(&mut self, phase: &Phase) -> Option<(u64, u64)> {
        (phase.threads.len() == 1).then(|| timed(&mut [self], phase))
    }

    fn contents(&mut self, keys: &[u64]) -> Vec<Option<u64>> {
        self.index.get_many(keys)
    }
}

fn sum_of_entries(entries: impl Iterator<Item = (u64, u64)>) -> u64 {
    entries.fold(0, |sum, (key, pointer)| sum.wrapping_add(key ^ pointer))
}

/// The map: a session a thread, which changes any key.
pub struct ByMap<const FAN: u8> {
    // The index that it was opened over, and of which entries that is.
    index: Index,
    entries: Arc<Vec<(u64, u64)>>,
    map: Option<Map>,
    opened: u64,
    closed: u64,
}

impl Handle for Session {
    fn find(&mut self, key: u64) -> Option<u64> {
        self.get(key)
    }
    fn insert(&mut self, key: u64, pointer: u64) -> bool {
        Session::insert(self, key, pointer) == Ok(Answer::Inserted)
    }
    fn delete(&mut self, key: u64) -> Option<u64> {
        self.remove(key).ok()?.pointer()
    }
    fn replace(&mut self, key: u64, pointer: u64) -> Option<u64> {
        Session::replace(self, key, pointer).ok()?.pointer()
    }
    fn scan(&mut self, from: u64, count: usize) -> u64 {
        sum_of_entries(self.range(from..).limit(count))
    }
}

// How many insertions and deletions steps need; a replacement takes a deletion.
fn allowance<'a>(steps: impl Iterator<Item = &'a Step>) -> (u32, u32) {
    steps.fold((0, 0), |(inserts, deletes), step| match step.kind {
        INSERT => (inserts + 1, deletes),
        DELETE | REPLACE => (inserts, deletes + 1),
        _ => (inserts, deletes),
    })
}

// A row for each change and for each page that is split, and what each session may have drawn and not used.
fn room_for(case: &Case) -> Room {
    let (inserts, deletes) = allowance(case.phases.iter().flat_map(|phase| &phase.threads).flatten());
    let sessions = case.phases.iter().map(|phase| phase.threads.len()).max().unwrap_or(1) as u32;
    Room { pages: inserts / 4 + 1_024 * sessions, rows: 2 * inserts + deletes + 2_048 * sessions, sessions }
}

impl<const FAN: u8> Side for ByMap<FAN> {
    fn open(case: &Case, before: Option<Self>) -> Self {
        let index = match before {
            Some(before) if Arc::ptr_eq(&before.entries, &case.entries) => before.index,
            _ => grown(FAN, &case.entries),
        };
        let start = Instant::now();
        let map = Some(Map::open_with_room(&index, room_for(case)).expect("a map"));
        let opened = start.elapsed().as_nanos() as u64;
        ByMap { index, entries: case.entries.clone(), map, opened, closed: 0 }
    }

    fn run(&mut self, phase: &Phase) -> Option<(u64, u64)> {
        match phase.mode {
            Mode::Own | Mode::Any | Mode::Scan => {
                let map = self.map.as_ref().expect("an open map");
                let join = |_: &Vec<Step>| map.session().expect("a session");
                let mut sessions: Vec<Session> = phase.threads.iter().map(join).collect();
                Some(timed(&mut sessions, phase))
            }
            Mode::Many => None,
        }
    }

    fn contents(&mut self, keys: &[u64]) -> Vec<Option<u64>> {
        let start = Instant::now();
        let index = self.map.take().expect("an open map").close().expect("an index");
        self.closed = start.elapsed().as_nanos() as u64;
        index.get_many(keys)
    }

    fn beside(&self) -> Vec<(&'static str, u64)> {
        vec![("open", self.opened), ("close", self.closed)]
    }
}

/// Measures what the tables of workloads don't have, and prints it: joining and leaving, how many insertions of random keys a map takes
/// by its page numbers, and what opening costs for each insertion that a map has room for.
pub fn life() {
    let map = Map::open_with_room(&Index::new(32).expect("an index"), Room { pages: 0, rows: 0, sessions: 2 }).expect("a map");
    const JOINS: u32 = 1_000_000;
    let start = Instant::now();
    (0..JOINS).for_each(|_| drop(map.session().expect("a place")));
    println!("joining and leaving: {} ns", start.elapsed().as_nanos() as u32 / JOINS);
    const INSERTIONS: u32 = 1_000_000;
    let entries: Vec<(u64, u64)> = (0..40_000).map(|number| (scattered(number), number)).collect();
    let index = grown(32, &entries);
    let room = Room { pages: 100_000, rows: INSERTIONS + INSERTIONS / 4, sessions: 1 };
    let start = Instant::now();
    let map = Map::open_with_room(&index, room).expect("a map");
    println!("opening: {} ns for each of {INSERTIONS} insertions", start.elapsed().as_nanos() as u32 / INSERTIONS);
    let mut session = map.session().expect("a session");
    let before = map.room().expect("a session that nobody holds");
    (0..u64::from(INSERTIONS)).for_each(|number| _ = session.insert(scattered(40_000 + number), number).expect("room"));
    let left = map.room().expect("a session that nobody holds");
    let (pages, rows) = (before.pages - left.pages, before.rows - left.rows);
    println!("each insertion: {:.4} page numbers and {:.3} rows", pages as f64 / f64::from(INSERTIONS), rows as f64 / f64::from(INSERTIONS));
    println!("1,048,575 page numbers are enough for {} million", u64::from(INSERTIONS) * 1_048_575 / pages / 1_000_000);
    bytes_of_a_map();
}

// Tells the memory of a map over a million entries with random keys, with a megabyte of rows beside those of its pages, before and
// after changes.
fn bytes_of_a_map() {
    const ENTRIES: u64 = 1_000_000;
    let mut dice = Dice(1);
    let entries: Vec<(u64, u64)> = (0..ENTRIES).map(|number| (dice.next(), number)).collect();
    let index = grown(32, &entries);
    let before = memory();
    let bytes = || (memory() - before) as f64 * 1024.0 / ENTRIES as f64;
    let map = Map::open_with_room(&index, Room { pages: 22, rows: 1_800, sessions: 1 }).expect("a map");
    let opened = bytes();
    let mut session = map.session().expect("a session");
    entries.iter().chain(&entries).for_each(|&(key, pointer)| _ = session.replace(key, pointer + 1).expect("room"));
    println!("a map over {ENTRIES} entries: {opened:.1} bytes an entry, {:.1} after two million replacements", bytes());
}

// A key of each number, in no order.
fn scattered(number: u64) -> u64 {
    number.wrapping_mul(0x9E37_79B9_7F4A_7C15)
}
