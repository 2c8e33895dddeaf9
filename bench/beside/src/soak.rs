//! The long life of a map: eight threads change it without a pause, a hundred million times, and then each key is looked up.
//!
//! Each thread changes keys of its own, and knows what it left of them. So a wrong answer shows at once, and a lost change at the end. All
//! threads also look up keys of the others, whose pointers name their thread.

use blink::{Answer, Error, Index, Map, Room, Session};
use std::fs;
use std::sync::atomic::{AtomicU64, Ordering};
use std::thread;
use std::time::{Duration, Instant};

const THREADS: u64 = 8;

// The keys of one thread: half of them are present at any time.
const KEYS: u64 = 10_000;

// So many changes of all threads before memory is looked at for the first time.
const FIRST: u64 = 10_000;

/// Numbers in no order, by splitmix64.
pub struct Dice(pub u64);

impl Dice {
    pub fn next(&mut self) -> u64 {
        self.0 = self.0.wrapping_add(0x9E37_79B9_7F4A_7C15);
        let mut z = self.0;
        z = (z ^ (z >> 30)).wrapping_mul(0xBF58_476D_1CE4_E5B9);
        z = (z ^ (z >> 27)).wrapping_mul(0x94D0_49BB_1331_11EB);
        z ^ (z >> 31)
    }
}

// The key of this number: in no order, and different for each thread and number.
fn key(thread: u64, number: u64) -> u64 {
    (number * THREADS + thread).wrapping_mul(0x9E37_79B9_7F4A_7C15)
}

// The pointer of a thread's change: what is left of it by division names the thread.
fn pointer(thread: u64, change: u64) -> u64 {
    change * THREADS + thread
}

// Changes one key, and compares the answer with what the thread knows of the key.
fn change(session: &mut Session, key: u64, new: u64, kind: u64, known: &mut Option<u64>) -> Result<(), Error> {
    let (answer, expected) = match (kind, *known) {
        (0, None) => (session.insert(key, new)?, Answer::Inserted),
        (0, Some(old)) => (session.insert(key, new)?, Answer::Exists(old)),
        (1, None) => (session.remove(key)?, Answer::Absent),
        (1, Some(old)) => (session.remove(key)?, Answer::Removed(old)),
        (_, None) => (session.replace(key, new)?, Answer::Absent),
        (_, Some(old)) => (session.replace(key, new)?, Answer::Replaced(old)),
    };
    assert_eq!(answer, expected, "of key {key}");
    match answer {
        Answer::Inserted | Answer::Replaced(_) => *known = Some(new),
        Answer::Removed(_) => *known = None,
        _ => {}
    }
    Ok(())
}

// Changes the thread's keys so many times, and returns what it left of each.
fn work(thread: u64, mut session: Session, changes: u64, made: &AtomicU64) -> Result<Vec<Option<u64>>, Error> {
    let mut dice = Dice(thread);
    let mut known: Vec<Option<u64>> = (0..KEYS).map(|number| (number % 2 == 0).then(|| pointer(thread, number))).collect();
    for turn in 0..changes {
        let number = dice.next() % KEYS;
        change(&mut session, key(thread, number), pointer(thread, KEYS + turn), dice.next() % 3, &mut known[number as usize])?;
        let other = dice.next() % THREADS;
        if let Some(found) = session.get(key(other, number)) {
            assert_eq!(found % THREADS, other, "of a key of thread {other}");
        }
        made.fetch_add(1, Ordering::Relaxed);
    }
    Ok(known)
}

/// The memory that the process has now, in kilobytes.
pub fn memory() -> u64 {
    let status = fs::read_to_string("/proc/self/status").unwrap_or_default();
    let line = status.lines().find_map(|line| line.strip_prefix("VmRSS:"));
    line.and_then(|line| line.trim().trim_end_matches(" kB").parse().ok()).unwrap_or(0)
}

/// Changes a map of this fan so many times, looks everything up, and prints what it took.
pub fn soak(fan: u8, changes: u64) -> Result<(), Error> {
    let mut entries: Vec<(u64, u64)> = (0..THREADS * KEYS)
        .map(|n| (n % THREADS, n / THREADS))
        .filter(|(_, number)| number % 2 == 0)
        .map(|(thread, number)| (key(thread, number), pointer(thread, number)))
        .collect();
    entries.sort_by_key(|(key, _)| *key);
    let map = Map::open_with_room(&Index::from_entries(fan, entries.iter().copied())?, Room { pages: 200_000, rows: 14_000 * THREADS as u32, sessions: THREADS as u32 })?;
    let made = AtomicU64::new(0);
    let start = Instant::now();
    let (early, known) = thread::scope(|scope| {
        let workers: Vec<_> = (0..THREADS)
            .map(|thread| (thread, map.session().expect("a place for each thread")))
            .map(|(thread, session)| scope.spawn({ let made = &made; move || work(thread, session, changes / THREADS, made) }))
            .collect();
        while made.load(Ordering::Relaxed) < FIRST.min(changes / 2) {
            thread::sleep(Duration::from_millis(1));
        }
        let early = memory();
        let known: Result<Vec<_>, Error> = workers.into_iter().map(|worker| worker.join().expect("no thread panics")).collect();
        (early, known)
    });
    let (took, late, left) = (start.elapsed(), memory(), map.room()?);
    let index = map.close()?;
    let known = known?;
    let present = known.iter().flatten().flatten().count();
    assert_eq!(index.len(), present);
    for (thread, known) in (0..).zip(&known) {
        for (number, pointer) in (0..).zip(known) {
            assert_eq!(index.get(key(thread, number)), *pointer);
        }
    }
    println!("fan {fan}: {changes} changes in {:.0} s; memory {early} kB after ten thousand, {late} kB at the end; the pool has {left:?}", took.as_secs_f64());
    Ok(())
}
