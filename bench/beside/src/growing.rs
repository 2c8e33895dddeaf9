//! The map beside one with a fixed room, by turns: finds, a queue that lives long, growing from nothing, and what a renewal takes and holds up.

use crate::soak::{memory, Dice};
use crate::turns::{median_of, timed};
use crate::workload::{Keys, Random};
use blink::{Answer, Index, Map, Room, Session};
use std::sync::atomic::{AtomicBool, AtomicU64, Ordering};
use std::thread;
use std::time::{Duration, Instant};

const ROUNDS: usize = 9;
const THREADS: usize = 4;
const FINDS: usize = 200_000;
// The entries of the queue, the insertions and deletions of all threads, and how many of these go by between two looks at the least key.
const QUEUE: u64 = 40_000;
const QUEUED: u64 = 400_000;
const BETWEEN_LOOKS: u64 = 64;
const GROWN: u64 = 1_000_000;
const LOOKS: u32 = 1_000_000;

// What a thread does at a queue.
trait Queue: Send {
    fn push(&mut self, key: u64);
    fn take(&mut self, key: u64);
    fn least(&mut self) -> u64;
}

impl Queue for Session {
    fn push(&mut self, key: u64) {
        assert_eq!(self.insert(key, !key), Ok(Answer::Inserted));
    }
    fn take(&mut self, key: u64) {
        assert_eq!(self.remove(key), Ok(Answer::Removed(!key)));
    }
    fn least(&mut self) -> u64 {
        self.first().expect("an entry").0
    }
}

// Lets each thread insert the next of its keys and delete the oldest of them, and look at the least key now and then. Returns the nanoseconds
// of a change, looks left out, and of a look.
fn queue<Q: Queue>(sessions: Vec<Q>) -> (f64, f64) {
    let threads = sessions.len() as u64;
    let looking = AtomicU64::new(0);
    let looked = AtomicU64::new(0);
    let nanoseconds = timed(sessions, QUEUED as usize, |mut session, thread| {
        let key = |turn: u64| turn * threads + thread;
        let (mut spent, mut least) = (0, 0);
        for turn in 0..QUEUED / 2 / threads {
            session.push(key(turn + QUEUE / threads));
            session.take(key(turn));
            if turn % BETWEEN_LOOKS == 0 {
                let began = Instant::now();
                let found = session.least();
                spent += began.elapsed().as_nanos() as u64;
                assert!(least <= found, "an older key has come back");
                least = found;
            }
        }
        looking.fetch_add(spent, Ordering::Relaxed);
        looked.fetch_add((QUEUED / 2 / threads).div_ceil(BETWEEN_LOOKS), Ordering::Relaxed);
    });
    // A thread's share of the looks is in its time.
    let looking = looking.into_inner() as f64;
    (nanoseconds - looking / threads as f64 / QUEUED as f64, looking / looked.into_inner() as f64)
}

fn index_of(entries: impl Iterator<Item = (u64, u64)>) -> Index {
    let mut sorted: Vec<(u64, u64)> = entries.collect();
    sorted.sort_unstable();
    Index::from_entries(32, sorted).expect("an index")
}

fn fixed(index: &Index, pages: u32, sessions: usize) -> Map {
    Map::open_fixed(index, Room { pages, rows: 2 * pages + 4_096 * sessions as u32, sessions: sessions as u32 }).expect("a map")
}

fn sessions(map: &Map, count: usize) -> Vec<Session> {
    (0..count).map(|_| map.session().expect("a session")).collect()
}

// Runs each side once in each of some rounds, and returns the median of each.
fn by_turns(rounds: usize, sides: &mut [&mut dyn FnMut() -> f64]) -> Vec<f64> {
    let mut figures = vec![Vec::new(); sides.len()];
    for _ in 0..rounds {
        for (side, figures) in sides.iter_mut().zip(&mut figures) {
            figures.push(side());
        }
    }
    figures.iter_mut().map(|figures| median_of(figures)).collect()
}

// Finds of any key: by a session of a map with a fixed room, by one of a map that grows, and by one that is held.
fn finds() {
    let keys = Keys::random(40_000, 0).present;
    let index = index_of(keys.iter().map(|&key| (key, !key)));
    let (map, grows) = (fixed(&index, 100, THREADS), Map::open(&index).expect("a map"));
    for threads in [1, THREADS] {
        let draw = |thread: u64| {
            let mut random = Random(thread);
            let keys = &keys;
            (0..FINDS / threads).map(move |_| keys[random.below(keys.len())])
        };
        let mut by_map = || {
            timed(sessions(&map, threads), FINDS, |mut session, thread| draw(thread).for_each(|key| assert!(session.get(key).is_some())))
        };
        let mut by_growing = || {
            timed(sessions(&grows, threads), FINDS, |mut session, thread| draw(thread).for_each(|key| assert!(session.get(key).is_some())))
        };
        let mut held = || {
            timed(sessions(&grows, threads), FINDS, |mut session, thread| {
                let mut session = session.hold();
                draw(thread).for_each(|key| assert!(session.get(key).is_some()));
            })
        };
        let figures = by_turns(ROUNDS, &mut [&mut by_map, &mut by_growing, &mut held]);
        println!("A find, {threads} threads|{:.0}|{:.0}|{:.0}", figures[0], figures[1], figures[2]);
    }
}

// The queue: changes, and looks at the least key.
fn queues() {
    let index = index_of((0..QUEUE).map(|key| (key, !key)));
    for threads in [1, THREADS] {
        let (mut fixed_figures, mut growing_figures) = ([Vec::new(), Vec::new()], [Vec::new(), Vec::new()]);
        for _ in 0..3 {
            let map = fixed(&index, 50_000, threads);
            let (change, look) = queue(sessions(&map, threads));
            fixed_figures[0].push(change);
            fixed_figures[1].push(look);
            let map = Map::open(&index).expect("a map");
            let (change, look) = queue(sessions(&map, threads));
            growing_figures[0].push(change);
            growing_figures[1].push(look);
        }
        for (place, what) in ["A change of the queue", "A look at its least key"].into_iter().enumerate() {
            println!("{what}, {threads} threads|{:.0}|{:.0}|", median_of(&mut fixed_figures[place]), median_of(&mut growing_figures[place]));
        }
    }
}

// Growing from nothing to many entries with random keys, beside a map that has room enough from the start.
fn growth() {
    let key = |number: u64| Dice(number).next();
    let empty = Index::new(32).expect("an index");
    for threads in [1, THREADS] {
        let insert = |thread: u64, session: &mut dyn FnMut(u64)| (0..GROWN / threads as u64).for_each(|turn| session(key(turn * threads as u64 + thread)));
        let mut by_map = || {
            let map = fixed(&empty, 80_000, threads);
            timed(sessions(&map, threads), GROWN as usize, |mut session, thread| insert(thread, &mut |key| session.push(key)))
        };
        let mut by_growing = || {
            let map = Map::open(&empty).expect("a map");
            timed(sessions(&map, threads), GROWN as usize, |mut session, thread| insert(thread, &mut |key| session.push(key)))
        };
        let figures = by_turns(3, &mut [&mut by_map, &mut by_growing]);
        println!("An insertion of a million into an empty map, {threads} threads|{:.0}|{:.0}|", figures[0], figures[1]);
    }
}

// What a renewal takes, and how long the slowest of many finds beside takes.
fn renewals(entries: u64) {
    let keys: Vec<u64> = (0..entries).map(|number| Dice(number).next()).collect();
    let map = Map::open(&index_of(keys.iter().map(|&key| (key, !key)))).expect("a map");
    let stop = AtomicBool::new(false);
    let (pauses, finds) = thread::scope(|scope| {
        let (keys, stop) = (&keys, &stop);
        let finders: Vec<_> = sessions(&map, 2)
            .into_iter()
            .map(|mut session| {
                scope.spawn(move || {
                    let (mut random, mut times) = (Random(1), Vec::new());
                    while !stop.load(Ordering::Relaxed) {
                        let began = Instant::now();
                        assert!(session.get(keys[random.below(keys.len())]).is_some());
                        times.push(began.elapsed().as_nanos() as f64);
                    }
                    times
                })
            })
            .collect();
        let pauses: Vec<f64> = (0..ROUNDS)
            .map(|_| {
                let began = Instant::now();
                map.renew(LOOKS).expect("a renewal");
                began.elapsed().as_nanos() as f64 / entries as f64
            })
            .collect();
        stop.store(true, Ordering::Relaxed);
        let finds: Vec<f64> = finders.into_iter().flat_map(|finder| finder.join().expect("a thread that finds")).collect();
        (pauses, finds)
    });
    let mut pauses = pauses;
    let longest = finds.iter().fold(0.0, |longest: f64, &time| longest.max(time));
    println!("A renewal of {entries} entries, an entry: {:.0} ns; the longest of the finds beside: {:.2} ms", median_of(&mut pauses), longest / 1e6);
}

/// Measures and prints all of it.
pub fn all() {
    println!("Work, ns|fixed room|map|held\n|---|---|---|---|");
    finds();
    queues();
    growth();
    println!();
    renewals(40_000);
    renewals(1_000_000);
}

// So many changes of all threads before memory is looked at for the first time.
const FIRST: u64 = 1_000_000;

/// Lets a queue live through so many changes by four threads, each with keys of its own, and tells time and memory.
pub fn soak(changes: u64) {
    let threads = THREADS as u64;
    let map = Map::open(&index_of((0..QUEUE).map(|key| (key, !key)))).expect("a map");
    let (made, start) = (AtomicU64::new(0), Instant::now());
    let early = thread::scope(|scope| {
        for (thread, mut session) in (0..).zip(sessions(&map, THREADS)) {
            let made = &made;
            scope.spawn(move || {
                let key = |turn: u64| turn * threads + thread;
                let mut least = 0;
                for turn in 0..changes / 2 / threads {
                    session.push(key(turn + QUEUE / threads));
                    session.take(key(turn));
                    if turn % BETWEEN_LOOKS == 0 {
                        let found = session.least();
                        assert!(least <= found, "an older key has come back");
                        least = found;
                    }
                    made.fetch_add(2, Ordering::Relaxed);
                }
            });
        }
        while made.load(Ordering::Relaxed) < FIRST.min(changes / 2) {
            thread::sleep(Duration::from_millis(1));
        }
        memory()
    });
    let (took, late) = (start.elapsed(), memory());
    let index = map.close().expect("an index");
    let first = changes / 2 / threads * threads;
    assert!(index.range(..).eq((first..first + QUEUE).map(|key| (key, !key))), "an entry is lost");
    println!("a queue of {QUEUE}: {changes} changes in {:.0} s; memory {early} kB after a million, {late} kB at the end", took.as_secs_f64());
}
