//! How long the slowest of many changes take: puts of 40,000 keys by 1, 4, 8 and 16 threads, each timed alone.

use crate::map::Map as Tree;
use crate::workload::{Keys, Random};
use blink::{Index, Map, Room, Session};
use std::sync::{Barrier, Mutex, RwLock};
use std::thread;
use std::time::Instant;

const KEYS: usize = 40_000;
const PUTS: usize = 100_000;
const THREADS: [usize; 4] = [1, 4, 8, 16];
const SHARDS: usize = 64;

// A thread's way to put a pointer.
trait Puts: Send {
    fn put(&mut self, key: u64, pointer: u64);
}

impl Puts for Session {
    fn put(&mut self, key: u64, pointer: u64) {
        Session::put(self, key, pointer).expect("room");
    }
}

impl Puts for &Mutex<Tree> {
    fn put(&mut self, key: u64, pointer: u64) {
        self.lock().unwrap().insert(key, pointer);
    }
}

// The shards by the top six of the 63 bits that a key has.
impl Puts for &[RwLock<Tree>] {
    fn put(&mut self, key: u64, pointer: u64) {
        self[(key >> 57) as usize % SHARDS].write().unwrap().insert(key, pointer);
    }
}

// The nanoseconds of every put, of all threads together, in ascending order.
fn times<P: Puts>(handles: Vec<P>, keys: &[u64]) -> Vec<u64> {
    let start = Barrier::new(handles.len());
    let mut all: Vec<u64> = thread::scope(|scope| {
        let run = |(thread, mut handle): (usize, P)| {
            let start = &start;
            scope.spawn(move || {
                let mut random = Random(thread as u64);
                start.wait();
                let put = |pointer| {
                    let key = keys[random.below(keys.len())];
                    let began = Instant::now();
                    handle.put(key, pointer);
                    began.elapsed().as_nanos() as u64
                };
                (0..PUTS as u64).map(put).collect::<Vec<u64>>()
            })
        };
        let threads: Vec<_> = handles.into_iter().enumerate().map(run).collect();
        threads.into_iter().flat_map(|thread| thread.join().expect("a thread that puts")).collect()
    });
    all.sort_unstable();
    all
}

fn tell(name: &str, threads: usize, times: &[u64]) {
    let of = |parts: usize| times[times.len() - 1 - times.len() / parts];
    let micro = |nanoseconds: u64| nanoseconds as f64 / 1_000.0;
    let (median, last) = (times[times.len() / 2], times[times.len() - 1]);
    println!("{name}|{threads}|{:.2}|{:.1}|{:.1}|{:.0}", micro(median), micro(of(1_000)), micro(of(10_000)), micro(last));
}

/// Measures the map, a `BTreeMap` under a `Mutex`, and 64 of them each under a `RwLock`, and prints microseconds as a table.
pub fn tails() {
    let keys = Keys::random(KEYS, 0).present;
    println!("A put, microseconds|threads|median|99.9 of 100|99.99 of 100|longest\n|---|---|---|---|---|---|");
    for threads in THREADS {
        let mut index = Index::new(32).expect("an index");
        keys.iter().for_each(|&key| _ = index.insert(key, key).expect("an entry"));
        let map = Map::open_with_room(&index, Room { pages: 10_000, rows: 40_000, sessions: threads as u32 }).expect("a map");
        let sessions = (0..threads).map(|_| map.session().expect("a session")).collect();
        tell("map 32", threads, &times::<Session>(sessions, &keys));
        let tree: Tree = keys.iter().map(|&key| (key, key)).collect();
        let mutex = Mutex::new(tree);
        tell("Mutex", threads, &times(vec![&mutex; threads], &keys));
        let shards: Vec<RwLock<Tree>> = (0..SHARDS).map(|_| RwLock::new(Tree::new())).collect();
        keys.iter().for_each(|&key| _ = shards[(key >> 57) as usize % SHARDS].write().unwrap().insert(key, key));
        tell("shards", threads, &times(vec![&shards[..]; threads], &keys));
    }
}
