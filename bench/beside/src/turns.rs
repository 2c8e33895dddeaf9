//! Calls side by side, by turns, so that what disturbs one disturbs the others: what a session's marks cost, and what scans take.

use crate::workload::{Keys, Random};
use blink::{Index, Map, Room, Session};
use std::collections::BTreeMap;
use std::hint::black_box;
use std::sync::atomic::{AtomicBool, Ordering};
use std::sync::{Barrier, RwLock};
use std::thread;
use std::time::Instant;

const ROUNDS: usize = 9;
const THREADS: usize = 4;
// How many calls of a kind a round has, of all threads together; of scans, so many of so many entries.
const CALLS: usize = 200_000;
const SCANS: usize = 800;
const LENGTH: usize = 1_000;

// A side's name, and a round of it: nanoseconds of a call, or of an entry.
type Round<'a> = (&'static str, Box<dyn FnMut() -> f64 + 'a>);

// Measures the sides by turns, and prints the median of each.
fn measure(title: &str, mut sides: Vec<Round>) {
    let mut figures = vec![Vec::new(); sides.len()];
    for _ in 0..ROUNDS {
        for ((_, round), figures) in sides.iter_mut().zip(&mut figures) {
            figures.push(round());
        }
    }
    println!("{title}:");
    for ((name, _), figures) in sides.iter().zip(&mut figures) {
        let median = median_of(figures);
        println!("    {name}: {median:.2} ns ({:.2} to {:.2})", figures[0], figures[ROUNDS - 1]);
    }
}

/// The figure in the middle. Afterwards all are in ascending order.
pub fn median_of(figures: &mut [f64]) -> f64 {
    figures.sort_by(f64::total_cmp);
    figures[figures.len() / 2]
}

/// Nanoseconds of one of so many items, from the start of the first thread to the end of the last one, where each of these handles works in
/// a thread of its own.
pub fn timed<H: Send>(handles: Vec<H>, items: usize, work: impl Fn(H, u64) + Sync) -> f64 {
    let (start, count) = (Barrier::new(handles.len()), handles.len());
    let times: Vec<(Instant, Instant)> = thread::scope(|scope| {
        let run = |(thread, handle): (usize, H)| {
            let (start, work) = (&start, &work);
            scope.spawn(move || {
                start.wait();
                let began = Instant::now();
                work(handle, thread as u64);
                (began, Instant::now())
            })
        };
        let threads: Vec<_> = handles.into_iter().enumerate().map(run).collect();
        threads.into_iter().map(|thread| thread.join().expect("a thread that works")).collect()
    });
    let (began, ended) = times.into_iter().reduce(|one, other| (one.0.min(other.0), one.1.max(other.1))).expect("a thread");
    (ended - began).as_nanos() as f64 / (items / count * count) as f64
}

// The sum of a scan, so that it can't be left out.
fn sum(entries: impl Iterator<Item = (u64, u64)>) -> u64 {
    entries.take(LENGTH).fold(0, |sum, (key, pointer)| sum.wrapping_add(key ^ pointer))
}

// So many scans of one thread, from a key that is drawn for each.
fn scans(sorted: &[u64], seed: u64, count: usize, mut scan: impl FnMut(u64) -> u64) {
    let mut random = Random(seed);
    let sums = (0..count).fold(0, |sum: u64, _| sum.wrapping_add(scan(sorted[random.below(sorted.len() - LENGTH)])));
    assert_ne!(sums, 0);
}

fn by_tree(tree: &BTreeMap<u64, u64>, from: u64) -> u64 {
    sum(tree.range(from..).map(|(&key, &pointer)| (key, pointer)))
}

fn sessions(map: &Map, count: usize) -> Vec<Session> {
    (0..count).map(|_| map.session().expect("a session")).collect()
}

// Scans of a thousand entries: alone, by several threads, and beside as many that replace.
fn scanning(index: &Index, keys: &[u64]) {
    let mut sorted = keys.to_vec();
    sorted.sort_unstable();
    let tree: BTreeMap<u64, u64> = keys.iter().map(|&key| (key, !key)).collect();
    let map = Map::open_with_room(index, Room { pages: 100, rows: 2 * 4_096 * THREADS as u32, sessions: 2 * THREADS as u32 }).expect("a map");
    let turned: Vec<u64> = sorted.iter().rev().copied().collect();
    let alone = |sorted: &[u64], scan: &mut dyn FnMut(u64) -> u64| {
        let start = Instant::now();
        scans(sorted, 1, SCANS, scan);
        start.elapsed().as_nanos() as f64 / (SCANS * LENGTH) as f64
    };
    let mut session = map.session().expect("a session");
    for records in ["no records", "records half as many as there is room for"] {
        measure(
            &format!("a scan of 1,000 of 40,000 entries, an entry; leaves of the map have {records}"),
            vec![
                ("session", Box::new(|| alone(&sorted, &mut |from| sum(session.range(from..))))),
                ("index", Box::new(|| alone(&sorted, &mut |from| sum(index.range(from..))))),
                ("BTreeMap", Box::new(|| alone(&sorted, &mut |from| by_tree(&tree, from)))),
            ],
        );
        measure(
            "the same backwards",
            vec![
                ("session", Box::new(|| alone(&turned, &mut |to| sum(session.range(..=to).rev())))),
                ("index", Box::new(|| alone(&turned, &mut |to| sum(index.range(..=to).rev())))),
                ("BTreeMap", Box::new(|| alone(&turned, &mut |to| sum(tree.range(..=to).rev().map(|(&key, &pointer)| (key, pointer)))))),
            ],
        );
        // Keys in no order, so a leaf's log is anything between empty and full afterwards.
        keys.iter().for_each(|&key| _ = session.replace(key, !key).expect("rows"));
    }
    drop(session);
    let tree = RwLock::new(tree);
    for writers in [0, THREADS] {
        let stop = AtomicBool::new(false);
        // Runs scans while so many writers replace.
        let beside = |write: &(dyn Fn(u64) + Sync), scan: &mut dyn FnMut() -> f64| {
            stop.store(false, Ordering::Relaxed);
            thread::scope(|scope| {
                (0..writers as u64).for_each(|writer| _ = scope.spawn(move || write(writer)));
                let figure = scan();
                stop.store(true, Ordering::Relaxed);
                figure
            })
        };
        let items = SCANS * LENGTH;
        let by_sessions = |writer: u64| {
            let (mut session, mut random) = (map.session().expect("a session"), Random(writer));
            while !stop.load(Ordering::Relaxed) {
                let key = keys[random.below(keys.len())];
                session.replace(key, !key).expect("rows");
            }
        };
        let under_lock = |writer: u64| {
            let mut random = Random(writer);
            while !stop.load(Ordering::Relaxed) {
                let key = keys[random.below(keys.len())];
                tree.write().unwrap().insert(key, !key);
            }
        };
        let session = || {
            let mut scan = || timed(sessions(&map, THREADS), items, |mut session, thread| scans(&sorted, thread, SCANS / THREADS, |from| sum(session.range(from..))));
            beside(&by_sessions, &mut scan)
        };
        let lock = || {
            let mut scan = || timed(vec![(); THREADS], items, |(), thread| scans(&sorted, thread, SCANS / THREADS, |from| by_tree(&tree.read().unwrap(), from)));
            beside(&under_lock, &mut scan)
        };
        let title = format!("the same by {THREADS} threads, beside {writers} that replace");
        measure(&title, vec![("session", Box::new(session)), ("BTreeMap under an RwLock", Box::new(lock))]);
    }
}

/// Measures and prints all of it.
pub fn turns() {
    let keys = Keys::random(40_000, 0).present;
    let mut index = Index::new(32).expect("an index");
    keys.iter().for_each(|&key| _ = index.insert(key, !key).expect("memory"));
    scanning(&index, &keys);
}

// A hundred calls in ten: eight finds of a key that is there, an insertion of one that isn't, and its deletion.
fn mixed(session: &mut Session, keys: &[u64], thread: u64, count: usize) {
    let mut random = Random(thread + 7);
    for _ in 0..count / 10 {
        for _ in 0..8 {
            assert!(session.get(keys[random.below(keys.len())]).is_some());
        }
        // the keys that are there have 63 bits
        let absent = random.word() | 1 << 63;
        session.insert(absent, absent).expect("room");
        session.remove(absent).expect("room");
    }
}

// The same of a map that was told no room: finds by sessions that are held for all of them, and by others; and replacements.
fn changes_without_room(index: &Index, keys: &[u64], threads: usize) {
    let map = Map::open(index).expect("a map");
    let sessions = || (0..threads).map(|_| map.session().expect("a session")).collect::<Vec<_>>();
    let looks = |session: &mut Session, thread| {
        let mut random = Random(thread);
        (0..CALLS / threads).for_each(|_| assert!(session.get(keys[random.below(keys.len())]).is_some()));
    };
    let find = timed(sessions(), CALLS, |mut session, thread| looks(&mut session, thread));
    println!("a find in a map that was told no room, {threads} threads\t{find:.1}");
    let held = timed(sessions(), CALLS, |mut session, thread| looks(&mut session.hold(), thread));
    println!("the same by held sessions, {threads} threads\t{held:.1}");
    let own = |thread: u64| keys.iter().skip(thread as usize).step_by(threads).copied();
    let replacement = timed(sessions(), 5 * keys.len(), |mut session, thread| {
        (0..5).for_each(|turn| own(thread).for_each(|key| _ = session.replace(key, key ^ turn).expect("memory")));
    });
    println!("a replacement in a map that was told no room, {threads} threads\t{replacement:.1}");
}

// Times looks at the neighbours of keys.
fn neighbours(map: &Map, keys: &[u64], threads: usize) {
    let look = |of: fn(&mut Session, u64) -> Option<(u64, u64)>| {
        timed(sessions(map, threads), CALLS, |mut session, thread| {
            let mut random = Random(thread);
            (0..CALLS / threads).for_each(|_| _ = black_box(of(&mut session, keys[random.below(keys.len())])));
        })
    };
    println!("the entry behind a key, {threads} threads\t{:.1}", look(Session::next));
    println!("the entry before a key, {threads} threads\t{:.1}", look(Session::prev));
}

/// Times, once each, what a map's sessions do. Two libraries are compared by two programs, which `bench/changes.sh` runs by turns.
pub fn changes() {
    let keys = Keys::random(40_000, 0).present;
    let mut index = Index::new(32).expect("an index");
    keys.iter().for_each(|&key| _ = index.insert(key, !key).expect("memory"));
    for threads in [1, THREADS] {
        let sessions_of = |map| sessions(map, threads);
        let room = |pages| Room { pages, rows: 2 * pages + 4_096 * threads as u32, sessions: threads as u32 };
        let own = |thread: u64| keys.iter().skip(thread as usize).step_by(threads).copied();
        let map = Map::open_with_room(&index, room(20_000)).expect("a map");
        let find = timed(sessions_of(&map), CALLS, |mut session, thread| {
            let mut random = Random(thread);
            (0..CALLS / threads).for_each(|_| assert!(session.get(keys[random.below(keys.len())]).is_some()));
        });
        println!("a find, {threads} threads\t{find:.1}");
        // each key five times
        let replacement = timed(sessions_of(&map), 5 * keys.len(), |mut session, thread| {
            (0..5).for_each(|turn| own(thread).for_each(|key| _ = session.replace(key, key ^ turn).expect("rows")));
        });
        println!("a replacement, {threads} threads\t{replacement:.1}");
        let mix = timed(sessions_of(&map), CALLS, |mut session, thread| mixed(&mut session, &keys, thread, CALLS / threads));
        println!("80 finds, 10 insertions, 10 deletions, {threads} threads\t{mix:.1}");
        let mut sorted = keys.clone();
        sorted.sort_unstable();
        let scan = timed(sessions_of(&map), SCANS * LENGTH, |mut session, thread| {
            scans(&sorted, thread, SCANS / threads, |from| sum(session.range(from..)));
        });
        println!("a scan of 1,000 entries, an entry, {threads} threads\t{scan:.2}");
        sorted.reverse();
        let back = timed(sessions_of(&map), SCANS * LENGTH, |mut session, thread| {
            scans(&sorted, thread, SCANS / threads, |to| sum(session.range(..=to).rev()));
        });
        println!("the same backwards, {threads} threads\t{back:.2}");
        neighbours(&map, &keys, threads);
        let empty = Map::open_with_room(&Index::new(32).expect("an index"), room(20_000)).expect("a map");
        let insertion = timed(sessions_of(&empty), keys.len(), |mut session, thread| {
            own(thread).for_each(|key| _ = session.insert(key, !key).expect("room"));
        });
        println!("an insertion into an empty map, {threads} threads\t{insertion:.1}");
        changes_without_room(&index, &keys, threads);
    }
    let mut leaf = Index::new(32).expect("an index");
    keys[..16].iter().for_each(|&key| _ = leaf.insert(key, !key).expect("memory"));
    let map = Map::open_with_room(&leaf, Room { pages: 100, rows: 4_096 * THREADS as u32, sessions: THREADS as u32 }).expect("a map");
    let hot = timed(sessions(&map, THREADS), CALLS, |mut session, thread| {
        let mut random = Random(thread);
        (0..CALLS / THREADS / 2).for_each(|turn| {
            assert!(session.get(keys[random.below(16)]).is_some());
            session.replace(keys[random.below(16)], turn as u64).expect("rows");
        });
    });
    println!("50 finds, 50 replacements, all in one leaf of 16 entries, {THREADS} threads\t{hot:.1}");
    let mut batch = Index::new(32).expect("an index");
    let start = Instant::now();
    keys.iter().for_each(|&key| _ = batch.insert(key, !key).expect("memory"));
    println!("an insertion into an index\t{:.1}", start.elapsed().as_nanos() as f64 / keys.len() as f64);
}
