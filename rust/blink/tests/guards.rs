//! Objects behind a map's pointers, which eight threads put, remove and read: none is read once it was given back.

use blink::{Answer, Guard, Guards, Index, Map, Noted, Room, Session};
use std::collections::VecDeque;
use std::sync::atomic::{AtomicBool, AtomicUsize, Ordering};
use std::thread;

const THREADS: usize = 8;
const TURNS: usize = 20_000;
const KEYS: u64 = 100;

// An object is there from before it is put until it is given back.
struct Objects {
    there: Vec<AtomicBool>,
    next: AtomicUsize,
}

// Reads, puts and removes; what was taken out is given back once no thread can read it. It returns how many were.
fn work(session: &mut Session, guard: &mut Guard, guards: &Guards, objects: &Objects, seed: u64) -> usize {
    let mut state = seed;
    let mut taken_out: VecDeque<(u64, Noted)> = VecDeque::new();
    let mut given_back = 0;
    for turn in 0..TURNS {
        state = state.wrapping_mul(6_364_136_223_846_793_005).wrapping_add(1_442_695_040_888_963_407);
        let key = (state >> 33) % KEYS;
        let out = match (state >> 20) % 4 {
            0 => {
                let object = objects.next.fetch_add(1, Ordering::Relaxed);
                objects.there[object].store(true, Ordering::SeqCst);
                session.put(key, object as u64).unwrap()
            }
            1 => match session.remove(key).unwrap() {
                Answer::Removed(object) => Some(object),
                _ => None,
            },
            _ => {
                let _held = guard.hold();
                if let Some(object) = session.get(key) {
                    for look in 0..2 {
                        if look == 1 && turn % 64 == 0 {
                            thread::yield_now();
                        }
                        assert!(objects.there[object as usize].load(Ordering::SeqCst));
                    }
                }
                None
            }
        };
        taken_out.extend(out.map(|object| (object, guards.note())));
        while taken_out.front().is_some_and(|(_, noted)| guards.are_past(noted)) {
            let (object, _) = taken_out.pop_front().unwrap();
            objects.there[object as usize].store(false, Ordering::SeqCst);
            given_back += 1;
        }
    }
    given_back
}

#[test]
fn no_object_is_read_once_it_was_given_back() {
    let room = Room { pages: 5_000, rows: 50_000, sessions: THREADS as u32 };
    let map = Map::open_fixed(&Index::new(4).unwrap(), room).unwrap();
    let objects = Objects {
        there: (0..THREADS * TURNS).map(|_| AtomicBool::new(false)).collect(),
        next: AtomicUsize::new(0),
    };
    let (guards, readers) = Guards::new(THREADS);
    let given_back: usize = thread::scope(|scope| {
        let threads: Vec<_> = readers
            .into_iter()
            .enumerate()
            .map(|(seed, mut guard)| {
                let mut session = map.session().unwrap();
                let (guards, objects) = (&guards, &objects);
                scope.spawn(move || work(&mut session, &mut guard, guards, objects, seed as u64 + 1))
            })
            .collect();
        threads.into_iter().map(|thread| thread.join().unwrap()).sum()
    });
    assert!(given_back > 1000);
    let index = map.close().unwrap();
    assert!(index.iter().all(|(_, pointer)| objects.there[pointer as usize].load(Ordering::SeqCst)));
}

#[test]
fn a_guard_is_past_once_it_was_let_go_of() {
    let (guards, mut readers) = Guards::new(2);
    let none = guards.note();
    let first = readers[0].hold();
    assert!(guards.are_past(&none));
    let one = guards.note();
    drop(first);
    assert!(guards.are_past(&one));
    // a guard that is held anew is another one, and one that is leaked stays
    std::mem::forget(readers[0].hold());
    assert!(guards.are_past(&one));
    let leaked = guards.note();
    assert!(!guards.are_past(&leaked));
    let again = readers[0].hold();
    assert!(guards.are_past(&leaked) && !guards.are_past(&guards.note()));
    drop(again);
    assert!(guards.are_past(&guards.note()));
}
