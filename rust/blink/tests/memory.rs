//! What the crate's calls do where the memory for their own lists is refused: they are refused, or go on with less; the process goes on.

use blink::{Answer, Error, Index, Map, Op, Room};
use std::alloc::{GlobalAlloc, Layout, System};
use std::cell::Cell;
use std::ptr;

// Refuses, on the threads that ask for it, each request of more than so many bytes. The library asks malloc, and isn't refused.
struct Refusing;

thread_local! {
    static MOST: Cell<usize> = const { Cell::new(usize::MAX) };
}

fn is_refused(bytes: usize) -> bool {
    MOST.with(|most| bytes > most.get())
}

unsafe impl GlobalAlloc for Refusing {
    unsafe fn alloc(&self, layout: Layout) -> *mut u8 {
        if is_refused(layout.size()) {
            return ptr::null_mut();
        }
        System.alloc(layout)
    }

    unsafe fn dealloc(&self, at: *mut u8, layout: Layout) {
        System.dealloc(at, layout)
    }

    unsafe fn realloc(&self, at: *mut u8, layout: Layout, bytes: usize) -> *mut u8 {
        if is_refused(bytes) {
            return ptr::null_mut();
        }
        System.realloc(at, layout, bytes)
    }
}

#[global_allocator]
static ALLOCATOR: Refusing = Refusing;

// What the call returns while each request of more than so many bytes is refused.
fn with_most<T>(bytes: usize, call: impl FnOnce() -> T) -> T {
    MOST.with(|most| most.set(bytes));
    let given = call();
    MOST.with(|most| most.set(usize::MAX));
    given
}

fn thousand() -> Index {
    let entries: Vec<(u64, u64)> = (0..1000).map(|key| (key, 10 * key)).collect();
    Index::from_sorted(8, entries.iter().copied()).unwrap()
}

#[test]
fn scans_go_on_by_short_parts() {
    let index = thousand();
    let sum = with_most(300, || index.iter().map(|(key, _)| key).sum::<u64>());
    assert_eq!(sum, 999 * 1000 / 2);
    let map = Map::open_fixed(&index, Room { pages: 0, rows: 0, sessions: 1 }).unwrap();
    let mut session = map.session().unwrap();
    let count = with_most(300, || session.range(100..900).count());
    assert_eq!(count, 800);
    let count = with_most(300, || session.range(100..900).limit(500).count());
    assert_eq!(count, 500);
}

#[test]
fn a_range_takes_no_memory_where_one_before_was_as_long() {
    let map = Map::open_fixed(&thousand(), Room { pages: 0, rows: 0, sessions: 1 }).unwrap();
    let mut session = map.session().unwrap();
    assert_eq!(with_most(0, || session.range(..).take(16).count()), 16);
    let there: Vec<(u64, u64)> = session.range(..).collect();
    let both = with_most(0, || session.range(..).zip(&there).all(|(entry, before)| entry == *before));
    assert!(both && there.len() == 1000);
    assert_eq!(with_most(0, || session.range(..).rev().map(|(key, _)| key).sum::<u64>()), 999 * 1000 / 2);
}

#[test]
fn a_session_is_refused_and_another_gets_its_place() {
    let map = Map::open_fixed(&thousand(), Room { pages: 0, rows: 0, sessions: 1 }).unwrap();
    assert_eq!(with_most(200, || map.session()).unwrap_err(), Error::OutOfMemory);
    assert_eq!(map.session().unwrap().get(7), Some(70));
}

#[test]
fn a_snapshot_is_refused_and_its_session_goes_on() {
    let map = Map::open_fixed(&thousand(), Room { pages: 22, rows: 44, sessions: 1 }).unwrap();
    let mut session = map.session().unwrap();
    assert_eq!(with_most(300, || session.snapshot(.., 10)), Err(Error::OutOfMemory));
    // also where the first places fit and more don't
    assert_eq!(with_most(2000, || session.snapshot(.., 10)), Err(Error::OutOfMemory));
    assert_eq!(session.put(5, 51), Ok(Some(50)));
    assert_eq!(session.snapshot(5..6, 10), Ok(Some(vec![(5, 51)])));
    drop(session);
    assert_eq!(map.close().map(|index| index.len()).unwrap(), 1000);
}

#[test]
fn operations_are_refused_before_any_is_carried_out() {
    let mut index = thousand();
    let operations: Vec<Op> = (0..500).map(Op::Remove).collect();
    let applied = with_most(300, || index.apply(&operations));
    assert_eq!((applied.answers.len(), applied.error), (0, Some(Error::OutOfMemory)));
    assert_eq!(with_most(300, || index.run(&operations)), Err(Error::OutOfMemory));
    assert_eq!(index.len(), 1000);
    let applied = index.apply(&operations);
    assert_eq!((applied.answers.len(), applied.error), (500, None));
    assert_eq!(applied.answers[499], Answer::Removed(4990));
    assert_eq!(index.len(), 500);
}

#[test]
fn a_text_of_the_tree_is_refused() {
    let index = thousand();
    assert_eq!(with_most(300, || index.dump()), Err(Error::OutOfMemory));
    assert!(index.dump().unwrap().contains("999:9990"));
}
