//! Readers that are stopped inside a call, while others write every row again and again. What a stopped reader may still read
//! isn't written, so its answer is right; and once it goes on, so does every change that was refused meanwhile.
#![cfg(all(target_os = "linux", target_arch = "x86_64", target_env = "gnu"))]

mod stepped;
mod tried;

use blink::{Answer, Op, Reserve, Room};
use std::cell::Cell;
use std::ffi::{c_int, c_void};
use std::sync::atomic::{AtomicBool, AtomicU64, Ordering::SeqCst};
use std::thread;
use stepped::{by_instruction, handle};
use tried::sys::{RENEWING, ROWS_BUSY};
use tried::{Map, Session};

// The rows of the map's room.
const ROWS: u32 = 100;

// So many replacements in one leaf write one row: twelve are appended to the leaf's row, and the next writes another.
const PER_ROW: u32 = 13;

// The most rows that a session has: half of them over all sessions would be fewer than an insertion may need.
const QUOTA: u32 = 44;

// The pointer of the key at first.
const FIRST: u64 = 1_000;

fn map_of_four(sessions: u32) -> Map {
    Map::open(4, &[(1, FIRST), (2, 20), (3, 30), (4, 40)], Some(Room { pages: 0, rows: ROWS, sessions }))
}

// A session that gives key 1 the next greater pointer each time.
struct Writer {
    session: Session,
    pointer: u64,
}

impl Writer {
    fn new(map: &Map) -> Writer {
        Writer { session: map.session(), pointer: FIRST }
    }

    // Replaces the pointer, and returns whether there was a row for it. No other session has the page.
    fn replaces(&mut self) -> bool {
        match self.session.begin(Op::Replace(1, self.pointer + 1), 1) {
            Ok(Some(answer)) => {
                assert_eq!(answer, Answer::Replaced(self.pointer));
                self.pointer += 1;
                true
            }
            Err(code) => {
                assert_eq!(code, ROWS_BUSY);
                false
            }
            Ok(None) => panic!("nobody has the page"),
        }
    }

    // Replaces the pointer until there is no row for it, that many times at most, and returns how often it did.
    fn replaces_at_most(&mut self, most: u32) -> u32 {
        (0..most).find(|_| !self.replaces()).unwrap_or(most)
    }
}

// ---- a reader that is stopped at each of its instructions

// Whether rows came back while the reader was stopped after so many instructions of its call; none, if the call has fewer. All
// rows of the writer are written meanwhile. Another session that begins then has its own.
fn stops_after(instructions: u32) -> Option<bool> {
    let map = map_of_four(3);
    let mut writer = Writer::new(&map);
    let mut reader = map.session();
    let mut late = map.session();
    let (mut passed, mut replaced) = (0, None);
    let found = by_instruction(
        || reader.get(1),
        || {
            if passed == instructions {
                replaced = Some(writer.replaces_at_most(3 * ROWS * PER_ROW));
                assert_eq!(late.begin(Op::Replace(2, 21), 100), Ok(Some(Answer::Replaced(20))));
            }
            passed += 1;
            replaced.is_none()
        },
    );
    let replaced = replaced?;
    // The rows come back, or each of the writer's is written once and none comes back.
    let is_held = replaced == QUOTA * PER_ROW;
    assert!(is_held || replaced == 3 * ROWS * PER_ROW, "{replaced} changes after {instructions} instructions");
    let found = found.unwrap();
    assert!(found == FIRST || found == FIRST + u64::from(replaced), "{found} after {instructions} instructions");
    // Of three sessions one draws a sixth of what the pool has, of 100 rows 16, and the late one 14 of the other 84. The writer draws
    // again only while its rows don't come back, up to its quota of 44; then the late one draws 9 of 56.
    assert_eq!(map.room(), (0, if is_held { 47 } else { 70 }));
    // The reader has gone on, so no row is held back any more.
    assert_eq!(writer.replaces_at_most(5 * ROWS * PER_ROW), 5 * ROWS * PER_ROW);
    assert_eq!(reader.get(1), Some(writer.pointer));
    drop((writer, reader, late));
    let last = FIRST + u64::from(replaced + 5 * ROWS * PER_ROW);
    assert_eq!(map.close(), [(1, last), (2, 21), (3, 30), (4, 40)]);
    Some(!is_held)
}

#[test]
fn a_reader_that_is_stopped_anywhere_reads_rows_that_are_not_written() {
    let come_back: Vec<bool> = (0..100_000).map_while(stops_after).collect();
    // Before it marks its place a reader holds no row back, nor after it has taken the mark away; in between it does all the
    // time.
    let marks = come_back.windows(2).filter(|pair| pair[0] != pair[1]).count();
    assert_eq!((come_back.first(), come_back.last(), marks), (Some(&true), Some(&true), 2));
    let held = come_back.iter().filter(|back| !**back).count();
    // The call reads the prime block, the leaf's row, and the entry between the marks.
    assert!(held > 20, "{held}");
}

// ---- a reader that makes one call after another

// So many calls the reader makes.
const CALLS: usize = 100;

// The reader is stopped in the midst of each of its calls, so a writer never finds it between two of them. The rows that were taken out
// in one call still come back in the next: the reader's mark is another one then, and tells that the call before has ended.
#[test]
fn rows_come_back_though_the_reader_is_always_inside_a_call() {
    let map = map_of_four(2);
    let mut writer = Writer::new(&map);
    let mut reader = map.session();
    let passed = Cell::new(0u32);
    let pass = || {
        passed.set(passed.get() + 1);
        true
    };
    by_instruction(|| reader.get(1), pass);
    let midst = passed.get() / 2;
    let mut replaced = Vec::with_capacity(CALLS);
    let in_each_call = || {
        for _ in 0..CALLS {
            passed.set(0);
            reader.get(1);
        }
    };
    by_instruction(in_each_call, || {
        pass();
        if passed.get() == midst {
            replaced.push(writer.replaces_at_most(3 * ROWS * PER_ROW));
        }
        true
    });
    // At the first stop each of the writer's rows is written once, and none comes back: so the reader is inside its call there.
    assert_eq!((replaced.len(), replaced[0]), (CALLS, QUOTA * PER_ROW));
    // In each later call the rows of the call before come back, and no others: at most as many as the writer has.
    assert!(replaced.iter().all(|count| (1..=QUOTA * PER_ROW).contains(count)), "{replaced:?}");
    let last = FIRST + replaced.iter().map(|count| u64::from(*count)).sum::<u64>();
    assert_eq!(reader.get(1), Some(last));
    drop((writer, reader));
    assert_eq!(map.close(), [(1, last), (2, 20), (3, 30), (4, 40)]);
}

// ---- a change that is stopped at each of its instructions

// The change comes behind so many others of its leaf.
fn is_made_or_not_behind(others: u32) {
    let map = map_of_four(2);
    let mut writer = Writer::new(&map);
    assert_eq!(writer.replaces_at_most(others), others);
    let first = writer.pointer;
    let mut reader = map.session();
    let (mut instructions, mut shown) = (0u32, Vec::with_capacity(2));
    let replaced = by_instruction(
        || writer.replaces(),
        || {
            instructions += 1;
            let found = reader.get(1);
            if shown.last() != Some(&found) {
                shown.push(found);
            }
            assert_eq!(reader.get(2), Some(20));
            true
        },
    );
    assert!(replaced && instructions > 100, "{instructions}");
    // The change is seen at once, and stays.
    assert_eq!(shown, [Some(first), Some(first + 1)]);
    drop((writer, reader));
    assert_eq!(map.close(), [(1, first + 1), (2, 20), (3, 30), (4, 40)]);
}

#[test]
fn a_change_that_is_stopped_anywhere_is_made_or_not() {
    // one that is appended, and one that writes a row
    is_made_or_not_behind(0);
    is_made_or_not_behind(PER_ROW - 1);
}

// Begins a change of the same leaf after so many instructions of a replacement, and returns whether it had to wait; none, if the
// replacement has fewer.
fn another_waits_after(instructions: u32) -> Option<bool> {
    let map = map_of_four(2);
    let (mut writer, mut session) = (Writer::new(&map), map.session());
    let (mut passed, mut begun) = (0, None);
    let replaced = by_instruction(
        || writer.replaces(),
        || {
            if passed == instructions {
                begun = Some(session.begin(Op::Replace(2, 21), 1));
            }
            passed += 1;
            begun.is_none()
        },
    );
    assert!(replaced);
    let begun = begun?.unwrap();
    assert_eq!(session.end(begun), Answer::Replaced(20), "after {instructions} instructions");
    drop((writer, session));
    assert_eq!(map.close(), [(1, FIRST + 1), (2, 21), (3, 30), (4, 40)]);
    Some(begun.is_none())
}

#[test]
fn another_change_waits_only_while_a_stopped_one_has_the_leaf() {
    let waits: Vec<bool> = (0..100_000).step_by(7).map_while(another_waits_after).collect();
    let turns = waits.windows(2).filter(|pair| pair[0] != pair[1]).count();
    assert_eq!((waits.first(), waits.last(), turns), (Some(&false), Some(&false), 2));
}

// Begins a change of the same leaf after so many instructions of a replacement, and frees its session then. If the change rests, it can't be ended,
// since the stopped replacement has the leaf: the session is lost, with its change, and the map doesn't close any more. Nothing else is lost.
// Returns whether that was so; none, if the replacement has fewer instructions.
fn another_is_lost_after(instructions: u32) -> Option<bool> {
    let map = map_of_four(3);
    let (mut writer, mut reader, mut freed) = (Writer::new(&map), map.session(), Some(map.session()));
    let (mut passed, mut lost) = (0, None);
    let replaced = by_instruction(
        || writer.replaces(),
        || {
            if passed == instructions {
                lost = freed.take().map(|mut session| session.begin(Op::Replace(2, 21), 1).unwrap().is_none());
            }
            passed += 1;
            lost.is_none()
        },
    );
    assert!(replaced);
    let lost = lost?;
    let left = [(1, FIRST + 1), (2, if lost { 20 } else { 21 }), (3, 30), (4, 40)];
    assert!(left.iter().all(|&(key, pointer)| reader.get(key) == Some(pointer)), "after {instructions} instructions");
    drop((writer, reader));
    for _ in 0..2 {
        let closed = map.try_close();
        assert_eq!(closed.as_deref(), if lost { Err(&RENEWING) } else { Ok(&left[..]) }, "after {instructions} instructions");
        if !lost {
            break;
        }
    }
    Some(lost)
}

#[test]
fn a_session_that_is_freed_under_way_is_lost_alone() {
    let lost: Vec<bool> = (0..100_000).step_by(31).map_while(another_is_lost_after).collect();
    assert!(lost.contains(&true) && lost.contains(&false), "{lost:?}");
}

// ---- a reader in a thread of its own that is stopped by a signal

extern "C" {
    fn pthread_self() -> usize;
    fn pthread_kill(thread: usize, signal: c_int) -> c_int;
    fn sched_yield() -> c_int;
}

const SIGUSR1: c_int = 10;

// The reader is to stop, and has stopped. The handler takes no memory and no lock.
static STOP: AtomicBool = AtomicBool::new(false);
static STOPPED: AtomicBool = AtomicBool::new(false);

extern "C" fn stay(_signal: c_int, _info: *mut c_void, _context: *mut c_void) {
    STOPPED.store(true, SeqCst);
    while STOP.load(SeqCst) {
        // SAFETY: the call has no condition.
        unsafe { sched_yield() };
    }
    STOPPED.store(false, SeqCst);
}

// What the two threads tell each other.
struct Told {
    // The reader's thread, once it runs.
    thread: AtomicU64,
    // The reader is inside a call, or between two.
    inside: AtomicBool,
    // The pointer that the writer has put last, and the one that it puts next or has put.
    put: AtomicU64,
    next: AtomicU64,
    ended: AtomicBool,
}

// Finds two keys again and again. What it finds was there at some time in the call.
fn reads(mut session: Session, told: &Told) -> u64 {
    // SAFETY: the call has no condition.
    told.thread.store(unsafe { pthread_self() } as u64, SeqCst);
    let mut calls = 0;
    while !told.ended.load(SeqCst) {
        let least = told.put.load(SeqCst);
        told.inside.store(true, SeqCst);
        let found = session.get(1).unwrap();
        let most = told.next.load(SeqCst);
        let other = session.get(3);
        told.inside.store(false, SeqCst);
        assert!(least <= found && found <= most, "{found}, and not from {least} to {most}");
        assert_eq!(other, Some(30));
        calls += 2;
    }
    calls
}

// Stops the thread inside the handler.
fn stop(thread: u64) {
    STOP.store(true, SeqCst);
    // SAFETY: the thread has begun, and is joined only once it has been told that all has ended.
    assert_eq!(unsafe { pthread_kill(thread as usize, SIGUSR1) }, 0);
    while !STOPPED.load(SeqCst) {
        thread::yield_now();
    }
}

fn go_on() {
    STOP.store(false, SeqCst);
    while STOPPED.load(SeqCst) {
        thread::yield_now();
    }
}

// Replaces the pointer, and says before and after which one.
fn replaces(writer: &mut Writer, told: &Told) -> bool {
    told.next.store(writer.pointer + 1, SeqCst);
    let replaced = writer.replaces();
    told.put.store(writer.pointer, SeqCst);
    replaced
}

// Stops the reader some hundred times, and writes all rows meanwhile, or those that the reader doesn't hold back. Returns how
// often the reader was inside a call, and how often it held rows back.
fn stops_and_writes(writer: &mut Writer, told: &Told) -> (u32, u32) {
    let (mut inside, mut held) = (0, 0);
    while told.thread.load(SeqCst) == 0 {
        thread::yield_now();
    }
    for stops in 0..STOPS {
        stop(told.thread.load(SeqCst));
        inside += u32::from(told.inside.load(SeqCst));
        held += u32::from(!(0..3 * ROWS * PER_ROW).all(|_| replaces(writer, told)));
        go_on();
        // Not each stop falls on the same place of the reader's loop.
        for _ in 0..stops % 50 {
            std::hint::spin_loop();
        }
        // The reader comes to the end of its call, and all rows are written some times more.
        let mut left = 5 * ROWS * PER_ROW;
        while left > 0 {
            if replaces(writer, told) {
                left -= 1;
            } else {
                thread::yield_now();
            }
        }
    }
    told.ended.store(true, SeqCst);
    (inside, held)
}

const STOPS: u32 = 500;

#[test]
fn a_reader_that_sleeps_in_a_call_holds_rows_back_until_it_wakes() {
    handle(SIGUSR1, stay);
    let map = map_of_four(2);
    let mut writer = Writer::new(&map);
    let session = map.session();
    let told = Told {
        thread: AtomicU64::new(0),
        inside: AtomicBool::new(false),
        put: AtomicU64::new(FIRST),
        next: AtomicU64::new(FIRST),
        ended: AtomicBool::new(false),
    };
    let (calls, (inside, held)) = thread::scope(|scope| {
        let reader = scope.spawn(|| reads(session, &told));
        let counts = stops_and_writes(&mut writer, &told);
        (reader.join().unwrap(), counts)
    });
    // A reader that holds rows back is inside a call.
    assert!(inside >= held && held > 0, "{calls} calls, {inside} stops inside, {held} with a mark");
    let last = writer.pointer;
    assert!(last >= FIRST + u64::from(STOPS) * 5 * u64::from(ROWS * PER_ROW));
    drop(writer);
    assert_eq!(map.close(), [(1, last), (2, 20), (3, 30), (4, 40)]);
}
