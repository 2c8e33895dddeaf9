//! Calls of a map that are stopped inside, and renewals. Beside a stopped call of a session the map is renewed, or isn't, and the call goes on;
//! beside a stopped renewal calls of sessions answer, or say that the map is being renewed; and a stopped change ends inside a renewal that
//! began beside it.
#![cfg(all(target_os = "linux", target_arch = "x86_64", target_env = "gnu"))]

mod stepped;
mod tried;

use blink::{Answer, Error, Index, Map, Op, Reserve, Session};
use std::fmt::Debug;
use std::sync::atomic::{AtomicU32, Ordering};
use std::{ptr, thread};
use stepped::by_instruction;
use tried::sys::*;
use tried::{filled, DONE};

const ENTRIES: [(u64, u64); 4] = [(1, 10), (2, 20), (3, 30), (4, 40)];

// ---- a call of a session that is stopped at each of its instructions

// Renews the map after so many instructions of a call. Returns whether it could; none, if the call has fewer.
fn renews_after<T: PartialEq + Debug>(
    instructions: u32,
    call: impl FnOnce(&mut Session) -> T,
    expected: &T,
    after: &[(u64, u64)],
) -> Option<bool> {
    let map = Map::open(&Index::from_sorted(4, ENTRIES).unwrap()).unwrap();
    let (mut session, mut other) = (map.session().unwrap(), map.session().unwrap());
    let (mut passed, mut renewed) = (0, None);
    let answer = by_instruction(
        || call(&mut session),
        || {
            if passed == instructions {
                renewed = Some(map.renew(1));
            }
            passed += 1;
            renewed.is_none()
        },
    );
    assert_eq!(answer, *expected, "after {instructions} instructions");
    let renewed = renewed?;
    assert!(matches!(renewed, Ok(()) | Err(Error::Renewing)), "{renewed:?} after {instructions} instructions");
    // Nobody is in a call any more, so nothing holds a renewal up, and both sessions see all.
    assert_eq!(map.renew(1), Ok(()));
    assert!(session.range(..).eq(after.iter().copied()) && other.range(..).eq(after.iter().copied()));
    drop((session, other));
    assert!(map.close().unwrap().iter().eq(after.iter().copied()));
    Some(renewed.is_ok())
}

// The map can be renewed until the call takes its session, and again once it has given it back; and it takes it so many times.
fn is_held_up(times: usize, renewals: &[bool]) {
    let turns = renewals.windows(2).filter(|pair| pair[0] != pair[1]).count();
    assert_eq!((renewals.first(), renewals.last(), turns), (Some(&true), Some(&true), 2 * times));
    assert!(renewals.iter().filter(|renewed| !**renewed).count() > 5);
}

#[test]
fn a_map_is_renewed_beside_a_find_that_is_stopped_anywhere() {
    let after = |instructions| renews_after(instructions, |session| session.get(1), &Some(10), &ENTRIES);
    is_held_up(1, &(0..100_000).step_by(5).map_while(after).collect::<Vec<_>>());
}

#[test]
fn a_map_is_renewed_beside_a_change_that_is_stopped_anywhere() {
    let changed = [(1, 10), (2, 21), (3, 30), (4, 40)];
    let after = |instructions| renews_after(instructions, |session| session.replace(2, 21), &Ok(Answer::Replaced(20)), &changed);
    is_held_up(1, &(0..100_000).step_by(23).map_while(after).collect::<Vec<_>>());
}

#[test]
fn a_map_is_renewed_beside_an_insertion_that_is_stopped_anywhere() {
    // The leaf is full. So the insertion is given up where its session lies, takes the session out, and splits the leaf.
    let inserted = [(1, 10), (2, 20), (3, 30), (4, 40), (5, 50)];
    let after = |instructions| renews_after(instructions, |session| session.insert(5, 50), &Ok(Answer::Inserted), &inserted);
    is_held_up(2, &(0..100_000).step_by(23).map_while(after).collect::<Vec<_>>());
}

// Begins a replacement after so many instructions of another one of the key. Returns whether it rests then; none, if the first has fewer. Both
// are made, one behind the other, and the second session has seen both.
fn rests_after(instructions: u32) -> Option<bool> {
    let map = tried::Map::open(4, &ENTRIES, None);
    let (mut session, mut other) = (map.session(), map.session());
    let (mut passed, mut begun) = (0, None);
    let answer = by_instruction(
        || session.begin(Op::Replace(2, 21), 1),
        || {
            if passed == instructions {
                begun = Some(other.begin(Op::Replace(2, 22), 1));
            }
            passed += 1;
            begun.is_none()
        },
    );
    let begun = begun?.unwrap();
    // One that rests waits for nobody any more.
    let ended = if begun.is_none() { other.advance(1).unwrap() } else { begun };
    let Some(Answer::Replaced(replaced)) = ended else { panic!("key 2 is there, and nobody has its page: {ended:?}") };
    let (first, last) = if replaced == 21 { (20, 22) } else { (22, 21) };
    assert_eq!((answer, session.get(2)), (Ok(Some(Answer::Replaced(first))), Some(last)), "after {instructions} instructions");
    assert!((replaced == 20 || replaced == 21) && matches!(other.get(2), Some(21 | 22)));
    drop((session, other));
    assert_eq!(map.close()[1], (2, last));
    Some(begun.is_none())
}

#[test]
fn an_operation_rests_while_a_change_that_is_stopped_has_its_page() {
    let rests: Vec<_> = (0..100_000).step_by(11).map_while(rests_after).collect();
    assert!(!rests[0] && !rests[rests.len() - 1] && rests.iter().filter(|rests| **rests).count() > 5);
}

// ---- a renewal that is stopped again and again

// The calls are those that wait for nobody, since a session of the crate waits until the map is renewed.

// The same handle once more, for a thread that alone uses it.
fn lent(handle: &Handle) -> Handle {
    // SAFETY: a handle is a pointer alone, and the caller frees one of the two.
    unsafe { ptr::read(handle) }
}

// A session that looks one key up, and gives another one the next greater pointer each time.
struct Caller {
    map: Handle,
    session: Handle,
    // A session that is told what the first one has seen.
    other: Handle,
    pointer: u64,
    answered: u32,
    refused: u32,
    // The searches that were answered before a refused change.
    searched: u32,
}

impl Caller {
    // Joins the map, in which key 2 has pointer 20.
    fn joining(map: &mut Handle) -> Caller {
        // SAFETY: the map's handle is full.
        let [session, other] = [(); 2].map(|()| filled(|out| unsafe { blink_map_join_alone(map, out) }));
        // SAFETY: as before.
        let map = filled(|out| unsafe { blink_map_share_alone(map, out) });
        Caller { map, session, other, pointer: 20, answered: 0, refused: 0, searched: 0 }
    }

    // Each call answers as if nobody renewed the map, or changes nothing and says that somebody does.
    fn calls(&mut self) {
        let mut answer = RawAnswer::NONE;
        // SAFETY: the handle is full and this caller's own.
        let found = match unsafe { blink_session_get_try(&mut self.session, 1, 1, &mut answer) } {
            DONE => {
                assert_eq!(answer.pointer, 10);
                true
            }
            code => {
                assert_eq!(code, RENEWING);
                self.reads_are_refused();
                false
            }
        };
        // SAFETY: as before.
        match unsafe { blink_session_replace_try(&mut self.session, 2, self.pointer + 1, 1, &mut answer) } {
            DONE => {
                assert_eq!(answer.pointer, self.pointer);
                self.pointer += 1;
                self.answered += 1;
            }
            code => {
                assert_eq!(code, RENEWING);
                self.refused += 1;
                self.searched += u32::from(found);
                self.nobody_else_renews();
            }
        }
    }

    // Where a search is refused, each other read is, and stores nothing.
    fn reads_are_refused(&mut self) {
        let mut entries = [RawEntry::NONE; 4];
        let mut scanned = RawScanned { filled: 5, more: 6, next: 7 };
        let mut taken = RawTaken { taken: 5, there: 6 };
        let into = entries.as_mut_ptr();
        for scan in [blink_session_scan_try, blink_session_scan_back_try] {
            // SAFETY: the handle is full and this caller's own; the array has four places.
            assert_eq!(unsafe { scan(&mut self.session, 0, u64::MAX, 1, into, 4, &mut scanned) }, RENEWING);
        }
        // SAFETY: as before.
        let code = unsafe { blink_session_snapshot_try(&mut self.session, 0, u64::MAX, 1, into, 4, &mut taken) };
        assert_eq!((code, entries.map(<(u64, u64)>::from)), (RENEWING, [(0, 0); 4]));
        assert_eq!((scanned.filled, scanned.more, scanned.next, taken.taken, taken.there), (5, 6, 7, 5, 6));
    }

    // Where a change is refused, so are a hold and another renewal.
    fn nobody_else_renews(&mut self) {
        // SAFETY: the handles are full and this caller's own.
        let codes = unsafe { (blink_session_hold_try(&mut self.session, 1), blink_map_renew(&mut self.map, 1)) };
        assert_eq!(codes, (RENEWING, RENEWING));
    }
}

// Between so many instructions of the renewal, which has some millions, there are two calls.
const BETWEEN: u32 = 1_511;

// Renews a map that so many sessions have joined, two at least. The first one calls in between, and the others do nothing. Returns that one.
fn calls_beside_a_renewal(sessions: u32) -> Caller {
    // SAFETY: handles are filled once, and freed once at the end; each is used as blink.h says, by this thread alone.
    unsafe {
        let mut index = filled(|out| blink_index_new(4, out));
        for (key, pointer) in ENTRIES {
            let mut answer = RawAnswer::NONE;
            assert_eq!(blink_index_insert(&mut index, key, pointer, &mut answer), DONE);
        }
        let mut map = filled(|out| blink_map_open(&mut index, out));
        let mut caller = Caller::joining(&mut map);
        let idle: Vec<_> = (2..sessions).map(|_| filled(|out| blink_map_join_alone(&mut map, out))).collect();
        let mut instructions = 0u32;
        let renewed = by_instruction(
            || blink_map_renew(&mut map, 1),
            || {
                instructions += 1;
                if instructions % BETWEEN == 0 {
                    caller.calls();
                }
                true
            },
        );
        assert_eq!(renewed, DONE);
        assert!(caller.refused > 100, "{} and {} calls beside {instructions} instructions", caller.answered, caller.refused);
        let mut answer = RawAnswer::NONE;
        assert_eq!((blink_session_get_try(&mut caller.session, 2, 1, &mut answer), answer.pointer), (DONE, caller.pointer));
        idle.into_iter().for_each(|session| blink_session_free(session));
        blink_session_free(caller.session.take());
        blink_session_free(caller.other.take());
        blink_map_free(caller.map.take());
        let mut closed = filled(|out| blink_map_close(&mut map, out));
        for (key, expected) in [(1, 10), (2, caller.pointer), (3, 30), (4, 40)] {
            let mut found = 0;
            assert!(blink_index_get(&mut closed, key, &mut found) && found == expected);
        }
        blink_map_free(map);
        blink_index_free(closed);
        blink_index_free(index);
        caller
    }
}

// Where each of the 256 places is taken, the renewal copies by the first session, so that its searches are refused, too.
#[test]
fn calls_beside_a_renewal_that_is_stopped_anywhere_answer_or_are_refused() {
    let Caller { refused, searched, .. } = calls_beside_a_renewal(256);
    assert!(searched < refused / 4, "{searched} of {refused}");
}

// The renewal copies by a session that nobody has, and the other one searches meanwhile, but where the sessions are gathered.
#[test]
fn searches_go_on_beside_a_renewal_that_is_stopped_anywhere() {
    let Caller { refused, searched, .. } = calls_beside_a_renewal(2);
    assert!(searched > refused / 4 * 3, "{searched} of {refused}");
}

// ---- a change that ends inside a renewal

// Whose turn it is, of the thread that changes the map and the one that renews it.
const CHANGE: u32 = 0;
const RENEWAL: u32 = 1;
const REST_OF_CHANGE: u32 = 2;
const REST_OF_RENEWAL: u32 = 3;

// Waits until it is this turn, or a later one.
fn waits_for(turn: &AtomicU32, wanted: u32) {
    while turn.load(Ordering::SeqCst) < wanted {
        thread::yield_now();
    }
}

// Handles of one map, each for one thread at a time.
struct Shared {
    index: Handle,
    map: Handle,
    renewing: Handle,
    changing: Handle,
    looking: Handle,
}

// SAFETY: the handles are lent to one thread each.
unsafe impl Sync for Shared {}

impl Shared {
    // A map of this fan in which keys 1 to 4 have ten times as much for pointers.
    fn open(fan: u8) -> Shared {
        // SAFETY: handles are filled once.
        unsafe {
            let mut index = filled(|out| blink_index_new(fan, out));
            for (key, pointer) in ENTRIES {
                let mut answer = RawAnswer::NONE;
                assert_eq!(blink_index_insert(&mut index, key, pointer, &mut answer), DONE);
            }
            let mut map = filled(|out| blink_map_open(&mut index, out));
            let renewing = filled(|out| blink_map_share_alone(&mut map, out));
            let changing = filled(|out| blink_map_join_alone(&mut map, out));
            let looking = filled(|out| blink_map_join_alone(&mut map, out));
            Shared { index, map, renewing, changing, looking }
        }
    }

    // Closes the map, and returns whether key 5 has pointer 50 in it. All else is there.
    fn close(self) -> bool {
        let Shared { index, mut map, renewing, changing, looking } = self;
        // SAFETY: each handle is freed once, and nobody else has it.
        unsafe {
            blink_session_free(changing);
            blink_session_free(looking);
            blink_map_free(renewing);
            let mut closed = filled(|out| blink_map_close(&mut map, out));
            let mut found = 0;
            for (key, expected) in ENTRIES {
                assert!(blink_index_get(&mut closed, key, &mut found) && found == expected);
            }
            let is_there = blink_index_get(&mut closed, 5, &mut found) && found == 50;
            blink_map_free(map);
            blink_index_free(closed);
            blink_index_free(index);
            is_there
        }
    }
}

// Begins to insert key 5, and renews the map after so many instructions; and the insertion goes on after so many instructions of the renewal.
// The key is there afterwards exactly if the insertion was made. Returns whether it was made while the entries were copied: then a search by
// another session was answered just before, and a change would not have been.
fn inserts_during_a_copy(fan: u8, instructions: u32, of_renewal: u32) -> bool {
    let shared = Shared::open(fan);
    let turn = AtomicU32::new(CHANGE);
    let (mut passed, mut copies) = (0, false);
    let code = thread::scope(|scope| {
        let (theirs, turn) = (&shared, &turn);
        scope.spawn(move || {
            waits_for(turn, RENEWAL);
            let mut renewed = 0;
            let mut map = lent(&theirs.renewing);
            let code = by_instruction(
                // SAFETY: this thread alone has the handle.
                || unsafe { blink_map_renew(&mut map, 1) },
                || {
                    renewed += 1;
                    if renewed == of_renewal {
                        turn.fetch_max(REST_OF_CHANGE, Ordering::SeqCst);
                        waits_for(turn, REST_OF_RENEWAL);
                    }
                    renewed < of_renewal
                },
            );
            turn.fetch_max(REST_OF_CHANGE, Ordering::SeqCst);
            assert!(code == DONE || code == RENEWING);
        });
        let (mut session, mut other) = (lent(&shared.changing), lent(&shared.looking));
        let mut answer = RawAnswer::NONE;
        let code = by_instruction(
            // SAFETY: this thread alone has the handles.
            || unsafe { blink_session_insert_try(&mut session, 5, 50, 1, &mut answer) },
            || {
                passed += 1;
                if passed == instructions {
                    turn.fetch_max(RENEWAL, Ordering::SeqCst);
                    waits_for(turn, REST_OF_CHANGE);
                    // SAFETY: as before.
                    copies = unsafe { is_copied(&mut other) };
                }
                passed < instructions
            },
        );
        turn.fetch_max(REST_OF_RENEWAL, Ordering::SeqCst);
        code
    });
    assert!(passed >= instructions && (code == DONE || code == RENEWING));
    assert_eq!(shared.close(), code == DONE, "after {instructions} and {of_renewal} instructions");
    copies && code == DONE
}

// Whether the map is being renewed, and searches go on: its entries are being copied. The handle is this thread's own.
unsafe fn is_copied(session: &mut Handle) -> bool {
    let mut answer = RawAnswer::NONE;
    if blink_session_get_try(session, 1, 1, &mut answer) != DONE {
        return false;
    }
    assert_eq!(answer.pointer, 10);
    if blink_session_hold_try(session, 1) == RENEWING {
        return true;
    }
    blink_session_let_go(session);
    false
}

// Whether an insertion has its session after so many instructions, so that the map can't be renewed.
fn is_taken_after(fan: u8, instructions: u32) -> bool {
    let mut shared = Shared::open(fan);
    let (mut passed, mut renewed) = (0, DONE);
    let mut answer = RawAnswer::NONE;
    let (changing, renewing) = (&mut shared.changing, &mut shared.renewing);
    let code = by_instruction(
        // SAFETY: this thread alone has the handles.
        || unsafe { blink_session_insert_try(changing, 5, 50, 1, &mut answer) },
        || {
            passed += 1;
            if passed == instructions {
                // SAFETY: as before.
                renewed = unsafe { blink_map_renew(renewing, 1) };
            }
            passed < instructions
        },
    );
    assert_eq!(shared.close(), code == DONE);
    renewed == RENEWING
}

// After how many instructions an insertion takes its session for so many times.
fn takes_after(fan: u8, times: u32) -> u32 {
    let (mut takes, mut was) = (0, false);
    let is_it = |instructions: &u32| {
        let is = is_taken_after(fan, *instructions);
        takes += u32::from(is && !was);
        was = is;
        takes == times
    };
    (1..100_000).find(is_it).expect("a change takes its session")
}

// After how many instructions a renewal copies the entries: a session was gathered, and it answers a search again.
fn copies_after(fan: u8) -> u32 {
    let mut shared = Shared::open(fan);
    let (mut passed, mut gathered, mut copies) = (0, false, None);
    let (renewing, looking) = (&mut shared.renewing, &mut shared.looking);
    let mut answer = RawAnswer::NONE;
    let renewed = by_instruction(
        // SAFETY: this thread alone has the handles.
        || unsafe { blink_map_renew(renewing, 1) },
        || {
            passed += 1;
            if passed % 101 == 0 {
                // SAFETY: as before.
                let found = unsafe { blink_session_get_try(looking, 1, 1, &mut answer) } == DONE;
                copies = (gathered && found).then_some(passed);
                gathered |= !found;
            }
            copies.is_none()
        },
    );
    assert_eq!((renewed, shared.close()), (DONE, false));
    copies.expect("a renewal copies the entries")
}

// A change that has found no renewal under way takes its session only then, and a renewal may be copying the entries by that time. It copies
// them again.
fn is_not_lost(fan: u8, times: u32) {
    let (taken, copies) = (takes_after(fan, times), copies_after(fan));
    let mut made = 0;
    for instructions in taken - 8..=taken {
        for of_renewal in [3_000, copies / 2, copies + 1_000] {
            made += u32::from(inserts_during_a_copy(fan, instructions, of_renewal));
        }
    }
    assert!(made > 0, "with {copies} instructions before the copy");
}

#[test]
fn a_change_that_ends_while_the_entries_are_copied_is_not_lost() {
    is_not_lost(8, 1);
}

// The leaf is full, so the insertion takes its session a second time, to split the leaf.
#[test]
fn a_split_that_ends_while_the_entries_are_copied_is_not_lost() {
    is_not_lost(4, 2);
}
