//! A map by the exports that wait for nobody, for tests of what goes by steps: the crate's sessions take each operation to its end. Whoever uses
//! this names `blink::Reserve` in its root, which the declarations of the exports take from there.
#![allow(dead_code)]

#[path = "../../src/sys.rs"]
pub mod sys;

use blink::{Answer, Op, Room};
use std::sync::{Mutex, MutexGuard};
use sys::*;

pub(crate) const DONE: Code = 0;

/// What a call that fills an empty handle gives.
pub(crate) fn filled(fill: impl FnOnce(*mut Handle) -> Code) -> Handle {
    let mut handle = Handle::EMPTY;
    assert_eq!(fill(&mut handle), DONE);
    handle
}

// As the crate reads an answer.
fn answer_of(raw: RawAnswer) -> Answer {
    match raw.kind {
        0 => Answer::Absent,
        1 => Answer::Found(raw.pointer),
        2 => Answer::Inserted,
        3 => Answer::Exists(raw.pointer),
        4 => Answer::Removed(raw.pointer),
        5 => Answer::Replaced(raw.pointer),
        kind => panic!("an answer of kind {kind}"),
    }
}

pub struct Map {
    // One thread at a time uses the handle.
    handle: Mutex<Handle>,
}

// SAFETY: the crate's map says why.
unsafe impl Send for Map {}

// SAFETY: a thread uses the handle under the lock alone.
unsafe impl Sync for Map {}

impl Map {
    /// Opens a map over entries whose keys ascend, with a room that is fixed, or with none.
    pub fn open(fan: u8, entries: &[(u64, u64)], fixed: Option<Room>) -> Map {
        let entries: Vec<_> = entries.iter().copied().map(RawEntry::from).collect();
        let mut bad_place = 0;
        // SAFETY: handles are filled once; the index is freed once, and the map has all of it.
        let handle = unsafe {
            let mut index = filled(|out| blink_index_from_sorted(fan, entries.as_ptr(), entries.len(), out, &mut bad_place));
            let map = filled(|out| match fixed {
                Some(Room { pages, rows, sessions }) => blink_map_open_with_room(&mut index, pages, rows, sessions, true, out),
                None => blink_map_open(&mut index, out),
            });
            blink_index_free(index);
            map
        };
        Map { handle: Mutex::new(handle) }
    }

    pub fn session(&self) -> Session {
        // SAFETY: the map's handle is full, and locked.
        Session { handle: filled(|out| unsafe { blink_map_join_alone(&mut *self.lock(), out) }) }
    }

    /// What the pool has left: page numbers, and rows.
    pub fn room(&self) -> (u64, u64) {
        let (mut pages, mut rows) = (0, 0);
        // SAFETY: the map's handle is full, and locked.
        assert_eq!(unsafe { blink_map_room_alone(&mut *self.lock(), 1, &mut pages, &mut rows) }, DONE);
        (pages, rows)
    }

    /// Renews the map, and returns whether it could.
    pub fn renew(&self, looks: u32) -> bool {
        // SAFETY: the map's handle is full, and locked.
        let mut own = filled(|out| unsafe { blink_map_share_alone(&mut *self.lock(), out) });
        // SAFETY: `own` is full, and freed once.
        let code = unsafe {
            let code = blink_map_renew(&mut own, looks);
            blink_map_free(own);
            code
        };
        assert!(code == DONE || code == RENEWING, "{code}");
        code == DONE
    }

    /// Closes the map, whose sessions are dropped, and returns its entries; or the code of a refusal.
    pub fn try_close(&self) -> Result<Vec<(u64, u64)>, Code> {
        let mut closed = Handle::EMPTY;
        // SAFETY: the map's handle is full, and locked; `closed` is empty, and freed once it is full.
        unsafe {
            match blink_map_close(&mut *self.lock(), &mut closed) {
                DONE => {}
                code => return Err(code),
            }
            let mut entries = vec![RawEntry::NONE; blink_index_len(&mut closed)];
            let mut scanned = RawScanned { filled: 0, more: 0, next: 0 };
            let code = blink_index_scan(&mut closed, 0, u64::MAX, entries.as_mut_ptr(), entries.len(), &mut scanned);
            assert_eq!((code, scanned.more), (DONE, 0));
            blink_index_free(closed);
            Ok(entries.into_iter().map(<(u64, u64)>::from).collect())
        }
    }

    /// The same, where it isn't refused.
    pub fn close(self) -> Vec<(u64, u64)> {
        self.try_close().unwrap()
    }

    fn lock(&self) -> MutexGuard<'_, Handle> {
        self.handle.lock().unwrap()
    }
}

impl Drop for Map {
    fn drop(&mut self) {
        // SAFETY: the handle is full, and is taken out, so it is freed once.
        unsafe { blink_map_free(self.lock().take()) }
    }
}

pub struct Session {
    handle: Handle,
}

// SAFETY: the crate's session says why.
unsafe impl Send for Session {}

impl Session {
    /// The pointer of a key. The map isn't being renewed.
    pub fn get(&mut self, key: u64) -> Option<u64> {
        self.begin(Op::Get(key), 1).unwrap().unwrap().pointer()
    }

    /// Begins an operation: its answer, or none, if it rests; or the code of a refusal, and then nothing has changed.
    pub fn begin(&mut self, op: Op, tries: u32) -> Result<Option<Answer>, Code> {
        self.steps(|handle, answer| {
            // SAFETY: the handle is full and this call's own.
            unsafe {
                match op {
                    Op::Get(key) => blink_session_get_try(handle, key, tries, answer),
                    Op::Insert(key, pointer) => blink_session_insert_try(handle, key, pointer, tries, answer),
                    Op::Remove(key) => blink_session_remove_try(handle, key, tries, answer),
                    Op::Replace(key, pointer) => blink_session_replace_try(handle, key, pointer, tries, answer),
                    other => panic!("{other:?}"),
                }
            }
        })
    }

    /// Begins to put an entry, likewise. It may also be refused when it goes on.
    pub fn begin_put(&mut self, key: u64, pointer: u64, tries: u32) -> Result<Option<Answer>, Code> {
        // SAFETY: as in `begin`.
        self.steps(|handle, answer| unsafe { blink_session_put_try(handle, key, pointer, tries, answer) })
    }

    /// Goes on with the operation that rests.
    pub fn advance(&mut self, tries: u32) -> Result<Option<Answer>, Code> {
        // SAFETY: as in `begin`.
        self.steps(|handle, answer| unsafe { blink_session_advance(handle, tries, answer) })
    }

    /// Goes on with what has begun until it has ended. It is no put, so it isn't refused any more.
    pub fn end(&mut self, mut begun: Option<Answer>) -> Answer {
        loop {
            match begun {
                Some(answer) => return answer,
                None => begun = self.advance(1).unwrap(),
            }
        }
    }

    fn steps(&mut self, call: impl FnOnce(*mut Handle, *mut RawAnswer) -> Code) -> Result<Option<Answer>, Code> {
        let mut answer = RawAnswer::NONE;
        match call(&mut self.handle, &mut answer) {
            DONE => Ok(Some(answer_of(answer))),
            PENDING => Ok(None),
            code => Err(code),
        }
    }
}

impl Drop for Session {
    fn drop(&mut self) {
        // SAFETY: the handle is full, and is taken out, so it is freed once.
        unsafe { blink_session_free(self.handle.take()) }
    }
}
