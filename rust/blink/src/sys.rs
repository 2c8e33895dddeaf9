//! The exports of `libblink`, as `include/blink.h` declares them.

use std::ffi::c_void;
use std::os::raw::c_int;
use std::ptr;

/// What an export returns: 0, or the code of a refusal.
pub(crate) type Code = c_int;

/// A handle: a pointer alone. It is not `Copy`, since a handle is freed once.
#[repr(C)]
pub(crate) struct Handle {
    at: *mut c_void,
}

impl Handle {
    /// An empty handle, for a call to fill.
    pub(crate) const EMPTY: Handle = Handle { at: ptr::null_mut() };

    /// Takes the handle out, and leaves an empty one.
    pub(crate) fn take(&mut self) -> Handle {
        std::mem::replace(self, Handle::EMPTY)
    }

    pub(crate) fn is_empty(&self) -> bool {
        self.at.is_null()
    }
}

#[repr(C)]
#[derive(Clone, Copy)]
pub(crate) struct RawEntry {
    pub(crate) key: u64,
    pub(crate) pointer: u64,
}

impl RawEntry {
    pub(crate) const NONE: RawEntry = RawEntry { key: 0, pointer: 0 };
}

impl From<(u64, u64)> for RawEntry {
    fn from((key, pointer): (u64, u64)) -> RawEntry {
        RawEntry { key, pointer }
    }
}

impl From<RawEntry> for (u64, u64) {
    fn from(entry: RawEntry) -> (u64, u64) {
        (entry.key, entry.pointer)
    }
}

#[repr(C)]
#[derive(Clone, Copy)]
pub(crate) struct RawOperation {
    pub(crate) kind: u64,
    pub(crate) key: u64,
    pub(crate) pointer: u64,
}

#[repr(C)]
#[derive(Clone, Copy)]
pub(crate) struct RawAnswer {
    pub(crate) kind: u64,
    pub(crate) pointer: u64,
}

impl RawAnswer {
    pub(crate) const NONE: RawAnswer = RawAnswer { kind: 0, pointer: 0 };
}

/// How far a scan came; `more` is 0 at the end of its range, and 1 before.
#[repr(C)]
#[derive(Clone, Copy)]
pub(crate) struct RawScanned {
    pub(crate) filled: u64,
    pub(crate) more: u64,
    pub(crate) next: u64,
}

/// What became of a snapshot; `taken` is 1 if it was taken, and then it has `there` entries.
#[repr(C)]
pub(crate) struct RawTaken {
    pub(crate) taken: u64,
    pub(crate) there: u64,
}

/// A snapshot by a session.
pub(crate) type SnapshotCall = unsafe extern "C" fn(*mut Handle, u64, u64, u32, *mut RawEntry, usize, *mut RawTaken) -> Code;

/// A scan by a session, in either direction.
pub(crate) type ScanCall =
    unsafe extern "C" fn(*mut Handle, u64, u64, *mut RawEntry, usize, *mut RawScanned) -> Code;

/// The code of entries whose keys don't ascend.
pub(crate) const NOT_ASCENDING: Code = 42;

/// The code of an index that has another reader.
pub(crate) const SHARED: Code = 43;

pub(crate) const BATCH_LIMIT: usize = 8192;

/// The code of a change for which the session has room once its rows have come back.
pub(crate) const ROWS_BUSY: Code = 107;

/// The code of a map that is being renewed, or can't be.
pub(crate) const RENEWING: Code = 109;

/// The code of an operation that is under way.
pub(crate) const PENDING: Code = 90;

extern "C" {
    pub(crate) fn blink_index_new(fan: u8, out: *mut Handle) -> Code;
    pub(crate) fn blink_index_from_entries(fan: u8, entries: *const RawEntry, count: usize, out: *mut Handle) -> Code;
    pub(crate) fn blink_index_from_sorted(
        fan: u8,
        entries: *const RawEntry,
        count: usize,
        out: *mut Handle,
        bad_place: *mut usize,
    ) -> Code;
    pub(crate) fn blink_index_compact(index: *mut Handle) -> Code;
    pub(crate) fn blink_index_copy(index: *mut Handle, out: *mut Handle) -> Code;
    pub(crate) fn blink_index_insert(index: *mut Handle, key: u64, pointer: u64, answer: *mut RawAnswer) -> Code;
    pub(crate) fn blink_index_remove(index: *mut Handle, key: u64, answer: *mut RawAnswer);
    pub(crate) fn blink_index_replace(index: *mut Handle, key: u64, pointer: u64, answer: *mut RawAnswer);
    pub(crate) fn blink_index_compare_exchange(
        index: *mut Handle,
        key: u64,
        expected: u64,
        pointer: u64,
        answer: *mut RawAnswer,
    );
    pub(crate) fn blink_index_compare_remove(index: *mut Handle, key: u64, expected: u64, answer: *mut RawAnswer);
    pub(crate) fn blink_index_first(index: *mut Handle, entry: *mut RawEntry) -> bool;
    pub(crate) fn blink_index_last(index: *mut Handle, entry: *mut RawEntry) -> bool;
    pub(crate) fn blink_index_next(index: *mut Handle, key: u64, entry: *mut RawEntry) -> bool;
    pub(crate) fn blink_index_prev(index: *mut Handle, key: u64, entry: *mut RawEntry) -> bool;
    pub(crate) fn blink_index_at_least(index: *mut Handle, key: u64, entry: *mut RawEntry) -> bool;
    pub(crate) fn blink_index_at_most(index: *mut Handle, key: u64, entry: *mut RawEntry) -> bool;
    pub(crate) fn blink_index_apply(
        index: *mut Handle,
        operations: *const RawOperation,
        count: usize,
        answers: *mut RawAnswer,
        places: usize,
        carried_out: *mut usize,
    ) -> Code;
    pub(crate) fn blink_index_run(
        index: *mut Handle,
        operations: *const RawOperation,
        count: usize,
        answers: *mut RawAnswer,
        places: usize,
    ) -> Code;
    pub(crate) fn blink_index_get(index: *mut Handle, key: u64, pointer: *mut u64) -> bool;
    pub(crate) fn blink_index_get_many(
        index: *mut Handle,
        keys: *const u64,
        count: usize,
        answers: *mut RawAnswer,
        places: usize,
    ) -> Code;
    pub(crate) fn blink_index_scan(
        index: *mut Handle,
        lo: u64,
        hi: u64,
        entries: *mut RawEntry,
        places: usize,
        scanned: *mut RawScanned,
    ) -> Code;
    pub(crate) fn blink_index_scan_back(
        index: *mut Handle,
        lo: u64,
        hi: u64,
        entries: *mut RawEntry,
        places: usize,
        scanned: *mut RawScanned,
    ) -> Code;
    pub(crate) fn blink_index_count(index: *mut Handle, lo: u64, hi: u64) -> usize;
    pub(crate) fn blink_index_len(index: *mut Handle) -> usize;
    pub(crate) fn blink_index_pages(index: *mut Handle) -> u32;
    pub(crate) fn blink_index_fan(index: *mut Handle) -> u8;
    pub(crate) fn blink_index_dump(index: *mut Handle, text: *mut u8, places: usize, bytes: *mut usize) -> Code;
    pub(crate) fn blink_index_free(index: Handle);

    pub(crate) fn blink_index_share(index: *mut Handle, out: *mut Handle) -> Code;
    pub(crate) fn blink_reader_join(reader: *mut Handle, out: *mut Handle) -> Code;
    pub(crate) fn blink_reader_unshare(reader: *mut Handle, out: *mut Handle) -> Code;
    pub(crate) fn blink_reader_get(reader: *mut Handle, key: u64, pointer: *mut u64) -> bool;
    pub(crate) fn blink_reader_get_many(
        reader: *mut Handle,
        keys: *const u64,
        count: usize,
        answers: *mut RawAnswer,
        places: usize,
    ) -> Code;
    pub(crate) fn blink_reader_scan(
        reader: *mut Handle,
        lo: u64,
        hi: u64,
        entries: *mut RawEntry,
        places: usize,
        scanned: *mut RawScanned,
    ) -> Code;
    pub(crate) fn blink_reader_scan_back(
        reader: *mut Handle,
        lo: u64,
        hi: u64,
        entries: *mut RawEntry,
        places: usize,
        scanned: *mut RawScanned,
    ) -> Code;
    pub(crate) fn blink_reader_count(reader: *mut Handle, lo: u64, hi: u64) -> usize;
    pub(crate) fn blink_reader_first(reader: *mut Handle, entry: *mut RawEntry) -> bool;
    pub(crate) fn blink_reader_last(reader: *mut Handle, entry: *mut RawEntry) -> bool;
    pub(crate) fn blink_reader_next(reader: *mut Handle, key: u64, entry: *mut RawEntry) -> bool;
    pub(crate) fn blink_reader_prev(reader: *mut Handle, key: u64, entry: *mut RawEntry) -> bool;
    pub(crate) fn blink_reader_at_least(reader: *mut Handle, key: u64, entry: *mut RawEntry) -> bool;
    pub(crate) fn blink_reader_at_most(reader: *mut Handle, key: u64, entry: *mut RawEntry) -> bool;
    pub(crate) fn blink_reader_len(reader: *mut Handle) -> usize;
    pub(crate) fn blink_reader_pages(reader: *mut Handle) -> u32;
    pub(crate) fn blink_reader_fan(reader: *mut Handle) -> u8;
    pub(crate) fn blink_reader_dump(reader: *mut Handle, text: *mut u8, places: usize, bytes: *mut usize) -> Code;
    pub(crate) fn blink_reader_free(reader: Handle);



    pub(crate) fn blink_map_open(index: *mut Handle, out: *mut Handle) -> Code;
    pub(crate) fn blink_map_open_with_room(
        index: *mut Handle,
        pages: u32,
        rows: u32,
        sessions: u32,
        fixed: bool,
        out: *mut Handle,
    ) -> Code;
    pub(crate) fn blink_map_share_alone(map: *mut Handle, out: *mut Handle) -> Code;
    pub(crate) fn blink_map_join_alone(map: *mut Handle, out: *mut Handle) -> Code;
    pub(crate) fn blink_map_room_alone(map: *mut Handle, looks: u32, pages: *mut u64, rows: *mut u64) -> Code;
    pub(crate) fn blink_map_renew(map: *mut Handle, looks: u32) -> Code;
    pub(crate) fn blink_map_close(map: *mut Handle, out: *mut Handle) -> Code;
    pub(crate) fn blink_map_free(map: Handle);

    pub(crate) fn blink_session_get_try(session: *mut Handle, key: u64, tries: u32, answer: *mut RawAnswer) -> Code;
    pub(crate) fn blink_session_scan_try(
        session: *mut Handle,
        lo: u64,
        hi: u64,
        tries: u32,
        entries: *mut RawEntry,
        places: usize,
        scanned: *mut RawScanned,
    ) -> Code;
    pub(crate) fn blink_session_scan_back_try(
        session: *mut Handle,
        lo: u64,
        hi: u64,
        tries: u32,
        entries: *mut RawEntry,
        places: usize,
        scanned: *mut RawScanned,
    ) -> Code;
    pub(crate) fn blink_session_snapshot_try(
        session: *mut Handle,
        lo: u64,
        hi: u64,
        tries: u32,
        entries: *mut RawEntry,
        places: usize,
        taken: *mut RawTaken,
    ) -> Code;
    pub(crate) fn blink_session_insert_try(
        session: *mut Handle,
        key: u64,
        pointer: u64,
        tries: u32,
        answer: *mut RawAnswer,
    ) -> Code;
    pub(crate) fn blink_session_remove_try(session: *mut Handle, key: u64, tries: u32, answer: *mut RawAnswer) -> Code;
    pub(crate) fn blink_session_replace_try(
        session: *mut Handle,
        key: u64,
        pointer: u64,
        tries: u32,
        answer: *mut RawAnswer,
    ) -> Code;
    pub(crate) fn blink_session_compare_exchange_try(
        session: *mut Handle,
        key: u64,
        expected: u64,
        pointer: u64,
        tries: u32,
        answer: *mut RawAnswer,
    ) -> Code;
    pub(crate) fn blink_session_compare_remove_try(
        session: *mut Handle,
        key: u64,
        expected: u64,
        tries: u32,
        answer: *mut RawAnswer,
    ) -> Code;
    pub(crate) fn blink_session_put_try(
        session: *mut Handle,
        key: u64,
        pointer: u64,
        tries: u32,
        answer: *mut RawAnswer,
    ) -> Code;
    pub(crate) fn blink_session_advance(session: *mut Handle, tries: u32, answer: *mut RawAnswer) -> Code;
    pub(crate) fn blink_session_hold_try(session: *mut Handle, tries: u32) -> Code;
    pub(crate) fn blink_session_let_go(session: *mut Handle);
    pub(crate) fn blink_session_reserve_try(session: *mut Handle, tries: u32, reserve: *mut crate::Reserve) -> Code;
    pub(crate) fn blink_session_free(session: Handle);
}
