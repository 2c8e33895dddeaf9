//! Reading an index: what an index and a reader do alike.

use crate::memory::resize;
use crate::range::{first_and_last, part_behind, take_out, FIRST_PART};
use crate::sys::{self, Code, Handle, RawAnswer, RawEntry, ScanCall};
use crate::{Answer, Error};
use std::cell::UnsafeCell;
use std::fmt;
use std::marker::PhantomData;
use std::ops::RangeBounds;

/// The calls that read an index by a handle, and the call that frees the handle.
pub(crate) struct Calls {
    find: unsafe extern "C" fn(*mut Handle, u64, *mut u64) -> bool,
    find_many: unsafe extern "C" fn(*mut Handle, *const u64, usize, *mut RawAnswer, usize) -> Code,
    scan: ScanCall,
    scan_back: ScanCall,
    count: unsafe extern "C" fn(*mut Handle, u64, u64) -> usize,
    first: unsafe extern "C" fn(*mut Handle, *mut RawEntry) -> bool,
    last: unsafe extern "C" fn(*mut Handle, *mut RawEntry) -> bool,
    next: NearCall,
    prev: NearCall,
    at_least: NearCall,
    at_most: NearCall,
    len: unsafe extern "C" fn(*mut Handle) -> usize,
    pages: unsafe extern "C" fn(*mut Handle) -> u32,
    fan: unsafe extern "C" fn(*mut Handle) -> u8,
    dump: unsafe extern "C" fn(*mut Handle, *mut u8, usize, *mut usize) -> Code,
    free: unsafe extern "C" fn(Handle),
}

type NearCall = unsafe extern "C" fn(*mut Handle, u64, *mut RawEntry) -> bool;

/// What a handle is of.
pub(crate) trait Kind {
    const CALLS: Calls;
}

pub(crate) struct OfIndex;

impl Kind for OfIndex {
    const CALLS: Calls = Calls {
        find: sys::blink_index_get,
        find_many: sys::blink_index_get_many,
        scan: sys::blink_index_scan,
        scan_back: sys::blink_index_scan_back,
        count: sys::blink_index_count,
        first: sys::blink_index_first,
        last: sys::blink_index_last,
        next: sys::blink_index_next,
        prev: sys::blink_index_prev,
        at_least: sys::blink_index_at_least,
        at_most: sys::blink_index_at_most,
        len: sys::blink_index_len,
        pages: sys::blink_index_pages,
        fan: sys::blink_index_fan,
        dump: sys::blink_index_dump,
        free: sys::blink_index_free,
    };
}

pub(crate) struct OfReader;

impl Kind for OfReader {
    const CALLS: Calls = Calls {
        find: sys::blink_reader_get,
        find_many: sys::blink_reader_get_many,
        scan: sys::blink_reader_scan,
        scan_back: sys::blink_reader_scan_back,
        count: sys::blink_reader_count,
        first: sys::blink_reader_first,
        last: sys::blink_reader_last,
        next: sys::blink_reader_next,
        prev: sys::blink_reader_prev,
        at_least: sys::blink_reader_at_least,
        at_most: sys::blink_reader_at_most,
        len: sys::blink_reader_len,
        pages: sys::blink_reader_pages,
        fan: sys::blink_reader_fan,
        dump: sys::blink_reader_dump,
        free: sys::blink_reader_free,
    };
}

/// A handle by which an index is read. It isn't `Sync`, by its cell, so one thread at a time uses it.
pub(crate) struct Read<K: Kind> {
    // A call takes the handle by a pointer for writing, also where it changes nothing; src/index_handle.rt of crates/blink_c has why.
    handle: UnsafeCell<Handle>,
    kind: PhantomData<K>,
}

impl<K: Kind> Read<K> {
    /// The handle is full, and of this kind. Once a call has left it empty, it may only be dropped.
    pub(crate) fn of(handle: Handle) -> Read<K> {
        Read { handle: UnsafeCell::new(handle), kind: PhantomData }
    }

    pub(crate) fn handle(&self) -> *mut Handle {
        self.handle.get()
    }

    pub(crate) fn get(&self, key: u64) -> Option<u64> {
        let mut pointer = 0;
        // SAFETY: the handle is full, and this thread alone uses it, since a `Read` isn't `Sync`.
        unsafe { (K::CALLS.find)(self.handle(), key, &mut pointer) }.then_some(pointer)
    }

    pub(crate) fn get_many(&self, keys: &[u64]) -> Vec<Option<u64>> {
        let mut given = vec![RawAnswer::NONE; keys.len()];
        // SAFETY: as in `get`; both arrays have that many elements.
        let code = unsafe { (K::CALLS.find_many)(self.handle(), keys.as_ptr(), keys.len(), given.as_mut_ptr(), given.len()) };
        // The arrays are equally long, and nothing else is refused.
        assert_eq!(code, 0);
        given.into_iter().map(|raw| Answer::of(raw).pointer()).collect()
    }

    #[track_caller]
    pub(crate) fn range(&self, range: impl RangeBounds<u64>) -> Range<'_> {
        Range {
            handle: &self.handle,
            scan: K::CALLS.scan,
            scan_back: K::CALLS.scan_back,
            range: first_and_last(&range),
            front: Parts::new(),
            back: None,
        }
    }

    #[track_caller]
    pub(crate) fn count(&self, range: impl RangeBounds<u64>) -> usize {
        let Some((lo, hi)) = first_and_last(&range) else { return 0 };
        // SAFETY: as in `get`.
        unsafe { (K::CALLS.count)(self.handle(), lo, hi) }
    }

    pub(crate) fn first(&self) -> Option<(u64, u64)> {
        // SAFETY: as in `get`.
        found(|entry| unsafe { (K::CALLS.first)(self.handle(), entry) })
    }

    pub(crate) fn last(&self) -> Option<(u64, u64)> {
        // SAFETY: as in `get`.
        found(|entry| unsafe { (K::CALLS.last)(self.handle(), entry) })
    }

    pub(crate) fn next(&self, key: u64) -> Option<(u64, u64)> {
        self.near(K::CALLS.next, key)
    }

    pub(crate) fn prev(&self, key: u64) -> Option<(u64, u64)> {
        self.near(K::CALLS.prev, key)
    }

    pub(crate) fn at_least(&self, key: u64) -> Option<(u64, u64)> {
        self.near(K::CALLS.at_least, key)
    }

    pub(crate) fn at_most(&self, key: u64) -> Option<(u64, u64)> {
        self.near(K::CALLS.at_most, key)
    }

    // The entry that a call finds on one side of a key; the call is of this kind.
    fn near(&self, call: NearCall, key: u64) -> Option<(u64, u64)> {
        // SAFETY: as in `get`.
        found(|entry| unsafe { call(self.handle(), key, entry) })
    }

    pub(crate) fn len(&self) -> usize {
        // SAFETY: as in `get`.
        unsafe { (K::CALLS.len)(self.handle()) }
    }

    pub(crate) fn pages(&self) -> u32 {
        // SAFETY: as in `get`.
        unsafe { (K::CALLS.pages)(self.handle()) }
    }

    pub(crate) fn fan(&self) -> u8 {
        // SAFETY: as in `get`.
        unsafe { (K::CALLS.fan)(self.handle()) }
    }

    pub(crate) fn dump(&self) -> Result<String, Error> {
        let mut text = Vec::new();
        loop {
            let mut bytes = 0;
            // SAFETY: as in `get`; the array has that many elements.
            Error::check(unsafe { (K::CALLS.dump)(self.handle(), text.as_mut_ptr(), text.len(), &mut bytes) })?;
            if bytes <= text.len() {
                return Ok(String::from_utf8(text).expect("a dump is ASCII"));
            }
            resize(&mut text, bytes, 0)?;
        }
    }
}

impl<K: Kind> Drop for Read<K> {
    fn drop(&mut self) {
        let handle = self.handle.get_mut().take();
        if !handle.is_empty() {
            // SAFETY: the handle is full, and is taken out, so it is freed once.
            unsafe { (K::CALLS.free)(handle) }
        }
    }
}

// The entry that a call gives, if it gives one.
fn found(call: impl FnOnce(*mut RawEntry) -> bool) -> Option<(u64, u64)> {
    let mut entry = RawEntry::NONE;
    call(&mut entry).then(|| entry.into())
}

/// The entries of an index whose keys are in a range, in ascending order, and from its other end in descending order. From each end it
/// takes them out of the index in parts: 16 first, which takes no memory, then twice as many each time, up to 256, as long as memory for
/// them is given.
#[derive(Clone)]
#[must_use = "a range is read as it is iterated over"]
pub struct Range<'a> {
    // It is full, and of the kind that the calls take.
    handle: &'a UnsafeCell<Handle>,
    scan: ScanCall,
    scan_back: ScanCall,
    // The keys that are still to be asked for, between those of the two parts.
    range: Option<(u64, u64)>,
    front: Parts,
    // It is there once the range has been read from its end.
    back: Option<Parts>,
}

// The entries that an index has taken out for a range, and that the range hasn't given yet. The first part stands in an array, so that a
// short range asks for no memory.
#[derive(Clone)]
struct Parts {
    first: [RawEntry; FIRST_PART],
    later: Vec<RawEntry>,
    // How many entries have been asked for last; 0 before the first part.
    part: usize,
    // Where the entries of the last part stand that are still to be given.
    next: usize,
    stop: usize,
}

impl Parts {
    #[inline]
    fn new() -> Parts {
        Parts { first: [RawEntry::NONE; FIRST_PART], later: Vec::new(), part: 0, next: 0, stop: 0 }
    }

    // The places for another part. Where memory for more is refused, the part is as short as the first.
    fn places(&mut self) -> &mut [RawEntry] {
        let part = part_behind(self.part);
        if self.part == 0 || resize(&mut self.later, part, RawEntry::NONE).is_err() {
            self.part = FIRST_PART;
            return &mut self.first;
        }
        self.part = part;
        &mut self.later
    }

    // Takes another part out, and returns the key from which the next one goes on, if there is more. What the handle is `take_out` says.
    unsafe fn refill(&mut self, handle: *mut Handle, call: ScanCall, keys: (u64, u64)) -> Option<u64> {
        // SAFETY: as the caller says.
        let (filled, next) = unsafe { take_out(handle, call, keys, self.places()) };
        self.next = 0;
        self.stop = filled;
        next
    }

    // How many entries are still to be given.
    fn len(&self) -> usize {
        self.stop - self.next
    }

    #[inline]
    fn is_empty(&self) -> bool {
        self.next == self.stop
    }

    // Takes the next entry, if there is one.
    #[inline]
    fn take(&mut self) -> Option<(u64, u64)> {
        if self.is_empty() {
            return None;
        }
        self.next += 1;
        self.at(self.next - 1)
    }

    // Takes the last entry of the part, if there is one.
    fn take_last(&mut self) -> Option<(u64, u64)> {
        if self.is_empty() {
            return None;
        }
        self.stop -= 1;
        self.at(self.stop)
    }

    #[inline]
    fn at(&self, place: usize) -> Option<(u64, u64)> {
        let entry = if self.part == FIRST_PART { self.first.get(place) } else { self.later.get(place) };
        entry.copied().map(<(u64, u64)>::from)
    }
}

impl Range<'_> {
    // Takes the next entries out of the index.
    fn refill(&mut self) {
        let Some((lo, hi)) = self.range else { return };
        // SAFETY: the handle is full, and of the call's kind; this thread alone uses it, since a `Range` isn't `Send`.
        let next = unsafe { self.front.refill(self.handle.get(), self.scan, (lo, hi)) };
        self.range = next.map(|next| (next, hi));
    }

    // Takes the last entries out of the index, the greatest first.
    fn refill_back(&mut self) {
        let Some((lo, hi)) = self.range else { return };
        let back = self.back.get_or_insert_with(Parts::new);
        // SAFETY: as in `refill`.
        let next = unsafe { back.refill(self.handle.get(), self.scan_back, (lo, hi)) };
        self.range = next.map(|next| (lo, next));
    }
}

impl fmt::Debug for Range<'_> {
    fn fmt(&self, f: &mut fmt::Formatter<'_>) -> fmt::Result {
        f.debug_struct("Range").field("range", &self.range).finish_non_exhaustive()
    }
}

impl Iterator for Range<'_> {
    type Item = (u64, u64);

    // Called once an entry, from another crate.
    #[inline]
    fn next(&mut self) -> Option<(u64, u64)> {
        if self.front.is_empty() {
            self.refill();
        }
        // What the range's end has taken out and not given comes after all others.
        self.front.take().or_else(|| self.back.as_mut()?.take_last())
    }

    // At least what was taken out of the index is still to come, and no more once nothing is left to be asked for.
    fn size_hint(&self) -> (usize, Option<usize>) {
        let taken = self.front.len() + self.back.as_ref().map_or(0, Parts::len);
        (taken, self.range.is_none().then_some(taken))
    }
}

impl DoubleEndedIterator for Range<'_> {
    #[inline]
    fn next_back(&mut self) -> Option<(u64, u64)> {
        if self.back.as_ref().map_or(true, Parts::is_empty) {
            self.refill_back();
        }
        self.back.as_mut().and_then(Parts::take).or_else(|| self.front.take_last())
    }
}

impl std::iter::FusedIterator for Range<'_> {}
