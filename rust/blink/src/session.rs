//! The session of a map.

use crate::range::{end_of, snapshot, LiveRange, Places};
use crate::sys::{self, Code, Handle, RawAnswer, RawEntry, RawScanned, RawTaken};
use crate::waiting::{ended, renewed, TRIES};
use crate::{Answer, Error};
use std::fmt;
use std::ops::{Bound, Deref, DerefMut, RangeBounds};

/// What a session has of its map's page numbers and rows. They are its own until it is dropped; then the next session at its
/// place has them.
#[repr(C)]
#[derive(Clone, Copy, Debug, PartialEq, Eq, Hash)]
pub struct Reserve {
    /// Page numbers that it has drawn and not used.
    pub pages: u64,
    /// Rows that it has drawn and not written.
    pub unwritten: u64,
    /// Rows that have come back, and may be written again.
    pub free: u64,
    /// Rows that changes of its own have replaced, and that don't wait yet.
    pub taken_out: u64,
    /// Rows that wait until no call reads them. While a thread is held up inside a call, they stay here.
    pub waiting: u64,
}

/// The right of one thread to read and change a map, of which it has a share. A session that is dropped leaves the map, and its place can be
/// taken again. So a session may stand in a struct, in a static, or in a thread that outlives the function:
///
/// ```
/// use blink::{Map, Session};
///
/// struct Orders {
///     by_number: Session,
/// }
///
/// let map = Map::default();
/// let mut orders = Orders { by_number: map.session()? };
/// let worker = std::thread::spawn(move || orders.by_number.put(7, 70));
/// assert_eq!(worker.join().unwrap(), Ok(None));
/// assert_eq!(map.close()?.get(7), Some(70));
/// # Ok::<(), blink::Error>(())
/// ```
///
/// An operation that changes the map waits for a page that another session has just then, and while the map is renewed, and yields its thread
/// meanwhile. A search waits only while a renewal gathers the sessions, or if [`Map::renew`](crate::Map::renew) has taken this one for its copy.
/// A change that finds the map full waits while another session is [held](Session::hold), so that the map can't be renewed.
pub struct Session {
    pub(crate) handle: Handle,
    pub(crate) places: Places,
}

// SAFETY: `SessionHandle` of crates/blink_c is proved to be `Send`.
unsafe impl Send for Session {}

impl Session {
    /// Looks a key up, after the changes that the session has seen by the end of the call.
    ///
    /// ```
    /// use blink::{Index, Map};
    ///
    /// let map = Map::open(&Index::from_entries(8, [(1, 10), (2, 20)])?)?;
    /// let mut session = map.session()?;
    /// assert_eq!((session.get(1), session.get(3)), (Some(10), None));
    /// # Ok::<(), blink::Error>(())
    /// ```
    pub fn get(&mut self, key: u64) -> Option<u64> {
        let mut answer = RawAnswer::NONE;
        // SAFETY: the handle is full and borrowed for writing.
        let code = renewed(|| unsafe { sys::blink_session_get_try(&mut self.handle, key, TRIES, &mut answer) });
        // No operation is under way between two calls; nothing else is refused.
        assert_eq!(code, 0);
        Answer::of(answer).pointer()
    }

    /// Whether a key is there, as [`Session::get`] looks it up.
    pub fn contains(&mut self, key: u64) -> bool {
        self.get(key).is_some()
    }

    /// Returns the entry of the least key, while other sessions change the map: what a scan reports first. Emptied leaves stay in the tree,
    /// and the call walks those before the entry.
    ///
    /// ```
    /// use blink::{Index, Map};
    ///
    /// let map = Map::open(&Index::from_entries(8, [(1, 10), (3, 30)])?)?;
    /// let mut session = map.session()?;
    /// assert_eq!(session.first(), Some((1, 10)));
    /// assert_eq!(session.next(1), Some((3, 30)));
    /// assert_eq!(session.next(3), None);
    /// assert_eq!(session.count(..3), 1);
    /// # Ok::<(), blink::Error>(())
    /// ```
    pub fn first(&mut self) -> Option<(u64, u64)> {
        self.least(..)
    }

    /// Returns the entry of the least key above this one, in the same way.
    pub fn next(&mut self, key: u64) -> Option<(u64, u64)> {
        self.least((Bound::Excluded(key), Bound::Unbounded))
    }

    /// Returns the entry of the least key from this one on, in the same way.
    pub fn at_least(&mut self, key: u64) -> Option<(u64, u64)> {
        self.least(key..)
    }

    /// Returns the entry of the greatest key, while other sessions change the map: what a backward scan reports first. Emptied leaves stay in
    /// the tree, and the call goes down to each of those behind the entry.
    ///
    /// ```
    /// use blink::{Index, Map};
    ///
    /// let map = Map::open(&Index::from_entries(8, [(1, 10), (3, 30)])?)?;
    /// let mut session = map.session()?;
    /// assert_eq!(session.last(), Some((3, 30)));
    /// assert_eq!(session.prev(3), Some((1, 10)));
    /// assert_eq!(session.prev(1), None);
    /// assert_eq!(session.at_most(2), Some((1, 10)));
    /// assert_eq!(session.at_least(2), Some((3, 30)));
    /// # Ok::<(), blink::Error>(())
    /// ```
    pub fn last(&mut self) -> Option<(u64, u64)> {
        self.greatest(..)
    }

    /// Returns the entry of the greatest key below this one, in the same way.
    pub fn prev(&mut self, key: u64) -> Option<(u64, u64)> {
        self.greatest(..key)
    }

    /// Returns the entry of the greatest key up to this one, in the same way.
    pub fn at_most(&mut self, key: u64) -> Option<(u64, u64)> {
        self.greatest(..=key)
    }

    /// Counts the entries whose keys are in the range, by a scan of them: [`LiveRange`] says what it sees of a key that changes meanwhile.
    #[track_caller]
    pub fn count(&mut self, range: impl RangeBounds<u64>) -> usize {
        self.range(range).count()
    }

    /// Takes the entry of the least key away, and returns it; none, if a scan found none. Of two sessions that take entries at once, each
    /// gets its own. A lesser key that another session inserts meanwhile may be passed over.
    ///
    /// It is refused as [`Session::remove`] is, and takes nothing away then.
    ///
    /// ```
    /// use blink::{Index, Map};
    ///
    /// let map = Map::open(&Index::from_entries(8, [(1, 10), (3, 30)])?)?;
    /// let mut session = map.session()?;
    /// assert_eq!(session.pop_first()?, Some((1, 10)));
    /// assert_eq!(session.pop_first()?, Some((3, 30)));
    /// assert_eq!(session.pop_first()?, None);
    /// # Ok::<(), blink::Error>(())
    /// ```
    pub fn pop_first(&mut self) -> Result<Option<(u64, u64)>, Error> {
        self.popped(Session::first)
    }

    /// Takes the entry of the greatest key away, in the same way: a greater key that another session inserts meanwhile may be passed over.
    ///
    /// ```
    /// use blink::{Index, Map};
    ///
    /// let map = Map::open(&Index::from_entries(8, [(1, 10), (3, 30)])?)?;
    /// let mut session = map.session()?;
    /// assert_eq!(session.pop_last()?, Some((3, 30)));
    /// assert_eq!(session.pop_last()?, Some((1, 10)));
    /// assert_eq!(session.pop_last()?, None);
    /// # Ok::<(), blink::Error>(())
    /// ```
    pub fn pop_last(&mut self) -> Result<Option<(u64, u64)>, Error> {
        self.popped(Session::last)
    }

    /// Takes away each entry that a scan of the range reports and `keeps` doesn't want, in ascending order, and returns how many it took.
    /// One that another session changes between the report and the removal stays.
    ///
    /// It is refused as [`Session::remove`] is. What it has taken away by then stays away.
    ///
    /// ```
    /// use blink::{Index, Map};
    ///
    /// let map = Map::open(&Index::from_entries(8, [(1, 10), (2, 20), (3, 30)])?)?;
    /// let mut session = map.session()?;
    /// assert_eq!(session.retain(.., |key, _| key % 2 == 1)?, 1);
    /// assert_eq!(session.range(..).map(|(key, _)| key).collect::<Vec<_>>(), [1, 3]);
    /// # Ok::<(), blink::Error>(())
    /// ```
    pub fn retain(&mut self, range: impl RangeBounds<u64>, mut keeps: impl FnMut(u64, u64) -> bool) -> Result<usize, Error> {
        let (mut from, to) = (range.start_bound().cloned(), range.end_bound().cloned());
        let mut taken = 0;
        loop {
            // The scan borrows the session, so some entries are reported before the first of them is taken away.
            const PART: usize = 64;
            let mut part = [(0, 0); PART];
            let reported = part.iter_mut().zip(self.range((from, to)).limit(PART)).map(|(place, entry)| *place = entry).count();
            for &(key, pointer) in &part[..reported] {
                if !keeps(key, pointer) && self.compare_remove(key, pointer)?.changed() {
                    taken += 1;
                }
                from = Bound::Excluded(key);
            }
            if reported < part.len() {
                return Ok(taken);
            }
        }
    }

    /// Returns the entries whose keys are in the range, in ascending order, while other sessions change the map. A key that is there
    /// throughout is among them, and one that isn't there throughout isn't; [`LiveRange`] says more. As in a `BTreeMap`, a range whose
    /// start is above its end panics.
    ///
    /// ```
    /// use blink::{Index, Map};
    ///
    /// let map = Map::open(&Index::from_entries(8, [(1, 10), (3, 30), (5, 50)])?)?;
    /// let mut session = map.session()?;
    /// session.insert(4, 40)?;
    /// assert_eq!(session.range(2..5).collect::<Vec<_>>(), [(3, 30), (4, 40)]);
    /// assert_eq!(session.range(2..5).rev().collect::<Vec<_>>(), [(4, 40), (3, 30)]);
    /// # Ok::<(), blink::Error>(())
    /// ```
    ///
    /// The range borrows its session. A loop that changes the map has a second session for that. What the loop inserts ahead of it the range may report too, so a loop that always inserts ahead needn't end: who moves keys
    /// takes a [`Session::snapshot`] first, or collects. [`Session::retain`] and a loop by [`Session::next`] need one session alone:
    ///
    /// ```
    /// use blink::{Index, Map};
    ///
    /// let map = Map::open(&Index::from_entries(8, [(1, 10), (3, 30), (5, 50)])?)?;
    /// let (mut reads, mut changes) = (map.session()?, map.session()?);
    /// for (key, pointer) in reads.range(2..) {
    ///     changes.replace(key, pointer + 1)?;
    /// }
    /// assert_eq!(reads.range(..).collect::<Vec<_>>(), [(1, 10), (3, 31), (5, 51)]);
    /// # Ok::<(), blink::Error>(())
    /// ```
    #[track_caller]
    pub fn range(&mut self, range: impl RangeBounds<u64>) -> LiveRange<'_> {
        LiveRange::new(&mut self.handle, &mut self.places, scan, scan_back, &range)
    }

    /// Returns the entries whose keys are in the range, in ascending order, as all of them were at one time; `None`, if some leaf of
    /// the range was changed at each of so many tries. Then try again, or fall back on [`Session::range`], which always gives entries, but not
    /// those of one time. It waits for nobody.
    ///
    /// It is refused with an error only if memory is.
    ///
    /// ```
    /// use blink::{Index, Map};
    ///
    /// let map = Map::open(&Index::from_entries(8, [(1, 10), (3, 30), (5, 50)])?)?;
    /// let mut session = map.session()?;
    /// session.insert(4, 40)?;
    /// assert_eq!(session.snapshot(2..5, 10)?, Some(vec![(3, 30), (4, 40)]));
    /// # Ok::<(), blink::Error>(())
    /// ```
    #[track_caller]
    pub fn snapshot(&mut self, range: impl RangeBounds<u64>, tries: u32) -> Result<Option<Vec<(u64, u64)>>, Error> {
        snapshot(&mut self.handle, take, &range, tries)
    }

    /// Maps a key to a pointer, unless the key is there: [`Answer::Inserted`] or [`Answer::Exists`].
    ///
    /// It is refused, as each change is, with [`Error::OutOfMemory`], if memory was refused when the map was to be renewed; with
    /// [`Error::TooLarge`], if the entries leave too few of the 1,048,575 page numbers; and with [`Error::Full`], if the map's room is
    /// [fixed](crate::Map::open_fixed), and the session has too little of it in all and the map's pool too; an insertion only if its key is
    /// absent. Then the map is as it was, and [what a full map takes](crate::Map#a-map-that-is-full) goes on. The call waits where the session has
    /// the room once its rows have come back.
    pub fn insert(&mut self, key: u64, pointer: u64) -> Result<Answer, Error> {
        // SAFETY: as in `get`.
        self.ended(|handle, tries, answer| unsafe { sys::blink_session_insert_try(handle, key, pointer, tries, answer) })
    }

    /// Takes a key away, if it is there: [`Answer::Removed`] or [`Answer::Absent`].
    pub fn remove(&mut self, key: u64) -> Result<Answer, Error> {
        // SAFETY: as in `get`.
        self.ended(|handle, tries, answer| unsafe { sys::blink_session_remove_try(handle, key, tries, answer) })
    }

    /// Maps a key to a pointer, if the key is there: [`Answer::Replaced`] or [`Answer::Absent`].
    pub fn replace(&mut self, key: u64, pointer: u64) -> Result<Answer, Error> {
        // SAFETY: as in `get`.
        self.ended(|handle, tries, answer| unsafe { sys::blink_session_replace_try(handle, key, pointer, tries, answer) })
    }

    /// Maps a key to `new`, if it maps to `expected`: [`Answer::Replaced`] with `expected`. Else the key stays as it was:
    /// [`Answer::Exists`] with what it maps to, or [`Answer::Absent`]. No other session changes the key between the test and the change.
    ///
    /// It is refused as [`Session::replace`] is.
    ///
    /// ```
    /// use blink::{Answer, Index, Map};
    ///
    /// let map = Map::open(&Index::from_entries(8, [(1, 10)])?)?;
    /// let mut session = map.session()?;
    /// assert_eq!(session.compare_exchange(1, 10, 11)?, Answer::Replaced(10));
    /// assert_eq!(session.compare_exchange(1, 10, 12)?, Answer::Exists(11));
    /// assert_eq!(session.compare_exchange(2, 10, 12)?, Answer::Absent);
    /// # Ok::<(), blink::Error>(())
    /// ```
    pub fn compare_exchange(&mut self, key: u64, expected: u64, new: u64) -> Result<Answer, Error> {
        // SAFETY: as in `get`.
        self.ended(|handle, tries, answer| unsafe { sys::blink_session_compare_exchange_try(handle, key, expected, new, tries, answer) })
    }

    /// Takes a key away, if it maps to `expected`: [`Answer::Removed`] with `expected`. Else the key stays as it was:
    /// [`Answer::Exists`] with what it maps to, or [`Answer::Absent`]. No other session changes the key between the test and the removal.
    ///
    /// It is refused as [`Session::remove`] is.
    ///
    /// ```
    /// use blink::{Answer, Index, Map};
    ///
    /// let map = Map::open(&Index::from_entries(8, [(1, 10)])?)?;
    /// let mut session = map.session()?;
    /// assert_eq!(session.compare_remove(1, 11)?, Answer::Exists(10));
    /// assert_eq!(session.compare_remove(1, 10)?, Answer::Removed(10));
    /// assert_eq!(session.compare_remove(1, 10)?, Answer::Absent);
    /// # Ok::<(), blink::Error>(())
    /// ```
    pub fn compare_remove(&mut self, key: u64, expected: u64) -> Result<Answer, Error> {
        // SAFETY: as in `get`.
        self.ended(|handle, tries, answer| unsafe { sys::blink_session_compare_remove_try(handle, key, expected, tries, answer) })
    }

    /// Maps a key to what `next` makes of the pointer that it maps to, or of none, in one step: when the change is made, the key maps
    /// to what `next` was given. Where it maps to something else by then, `next` is called again, with that. Where `next` returns none,
    /// the key is taken away. It returns what `next` was given last. Where `next` returns what it was given, nothing changes; so `next`
    /// also ends the call if it has been called often enough.
    ///
    /// It is refused as [`Session::insert`] is.
    ///
    /// ```
    /// use blink::Map;
    ///
    /// let map = Map::new(32)?;
    /// let mut session = map.session()?;
    /// let one_more = |count: Option<u64>| Some(count.unwrap_or(0) + 1);
    /// let one_less = |count: Option<u64>| count.filter(|count| *count > 1).map(|count| count - 1);
    /// assert_eq!(session.update(5, one_more)?, None);
    /// assert_eq!(session.update(5, one_more)?, Some(1));
    /// assert_eq!(session.update(5, one_less)?, Some(2));
    /// assert_eq!(session.update(5, one_less)?, Some(1));
    /// assert_eq!(session.get(5), None);
    /// # Ok::<(), blink::Error>(())
    /// ```
    pub fn update(&mut self, key: u64, mut next: impl FnMut(Option<u64>) -> Option<u64>) -> Result<Option<u64>, Error> {
        let mut present = self.get(key);
        loop {
            let tried = match (present, next(present)) {
                (None, None) => return Ok(None),
                (Some(seen), Some(new)) if new == seen => return Ok(present),
                (Some(seen), Some(new)) => self.compare_exchange(key, seen, new)?,
                (Some(seen), None) => self.compare_remove(key, seen)?,
                (None, Some(new)) => self.insert(key, new)?,
            };
            if tried.changed() {
                return Ok(present);
            }
            present = tried.pointer();
        }
    }

    /// Maps a key to a pointer, whether the key is there or not, and returns the pointer that was there. A key that is there needs one
    /// row, which comes back, so such a call is never refused for want of page numbers. It is refused as [`Session::insert`] is.
    ///
    /// ```
    /// use blink::Map;
    ///
    /// let map = Map::new(32)?;
    /// let mut session = map.session()?;
    /// assert_eq!(session.put(5, 50)?, None);
    /// assert_eq!(session.put(5, 51)?, Some(50));
    /// # Ok::<(), blink::Error>(())
    /// ```
    pub fn put(&mut self, key: u64, pointer: u64) -> Result<Option<u64>, Error> {
        // SAFETY: as in `get`.
        let put = self.ended(|handle, tries, answer| unsafe { sys::blink_session_put_try(handle, key, pointer, tries, answer) })?;
        Ok(put.pointer())
    }

    /// Holds the session: the calls on it wait for no renewal, until the [`Holding`] is dropped. Meanwhile the map is neither renewed nor
    /// closed, so hold it for a few calls, and not while the thread waits for another one. It waits while the map is renewed. A change that
    /// finds the map full lets the session go for the renewal, and holds it again.
    ///
    /// ```
    /// use blink::Map;
    ///
    /// let map = Map::new(32)?;
    /// let mut session = map.session()?;
    /// let mut held = session.hold();
    /// for key in 0..100 {
    ///     held.put(key, key)?;
    /// }
    /// assert_eq!(held.count(..), 100);
    /// # Ok::<(), blink::Error>(())
    /// ```
    pub fn hold(&mut self) -> Holding<'_> {
        // SAFETY: as in `get`.
        let code = renewed(|| unsafe { sys::blink_session_hold_try(&mut self.handle, TRIES) });
        // No operation is under way between two calls; nothing else is refused.
        assert_eq!(code, 0);
        Holding { session: self }
    }

    /// Returns what the session has of page numbers and rows in the map that it is in just now, for a look. [`Map::room`](crate::Map::room) tells
    /// what the pool has left. Where the room is [fixed](crate::Map::open_fixed), that shows how near its end is.
    ///
    /// ```
    /// use blink::{Index, Map, Reserve, Room};
    ///
    /// let map = Map::open_fixed(&Index::new(32)?, Room { pages: 200, rows: 400, sessions: 1 })?;
    /// let mut session = map.session()?;
    /// session.insert(5, 50)?;
    /// // it has drawn 64 page numbers and half of the rows, and the insertion was appended to the leaf's row
    /// assert_eq!(session.reserve(), Reserve { pages: 64, unwritten: 200, free: 0, taken_out: 0, waiting: 0 });
    /// # Ok::<(), blink::Error>(())
    /// ```
    pub fn reserve(&mut self) -> Reserve {
        let mut reserve = Reserve { pages: 0, unwritten: 0, free: 0, taken_out: 0, waiting: 0 };
        // SAFETY: as in `get`.
        let code = renewed(|| unsafe { sys::blink_session_reserve_try(&mut self.handle, TRIES, &mut reserve) });
        // No operation is under way between two calls; nothing else is refused.
        assert_eq!(code, 0);
        reserve
    }

    // The entry of the least key in the range, if there is one.
    fn least(&mut self, range: impl RangeBounds<u64>) -> Option<(u64, u64)> {
        // SAFETY: the handle is full, a session's, and borrowed for writing; no operation is under way.
        unsafe { end_of(&mut self.handle, scan, &range) }
    }

    // The same of the greatest.
    fn greatest(&mut self, range: impl RangeBounds<u64>) -> Option<(u64, u64)> {
        // SAFETY: as in `least`.
        unsafe { end_of(&mut self.handle, scan_back, &range) }
    }

    // Begins an operation, and takes its steps to the end.
    fn ended(&mut self, begin: impl FnMut(*mut Handle, u32, *mut RawAnswer) -> Code) -> Result<Answer, Error> {
        ended(&mut self.handle, begin)
    }

    // Takes the entry away that `first` names, one after another until no other session was faster.
    fn popped(&mut self, first: impl Fn(&mut Session) -> Option<(u64, u64)>) -> Result<Option<(u64, u64)>, Error> {
        while let Some((key, pointer)) = first(self) {
            if self.compare_remove(key, pointer)?.changed() {
                return Ok(Some((key, pointer)));
            }
        }
        Ok(None)
    }
}

impl Drop for Session {
    fn drop(&mut self) {
        let handle = self.handle.take();
        if !handle.is_empty() {
            // SAFETY: the handle is full, and is taken out, so it is freed once.
            unsafe { sys::blink_session_free(handle) }
        }
    }
}

impl fmt::Debug for Session {
    fn fmt(&self, f: &mut fmt::Formatter<'_>) -> fmt::Result {
        f.debug_struct("Session").finish_non_exhaustive()
    }
}

/// A session that is held: [`Session::hold`]. Dropping it lets the session go.
#[derive(Debug)]
pub struct Holding<'a> {
    session: &'a mut Session,
}

impl Deref for Holding<'_> {
    type Target = Session;

    fn deref(&self) -> &Session {
        self.session
    }
}

impl DerefMut for Holding<'_> {
    fn deref_mut(&mut self) -> &mut Session {
        self.session
    }
}

impl Drop for Holding<'_> {
    fn drop(&mut self) {
        // SAFETY: the session's handle is full and borrowed for writing.
        unsafe { sys::blink_session_let_go(&mut self.session.handle) }
    }
}

// The scans and the snapshot of a session, which wait while the map is renewed. The handle is full and this thread's alone; the array has so
// many places.

unsafe extern "C" fn scan(handle: *mut Handle, lo: u64, hi: u64, entries: *mut RawEntry, places: usize, scanned: *mut RawScanned) -> Code {
    // SAFETY: as the caller says.
    renewed(|| unsafe { sys::blink_session_scan_try(handle, lo, hi, TRIES, entries, places, scanned) })
}

unsafe extern "C" fn scan_back(
    handle: *mut Handle,
    lo: u64,
    hi: u64,
    entries: *mut RawEntry,
    places: usize,
    scanned: *mut RawScanned,
) -> Code {
    // SAFETY: as the caller says.
    renewed(|| unsafe { sys::blink_session_scan_back_try(handle, lo, hi, TRIES, entries, places, scanned) })
}

unsafe extern "C" fn take(
    handle: *mut Handle,
    lo: u64,
    hi: u64,
    tries: u32,
    entries: *mut RawEntry,
    places: usize,
    taken: *mut RawTaken,
) -> Code {
    // SAFETY: as the caller says.
    renewed(|| unsafe { sys::blink_session_snapshot_try(handle, lo, hi, tries, entries, places, taken) })
}
