//! The map.

use crate::range::Places;
use crate::session::Session;
use crate::sys::{self, Handle};
use crate::waiting::TRIES;
use crate::{Error, Index};
use std::fmt;
use std::sync::{Mutex, MutexGuard, PoisonError};

/// What a map has beside its entries, for changes and sessions to come. [`Room::for_insertions`] and [`Map::with_capacity`] work it out; the
/// numbers are for a program that knows its keys.
#[derive(Clone, Copy, Debug, PartialEq, Eq, Hash)]
pub struct Room {
    /// Page numbers. A split of a page takes one. An insertion has to have 22 when it begins, and uses none mostly. A session with
    /// fewer draws others from the pool, up to 64, and keeps those that it had left, which it uses first. So no number is lost: when all
    /// is full, each session has at most 21 left, and the pool as many. Splits by one session take 19,979 of 20,000 numbers, 979 of 1,000,
    /// and 179 of 200; by eight that draw by turns 19,834 and 836 (measured).
    pub pages: u32,
    /// Rows, of 576 bytes. Most changes are appended to the row of their page, and take none; every write of a whole page takes one. An
    /// insertion has to have 44 when it begins; any other change has to have one. The row that a write replaces
    /// comes back to its session, once each call that was in progress has ended. Half of the rows are the sessions', in equal parts, of 44
    /// at least and 4,096 at most; a new page keeps one of the others. So two rows for each page number, and a few hundred for each session, are enough for
    /// all changes as long as the page numbers last. While a thread is held up inside a call no row comes back, and a
    /// change that is short of rows waits.
    pub rows: u32,
    /// The sessions that are to change the map, 1 to 256: the rows are parted among so many. A [fixed](Map::open_fixed) map has places for no
    /// more; any other has 256.
    pub sessions: u32,
}

impl Room {
    /// A room over this index that is enough for so many insertions of absent keys, whatever their keys and their order, by so many sessions,
    /// and for any number of other changes. Each leaf of the index may be full and split once; after that a leaf splits again once half of a
    /// page has been inserted into it. Random keys take about two thirds of these page numbers. Beside them, each session gets 86, since it may
    /// have drawn so many and not used them. With their rows they take 0.3 MB, whether the session is there or not.
    ///
    /// [`Map::open_with_room`] refuses a room that is too large, with [`Error::TooLarge`].
    ///
    /// ```
    /// use blink::{Index, Map, Room};
    ///
    /// let index = Index::new(32)?;
    /// let map = Map::open_fixed(&index, Room::for_insertions(&index, 1_000, 1))?;
    /// let mut session = map.session()?;
    /// for key in 0..1_000 {
    ///     session.insert(key, key)?;
    /// }
    /// # Ok::<(), blink::Error>(())
    /// ```
    pub fn for_insertions(index: &Index, insertions: u32, sessions: u32) -> Room {
        // A split leaves at least so many entries in each half, and so many insertions fill a half again.
        let half = (u64::from(index.fan()) + 1) / 2;
        let leaves = u64::from(index.pages()) + u64::from(insertions) / half;
        // The levels above, a new root for each level, and what sessions have drawn and not used.
        let pages = leaves * half / (half - 1) + 21 + 86 * u64::from(sessions);
        let rows = 2 * pages + 300 * u64::from(sessions);
        let bounded = |number: u64| u32::try_from(number).unwrap_or(u32::MAX);
        Room { pages: bounded(pages), rows: bounded(rows), sessions }
    }
}

/// What a map's pool has left of its room.
#[derive(Clone, Copy, Debug, PartialEq, Eq, Hash)]
pub struct Left {
    /// Page numbers.
    pub pages: u64,
    /// Rows.
    pub rows: u64,
}

/// The entries of an index, which threads read and change together at any key without a global lock, each by a [`Session`].
///
/// There is one list of changes of all keys. Each call of a session answers as on the entries after a part of the list, which goes on
/// from all that the session had seen; its own change follows there at once. A session never un-sees a change that it has seen.
///
/// Nobody has to tell a map how much room it is to have. Where a change finds none, it renews the map, which copies the entries into
/// another one with more room. Searches go on meanwhile, and changes wait. A renewal takes memory for both maps. A map that was opened with a
/// [fixed room](Map::open_fixed) is never renewed, so no call waits for a copy.
///
/// A [`Session`] has a share of its map. So it may stand in a struct or in a static, or in a thread that outlives the function.
///
/// ```
/// use blink::Map;
///
/// let map = Map::new(32)?;
/// let threads: Vec<_> = (0..4)
///     .map(|thread| {
///         let mut session = map.session().unwrap();
///         std::thread::spawn(move || (0..1_000).for_each(|key| _ = session.insert(4 * key + thread, key).unwrap()))
///     })
///     .collect();
/// threads.into_iter().for_each(|thread| thread.join().unwrap());
/// let index = map.close()?;
/// assert_eq!((index.len(), index.get(4_000 - 1)), (4_000, Some(999)));
/// # Ok::<(), blink::Error>(())
/// ```
///
/// # A map that is full
///
/// Only a map whose room is [fixed](Map::open_fixed) is ever full. Once its page numbers are used up, insertions of absent keys are refused
/// with [`Error::Full`]. Look-ups, removals and puts of present keys go on, and removals bring no page number back. For more keys, drop the
/// sessions, close the map, and open a larger one over the index.
///
/// ```
/// use blink::{Error, Index, Map, Room};
///
/// let mut index = Index::new(32)?;
/// let mut next = 0;
/// while next < 50_000 {
///     // room for as many keys again as there are, and for some at least
///     let more = (index.len() as u32).max(1_000);
///     let map = Map::open_fixed(&index, Room::for_insertions(&index, more, 1))?;
///     let mut session = map.session()?;
///     while next < 50_000 {
///         match session.put(next, 10 * next) {
///             Ok(_) => next += 1,
///             Err(Error::Full) => break,
///             Err(error) => return Err(error),
///         }
///     }
///     drop(session);
///     index = map.close()?;
/// }
/// assert_eq!((index.len(), index.get(49_999)), (50_000, Some(499_990)));
/// # Ok::<(), Error>(())
/// ```
pub struct Map {
    // One thread at a time uses the handle. Sessions have their own.
    handle: Mutex<Handle>,
}

// SAFETY: `MapHandle` of crates/blink_c is proved to be `Send`.
unsafe impl Send for Map {}

// SAFETY: a thread uses the handle under the lock alone, which hands it from one to the next.
unsafe impl Sync for Map {}

impl Map {
    /// Opens an empty map, whose pages have at most `fan` entries, with places for 256 sessions. `Map::default()` has fan 32.
    ///
    /// It is refused with [`Error::BadFan`] for a fan that isn't from 4 to 32, and with [`Error::OutOfMemory`].
    ///
    /// ```
    /// use blink::{Error, Map};
    ///
    /// assert_eq!(Map::new(3).unwrap_err(), Error::BadFan);
    /// let map = Map::new(4)?;
    /// assert_eq!(map.session()?.put(5, 50)?, None);
    /// # Ok::<(), Error>(())
    /// ```
    pub fn new(fan: u8) -> Result<Map, Error> {
        Map::open(&Index::new(fan)?)
    }

    /// Opens a map over the entries of an index, which stays as it is, with places for 256 sessions. While it opens, it takes twice the memory
    /// that it has then.
    ///
    /// It is refused with [`Error::TooLarge`], if the index leaves too few of the 1,048,575 page numbers, and with [`Error::OutOfMemory`].
    ///
    /// ```
    /// use blink::{Index, Map};
    ///
    /// let map = Map::open(&Index::from_entries(8, [(1, 10), (3, 30)])?)?;
    /// assert_eq!(map.session()?.get(3), Some(30));
    /// # Ok::<(), blink::Error>(())
    /// ```
    pub fn open(index: &Index) -> Result<Map, Error> {
        // SAFETY: the index's handle is full, and this thread alone uses it; `out` is empty.
        Map::opened(|out| unsafe { sys::blink_map_open(index.handle(), out) })
    }

    /// Opens an empty map, whose pages have 32 entries at most, with [a room](Room::for_insertions) for so many insertions of absent keys by
    /// so many sessions. They are made before the map is found full; then it grows. It is refused as [`Map::open_with_room`] is.
    ///
    /// ```
    /// use blink::Map;
    ///
    /// let map = Map::with_capacity(1_000, 1)?;
    /// let mut session = map.session()?;
    /// for key in 0..10_000 {
    ///     session.put(key, 10 * key)?;
    /// }
    /// assert_eq!(session.count(..), 10_000);
    /// # Ok::<(), blink::Error>(())
    /// ```
    pub fn with_capacity(insertions: u32, sessions: u32) -> Result<Map, Error> {
        let empty = Index::new(32)?;
        Map::open_with_room(&empty, Room::for_insertions(&empty, insertions, sessions))
    }

    /// Opens a map over the entries of an index as [`Map::open`] does, with this room for the first changes. Where a change finds too
    /// little of it left, the map is renewed, and has the room then that any map has of its entries.
    ///
    /// It is refused with [`Error::BadSessions`], if the room is for no session, or for more than 256; then with [`Error::TooLarge`], if the
    /// room's page numbers and the pages of the index are more than 1,048,575; and with [`Error::OutOfMemory`].
    ///
    /// ```
    /// use blink::{Error, Index, Map, Room};
    ///
    /// let index = Index::from_entries(8, [(1, 10), (3, 30), (5, 50)])?;
    /// let map = Map::open_with_room(&index, Room::for_insertions(&index, 1_000, 2))?;
    /// assert_eq!(map.session()?.get(3), Some(30));
    /// let room = Room { pages: 22, rows: 44, sessions: 0 };
    /// assert_eq!(Map::open_with_room(&index, room).unwrap_err(), Error::BadSessions);
    /// assert_eq!(Map::open_with_room(&index, Room { pages: 1 << 20, sessions: 1, ..room }).unwrap_err(), Error::TooLarge);
    /// # Ok::<(), Error>(())
    /// ```
    pub fn open_with_room(index: &Index, room: Room) -> Result<Map, Error> {
        Map::open_in(index, room, false)
    }

    /// Opens a map as [`Map::open_with_room`] does, whose room stays fixed, with places for so many sessions as the room is for. It is never
    /// renewed, so no call waits for a copy. A change that finds too little room left is refused with [`Error::Full`], an insertion only if its
    /// key is absent; [what a full map takes](Map#a-map-that-is-full) goes on.
    ///
    /// ```
    /// use blink::{Error, Index, Map, Room};
    ///
    /// let index = Index::new(32)?;
    /// let map = Map::open_fixed(&index, Room { pages: 100, rows: 500, sessions: 1 })?;
    /// let mut session = map.session()?;
    /// let mut count = 0;
    /// while session.insert(count, 0) != Err(Error::Full) {
    ///     count += 1;
    /// }
    /// assert_eq!(map.renew(1), Err(Error::Full));
    /// assert_eq!(session.put(7, 70)?, Some(0));
    /// drop(session);
    /// assert_eq!(map.close()?.len() as u64, count);
    /// # Ok::<(), Error>(())
    /// ```
    pub fn open_fixed(index: &Index, room: Room) -> Result<Map, Error> {
        Map::open_in(index, room, true)
    }

    fn open_in(index: &Index, room: Room, fixed: bool) -> Result<Map, Error> {
        let Room { pages, rows, sessions } = room;
        // SAFETY: as in `open`.
        Map::opened(|out| unsafe { sys::blink_map_open_with_room(index.handle(), pages, rows, sessions, fixed, out) })
    }

    // Opens a map by this call.
    fn opened(open: impl FnOnce(*mut Handle) -> sys::Code) -> Result<Map, Error> {
        let mut handle = Handle::EMPTY;
        Error::check(open(&mut handle))?;
        Ok(Map { handle: Mutex::new(handle) })
    }

    /// Joins the map. The session has a place until it is dropped. It is refused with [`Error::NoSession`], if each place is taken, and with
    /// [`Error::OutOfMemory`].
    ///
    /// ```
    /// use blink::{Error, Index, Map, Room};
    ///
    /// let map = Map::open_fixed(&Index::new(32)?, Room { pages: 0, rows: 0, sessions: 1 })?;
    /// let session = map.session()?;
    /// assert_eq!(map.session().unwrap_err(), Error::NoSession);
    /// drop(session);
    /// assert!(map.session().is_ok());
    /// # Ok::<(), Error>(())
    /// ```
    pub fn session(&self) -> Result<Session, Error> {
        let (mut handle, places) = (Handle::EMPTY, Places::new()?);
        // SAFETY: the map's handle is full, and locked; `handle` is empty.
        Error::check(unsafe { sys::blink_map_join_alone(&mut *self.lock(), &mut handle) })?;
        Ok(Session { handle, places })
    }

    /// Returns what the map's pool has left, for a look: sessions may draw at any time, and the map may be renewed. What they have drawn and
    /// haven't used isn't counted. It is refused with [`Error::Renewing`], if every session is held or in a call, or the map is being renewed.
    ///
    /// ```
    /// use blink::{Index, Left, Map, Room};
    ///
    /// let map = Map::open_fixed(&Index::new(32)?, Room { pages: 200, rows: 400, sessions: 1 })?;
    /// assert_eq!(map.room()?, Left { pages: 200, rows: 400 });
    /// # Ok::<(), blink::Error>(())
    /// ```
    pub fn room(&self) -> Result<Left, Error> {
        let mut left = Left { pages: 0, rows: 0 };
        // SAFETY: the map's handle is full, and locked.
        Error::check(unsafe { sys::blink_map_room_alone(&mut *self.lock(), TRIES, &mut left.pages, &mut left.rows) })?;
        Ok(left)
    }

    /// Renews the map in good time, which spares other threads the renewal, and not the pause of their changes. It looks so many times for each
    /// session that is held or in a call. It copies the entries by a session that nobody has, or, where each place is taken, by one of those,
    /// whose searches wait meanwhile.
    ///
    /// It is refused with [`Error::Renewing`], if one was at each look, or if another thread was renewing the map; with
    /// [`Error::TooLarge`]; and with [`Error::OutOfMemory`]. Then the map goes on with the room that it has left. If the map's room is fixed, it
    /// is refused with [`Error::Full`], and with nothing else but [`Error::OutOfMemory`].
    ///
    /// ```
    /// use blink::{Error, Map};
    ///
    /// let map = Map::new(32)?;
    /// let mut session = map.session()?;
    /// session.insert(5, 50)?;
    /// assert_eq!(map.renew(1), Ok(()));
    /// let held = session.hold();
    /// assert_eq!(map.renew(1), Err(Error::Renewing));
    /// drop(held);
    /// assert_eq!(session.get(5), Some(50));
    /// # Ok::<(), Error>(())
    /// ```
    pub fn renew(&self, looks: u32) -> Result<(), Error> {
        // By a handle of its own, so that threads join the map meanwhile.
        let mut own = Handle::EMPTY;
        // SAFETY: the map's handle is full, and locked; `own` is empty.
        Error::check(unsafe { sys::blink_map_share_alone(&mut *self.lock(), &mut own) })?;
        // SAFETY: `own` is full, and freed once.
        let code = unsafe {
            let code = sys::blink_map_renew(&mut own, looks);
            sys::blink_map_free(own);
            code
        };
        Error::check(code)
    }

    /// Closes the map. The index that it returns has the entries that the map was opened with, after all changes, in as few pages as they
    /// need. It is refused with [`Error::Missing`], if a session hasn't been dropped; with [`Error::OutOfMemory`]; and with
    /// [`Error::TooLarge`], if the entries need more pages than there are numbers. Each gives the map back with all its entries, and it can be closed again; no session
    /// may join any more after the last two. With `?` the map that comes back is dropped, with its entries. A program that may need them
    /// matches on [`Unclosed`].
    ///
    /// ```
    /// use blink::{Error, Map};
    ///
    /// let map = Map::new(32)?;
    /// let mut session = map.session()?;
    /// session.put(5, 50)?;
    /// let unclosed = map.close().unwrap_err();
    /// assert_eq!(unclosed.error, Error::Missing);
    /// drop(session);
    /// assert_eq!(unclosed.map.close()?.get(5), Some(50));
    /// # Ok::<(), Error>(())
    /// ```
    pub fn close(self) -> Result<Index, Unclosed> {
        let index = Index::filled(|out| {
            // SAFETY: the handle is full, and locked; `out` is empty.
            unsafe { sys::blink_map_close(&mut *self.lock(), out) }
        });
        index.map_err(|error| Unclosed { error, map: self })
    }

    // Nothing panics while it has the handle.
    fn lock(&self) -> MutexGuard<'_, Handle> {
        self.handle.lock().unwrap_or_else(PoisonError::into_inner)
    }
}

impl Drop for Map {
    fn drop(&mut self) {
        let handle = self.lock().take();
        if !handle.is_empty() {
            // SAFETY: the handle is full, and is taken out, so it is freed once.
            unsafe { sys::blink_map_free(handle) }
        }
    }
}

impl fmt::Debug for Map {
    fn fmt(&self, f: &mut fmt::Formatter<'_>) -> fmt::Result {
        f.debug_struct("Map").finish_non_exhaustive()
    }
}

/// A map that couldn't be closed, and why.
#[derive(Debug)]
pub struct Unclosed {
    /// Why it couldn't be closed.
    pub error: Error,
    /// The map, which can be closed again.
    pub map: Map,
}

impl From<Unclosed> for Error {
    fn from(unclosed: Unclosed) -> Error {
        unclosed.error
    }
}

impl fmt::Display for Unclosed {
    fn fmt(&self, f: &mut fmt::Formatter<'_>) -> fmt::Result {
        self.error.fmt(f)
    }
}

impl std::error::Error for Unclosed {}
