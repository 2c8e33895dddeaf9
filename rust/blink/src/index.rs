//! The index.

use crate::memory::{collected, resize, with_room};
use crate::read::{OfIndex, Read};
use crate::sys::{self, Code, Handle, RawAnswer, RawEntry};
use crate::{Answer, Error, Op, Range, Reader};
use std::ops::RangeBounds;

/// A map from 64-bit keys to 64-bit record pointers, in a proved B-link tree.
///
/// ```
/// use blink::{Answer, Index, Op};
///
/// let mut index = Index::new(32)?;
/// let answers = index.run(&[Op::Insert(5, 50), Op::Insert(7, 70), Op::Get(5), Op::Remove(6)])?;
/// assert_eq!(answers, [Answer::Inserted, Answer::Inserted, Answer::Found(50), Answer::Absent]);
/// assert_eq!(index.get(7), Some(70));
/// assert_eq!(index.iter().map(|(key, _)| key).collect::<Vec<_>>(), [5, 7]);
/// # Ok::<(), blink::Error>(())
/// ```
///
/// [The crate's page](crate) has the calls of a `BTreeMap` and their names here. An index may move to another thread, and one thread at a time
/// uses it:
///
/// ```
/// fn may_move<T: Send>() {}
/// may_move::<blink::Index>();
/// ```
///
/// ```compile_fail
/// fn may_be_shared<T: Sync>() {}
/// may_be_shared::<blink::Index>();
/// ```
///
/// Threads that read it at the same time each have a [`Reader`], which [`Index::share`] gives. A [`Map`](crate::Map) is for threads of
/// which some change its entries.
pub struct Index {
    read: Read<OfIndex>,
}

// SAFETY: an index is plain data, and `IndexHandle` of crates/blink_c is proved to be `Send`. It isn't `Sync`, by the cell in `Read`.
unsafe impl Send for Index {}

impl Index {
    /// Makes an index without an entry, whose pages have at most `fan` entries, 4 to 32. Take 32: a page takes 560 bytes by any fan, so a
    /// fan of 16 needs twice the memory. Small fans make deep trees of few keys, for tests.
    ///
    /// ```
    /// use blink::{Error, Index};
    ///
    /// assert!(Index::new(32)?.is_empty());
    /// assert_eq!(Index::new(3).unwrap_err(), Error::BadFan);
    /// # Ok::<(), Error>(())
    /// ```
    pub fn new(fan: u8) -> Result<Index, Error> {
        Index::filled(|out| {
            // SAFETY: `out` is an empty handle.
            unsafe { sys::blink_index_new(fan, out) }
        })
    }

    /// Makes an index of entries in any order, keys with their pointers. Of two with one key the last stays, as in a `BTreeMap`.
    ///
    /// ```
    /// use blink::Index;
    ///
    /// let index = Index::from_entries(8, [(3, 99), (1, 10), (3, 30)])?;
    /// assert_eq!(index.iter().collect::<Vec<_>>(), [(1, 10), (3, 30)]);
    /// # Ok::<(), blink::Error>(())
    /// ```
    pub fn from_entries(fan: u8, entries: impl IntoIterator<Item = (u64, u64)>) -> Result<Index, Error> {
        let mut entries = collected(entries.into_iter().map(RawEntry::from))?;
        // The library keeps the first of two with one key.
        entries.reverse();
        Index::filled(|out| {
            // SAFETY: `entries` is a list of numbers, and `out` an empty handle.
            unsafe { sys::blink_index_from_entries(fan, entries.as_ptr(), entries.len(), out) }
        })
    }

    /// Makes an index of entries whose keys strictly ascend, in as few pages as any tree of these entries has: each leaf but the last
    /// is full. The first place whose key isn't above the one before is told by [`Error::NotAscending`].
    ///
    /// ```
    /// use blink::{Error, Index};
    ///
    /// let index = Index::from_sorted(4, (1..=10).map(|key| (key, 10 * key)))?;
    /// // three leaves and the root
    /// assert_eq!((index.len(), index.pages(), index.get(7)), (10, 4, Some(70)));
    /// assert_eq!(Index::from_sorted(4, [(1, 10), (2, 20), (2, 21)]).unwrap_err(), Error::NotAscending(2));
    /// # Ok::<(), Error>(())
    /// ```
    pub fn from_sorted(fan: u8, entries: impl IntoIterator<Item = (u64, u64)>) -> Result<Index, Error> {
        let entries = collected(entries.into_iter().map(RawEntry::from))?;
        let mut bad_place = 0;
        let mut handle = Handle::EMPTY;
        // SAFETY: `entries` is a list of numbers, and `handle` an empty handle.
        let code = unsafe {
            sys::blink_index_from_sorted(fan, entries.as_ptr(), entries.len(), &mut handle, &mut bad_place)
        };
        match code {
            sys::NOT_ASCENDING => Err(Error::NotAscending(bad_place)),
            code => Error::check(code).map(|()| Index::of(handle)),
        }
    }

    /// Makes a copy.
    pub fn try_clone(&self) -> Result<Index, Error> {
        Index::filled(|out| {
            // SAFETY: the handle is full, this thread alone uses it, and `out` is an empty one.
            unsafe { sys::blink_index_copy(self.read.handle(), out) }
        })
    }

    /// Makes the index one that is only read, and returns its first reader. No entry is copied. Only memory may be refused, and then
    /// the index comes back as it was.
    ///
    /// ```
    /// use blink::{Index, Reader};
    ///
    /// let index: Index = (0..1000).map(|key| (key, 10 * key)).collect();
    /// let reader: Reader = index.share().map_err(|(_index, error)| error)?;
    /// assert_eq!(reader.get(7), Some(70));
    /// # Ok::<(), blink::Error>(())
    /// ```
    pub fn share(self) -> Result<Reader, (Index, Error)> {
        // SAFETY: the handle is full, and this thread alone uses it. The call leaves it empty where it isn't refused.
        Reader::filled(|out| unsafe { sys::blink_index_share(self.handle(), out) }).map_err(|error| (self, error))
    }

    // The index that a call gives.
    pub(crate) fn filled(call: impl FnOnce(*mut Handle) -> Code) -> Result<Index, Error> {
        let mut handle = Handle::EMPTY;
        Error::check(call(&mut handle))?;
        Ok(Index::of(handle))
    }

    // The handle is full, and of an index.
    pub(crate) fn of(handle: Handle) -> Index {
        Index { read: Read::of(handle) }
    }

    /// Maps a key to a pointer in place, unless the key is there: [`Answer::Inserted`], or [`Answer::Exists`] with the key's pointer.
    /// A refusal leaves the index as it was. Memory is asked for only where the key's leaf is split.
    ///
    /// ```
    /// use blink::{Answer, Index};
    ///
    /// let mut index = Index::new(32)?;
    /// assert_eq!(index.insert(5, 50)?, Answer::Inserted);
    /// assert_eq!(index.insert(5, 51)?, Answer::Exists(50));
    /// assert_eq!(index.replace(5, 52), Answer::Replaced(50));
    /// assert_eq!(index.remove(5), Answer::Removed(52));
    /// assert_eq!(index.remove(5), Answer::Absent);
    /// # Ok::<(), blink::Error>(())
    /// ```
    pub fn insert(&mut self, key: u64, pointer: u64) -> Result<Answer, Error> {
        let mut given = RawAnswer::NONE;
        // SAFETY: the handle is full and borrowed for writing.
        Error::check(unsafe { sys::blink_index_insert(self.read.handle(), key, pointer, &mut given) })?;
        Ok(Answer::of(given))
    }

    /// Takes a key away in place, if it is there: [`Answer::Removed`] with its pointer, or [`Answer::Absent`]. It is never refused. Where
    /// more leaves are empty then than the entries fill, it packs the index as [`Index::compact`] does, so that scans walk few empty leaves.
    /// Where memory for that is refused, the leaves stay, and a later removal tries again.
    ///
    /// ```
    /// # use blink::Index;
    /// let mut index = Index::from_sorted(4, (1..=100).map(|key| (key, key)))?;
    /// assert_eq!(index.pages(), 35);
    /// for key in 1..=90 {
    ///     index.remove(key);
    /// }
    /// assert_eq!((index.len(), index.pages()), (10, 8));
    /// # Ok::<(), blink::Error>(())
    /// ```
    pub fn remove(&mut self, key: u64) -> Answer {
        let mut given = RawAnswer::NONE;
        // SAFETY: as in `insert`.
        unsafe { sys::blink_index_remove(self.read.handle(), key, &mut given) };
        Answer::of(given)
    }

    /// Maps a key to another pointer in place, if it is there: [`Answer::Replaced`] with the pointer before, or [`Answer::Absent`].
    /// It takes no memory.
    pub fn replace(&mut self, key: u64, pointer: u64) -> Answer {
        let mut given = RawAnswer::NONE;
        // SAFETY: as in `insert`.
        unsafe { sys::blink_index_replace(self.read.handle(), key, pointer, &mut given) };
        Answer::of(given)
    }

    /// Maps a key to `new` in place, if it maps to `expected`: [`Answer::Replaced`] with `expected`. Else nothing changes:
    /// [`Answer::Exists`] with what the key maps to, or [`Answer::Absent`]. It takes no memory.
    ///
    /// ```
    /// # use blink::{Answer, Index};
    /// let mut index = Index::from_entries(8, [(1, 10)])?;
    /// assert_eq!(index.compare_exchange(1, 10, 11), Answer::Replaced(10));
    /// assert_eq!(index.compare_exchange(1, 10, 12), Answer::Exists(11));
    /// assert_eq!(index.compare_exchange(2, 10, 12), Answer::Absent);
    /// # Ok::<(), blink::Error>(())
    /// ```
    pub fn compare_exchange(&mut self, key: u64, expected: u64, new: u64) -> Answer {
        let mut given = RawAnswer::NONE;
        // SAFETY: as in `insert`.
        unsafe { sys::blink_index_compare_exchange(self.read.handle(), key, expected, new, &mut given) };
        Answer::of(given)
    }

    /// Takes a key away in place, if it maps to `expected`: [`Answer::Removed`] with `expected`. Else nothing changes:
    /// [`Answer::Exists`] with what the key maps to, or [`Answer::Absent`]. It packs the index as [`Index::remove`] does.
    ///
    /// ```
    /// # use blink::{Answer, Index};
    /// let mut index = Index::from_entries(8, [(1, 10)])?;
    /// assert_eq!(index.compare_remove(1, 11), Answer::Exists(10));
    /// assert_eq!(index.compare_remove(1, 10), Answer::Removed(10));
    /// assert_eq!(index.compare_remove(1, 10), Answer::Absent);
    /// # Ok::<(), blink::Error>(())
    /// ```
    pub fn compare_remove(&mut self, key: u64, expected: u64) -> Answer {
        let mut given = RawAnswer::NONE;
        // SAFETY: as in `insert`.
        unsafe { sys::blink_index_compare_remove(self.read.handle(), key, expected, &mut given) };
        Answer::of(given)
    }

    /// Carries operations out in place, one after another, up to the first that is refused. The operations before it stay carried
    /// out, and their answers are there. Where memory for the answers is refused, none is carried out. After a removal
    /// it packs the index as [`Index::remove`] does.
    ///
    /// ```
    /// use blink::{Answer, Index, Op};
    ///
    /// let mut index = Index::new(32)?;
    /// let applied = index.apply(&[Op::Insert(5, 50), Op::Get(5), Op::Remove(6)]);
    /// assert_eq!(applied.answers, [Answer::Inserted, Answer::Found(50), Answer::Absent]);
    /// assert_eq!(applied.error, None);
    /// # Ok::<(), blink::Error>(())
    /// ```
    pub fn apply(&mut self, operations: &[Op]) -> Applied {
        let mut answers = match with_room(operations.len()) {
            Ok(answers) => answers,
            Err(error) => return Applied { answers: Vec::new(), error: Some(error) },
        };
        for part in operations.chunks(Index::PART) {
            if let Err(error) = self.apply_part(part, &mut answers) {
                return Applied { answers, error: Some(error) };
            }
        }
        Applied { answers, error: None }
    }

    // How many operations are carried out by a call of the library: their numbers and answers stand on the stack.
    const PART: usize = 128;

    // Carries out at most `PART` operations, and adds the answers of those that aren't refused. The list has room for them.
    fn apply_part(&mut self, operations: &[Op], answers: &mut Vec<Answer>) -> Result<(), Error> {
        let mut raw = [Op::Get(0).raw(); Index::PART];
        let mut given = [RawAnswer::NONE; Index::PART];
        for (place, op) in raw.iter_mut().zip(operations) {
            *place = op.raw();
        }
        let (count, mut carried_out) = (operations.len(), 0);
        // SAFETY: as in `insert`; both arrays have so many elements, and more.
        let code = unsafe {
            sys::blink_index_apply(self.read.handle(), raw.as_ptr(), count, given.as_mut_ptr(), count, &mut carried_out)
        };
        answers.extend(given[..carried_out].iter().copied().map(Answer::of));
        Error::check(code)
    }

    /// Packs the entries into as few pages as any tree of these entries has, in place: each leaf but the last is full then, so that an
    /// insertion splits it. Only memory may be refused, and then the index is as it was.
    ///
    /// ```
    /// use blink::Index;
    ///
    /// let mut index = Index::from_sorted(4, (1..=10).map(|key| (key, 10 * key)))?;
    /// for key in 1..=7 {
    ///     index.remove(key);
    /// }
    /// assert_eq!((index.len(), index.pages()), (3, 4));
    /// index.compact()?;
    /// assert_eq!((index.len(), index.pages(), index.get(8)), (3, 1, Some(80)));
    /// # Ok::<(), blink::Error>(())
    /// ```
    pub fn compact(&mut self) -> Result<(), Error> {
        // SAFETY: as in `insert`.
        Error::check(unsafe { sys::blink_index_compact(self.read.handle()) })
    }

    /// Runs operations one after another, and returns their answers. Each 8,192 of them run on a copy of the index, which then
    /// takes its place; so run many at once. After an error the operations before that part have run, and where memory for the
    /// answers is refused none has.
    pub fn run(&mut self, operations: &[Op]) -> Result<Vec<Answer>, Error> {
        let most = operations.len().min(sys::BATCH_LIMIT);
        let (mut answers, mut raw, mut given) = (with_room(operations.len())?, with_room(most)?, Vec::new());
        resize(&mut given, most, RawAnswer::NONE)?;
        for part in operations.chunks(sys::BATCH_LIMIT) {
            raw.clear();
            raw.extend(part.iter().map(|op| op.raw()));
            // SAFETY: the handle is full and borrowed for writing; both arrays have so many elements.
            Error::check(unsafe {
                sys::blink_index_run(self.read.handle(), raw.as_ptr(), raw.len(), given.as_mut_ptr(), raw.len())
            })?;
            answers.extend(given[..raw.len()].iter().copied().map(Answer::of));
        }
        Ok(answers)
    }

    /// Returns the record pointer of a key.
    pub fn get(&self, key: u64) -> Option<u64> {
        self.read.get(key)
    }

    /// Returns the record pointer of each key. Where memory for them is refused the process ends, as by any `Vec`;
    /// [`Index::get`] takes none.
    ///
    /// ```
    /// # use blink::Index;
    /// let index = Index::from_entries(8, [(1, 10), (3, 30)])?;
    /// assert_eq!(index.get_many(&[3, 2, 1]), [Some(30), None, Some(10)]);
    /// # Ok::<(), blink::Error>(())
    /// ```
    pub fn get_many(&self, keys: &[u64]) -> Vec<Option<u64>> {
        self.read.get_many(keys)
    }

    /// Returns the entries whose keys are in the range, in ascending order; from its end, as by `rev`, in descending order.
    /// As in a `BTreeMap`, a range whose start is above its end panics.
    ///
    /// ```
    /// # use blink::Index;
    /// let index = Index::from_entries(8, [(1, 10), (3, 30), (5, 50)])?;
    /// assert_eq!(index.range(2..5).collect::<Vec<_>>(), [(3, 30)]);
    /// assert_eq!(index.count(2..=5), 2);
    /// assert_eq!(index.range(2..).next_back(), Some((5, 50)));
    /// # Ok::<(), blink::Error>(())
    /// ```
    #[track_caller]
    pub fn range(&self, range: impl RangeBounds<u64>) -> Range<'_> {
        self.read.range(range)
    }

    /// Returns all entries, in ascending order of their keys; from the end, as by `rev`, in descending order.
    pub fn iter(&self) -> Range<'_> {
        self.read.range(..)
    }

    /// Returns the number of entries whose keys are in the range. It walks the range's leaves.
    #[track_caller]
    pub fn count(&self, range: impl RangeBounds<u64>) -> usize {
        self.read.count(range)
    }

    /// Returns the entry with the least key, if there is one.
    ///
    /// ```
    /// # use blink::Index;
    /// let index = Index::from_entries(8, [(1, 10), (3, 30), (5, 50)])?;
    /// assert_eq!(index.first(), Some((1, 10)));
    /// assert_eq!(index.last(), Some((5, 50)));
    /// assert_eq!(index.next(1), Some((3, 30)));
    /// assert_eq!(index.next(5), None);
    /// assert_eq!(index.prev(5), Some((3, 30)));
    /// assert_eq!(index.at_least(4), Some((5, 50)));
    /// assert_eq!(index.at_most(0), None);
    /// # Ok::<(), blink::Error>(())
    /// ```
    pub fn first(&self) -> Option<(u64, u64)> {
        self.read.first()
    }

    /// Returns the entry with the greatest key, if there is one.
    pub fn last(&self) -> Option<(u64, u64)> {
        self.read.last()
    }

    /// Returns the entry with the least key above this one, if there is one.
    pub fn next(&self, key: u64) -> Option<(u64, u64)> {
        self.read.next(key)
    }

    /// Returns the entry with the greatest key below this one, if there is one.
    pub fn prev(&self, key: u64) -> Option<(u64, u64)> {
        self.read.prev(key)
    }

    /// Returns the entry with the least key from this one on, if there is one.
    pub fn at_least(&self, key: u64) -> Option<(u64, u64)> {
        self.read.at_least(key)
    }

    /// Returns the entry with the greatest key up to this one, if there is one.
    pub fn at_most(&self, key: u64) -> Option<(u64, u64)> {
        self.read.at_most(key)
    }

    /// Returns the number of entries, which the index keeps.
    pub fn len(&self) -> usize {
        self.read.len()
    }

    /// Returns whether the index has no entry.
    pub fn is_empty(&self) -> bool {
        self.first().is_none()
    }

    /// Returns the number of pages, at least 1.
    pub fn pages(&self) -> u32 {
        self.read.pages()
    }

    /// Returns the greatest number of entries in a page.
    pub fn fan(&self) -> u8 {
        self.read.fan()
    }

    /// Returns the tree as text, a line a page, the top level first.
    ///
    /// ```
    /// # use blink::Index;
    /// let index = Index::from_entries(8, [(1, 10), (3, 30)])?;
    /// assert_eq!(index.dump()?, "0 1 - 18446744073709551615 - 1:10 3:30\n");
    /// # Ok::<(), blink::Error>(())
    /// ```
    pub fn dump(&self) -> Result<String, Error> {
        self.read.dump()
    }

    pub(crate) fn handle(&self) -> *mut Handle {
        self.read.handle()
    }
}

/// What became of operations: the answers of those that were carried out, which are the first, and why the next was refused.
#[derive(Clone, Debug, PartialEq, Eq)]
pub struct Applied {
    /// The answers of the operations that were carried out.
    pub answers: Vec<Answer>,
    /// Why the next operation was refused, if one was.
    pub error: Option<Error>,
}
