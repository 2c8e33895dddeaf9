//! Readers of an index.

use crate::read::{OfReader, Read};
use crate::sys::{self, Code, Handle};
use crate::{Error, Index, Range};
use std::ops::RangeBounds;

/// Reads an index that other threads read at the same time. [`Index::share`] gives the first reader of an index, and
/// [`Reader::join`] one more for each other thread. No entry is copied, no thread waits for another, and while there are readers nothing
/// changes the index. The last reader gives it back, to be changed again:
///
/// ```
/// use blink::{Index, Reader};
///
/// let index: Index = (0..1000).map(|key| (key, 10 * key)).collect();
/// let reader = index.share().map_err(|(_index, error)| error)?;
/// std::thread::scope(|scope| {
///     for thread in 0..8 {
///         let reader = reader.join().unwrap();
///         scope.spawn(move || {
///             assert_eq!(reader.get(thread), Some(10 * thread));
///             assert_eq!(reader.iter().map(|(_, pointer)| pointer).sum::<u64>(), 4_995_000);
///         });
///     }
/// });
/// let mut index = reader.unshare().expect("the readers of the threads are dropped");
/// index.insert(1000, 10_000)?;
/// assert_eq!(index.len(), 1001);
/// # Ok::<(), blink::Error>(())
/// ```
///
/// A reader may move to another thread, and one thread at a time uses it:
///
/// ```
/// fn may_move<T: Send>() {}
/// may_move::<blink::Reader>();
/// ```
///
/// ```compile_fail
/// fn may_be_shared<T: Sync>() {}
/// may_be_shared::<blink::Reader>();
/// ```
///
/// The index is dropped with its last reader. A [`Map`](crate::Map) is for threads of which some change the entries.
pub struct Reader {
    read: Read<OfReader>,
}

// SAFETY: `ReaderHandle` of crates/blink_c is proved to be `Send`. A reader isn't `Sync`, by the cell in `Read`.
unsafe impl Send for Reader {}

impl Reader {
    /// Makes one more reader of the same index, for another thread. No entry is copied. Only memory may be refused.
    pub fn join(&self) -> Result<Reader, Error> {
        // SAFETY: the handle is full, this thread alone uses it, and `out` is an empty one.
        Reader::filled(|out| unsafe { sys::blink_reader_join(self.read.handle(), out) })
    }

    /// Gives the index back, as it was when it was shared. No entry is copied, and no memory is asked for. While the index has another
    /// reader, this one comes back in its stead.
    ///
    /// ```
    /// use blink::Index;
    ///
    /// let index: Index = [(5, 50)].into_iter().collect();
    /// let one = index.share().map_err(|(_index, error)| error)?;
    /// let other = one.join()?;
    /// let one = one.unshare().unwrap_err();
    /// assert_eq!(one.get(5), Some(50));
    /// drop(one);
    /// let mut index = other.unshare().unwrap();
    /// index.replace(5, 51);
    /// assert_eq!(index.get(5), Some(51));
    /// # Ok::<(), blink::Error>(())
    /// ```
    pub fn unshare(self) -> Result<Index, Reader> {
        let mut index = Handle::EMPTY;
        // SAFETY: the handle is full, and this thread alone uses it; `index` is an empty one. The call leaves the first empty where it
        // fills the second.
        match unsafe { sys::blink_reader_unshare(self.read.handle(), &mut index) } {
            sys::SHARED => Err(self),
            code => {
                // Nothing else is refused.
                assert_eq!(code, 0);
                Ok(Index::of(index))
            }
        }
    }

    // The reader that a call gives.
    pub(crate) fn filled(call: impl FnOnce(*mut Handle) -> Code) -> Result<Reader, Error> {
        let mut handle = Handle::EMPTY;
        Error::check(call(&mut handle))?;
        Ok(Reader { read: Read::of(handle) })
    }

    /// Returns the record pointer of a key.
    pub fn get(&self, key: u64) -> Option<u64> {
        self.read.get(key)
    }

    /// Returns the record pointer of each key. Where memory for them is refused the process ends, as by any `Vec`.
    pub fn get_many(&self, keys: &[u64]) -> Vec<Option<u64>> {
        self.read.get_many(keys)
    }

    /// Returns the entries whose keys are in the range, in ascending order; from its end, as by `rev`, in descending order.
    /// As in a `BTreeMap`, a range whose start is above its end panics.
    #[track_caller]
    pub fn range(&self, range: impl RangeBounds<u64>) -> Range<'_> {
        self.read.range(range)
    }

    /// Returns all entries, in ascending order of their keys; from the end, as by `rev`, in descending order.
    pub fn iter(&self) -> Range<'_> {
        self.read.range(..)
    }

    /// Returns the number of entries whose keys are in the range. It walks the range's leaves.
    #[track_caller]
    pub fn count(&self, range: impl RangeBounds<u64>) -> usize {
        self.read.count(range)
    }

    /// Returns the entry with the least key, if there is one.
    pub fn first(&self) -> Option<(u64, u64)> {
        self.read.first()
    }

    /// Returns the entry with the greatest key, if there is one.
    pub fn last(&self) -> Option<(u64, u64)> {
        self.read.last()
    }

    /// Returns the entry with the least key above this one, if there is one.
    pub fn next(&self, key: u64) -> Option<(u64, u64)> {
        self.read.next(key)
    }

    /// Returns the entry with the greatest key below this one, if there is one.
    pub fn prev(&self, key: u64) -> Option<(u64, u64)> {
        self.read.prev(key)
    }

    /// Returns the entry with the least key from this one on, if there is one.
    pub fn at_least(&self, key: u64) -> Option<(u64, u64)> {
        self.read.at_least(key)
    }

    /// Returns the entry with the greatest key up to this one, if there is one.
    pub fn at_most(&self, key: u64) -> Option<(u64, u64)> {
        self.read.at_most(key)
    }

    /// Whether a key is there.
    pub fn contains(&self, key: u64) -> bool {
        self.get(key).is_some()
    }

    /// Returns the number of entries, which the index keeps.
    pub fn len(&self) -> usize {
        self.read.len()
    }

    /// Returns whether the index has no entry.
    pub fn is_empty(&self) -> bool {
        self.first().is_none()
    }

    /// Returns the number of pages, at least 1.
    pub fn pages(&self) -> u32 {
        self.read.pages()
    }

    /// Returns the greatest number of entries in a page.
    pub fn fan(&self) -> u8 {
        self.read.fan()
    }

    /// Returns the tree as text, a line a page, the top level first.
    pub fn dump(&self) -> Result<String, Error> {
        self.read.dump()
    }
}
