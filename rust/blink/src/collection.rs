//! The traits of Rust's collections, for an index and its readers, and for a map. Where memory is refused, or no page number is left, they panic; the
//! calls of [`Index`], [`Reader`] and [`Map`] return an error instead.

use crate::{Index, Map, Range, Reader};
use std::fmt;

impl Clone for Index {
    /// Makes a copy. It panics where memory is refused, and [`Index::try_clone`] doesn't.
    fn clone(&self) -> Index {
        self.try_clone().expect("memory for a copy of an index")
    }
}

impl Default for Index {
    /// Makes an index of fan 32 without an entry. It panics where memory is refused, and [`Index::new`] doesn't.
    ///
    /// ```
    /// use blink::Index;
    ///
    /// let mut index: Index = [(1, 10)].into_iter().collect();
    /// let before = std::mem::take(&mut index);
    /// assert_eq!((before.len(), index.len(), index.fan()), (1, 0, 32));
    /// ```
    fn default() -> Index {
        Index::new(32).expect("memory for an index")
    }
}

impl Default for Map {
    /// Opens an empty map of fan 32. It panics where memory is refused, and [`Map::new`] doesn't.
    ///
    /// ```
    /// use blink::Map;
    ///
    /// let map = Map::default();
    /// assert_eq!(map.session()?.put(1, 10)?, None);
    /// # Ok::<(), blink::Error>(())
    /// ```
    fn default() -> Map {
        Map::new(32).expect("memory for a map")
    }
}

impl Clone for Reader {
    /// Makes one more reader of the same index. It panics where memory is refused, and [`Reader::join`] doesn't.
    fn clone(&self) -> Reader {
        self.join().expect("memory for a reader of an index")
    }
}

/// Two indexes are equal if their entries are, whatever their fan and their pages.
impl PartialEq for Index {
    fn eq(&self, other: &Index) -> bool {
        self.iter().eq(other)
    }
}

impl Eq for Index {}

impl fmt::Debug for Index {
    fn fmt(&self, f: &mut fmt::Formatter<'_>) -> fmt::Result {
        f.debug_map().entries(self).finish()
    }
}

impl fmt::Debug for Reader {
    fn fmt(&self, f: &mut fmt::Formatter<'_>) -> fmt::Result {
        f.debug_map().entries(self).finish()
    }
}

/// Makes an index of fan 32. Of two entries with one key the last stays, as in a `BTreeMap`.
///
/// ```
/// use blink::Index;
///
/// let index: Index = [(3, 30), (1, 10), (3, 31)].into_iter().collect();
/// assert_eq!(index.iter().collect::<Vec<_>>(), [(1, 10), (3, 31)]);
/// ```
impl FromIterator<(u64, u64)> for Index {
    fn from_iter<I: IntoIterator<Item = (u64, u64)>>(entries: I) -> Index {
        Index::from_entries(32, entries).expect("memory for an index")
    }
}

/// Maps each key to its pointer, whether the key is there or not.
///
/// ```
/// # use blink::Index;
/// let mut index = Index::new(32)?;
/// index.extend([(5, 50), (7, 70)]);
/// index.extend([(7, 71)]);
/// assert_eq!((index.len(), index.get(7)), (2, Some(71)));
/// # Ok::<(), blink::Error>(())
/// ```
impl Extend<(u64, u64)> for Index {
    fn extend<I: IntoIterator<Item = (u64, u64)>>(&mut self, entries: I) {
        for (key, pointer) in entries {
            self.put(key, pointer).expect("memory and page numbers for more entries");
        }
    }
}

impl<'a> IntoIterator for &'a Index {
    type Item = (u64, u64);
    type IntoIter = Range<'a>;

    fn into_iter(self) -> Range<'a> {
        self.iter()
    }
}

impl<'a> IntoIterator for &'a Reader {
    type Item = (u64, u64);
    type IntoIter = Range<'a>;

    fn into_iter(self) -> Range<'a> {
        self.iter()
    }
}
