//! What an ordered map has beside the calls of the library: each is made of these.

use crate::{Answer, Error, Index};
use std::ops::{Bound, RangeBounds};

impl Index {
    /// Maps a key to a pointer, whether the key is there or not, and returns the pointer that was there.
    ///
    /// Only an absent key takes memory. It is refused as [`Index::insert`] is, and then nothing changes.
    ///
    /// ```
    /// # use blink::Index;
    /// let mut index = Index::new(32)?;
    /// assert_eq!(index.put(5, 50)?, None);
    /// assert_eq!(index.put(5, 51)?, Some(50));
    /// # Ok::<(), blink::Error>(())
    /// ```
    pub fn put(&mut self, key: u64, pointer: u64) -> Result<Option<u64>, Error> {
        match self.replace(key, pointer) {
            Answer::Replaced(before) => Ok(Some(before)),
            _ => self.insert(key, pointer).map(|_| None),
        }
    }

    /// Maps a key to what `next` makes of the pointer that it maps to, or of none, and returns the pointer that was there. Where `next`
    /// returns none, the key is taken away.
    ///
    /// It is refused as [`Index::put`] is.
    ///
    /// ```
    /// # use blink::Index;
    /// let mut index = Index::new(32)?;
    /// assert_eq!(index.update(5, |count| Some(count.unwrap_or(0) + 1))?, None);
    /// assert_eq!(index.update(5, |count| Some(count.unwrap_or(0) + 1))?, Some(1));
    /// assert_eq!(index.update(5, |_| None)?, Some(2));
    /// assert!(index.is_empty());
    /// # Ok::<(), blink::Error>(())
    /// ```
    pub fn update(&mut self, key: u64, next: impl FnOnce(Option<u64>) -> Option<u64>) -> Result<Option<u64>, Error> {
        let present = self.get(key);
        match next(present) {
            Some(pointer) => self.put(key, pointer),
            None => Ok(self.remove(key).pointer()),
        }
    }

    /// Whether a key is there.
    pub fn contains(&self, key: u64) -> bool {
        self.get(key).is_some()
    }

    /// Takes all entries away, and their memory with them. Memory may be refused for the one page that an empty index has, and then nothing
    /// changes.
    pub fn clear(&mut self) -> Result<(), Error> {
        *self = Index::new(self.fan())?;
        Ok(())
    }

    /// Takes the entry of the least key away, and returns it. The call walks the empty leaves before the entry. It packs the index where
    /// these become many, as [`Index::remove`] does.
    ///
    /// ```
    /// # use blink::Index;
    /// let mut index = Index::from_entries(8, [(1, 10), (3, 30), (5, 50)])?;
    /// assert_eq!(index.pop_first(), Some((1, 10)));
    /// assert_eq!(index.pop_last(), Some((5, 50)));
    /// assert_eq!(index.len(), 1);
    /// # Ok::<(), blink::Error>(())
    /// ```
    pub fn pop_first(&mut self) -> Option<(u64, u64)> {
        let (key, pointer) = self.first()?;
        self.remove(key);
        Some((key, pointer))
    }

    /// Takes the entry of the greatest key away, in the same way.
    pub fn pop_last(&mut self) -> Option<(u64, u64)> {
        let (key, pointer) = self.last()?;
        self.remove(key);
        Some((key, pointer))
    }

    /// Takes away each entry of the range that `keeps` doesn't want, in ascending order, and returns how many it took. It packs the
    /// index as [`Index::remove`] does.
    ///
    /// ```
    /// # use blink::Index;
    /// let mut index: Index = (0..100).map(|key| (key, key)).collect();
    /// assert_eq!(index.retain(10.., |key, _| key % 2 == 0), 45);
    /// assert_eq!(index.len(), 55);
    /// ```
    pub fn retain(&mut self, range: impl RangeBounds<u64>, mut keeps: impl FnMut(u64, u64) -> bool) -> usize {
        let end = range.end_bound().cloned();
        let (mut taken, mut from) = (0, range.start_bound().cloned());
        loop {
            let (part, read) = self.part((from, end));
            for &(key, pointer) in &part[..read] {
                if !keeps(key, pointer) {
                    self.remove(key);
                    taken += 1;
                }
                from = Bound::Excluded(key);
            }
            if read < part.len() {
                return taken;
            }
        }
    }

    /// Puts all entries of another index into this one, as [`Index::put`] does, and takes them from the other, in ascending order.
    ///
    /// It is refused as [`Index::put`] is. What was put by then is here, and the rest is still in the other: nothing is lost.
    ///
    /// ```
    /// # use blink::Index;
    /// let (mut index, mut other): (Index, Index) = ((0..10).map(|key| (key, 1)).collect(), (5..15).map(|key| (key, 2)).collect());
    /// index.append(&mut other)?;
    /// assert_eq!((index.len(), index.get(4), index.get(5), other.len()), (15, Some(1), Some(2), 0));
    /// # Ok::<(), blink::Error>(())
    /// ```
    pub fn append(&mut self, other: &mut Index) -> Result<(), Error> {
        let mut from = Bound::Unbounded;
        loop {
            let (part, read) = other.part((from, Bound::Unbounded));
            for &(key, pointer) in &part[..read] {
                self.put(key, pointer)?;
                other.remove(key);
                from = Bound::Excluded(key);
            }
            if read < part.len() {
                return Ok(());
            }
        }
    }

    // The first entries of a range, and how many they are: fewer than there are places only where the range has no others. A range borrows
    // the index, so who changes what it reads takes some entries out before.
    fn part(&self, range: (Bound<u64>, Bound<u64>)) -> ([(u64, u64); 64], usize) {
        let mut part = [(0, 0); 64];
        let read = part.iter_mut().zip(self.range(range)).map(|(place, entry)| *place = entry).count();
        (part, read)
    }

    /// Takes the entries from a key on out, and returns them as an index of the same fan.
    ///
    /// It is refused only if memory is, and then nothing changes.
    ///
    /// ```
    /// # use blink::Index;
    /// let mut index: Index = (0..10).map(|key| (key, key)).collect();
    /// let upper = index.split_off(7)?;
    /// assert_eq!((index.len(), upper.len(), upper.get(7)), (7, 3, Some(7)));
    /// # Ok::<(), blink::Error>(())
    /// ```
    pub fn split_off(&mut self, key: u64) -> Result<Index, Error> {
        let upper = Index::from_sorted(self.fan(), self.range(key..))?;
        for (key, _) in &upper {
            self.remove(key);
        }
        Ok(upper)
    }
}
