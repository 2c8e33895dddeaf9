//! Ranges of keys, and their entries while others change them.

use crate::memory::{resize, with_room};
use crate::sys::{Handle, RawEntry, RawScanned, RawTaken, ScanCall, SnapshotCall};
use crate::Error;
use std::ops::{Bound, RangeBounds};
use std::{fmt, slice};

// The first and the last key of a range that has one. As `BTreeMap::range` does, it panics at a range whose start is above its end, and at
// one that excludes one key from both sides.
#[track_caller]
pub(crate) fn first_and_last(range: &impl RangeBounds<u64>) -> Option<(u64, u64)> {
    match (range.start_bound(), range.end_bound()) {
        (Bound::Excluded(lo), Bound::Excluded(hi)) if lo == hi => panic!("range start and end are equal and excluded: {lo}"),
        (Bound::Included(lo) | Bound::Excluded(lo), Bound::Included(hi) | Bound::Excluded(hi)) if lo > hi => {
            panic!("range start is greater than range end: {lo} > {hi}")
        }
        _ => {}
    }
    let lo = match range.start_bound() {
        Bound::Included(&key) => Some(key),
        Bound::Excluded(&key) => key.checked_add(1),
        Bound::Unbounded => Some(0),
    };
    let hi = match range.end_bound() {
        Bound::Included(&key) => Some(key),
        Bound::Excluded(&key) => key.checked_sub(1),
        Bound::Unbounded => Some(u64::MAX),
    };
    lo.zip(hi).filter(|(lo, hi)| lo <= hi)
}

/// How many entries the first part of a range has.
pub(crate) const FIRST_PART: usize = 16;

// The most that a part has.
const MAX_PART: usize = 256;

/// How many entries the part behind one of so many is asked for, 0 before the first: a short range pays for few, and a long one makes few calls.
pub(crate) fn part_behind(last: usize) -> usize {
    (2 * last).clamp(FIRST_PART, MAX_PART)
}

// Takes entries of a range of keys out, as many as there are places. Returns how many, and the key from which the next ones go on, if there are
// more. The handle is full, of what the call takes, and this thread's alone; no operation is under way.
pub(crate) unsafe fn take_out(handle: *mut Handle, call: ScanCall, (lo, hi): (u64, u64), places: &mut [RawEntry]) -> (usize, Option<u64>) {
    let mut scanned = RawScanned { filled: 0, more: 0, next: 0 };
    // SAFETY: as the caller says; the array has that many elements.
    let code = unsafe { call(handle, lo, hi, places.as_mut_ptr(), places.len(), &mut scanned) };
    // No operation is under way, by the types; nothing else is refused.
    assert_eq!(code, 0);
    (scanned.filled as usize, (scanned.more == 1).then_some(scanned.next))
}

// The first entry that the call reports of a range, if there is one: that of the least key, or of the greatest by a scan downwards. It has one
// place, since a scan for more of them reads on. What the handle is `take_out` says.
pub(crate) unsafe fn end_of(handle: *mut Handle, call: ScanCall, range: &impl RangeBounds<u64>) -> Option<(u64, u64)> {
    let mut place = [RawEntry::NONE];
    // SAFETY: as the caller says.
    let (filled, _) = unsafe { take_out(handle, call, first_and_last(range)?, &mut place) };
    (filled == 1).then(|| place[0].into())
}

// The places that a session has for the parts of its ranges, for those from the front and for those from the end. They are there for
// the first part, and stay for the next range.
pub(crate) struct Places {
    front: Vec<RawEntry>,
    back: Vec<RawEntry>,
}

impl Places {
    pub(crate) fn new() -> Result<Places, Error> {
        let mut places = Places { front: Vec::new(), back: Vec::new() };
        resize(&mut places.front, FIRST_PART, RawEntry::NONE)?;
        resize(&mut places.back, FIRST_PART, RawEntry::NONE)?;
        Ok(places)
    }
}

// What a range takes out from one of its ends. A loop over a range has the entries in registers, since no call gets an address in the range itself.
struct End<'a> {
    places: &'a mut Vec<RawEntry>,
    // How many entries the last part was asked for; 0 before the first part.
    part: usize,
    // Those of the last part that are still to be given.
    entries: slice::Iter<'a, RawEntry>,
}

impl<'a> End<'a> {
    fn new(places: &'a mut Vec<RawEntry>) -> End<'a> {
        End { places, part: 0, entries: [].iter() }
    }

    // Takes another part of so many entries out, once all entries of the last one are given, and returns the key from which the next one goes on,
    // if there is more. What the handle is `take_out` says.
    #[inline]
    unsafe fn refill(&mut self, handle: *mut Handle, call: ScanCall, keys: (u64, u64), part: usize) -> Option<u64> {
        // SAFETY: as the caller says.
        let (part, filled, next) = unsafe { refill(handle, call, keys, self.places, part) };
        self.part = part;
        // SAFETY: the places are borrowed as long as the range is. So many have entries, and no place is written before these are given.
        self.entries = unsafe { slice::from_raw_parts(self.places.as_ptr(), filled) }.iter();
        next
    }
}

// Fills the places with another part, and returns how many entries it was asked for, how many it has, and the key from which the next one goes
// on. Where memory for so many is refused, the part is as short as a first one. What the handle is `take_out` says.
unsafe fn refill(
    handle: *mut Handle,
    call: ScanCall,
    keys: (u64, u64),
    places: &mut Vec<RawEntry>,
    mut part: usize,
) -> (usize, usize, Option<u64>) {
    if places.len() < part && resize(places, part, RawEntry::NONE).is_err() {
        part = FIRST_PART;
    }
    // SAFETY: as the caller says.
    let (filled, next) = unsafe { take_out(handle, call, keys, &mut places[..part]) };
    (part, filled.min(part), next)
}

// The entries of a range as all of them were at one time; `None`, if no try succeeded. The handle is full, and of what the call takes;
// no operation is under way.
#[track_caller]
pub(crate) fn snapshot(handle: &mut Handle, call: SnapshotCall, range: &impl RangeBounds<u64>, tries: u32) -> Result<Option<Vec<(u64, u64)>>, Error> {
    let Some((lo, hi)) = first_and_last(range) else {
        return Ok(Some(Vec::new()));
    };
    let mut entries = Vec::new();
    resize(&mut entries, 64, RawEntry::NONE)?;
    loop {
        let mut taken = RawTaken { taken: 0, there: 0 };
        // SAFETY: the handle is full and borrowed for writing; the array has that many elements.
        let code = unsafe { call(handle, lo, hi, tries, entries.as_mut_ptr(), entries.len(), &mut taken) };
        if code != 0 {
            return Err(Error::of(code));
        }
        if taken.taken == 0 {
            return Ok(None);
        }
        let there = taken.there as usize;
        if there <= entries.len() {
            let mut pairs = with_room(there)?;
            pairs.extend(entries[..there].iter().copied().map(<(u64, u64)>::from));
            return Ok(Some(pairs));
        }
        // Too few places. The next snapshot has some more, since entries may be added meanwhile.
        resize(&mut entries, there + there / 8, RawEntry::NONE)?;
    }
}

/// The entries of a map whose keys are in a range, in ascending order, while other threads change them; and from its other end
/// in descending order.
///
/// It reads the tree's leaves from the left, each at one time: what it says of a key is what the changes up to some time leave of
/// it, and of a greater key those up to that time or a later one. From its other end it reads the leaves from the right: what it says of
/// a key is what the changes up to some time leave of it, and of a smaller key those up to that time or a later one. Who reads from both
/// ends gets each key from one of them alone: no entry comes twice, and none is left out that was there throughout.
///
/// From each end it takes the entries out in parts: 16 first, which takes no memory, then twice as many each time, up to 256, as long as
/// memory for them is given. The session keeps that for its next range, 4 KB at most for each end. A part is read when it is asked
/// for, so what a loop doesn't come to is read in vain, up to as many entries as it came to: [`LiveRange::limit`] reads none of these. Backwards
/// each leaf takes a descent of its own.
#[must_use = "a range is read as it is iterated over"]
pub struct LiveRange<'a> {
    handle: &'a mut Handle,
    scan: ScanCall,
    scan_back: ScanCall,
    // The keys that are still to be asked for, between those of the two parts.
    range: Option<(u64, u64)>,
    front: End<'a>,
    back: End<'a>,
}

impl<'a> LiveRange<'a> {
    // The handle is full, and of what the calls take; no operation is under way.
    #[track_caller]
    pub(crate) fn new(
        handle: &'a mut Handle,
        places: &'a mut Places,
        scan: ScanCall,
        scan_back: ScanCall,
        range: &impl RangeBounds<u64>,
    ) -> LiveRange<'a> {
        let Places { front, back } = places;
        LiveRange { handle, scan, scan_back, range: first_and_last(range), front: End::new(front), back: End::new(back) }
    }

    /// At most so many entries of the range, as `take` gives them, but by fewer calls, and none beyond them is read: a page of a list, for
    /// example. From the range's other end they are the last ones. For more than 16 it asks for memory, as a longer range does, for 256 at most.
    ///
    /// ```
    /// use blink::{Index, Map};
    ///
    /// let map = Map::open(&Index::from_entries(8, [(1, 10), (3, 30), (5, 50)])?)?;
    /// let mut session = map.session()?;
    /// assert_eq!(session.range(2..).limit(1).collect::<Vec<_>>(), [(3, 30)]);
    /// assert_eq!(session.range(..).limit(2).rev().collect::<Vec<_>>(), [(5, 50), (3, 30)]);
    /// # Ok::<(), blink::Error>(())
    /// ```
    pub fn limit(self, most: usize) -> Limit<'a> {
        Limit { range: self, left: most }
    }

    // The next entry from the front. Where another part is to be taken out, `part` makes its size of that of the last one.
    #[inline]
    fn next_by(&mut self, part: impl FnOnce(usize) -> usize) -> Option<(u64, u64)> {
        if self.front.entries.len() == 0 {
            if let Some((lo, hi)) = self.range {
                let part = part(self.front.part);
                // SAFETY: the handle is full, of what the call takes, and borrowed for writing; no operation is under way.
                let next = unsafe { self.front.refill(self.handle, self.scan, (lo, hi), part) };
                self.range = next.map(|next| (next, hi));
            }
        }
        // What the range's end has taken out and not given comes after all others.
        let entry = self.front.entries.next().or_else(|| self.back.entries.next_back());
        entry.map(|&entry| entry.into())
    }

    // The same from the end.
    #[inline]
    fn next_back_by(&mut self, part: impl FnOnce(usize) -> usize) -> Option<(u64, u64)> {
        if self.back.entries.len() == 0 {
            if let Some((lo, hi)) = self.range {
                let part = part(self.back.part);
                // SAFETY: as in `next_by`.
                let next = unsafe { self.back.refill(self.handle, self.scan_back, (lo, hi), part) };
                self.range = next.map(|next| (lo, next));
            }
        }
        let entry = self.back.entries.next().or_else(|| self.front.entries.next_back());
        entry.map(|&entry| entry.into())
    }
}

impl Iterator for LiveRange<'_> {
    type Item = (u64, u64);

    // Called once an entry, from another crate.
    #[inline]
    fn next(&mut self) -> Option<(u64, u64)> {
        self.next_by(part_behind)
    }

    // At least what was taken out is still to come, and no more once nothing is left to be asked for.
    fn size_hint(&self) -> (usize, Option<usize>) {
        let taken = self.front.entries.len() + self.back.entries.len();
        (taken, self.range.is_none().then_some(taken))
    }
}

impl DoubleEndedIterator for LiveRange<'_> {
    #[inline]
    fn next_back(&mut self) -> Option<(u64, u64)> {
        self.next_back_by(part_behind)
    }
}

impl std::iter::FusedIterator for LiveRange<'_> {}

impl fmt::Debug for LiveRange<'_> {
    fn fmt(&self, f: &mut fmt::Formatter<'_>) -> fmt::Result {
        f.debug_struct("LiveRange").field("range", &self.range).finish_non_exhaustive()
    }
}

/// At most so many entries of a [`LiveRange`], as [`LiveRange::limit`] gives them.
#[derive(Debug)]
#[must_use = "a range is read as it is iterated over"]
pub struct Limit<'a> {
    range: LiveRange<'a>,
    // How many entries are still to be given at most.
    left: usize,
}

impl Limit<'_> {
    // Gives one of the entries that are left, by a call that is told how many these are: a part has no others.
    #[inline]
    fn one(&mut self, next: impl FnOnce(&mut LiveRange<'_>, usize) -> Option<(u64, u64)>) -> Option<(u64, u64)> {
        if self.left == 0 {
            return None;
        }
        let entry = next(&mut self.range, self.left.min(MAX_PART));
        self.left -= 1;
        entry
    }
}

impl Iterator for Limit<'_> {
    type Item = (u64, u64);

    #[inline]
    fn next(&mut self) -> Option<(u64, u64)> {
        self.one(|range, left| range.next_by(|_| left))
    }

    fn size_hint(&self) -> (usize, Option<usize>) {
        let (taken, most) = self.range.size_hint();
        (taken.min(self.left), Some(most.map_or(self.left, |most| most.min(self.left))))
    }
}

impl DoubleEndedIterator for Limit<'_> {
    #[inline]
    fn next_back(&mut self) -> Option<(u64, u64)> {
        self.one(|range, left| range.next_back_by(|_| left))
    }
}

impl std::iter::FusedIterator for Limit<'_> {}
