//! An insertion that splits pages, and what others read between any two of its machine instructions. The insertion rests
//! meanwhile, so a snapshot succeeds at its first try.
#![cfg(all(target_os = "linux", target_arch = "x86_64", target_env = "gnu"))]

mod stepped;

use blink::{Answer, Error, Index, Map, Room, Session};
use std::ops::RangeInclusive;
use stepped::by_instruction;

const FAN: u8 = 4;

// An index of so many keys, ten apart from 10 on, each with itself and 7. All pages but the root are full. It has the first
// number of pages, and after one insertion more the second.
struct Full {
    keys: u64,
    pages: (u32, u32),
}

// The root is a full leaf: it is split, and a root comes.
const A_LEAF: Full = Full { keys: 4, pages: (1, 3) };

// Two leaves below a root that has room: a leaf is split.
const A_LEAF_BELOW_A_ROOT: Full = Full { keys: 8, pages: (3, 4) };

// Eight leaves below two pages, and these below a root that has room: a leaf and its parent are split.
const TWO_BELOW_A_ROOT: Full = Full { keys: 32, pages: (11, 13) };

// Four leaves below a full root: a leaf and the root are split, and a root comes.
const TWO_LEVELS: Full = Full { keys: 16, pages: (5, 8) };

// Sixteen leaves below four pages, and these below a full root: three pages are split, and a root comes.
const THREE_LEVELS: Full = Full { keys: 64, pages: (21, 25) };

fn entry(key: u64) -> (u64, u64) {
    (key, key + 7)
}

// The entries before an insertion and after it.
struct Entries {
    before: Vec<(u64, u64)>,
    after: Vec<(u64, u64)>,
    new: u64,
}

impl Entries {
    fn of(full: &Full, new: u64) -> Entries {
        let before: Vec<(u64, u64)> = (1..=full.keys).map(|place| entry(10 * place)).collect();
        let mut after = before.clone();
        after.push(entry(new));
        after.sort_by_key(|(key, _)| *key);
        Entries { before, after, new }
    }

    fn index(&self, full: &Full) -> Index {
        let index = Index::from_sorted(FAN, self.before.iter().copied()).unwrap();
        assert_eq!(index.pages(), full.pages.0);
        index
    }

    // A map closes with the tree's own pages.
    fn are_those_of(&self, closed: &Index, full: &Full) {
        assert!(closed.iter().eq(self.after.iter().copied()));
        assert_eq!(closed.pages(), full.pages.1);
    }

    // Whether these, the first `most` of a range, have the new entry; none, if they have it neither before nor after.
    fn show(&self, range: &RangeInclusive<u64>, most: usize, given: &[(u64, u64)]) -> Option<bool> {
        let part = |all: &[(u64, u64)]| {
            let within = all.iter().filter(|(key, _)| range.contains(key));
            within.take(most).copied().collect::<Vec<_>>()
        };
        let (before, after) = (part(&self.before), part(&self.after));
        assert!(given == before || given == after, "the first {most} of {range:?}: {given:?}");
        (before != after).then(|| given == after)
    }
}

// The first entries of a range, as many as are asked for at most.
fn scan(session: &mut Session, range: RangeInclusive<u64>, most: usize) -> Vec<(u64, u64)> {
    session.range(range).take(most).collect()
}

// Scans the whole range and the keys around the new one, and says whether the new entry is there, as each of these four does.
fn scans(reads: &mut Session, entries: &Entries) -> Option<bool> {
    let all = 0..=u64::MAX;
    let shown = entries.show(&all, usize::MAX, &scan(reads, all.clone(), usize::MAX));
    let around = entries.new.saturating_sub(25)..=entries.new + 25;
    assert_eq!(entries.show(&around, usize::MAX, &scan(reads, around.clone(), usize::MAX)), shown);
    shown
}

// Turns pages of three entries from keys before the new one, from it and from behind it.
fn turns_pages(reads: &mut Session, entries: &Entries) -> Option<bool> {
    let new = entries.new;
    let mut shown = None;
    for from in [0, new.saturating_sub(21), new - 1, new, new + 1, new + 14] {
        let range = from..=u64::MAX;
        let page = entries.show(&range, 3, &scan(reads, range.clone(), 3));
        assert!(shown.is_none() || page.is_none() || shown == page, "from {from}: {page:?}");
        shown = shown.or(page);
    }
    shown
}

fn takes_snapshots(reads: &mut Session, entries: &Entries) -> Option<bool> {
    let [all, around] = [0..=u64::MAX, entries.new.saturating_sub(25)..=entries.new + 25].map(|range| {
        let snapshot = reads.snapshot(range.clone(), 1).unwrap().expect("nothing changes meanwhile");
        let snapshot: Vec<(u64, u64)> = snapshot.into_iter().collect();
        entries.show(&range, usize::MAX, &snapshot)
    });
    assert_eq!(all, around);
    all
}

fn finds(reads: &mut Session, entries: &Entries) -> Option<bool> {
    for &(key, pointer) in &entries.before {
        assert_eq!(reads.get(key), Some(pointer));
    }
    let found = reads.get(entries.new);
    assert!(found.is_none() || found == Some(entries.new + 7), "{found:?}");
    Some(found.is_some())
}

// Four readers read between two instructions, and all of them see the new entry or none does. Returns whether they do.
fn read(readers: &mut [Session; 4], entries: &Entries) -> bool {
    let [scanning, paging, snapping, finding] = readers;
    let shown = scans(scanning, entries);
    assert_eq!(turns_pages(paging, entries), shown);
    assert_eq!(takes_snapshots(snapping, entries), shown);
    assert_eq!(finds(finding, entries), shown);
    shown == Some(true)
}

// Makes the insertion, with four readers between any two of its instructions. The new entry is there from some instruction on.
fn inserts(insert: impl FnOnce() -> Result<Answer, Error>, readers: &mut [Session; 4], entries: &Entries) {
    let (mut before, mut after) = (0, 0);
    let answer = by_instruction(insert, || {
        if read(readers, entries) {
            after += 1;
        } else {
            assert_eq!(after, 0, "an entry that was there is gone");
            before += 1;
        }
        true
    });
    assert_eq!(answer, Ok(Answer::Inserted));
    // The new page is written before the entry is there or as it comes, and the page above after it. A row has 72 words.
    assert!(before > 72 && after > 72, "{before} instructions before, {after} after");
}

fn session_inserts(full: &Full, new: u64) {
    let entries = Entries::of(full, new);
    let map = Map::open_fixed(&entries.index(full), Room { pages: 22, rows: 44, sessions: 5 }).unwrap();
    let mut writer = map.session().unwrap();
    let mut readers = [(); 4].map(|()| map.session().unwrap());
    inserts(|| writer.insert(new, new + 7), &mut readers, &entries);
    drop((writer, readers));
    entries.are_those_of(&map.close().unwrap(), full);
}

// Into the first leaf, one in the middle, and the last.
fn insert_everywhere(full: &Full) {
    for new in [5, 10 * (full.keys / 2) + 5, 10 * full.keys + 5] {
        session_inserts(full, new);
    }
}

#[test]
fn a_split_of_the_only_leaf_is_read_as_before_or_after() {
    insert_everywhere(&A_LEAF);
}

#[test]
fn a_split_of_a_leaf_is_read_as_before_or_after() {
    insert_everywhere(&A_LEAF_BELOW_A_ROOT);
}

#[test]
fn a_split_of_a_leaf_and_its_parent_is_read_as_before_or_after() {
    insert_everywhere(&TWO_BELOW_A_ROOT);
}

#[test]
fn splits_of_all_levels_are_read_as_before_or_after() {
    insert_everywhere(&TWO_LEVELS);
    insert_everywhere(&THREE_LEVELS);
}
