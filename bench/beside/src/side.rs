//! What a side is, and how a process of its own runs the cases of a file with it.

use crate::workload::{self, with_content, Case, Mode, Phase, Step, ABSENT, DELETE, FIND, INSERT, INSERTED, LOOK, REPLACE, SCAN};
use std::hint::black_box;
use std::io;
use std::path::Path;
use std::sync::atomic::{AtomicUsize, Ordering};
use std::thread;
use std::time::Instant;

/// What one thread calls. An answer is the pointer that was found, removed or replaced, where the key was there.
pub trait Handle: Send {
    fn find(&mut self, key: u64) -> Option<u64>;
    /// Whether the key was new. A handle that only looks up has none of the calls that change, and nobody asks it for one.
    fn insert(&mut self, _key: u64, _pointer: u64) -> bool {
        unreachable!()
    }
    fn delete(&mut self, _key: u64) -> Option<u64> {
        unreachable!()
    }
    fn replace(&mut self, _key: u64, _pointer: u64) -> Option<u64> {
        unreachable!()
    }
    /// The sum of `key ^ pointer` of so many entries from a key on, where the side has scans.
    fn scan(&mut self, _from: u64, _count: usize) -> u64 {
        unreachable!()
    }
    /// Looks keys up by one call, where there is such a call. The sum of what was found.
    fn find_many(&mut self, keys: &[Step]) -> u64 {
        keys.iter().fold(0, |sum, step| sum.wrapping_add(self.find(step.key).unwrap_or(ABSENT)))
    }
}

/// A map of one kind, as a case begins with it.
pub trait Side: Sized {
    /// Makes the map. What it has in common with the map of the case before may be taken over.
    fn open(case: &Case, before: Option<Self>) -> Self;
    /// Runs a phase, and returns the nanoseconds from the first start to the last end with the sum of the answers; `None` where this
    /// side can't, or nobody would.
    fn run(&mut self, phase: &Phase) -> Option<(u64, u64)>;
    /// Ends the case: what is there of these keys.
    fn contents(&mut self, keys: &[u64]) -> Vec<Option<u64>>;
    /// Nanoseconds that the making and the ending of the map took beside the phases, where they are to be told.
    fn beside(&self) -> Vec<(&'static str, u64)> {
        Vec::new()
    }
}

// Takes the steps of one thread, and returns the sum of their answers.
fn answer(handle: &mut impl Handle, mode: Mode, steps: &[Step]) -> u64 {
    let add = |sum: u64, answer: u64| sum.wrapping_add(answer);
    match mode {
        Mode::Scan => steps.iter().fold(0, |sum, step| add(sum, handle.scan(step.key, step.pointer as usize))),
        Mode::Many => steps.chunks(64).fold(0, |sum, part| add(sum, handle.find_many(part))),
        Mode::Own | Mode::Any => steps.iter().fold(0, |sum, step| add(sum, one(handle, step))),
    }
}

#[inline(always)]
fn one(handle: &mut impl Handle, step: &Step) -> u64 {
    match step.kind {
        FIND => handle.find(step.key).unwrap_or(ABSENT),
        INSERT => match handle.insert(step.key, step.pointer) {
            true => INSERTED,
            false => ABSENT,
        },
        DELETE => handle.delete(step.key).unwrap_or(ABSENT),
        REPLACE => handle.replace(step.key, step.pointer).unwrap_or(ABSENT),
        SCAN => handle.scan(step.key, step.pointer as usize),
        LOOK => {
            black_box(handle.scan(step.key, step.pointer as usize));
            0
        }
        kind => unreachable!("a step of kind {kind}"),
    }
}

/// Runs a phase by these handles, one a thread.
pub fn timed<H: Handle>(handles: &mut [H], phase: &Phase) -> (u64, u64) {
    assert_eq!(handles.len(), phase.threads.len());
    if let ([handle], [steps]) = (&mut *handles, phase.threads.as_slice()) {
        let start = Instant::now();
        let sum = answer(handle, phase.mode, steps);
        return (start.elapsed().as_nanos() as u64, sum);
    }
    let begin = Instant::now();
    // All wait awake, so that none is late by a wake-up.
    let (count, ready) = (handles.len(), AtomicUsize::new(0));
    let ended: Vec<(u64, u64, u64)> = thread::scope(|scope| {
        let running: Vec<_> = handles
            .iter_mut()
            .zip(&phase.threads)
            .map(|(handle, steps)| {
                let ready = &ready;
                scope.spawn(move || {
                    ready.fetch_add(1, Ordering::SeqCst);
                    while ready.load(Ordering::SeqCst) < count {
                        thread::yield_now();
                    }
                    let start = begin.elapsed().as_nanos() as u64;
                    let sum = answer(handle, phase.mode, steps);
                    (start, begin.elapsed().as_nanos() as u64, sum)
                })
            })
            .collect();
        running.into_iter().map(|thread| thread.join().expect("a thread of a side")).collect()
    });
    let start = ended.iter().map(|end| end.0).min().expect("a thread");
    let end = ended.iter().map(|end| end.1).max().expect("a thread");
    (end - start, ended.iter().fold(0, |sum, end| sum.wrapping_add(end.2)))
}

/// Runs the cases of a file, and prints what came of each: `phase CASE PHASE NANOSECONDS SUM` or, of one that this side can't run,
/// `left CASE PHASE`; `contents CASE SUM`, unless a change was left out; and `beside CASE WHAT NANOSECONDS`.
pub fn work<S: Side>(file: &Path) -> io::Result<()> {
    let mut before = None;
    for (number, case) in workload::read(file)?.iter().enumerate() {
        let start = Instant::now();
        let mut side = S::open(case, before.take());
        let opened = start.elapsed().as_nanos();
        // Where a change is left out, the contents are others.
        let mut is_whole = true;
        for (place, phase) in case.phases.iter().enumerate() {
            match side.run(phase) {
                Some((nanoseconds, sum)) => println!("phase {number} {place} {nanoseconds} {sum}"),
                None => {
                    println!("left {number} {place}");
                    is_whole &= !phase.changes();
                }
            }
        }
        let contents = side.contents(&case.keys);
        if is_whole {
            println!("contents {number} {}", contents.into_iter().fold(0, with_content));
        }
        println!("beside {number} begin {opened}");
        for (what, nanoseconds) in side.beside() {
            println!("beside {number} {what} {nanoseconds}");
        }
        before = Some(side);
    }
    Ok(())
}
