//! When an object may be freed whose pointer was taken out of a map.

use std::fmt;
use std::sync::atomic::{AtomicU64, Ordering};
use std::sync::Arc;

// How often a guard was held and let go of: odd while it is held. It has a line of the cache for itself.
#[repr(align(64))]
#[derive(Default)]
struct Turn(AtomicU64);

/// The guards of the threads that read the objects behind a map's pointers.
///
/// Who finds a pointer reads the object there after the call, and meanwhile another thread may take the pointer out of the map. So each
/// thread that reads objects holds a [`Guard`], from before a find until it has done with what it found. A thread that has taken
/// pointers out, by a deletion, a replacement, an exchange or a put, notes which guards are held, and frees the objects once all these are
/// past. Held guards hold nobody up but who waits for them: the calls on the map go on.
///
/// ```
/// use blink::{Guards, Index, Map};
///
/// let map = Map::open(&Index::new(32)?)?;
/// let mut session = map.session()?;
/// let (guards, mut readers) = Guards::new(2);
/// let object = Box::into_raw(Box::new(50u64));
/// session.put(5, object as u64)?;
/// let held = readers[0].hold();
/// let found = session.get(5).unwrap() as *const u64;
/// session.remove(5)?;
/// let noted = guards.note();
/// assert!(!guards.are_past(&noted));
/// // SAFETY: the object is freed below, once no guard is held that was held when the key was removed.
/// assert_eq!(unsafe { *found }, 50);
/// drop(held);
/// assert!(guards.are_past(&noted));
/// // SAFETY: it was made by `Box::into_raw`, and no thread can read it any more.
/// drop(unsafe { Box::from_raw(object) });
/// # Ok::<(), blink::Error>(())
/// ```
#[derive(Clone)]
pub struct Guards {
    turns: Arc<[Turn]>,
}

/// Which guards were held at some time.
#[derive(Clone, Debug)]
pub struct Noted {
    turns: Vec<u64>,
}

/// The guard of one thread.
pub struct Guard {
    turns: Arc<[Turn]>,
    place: usize,
}

/// A guard that is held, until it is dropped. One that is leaked is held for good, or until its guard is held once more.
#[must_use = "a guard is let go of where this is dropped"]
pub struct Held<'guard> {
    turn: &'guard AtomicU64,
}

impl Guards {
    /// Makes so many guards.
    pub fn new(count: usize) -> (Guards, Vec<Guard>) {
        let turns: Arc<[Turn]> = (0..count).map(|_| Turn::default()).collect();
        let guard = |place| Guard {
            turns: Arc::clone(&turns),
            place,
        };
        let guards = (0..count).map(guard).collect();
        (Guards { turns }, guards)
    }

    /// Notes which guards are held, once pointers have been taken out.
    pub fn note(&self) -> Noted {
        let turns = self.turns.iter().map(|turn| turn.0.load(Ordering::SeqCst));
        Noted { turns: turns.collect() }
    }

    /// Whether each guard that was held when this was noted is past: it was let go of then, also if it is held again. A thread that holds
    /// one of them waits for itself in vain.
    pub fn are_past(&self, noted: &Noted) -> bool {
        let mut pairs = self.turns.iter().zip(&noted.turns);
        pairs.all(|(turn, &noted)| noted % 2 == 0 || turn.0.load(Ordering::Acquire) != noted)
    }
}

impl Guard {
    /// Holds the guard, for as many calls on the map as the thread likes.
    pub fn hold(&mut self) -> Held<'_> {
        let turn = &self.turns[self.place].0;
        // the next odd number, also where a held guard was leaked
        turn.store((turn.load(Ordering::Relaxed) + 1) | 1, Ordering::SeqCst);
        Held { turn }
    }
}

impl Drop for Held<'_> {
    fn drop(&mut self) {
        self.turn.fetch_add(1, Ordering::Release);
    }
}

impl fmt::Debug for Guards {
    fn fmt(&self, f: &mut fmt::Formatter<'_>) -> fmt::Result {
        f.debug_struct("Guards").finish_non_exhaustive()
    }
}

impl fmt::Debug for Guard {
    fn fmt(&self, f: &mut fmt::Formatter<'_>) -> fmt::Result {
        f.debug_struct("Guard").finish_non_exhaustive()
    }
}

impl fmt::Debug for Held<'_> {
    fn fmt(&self, f: &mut fmt::Formatter<'_>) -> fmt::Result {
        f.debug_struct("Held").finish_non_exhaustive()
    }
}
