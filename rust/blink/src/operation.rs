//! Operations on keys, and their answers.

use crate::sys::{RawAnswer, RawOperation};

/// One operation of a batch. An exchange of an expected pointer isn't among them: it is a call of its own, as
/// [`Session::compare_exchange`](crate::Session::compare_exchange). So is a removal of an expected pointer, as
/// [`Session::compare_remove`](crate::Session::compare_remove).
#[derive(Clone, Copy, Debug, PartialEq, Eq, Hash)]
#[non_exhaustive]
pub enum Op {
    /// Looks a key up.
    Get(u64),
    /// Maps a key to a pointer, unless the key is there.
    Insert(u64, u64),
    /// Takes a key away, if it is there.
    Remove(u64),
    /// Maps a key to a pointer, if the key is there.
    Replace(u64, u64),
}

impl Op {
    pub(crate) fn raw(self) -> RawOperation {
        let (kind, key, pointer) = match self {
            Op::Get(key) => (0, key, 0),
            Op::Insert(key, pointer) => (1, key, pointer),
            Op::Remove(key) => (2, key, 0),
            Op::Replace(key, pointer) => (3, key, pointer),
        };
        RawOperation { kind, key, pointer }
    }
}

/// What an operation found and did. An insertion of a key that is there, say, does nothing: the answer tells.
///
/// ```
/// use blink::{Answer, Index};
///
/// let mut index = Index::new(32)?;
/// index.insert(5, 50)?;
/// let answer = index.compare_exchange(5, 40, 41);
/// assert_eq!((answer, answer.changed(), answer.pointer()), (Answer::Exists(50), false, Some(50)));
/// let answer = index.compare_exchange(5, 50, 51);
/// assert_eq!((answer, answer.changed(), answer.pointer()), (Answer::Replaced(50), true, Some(50)));
/// # Ok::<(), blink::Error>(())
/// ```
#[derive(Clone, Copy, Debug, PartialEq, Eq, Hash)]
pub enum Answer {
    /// A look-up, a removal, a replacement or an exchange: the key isn't there, and nothing changed.
    Absent,
    /// A look-up: the key maps to this pointer.
    Found(u64),
    /// An insertion: the key wasn't there, and maps to the pointer now.
    Inserted,
    /// An insertion, an exchange, or a removal of an expected pointer: the key maps to this pointer, and nothing changed.
    Exists(u64),
    /// A removal: the key mapped to this pointer, and is no longer there.
    Removed(u64),
    /// A replacement or an exchange: the key mapped to this pointer, and maps to the new one now.
    Replaced(u64),
}

impl Answer {
    pub(crate) fn of(raw: RawAnswer) -> Answer {
        match raw.kind {
            0 => Answer::Absent,
            1 => Answer::Found(raw.pointer),
            2 => Answer::Inserted,
            3 => Answer::Exists(raw.pointer),
            4 => Answer::Removed(raw.pointer),
            5 => Answer::Replaced(raw.pointer),
            kind => unreachable!("libblink gave an answer of kind {kind}"),
        }
    }

    /// Whether the operation changed the map: what it was to insert, replace or remove was so.
    pub fn changed(self) -> bool {
        matches!(self, Answer::Inserted | Answer::Removed(_) | Answer::Replaced(_))
    }

    /// The pointer that the answer tells: that of a key that is there, or was there before the change. An absent or inserted key had none.
    pub fn pointer(self) -> Option<u64> {
        match self {
            Answer::Absent | Answer::Inserted => None,
            Answer::Found(pointer) | Answer::Exists(pointer) | Answer::Removed(pointer) | Answer::Replaced(pointer) => {
                Some(pointer)
            }
        }
    }
}
