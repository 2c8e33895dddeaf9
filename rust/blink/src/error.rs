//! Why a call is refused.

use crate::sys::Code;
use std::fmt;

/// Why a call is refused. A refused call changes nothing but where its documentation says so.
#[derive(Clone, Copy, Debug, PartialEq, Eq, Hash)]
#[non_exhaustive]
pub enum Error {
    /// The fan isn't from 4 to 32.
    BadFan,
    /// More page numbers might be needed than exist: 1 + pages + 22 for each insertion is above 1,048,576; or, of a map, the
    /// index's pages and the page numbers of its room are above 1,048,575; or ascending entries need more than 1,048,575 pages.
    TooLarge,
    /// Memory was refused.
    OutOfMemory,
    /// The key at this place of the entries, counted from 0, isn't above the one before. It is the first such place.
    NotAscending(usize),
    /// A session of the map hasn't been dropped.
    Missing,
    /// The room of a map is for 1 to 256 sessions.
    BadSessions,
    /// Each place for a session is taken.
    NoSession,
    /// The map's room is [fixed](crate::Map::open_fixed), and the session has too few rows or page numbers in all for the change, and the map's
    /// pool too; or the map was to be renewed. [`Map`](crate::Map#a-map-that-is-full) says what goes on then, and how a program opens a larger
    /// map.
    Full,
    /// The map is being renewed by another thread; or it can't be, since a session is held or in a call.
    Renewing,
    /// The map was closed before. [`Map::close`](crate::Map::close) takes the map, so this crate's calls never return it.
    Closed,
}

impl Error {
    // Codes that the types of this crate exclude don't come here.
    pub(crate) fn of(code: Code) -> Error {
        match code {
            32 | 101 => Error::TooLarge,
            40 => Error::BadFan,
            41 => Error::OutOfMemory,
            106 => Error::Missing,
            102 => Error::BadSessions,
            103 => Error::NoSession,
            105 => Error::Full,
            108 => Error::Closed,
            109 => Error::Renewing,
            _ => unreachable!("libblink returned code {code}"),
        }
    }

    pub(crate) fn check(code: Code) -> Result<(), Error> {
        match code {
            0 => Ok(()),
            code => Err(Error::of(code)),
        }
    }
}

impl fmt::Display for Error {
    fn fmt(&self, f: &mut fmt::Formatter<'_>) -> fmt::Result {
        match self {
            Error::BadFan => f.write_str("the fan has to be 4 to 32"),
            Error::TooLarge => f.write_str("more pages might be needed than the 1,048,575 that there are: take fewer entries, fewer insertions or a smaller room"),
            Error::OutOfMemory => f.write_str("memory was refused"),
            Error::NotAscending(place) => write!(f, "the key of entry {place}, counted from 0, is not above the one before: sort the entries, and keep one of equal keys"),
            Error::Missing => f.write_str("a session of the map was not dropped, and has to be"),
            Error::BadSessions => f.write_str("the room of a map is for 1 to 256 sessions"),
            Error::NoSession => f.write_str("each place for a session is taken: drop a session, or open the map with more places"),
            Error::Full => f.write_str("too few page numbers or rows are left: close the map, and open one with more room over the index, or one that grows"),
            Error::Closed => f.write_str("the map is closed"),
            Error::Renewing => f.write_str("the map is being renewed, or cannot be, since a session is held or in a call: try again"),
        }
    }
}

impl std::error::Error for Error {}
