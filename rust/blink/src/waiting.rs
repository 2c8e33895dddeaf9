//! How a thread waits whose operation another one holds up, as that of [`Session::insert`](crate::Session::insert) and the other changes. The
//! exports wait for nobody, and take a number of tries.

use crate::sys::{self, Code, Handle, RawAnswer};
use crate::{Answer, Error};
use std::thread;
use std::time::Duration;

/// How many steps in vain an operation takes before its thread yields. A step in vain reads a word of memory, and a yield is a call of the
/// kernel.
pub(crate) const TRIES: u32 = 100;

/// The most steps in vain of a change that finds the map full, and can't renew it. It takes [`TRIES`] first, and ten times as many each
/// time that it begins again: then its renewal outlasts a call of a thread that was preempted.
pub(crate) const MOST_TRIES: u32 = 1_000_000;

/// How often a thread that waits yields before it sleeps. A yield lets no thread of lesser priority run, which may be the one that holds this
/// one up.
pub(crate) const YIELDS: u32 = 100;

// How long it sleeps then.
const SLEEP: Duration = Duration::from_micros(50);

/// What a call that waits does between two tries.
#[derive(Default)]
pub(crate) struct Pauses(u32);

impl Pauses {
    /// Lets other threads run: it yields, and after [`YIELDS`] times it sleeps.
    pub(crate) fn pause(&mut self) {
        if self.0 < YIELDS {
            self.0 += 1;
            thread::yield_now();
        } else {
            thread::sleep(SLEEP);
        }
    }
}

/// Begins an operation of a session, and takes its steps to the end. It begins again where the session's rows were on their way back, and where
/// the map was being renewed or couldn't be, with more tries then. The handle is full, and a session's.
pub(crate) fn ended(handle: &mut Handle, mut begin: impl FnMut(*mut Handle, u32, *mut RawAnswer) -> Code) -> Result<Answer, Error> {
    let mut answer = RawAnswer::NONE;
    let mut tries = TRIES;
    let mut pauses = Pauses::default();
    let mut code = begin(handle, tries, &mut answer);
    loop {
        code = match code {
            // SAFETY: the handle is full, and borrowed for writing; an operation is under way.
            sys::PENDING => unsafe { sys::blink_session_advance(handle, TRIES, &mut answer) },
            sys::ROWS_BUSY => begin(handle, tries, &mut answer),
            sys::RENEWING => {
                tries = (10 * tries).min(MOST_TRIES);
                begin(handle, tries, &mut answer)
            }
            code => return Error::check(code).map(|()| Answer::of(answer)),
        };
        if matches!(code, sys::PENDING | sys::ROWS_BUSY | sys::RENEWING) {
            pauses.pause();
        }
    }
}

/// Calls until the map isn't being renewed, and returns the last code.
pub(crate) fn renewed(mut call: impl FnMut() -> Code) -> Code {
    let mut pauses = Pauses::default();
    loop {
        let code = call();
        if code != sys::RENEWING {
            return code;
        }
        pauses.pause();
    }
}
