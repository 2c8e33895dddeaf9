//! Lists whose memory may be refused: then the call that needs one is refused, and the process goes on.

use crate::Error;

// An empty list with room for so many.
pub(crate) fn with_room<T>(count: usize) -> Result<Vec<T>, Error> {
    let mut list = Vec::new();
    match list.try_reserve_exact(count) {
        Ok(()) => Ok(list),
        Err(_) => Err(Error::OutOfMemory),
    }
}

// A list of all items.
pub(crate) fn collected<T>(items: impl IntoIterator<Item = T>) -> Result<Vec<T>, Error> {
    let mut list = Vec::new();
    for item in items {
        if list.try_reserve(1).is_err() {
            return Err(Error::OutOfMemory);
        }
        list.push(item);
    }
    Ok(list)
}

// The list gets or loses elements at its end, so that it has so many. A refusal leaves it as it was.
pub(crate) fn resize<T: Clone>(list: &mut Vec<T>, count: usize, with: T) -> Result<(), Error> {
    let more = count.saturating_sub(list.len());
    if list.try_reserve_exact(more).is_err() {
        return Err(Error::OutOfMemory);
    }
    list.resize(count, with);
    Ok(())
}
