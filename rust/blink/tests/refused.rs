//! What an index keeps where malloc gives the library no memory: nothing is lost, whichever request is refused.

use blink::{Error, Index};
use std::cell::Cell;
use std::collections::BTreeMap;
use std::ffi::c_void;
use std::ptr;

extern "C" {
    fn __libc_malloc(bytes: usize) -> *mut c_void;
    fn __libc_realloc(at: *mut c_void, bytes: usize) -> *mut c_void;
}

thread_local! {
    // The request of this thread that is refused, counted down to 0; negative for none.
    static REFUSED_AT: Cell<i64> = const { Cell::new(-1) };
}

fn is_refused() -> bool {
    REFUSED_AT.with(|at| {
        let left = at.get();
        at.set((left - 1).max(-1));
        left == 0
    })
}

/// Stands before the C library's function in this program.
#[no_mangle]
unsafe extern "C" fn malloc(bytes: usize) -> *mut c_void {
    if is_refused() {
        return ptr::null_mut();
    }
    __libc_malloc(bytes)
}

/// Stands before the C library's function in this program.
#[no_mangle]
unsafe extern "C" fn realloc(at: *mut c_void, bytes: usize) -> *mut c_void {
    if is_refused() {
        return ptr::null_mut();
    }
    __libc_realloc(at, bytes)
}

// Makes the call on what `fresh` gives, with its first request for memory refused, then with its second, and so on, until it makes fewer. Where
// the call is refused `looks` is asked; it may also do without. Returns how often it was refused, and what the last call was made on.
fn with_each_refused<T>(fresh: impl Fn() -> T, call: impl Fn(&mut T) -> Result<(), Error>, looks: impl Fn(&T)) -> (usize, T) {
    let mut refused = 0;
    for request in 0.. {
        let mut it = fresh();
        REFUSED_AT.with(|at| at.set(request));
        let told = call(&mut it);
        let is_past = REFUSED_AT.with(|at| at.replace(-1)) < 0;
        match told {
            Ok(()) if is_past => {}
            Ok(()) => return (refused, it),
            Err(error) => {
                assert_eq!(error, Error::OutOfMemory, "request {request}");
                looks(&it);
                refused += 1;
            }
        }
    }
    unreachable!()
}

// Even keys, and many more that 3 divides: the first index needs memory for them.
fn two() -> (Index, Index) {
    let of = |keys: u64, step: usize, times: u64| Index::from_entries(4, (0..keys).step_by(step).map(|key| (key, key * times))).unwrap();
    (of(300, 2, 10), of(6_000, 3, 20))
}

#[test]
fn an_append_that_is_refused_loses_no_entry() {
    let (one, other) = two();
    let all: BTreeMap<u64, u64> = one.iter().chain(&other).collect();
    let append = |both: &mut (Index, Index)| both.0.append(&mut both.1);
    let (refused, both) = with_each_refused(two, append, |both| {
        let left: BTreeMap<u64, u64> = both.0.iter().chain(&both.1).collect();
        assert_eq!(left, all);
    });
    assert!(refused > 0 && both.1.is_empty() && both.0.iter().eq(all));
}

#[test]
fn a_split_that_is_refused_changes_nothing() {
    let all: Vec<(u64, u64)> = two().0.iter().collect();
    let split = |both: &mut (Index, Index)| {
        both.1 = both.0.split_off(100)?;
        Ok(())
    };
    let (refused, both) = with_each_refused(two, split, |both| assert!(both.0.iter().eq(all.iter().copied())));
    assert!(refused > 0 && both.0.iter().chain(&both.1).eq(all) && both.1.first() == Some((100, 1000)));
}
