//! A proved B-link tree index, and a map that threads share without a global lock.
//!
//! What happens behind these types is proved: `libblink` is built from Rattle code, whose every function is proved to meet its
//! contract (crates/blink_c of the repository has those of the calls). This crate is a thin layer of Rust over it, which isn't
//! proved but keeps by its types what `include/blink.h` asks of a caller. A program needs `libblink.a`,
//! which `./libblink` builds in the repository's `out`. `BLINK_LIB_DIR` names another folder, by an absolute path; so `cargo package` needs
//! it, which builds a copy of the crate elsewhere.
//!
//! ```
//! use blink::Map;
//!
//! let map = Map::default();
//! std::thread::scope(|scope| {
//!     for thread in 0..2 {
//!         let mut session = map.session().unwrap();
//!         scope.spawn(move || (0..1000).for_each(|key| _ = session.put(key, key * 10 + thread).unwrap()));
//!     }
//! });
//! let index = map.close()?;
//! assert_eq!((index.len(), index.get(7).unwrap() / 10), (1000, 7));
//! # Ok::<(), blink::Error>(())
//! ```
//!
//! - [`Index`] is a map from 64-bit keys to 64-bit record pointers, for one thread at a time. A record pointer is any number of 64 bits.
//! - [`Reader`] reads an index that other threads read at the same time, each by a reader of its own.
//! - [`Map`] shares the entries of an index among threads. Any of them changes any key, each by a [`Session`]. It has no room to be told: it
//!   grows. Who wants no pause of changes opens it with a [fixed room](Map::open_fixed).
//! - [`Guards`] tell when an object may be freed whose pointer was taken out of a map.
//! - [`keys`] makes keys of signed numbers, of floats and of pairs, in their order.
//!
//! A `BTreeMap`'s calls have these names here. `insert` differs most: it leaves a present key as it is.
//!
//! `BTreeMap` | An [`Index`], and a [`Session`] of a map
//! ---|---
//! `new` | [`Index::new`]`(32)?` or `Index::default()`; [`Map::new`]`(32)?` or `Map::default()`
//! `insert` | `put`, which returns the pointer before; `insert` only inserts
//! `remove` | `remove(key).pointer()`
//! `contains_key` | `contains`
//! `get`, `map[&key]` | `get`, which returns the pointer itself; no call lends a reference, so `get_mut`, `iter_mut` and `values_mut` are `update`
//! `first_key_value`, `last_key_value` | `first`, `last`
//! `range(..key).next_back()`, `range(key..).next()` | `prev`, `at_least`
//! `range(..).rev()` | the same
//! `range(key..).take(n)` | the same; of a session `range(key..).limit(n)`, which reads no more than these entries
//! `entry` | `update`
//! `retain(keeps)` | `retain(.., keeps)`, which returns how many entries it took
//! `into_iter` | `iter`, or `for entry in &index`; there is no iterator that owns the index
//! `keys`, `values` | `iter().map(..)`, of a session `range(..).map(..)`
//! `len` | `len`; of a session `count(..)`, which walks the leaves
//!
//! A call that takes a range of keys takes each that `BTreeMap::range` takes, and panics where that one does: where the range's start is
//! above its end, or one key is excluded from both sides.
//!
//! What a thread wrote before it stored a pointer by a session is seen by whoever gets this pointer from another session, by a
//! look-up, a range, a snapshot or a change (tested). So a pointer may be the address of a record, which isn't changed from then on
//! but by what orders memory itself.
#![warn(missing_docs)]

mod collection;
mod error;
mod guards;
mod index;
pub mod keys;
mod map;
mod memory;
mod operation;
mod ordered;
mod range;
mod read;
mod reader;
mod session;
mod sys;
mod waiting;

pub use error::Error;
pub use guards::{Guard, Guards, Held, Noted};
pub use index::{Applied, Index};
pub use map::{Left, Map, Room, Unclosed};
pub use operation::{Answer, Op};
pub use range::{Limit, LiveRange};
pub use read::Range;
pub use reader::Reader;
pub use session::{Holding, Reserve, Session};
