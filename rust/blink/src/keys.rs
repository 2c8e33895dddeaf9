//! Keys of other types, in the order of their values.
//!
//! A key of a map is an unsigned number of 64 bits. These functions make one of a value of another type and get the value back, so that
//! keys are in the order that the values are in, and a range of values is a range of keys. `docs/KEYS.md` of the repository has more:
//! several rows with one value, and keys that are wider than 64 bits.
//!
//! ```
//! use blink::{keys, Index};
//!
//! let mut temperatures = Index::new(32)?;
//! for (row, celsius) in [-1.5, 20.25, -40.0, 3.0].into_iter().enumerate() {
//!     temperatures.insert(keys::of_f64(celsius), row as u64)?;
//! }
//! let below_zero = temperatures.range(..keys::of_f64(0.0)).map(|(key, row)| (keys::to_f64(key), row));
//! assert_eq!(below_zero.collect::<Vec<_>>(), [(-40.0, 2), (-1.5, 0)]);
//! # Ok::<(), blink::Error>(())
//! ```

const SIGN: u64 = 1 << 63;

/// The key of a signed number: the least number has key 0, and -1 the key just below that of 0.
///
/// ```
/// use blink::keys::{of_i64, to_i64};
///
/// assert_eq!([i64::MIN, -1, 0, i64::MAX].map(of_i64), [0, (1 << 63) - 1, 1 << 63, u64::MAX]);
/// assert_eq!(to_i64(of_i64(-7)), -7);
/// ```
pub const fn of_i64(value: i64) -> u64 {
    value as u64 ^ SIGN
}

/// The signed number of a key: what [`of_i64`] was given.
pub const fn to_i64(key: u64) -> i64 {
    (key ^ SIGN) as i64
}

/// The key of a float. The order is that of [`f64::total_cmp`]: -0.0 comes just before 0.0, and NaNs are at both ends, by their sign.
///
/// ```
/// use blink::keys::{of_f64, to_f64};
///
/// let keys = [f64::NEG_INFINITY, -1.5, -0.0, 0.0, 1e-300, 1.5, f64::INFINITY].map(of_f64);
/// assert!(keys.windows(2).all(|two| two[0] < two[1]));
/// assert_eq!(to_f64(of_f64(-1.5)), -1.5);
/// ```
pub fn of_f64(value: f64) -> u64 {
    let bits = value.to_bits();
    // Of negative floats the greater bits are the lesser value.
    if bits & SIGN == 0 {
        bits | SIGN
    } else {
        !bits
    }
}

/// The float of a key: what [`of_f64`] was given, bit for bit.
pub fn to_f64(key: u64) -> f64 {
    f64::from_bits(if key & SIGN == 0 { !key } else { key ^ SIGN })
}

/// The key of two numbers, in the order of the first and then of the second: a value and a row's number, say, so that several rows may
/// have one value. All rows of a value are the range from `of_pair(value, 0)` to `of_pair(value, u32::MAX)`, both included.
///
/// ```
/// use blink::{keys, Index};
///
/// let people: Index = [(41, 7), (30, 9), (41, 2)].into_iter().map(|(age, row)| (keys::of_pair(age, row), 0)).collect();
/// let of_41 = people.range(keys::of_pair(41, 0)..=keys::of_pair(41, u32::MAX)).map(|(key, _)| keys::to_pair(key).1);
/// assert_eq!(of_41.collect::<Vec<_>>(), [2, 7]);
/// ```
pub const fn of_pair(first: u32, second: u32) -> u64 {
    (first as u64) << 32 | second as u64
}

/// The two numbers of a key: what [`of_pair`] was given.
pub const fn to_pair(key: u64) -> (u32, u32) {
    ((key >> 32) as u32, key as u32)
}
