//! What `blink run` and the program `inside` are compared with: a script, and a batch, run on a `BTreeMap`.

use crate::map::Map;
use crate::workload::Random;
use std::error::Error;
use std::io::{self, BufRead, Write};
use std::time::Instant;

/// How many batches a script has.
const BATCHES: usize = 10;
/// The keys of a script are below this number.
const KEYS: u64 = 65_536;

/// Prints a script: batches of so many operations, each ended by a scan of a small range. Half of the operations are insertions, three
/// in eight are finds and one in eight is a deletion.
pub fn make(operations: usize) -> Result<(), Box<dyn Error>> {
    let mut random = Random(1);
    let mut output = io::BufWriter::new(io::stdout().lock());
    for _ in 0..BATCHES {
        for _ in 0..operations {
            let key = random.word() % KEYS;
            match random.word() % 8 {
                0..=3 => writeln!(output, "insert,{key},{}", !key)?,
                4..=6 => writeln!(output, "find,{key},")?,
                _ => writeln!(output, "delete,{key},")?,
            }
        }
        let low = random.word() % KEYS;
        writeln!(output, "scan,{low},{}", low + 100)?;
    }
    Ok(output.flush()?)
}

/// Reads a script on standard input, and prints the bytes that `blink run` does.
pub fn run() -> Result<(), Box<dyn Error>> {
    let mut map = Map::new();
    let mut output = io::BufWriter::new(io::stdout().lock());
    for line in io::stdin().lock().lines() {
        let line = line?;
        let fields: Vec<&str> = line.split(',').collect();
        match fields.as_slice() {
            ["insert", key, pointer] => match map.get(&key.parse()?) {
                Some(kept) => writeln!(output, "exists {kept}")?,
                None => {
                    map.insert(key.parse()?, pointer.parse()?);
                    writeln!(output, "inserted")?;
                }
            },
            ["find", key, _] => match map.get(&key.parse()?) {
                Some(pointer) => writeln!(output, "found {pointer}")?,
                None => writeln!(output, "absent")?,
            },
            ["delete", key, _] => match map.remove(&key.parse()?) {
                Some(pointer) => writeln!(output, "removed {pointer}")?,
                None => writeln!(output, "absent")?,
            },
            ["scan", low, high] => {
                let mut shown = 0;
                for (key, pointer) in map.range(low.parse::<u64>()?..=high.parse()?) {
                    writeln!(output, "{key} {pointer}")?;
                    shown += 1;
                }
                writeln!(output, "end {shown}")?;
            }
            _ => return Err(format!("no row of a script: {line}").into()),
        }
    }
    Ok(output.flush()?)
}

/// How many insertions a timed batch has, and how often it is timed, as in bench/inside.
const INSERTIONS: u64 = 4_096;
const ROUNDS: usize = 15;

// The number at a place of a sequence that is spread over all words. No two places have the same.
fn spread(place: u64) -> u64 {
    Random(place.wrapping_mul(0x9e37_79b9_7f4a_7c15)).word()
}

/// Prints a sum of all entries after insertions into a map of so many, and the nanoseconds that the insertions took.
pub fn batch(entries: u64) -> Result<(), Box<dyn Error>> {
    let mut map = Map::new();
    for key in (0..entries).map(spread) {
        map.insert(key, !key);
    }
    let keys: Vec<u64> = (entries..entries + INSERTIONS).map(spread).collect();
    let mut times = Vec::new();
    let mut sum = 0u64;
    for _ in 0..ROUNDS {
        let mut grown = map.clone();
        let start = Instant::now();
        for &key in &keys {
            grown.insert(key, !key);
        }
        times.push(start.elapsed().as_nanos());
        let add = |sum: u64, word: u64| sum.wrapping_mul(31).wrapping_add(word);
        sum = grown.iter().fold(0, |sum, (&key, &pointer)| add(add(sum, key), pointer));
    }
    times.sort_unstable();
    println!("{sum} {}", times[ROUNDS / 2]);
    Ok(())
}
