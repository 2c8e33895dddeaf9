//! Counts the words of a file by four threads at one map. Run: cargo run --release -- FILE

use blink::{Error, Map, Session};
use std::collections::hash_map::{DefaultHasher, HashMap};
use std::hash::{Hash, Hasher};
use std::{env, fs, thread};

const THREADS: usize = 4;

// Two words with one hash would be counted as one.
fn hash_of(word: &str) -> u64 {
    let mut hasher = DefaultHasher::new();
    word.to_lowercase().hash(&mut hasher);
    hasher.finish()
}

// A key is a word's hash, and its pointer the number of times that the word was met. Another thread may count the same word.
fn count(session: &mut Session, words: &[u64]) -> Result<(), Error> {
    words.iter().try_for_each(|&word| session.update(word, |met| Some(met.unwrap_or(0) + 1)).map(|_| ()))
}

fn main() -> Result<(), Box<dyn std::error::Error>> {
    let text = fs::read_to_string(env::args().nth(1).unwrap_or("word_count.rs".into()))?;
    let spelled = text.split(|c: char| !c.is_alphabetic()).filter(|word| !word.is_empty());
    let names: HashMap<u64, &str> = spelled.clone().map(|word| (hash_of(word), word)).collect();
    let words: Vec<u64> = spelled.map(hash_of).collect();

    let map = Map::default();
    thread::scope(|scope| {
        let mut workers = Vec::new();
        for part in words.chunks(((words.len() + THREADS - 1) / THREADS).max(1)) {
            let mut session = map.session()?;
            workers.push(scope.spawn(move || count(&mut session, part)));
        }
        workers.into_iter().try_for_each(|worker| worker.join().expect("a worker panicked"))
    })?;

    let index = map.close()?;
    let mut counted: Vec<_> = index.iter().map(|(key, pointer)| (pointer, names[&key])).collect();
    counted.sort_by(|a, b| b.cmp(a));
    println!("{} words, {} different", words.len(), index.len());
    for (count, word) in counted.iter().take(5) {
        println!("{count:5} {word}");
    }
    Ok(())
}
