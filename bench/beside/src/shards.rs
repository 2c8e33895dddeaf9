//! What a Rust programmer writes at first: 64 maps, each under a `RwLock`, by the top bits of the key.

use crate::map::{contents, filled, insert, replace, Map};
use crate::side::{timed, Handle, Side};
use crate::workload::{Case, Mode, Phase};
use std::sync::RwLock;

// How many shards there are, and how far a key's top bits stand from its lowest: the keys have 63.
const SHARDS: usize = 64;
const SHIFT: u32 = 57;

// A shard has a cache line of its own, so that two locks never share one.
#[repr(align(64))]
struct Shard(RwLock<Map>);

/// The shards, by ascending keys.
pub struct Shards(Vec<Shard>);

fn place_of(key: u64) -> usize {
    (key >> SHIFT) as usize % SHARDS
}

impl Shards {
    fn of(&self, key: u64) -> &RwLock<Map> {
        &self.0[place_of(key)].0
    }
}

impl Handle for &Shards {
    fn find(&mut self, key: u64) -> Option<u64> {
        self.of(key).read().unwrap().get(&key).copied()
    }
    fn insert(&mut self, key: u64, pointer: u64) -> bool {
        insert(&mut self.of(key).write().unwrap(), key, pointer)
    }
    fn delete(&mut self, key: u64) -> Option<u64> {
        self.of(key).write().unwrap().remove(&key)
    }
    fn replace(&mut self, key: u64, pointer: u64) -> Option<u64> {
        replace(&mut self.of(key).write().unwrap(), key, pointer)
    }
    // Shard by shard, so the entries aren't those of one time.
    fn scan(&mut self, from: u64, count: usize) -> u64 {
        let (mut sum, mut left) = (0u64, count);
        for shard in &self.0[place_of(from)..] {
            for (key, pointer) in shard.0.read().unwrap().range(from..).take(left) {
                sum = sum.wrapping_add(key ^ pointer);
                left -= 1;
            }
            if left == 0 {
                break;
            }
        }
        sum
    }
}

impl Side for Shards {
    fn open(case: &Case, _: Option<Self>) -> Self {
        let mut maps: Vec<Map> = (0..SHARDS).map(|_| Map::new()).collect();
        for (key, pointer) in filled(case) {
            maps[place_of(key)].insert(key, pointer);
        }
        Shards(maps.into_iter().map(|map| Shard(RwLock::new(map))).collect())
    }

    fn run(&mut self, phase: &Phase) -> Option<(u64, u64)> {
        (phase.mode != Mode::Many).then(|| timed(&mut vec![&*self; phase.threads.len()], phase))
    }

    fn contents(&mut self, keys: &[u64]) -> Vec<Option<u64>> {
        keys.iter().map(|&key| contents(&self.of(key).read().unwrap(), &[key])[0]).collect()
    }
}
