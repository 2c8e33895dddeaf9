//! `BTreeMap` alone, under a `Mutex` and under a `RwLock`.

use crate::side::{timed, Handle, Side};
use crate::workload::{Case, Mode, Phase};
use std::collections::btree_map::Entry;
use std::collections::BTreeMap;
use std::sync::{Mutex, RwLock};

pub type Map = BTreeMap<u64, u64>;

pub fn insert(map: &mut Map, key: u64, pointer: u64) -> bool {
    match map.entry(key) {
        Entry::Vacant(place) => {
            place.insert(pointer);
            true
        }
        Entry::Occupied(_) => false,
    }
}

pub fn replace(map: &mut Map, key: u64, pointer: u64) -> Option<u64> {
    map.get_mut(&key).map(|place| std::mem::replace(place, pointer))
}

fn scan(map: &Map, from: u64, count: usize) -> u64 {
    map.range(from..).take(count).fold(0, |sum, (key, pointer)| sum.wrapping_add(key ^ pointer))
}

pub fn filled(case: &Case) -> Map {
    let mut map = Map::new();
    for &(key, pointer) in case.entries.iter() {
        map.insert(key, pointer);
    }
    map
}

pub fn contents(map: &Map, keys: &[u64]) -> Vec<Option<u64>> {
    keys.iter().map(|key| map.get(key).copied()).collect()
}

impl Handle for &mut Map {
    fn find(&mut self, key: u64) -> Option<u64> {
        self.get(&key).copied()
    }
    fn insert(&mut self, key: u64, pointer: u64) -> bool {
        insert(self, key, pointer)
    }
    fn delete(&mut self, key: u64) -> Option<u64> {
        self.remove(&key)
    }
    fn replace(&mut self, key: u64, pointer: u64) -> Option<u64> {
        replace(self, key, pointer)
    }
    fn scan(&mut self, from: u64, count: usize) -> u64 {
        scan(self, from, count)
    }
}

// A map that nobody can change: it is what looking up costs at least, and no peer of a map that threads change.
impl Handle for &Map {
    fn find(&mut self, key: u64) -> Option<u64> {
        self.get(&key).copied()
    }
    fn scan(&mut self, from: u64, count: usize) -> u64 {
        scan(self, from, count)
    }
}

impl Side for Map {
    fn open(case: &Case, _: Option<Map>) -> Map {
        filled(case)
    }

    fn run(&mut self, phase: &Phase) -> Option<(u64, u64)> {
        match (phase.mode, phase.threads.len()) {
            (Mode::Many, _) => None,
            (_, 1) => Some(timed(&mut [self], phase)),
            (_, threads) if !phase.changes() => Some(timed(&mut vec![&*self; threads], phase)),
            _ => None,
        }
    }

    fn contents(&mut self, keys: &[u64]) -> Vec<Option<u64>> {
        contents(self, keys)
    }
}

impl Handle for &Mutex<Map> {
    fn find(&mut self, key: u64) -> Option<u64> {
        self.lock().unwrap().get(&key).copied()
    }
    fn insert(&mut self, key: u64, pointer: u64) -> bool {
        insert(&mut self.lock().unwrap(), key, pointer)
    }
    fn delete(&mut self, key: u64) -> Option<u64> {
        self.lock().unwrap().remove(&key)
    }
    fn replace(&mut self, key: u64, pointer: u64) -> Option<u64> {
        replace(&mut self.lock().unwrap(), key, pointer)
    }
    fn scan(&mut self, from: u64, count: usize) -> u64 {
        scan(&self.lock().unwrap(), from, count)
    }
}

impl Side for Mutex<Map> {
    fn open(case: &Case, _: Option<Self>) -> Self {
        Mutex::new(filled(case))
    }

    fn run(&mut self, phase: &Phase) -> Option<(u64, u64)> {
        (phase.mode != Mode::Many).then(|| timed(&mut vec![&*self; phase.threads.len()], phase))
    }

    fn contents(&mut self, keys: &[u64]) -> Vec<Option<u64>> {
        contents(self.get_mut().unwrap(), keys)
    }
}

impl Handle for &RwLock<Map> {
    fn find(&mut self, key: u64) -> Option<u64> {
        self.read().unwrap().get(&key).copied()
    }
    fn insert(&mut self, key: u64, pointer: u64) -> bool {
        insert(&mut self.write().unwrap(), key, pointer)
    }
    fn delete(&mut self, key: u64) -> Option<u64> {
        self.write().unwrap().remove(&key)
    }
    fn replace(&mut self, key: u64, pointer: u64) -> Option<u64> {
        replace(&mut self.write().unwrap(), key, pointer)
    }
    fn scan(&mut self, from: u64, count: usize) -> u64 {
        scan(&self.read().unwrap(), from, count)
    }
}

impl Side for RwLock<Map> {
    fn open(case: &Case, _: Option<Self>) -> Self {
        RwLock::new(filled(case))
    }

    fn run(&mut self, phase: &Phase) -> Option<(u64, u64)> {
        (phase.mode != Mode::Many).then(|| timed(&mut vec![&*self; phase.threads.len()], phase))
    }

    fn contents(&mut self, keys: &[u64]) -> Vec<Option<u64>> {
        contents(self.get_mut().unwrap(), keys)
    }
}
