//! Eight threads at one map that grows, each with a plain map of its own keys beside its session.

use blink::{Answer, Index, Map, Session};
use std::collections::BTreeMap;
use std::thread;

const THREADS: u64 = 8;
const KEYS: u64 = 400;
const ROUNDS: u64 = 6_000;

// Finds and changes. No other thread changes these keys, so the session's answers are those of the thread's own map.
fn work(session: &mut Session, own: &[u64], map: &mut BTreeMap<u64, u64>, seed: u64) {
    let mut state = seed;
    for round in 0..ROUNDS {
        state = state.wrapping_mul(6_364_136_223_846_793_005).wrapping_add(1_442_695_040_888_963_407);
        let key = own[(state >> 33) as usize % own.len()];
        let kept = map.get(&key).copied();
        let expected = |some: fn(u64) -> Answer, none: Answer| kept.map_or(none, some);
        match (state >> 20) % 5 {
            0 | 1 => {
                assert_eq!(session.insert(key, round), Ok(expected(Answer::Exists, Answer::Inserted)));
                map.entry(key).or_insert(round);
            }
            2 => {
                assert_eq!(session.remove(key), Ok(expected(Answer::Removed, Answer::Absent)));
                map.remove(&key);
            }
            3 => {
                assert_eq!(session.replace(key, round), Ok(expected(Answer::Replaced, Answer::Absent)));
                map.entry(key).and_modify(|pointer| *pointer = round);
            }
            _ => assert_eq!(session.get(key), kept),
        }
        if round % 1_000 == 0 {
            // a scan has each key once, and of the thread's own keys exactly its map's entries
            let seen: Vec<(u64, u64)> = session.range(..).collect();
            assert!(seen.windows(2).all(|two| two[0].0 < two[1].0));
            let ours = seen.into_iter().filter(|(key, _)| own.contains(key));
            assert!(ours.eq(map.iter().map(|(&key, &pointer)| (key, pointer))));
        }
    }
}

#[test]
fn eight_threads_share_one_map() {
    let before: Vec<(u64, u64)> = (0..THREADS * KEYS).step_by(3).map(|key| (key, key * 2)).collect();
    let index = Index::from_entries(4, before.iter().copied()).unwrap();
    let map = Map::open(&index).unwrap();
    let owned: Vec<Vec<u64>> = (0..THREADS).map(|i| (0..KEYS).map(|k| k * THREADS + i).collect()).collect();
    let mut sessions: Vec<Session> = owned.iter().map(|_| map.session().unwrap()).collect();
    let mut maps: Vec<BTreeMap<u64, u64>> = owned
        .iter()
        .map(|own| own.iter().filter(|key| *key % 3 == 0).map(|key| (*key, key * 2)).collect())
        .collect();
    thread::scope(|scope| {
        let mut workers = Vec::new();
        for (i, ((session, own), map)) in sessions.iter_mut().zip(&owned).zip(&mut maps).enumerate() {
            workers.push(scope.spawn(move || work(session, own, map, i as u64)));
        }
        // joined one by one, which ThreadSanitizer sees, where it doesn't see a scope's end
        workers.into_iter().for_each(|worker| worker.join().unwrap());
    });
    // what the others did is seen by a session that had no part in it
    for (own, map) in owned.iter().zip(&maps) {
        assert!(own.iter().all(|key| sessions[0].get(*key) == map.get(key).copied()));
    }
    drop(sessions);
    let closed = map.close().unwrap();
    let expected: BTreeMap<u64, u64> = maps.into_iter().flatten().collect();
    assert!(closed.iter().eq(expected.into_iter()));
    assert!(index.iter().eq(before));
}
