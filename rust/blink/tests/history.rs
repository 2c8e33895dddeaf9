//! Histories of eight threads at one map: for each key the calls have to be those of a register in some order that keeps real time.
//!
//! Each call is written down with the times before and after it. The keys are independent, so each is searched for by itself, as Wing and
//! Gong do: a call may come next if no other that is left ended before it began. Every pointer is stored by one call alone, so that a value
//! read tells which call stored it.

mod tried;

use blink::{Answer, Index, Map, Op, Reserve, Room, Session};
use std::collections::{BTreeSet, HashMap, HashSet};
use std::sync::atomic::{AtomicBool, Ordering};
use std::thread;
use std::time::{Duration, Instant};
use tried::sys::{Code, RENEWING, ROWS_BUSY};

const THREADS: u64 = 8;

// The pointer that a key has, or none.
type State = Option<u64>;

/// A call: when it began and ended, what the key was by its answer, and what it left.
#[derive(Clone, Copy, Debug)]
struct Call {
    thread: usize,
    begin: u64,
    end: u64,
    key: u64,
    saw: State,
    left: State,
}

// ---- the search

// The calls of one key, as far as they go to the next time when none is pending, by threads.
type Window = Vec<Vec<Call>>;

// Cuts the calls of a key at each time when none is pending.
fn windows(mut calls: Vec<Call>) -> Vec<Window> {
    calls.sort_by_key(|call| call.begin);
    let mut windows: Vec<Window> = Vec::new();
    let mut last = None;
    for call in calls {
        if last.map_or(true, |end| end < call.begin) {
            windows.push(vec![Vec::new(); THREADS as usize]);
        }
        last = last.max(Some(call.end));
        windows.last_mut().unwrap()[call.thread].push(call);
    }
    windows
}

// The states that a window may end with, where it begins with one of these: none, if its calls have no such order. A thread's calls come
// one after another, so their numbers say which are done.
fn ends(window: &Window, begins: &BTreeSet<State>) -> BTreeSet<State> {
    let mut found = BTreeSet::new();
    let mut seen = HashSet::new();
    let mut stack: Vec<(Vec<usize>, State)> = begins.iter().map(|state| (vec![0; window.len()], *state)).collect();
    while let Some((done, state)) = stack.pop() {
        if !seen.insert((done.clone(), state)) {
            continue;
        }
        let next = || window.iter().zip(&done).filter_map(|(calls, done)| calls.get(*done));
        let Some(first_end) = next().map(|call| call.end).min() else {
            found.insert(state);
            continue;
        };
        let mut can_come: Vec<&Call> = next().filter(|call| call.begin <= first_end && call.saw == state).collect();
        // one that changes nothing may come at once: wherever it comes later, it can come here
        if let Some(look) = can_come.iter().position(|call| call.left == call.saw) {
            can_come = vec![can_come[look]];
        }
        for call in can_come {
            let mut done = done.clone();
            done[call.thread] += 1;
            stack.push((done, call.left));
        }
    }
    found
}

// Whether the calls of each key have an order in which each saw what the one before it left.
fn is_linearizable(history: &[Call], opening: &HashMap<u64, u64>) -> bool {
    let mut by_key: HashMap<u64, Vec<Call>> = HashMap::new();
    for call in history {
        by_key.entry(call.key).or_default().push(*call);
    }
    by_key.into_iter().all(|(key, calls)| {
        let begins = BTreeSet::from([opening.get(&key).copied()]);
        !windows(calls).iter().fold(begins, |states, window| ends(window, &states)).is_empty()
    })
}

// ---- the recording

// What is done at a map, which may be renewed all the while.
#[derive(Clone, Copy)]
struct Plan {
    keys: u64,
    fan: u8,
    calls: u64,
    renewed: bool,
}

fn next_random(state: &mut u64) -> u64 {
    *state ^= *state << 13;
    *state ^= *state >> 7;
    *state ^= *state << 17;
    *state
}

// What a key was by an answer of an operation, and what it is then.
fn told_by(op: Op, answer: Answer) -> (State, State) {
    match (op, answer) {
        (Op::Insert(_, pointer), Answer::Inserted) => (None, Some(pointer)),
        (Op::Insert(..), Answer::Exists(there)) => (Some(there), Some(there)),
        (Op::Remove(_), Answer::Removed(was)) => (Some(was), None),
        (Op::Replace(_, pointer), Answer::Replaced(was)) => (Some(was), Some(pointer)),
        (Op::Get(_), Answer::Found(there)) => (Some(there), Some(there)),
        (Op::Remove(_) | Op::Replace(..) | Op::Get(_), Answer::Absent) => (None, None),
        (op, answer) => panic!("{op:?} answered {answer:?}"),
    }
}

// What the threads share: a map of the crate, whose calls are whole; or one by the exports that wait for nobody, whose operations go by steps.
trait Shared: Sync {
    type Session;
    fn session(&self) -> Self::Session;
    // An operation's answer, and how often it rested.
    fn call(session: &mut Self::Session, op: Op, random: &mut u64) -> (Answer, u64);
    // What a put replaced, and how often it rested.
    fn put(session: &mut Self::Session, key: u64, pointer: u64, random: &mut u64) -> (State, u64);
    // Renews the map, and returns whether it could.
    fn renew(&self) -> bool;
    // Closes the map, and returns its entries.
    fn close(self) -> HashMap<u64, u64>;
}

impl Shared for Map {
    type Session = Session;

    fn session(&self) -> Session {
        Map::session(self).unwrap()
    }

    fn call(session: &mut Session, op: Op, _: &mut u64) -> (Answer, u64) {
        let answer = match op {
            Op::Insert(key, pointer) => session.insert(key, pointer).unwrap(),
            Op::Remove(key) => session.remove(key).unwrap(),
            Op::Replace(key, pointer) => session.replace(key, pointer).unwrap(),
            Op::Get(key) => session.get(key).map_or(Answer::Absent, Answer::Found),
            other => unreachable!("{other:?}"),
        };
        (answer, 0)
    }

    fn put(session: &mut Session, key: u64, pointer: u64, _: &mut u64) -> (State, u64) {
        (session.put(key, pointer).unwrap(), 0)
    }

    fn renew(&self) -> bool {
        Map::renew(self, 1_000_000).is_ok()
    }

    fn close(self) -> HashMap<u64, u64> {
        Map::close(self).unwrap().iter().collect()
    }
}

impl Shared for tried::Map {
    type Session = tried::Session;

    fn session(&self) -> tried::Session {
        tried::Map::session(self)
    }

    fn call(session: &mut tried::Session, op: Op, random: &mut u64) -> (Answer, u64) {
        by_steps(session, |session| session.begin(op, 1), random)
    }

    fn put(session: &mut tried::Session, key: u64, pointer: u64, random: &mut u64) -> (State, u64) {
        let (answer, rests) = by_steps(session, |session| session.begin_put(key, pointer, 1), random);
        assert!(matches!(answer, Answer::Inserted | Answer::Replaced(_)), "{answer:?}");
        (answer.pointer(), rests)
    }

    fn renew(&self) -> bool {
        tried::Map::renew(self, 1_000_000)
    }

    fn close(self) -> HashMap<u64, u64> {
        tried::Map::close(self).into_iter().collect()
    }
}

// An operation that rests where another session has its page, while its thread does something else. It begins anew where the session's rows are
// on their way back, and where the map is being renewed.
fn by_steps(
    session: &mut tried::Session,
    begin: impl Fn(&mut tried::Session) -> Result<Option<Answer>, Code>,
    random: &mut u64,
) -> (Answer, u64) {
    let mut rests = 0;
    let mut told = begin(session);
    loop {
        told = match told {
            Ok(Some(answer)) => return (answer, rests),
            Ok(None) => {
                rests += 1;
                match next_random(random) % 4 {
                    0 => thread::yield_now(),
                    1 => thread::sleep(Duration::from_micros(20)),
                    _ => {}
                }
                session.advance(1 + (next_random(random) % 3) as u32)
            }
            Err(code) => {
                assert!(code == ROWS_BUSY || code == RENEWING, "{code}");
                thread::yield_now();
                begin(session)
            }
        };
    }
}

// One call: what the key was by its answer, what it is then, and how often the call rested.
fn call_once<M: Shared>(session: &mut M::Session, kind: u64, key: u64, pointer: u64, random: &mut u64) -> (State, State, u64) {
    let op = match kind % 4 {
        _ if kind >= 8 => {
            let (saw, rests) = M::put(session, key, pointer, random);
            return (saw, Some(pointer), rests);
        }
        0 => Op::Insert(key, pointer),
        1 => Op::Remove(key),
        2 => Op::Replace(key, pointer),
        _ => Op::Get(key),
    };
    let (answer, rests) = M::call(session, op, random);
    let (saw, left) = told_by(op, answer);
    (saw, left, rests)
}

// A thread's calls, and how often an operation of them rested. The thread leaves the map now and then, and joins it again.
fn calls_of<M: Shared>(map: &M, plan: Plan, thread: usize, start: Instant) -> (Vec<Call>, u64) {
    let mut random = 0x9e37_79b9_7f4a_7c15 ^ ((thread as u64 + 1) << 32) ^ plan.keys;
    let mut session = None;
    let mut calls = Vec::with_capacity(plan.calls as usize);
    let mut rested = 0;
    for number in 0..plan.calls {
        if number % 1_000 == 0 {
            session = None;
        }
        let session = session.get_or_insert_with(|| map.session());
        let key = next_random(&mut random) % plan.keys;
        let kind = next_random(&mut random) % 10;
        let pointer = ((thread as u64 + 1) << 40) | number;
        let begin = start.elapsed().as_nanos() as u64;
        let (saw, left, rests) = call_once::<M>(session, kind, key, pointer, &mut random);
        let end = start.elapsed().as_nanos() as u64;
        calls.push(Call { thread, begin, end, key, saw, left });
        rested += rests;
    }
    (calls, rested)
}

// Half of the keys are there at first; a key's first pointer is the key.
fn opening(plan: Plan) -> HashMap<u64, u64> {
    (0..plan.keys).step_by(2).map(|key| (key, key)).collect()
}

// What eight threads did at a map: their calls, how often an operation of theirs rested, and the entries in the end.
struct Recorded {
    history: Vec<Call>,
    rests: u64,
    entries: HashMap<u64, u64>,
}

// Room for all calls of a plan, with which a map needs no renewal.
fn room_for(plan: Plan) -> Room {
    let calls = u32::try_from(plan.calls * THREADS).unwrap();
    Room { pages: calls / 2 + 20_000, rows: calls + 20_000, sessions: 2 * THREADS as u32 }
}

// Renews the map again and again until the others have ended, and returns how often it could.
fn renewals_of(map: &impl Shared, ended: &AtomicBool) -> u64 {
    let mut renewals = 0;
    while !ended.load(Ordering::Relaxed) {
        renewals += u64::from(map.renew());
        thread::sleep(Duration::from_micros(100));
    }
    renewals
}

fn recorded<M: Shared>(map: M, plan: Plan) -> Recorded {
    let start = Instant::now();
    let ended = AtomicBool::new(false);
    let mut history = Vec::new();
    let (mut rests, mut renewals) = (0, 0);
    thread::scope(|scope| {
        let renewing = plan.renewed.then(|| scope.spawn(|| renewals_of(&map, &ended)));
        let workers: Vec<_> = (0..THREADS as usize)
            .map(|thread| {
                let map = &map;
                scope.spawn(move || calls_of(map, plan, thread, start))
            })
            .collect();
        for worker in workers {
            let (calls, rested) = worker.join().unwrap();
            history.extend(calls);
            rests += rested;
        }
        ended.store(true, Ordering::Relaxed);
        renewals = renewing.map_or(0, |renewing| renewing.join().unwrap());
    });
    assert_eq!(renewals > 5, plan.renewed, "{renewals} renewals");
    Recorded { history, rests, entries: map.close() }
}

// Adds a look at each key after all others, at what the closed map has.
fn with_looks_at(mut history: Vec<Call>, entries: &HashMap<u64, u64>, keys: u64) -> Vec<Call> {
    let last = history.iter().map(|call| call.end).max().unwrap_or(0);
    history.extend((0..keys).map(|key| {
        let found = entries.get(&key).copied();
        Call { thread: 0, begin: last + 1, end: last + 2, key, saw: found, left: found }
    }));
    history
}

// Returns how often an operation rested.
fn explains<M: Shared>(map: M, plan: Plan) -> u64 {
    let Recorded { history, rests, entries } = recorded(map, plan);
    let history = with_looks_at(history, &entries, plan.keys);
    assert!(is_linearizable(&history, &opening(plan)), "{} keys, fan {}", plan.keys, plan.fan);
    rests
}

// A map of the crate.
fn map_of(plan: Plan) -> Map {
    let index = Index::from_entries(plan.fan, opening(plan)).unwrap();
    if plan.renewed { Map::open(&index).unwrap() } else { Map::open_fixed(&index, room_for(plan)).unwrap() }
}

// One whose operations go by steps.
fn map_by_steps(plan: Plan) -> tried::Map {
    let mut entries: Vec<(u64, u64)> = opening(plan).into_iter().collect();
    entries.sort_unstable();
    tried::Map::open(plan.fan, &entries, (!plan.renewed).then(|| room_for(plan)))
}

// Makes a plan's calls at either map. Returns how often an operation rested.
fn check(plan: Plan) -> u64 {
    explains(map_of(plan), plan) + explains(map_by_steps(plan), plan)
}

// ---- a million calls

// Of each thread at either map, which needs no renewal: 1,008,000 in all, half of them by steps.
const WHOLE: Plan = Plan { keys: 4, fan: 4, calls: 10_500, renewed: false };

#[test]
fn histories_at_4_keys() {
    let rests = check(Plan { keys: 4, fan: 4, ..WHOLE }) + check(Plan { keys: 4, fan: 32, ..WHOLE });
    // eight threads at one leaf or two: some of their operations find its latch taken
    assert!(rests > 0);
}

#[test]
fn histories_at_64_keys() {
    check(Plan { keys: 64, fan: 4, ..WHOLE });
    check(Plan { keys: 64, fan: 8, ..WHOLE });
}

#[test]
fn histories_at_100_000_keys() {
    check(Plan { keys: 100_000, fan: 5, ..WHOLE });
    check(Plan { keys: 100_000, fan: 16, ..WHOLE });
}

// Operations that rest hold a renewal up, and are held up by none.
#[test]
fn histories_through_renewals() {
    for (keys, fan) in [(4, 4), (64, 8), (1_000, 5)] {
        check(Plan { keys, fan, calls: 21_000, renewed: true });
    }
}

// ---- what the search refuses

// Calls of one key, each as (thread, begin, end, saw, left).
fn of_one_key(calls: &[(usize, u64, u64, State, State)]) -> Vec<Call> {
    calls.iter().map(|&(thread, begin, end, saw, left)| Call { thread, begin, end, key: 0, saw, left }).collect()
}

fn is_so(calls: &[(usize, u64, u64, State, State)]) -> bool {
    is_linearizable(&of_one_key(calls), &HashMap::new())
}

#[test]
fn real_time_decides() {
    let (put, put_over) = ((0, 0, 1, None, Some(1)), (0, 2, 5, Some(1), Some(2)));
    // a look beside the second put sees either pointer; a look after it doesn't see the first
    assert!(is_so(&[put, put_over, (1, 3, 4, Some(1), Some(1))]));
    assert!(is_so(&[put, put_over, (1, 3, 4, Some(2), Some(2))]));
    assert!(is_so(&[put, put_over, (1, 6, 7, Some(2), Some(2))]));
    assert!(!is_so(&[put, put_over, (1, 6, 7, Some(1), Some(1))]));
    assert!(!is_so(&[put, put_over, (1, 3, 4, None, None)]));
    // beside one put two looks one after the other don't see it and then un-see it
    assert!(is_so(&[put, put_over, (1, 3, 3, Some(1), Some(1)), (2, 4, 4, Some(2), Some(2))]));
    assert!(!is_so(&[put, put_over, (1, 3, 3, Some(2), Some(2)), (2, 4, 4, Some(1), Some(1))]));
    // two insertions of an absent key aren't both its first
    assert!(!is_so(&[(0, 0, 5, None, Some(1)), (1, 1, 4, None, Some(2))]));
    assert!(is_so(&[(0, 0, 5, None, Some(1)), (1, 1, 4, None, Some(2)), (2, 2, 3, Some(2), None)]));
}

const PLANTED: Plan = Plan { keys: 4, fan: 4, calls: 500, renewed: false };

#[test]
fn a_planted_stale_read_is_found() {
    let mut history = recorded(map_by_steps(PLANTED), PLANTED).history;
    assert!(is_linearizable(&history, &opening(PLANTED)));
    // a look, and a pointer that was replaced or removed before the look began
    let (look, stale) = (0..history.len())
        .find_map(|look| {
            let seen = history[look];
            let is_over = |call: &&Call| call.key == seen.key && call.end < seen.begin && call.saw != call.left;
            let over = history.iter().find(is_over).filter(|over| over.saw.is_some())?;
            (seen.saw == seen.left && seen.saw != over.saw).then_some((look, over.saw))
        })
        .unwrap();
    history[look].saw = stale;
    history[look].left = stale;
    assert!(!is_linearizable(&history, &opening(PLANTED)));
}

#[test]
fn a_planted_lost_update_is_found() {
    let mut history = recorded(map_by_steps(PLANTED), PLANTED).history;
    // one call has replaced a pointer, another that of the first; now both say that they have replaced the same
    let (later, lost) = history
        .iter()
        .filter(|first| first.saw.is_some() && first.left.is_some() && first.saw != first.left)
        .find_map(|first| {
            let is_next = |call: &Call| call.key == first.key && call.saw == first.left && call.left != call.saw;
            history.iter().position(is_next).map(|later| (later, first.saw))
        })
        .unwrap();
    history[later].saw = lost;
    assert!(!is_linearizable(&history, &opening(PLANTED)));
}
