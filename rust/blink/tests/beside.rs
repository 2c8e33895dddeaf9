//! An insertion that is stopped after any of its machine instructions, and a change of another session that begins there. It
//! ends before the insertion goes on, or rests until that has ended: what the two leave is what both make of the entries, in
//! either order.
#![cfg(all(target_os = "linux", target_arch = "x86_64", target_env = "gnu"))]

mod stepped;
mod tried;

use blink::{Answer, Op, Reserve, Room};
use stepped::by_instruction;
use tried::Map;

// Sixteen keys in four full leaves below a full root: the insertion splits a leaf and the root, and makes a root.
fn entries() -> Vec<(u64, u64)> {
    (1..=16).map(|place| (10 * place, place)).collect()
}

const NEW: (u64, u64) = (55, 7);

// A change of another key, its answer, and what it leaves of the key. It has to rest somewhere, if it wants a page that the
// insertion latches.
struct Other {
    key: u64,
    op: Op,
    answer: Answer,
    left: Option<u64>,
    rests: bool,
}

// Of the leaf that is split, of either half; and of the last leaf, which is nobody's, and whose split is posted to the root.
const OTHERS: [Other; 6] = [
    Other { key: 50, op: Op::Remove(50), answer: Answer::Removed(5), left: None, rests: true },
    Other { key: 80, op: Op::Replace(80, 9), answer: Answer::Replaced(8), left: Some(9), rests: true },
    Other { key: 54, op: Op::Insert(54, 9), answer: Answer::Inserted, left: Some(9), rests: true },
    Other { key: 75, op: Op::Insert(75, 9), answer: Answer::Inserted, left: Some(9), rests: true },
    Other { key: 160, op: Op::Insert(160, 9), answer: Answer::Exists(16), left: Some(16), rests: false },
    Other { key: 165, op: Op::Insert(165, 9), answer: Answer::Inserted, left: Some(9), rests: true },
];

// Begins the change after so many instructions of the insertion, and returns whether it rested; none, if there are fewer.
fn begins_after(instructions: u32, other: &Other) -> Option<bool> {
    let map = Map::open(4, &entries(), Some(Room { pages: 44, rows: 88, sessions: 2 }));
    let (mut writer, mut session) = (map.session(), map.session());
    let (mut passed, mut begun) = (0, None);
    let inserted = by_instruction(
        || writer.begin(Op::Insert(NEW.0, NEW.1), 100),
        || {
            if passed == instructions {
                begun = Some(session.begin(other.op, 1));
            }
            passed += 1;
            begun.is_none()
        },
    );
    assert_eq!(inserted, Ok(Some(Answer::Inserted)));
    let begun = begun?.unwrap();
    assert_eq!(session.end(begun), other.answer, "{:?} after {instructions} instructions", other.op);
    drop((writer, session));
    let mut expected = entries();
    expected.push(NEW);
    expected.retain(|(key, _)| *key != other.key);
    expected.extend(other.left.map(|pointer| (other.key, pointer)));
    expected.sort_by_key(|(key, _)| *key);
    assert_eq!(map.close(), expected, "{:?} after {instructions} instructions", other.op);
    Some(begun.is_none())
}

#[test]
fn a_change_beside_a_split_that_is_stopped_anywhere_ends_or_rests() {
    const STEP: usize = 1_499;
    for (first, other) in OTHERS.iter().enumerate() {
        let stops = (241 * first as u32..).step_by(STEP);
        let rested: Vec<bool> = stops.map_while(|instructions| begins_after(instructions, other)).collect();
        let rests = rested.iter().filter(|rested| **rested).count();
        assert!(rested.len() * STEP > 10_000 && !rested[0], "{} stops", rested.len());
        assert_eq!(rests > 0, other.rests, "{:?} rests {rests} times", other.op);
    }
}
