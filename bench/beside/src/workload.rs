//! What every side is to do: the entries that it begins with, the operations of each thread, and the sums that its answers have to give.

use std::collections::HashMap;
use std::fs::File;
use std::io::{self, BufWriter, Read, Write};
use std::path::Path;
use std::sync::Arc;

/// The kinds of steps, as the files have them.
pub const FIND: u64 = 0;
pub const INSERT: u64 = 1;
pub const DELETE: u64 = 2;
pub const REPLACE: u64 = 3;
/// The entries from `key` on, `pointer` of them at most.
pub const SCAN: u64 = 4;

/// The same beside insertions by other threads, so that nobody knows what it finds. It adds nothing to the sum of answers.
pub const LOOK: u64 = 5;

/// What stands for a key that isn't there, in a sum of answers or of contents.
pub const ABSENT: u64 = 1;
/// What an insertion of a new key adds to the sum of answers.
pub const INSERTED: u64 = 2;

/// One operation.
#[repr(C)]
#[derive(Clone, Copy)]
pub struct Step {
    pub kind: u64,
    pub key: u64,
    pub pointer: u64,
}

/// By which calls the threads of a phase work.
#[derive(Clone, Copy, PartialEq, Eq, Debug)]
pub enum Mode {
    /// Each thread has keys of its own, which nobody else looks up or changes.
    Own,
    /// Each thread looks up any key.
    Any,
    /// Each thread looks up any key, 64 by a call.
    Many,
    /// Each thread scans.
    Scan,
}

/// What is timed at once: threads that start together.
pub struct Phase {
    pub mode: Mode,
    pub threads: Vec<Vec<Step>>,
}

impl Phase {
    pub fn steps(&self) -> usize {
        self.threads.iter().map(Vec::len).sum()
    }

    /// Whether a step of it changes the map.
    pub fn changes(&self) -> bool {
        self.threads.iter().flatten().any(|step| ![FIND, SCAN, LOOK].contains(&step.kind))
    }
}

/// One map's life: it begins with entries, goes through phases, and is looked at in the end.
pub struct Case {
    pub entries: Arc<Vec<(u64, u64)>>,
    /// Each key that is ever there.
    pub keys: Arc<Vec<u64>>,
    pub phases: Vec<Phase>,
}

/// What a case has to give: the sum of answers of each phase, and the sum of the contents afterwards.
#[derive(Clone)]
pub struct Expected {
    pub answers: Vec<u64>,
    pub contents: u64,
}

/// One more of what was found, in a sum that depends on the order.
pub fn with_content(sum: u64, pointer: Option<u64>) -> u64 {
    sum.wrapping_mul(31).wrapping_add(pointer.unwrap_or(ABSENT))
}

/// SplitMix64.
pub struct Random(pub u64);

impl Random {
    pub fn word(&mut self) -> u64 {
        self.0 = self.0.wrapping_add(0x9e37_79b9_7f4a_7c15);
        let mut word = self.0;
        word = (word ^ (word >> 30)).wrapping_mul(0xbf58_476d_1ce4_e5b9);
        word = (word ^ (word >> 27)).wrapping_mul(0x94d0_49bb_1331_11eb);
        word ^ (word >> 31)
    }

    pub fn below(&mut self, count: usize) -> usize {
        ((self.word() >> 1) % count as u64) as usize
    }
}

/// How many of a hundred operations are of each kind; the rest are replacements.
#[derive(Clone, Copy)]
pub struct Mix {
    pub finds: u64,
    pub inserts: u64,
    pub deletes: u64,
}

/// A workload of YCSB (Cooper et al. 2010), without C, which only finds: how many of a hundred operations insert, and how many replace. The
/// others find, or scan from 1 to 100 entries.
#[derive(Clone, Copy, Default)]
pub struct Ycsb {
    pub inserts: u64,
    pub replaces: u64,
    /// Whether a replacement reads its key too, as workload F does.
    pub reads_first: bool,
    /// Whether the keys that were inserted last are looked for most, as by workload D.
    pub latest: bool,
    pub scans: bool,
}

/// Draws places by Zipf's law with exponent 0.99, the first most often (Gray et al. 1994).
struct Zipf {
    count: f64,
    alpha: f64,
    zeta: f64,
    eta: f64,
}

impl Zipf {
    fn new(count: usize) -> Zipf {
        const THETA: f64 = 0.99;
        let zeta = |count: usize| (1..=count).map(|rank| (rank as f64).powf(-THETA)).sum::<f64>();
        let (all, two) = (zeta(count), zeta(2));
        let of_all = count as f64;
        Zipf { count: of_all, alpha: 1.0 / (1.0 - THETA), zeta: all, eta: (1.0 - (2.0 / of_all).powf(1.0 - THETA)) / (1.0 - two / all) }
    }

    fn rank(&self, random: &mut Random) -> usize {
        let drawn = (random.word() >> 11) as f64 / (1u64 << 53) as f64;
        let place = drawn * self.zeta;
        if place < 1.0 {
            return 0;
        }
        if place < 1.0 + 0.5f64.powf(0.99) {
            return 1;
        }
        ((self.count * (self.eta * drawn - self.eta + 1.0).powf(self.alpha)) as usize).min(self.count as usize - 1)
    }
}

/// The keys that a workload has.
pub struct Keys {
    /// In the order in which they are inserted.
    pub present: Vec<u64>,
    /// Those that aren't there at first.
    pub absent: Vec<u64>,
}

impl Keys {
    /// Keys of 63 bits, so that a side whose numbers have a sign orders them alike.
    pub fn random(count: usize, absent: usize) -> Keys {
        let mut random = Random(1);
        let mut draw = |count| (0..count).map(|_| random.word() >> 1).collect();
        Keys { present: draw(count), absent: draw(absent) }
    }

    /// The same, inserted from the least to the greatest.
    pub fn ascending(count: usize) -> Keys {
        let mut keys = Keys::random(count, 0);
        keys.present.sort_unstable();
        keys
    }

    /// The numbers from 0 on, in no order, of which the first are there.
    pub fn side_by_side(count: usize, absent: usize) -> Keys {
        let all = (count + absent) as u64;
        let mut present: Vec<u64> = (0..all).collect();
        let mut random = Random(2);
        for i in (1..present.len()).rev() {
            present.swap(i, random.below(i + 1));
        }
        let absent = present.split_off(count);
        Keys { present, absent }
    }

    fn entries(&self) -> Vec<(u64, u64)> {
        self.present.iter().map(|&key| (key, !key >> 1)).collect()
    }
}

/// A plain map that makes the operations of a case and knows their answers.
pub struct Model {
    entries: Arc<Vec<(u64, u64)>>,
    keys: Arc<Vec<u64>>,
    map: HashMap<u64, u64>,
    absent: Vec<u64>,
    random: Random,
    phases: Vec<Phase>,
    answers: Vec<u64>,
}

// One thread's keys while its operations are drawn.
#[derive(Default)]
struct Lane {
    present: Vec<u64>,
    absent: Vec<u64>,
    steps: Vec<Step>,
}

impl Model {
    pub fn new(keys: &Keys) -> Model {
        let entries = keys.entries();
        Model {
            map: entries.iter().copied().collect(),
            entries: Arc::new(entries),
            keys: Arc::new(keys.present.iter().chain(&keys.absent).copied().collect()),
            absent: keys.absent.clone(),
            random: Random(3),
            phases: Vec::new(),
            answers: Vec::new(),
        }
    }

    /// How many entries it begins with.
    pub fn len(&self) -> usize {
        self.entries.len()
    }

    /// A map that is empty at first, and these keys to be inserted.
    pub fn empty(keys: &Keys) -> Model {
        let absent = Keys { present: Vec::new(), absent: keys.present.clone() };
        Model::new(&absent)
    }

    /// The same map as it was at first, for another case.
    pub fn again(&self) -> Model {
        let begun: HashMap<u64, u64> = self.entries.iter().copied().collect();
        Model {
            entries: self.entries.clone(),
            keys: self.keys.clone(),
            absent: self.keys.iter().copied().filter(|key| !begun.contains_key(key)).collect(),
            map: begun,
            random: Random(3),
            phases: Vec::new(),
            answers: Vec::new(),
        }
    }

    // Adds a phase, and returns its place.
    fn push(&mut self, mode: Mode, threads: Vec<Vec<Step>>, sum: u64) -> usize {
        self.phases.push(Phase { mode, threads });
        self.answers.push(sum);
        self.phases.len() - 1
    }

    /// Insertions of all keys, each thread's own. This and the next return the phase's place.
    pub fn load(&mut self, threads: usize) -> usize {
        let mut lanes = vec![Vec::new(); threads];
        let keys = std::mem::take(&mut self.absent);
        for (place, &key) in keys.iter().enumerate() {
            let pointer = !key >> 1;
            lanes[place % threads].push(Step { kind: INSERT, key, pointer });
            self.map.insert(key, pointer);
        }
        self.push(Mode::Own, lanes, INSERTED.wrapping_mul(keys.len() as u64))
    }

    /// Finds of keys that are there: each thread's own, or any.
    pub fn finds(&mut self, mode: Mode, threads: usize, count: usize) -> usize {
        let keys: Vec<u64> = self.entries.iter().map(|entry| entry.0).collect();
        let mut sum = 0u64;
        let lanes = (0..threads)
            .map(|lane| {
                let own: Vec<u64> = match mode {
                    Mode::Own => keys.iter().copied().skip(lane).step_by(threads).collect(),
                    _ => keys.clone(),
                };
                (0..count / threads)
                    .map(|_| {
                        let key = own[self.random.below(own.len())];
                        sum = sum.wrapping_add(self.map[&key]);
                        Step { kind: FIND, key, pointer: 0 }
                    })
                    .collect()
            })
            .collect();
        self.push(mode, lanes, sum)
    }

    // All entries that are there, in order.
    fn sorted(&self) -> Vec<(u64, u64)> {
        let mut sorted: Vec<(u64, u64)> = self.map.iter().map(|(&key, &pointer)| (key, pointer)).collect();
        sorted.sort_unstable();
        sorted
    }

    // A scan of so many entries, or fewer where the map ends, and what it adds to the sum.
    fn a_scan(&mut self, sorted: &[(u64, u64)], length: usize) -> (Step, u64) {
        let first = if length >= sorted.len() { 0 } else { self.random.below(sorted.len() - length) };
        let entries = &sorted[first..sorted.len().min(first + length)];
        let sum = entries.iter().fold(0u64, |sum, entry| sum.wrapping_add(entry.0 ^ entry.1));
        (Step { kind: SCAN, key: sorted[first].0, pointer: length as u64 }, sum)
    }

    /// Scans of so many entries, or fewer where the map ends.
    pub fn scans(&mut self, length: usize, threads: usize, count: usize) -> usize {
        let sorted = self.sorted();
        let mut sum = 0u64;
        let mut step = |model: &mut Model| {
            let (step, adds) = model.a_scan(&sorted, length);
            sum = sum.wrapping_add(adds);
            step
        };
        let lanes = (0..threads).map(|_| (0..count.div_ceil(threads)).map(|_| step(self)).collect()).collect();
        self.push(Mode::Scan, lanes, sum)
    }

    /// Replacements of any key by all threads, and among a hundred so many scans of so many entries. A replacement stores the pointer
    /// that the key has, so the answers are known whoever comes first.
    pub fn scans_among(&mut self, scans: usize, length: usize, threads: usize, count: usize) -> usize {
        let sorted = self.sorted();
        let mut sum = 0u64;
        let mut step = |model: &mut Model| {
            let (step, adds) = if model.random.below(100) < scans {
                model.a_scan(&sorted, length)
            } else {
                let (key, pointer) = sorted[model.random.below(sorted.len())];
                (Step { kind: REPLACE, key, pointer }, pointer)
            };
            sum = sum.wrapping_add(adds);
            step
        };
        let lanes = (0..threads).map(|_| (0..count / threads).map(|_| step(self)).collect()).collect();
        self.push(Mode::Any, lanes, sum)
    }

    /// Finds and replacements of any key by all threads, so many finds of 100. A replacement stores the pointer that the key has, so the
    /// answers are known whoever comes first.
    pub fn by_all(&mut self, finds: u64, threads: usize, count: usize) -> usize {
        let mut sum = 0u64;
        let lanes = (0..threads)
            .map(|_| {
                (0..count / threads)
                    .map(|_| {
                        let (key, pointer) = self.entries[self.random.below(self.entries.len())];
                        sum = sum.wrapping_add(pointer);
                        let kind = if (self.random.below(100) as u64) < finds { FIND } else { REPLACE };
                        Step { kind, key, pointer: if kind == FIND { 0 } else { pointer } }
                    })
                    .collect()
            })
            .collect();
        self.push(Mode::Any, lanes, sum)
    }

    /// Operations of a workload of YCSB, by all threads on all keys. A replacement stores the pointer that the key has. A thread inserts
    /// keys of its own, and looks for none that another one inserts.
    pub fn ycsb(&mut self, kind: Ycsb, threads: usize, count: usize) -> usize {
        let zipf = Zipf::new(self.entries.len());
        let mut sum = 0u64;
        let mut lanes = vec![Vec::new(); threads];
        for lane in &mut lanes {
            let mut own = Vec::new();
            for _ in 0..count / threads {
                sum = sum.wrapping_add(self.ycsb_step(kind, &zipf, &mut own, lane));
            }
        }
        self.push(Mode::Any, lanes, sum)
    }

    // Draws the next operation of a thread, and returns what its answers add to the sum.
    fn ycsb_step(&mut self, kind: Ycsb, zipf: &Zipf, own: &mut Vec<(u64, u64)>, lane: &mut Vec<Step>) -> u64 {
        let dice = self.random.below(100) as u64;
        if dice < kind.inserts {
            let key = self.absent.pop().expect("a key that isn't there");
            let pointer = !key >> 1;
            self.map.insert(key, pointer);
            own.push((key, pointer));
            lane.push(Step { kind: INSERT, key, pointer });
            return INSERTED;
        }
        let rank = zipf.rank(&mut self.random);
        // By workload D a thread likes best what it inserted last.
        let latest = if kind.latest { own.len() } else { 0 };
        let (key, pointer) = if rank < latest { own[latest - 1 - rank] } else { self.entries[rank - latest] };
        if kind.scans {
            lane.push(Step { kind: LOOK, key, pointer: 1 + self.random.below(100) as u64 });
            return 0;
        }
        let replaces = dice < kind.inserts + kind.replaces;
        let (find, replace) = (Step { kind: FIND, key, pointer: 0 }, Step { kind: REPLACE, key, pointer });
        match (replaces, kind.reads_first) {
            (true, true) => lane.extend([find, replace]),
            (true, false) => lane.push(replace),
            (false, _) => lane.push(find),
        }
        if replaces && kind.reads_first { pointer.wrapping_mul(2) } else { pointer }
    }

    /// Operations of a mix, each thread on keys of its own. A find, a deletion and a replacement are of a key that is there, and an
    /// insertion of one that isn't; where a thread has none of these, it does the opposite.
    pub fn mixed(&mut self, mix: Mix, threads: usize, count: usize) -> usize {
        let mut lanes: Vec<Lane> = (0..threads).map(|_| Lane::default()).collect();
        for (place, &key) in self.keys.iter().enumerate() {
            let lane = &mut lanes[place % threads];
            if self.map.contains_key(&key) { &mut lane.present } else { &mut lane.absent }.push(key);
        }
        let mut sum = 0u64;
        for lane in &mut lanes {
            for _ in 0..count / threads {
                sum = sum.wrapping_add(draw(lane, mix, &mut self.random, &mut self.map));
            }
        }
        self.push(Mode::Own, lanes.into_iter().map(|lane| lane.steps).collect(), sum)
    }

    pub fn end(self) -> (Case, Expected) {
        let contents = self.keys.iter().fold(0, |sum, key| with_content(sum, self.map.get(key).copied()));
        let case = Case { entries: self.entries, keys: self.keys, phases: self.phases };
        (case, Expected { answers: self.answers, contents })
    }
}

// Draws the next operation of a lane, and returns what its answer adds to the sum.
fn draw(lane: &mut Lane, mix: Mix, random: &mut Random, map: &mut HashMap<u64, u64>) -> u64 {
    let dice = random.below(100) as u64;
    let fresh = random.word() >> 1;
    let changes = mix.finds..mix.finds + mix.inserts + mix.deletes;
    let (step, answer) = if changes.contains(&dice) {
        let inserts = dice < mix.finds + mix.inserts;
        if (inserts && !lane.absent.is_empty()) || lane.present.len() < 2 {
            let key = lane.absent.swap_remove(random.below(lane.absent.len()));
            lane.present.push(key);
            map.insert(key, fresh);
            (Step { kind: INSERT, key, pointer: fresh }, INSERTED)
        } else {
            let key = lane.present.swap_remove(random.below(lane.present.len()));
            lane.absent.push(key);
            (Step { kind: DELETE, key, pointer: 0 }, map.remove(&key).unwrap())
        }
    } else {
        let key = lane.present[random.below(lane.present.len())];
        if dice < mix.finds {
            (Step { kind: FIND, key, pointer: 0 }, map[&key])
        } else {
            (Step { kind: REPLACE, key, pointer: fresh }, map.insert(key, fresh).unwrap())
        }
    };
    lane.steps.push(step);
    answer
}

// What stands in a file in place of the number of entries, where a case begins with those of the case before it.
const SAME: u64 = u64::MAX;

/// Writes cases as words of 64 bits, the least byte first, for sides in any language.
pub fn write(path: &Path, cases: &[Case]) -> io::Result<()> {
    let mut file = BufWriter::with_capacity(1 << 20, File::create(path)?);
    let mut put = |word: u64| file.write_all(&word.to_le_bytes());
    put(cases.len() as u64)?;
    let mut before: Option<&Case> = None;
    for case in cases {
        match before {
            Some(before) if Arc::ptr_eq(&before.entries, &case.entries) => put(SAME)?,
            _ => {
                put(case.entries.len() as u64)?;
                for &(key, pointer) in case.entries.iter() {
                    put(key)?;
                    put(pointer)?;
                }
                put(case.keys.len() as u64)?;
                for &key in case.keys.iter() {
                    put(key)?;
                }
            }
        }
        before = Some(case);
        put(case.phases.len() as u64)?;
        for phase in &case.phases {
            put(phase.mode as u64)?;
            put(phase.threads.len() as u64)?;
            for steps in &phase.threads {
                put(steps.len() as u64)?;
                for step in steps {
                    put(step.kind)?;
                    put(step.key)?;
                    put(step.pointer)?;
                }
            }
        }
    }
    file.flush()
}

// The words of a file, one after another.
struct Words {
    bytes: Vec<u8>,
    at: usize,
}

impl Words {
    fn next(&mut self) -> u64 {
        let word = self.bytes[self.at..self.at + 8].try_into().expect("eight bytes");
        self.at += 8;
        u64::from_le_bytes(word)
    }

    fn list<T>(&mut self, item: impl Fn(&mut Words) -> T) -> Vec<T> {
        let count = self.next();
        (0..count).map(|_| item(self)).collect()
    }
}

/// Reads what `write` wrote.
pub fn read(path: &Path) -> io::Result<Vec<Case>> {
    let mut bytes = Vec::new();
    File::open(path)?.read_to_end(&mut bytes)?;
    let mut words = Words { bytes, at: 0 };
    let mut entries = Arc::new(Vec::new());
    let mut keys = Arc::new(Vec::new());
    let count = words.next();
    Ok((0..count)
        .map(|_| {
            let size = words.next();
            if size != SAME {
                entries = Arc::new((0..size).map(|_| (words.next(), words.next())).collect());
                keys = Arc::new(words.list(Words::next));
            }
            Case { entries: entries.clone(), keys: keys.clone(), phases: words.list(phase) }
        })
        .collect())
}

fn phase(words: &mut Words) -> Phase {
    let mode = [Mode::Own, Mode::Any, Mode::Many, Mode::Scan][words.next() as usize];
    let threads = words.list(|words| {
        words.list(|words| Step { kind: words.next(), key: words.next(), pointer: words.next() })
    });
    Phase { mode, threads }
}
