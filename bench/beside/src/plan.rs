//! Which workloads are measured: the cases of each group, and the row of a table that each figure stands in.

use crate::workload::{Case, Expected, Keys, Mix, Mode, Model, Ycsb};

/// What one run measures of a case.
#[derive(Clone, Copy)]
pub enum Figure {
    /// Nanoseconds an operation of a phase, by its place.
    Phase(usize),
    /// Nanoseconds an entry that the making of the map took.
    Begin,
    /// Milliseconds beside the phases, by this name.
    Beside(&'static str),
}

/// A row of a workload's table.
pub struct Row {
    pub workload: &'static str,
    pub entries: String,
    pub threads: usize,
    pub case: usize,
    pub figure: Figure,
    /// How many operations it has, or entries.
    pub operations: usize,
}

/// Cases that one process of each side runs, one after another.
pub struct Group {
    pub name: &'static str,
    pub cases: Vec<Case>,
    pub expected: Vec<Expected>,
    pub rows: Vec<Row>,
}

pub const FIND: &str = "A find";
pub const MANY: &str = "A find, 64 keys by a call";
pub const SCAN_10: &str = "A scan of 10 entries, an entry";
pub const SCAN_1000: &str = "A scan of 1,000 entries, an entry";
pub const SCAN_ALL: &str = "A scan of all entries, an entry";
pub const LOAD: &str = "An insertion into an empty map";
pub const MIXED_80: &str = "80 finds, 10 insertions, 10 deletions";
pub const MIXED_90: &str = "90 finds, 5 insertions, 5 deletions";
pub const MIXED_50: &str = "50 finds, 25 insertions, 25 deletions";
pub const ALL: &str = "80 finds, 20 replacements, all threads on all keys";
pub const REPLACE: &str = "A replacement";
pub const NEAR: &str = "80 + 10 + 10, keys side by side";
pub const AMONG: &str = "95 replacements, 5 scans of 100 entries, all threads on all keys";
pub const LEAF: &str = "50 finds, 50 replacements, all in one leaf";
pub const LONG: &str = "A million changes: 96 replacements, 2 insertions, 2 deletions";
pub const YCSB_A: &str = "YCSB A: 50 finds, 50 replacements";
pub const YCSB_B: &str = "YCSB B: 95 finds, 5 replacements";
pub const YCSB_C: &str = "YCSB C: finds";
pub const YCSB_D: &str = "YCSB D: 95 finds of the latest, 5 insertions";
pub const YCSB_E: &str = "YCSB E: 95 scans of up to 100 entries, 5 insertions";
pub const YCSB_F: &str = "YCSB F: 50 finds, 50 times a replacement and a find";
pub const OPEN: &str = "Opening it for 12,000 insertions and as many deletions, ms";
pub const CLOSE: &str = "Closing it, ms";

/// The tables in the order in which they are told.
pub const WORKLOADS: [&str; 23] = [
    FIND, MANY, SCAN_10, SCAN_1000, SCAN_ALL, LOAD, MIXED_80, MIXED_90, MIXED_50, ALL, AMONG, REPLACE, NEAR, LEAF, LONG, YCSB_A, YCSB_B,
    YCSB_C, YCSB_D, YCSB_E, YCSB_F, OPEN, CLOSE,
];

const THREADS: [usize; 4] = [1, 2, 4, 8];

impl Mix {
    const fn changes(finds: u64, inserts: u64, deletes: u64) -> Mix {
        Mix { finds, inserts, deletes }
    }
}

/// How much is run: all of it, or of each workload a little, to see that the answers are right.
#[derive(Clone, Copy)]
pub struct Scale {
    pub small: bool,
}

impl Scale {
    fn of(self, count: usize) -> usize {
        if self.small {
            (count / 500).max(16)
        } else {
            count
        }
    }

    /// How often everything is measured.
    pub fn rounds(self) -> usize {
        if self.small {
            1
        } else {
            3
        }
    }
}

impl Group {
    fn new(name: &'static str) -> Group {
        Group { name, cases: Vec::new(), expected: Vec::new(), rows: Vec::new() }
    }

    // Adds a case, and rows of it: a workload, the entries, and the figure.
    fn add(&mut self, model: Model, entries: &str, rows: &[(&'static str, Figure)]) {
        let (case, expected) = model.end();
        for &(workload, figure) in rows {
            let (threads, operations) = match figure {
                Figure::Phase(place) => {
                    let phase = &case.phases[place];
                    let scanned = phase.threads.iter().flatten().filter(|step| step.kind == crate::workload::SCAN);
                    let scanned: u64 = scanned.map(|step| step.pointer.min(case.entries.len() as u64)).sum();
                    (phase.threads.len(), if phase.mode == Mode::Scan { scanned as usize } else { phase.steps() })
                }
                _ => (1, case.entries.len()),
            };
            let (entries, case) = (entries.to_string(), self.cases.len());
            self.rows.push(Row { workload, entries, threads, case, figure, operations });
        }
        self.cases.push(case);
        self.expected.push(expected);
    }

    // A mix by each number of threads, each on a map of its own.
    fn add_mixes(&mut self, base: &Model, entries: &str, workload: &'static str, mix: Mix, count: usize, threads: &[usize]) {
        for &threads in threads {
            let mut model = base.again();
            let mut rows = vec![(workload, Figure::Phase(model.mixed(mix, threads, count)))];
            if workload == MIXED_80 && entries == "40,000" && threads == 1 {
                rows.extend([(OPEN, Figure::Beside("open")), (CLOSE, Figure::Beside("close"))]);
            }
            self.add(model, entries, &rows);
        }
    }
}

// Adds finds and scans to a map's life, and returns their rows. The first finds are told nowhere: what the making of the map left
// in the caches is another for each side.
fn looks(model: &mut Model, scale: Scale, threads: &[usize]) -> Vec<(&'static str, Figure)> {
    let (count, size) = (scale.of(100_000), model.len());
    model.finds(Mode::Any, 1, count);
    let mut rows = Vec::new();
    for &threads in threads {
        rows.push((FIND, Figure::Phase(model.finds(Mode::Own, threads, count))));
    }
    rows.push((MANY, Figure::Phase(model.finds(Mode::Many, 1, count))));
    let all = 200_000usize.div_ceil(size);
    for (length, scans, workload) in [(10, 10_000, SCAN_10), (1_000, 200, SCAN_1000), (usize::MAX, all, SCAN_ALL)] {
        let scans = if scale.small { 2 } else { scans };
        let by = if workload == SCAN_1000 { threads } else { &threads[..1] };
        for &threads in by {
            rows.push((workload, Figure::Phase(model.scans(length.min(size), threads, scans))));
        }
    }
    rows
}

// Keys that were inserted at random: looks, loads, and each mix.
fn random(group: &mut Group, size: usize, entries: &str, threads: &[usize], scale: Scale) {
    let keys = Keys::random(scale.of(size), scale.of(size / 2));
    let base = Model::new(&keys);
    let mut model = base.again();
    let rows = looks(&mut model, scale, threads);
    group.add(model, entries, &rows);
    for &threads in threads {
        let mut model = Model::empty(&keys);
        let load = model.load(threads);
        group.add(model, entries, &[(LOAD, Figure::Phase(load))]);
    }
    let count = scale.of(3 * size);
    group.add_mixes(&base, entries, MIXED_80, Mix::changes(80, 10, 10), count, threads);
    group.add_mixes(&base, entries, REPLACE, Mix::changes(0, 0, 0), count, threads);
    group.add_mixes(&base, entries, MIXED_90, Mix::changes(90, 5, 5), count, threads);
    group.add_mixes(&base, entries, MIXED_50, Mix::changes(50, 25, 25), count * 2 / 5, threads);
}

// A million keys. A map of them takes so long to make that one goes through all, one after another.
fn million(group: &mut Group, scale: Scale) {
    let mut model = Model::new(&Keys::random(scale.of(1_000_000), scale.of(50_000)));
    let mut rows = looks(&mut model, scale, &THREADS);
    for threads in THREADS {
        let mixed = model.mixed(Mix::changes(80, 10, 10), threads, scale.of(50_000));
        rows.push((MIXED_80, Figure::Phase(mixed)));
    }
    rows.push((LOAD, Figure::Begin));
    group.add(model, "1,000,000", &rows);
}

// The same keys, inserted from the least to the greatest.
fn ascending(group: &mut Group, size: usize, entries: &str, scale: Scale) {
    let mut model = Model::new(&Keys::ascending(scale.of(size)));
    let mut rows = looks(&mut model, scale, &[1, 4]);
    rows.push((LOAD, Figure::Begin));
    group.add(model, entries, &rows);
}

// Where threads meet: at all keys, in the same leaves, and all in one.
fn meeting(group: &mut Group, scale: Scale) {
    let all = Model::new(&Keys::random(scale.of(40_000), 0));
    for threads in THREADS {
        let mut model = all.again();
        let rows = [(ALL, Figure::Phase(model.by_all(80, threads, scale.of(100_000))))];
        group.add(model, "40,000", &rows);
    }
    for threads in [1, 4] {
        let mut model = all.again();
        let rows = [(AMONG, Figure::Phase(model.scans_among(5, 100, threads, scale.of(40_000))))];
        group.add(model, "40,000", &rows);
    }
    let near = Model::new(&Keys::side_by_side(1_000, 250));
    group.add_mixes(&near, "1,000", NEAR, Mix::changes(80, 10, 10), scale.of(100_000), &[1, 4]);
    let leaf = Model::new(&Keys::side_by_side(16, 0));
    group.add_mixes(&leaf, "16", LEAF, Mix::changes(50, 0, 0), scale.of(100_000), &[1, 4]);
}

// A map that lives long and stays as large as it is: most of these changes are replacements.
fn long(group: &mut Group, scale: Scale) {
    let base = Model::new(&Keys::random(scale.of(40_000), scale.of(20_000)));
    group.add_mixes(&base, "40,000", LONG, Mix::changes(0, 2, 2), scale.of(1_000_000), &[1, 4]);
}

// A million records, loaded by threads, and then the workloads of YCSB, one after another. Who they are is drawn by Zipf's law.
fn ycsb(group: &mut Group, scale: Scale) {
    let keys = Keys::random(scale.of(1_000_000), scale.of(100_000));
    let base = Model::new(&keys);
    let replaces = |replaces| Ycsb { replaces, ..Ycsb::default() };
    let inserts = Ycsb { inserts: 5, ..Ycsb::default() };
    for threads in [1, 4] {
        let mut model = Model::empty(&keys);
        let load = model.load(threads);
        group.add(model, "1,000,000", &[(LOAD, Figure::Phase(load))]);
        let mut model = base.again();
        let rows = [
            (YCSB_A, replaces(50), 200_000),
            (YCSB_B, replaces(5), 400_000),
            (YCSB_C, Ycsb::default(), 400_000),
            (YCSB_D, Ycsb { latest: true, ..inserts }, 400_000),
            (YCSB_E, Ycsb { scans: true, ..inserts }, 40_000),
            (YCSB_F, Ycsb { reads_first: true, ..replaces(50) }, 200_000),
        ];
        let rows = rows.map(|(workload, kind, count)| (workload, Figure::Phase(model.ycsb(kind, threads, scale.of(count)))));
        group.add(model, "1,000,000", &rows);
    }
}

/// All groups.
pub fn groups(scale: Scale) -> Vec<Group> {
    let mut groups = ["random", "million", "ascending", "meeting", "ycsb"].map(Group::new);
    let [few, many, sorted, others, drawn] = &mut groups;
    random(few, 10_000, "10,000", &[1, 4], scale);
    random(few, 40_000, "40,000", &THREADS, scale);
    million(many, scale);
    ascending(sorted, 10_000, "10,000 ascending", scale);
    ascending(sorted, 40_000, "40,000 ascending", scale);
    ascending(sorted, 1_000_000, "1,000,000 ascending", scale);
    meeting(others, scale);
    long(others, scale);
    ycsb(drawn, scale);
    groups.into()
}

/// What a side whose code is compiled while it runs runs first.
pub fn warm_up() -> Group {
    let mut group = Group::new("warm");
    random(&mut group, 5_000, "5,000", &THREADS, Scale { small: false });
    meeting(&mut group, Scale { small: false });
    group
}
