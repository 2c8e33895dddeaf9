//! Runs every side of every group, round by round, each in a process of its own, and compares what it answered with what is right.

use crate::plan::{self, Figure, Group, Scale};
use crate::workload;
use std::collections::{BTreeMap, BTreeSet};
use std::env;
use std::error::Error;
use std::fs;
use std::path::{Path, PathBuf};
use std::process::{Command, Stdio};

/// A column: its name, and the words that run a file of cases.
pub struct Peer {
    pub name: &'static str,
    command: Vec<String>,
    is_warmed: bool,
}

/// The figures of one row and one column.
pub type Figures = BTreeMap<(usize, usize, usize), Vec<f64>>;

/// What was measured: the groups, the columns, and by group, row and column the figure of each round.
pub struct Measured {
    pub groups: Vec<Group>,
    pub peers: Vec<Peer>,
    pub figures: Figures,
}

/// The sides of this program.
pub const OWN: [&str; 7] = ["map 32", "index 32", "index 16", "BTreeMap", "Mutex", "RwLock", "shards"];

/// The folder for what is built and written: bench/ in out/ at the top of the repository.
pub fn room() -> PathBuf {
    Path::new(env!("CARGO_MANIFEST_DIR")).join("../../out/bench")
}

// Runs a command, and returns what is wrong, if something is.
fn built(words: &[&str]) -> Result<(), String> {
    let ran = Command::new(words[0]).args(&words[1..]).stdin(Stdio::null()).output();
    match ran {
        Err(error) => Err(format!("{}: {error}", words[0])),
        Ok(ran) if ran.status.success() => Ok(()),
        Ok(ran) => {
            let said = String::from_utf8_lossy(&ran.stderr).into_owned();
            let line = said.lines().find(|line| line.contains("error")).unwrap_or("it could not be built");
            Err(line.chars().take(160).collect())
        }
    }
}

// The sides in other languages that can be built here. One that can't is named and left out.
fn foreign() -> Vec<Peer> {
    let sources = Path::new(env!("CARGO_MANIFEST_DIR")).join("peers");
    let text = |path: PathBuf| path.to_str().expect("a path in UTF-8").to_string();
    let room = text(room());
    let source = |name: &str| text(sources.join(name));
    let program = |name: &str| format!("{room}/{name}");
    let cpp = ["g++", "-O2", "-DNDEBUG", "-std=c++17", "-pthread", "-march=x86-64-v2", "-o"];
    let mut peers = Vec::new();
    for (column, name, library) in [("TBB", "tbb", "-ltbb"), ("libcds", "cds", "-lcds")] {
        let (to, from) = (program(name), source(&format!("{name}.cpp")));
        match built(&[&cpp[..], &[&to, &from, library]].concat()) {
            Ok(()) => peers.push(Peer { name: column, command: vec![to], is_warmed: false }),
            Err(why) => eprintln!("{column}: left out: {why}"),
        }
    }
    match built(&["javac", "-d", &room, &source("Skip.java")]) {
        Ok(()) => {
            let words = ["java", "-Xms2g", "-Xmx3g", "-XX:+UseParallelGC", "-cp", &room, "Skip"];
            let command = words.map(String::from).to_vec();
            peers.insert(peers.len().min(1), Peer { name: "JDK", command, is_warmed: true });
        }
        Err(why) => eprintln!("JDK: left out: {why}"),
    }
    peers
}

fn peers(only_own: bool) -> Result<Vec<Peer>, Box<dyn Error>> {
    let this = env::current_exe()?.to_str().ok_or("no path of this program")?.to_string();
    let own = |name: &&'static str| Peer {
        name,
        command: vec![this.clone(), "side".to_string(), name.to_string()],
        is_warmed: false,
    };
    let others = if only_own { Vec::new() } else { foreign() };
    Ok(OWN.iter().map(own).chain(others).collect())
}

// The lines that a side prints, of each case: nanoseconds and sum by phase, the phases that it left out, the sum of contents, and what is
// beside.
#[derive(Default)]
struct Told {
    phases: BTreeMap<(usize, usize), (f64, u64)>,
    left: BTreeSet<(usize, usize)>,
    contents: BTreeMap<usize, u64>,
    beside: BTreeMap<(usize, String), f64>,
}

fn told(text: &str) -> Result<Told, Box<dyn Error>> {
    let mut told = Told::default();
    for line in text.lines() {
        let words: Vec<&str> = line.split(' ').collect();
        match words.as_slice() {
            ["phase", case, place, time, sum] => {
                told.phases.insert((case.parse()?, place.parse()?), (time.parse()?, sum.parse()?));
            }
            ["left", case, place] => {
                told.left.insert((case.parse()?, place.parse()?));
            }
            ["contents", case, sum] => {
                told.contents.insert(case.parse()?, sum.parse()?);
            }
            ["beside", case, what, time] => {
                told.beside.insert((case.parse()?, what.to_string()), time.parse()?);
            }
            _ => return Err(format!("an unknown line: {line}").into()),
        }
    }
    Ok(told)
}

// What of this differs from what is right.
fn differs(group: &Group, told: &Told) -> Option<String> {
    for (&(case, place), &(_, sum)) in &told.phases {
        let right = group.expected[case].answers[place];
        if sum != right {
            return Some(format!("case {case}, phase {place}: the answers sum up to {sum}, and {right} is right"));
        }
    }
    for (&case, &sum) in &told.contents {
        let right = group.expected[case].contents;
        if sum != right {
            return Some(format!("case {case}: the contents sum up to {sum}, and {right} is right"));
        }
    }
    // What nobody told would pass unseen.
    for (case, expected) in group.expected.iter().enumerate() {
        let places = || (0..expected.answers.len()).map(|place| (case, place));
        if let Some((_, place)) = places().find(|it| !told.phases.contains_key(it) && !told.left.contains(it)) {
            return Some(format!("case {case}, phase {place}: nothing is told"));
        }
        if !told.contents.contains_key(&case) && places().all(|it| !told.left.contains(&it)) {
            return Some(format!("case {case}: no contents are told"));
        }
    }
    None
}

fn run(peer: &Peer, group: &Group, file: &Path, warm: &Path) -> Result<Told, Box<dyn Error>> {
    let mut command = Command::new(&peer.command[0]);
    command.args(&peer.command[1..]).arg(file);
    if peer.is_warmed && warm.exists() {
        command.arg(warm);
    }
    let ran = command.stdin(Stdio::null()).stderr(Stdio::inherit()).output()?;
    if !ran.status.success() {
        return Err(format!("{}, {}: {}", peer.name, group.name, ran.status).into());
    }
    let told = told(&String::from_utf8(ran.stdout)?)?;
    match differs(group, &told) {
        Some(what) => Err(format!("{}, {}: WRONG: {what}", peer.name, group.name).into()),
        None => Ok(told),
    }
}

// The figure of a row in what a side told.
fn figure(told: &Told, row: &plan::Row, name: &str) -> Option<f64> {
    let each = |nanoseconds: f64| nanoseconds / row.operations as f64;
    let is_opened = name.starts_with("map");
    match row.figure {
        Figure::Phase(place) => told.phases.get(&(row.case, place)).map(|told| each(told.0)),
        // A map is opened over an index, which isn't its own work.
        Figure::Begin if is_opened => None,
        Figure::Begin => told.beside.get(&(row.case, "begin".to_string())).copied().map(each),
        Figure::Beside(what) => told.beside.get(&(row.case, what.to_string())).map(|time| time / 1e6),
    }
}

/// What is measured: the group of workloads of this name, or all groups; the sides of these names, or all sides; and how often.
pub struct Choice<'a> {
    pub group: Option<&'a str>,
    pub sides: &'a [&'a str],
    pub rounds: usize,
}

impl Choice<'_> {
    /// All groups and all sides.
    pub fn all(scale: Scale) -> Choice<'static> {
        Choice { group: None, sides: &[], rounds: scale.rounds() }
    }

    // The groups of the choice.
    fn groups(&self, scale: Scale) -> Result<Vec<Group>, Box<dyn Error>> {
        let mut groups = plan::groups(scale);
        if let Some(name) = self.group {
            groups.retain(|group| group.name == name);
        }
        match groups.is_empty() {
            true => Err("no group of workloads has this name".into()),
            false => Ok(groups),
        }
    }

    // The sides of the choice.
    fn peers(&self, only_own: bool) -> Result<Vec<Peer>, Box<dyn Error>> {
        let mut peers = peers(only_own)?;
        if self.sides.is_empty() {
            return Ok(peers);
        }
        if let Some(name) = self.sides.iter().find(|name| peers.iter().all(|peer| peer.name != **name)) {
            return Err(format!("no side has this name: {name}").into());
        }
        peers.retain(|peer| self.sides.contains(&peer.name));
        Ok(peers)
    }
}

/// Measures what is chosen. The sides take turns within a round, and begin at another one in each.
pub fn measure(scale: Scale, planted: bool, choice: &Choice) -> Result<Measured, Box<dyn Error>> {
    let room = room();
    fs::create_dir_all(&room)?;
    let mut groups = choice.groups(scale)?;
    if planted {
        groups[0].expected[0].answers[0] ^= 1;
    }
    let warm = room.join("warm.cases");
    match scale.small {
        true => _ = fs::remove_file(&warm),
        false => workload::write(&warm, &plan::warm_up().cases)?,
    }
    let files: Vec<PathBuf> = groups.iter().map(|group| room.join(format!("{}.cases", group.name))).collect();
    for (group, file) in groups.iter_mut().zip(&files) {
        workload::write(file, &group.cases)?;
        group.cases.clear();
    }
    let peers = choice.peers(planted)?;
    let mut figures = Figures::new();
    for round in 0..choice.rounds {
        for (number, (group, file)) in groups.iter().zip(&files).enumerate() {
            for turn in 0..peers.len() {
                let column = (turn + round) % peers.len();
                let told = run(&peers[column], group, file, &warm)?;
                for (place, row) in group.rows.iter().enumerate() {
                    if let Some(figure) = figure(&told, row, peers[column].name) {
                        figures.entry((number, place, column)).or_default().push(figure);
                    }
                }
            }
        }
        if !scale.small {
            eprintln!("round {} of {} is measured", round + 1, choice.rounds);
        }
    }
    for file in files.iter().chain([&warm]) {
        _ = fs::remove_file(file);
    }
    Ok(Measured { groups, peers, figures })
}
