//! The figures as tables: for people in Markdown, and whole, with the least and the greatest, a line each.

use crate::plan::{ALL, FIND, LOAD, LONG, MIXED_80, MIXED_90, REPLACE, SCAN_1000, WORKLOADS};
use crate::rounds::Measured;
use std::error::Error;
use std::fmt::Write;

/// The columns that are ours: maps, then indexes, the wider page first.
const MAPS: [&str; 1] = ["map 32"];
const INDEXES: [&str; 2] = ["index 32", "index 16"];

// What is compared, and the head of its column.
const RATIOS: [(&str, &str); 2] = [("map", "map/best"), ("index", "index/BTreeMap")];

/// What a column's rounds came to.
#[derive(Clone, Copy)]
pub struct Spread {
    pub median: f64,
    pub least: f64,
    pub greatest: f64,
}

fn spread(figures: &[f64]) -> Spread {
    let mut sorted = figures.to_vec();
    sorted.sort_by(f64::total_cmp);
    let middle = sorted.len() / 2;
    let median = match sorted.len() % 2 {
        0 => (sorted[middle - 1] + sorted[middle]) / 2.0,
        _ => sorted[middle],
    };
    Spread { median, least: sorted[0], greatest: sorted[sorted.len() - 1] }
}

/// A row with the figures of its columns.
pub struct Line {
    pub workload: String,
    pub entries: String,
    pub threads: usize,
    pub columns: Vec<Option<Spread>>,
}

/// All rows, in the order of the tables, and the names of their columns.
pub struct Report {
    pub sides: Vec<String>,
    pub lines: Vec<Line>,
}

impl Line {
    // The median of the best of these columns.
    fn best(&self, sides: &[String], names: &[&str]) -> Option<f64> {
        let of = sides.iter().zip(&self.columns).filter(|(side, _)| names.contains(&side.as_str()));
        of.filter_map(|(_, spread)| spread.map(|spread| spread.median)).min_by(f64::total_cmp)
    }

    // The time of the best fan to that of the best peer, in the order of `RATIOS`: of the map to what threads may
    // change together, and of the index to a map that one thread has.
    fn ratios(&self, sides: &[String]) -> [Option<f64>; 2] {
        let shared = ["Mutex", "RwLock", "shards", "TBB", "JDK", "libcds"];
        let ratio = |ours: &[&str], theirs: &[&str]| Some(self.best(sides, ours)? / self.best(sides, theirs)?);
        [ratio(&MAPS, &shared), ratio(&INDEXES, &["BTreeMap"])]
    }
}

impl Report {
    /// The report of what was measured.
    pub fn of(measured: &Measured) -> Report {
        let mut lines = Vec::new();
        for (group, it) in measured.groups.iter().enumerate() {
            for (place, row) in it.rows.iter().enumerate() {
                let of = |column| measured.figures.get(&(group, place, column)).map(|figures| spread(figures));
                let columns = (0..measured.peers.len()).map(of).collect();
                let (workload, entries) = (row.workload.to_string(), row.entries.clone());
                lines.push(Line { workload, entries, threads: row.threads, columns });
            }
        }
        lines.sort_by_key(|line| WORKLOADS.iter().position(|workload| *workload == line.workload));
        Report { sides: measured.peers.iter().map(|peer| peer.name.to_string()).collect(), lines }
    }

    /// The report that `figures` wrote.
    pub fn read(text: &str) -> Result<Report, Box<dyn Error>> {
        let mut report = Report { sides: Vec::new(), lines: Vec::new() };
        for row in text.lines().skip(1) {
            let words: Vec<&str> = row.split('\t').collect();
            let [workload, entries, threads, side, median, least, greatest] = words.as_slice() else {
                return Err(format!("no row of figures: {row}").into());
            };
            let threads = threads.parse()?;
            let spread = Spread { median: median.parse()?, least: least.parse()?, greatest: greatest.parse()? };
            let is_same = |line: &Line| line.workload == *workload && line.entries == *entries && line.threads == threads;
            if !report.lines.last().is_some_and(is_same) {
                let (workload, entries) = (workload.to_string(), entries.to_string());
                report.lines.push(Line { workload, entries, threads, columns: Vec::new() });
            }
            let column = report.column(side);
            let line = report.lines.last_mut().expect("the row's line");
            line.columns.resize(line.columns.len().max(column + 1), None);
            line.columns[column] = Some(spread);
        }
        let count = report.sides.len();
        report.lines.iter_mut().for_each(|line| line.columns.resize(count, None));
        Ok(report)
    }

    // The column of this side, which is the next one if none has its name.
    fn column(&mut self, side: &str) -> usize {
        match self.sides.iter().position(|it| it == side) {
            Some(column) => column,
            None => {
                self.sides.push(side.to_string());
                self.sides.len() - 1
            }
        }
    }
}

fn number(figure: f64) -> String {
    match figure {
        _ if figure < 10.0 => format!("{figure:.1}"),
        _ => format!("{figure:.0}"),
    }
}

fn cell(ratio: Option<f64>) -> String {
    match ratio {
        None => String::new(),
        Some(ratio) if ratio > 1.0 => format!("**{ratio:.2}**"),
        Some(ratio) => format!("{ratio:.2}"),
    }
}

// A workload's table. Columns that have no figure are left out.
fn table(text: &mut String, workload: &str, lines: &[&Line], sides: &[String]) {
    let has = |column: &usize| lines.iter().any(|line| line.columns[*column].is_some());
    let columns: Vec<usize> = (0..sides.len()).filter(has).collect();
    let ratios: Vec<_> = lines.iter().map(|line| line.ratios(sides)).collect();
    let told: Vec<usize> = (0..RATIOS.len()).filter(|&kind| ratios.iter().any(|it| it[kind].is_some())).collect();
    let mut head: Vec<&str> = vec![workload, "threads"];
    head.extend(columns.iter().map(|&column| sides[column].as_str()));
    head.extend(told.iter().map(|&kind| RATIOS[kind].1));
    _ = writeln!(text, "{}\n{}", head.join("|"), "|---".repeat(head.len()) + "|");
    for (line, ratios) in lines.iter().zip(ratios) {
        let mut row = vec![line.entries.replace(" ascending", "&nbsp;ascending"), line.threads.to_string()];
        row.extend(columns.iter().map(|&column| line.columns[column].map_or(String::new(), |it| number(it.median))));
        row.extend(told.iter().map(|&kind| cell(ratios[kind])));
        _ = writeln!(text, "{}", row.join("|"));
    }
    text.push('\n');
}

// Where the map or the index takes longer than the best peer: how many rows, and which are the worst.
fn losses(text: &mut String, lines: &[Line], sides: &[String]) {
    for (kind, (name, _)) in RATIOS.iter().enumerate() {
        let mut ratios: Vec<(f64, &Line)> = Vec::new();
        for line in lines {
            ratios.extend(line.ratios(sides)[kind].map(|ratio| (ratio, line)));
        }
        let all = ratios.len();
        ratios.retain(|it| it.0 > 1.0);
        ratios.sort_by(|one, other| other.0.total_cmp(&one.0));
        let thread = |count: usize| if count == 1 { "thread" } else { "threads" };
        let worst: Vec<String> = ratios
            .iter()
            .take(3)
            .map(|(ratio, line)| format!("{ratio:.1} ({}, {} entries, {} {})", line.workload, line.entries, line.threads, thread(line.threads)))
            .collect();
        _ = writeln!(text, "The {name} loses {} of {all} rows, at worst by {}.", ratios.len(), worst.join("; "));
    }
    text.push('\n');
}

/// The tables as Markdown.
pub fn markdown(report: &Report) -> String {
    let mut text = String::new();
    losses(&mut text, &report.lines, &report.sides);
    for workload in WORKLOADS {
        let rows: Vec<&Line> = report.lines.iter().filter(|line| line.workload == workload).collect();
        if rows.iter().any(|line| line.columns.iter().any(Option::is_some)) {
            table(&mut text, workload, &rows, &report.sides);
        }
    }
    text.truncate(text.trim_end().len());
    text.push('\n');
    text
}

/// The ratios on 40,000 entries, inserted at random, of the workloads that most callers have.
pub fn summary(report: &Report) -> String {
    let mut text = String::from("To the best peer|map, 1 thread|2|4|8|index\n|---|---|---|---|---|---|\n");
    for workload in [FIND, SCAN_1000, LOAD, MIXED_80, MIXED_90, ALL, REPLACE, LONG] {
        let of = |threads| {
            let is_it = |line: &&Line| line.workload == workload && line.entries == "40,000" && line.threads == threads;
            report.lines.iter().find(is_it).map_or([None; 2], |line| line.ratios(&report.sides))
        };
        let maps = [1, 2, 4, 8].map(|threads| cell(of(threads)[0]));
        _ = writeln!(text, "{workload}|{}|{}", maps.join("|"), cell(of(1)[1]));
    }
    text
}

/// All figures, a line each with tabs between: nanoseconds of an operation or an entry, and milliseconds where the workload says so.
pub fn figures(report: &Report) -> String {
    let mut text = String::from("workload\tentries\tthreads\tside\tmedian\tleast\tgreatest\n");
    for line in &report.lines {
        for (side, spread) in report.sides.iter().zip(&line.columns) {
            if let Some(it) = spread {
                let head = format!("{}\t{}\t{}\t{side}", line.workload, line.entries, line.threads);
                _ = writeln!(text, "{head}\t{:.1}\t{:.1}\t{:.1}", it.median, it.least, it.greatest);
            }
        }
    }
    text
}
