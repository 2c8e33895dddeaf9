//! The index and the map of libblink beside their peers: all workloads in one run, round by round, a process for each side.
//!
//! ```text
//! beside                 measures all, and prints the tables as Markdown; out/bench has them, all figures and the plot
//! beside TABLES SHORT PLOT ALL
//!                        also puts the tables between the markers of the first file, the ratios that most callers want between those of
//!                        the second, the plot into the third, and all figures into the fourth
//! beside rounds COUNT GROUP [SIDE ..]
//!                        measures one group of workloads so many times, by these sides or by all, and prints its figures
//! beside again FIGURES [TABLES SHORT PLOT ALL]
//!                        tells again what was measured, of the file of all figures
//! beside small           runs a little of every workload, to see that the answers are right, and prints nothing
//! beside planted         the same with one wrong sum, which it has to find
//! beside turns           measures finds, changes and scans by turns: of sessions beside those of passes, and scans beside a BTreeMap's
//! beside changes         times each kind of call once, for bench/changes.sh, which compares two libraries
//! beside growing         measures the map beside one with a fixed room: finds, a queue, growing from nothing, and renewals
//! beside queue CHANGES   lets a queue in the map live through so many changes, and tells time and memory
//! beside life            measures the life of a map: joining, opening, and what an insertion uses up
//! beside tails           measures how long single changes take: the median, and the slowest of a thousand and of ten thousand
//! beside soak FAN CHANGES
//!                        changes a map by eight threads so many times, looks everything up, and tells time and memory
//! beside side NAME FILE  what a process of its own does: runs the cases of a file by this side
//! beside batch ENTRIES   a batch of insertions into a BTreeMap, as the program `inside` runs one
//! beside script make|run a script of 40,000 rows, or the answers to one from a BTreeMap; `make small` has 400
//! ```

mod growing;
mod map;
mod ours;
mod plan;
mod plot;
mod report;
mod rounds;
mod script;
mod shards;
mod side;
mod soak;
mod tails;
mod turns;
mod workload;

use map::Map;
use ours::{ByIndex, ByMap};
use plan::Scale;
use report::Report;
use rounds::{measure, room, Choice};
use shards::Shards;
use std::error::Error;
use std::path::Path;
use std::sync::{Mutex, RwLock};
use std::{env, fs};

// The lines between which the tables stand.
const BEGIN: &str = "<!-- begin of what bench/beside wrote -->\n";
const END: &str = "<!-- end of what bench/beside wrote -->\n";

fn side(name: &str, file: &Path) -> Result<(), Box<dyn Error>> {
    match name {
        "map 32" => side::work::<ByMap<32>>(file)?,
        "index 32" => side::work::<ByIndex<32>>(file)?,
        "index 16" => side::work::<ByIndex<16>>(file)?,
        "BTreeMap" => side::work::<Map>(file)?,
        "Mutex" => side::work::<Mutex<Map>>(file)?,
        "RwLock" => side::work::<RwLock<Map>>(file)?,
        "shards" => side::work::<Shards>(file)?,
        _ => return Err(format!("no side has this name: {name}").into()),
    }
    Ok(())
}

// Puts the tables between the markers of a document.
fn put(document: &Path, tables: &str) -> Result<(), Box<dyn Error>> {
    let text = fs::read_to_string(document)?;
    let lacks = || format!("{} lacks the markers", document.display());
    let begin = text.find(BEGIN).ok_or_else(lacks)? + BEGIN.len();
    let end = text.find(END).ok_or_else(lacks)?;
    fs::write(document, format!("{}\n{tables}\n{}", &text[..begin], &text[end..]))?;
    Ok(())
}

// The documents that tables and short table are put into, and the files of the plot and of all figures.
type Into<'a> = [&'a str; 4];

// Writes and prints the report, and puts it into documents and a picture, where they are named.
fn tell(report: &Report, into: Option<Into>) -> Result<(), Box<dyn Error>> {
    let (tables, short, plot) = (report::markdown(report), report::summary(report), plot::svg(report));
    fs::write(room().join("tables.md"), &tables)?;
    fs::write(room().join("short.md"), &short)?;
    fs::write(room().join("figures.tsv"), report::figures(report))?;
    fs::write(room().join("threads.svg"), &plot)?;
    print!("{short}\n{tables}");
    if let Some([document, other, picture, all]) = into {
        put(Path::new(document), &tables)?;
        put(Path::new(other), &short)?;
        fs::write(picture, &plot)?;
        fs::write(all, report::figures(report))?;
    }
    Ok(())
}

fn all(into: Option<Into>) -> Result<(), Box<dyn Error>> {
    let scale = Scale { small: false };
    tell(&Report::of(&measure(scale, false, &Choice::all(scale))?), into)
}

// A line for each row and side: the median, the least and the greatest.
fn some(choice: &Choice) -> Result<(), Box<dyn Error>> {
    print!("{}", report::figures(&Report::of(&measure(Scale { small: false }, false, choice)?)));
    Ok(())
}

fn small(planted: bool) -> Result<(), Box<dyn Error>> {
    // The tables and the plot are made, so that they can't break unseen.
    let scale = Scale { small: true };
    let report = Report::of(&measure(scale, planted, &Choice::all(scale))?);
    let again = Report::read(&report::figures(&report))?;
    if report::figures(&again) != report::figures(&report) || report::markdown(&again).is_empty() || report::summary(&again).is_empty() || plot::svg(&again).is_empty() {
        return Err("figures are read otherwise than they were written".into());
    }
    Ok(())
}

fn main() -> Result<(), Box<dyn Error>> {
    let words: Vec<String> = env::args().skip(1).collect();
    let words: Vec<&str> = words.iter().map(String::as_str).collect();
    match words.as_slice() {
        [] => all(None),
        ["life"] => {
            ours::life();
            Ok(())
        }
        ["growing"] => {
            growing::all();
            Ok(())
        }
        ["queue", changes] => {
            growing::soak(changes.parse()?);
            Ok(())
        }
        ["turns"] => {
            turns::turns();
            Ok(())
        }
        ["changes"] => {
            turns::changes();
            Ok(())
        }
        ["tails"] => {
            tails::tails();
            Ok(())
        }
        ["soak", fan, changes] => Ok(soak::soak(fan.parse()?, changes.parse()?)?),
        ["small"] => small(false),
        ["planted"] => small(true),
        ["side", name, file] => side(name, Path::new(file)),
        ["batch", entries] => script::batch(entries.parse()?),
        ["script", "make"] => script::make(3_999),
        ["script", "make", "small"] => script::make(39),
        ["script", "run"] => script::run(),
        ["rounds", rounds, group, sides @ ..] => some(&Choice { group: Some(*group), sides, rounds: rounds.parse()? }),
        ["again", figures] => tell(&Report::read(&fs::read_to_string(figures)?)?, None),
        ["again", figures, document, other, picture, all] => {
            tell(&Report::read(&fs::read_to_string(figures)?)?, Some([document, other, picture, all]))
        }
        [document, other, picture, figures] => all(Some([document, other, picture, figures])),
        _ => Err("see the head of src/main.rs".into()),
    }
}
