//! A plot of nanoseconds an operation by threads, as SVG: panels with one line a side.

use crate::plan::{FIND, MIXED_80, REPLACE};
use crate::report::{Report, Spread};
use std::fmt::Write;

const THREADS: [usize; 4] = [1, 2, 4, 8];
const ENTRIES: &str = "40,000";

// A panel's frame, in pixels.
const WIDTH: f64 = 520.0;
const LEFT: f64 = 52.0;
const RIGHT: f64 = 348.0;
const TOP: f64 = 66.0;
const BOTTOM: f64 = 376.0;
const HEIGHT: f64 = 430.0;
/// How far apart the names at the lines' ends stand at least.
const APART: f64 = 16.0;

// A side's colour, the width of its line and its dashes. Ours are the widest.
fn style(name: &str) -> (&'static str, f64, &'static str) {
    match name {
        "map 32" => ("#b3001b", 4.0, "none"),
        "Mutex" => ("#1f5fa8", 1.8, "none"),
        "RwLock" => ("#1f5fa8", 1.8, "6 4"),
        "shards" => ("#1f5fa8", 1.8, "2 3"),
        "TBB" => ("#7a4fa3", 1.8, "none"),
        "JDK" => ("#b36b00", 1.8, "none"),
        "libcds" => ("#2a7f4f", 1.8, "none"),
        _ => ("#8a8a8a", 1.5, "2 4"),
    }
}

fn label(name: &str) -> String {
    match name {
        "map 32" => "this map, fan 32".to_string(),
        "Mutex" | "RwLock" => format!("BTreeMap, {name}"),
        "BTreeMap" => "BTreeMap, never changed".to_string(),
        "shards" => "64 RwLock<BTreeMap>".replace('<', "&lt;").replace('>', "&gt;"),
        "TBB" => "TBB concurrent_map".to_string(),
        "JDK" => "JDK SkipListMap".to_string(),
        "libcds" => "libcds SkipListMap".to_string(),
        other => other.to_string(),
    }
}

// A side's figures by threads.
struct Curve<'a> {
    name: &'a str,
    points: Vec<(usize, Spread)>,
}

fn curves<'a>(report: &'a Report, workload: &str) -> Vec<Curve<'a>> {
    let of = |threads: usize| {
        report.lines.iter().find(move |line| line.workload == workload && line.entries == ENTRIES && line.threads == threads)
    };
    let mut curves = Vec::new();
    for (column, side) in report.sides.iter().enumerate() {
        let spread = |&threads: &usize| Some((threads, of(threads)?.columns[column]?));
        let points: Vec<_> = THREADS.iter().filter_map(spread).collect();
        if points.len() == THREADS.len() {
            curves.push(Curve { name: side, points });
        }
    }
    curves
}

// The pixels of a panel.
struct Scale {
    least: f64,
    greatest: f64,
}

impl Scale {
    // Whole steps of 1, 2, 5 and 10 around all figures.
    fn around(curves: &[Curve]) -> Scale {
        let figures = || curves.iter().flat_map(|curve| &curve.points).map(|point| point.1.median);
        let (least, greatest) = figures().fold((f64::MAX, 0.0f64), |it, figure| (it.0.min(figure), it.1.max(figure)));
        let steps = steps();
        let least = steps.iter().copied().filter(|step| *step <= least).fold(1.0, f64::max);
        let greatest = steps.iter().copied().filter(|step| *step >= greatest).fold(1e9, f64::min);
        Scale { least, greatest }
    }

    fn y(&self, figure: f64) -> f64 {
        BOTTOM - (figure / self.least).ln() / (self.greatest / self.least).ln() * (BOTTOM - TOP)
    }

    fn x(threads: usize) -> f64 {
        LEFT + (threads as f64).log2() / 3.0 * (RIGHT - LEFT)
    }
}

fn steps() -> Vec<f64> {
    (0..7).flat_map(|power| [1.0, 2.0, 5.0].map(|digit| digit * 10f64.powi(power))).collect()
}

fn frame(text: &mut String, title: &str, scale: &Scale) {
    _ = writeln!(text, r##"<text x="{LEFT}" y="28" font-size="15" font-weight="bold">{title}</text>"##);
    let unit = format!("nanoseconds an operation of all threads, log scales; {ENTRIES} entries; less is better");
    _ = writeln!(text, r##"<text x="{LEFT}" y="47" font-size="11" fill="#555">{unit}</text>"##);
    for step in steps().into_iter().filter(|step| *step >= scale.least && *step <= scale.greatest) {
        let y = scale.y(step);
        _ = writeln!(text, r##"<line x1="{LEFT}" x2="{RIGHT}" y1="{y:.1}" y2="{y:.1}" stroke="#e3e3e3"/>"##);
        let (x, y) = (LEFT - 7.0, y + 4.0);
        _ = writeln!(text, r##"<text x="{x:.1}" y="{y:.1}" text-anchor="end" fill="#555">{step}</text>"##);
    }
    for threads in THREADS {
        let (x, y) = (Scale::x(threads), BOTTOM + 19.0);
        _ = writeln!(text, r##"<line x1="{x:.1}" x2="{x:.1}" y1="{TOP}" y2="{BOTTOM}" stroke="#f0f0f0"/>"##);
        _ = writeln!(text, r##"<text x="{x:.1}" y="{y:.1}" text-anchor="middle" fill="#555">{threads}</text>"##);
    }
    let (x, y) = ((LEFT + RIGHT) / 2.0, BOTTOM + 40.0);
    _ = writeln!(text, r##"<text x="{x:.1}" y="{y:.1}" text-anchor="middle" fill="#555">threads</text>"##);
}

// Where the names stand, from the top down, none closer to another than they can be read, and all within the panel.
fn places(ends: &[f64]) -> Vec<f64> {
    let mut order: Vec<usize> = (0..ends.len()).collect();
    order.sort_by(|&one, &other| ends[one].total_cmp(&ends[other]));
    let mut places = ends.to_vec();
    for pair in 1..order.len() {
        places[order[pair]] = places[order[pair]].max(places[order[pair - 1]] + APART);
    }
    let mut lowest = BOTTOM + 4.0;
    for &place in order.iter().rev() {
        places[place] = places[place].min(lowest);
        lowest = places[place] - APART;
    }
    places
}

fn panel(text: &mut String, title: &str, curves: &[Curve]) {
    let scale = Scale::around(curves);
    frame(text, title, &scale);
    let ends: Vec<f64> = curves.iter().map(|curve| scale.y(curve.points[THREADS.len() - 1].1.median)).collect();
    // Ours are drawn last, above the others.
    for (curve, (end, place)) in curves.iter().zip(ends.iter().zip(places(&ends))).rev() {
        let (colour, width, dashes) = style(curve.name);
        let at = |point: &(usize, Spread)| (Scale::x(point.0), scale.y(point.1.median));
        let points: Vec<String> = curve.points.iter().map(at).map(|(x, y)| format!("{x:.1},{y:.1}")).collect();
        let points = points.join(" ");
        _ = writeln!(
            text,
            r##"<polyline points="{points}" fill="none" stroke="{colour}" stroke-width="{width}" stroke-dasharray="{dashes}" stroke-linejoin="round"/>"##
        );
        for (x, y) in curve.points.iter().map(at) {
            let radius = width.max(2.2);
            _ = writeln!(text, r##"<circle cx="{x:.1}" cy="{y:.1}" r="{radius}" fill="{colour}"/>"##);
        }
        let (from, to, below) = (RIGHT + 5.0, RIGHT + 16.0, place + 4.0);
        _ = writeln!(text, r##"<line x1="{from}" y1="{end:.1}" x2="{to}" y2="{place:.1}" stroke="{colour}"/>"##);
        let (name, x) = (label(curve.name), RIGHT + 19.0);
        let is_ours = curve.name.starts_with("map");
        let weight = if is_ours { "bold" } else { "normal" };
        _ = writeln!(text, r##"<text x="{x}" y="{below:.1}" fill="{colour}" font-weight="{weight}">{name}</text>"##);
    }
}

// The panels: what the map wins, and what it loses.
const PANELS: [(&str, &str); 3] =
    [("A find", FIND), ("Of a hundred, 80 finds, 10 insertions and 10 deletions", MIXED_80), ("A replacement", REPLACE)];

/// The plot of finds, of 80 finds, 10 insertions and 10 deletions, and of replacements, on 40,000 entries.
pub fn svg(report: &Report) -> String {
    let mut text = String::new();
    let width = PANELS.len() as f64 * WIDTH;
    _ = writeln!(
        text,
        r##"<svg xmlns="http://www.w3.org/2000/svg" viewBox="0 0 {width} {HEIGHT}" width="{width}" height="{HEIGHT}" font-family="Helvetica, Arial, sans-serif" font-size="12">"##
    );
    _ = writeln!(text, r##"<rect width="{width}" height="{HEIGHT}" fill="#ffffff"/>"##);
    for (place, (title, workload)) in PANELS.iter().enumerate() {
        _ = writeln!(text, r##"<g transform="translate({:.0} 0)">"##, place as f64 * WIDTH);
        panel(&mut text, title, &curves(report, workload));
        text.push_str("</g>\n");
    }
    text.push_str("</svg>\n");
    text
}
