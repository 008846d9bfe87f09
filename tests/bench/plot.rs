// The plot: mean writes per insert for each rule set, load and planner, with the 99th percentile and the worst.
// Written as SVG by hand; the vertical axis is logarithmic, from 1 write to 1,024.

use crate::planners::{Planner, PLANNERS};
use crate::rule_sets::RULE_SETS;
use crate::workload::{Free, Operations, Outcome};
use crate::{Row, LOADS};
use std::fmt::Write;

const WIDTH: f64 = 960.0;
const HEIGHT: f64 = 790.0;
/// From one band to the next.
const BAND: f64 = 360.0;
const TOP: f64 = 96.0;
const FLOOR: f64 = 376.0;
const LEFT: f64 = 64.0;
const RIGHT: f64 = 944.0;

fn colour(planner: Planner) -> &'static str {
    match planner {
        Planner::Ours => "#1b6ca8",
        Planner::RuleTris => "#5aa469",
        Planner::FastRuleTwoWay => "#e0a030",
        Planner::FastRuleOneWay => "#c4582f",
        Planner::PriorityOrder => "#8a8a8a",
    }
}

fn height_of(writes: f64) -> f64 {
    FLOOR - writes.max(1.0).log2() / 10.0 * (FLOOR - TOP)
}

/// The workloads with deletes: a band for each end of the free space, in it three rule sets of three loads.
pub fn drawing(rows: &[Row]) -> String {
    let mut svg = String::new();
    let font = "font-family=\"sans-serif\" font-size=\"13\"";
    writeln!(svg, "<svg xmlns=\"http://www.w3.org/2000/svg\" viewBox=\"0 0 {WIDTH} {HEIGHT}\" {font}>").unwrap();
    writeln!(svg, "<rect width=\"{WIDTH}\" height=\"{HEIGHT}\" fill=\"white\"/>").unwrap();
    svg += &text(
        LEFT,
        26.0,
        "start",
        "Writes per planned insert, 1,024 slots, delete one and insert one: mean (bar), 99th percentile (line), worst (dot)",
    );
    for (place, planner) in PLANNERS.into_iter().enumerate() {
        let x = LEFT + 176.0 * place as f64;
        writeln!(svg, "<rect x=\"{x}\" y=\"42\" width=\"14\" height=\"14\" fill=\"{}\"/>", colour(planner)).unwrap();
        svg += &text(x + 20.0, 54.0, "start", planner.name());
    }
    for (place, free) in [Free::First, Free::Last].into_iter().enumerate() {
        writeln!(svg, "<g transform=\"translate(0 {})\">", BAND * place as f64).unwrap();
        svg += &band(rows, free);
        svg += "</g>\n";
    }
    svg + "</svg>\n"
}

fn band(rows: &[Row], free: Free) -> String {
    let mut svg = String::new();
    let title = match free {
        Free::First => "free space at the winning end first",
        Free::Last => "free space at the losing end first",
    };
    svg += &text(RIGHT, TOP - 8.0, "end", title);
    for power in 0..=10 {
        let y = height_of(f64::from(1 << power));
        writeln!(svg, "<line x1=\"{LEFT}\" y1=\"{y:.1}\" x2=\"{RIGHT}\" y2=\"{y:.1}\" stroke=\"#dddddd\"/>").unwrap();
        svg += &text(LEFT - 8.0, y + 4.0, "end", &format!("{}", 1 << power));
    }
    let group = (RIGHT - LEFT) / (RULE_SETS.len() * LOADS.len()) as f64;
    let is_drawn = |row: &&Row| row.kind.operations == Operations::DeleteInsert && row.kind.free == free;
    for (place, row) in rows.iter().filter(is_drawn).enumerate() {
        let x = LEFT + group * place as f64;
        svg += &text(x + group / 2.0, FLOOR + 20.0, "middle", &format!("load 0.{}", row.kind.load));
        if place % LOADS.len() == 0 {
            svg += &text(x + group * LOADS.len() as f64 / 2.0, FLOOR + 42.0, "middle", row.kind.set.name());
            let low = FLOOR + 48.0;
            writeln!(svg, "<line x1=\"{x:.1}\" y1=\"{TOP}\" x2=\"{x:.1}\" y2=\"{low}\" stroke=\"#bbbbbb\"/>").unwrap();
        }
        for (planner, outcome) in PLANNERS.into_iter().zip(&row.outcomes) {
            let place = PLANNERS.iter().position(|&other| other == planner).unwrap();
            svg += &bar(x + 10.0 + 16.0 * place as f64, planner, outcome);
        }
    }
    svg
}

fn text(x: f64, y: f64, anchor: &str, words: &str) -> String {
    format!("<text x=\"{x:.1}\" y=\"{y:.1}\" text-anchor=\"{anchor}\">{words}</text>\n")
}

fn bar(x: f64, planner: Planner, outcome: &Outcome) -> String {
    let fill = colour(planner);
    let mean = height_of(outcome.mean());
    let percentile = height_of(outcome.percentile_99() as f64);
    let worst = height_of(outcome.worst() as f64);
    format!(
        "<g fill=\"{fill}\" stroke=\"{fill}\"><rect x=\"{x:.1}\" y=\"{:.1}\" width=\"12\" height=\"{:.1}\" stroke=\"none\"/>\
         <line x1=\"{:.1}\" y1=\"{percentile:.1}\" x2=\"{:.1}\" y2=\"{percentile:.1}\" stroke-width=\"2\"/>\
         <circle cx=\"{:.1}\" cy=\"{worst:.1}\" r=\"3\"/></g>\n",
        mean - 1.0,
        FLOOR - mean + 1.0,
        x - 1.0,
        x + 13.0,
        x + 6.0
    )
}
