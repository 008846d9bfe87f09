// Median times of every call, all versions in turn in one process, printed as Markdown: ours in microseconds, and ratios.
// A ratio is ours divided by the other version, medians of the same rounds; below 1 ours is the faster.

use crate::inputs::{inputs_of, perform, Input, Lent};
use crate::tables::{every_kind, make, Kind, Size, HOSTILE};
use crate::versions::{versions, Call, Version, CALLS, GCC, OURS, REFERENCE, SAFE, UNCHECKED};
use crate::SIZES;
use reference::bits::WIDTHS;
use std::hint::black_box;
use std::time::Instant;

/// The order of the printed columns.
const OTHERS: [usize; 4] = [REFERENCE, SAFE, UNCHECKED, GCC];

struct Timed {
    call: Call,
    kind: Kind,
    /// Median of each version, in nanoseconds.
    medians: Vec<f64>,
}

impl Timed {
    fn ratio(&self, other: usize) -> f64 {
        self.medians[OURS] / self.medians[other]
    }
}

pub fn run(rounds: usize) {
    let versions = versions();
    println!("Medians of {rounds} rounds, all versions in turn. Ratios are ours / other.\n");
    for (width, slots) in WIDTHS.into_iter().flat_map(|width| SIZES.map(|slots| (width, slots))) {
        let mut rows = Vec::new();
        for kind in every_kind(width) {
            for input in inputs_of(&make(kind, width, slots)) {
                rows.push(Timed { call: input.call, kind, medians: medians(&versions, &input, rounds) });
            }
        }
        print_planning((width, slots), &rows);
        print_calls((width, slots), &rows);
    }
}

/// One round has every version once; the first to run moves on from round to round. Round 0 is not counted.
fn medians(versions: &[Version], input: &Input, rounds: usize) -> Vec<f64> {
    let mut lent = Lent::new(input);
    let mut times: Vec<Vec<f64>> = vec![Vec::new(); versions.len()];
    for round in 0..=rounds {
        for turn in 0..versions.len() {
            let place = (turn + round) % versions.len();
            let time = time_of(&versions[place], input, &mut lent);
            if round > 0 {
                times[place].push(time);
            }
        }
    }
    times.into_iter().map(median).collect()
}

/// Nanoseconds of one call. Calls of about a microsecond that change nothing are made 16 times.
fn time_of(version: &Version, input: &Input, lent: &mut Lent) -> f64 {
    let calls = if matches!(input.call, Call::Lookup | Call::SlotRecord) { 16 } else { 1 };
    lent.restore(input);
    let start = Instant::now();
    for _ in 0..calls {
        black_box(perform(version, black_box(input), lent));
    }
    start.elapsed().as_nanos() as f64 / f64::from(calls)
}

fn median(mut times: Vec<f64>) -> f64 {
    times.sort_by(f64::total_cmp);
    times[times.len() / 2]
}

fn print_planning((width, slots): Size, rows: &[Timed]) {
    println!("### Planning an insert, {slots} slots, values of {width} words\n");
    println!("| Table | ours, µs | / reference | / safe Rust | / unchecked Rust | / gcc -O3 |");
    println!("|---|---|---|---|---|---|");
    for row in rows.iter().filter(|row| row.call == Call::PlanInsert) {
        let ratios: Vec<String> = OTHERS.iter().map(|&other| format!("{:.2}", row.ratio(other))).collect();
        println!("| {} | {:.0} | {} |", row.kind.name(width), row.medians[OURS] / 1000.0, ratios.join(" | "));
    }
    println!();
}

/// Every call over the tables, the hostile ones apart: the range of ours, and of each ratio the geometric mean and the range.
fn print_calls((width, slots): Size, rows: &[Timed]) {
    println!("### Every call, {slots} slots, values of {width} words\n");
    println!("Geometric mean over the tables, the hostile ones apart (least to most).\n");
    println!("| Call | ours, µs | / reference | / safe Rust | / unchecked Rust | / gcc -O3 |");
    println!("|---|---|---|---|---|---|");
    for call in CALLS {
        let of_call: Vec<&Timed> = rows.iter().filter(|row| row.call == call && !HOSTILE.contains(&row.kind)).collect();
        let times: Vec<f64> = of_call.iter().map(|row| row.medians[OURS] / 1000.0).collect();
        let ratios: Vec<String> = OTHERS
            .iter()
            .map(|&other| {
                let ratios: Vec<f64> = of_call.iter().map(|row| row.ratio(other)).collect();
                format!("{:.2} ({:.2} to {:.2})", geometric_mean(&ratios), least(&ratios), most(&ratios))
            })
            .collect();
        println!("| {} | {:.2} to {:.2} | {} |", call.name(), least(&times), most(&times), ratios.join(" | "));
    }
    println!();
}

fn geometric_mean(numbers: &[f64]) -> f64 {
    (numbers.iter().map(|number| number.ln()).sum::<f64>() / numbers.len() as f64).exp()
}

fn least(numbers: &[f64]) -> f64 {
    numbers.iter().copied().fold(f64::INFINITY, f64::min)
}

fn most(numbers: &[f64]) -> f64 {
    numbers.iter().copied().fold(0.0, f64::max)
}
