// The bench's tables, printed as they stand in docs/PERFORMANCE.md.
// A cell is three numbers of one planner on one workload.

use crate::planners::PLANNERS;
use crate::uncounted::{Inserts, ACTIONS, LEVELS};
use crate::workload::{Free, Operations, Outcome, OPERATIONS};
use crate::{Kind, ListRow, Row};

/// With a comma before each three digits.
fn grouped(number: usize) -> String {
    let digits = number.to_string();
    let parts: Vec<&str> = digits.as_bytes().rchunks(3).rev().map(|part| std::str::from_utf8(part).unwrap()).collect();
    parts.join(",")
}

/// The mean in hundredths, as it is printed: what rounds to the same is the same.
fn hundredths(outcome: &Outcome) -> u64 {
    (outcome.mean() * 100.0).round() as u64
}

fn title(operations: Operations) -> &'static str {
    match operations {
        Operations::DeleteInsert => "Delete one, insert one",
        Operations::InsertOnly => "Insert only",
    }
}

fn label(kind: &Kind) -> String {
    let free = match kind.free {
        Free::First => "first",
        Free::Last => "last",
    };
    format!("{} 0.{}, {free}", kind.set.name(), kind.load)
}

fn print_heads() {
    let names: Vec<&str> = PLANNERS.iter().map(|planner| planner.name()).collect();
    println!("| Rules, load, free end | {} |", names.join(" | "));
    println!("|{}", "---|".repeat(1 + PLANNERS.len()));
}

fn print_row(row: &Row, cell: impl Fn(&Outcome) -> String) {
    let cells: Vec<String> = row.outcomes.iter().map(cell).collect();
    println!("| {} | {} |", label(&row.kind), cells.join(" | "));
}

/// Mean, 99th percentile and worst number of writes; a mean below ours, which is the first, is in bold type.
pub fn print_writes(rows: &[Row]) {
    for operations in OPERATIONS {
        println!("\n{}. Mean / 99th percentile / worst number of writes of the inserts that were planned:\n", title(operations));
        print_heads();
        for row in rows.iter().filter(|row| row.kind.operations == operations) {
            let ours = hundredths(&row.outcomes[0]);
            print_row(row, |outcome| {
                let mark = if hundredths(outcome) < ours { "**" } else { "" };
                let mean = format!("{mark}{:.2}{mark}", hundredths(outcome) as f64 / 100.0);
                format!("{mean} / {} / {}", grouped(outcome.percentile_99()), grouped(outcome.worst()))
            });
        }
    }
}

/// How many inserts a mean is over, and why the others were declined.
pub fn print_counts(rows: &[Row]) {
    for operations in OPERATIONS {
        println!("\n{}. Inserts planned / crossed / without room:\n", title(operations));
        print_heads();
        for row in rows.iter().filter(|row| row.kind.operations == operations) {
            print_row(row, |outcome| [outcome.writes.len(), outcome.crossed, outcome.no_room].map(grouped).join(" / "));
        }
    }
}

/// In how many rows each of the others has a mean below ours.
pub fn print_lower_means(rows: &[Row]) {
    println!("\nRows of {} with a mean below that of {}:", rows.len(), PLANNERS[0].name());
    for (place, planner) in PLANNERS.into_iter().enumerate().skip(1) {
        let count = |operations: Operations| {
            let of_kind = rows.iter().filter(|row| row.kind.operations == operations);
            of_kind.filter(|row| hundredths(&row.outcomes[place]) < hundredths(&row.outcomes[0])).count()
        };
        let (with_deletes, insert_only) = (count(Operations::DeleteInsert), count(Operations::InsertOnly));
        println!("  {}: {with_deletes} with deletes, {insert_only} insert only", planner.name());
    }
}

/// Lists with few actions: each run by itself, then the counted run's inserts asked uncounted on the very tables.
pub fn print_uncounted(rows: &[ListRow]) {
    println!(
        "\nLists of {ACTIONS} actions and {} priorities, counted and uncounted, each on a memory of its own: mean number of",
        grouped(LEVELS)
    );
    println!("writes / TIE / CROSSED. On the tables of the counted run: what the looser order takes of the writes, how many inserts take");
    println!("fewer, and how many of the TIE and CROSSED refusals it spares.");
    for operations in OPERATIONS {
        println!("\n{}:\n", title(operations));
        println!("| Rules, load, free end | counted | uncounted | writes, same tables | fewer | TIE spared | CROSSED spared |");
        println!("|---|---|---|---|---|---|---|");
        for ListRow { kind, outcome } in rows.iter().filter(|row| row.kind.operations == operations) {
            let run = |of: &Inserts| format!("{:.2} / {} / {}", of.mean(), grouped(of.tied), grouped(of.crossed));
            let (counted, spared) = (&outcome.counted, &outcome.spared);
            let of = |part: usize, all: usize| format!("{} of {}", grouped(part), grouped(all));
            let cells = [
                run(counted),
                run(&outcome.uncounted),
                of(spared.uncounted_writes, spared.counted_writes),
                of(spared.fewer, counted.planned),
                of(spared.tied, counted.tied),
                of(spared.crossed, counted.crossed),
            ];
            println!("| {} | {} |", label(kind), cells.join(" | "));
        }
    }
}
