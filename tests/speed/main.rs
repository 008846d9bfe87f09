// The speed comparison: this library beside tests/reference, safe Rust, unchecked Rust and C, all on the same tables.
// Flags: --self-check, --times [--rounds N], --instructions [--every-table], --record; --calls is what the last two run under callgrind.

// the numbers of refusals are for the versions that make the checks themselves
#[allow(dead_code, unused_imports)]
mod answers;
mod before;
mod cases;
mod edits;
mod hostile;
mod ids;
mod inputs;
mod instructions;
mod listed;
mod listed_check;
mod listed_report;
mod properties;
mod record;
mod reference_calls;
mod report;
mod self_check;
mod shapes;
mod tables;
mod targets;
mod times;
mod versions;

/// Numbers of slots; each is twice the one before.
pub const SIZES: [usize; 3] = [256, 512, 1024];
/// Numbers of slots that are counted for the calls over pairs, and not judged.
pub const SMALL_SIZES: [usize; 4] = [16, 32, 64, 128];
const ROUNDS: usize = 101;

fn has_flag(name: &str) -> bool {
    std::env::args().any(|word| word == name)
}

fn number_flag(name: &str, otherwise: usize) -> usize {
    let words: Vec<String> = std::env::args().collect();
    match words.iter().position(|word| word == name) {
        None => otherwise,
        Some(place) => words.get(place + 1).and_then(|word| word.parse().ok()).unwrap_or_else(|| panic!("{name} takes a number")),
    }
}

fn main() {
    if has_flag("--calls") {
        return cases::make_calls();
    }
    if has_flag("--self-check") && !self_check::run() {
        std::process::exit(1);
    }
    if has_flag("--instructions") {
        before::need_all();
        instructions::run(|counts, functions| report::print(counts, functions, has_flag("--every-table")));
    }
    if has_flag("--record") {
        instructions::run(|counts, _| record::print(counts));
    }
    if has_flag("--times") {
        times::run(number_flag("--rounds", ROUNDS).max(1));
    }
}
