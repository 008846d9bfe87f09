// The differential test: every call of the library against the reference, on inputs made from a seed.
// Flags: --inputs N, --seed S, --only K (one input of a run). Exit status 1 on a mismatch or an answer never reached; a mismatch,
// a call that a signal ends and one that runs on are shown by the smallest input found (--shrink K looks for the latter two).
// Counts go to standard output, and what is wrong to standard error.

mod actions;
mod alike;
mod apart;
mod compare;
mod covered;
mod exact;
mod fence;
mod guarded;
mod input;
mod largest;
mod listed;
mod lists;
mod make;
mod misfit;
mod neighbours;
mod shrink;
mod tally;

use crate::apart::{ends_by_signal, set_alarm};
use crate::compare::{check, Mismatch};
use crate::guarded::Guarded;
use crate::input::Input;
use crate::tally::Tally;
use reference::bits::WIDTHS;
use reference::table::record_words;
use std::os::unix::process::CommandExt;
use std::process::Command;
use std::sync::atomic::{AtomicU64, Ordering};
use std::time::Instant;

const SEED: u64 = 20_261_115;
const INPUTS: u64 = 1_000_000;

/// The run's seed and the input at hand, for messages where a call or the reference ends the program.
static SEED_AT_HAND: AtomicU64 = AtomicU64::new(0);
static AT_HAND: AtomicU64 = AtomicU64::new(0);

extern "C" {
    fn signal(number: i32, handler: extern "C" fn(i32)) -> usize;
    fn sigrelse(number: i32) -> i32;
}

const ALARM: i32 = 14;
const SIGNALS: [i32; 5] = [4, 7, 8, 11, ALARM];

/// An input that takes longer has a call that runs on. The longest plan carried out takes a few seconds under valgrind.
const SECONDS_MOST: u32 = 30;

/// A call has left its buffers or runs on. This process can't go on, so a new one takes its place and looks for a smaller input.
extern "C" fn on_signal(number: i32) {
    // the new process keeps an alarm that is set, and the block on the signal at hand
    set_alarm(0);
    unsafe { sigrelse(number) };
    let (seed, input) = (SEED_AT_HAND.load(Ordering::Relaxed), AT_HAND.load(Ordering::Relaxed));
    let what = if number == ALARM { "runs on" } else { "left its buffers" };
    eprintln!("differential: signal {number} in input {input} of seed {seed}: a call {what}");
    let words = ["--seed".to_string(), seed.to_string(), "--shrink".to_string(), input.to_string()];
    let error = Command::new("/proc/self/exe").args(words).exec();
    eprintln!("differential: {error}");
    std::process::abort()
}

fn flag(name: &str) -> Option<u64> {
    let words: Vec<String> = std::env::args().collect();
    let place = words.iter().position(|word| word == name)?;
    let number = words.get(place + 1).and_then(|word| word.parse().ok());
    Some(number.unwrap_or_else(|| panic!("{name} takes a number")))
}

fn main() {
    let seed = flag("--seed").unwrap_or(SEED);
    let library = Guarded::new();
    if let Some(number) = flag("--shrink") {
        report_signal(&library, make::make_input(seed, number));
        std::process::exit(1);
    }
    watch_signals_and_panics(seed);
    let inputs = flag("--inputs").unwrap_or(INPUTS);
    let range = flag("--only").map_or(0..inputs, |only| only..only + 1);
    let mut tally = Tally::default();
    let start = Instant::now();
    for number in range.clone() {
        AT_HAND.store(number, Ordering::Relaxed);
        let input = make::make_input(seed, number);
        if let Err(mismatch) = check_in_time(&library, &input, &mut tally) {
            eprintln!("differential: MISMATCH at input {number} of seed {seed}: {}", mismatch.what);
            report_mismatch(&library, input);
            std::process::exit(1);
        }
    }
    println!("differential: {} inputs, seed {seed}, {} s", range.end - range.start, start.elapsed().as_secs());
    tally.print();
    let missing = tally.missing();
    if range.end - range.start > 1 && !missing.is_empty() {
        eprintln!("differential: never reached: {}", missing.join("; "));
        std::process::exit(1);
    }
}

fn watch_signals_and_panics(seed: u64) {
    SEED_AT_HAND.store(seed, Ordering::Relaxed);
    for number in SIGNALS {
        unsafe { signal(number, on_signal) };
    }
    let usual = std::panic::take_hook();
    std::panic::set_hook(Box::new(move |info| {
        eprintln!("differential: in input {} of seed {seed}:", AT_HAND.load(Ordering::Relaxed));
        usual(info);
    }));
}

fn check_in_time(library: &Guarded, input: &Input, tally: &mut Tally) -> Result<(), Mismatch> {
    set_alarm(SECONDS_MOST);
    check(library, input, tally)
}

fn report_mismatch(library: &Guarded, input: Input) {
    let smallest = shrink::shrink(input, |smaller| check_in_time(library, smaller, &mut Tally::default()).is_err());
    let mismatch = check_in_time(library, &smallest, &mut Tally::default()).expect_err("a smaller input fails too");
    eprintln!("the smallest input found: {:?}, {}", smallest.call, mismatch.what);
    print_input(&smallest);
    eprintln!("  library:   {}", mismatch.library);
    eprintln!("  reference: {}", mismatch.reference);
}

/// Each try is made in a process of its own, which a signal may end.
fn report_signal(library: &Guarded, input: Input) {
    let ends_badly = |smaller: &Input| ends_by_signal(|| drop(check(library, smaller, &mut Tally::default())));
    if !ends_badly(&input) {
        eprintln!("differential: tried again, the input ends by no signal");
    }
    let smallest = shrink::shrink(input, ends_badly);
    eprintln!("the smallest input found: {:?}, ended by a signal", smallest.call);
    print_input(&smallest);
}

fn print_input(input: &Input) {
    eprintln!("  width {}, flag {:x}, {} words of table", input.width, input.uncounted, input.table.len());
    let (part, words) = if WIDTHS.contains(&input.width) { ("slot", record_words(input.width)) } else { ("eight words", 8) };
    for (place, words) in input.table.chunks(words).enumerate() {
        eprintln!("  {part} {place}: {words:x?}");
    }
    eprintln!("  rule {:x?}, edition {}, id {:x}", input.rule, input.edition, input.id);
    eprintln!("  keys {:x?}, slot {}, room {}", input.keys, input.slot, input.room);
    eprintln!("  plan {:x?}, done {}, total {}", input.plan, input.done, input.total);
    eprintln!("  image {:x?}", input.image);
    eprintln!("  list {:?}, left out every {} writes", input.list, input.list_left_out);
    eprintln!("  the table {} the closed page", if input.fence_after { "ends at" } else { "starts behind" });
}
