// Instruction counts: runs this program once under callgrind, which writes the counts of each call to a file of its own.
// Counting is on only inside the calls; the counts repeat to the digit.

use crate::cases::{for_each_case, Case, Measured};
use crate::listed::SYMBOLS;
use crate::versions::{versions, Call, CALLS, OURS};
use std::collections::BTreeMap;
use std::path::Path;
use std::process::{Command, Stdio};

/// The function that updates a list in one direction.
const UPDATE: &str = "list_updates::update_along";

pub type Counts = BTreeMap<Case, u64>;
/// Our own functions that stay apart within a planned insert, by what each spends itself.
pub type Functions = BTreeMap<Case, BTreeMap<String, u64>>;

pub fn run(print: impl FnOnce(&Counts, &Functions)) {
    let folder = std::env::temp_dir().join(format!("speed-{}", std::process::id()));
    std::fs::create_dir(&folder).expect("a folder for the counts");
    let read = run_callgrind(&folder).map(|()| read_counts(&folder));
    std::fs::remove_dir_all(&folder).expect("the folder of the counts is removed");
    match read {
        Ok((counts, functions)) => print(&counts, &functions),
        Err(message) => {
            eprintln!("speed: {message}");
            std::process::exit(1);
        }
    }
}

fn run_callgrind(folder: &Path) -> Result<(), String> {
    let program = std::env::current_exe().expect("the path of this program");
    let mut command = Command::new("valgrind");
    command.args(["--tool=callgrind", "--compress-strings=no", "--compress-pos=no", "--dump-line=no"]);
    command.arg(format!("--callgrind-out-file={}", folder.join("counts").display()));
    for version in versions() {
        for call in CALLS {
            command.arg(format!("--toggle-collect={}", version.symbol(call)));
        }
    }
    for symbol in SYMBOLS {
        command.arg(format!("--toggle-collect={symbol}"));
    }
    command.args(["--zero-before=begin_call", "--dump-before=made_call"]);
    command.arg(program).arg("--calls").stdout(Stdio::null()).stderr(Stdio::piped());
    let output = command.output().map_err(|error| format!("valgrind: {error}"))?;
    if !output.status.success() {
        return Err(format!("valgrind: {}", String::from_utf8_lossy(&output.stderr)));
    }
    Ok(())
}

/// File n has the counts of case n, from 1.
fn read_counts(folder: &Path) -> (Counts, Functions) {
    let mut counts = Counts::new();
    let mut functions = Functions::new();
    let mut number = 0;
    for_each_case(|case, _| {
        number += 1;
        let path = folder.join(format!("counts.{number}"));
        let text = std::fs::read_to_string(&path).unwrap_or_else(|error| panic!("{}: {error}", path.display()));
        counts.insert(case, total_of(&text));
        if case.version == OURS && case.measured == Measured::Whole(Call::PlanInsert) {
            functions.insert(case, spent_by_function(&text));
        }
        if let Measured::ListedWrite(write) = case.measured {
            counts.insert(Case { measured: Measured::Update(write), ..case }, spent_on_updates(&text));
        }
    });
    (counts, functions)
}

fn total_of(text: &str) -> u64 {
    let line = text.lines().find_map(|line| line.strip_prefix("totals: ")).expect("a line of totals");
    let total = line.trim().parse().expect("a count");
    assert!(total > 0, "a call without instructions: callgrind did not see its symbol");
    total
}

/// What each function spends itself; the line after `calls=` is what a function called spends, and is left out.
fn spent_by_function(text: &str) -> BTreeMap<String, u64> {
    let mut spent: BTreeMap<String, u64> = BTreeMap::new();
    let mut function = "";
    let mut after_call = false;
    for line in text.lines() {
        if let Some(name) = line.strip_prefix("fn=") {
            function = name;
        } else if line.starts_with("calls=") {
            after_call = true;
        } else if line.starts_with(|first: char| first.is_ascii_digit()) {
            let cost: u64 = line.split(' ').nth(1).and_then(|word| word.parse().ok()).expect("a cost");
            if !after_call {
                *spent.entry(function.to_string()).or_default() += cost;
            }
            after_call = false;
        }
    }
    spent
}

/// What the calls from other functions to that which updates a list spend, with all that it calls.
fn spent_on_updates(text: &str) -> u64 {
    let mut spent = 0;
    let mut called = "";
    let mut after_call = false;
    for line in text.lines() {
        if let Some(name) = line.strip_prefix("cfn=") {
            called = name;
        } else if line.starts_with("calls=") {
            after_call = called == UPDATE;
        } else if after_call {
            spent += line.split(' ').nth(1).and_then(|word| word.parse::<u64>().ok()).expect("a cost");
            after_call = false;
        }
    }
    assert!(spent > 0, "no call of {UPDATE}: the update of a list is not told apart");
    spent
}
