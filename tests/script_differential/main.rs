// The script program against the reference: seeded scripts on its standard input, its output compared byte for byte.
// Use: script_differential [--scripts N] [--seed S] -- PROGRAM [ARGUMENT ..]; without `--` it is the reference as a program.

mod make;

use reference::script::run_script;
use std::collections::BTreeSet;
use std::io::{Read, Write};
use std::process::{Command, Stdio};
use support::random::Random;

const SCRIPTS: u64 = 2000;
const SEED: u64 = 5;

/// A plan of so many writes is a long one.
const LONG: usize = 10;

fn main() {
    let words: Vec<String> = std::env::args().skip(1).collect();
    let Some(end) = words.iter().position(|word| word == "--") else { return be_the_program() };
    let (flags, program) = (&words[..end], &words[end + 1..]);
    let number = |name: &str, otherwise: u64| {
        let place = flags.iter().position(|word| word == name);
        place.map_or(otherwise, |place| flags[place + 1].parse().expect("a flag takes a number"))
    };
    let (scripts, seed) = (number("--scripts", SCRIPTS), number("--seed", SEED));
    let (mut lines, mut long_plans, mut replacements, mut refusals) = (0, 0, 0, [0u64; 15]);
    for number in 0..scripts {
        let script = make::script(&mut Random::new(seed, number));
        let expected = run_script(&script);
        if answer_of(program, &script) != Some(expected.clone()) {
            report(program, number, script);
            std::process::exit(1);
        }
        lines += script.split(|&byte| byte == b'\n').count();
        long_plans += count_long_plans(&expected);
        replacements += count_replacements(&expected);
        count_refusals(&expected, &mut refusals);
    }
    println!(
        "script differential: {scripts} scripts of {lines} lines in all, seed {seed}; {long_plans} plans of {LONG} writes and more; \
         {replacements} rules replaced; refusals by number: {:?}",
        &refusals[1..]
    );
    assert!(long_plans > 0 || scripts < 100, "no plan had {LONG} writes");
    assert!(replacements > 0 || scripts < 100, "no rule was replaced");
    let reached = [1, 5, 6, 7, 8, 9, 10, 13].iter().all(|&number| refusals[number] > 0);
    assert!(reached || scripts < 100, "a refusal that a script can meet was never met");
}

fn be_the_program() {
    let mut input = Vec::new();
    std::io::stdin().read_to_end(&mut input).expect("standard input can be read");
    std::io::stdout().write_all(&run_script(&input)).expect("standard output can be written");
}

/// The inserts whose plans are long, by what is printed of them.
fn count_long_plans(output: &[u8]) -> usize {
    let output = String::from_utf8_lossy(output);
    output.lines().filter(|line| line.strip_prefix("P ").is_some_and(|count| count.parse::<usize>().unwrap() >= LONG)).count()
}

/// The inserts that replace a rule: a plan of one write, to a slot that was not empty.
fn count_replacements(output: &[u8]) -> usize {
    let mut occupied: BTreeSet<String> = BTreeSet::new();
    let (mut replacements, mut is_one_write) = (0, false);
    for line in String::from_utf8_lossy(output).lines() {
        match *line.split(' ').collect::<Vec<&str>>() {
            ["N", _] => occupied.clear(),
            ["P", count] => is_one_write = count == "1",
            ["W", _, to] => replacements += usize::from(!occupied.insert(to.to_string()) && is_one_write),
            ["E", slot] => drop(occupied.remove(slot)),
            _ => {}
        }
    }
    replacements
}

fn count_refusals(output: &[u8], refusals: &mut [u64; 15]) {
    for line in String::from_utf8_lossy(output).lines() {
        if let Some(rest) = line.strip_prefix("R ") {
            refusals[rest.split(' ').next().unwrap().parse::<usize>().unwrap()] += 1;
        }
    }
}

/// What the program prints; nothing if it ends with another status than 0.
fn answer_of(program: &[String], script: &[u8]) -> Option<Vec<u8>> {
    let mut child = Command::new(&program[0])
        .args(&program[1..])
        .stdin(Stdio::piped())
        .stdout(Stdio::piped())
        .spawn()
        .unwrap_or_else(|error| panic!("{}: {error}", program[0]));
    let mut input = child.stdin.take().unwrap();
    let script = script.to_vec();
    let writer = std::thread::spawn(move || drop(input.write_all(&script)));
    let answer = child.wait_with_output().expect("the program ends");
    writer.join().unwrap();
    answer.status.success().then_some(answer.stdout)
}

/// The script with as few lines and bytes as still give another output.
fn report(program: &[String], number: u64, script: Vec<u8>) {
    println!("script differential: MISMATCH at script {number}");
    let fails = |smaller: &[u8]| answer_of(program, smaller) != Some(run_script(smaller));
    let mut script = script;
    for part in [Part::Line, Part::Byte] {
        let mut place = 0;
        while let Some(smaller) = part.without(&script, place) {
            if fails(&smaller) {
                script = smaller;
            } else {
                place += 1;
            }
        }
    }
    println!("the smallest script found: {:?}", String::from_utf8_lossy(&script));
    match answer_of(program, &script) {
        Some(output) => println!("  program:   {:?}", String::from_utf8_lossy(&output)),
        None => println!("  program:   ends with another status than 0"),
    }
    println!("  reference: {:?}", String::from_utf8_lossy(&run_script(&script)));
}

enum Part {
    Line,
    Byte,
}

impl Part {
    /// The script without its part number `place`, if it has so many.
    fn without(&self, script: &[u8], place: usize) -> Option<Vec<u8>> {
        match self {
            Part::Byte => (place < script.len()).then(|| [&script[..place], &script[place + 1..]].concat()),
            Part::Line => {
                let mut lines: Vec<&[u8]> = script.split_inclusive(|&byte| byte == b'\n').collect();
                (place < lines.len()).then(|| {
                    lines.remove(place);
                    lines.concat()
                })
            }
        }
    }
}
