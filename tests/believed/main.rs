// What an auditor must believe: the files with the definitions that the contracts and the table of promises rest on; and what
// functions ask of their callers.
// See `run` for the flags.

mod believed;
mod files;
mod known;
mod names;
mod requires;

use crate::believed::Believed;
use crate::files::{breaches, listing, with_names};
use crate::known::Known;
use crate::names::wrong_names;
use crate::requires::{asked, requires};
use specs::lists::List;
use specs::promises::PROMISES;
use specs::tree::Tree;
use std::path::Path;
use std::process::ExitCode;

fn main() -> ExitCode {
    let tree = Tree::read(Path::new("."));
    let believed = Believed::new(&tree);
    let flag = std::env::args().nth(1).unwrap_or_default();
    match flag.as_str() {
        "" => print!("{}", listing(&believed)),
        "--names" => print!("{}", with_names(&believed)),
        "--kinds" => print_kinds(&believed),
        "--requires" => print!("{}", requires(&tree, &asked())),
        "--write" => return write(&believed),
        "--check" => return check(&believed),
        _ => {
            eprintln!("tests/believed/run: no such flag: {flag}");
            return ExitCode::FAILURE;
        }
    }
    ExitCode::SUCCESS
}

/// `crate/Module item definition|law yes|no lines` for every item, in the order of the crates and files.
fn print_kinds(believed: &Believed) {
    for (number, entry) in believed.tree.entries.iter().enumerate() {
        let module = &believed.tree.modules[entry.module];
        let kind = if believed.definition[number] { "definition" } else { "law" };
        let read = if believed.read.contains(&number) { "yes" } else { "no" };
        let lines = entry.item.last_line - entry.item.first_line + 1;
        println!("{}/{} {} {kind} {read} {lines}", module.crate_name, module.name, entry.item.name);
    }
}

/// The lists that the table of promises has.
fn lists(believed: &Believed) -> [List; 2] {
    let requires = requires(believed.tree, &asked());
    [List { name: "believed", text: listing(believed) }, List { name: "requires", text: requires }]
}

fn write(believed: &Believed) -> ExitCode {
    let mut page = believed.tree.promises.clone();
    for list in lists(believed) {
        let Some(text) = list.replaced(&page) else {
            eprintln!("{PROMISES}: there are no lines for the list `{}`", list.name);
            return ExitCode::FAILURE;
        };
        page = text;
    }
    match std::fs::write(PROMISES, page) {
        Ok(()) => ExitCode::SUCCESS,
        Err(error) => {
            eprintln!("{PROMISES}: {error}");
            ExitCode::FAILURE
        }
    }
}

fn check(believed: &Believed) -> ExitCode {
    let tree = believed.tree;
    let mut wrong: Vec<String> = lists(believed).iter().flat_map(|list| list.standing(&tree.promises)).collect();
    wrong.extend(asked().wrong(tree));
    wrong.extend(breaches(believed));
    wrong.extend(wrong_names(tree, &Known::new(tree, Path::new("."))));
    for line in &wrong {
        println!("{line}");
    }
    if wrong.is_empty() {
        let (definitions, files) = (believed.definitions().count(), believed.files().len());
        println!("believed: {definitions} definitions in {files} files, and what functions ask, as listed");
        return ExitCode::SUCCESS;
    }
    println!("believed: {} lines to put right", wrong.len());
    ExitCode::FAILURE
}
