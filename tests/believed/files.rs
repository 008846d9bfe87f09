// The list of the files to believe, and the kinds of files.

use crate::believed::Believed;
use specs::reach::closure;
use specs::tree::Module;
use std::collections::BTreeSet;
use std::fmt::Write;

/// A law this long, that a definition needs, has a file of laws to stand in.
const LONG_LAW: usize = 20;

/// The files with their lines and the sum, as Markdown; and how many statements there are to read beside them.
pub fn listing(believed: &Believed) -> String {
    let mut text = String::from("| File | Lines |\n|---|---:|\n");
    let mut sum = 0;
    for module in believed.files() {
        let file = &believed.tree.modules[module];
        sum += file.lines;
        let _ = writeln!(text, "| `{}` | {} |", file.path, file.lines);
    }
    let files = believed.files().len();
    let _ = writeln!(text, "| {files} files in all | {sum} |");
    let statements = believed.laws().count();
    let lines: usize = believed.laws().map(|law| statement_lines(believed, law)).sum();
    let _ = writeln!(text, "| and the statements of {statements} theorems, without their proofs | {lines} |");
    text
}

/// The lines of a law's type, and of the heads of the blocks around it, whose parameters it is about.
fn statement_lines(believed: &Believed, entry: usize) -> usize {
    let item = &believed.tree.entries[entry].item;
    item.lines_around + item.statement_line - item.first_line + 1
}

/// The same, each file with the definitions in it that are to be believed.
pub fn with_names(believed: &Believed) -> String {
    let mut text = listing(believed);
    text.push('\n');
    for module in believed.files() {
        let names = believed.definitions().filter(|&entry| believed.tree.entries[entry].module == module);
        let names: Vec<String> = names.map(|entry| format!("`{}`", believed.tree.entries[entry].item.name)).collect();
        let _ = writeln!(text, "- `{}`: {}", believed.tree.modules[module].path, names.join(", "));
    }
    text
}

/// Each item that stands in a file of the wrong kind.
pub fn breaches(believed: &Believed) -> Vec<String> {
    let mut found = Vec::new();
    for (number, module) in believed.tree.modules.iter().enumerate() {
        if module.is_of_examples() {
            continue; // what an example is about stands beside it
        }
        if is_of_laws(module) {
            found.extend(
                believed_in(believed, number).map(|name| format!("{}: {name} is believed, in a file of laws", module.path)),
            );
        } else {
            let uncited = uncited_laws(believed, number);
            found.extend(uncited.map(|name| format!("{}: {name} is a law that no definition of the file cites", module.path)));
            found.extend(long_laws(believed, number));
        }
    }
    found.extend(promised_elsewhere(believed));
    found.extend(believed.unknown.iter().map(|name| format!("tests/specs/kinds.rs: it is not known whether {name} is data")));
    found
}

/// The laws that are promised and stand in no file of end theorems.
fn promised_elsewhere(believed: &Believed) -> Vec<String> {
    let mut found = Vec::new();
    for &entry in believed.promised.iter().filter(|&&entry| !believed.definition[entry]) {
        let module = &believed.tree.modules[believed.tree.entries[entry].module];
        if !is_of_theorems(module) {
            let name = &believed.tree.entries[entry].item.name;
            found.push(format!("{}: {name} is promised, and the file is not one of end theorems", module.path));
        }
    }
    found
}

fn is_of_theorems(module: &Module) -> bool {
    module.first_line.starts_with("-- End theorems") || module.is_of_examples()
}

fn is_of_laws(module: &Module) -> bool {
    module.name.ends_with("Laws") || is_of_theorems(module)
}

fn believed_in<'a>(believed: &'a Believed, module: usize) -> impl Iterator<Item = &'a str> {
    let there = believed.definitions().filter(move |&entry| believed.tree.entries[entry].module == module);
    there.map(|entry| believed.tree.entries[entry].item.name.as_str())
}

/// The laws of a file that none of its definitions cites, directly or through laws of the file.
fn uncited_laws<'a>(believed: &'a Believed, module: usize) -> impl Iterator<Item = &'a str> {
    let entries = &believed.tree.entries;
    let own: BTreeSet<usize> = believed.tree.modules[module].entries.iter().copied().collect();
    let definitions = own.iter().copied().filter(|&entry| believed.definition[entry]).collect();
    let cited = closure(&definitions, |entry| &entries[entry].whole);
    own.into_iter().filter(move |entry| !cited.contains(entry)).map(|entry| entries[entry].item.name.as_str())
}

/// The laws of a file of definitions that are too long for it, though a definition may cite them.
fn long_laws(believed: &Believed, module: usize) -> Vec<String> {
    let Module { path, entries, .. } = &believed.tree.modules[module];
    let mut found = Vec::new();
    for &entry in entries.iter().filter(|&&entry| !believed.definition[entry]) {
        let item = &believed.tree.entries[entry].item;
        let lines = item.last_line - item.first_line + 1;
        if lines >= LONG_LAW {
            found.push(format!("{path}: {} is a law of {lines} lines, in a file of definitions", item.name));
        }
    }
    found
}
