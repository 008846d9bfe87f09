// The items of the specifications that nothing reaches, and with `--imports` the imports that no text mentions.
// See `run` for what reaches an item.

mod kept;

use crate::kept::{kept, Kept};
use specs::reach::{closure, ends};
use specs::tree::Tree;
use std::path::Path;
use std::process::ExitCode;

fn main() -> ExitCode {
    let tree = Tree::read(Path::new("."));
    let flag = std::env::args().nth(1).unwrap_or_default();
    match flag.as_str() {
        "" => unused_items(&tree),
        "--imports" => unused_imports(&tree),
        _ => {
            eprintln!("tests/unused/run: no such flag: {flag}");
            ExitCode::FAILURE
        }
    }
}

fn unused_items(tree: &Tree) -> ExitCode {
    let (kept, mut wrong) = kept(tree);
    let ends = ends(tree);
    let reached = closure(&ends, |entry| &tree.entries[entry].whole);
    wrong.extend(kept.iter().filter(|kept| reached.contains(&kept.entry)).map(idle));
    let mut all = ends;
    all.extend(kept.iter().map(|kept| kept.entry));
    let reached = closure(&all, |entry| &tree.entries[entry].whole);
    let unreached: Vec<usize> = (0..tree.entries.len()).filter(|entry| !reached.contains(entry)).collect();
    wrong.extend(unreached.iter().map(|&entry| shown(tree, entry)));
    for line in &wrong {
        println!("{line}");
    }
    if wrong.is_empty() {
        println!("unused: none of {} items in {} files; {} kept", tree.entries.len(), tree.modules.len(), kept.len());
        return ExitCode::SUCCESS;
    }
    println!("unused: {} of {} items in {} files", unreached.len(), tree.entries.len(), tree.modules.len());
    ExitCode::FAILURE
}

fn idle(kept: &Kept) -> String {
    format!("{}:{}: {} is reached without this line", kept::FILE, kept.line, kept.name)
}

fn shown(tree: &Tree, entry: usize) -> String {
    let found = &tree.entries[entry];
    let module = &tree.modules[found.module];
    format!("{}/{}: {}", module.crate_name, module.name, found.item.name)
}

fn unused_imports(tree: &Tree) -> ExitCode {
    let mut count = 0;
    for user in &tree.users {
        for (import, _) in user.imports.iter().zip(&user.mentioned).filter(|(_, mentioned)| !**mentioned) {
            println!("{}:{}: {}", user.path, import.line, import.local);
            count += 1;
        }
    }
    println!("unused: {count} imports in {} files", tree.users.len());
    if count == 0 {
        ExitCode::SUCCESS
    } else {
        ExitCode::FAILURE
    }
}
