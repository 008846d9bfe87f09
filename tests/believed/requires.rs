// The list of the functions with a `requires`, by what each asks, with those that show it.

use specs::asked::{function, Asked, Place};
use specs::disk::read;
use specs::tree::Tree;
use std::collections::BTreeSet;
use std::fmt::Write;
use std::path::Path;

const FILE: &str = "tests/believed/asked.txt";

pub fn asked() -> Asked {
    Asked::read(FILE, &read(Path::new(FILE)))
}

/// As Markdown: what is asked, the functions that ask it, and those that call one of them and do not ask it themselves.
pub fn requires(tree: &Tree, asked: &Asked) -> String {
    let mut text = String::from("| What is asked | By | Shown by |\n|---|---|---|\n");
    let _ = writeln!(text, "| nothing | {} | |", grouped(tree, &asked.face(tree)));
    let rows = asked.rows(tree);
    for row in &rows {
        let _ = writeln!(text, "| {} | {} | {} |", row.what, grouped(tree, &row.asking), grouped(tree, &row.showing));
    }
    let all: BTreeSet<Place> = rows.into_iter().flat_map(|row| row.asking).collect();
    let _ = writeln!(text, "| {} functions in all | | |", all.len());
    text
}

/// The names, each crate's together: `a`, `b` (low); `c` (high).
fn grouped(tree: &Tree, places: &BTreeSet<Place>) -> String {
    let mut groups: Vec<(&str, Vec<String>)> = Vec::new();
    for &place in places {
        let (crate_name, name) = (tree.sources[place.0].crate_name.as_str(), format!("`{}`", function(tree, place).name));
        match groups.last_mut().filter(|(last, _)| *last == crate_name) {
            Some((_, names)) => names.push(name),
            None => groups.push((crate_name, vec![name])),
        }
    }
    let groups: Vec<String> = groups.iter().map(|(crate_name, names)| format!("{} ({crate_name})", names.join(", "))).collect();
    groups.join("; ")
}
