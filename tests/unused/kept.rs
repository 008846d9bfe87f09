// The laws that are kept although nothing reaches them.

use specs::disk::read;
use specs::tree::Tree;
use std::path::Path;

pub const FILE: &str = "tests/unused/kept.txt";

pub struct Kept {
    pub entry: usize,
    pub name: String,
    pub line: usize,
}

/// The laws listed, and what is wrong with the list itself.
pub fn kept(tree: &Tree) -> (Vec<Kept>, Vec<String>) {
    let mut found = Vec::new();
    let mut wrong = Vec::new();
    let text = read(Path::new(FILE));
    for (number, line) in text.lines().enumerate().filter(|(_, line)| !line.starts_with('#') && !line.trim().is_empty()) {
        let mut words = line.split_whitespace();
        let (place, name) = (words.next().unwrap_or_default(), words.next().unwrap_or_default());
        if words.next().is_none() {
            wrong.push(format!("{FILE}:{}: no reason is given", number + 1));
        }
        match item_at(tree, place, name) {
            Some(entry) => found.push(Kept { entry, name: name.to_string(), line: number + 1 }),
            None => wrong.push(format!("{FILE}:{}: there is no {name} in {place}", number + 1)),
        }
    }
    (found, wrong)
}

fn item_at(tree: &Tree, place: &str, name: &str) -> Option<usize> {
    let module = tree.modules.iter().find(|module| format!("{}/{}", module.crate_name, module.name) == place)?;
    module.entries.iter().copied().find(|&entry| tree.entries[entry].item.name == name)
}
