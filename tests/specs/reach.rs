// Which items are reached from others, by the names that their texts mention.

use crate::mentions::of_text;
use crate::promises::{groups, Place, Quoted};
use crate::tree::Tree;
use std::collections::BTreeSet;

/// These items, everything that is next to them, and so on.
pub fn closure<'a>(roots: &BTreeSet<usize>, next: impl Fn(usize) -> &'a BTreeSet<usize>) -> BTreeSet<usize> {
    let mut found = roots.clone();
    let mut left: Vec<usize> = roots.iter().copied().collect();
    while let Some(entry) = left.pop() {
        left.extend(next(entry).iter().copied().filter(|&mentioned| found.insert(mentioned)));
    }
    found
}

/// What an item has to be reached from to be of use: what the code and its proofs mention, what is promised, and worked examples.
pub fn ends(tree: &Tree) -> BTreeSet<usize> {
    let mut found = contracts(tree, true);
    found.extend(&tree.proved_with);
    found.extend(promises(tree));
    let examples = tree.modules.iter().filter(|module| module.is_of_examples());
    found.extend(examples.flat_map(|module| &module.entries));
    found
}

/// The items that the contracts of functions mention; with `ghost` also those that any other text for the checker does.
pub fn contracts(tree: &Tree, ghost: bool) -> BTreeSet<usize> {
    let mut found = BTreeSet::new();
    for source in &tree.sources {
        found.extend(source.hints.iter().filter(|_| ghost).filter_map(|hint| tree.at(hint)));
        for function in &source.functions {
            for text in function.contracts().chain(function.ghost.iter().filter(|_| ghost)) {
                let mentions = of_text(text, &function.arguments);
                found.extend(tree.resolve_all(&source.imports, None, &mentions, &mut vec![false; source.imports.len()]));
            }
        }
    }
    found
}

/// The items that the table of promises names.
pub fn promises(tree: &Tree) -> BTreeSet<usize> {
    let found = groups(&tree.promises, &tree.crates);
    found.iter().flat_map(|group| &group.quoted).flat_map(|quoted| named_items(tree, quoted)).collect()
}

/// The items of a name: those at the places given, or all that are public, or all. A crate's name means the crate, and a name
/// that the code has at a place given means the code, as in a crate that is given alone, unless an item of that name stands in a
/// file of specifications that is given.
pub fn named_items(tree: &Tree, quoted: &Quoted) -> Vec<usize> {
    let Some(name) = &quoted.name else { return Vec::new() };
    let all: Vec<usize> = (0..tree.entries.len()).filter(|&entry| tree.entries[entry].item.name == *name).collect();
    let at = |places: &[Place]| all.iter().copied().filter(|&entry| stands_at(tree, entry, places)).collect::<Vec<usize>>();
    let files: Vec<Place> = quoted.places.iter().filter(|place| place.module.is_some()).cloned().collect();
    let in_files = at(&files);
    if !in_files.is_empty() || tree.crates.contains(name) || code_stands_at(tree, name, &quoted.places) {
        return in_files;
    }
    let there = at(&quoted.places);
    if !there.is_empty() {
        return there;
    }
    let public: Vec<usize> = all.iter().copied().filter(|&entry| tree.entries[entry].item.public).collect();
    if public.is_empty() {
        all
    } else {
        public
    }
}

pub fn stands_at(tree: &Tree, entry: usize, places: &[Place]) -> bool {
    let module = &tree.modules[tree.entries[entry].module];
    places.iter().any(|place| !place.code && place.is(&module.crate_name, &module.name))
}

/// Whether the code declares the name in a crate, or in a file of code, that is one of these places.
pub fn code_stands_at(tree: &Tree, name: &str, places: &[Place]) -> bool {
    let sources = || tree.sources.iter().filter(|source| source.declared.contains(name));
    let at = |place: &Place| match place.code {
        true => sources().any(|source| place.is(&source.crate_name, &source.name)),
        false => place.module.is_none() && sources().any(|source| place.in_crate(&source.crate_name)),
    };
    places.iter().any(at)
}
