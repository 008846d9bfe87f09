// Which definitions an auditor must believe, and which statements he must read.

use specs::kinds::Kinds;
use specs::reach::{closure, contracts, promises};
use specs::tree::Tree;
use std::collections::BTreeSet;

pub struct Believed<'a> {
    pub tree: &'a Tree,
    /// For each item whether it is a definition.
    pub definition: Vec<bool>,
    /// The items that the table of promises names.
    pub promised: BTreeSet<usize>,
    /// The definitions whose whole text, and the laws whose statement is read.
    pub read: BTreeSet<usize>,
    /// Types of which it is not known whether they are data.
    pub unknown: BTreeSet<String>,
}

impl<'a> Believed<'a> {
    /// From the contracts of all functions and the names promised: everything that a definition's text mentions,
    /// and that a law's statement does. A law's proof need not be read.
    pub fn new(tree: &'a Tree) -> Believed<'a> {
        let kinds = Kinds::new(tree);
        let definition: Vec<bool> = (0..tree.entries.len()).map(|entry| kinds.is_definition(entry)).collect();
        let promised = promises(tree);
        let mut roots = contracts(tree, false);
        roots.extend(&promised);
        let next = |entry: usize| {
            let found = &tree.entries[entry];
            if definition[entry] {
                &found.whole
            } else {
                &found.statement
            }
        };
        let read = closure(&roots, next);
        Believed { tree, definition, promised, read, unknown: kinds.unknown.take() }
    }

    pub fn definitions(&self) -> impl Iterator<Item = usize> + '_ {
        self.read.iter().copied().filter(|&entry| self.definition[entry])
    }

    pub fn laws(&self) -> impl Iterator<Item = usize> + '_ {
        self.read.iter().copied().filter(|&entry| !self.definition[entry])
    }

    /// The modules that have a definition to believe, in the order of the crates.
    pub fn files(&self) -> BTreeSet<usize> {
        self.definitions().map(|entry| self.tree.entries[entry].module).collect()
    }
}
