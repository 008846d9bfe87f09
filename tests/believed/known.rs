// Every name that the table of promises may mention.

use specs::comments::without_code_comments;
use specs::disk::{files, folder, read, stem};
use specs::tree::Tree;
use std::collections::BTreeSet;
use std::path::Path;

/// Words of contracts, which the page explains.
const CONTRACTS: [&str; 5] = ["now", "old", "new", "requires", "ensures"];
/// The program that proves and builds, as in `rt check`.
const PROGRAMS: [&str; 1] = ["rt"];

pub struct Known {
    names: BTreeSet<String>,
}

impl Known {
    /// The items, their fields and constructors, and their files; what the code declares, and its files; the crates, and what
    /// stands in their folders; the names of the C headers, and the folders of tests.
    pub fn new(tree: &Tree, root: &Path) -> Known {
        let mut names: BTreeSet<String> = tree.crates.iter().cloned().collect();
        names.extend(tree.modules.iter().map(|module| module.name.clone()));
        for entry in &tree.entries {
            names.insert(entry.item.name.clone());
            names.extend(entry.item.members.iter().map(|member| member.name.clone()));
        }
        for source in &tree.sources {
            names.insert(source.name.clone());
            names.extend(source.declared.iter().cloned());
            names.extend(source.functions.iter().flat_map(|function| function.arguments.iter().cloned()));
        }
        for name in &tree.crates {
            names.extend(folder(&root.join("crates").join(name)).iter().map(|path| stem(path)));
        }
        names.extend(files(&root.join("include"), "h").iter().flat_map(|path| header_names(path)));
        names.extend(folder(&root.join("tests")).iter().filter(|path| path.is_dir()).map(|path| stem(path)));
        names.extend(CONTRACTS.iter().chain(&PROGRAMS).map(|name| name.to_string()));
        Known { names }
    }

    pub fn has(&self, name: &str) -> bool {
        self.names.contains(name)
    }
}

/// The names of a C header that begin with its own, as those that it declares do.
fn header_names(path: &Path) -> Vec<String> {
    let text = without_code_comments(&path.display().to_string(), &read(path));
    let words = text.split(|character: char| !character.is_alphanumeric() && character != '_');
    words.filter(|word| word.to_lowercase().starts_with(&stem(path))).map(String::from).collect()
}
