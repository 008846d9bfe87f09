// The repository's specifications, proofs, sources and promises, with every name resolved to the item that it means.

use crate::comments::without_comments;
use crate::disk::{files, folder, read, stem};
use crate::items::{items, Form, Item};
use crate::mentions::{of_item, of_text, Mention};
use crate::promises::PROMISES;
use crate::sources::{source, Source};
use crate::tokens::tokens;
use crate::uses::{imports, own_path, Import, PARTS};
use std::collections::{BTreeSet, HashMap};
use std::path::Path;

/// A file of specifications, or of laws that stand directly in the folder of proofs.
pub struct Module {
    pub crate_name: String,
    pub name: String,
    pub path: String,
    pub first_line: String,
    pub lines: usize,
    pub imports: Vec<Import>,
    pub entries: Vec<usize>,
    /// The items by name, and data types by their constructors' names too.
    names: HashMap<String, usize>,
}

impl Module {
    /// Only the first line makes a file one of worked examples, whatever its name is.
    pub fn is_of_examples(&self) -> bool {
        self.first_line.starts_with("-- Worked examples")
    }
}

/// An item of a module, and the items of the tree that its text mentions.
pub struct Entry {
    pub module: usize,
    pub item: Item,
    pub statement: BTreeSet<usize>,
    pub whole: BTreeSet<usize>,
}

/// A file that imports: a specification, a proof or a source.
pub struct User {
    pub path: String,
    pub imports: Vec<Import>,
    /// For each import whether the file mentions it.
    pub mentioned: Vec<bool>,
}

pub struct Tree {
    pub crates: Vec<String>,
    pub modules: Vec<Module>,
    pub entries: Vec<Entry>,
    pub sources: Vec<Source>,
    pub users: Vec<User>,
    /// The items that the proofs mention.
    pub proved_with: BTreeSet<usize>,
    pub promises: String,
    /// The modules by crate, folder and name.
    places: HashMap<[String; 3], usize>,
}

/// What a path names: one of the file's imports, an item of the tree, or both.
pub struct Found {
    pub import: Option<usize>,
    pub entry: Option<usize>,
}

/// Constructors of the other libraries that patterns are written with, beside those that stand before arguments.
const CONSTRUCTORS: [&str; 7] = ["zero", "[]", "∷", "true", "false", "none", "tt"];

impl Tree {
    /// Reads the repository at this place.
    pub fn read(root: &Path) -> Tree {
        let crates = crate_names(root);
        let mut tree = Tree {
            crates: crates.clone(),
            modules: Vec::new(),
            entries: Vec::new(),
            sources: Vec::new(),
            users: Vec::new(),
            proved_with: BTreeSet::new(),
            promises: read(&root.join(PROMISES)),
            places: HashMap::new(),
        };
        for name in &crates {
            for part in PARTS {
                tree.read_items(root, name, part);
            }
        }
        tree.join_items();
        for name in &crates {
            tree.read_proofs(root, name);
            tree.read_sources(root, name);
        }
        tree
    }

    fn read_items(&mut self, root: &Path, crate_name: &str, part: &str) {
        let folder = root.join("crates").join(crate_name).join(part);
        for path in files(&folder, "antt").into_iter().filter(|path| part != "proofs" || path.parent() == Some(&folder)) {
            let (path, name, text) = (shown(root, &path), stem(&path), read(&path));
            let module = self.modules.len();
            // each folder has a Lib, which only names its files
            let place = |part: &str| [crate_name, part, &name].map(String::from);
            let another = PARTS.iter().any(|part| name != "Lib" && self.places.contains_key(&place(part)));
            assert!(!another, "{path}: the crate has another file of this name");
            self.places.insert(place(part), module);
            let mut entries = Vec::new();
            for item in items_of(&path, &text) {
                entries.push(self.entries.len());
                self.entries.push(Entry { module, item, statement: BTreeSet::new(), whole: BTreeSet::new() });
            }
            self.modules.push(Module {
                crate_name: crate_name.to_string(),
                name,
                first_line: text.lines().next().unwrap_or_default().to_string(),
                lines: text.lines().count(),
                imports: imports(&without_comments(&path, &text, 1), ""),
                names: names_of(&self.entries, &entries),
                entries,
                path,
            });
        }
    }

    /// With all items known, what each mentions.
    fn join_items(&mut self) {
        for module in 0..self.modules.len() {
            let imports = self.modules[module].imports.clone();
            let mut mentioned = vec![false; imports.len()];
            for entry in self.modules[module].entries.clone() {
                let names = of_item(&self.entries[entry].item, &|name| self.is_constructor(&imports, Some(module), name));
                let statement = self.resolve_all(&imports, Some(module), &names.statement, &mut mentioned);
                let whole = self.resolve_all(&imports, Some(module), &names.whole, &mut mentioned);
                self.entries[entry].statement = statement;
                self.entries[entry].whole = whole;
            }
            self.users.push(User { path: self.modules[module].path.clone(), imports, mentioned });
        }
    }

    /// What stands in the folders of functions: answers, invariants, and what only these use.
    fn read_proofs(&mut self, root: &Path, crate_name: &str) {
        let folder = root.join("crates").join(crate_name).join("proofs");
        for path in files(&folder, "antt").into_iter().filter(|path| path.parent() != Some(&folder)) {
            let (path, text) = (shown(root, &path), read(&path));
            let imports = imports(&without_comments(&path, &text, 1), "");
            let mut mentioned = vec![false; imports.len()];
            let items = items_of(&path, &text);
            let constructors = own_constructors(&items);
            for item in &items {
                let names = of_item(item, &|name| constructors.contains(name) || self.is_constructor(&imports, None, name));
                let found = self.resolve_all(&imports, None, &names.whole, &mut mentioned);
                self.proved_with.extend(found);
            }
            self.users.push(User { path, imports, mentioned });
        }
    }

    fn read_sources(&mut self, root: &Path, crate_name: &str) {
        let folder = root.join("crates").join(crate_name).join("src");
        for path in files(&folder, "rt") {
            let found = source(&shown(root, &path), crate_name, &read(&path));
            let mut mentioned = vec![false; found.imports.len()];
            for function in &found.functions {
                for text in function.contracts().chain(&function.ghost) {
                    self.resolve_all(&found.imports, None, &of_text(text, &function.arguments), &mut mentioned);
                }
            }
            self.users.push(User { path: found.path.clone(), imports: found.imports.clone(), mentioned });
            self.sources.push(found);
        }
    }

    /// The items mentioned, each import that is mentioned being noted.
    pub fn resolve_all(
        &self,
        imports: &[Import],
        own: Option<usize>,
        mentions: &[Mention],
        mentioned: &mut [bool],
    ) -> BTreeSet<usize> {
        let mut entries = BTreeSet::new();
        for mention in mentions {
            let found = self.resolve(imports, own, &mention.path);
            found.import.into_iter().for_each(|import| mentioned[import] = true);
            entries.extend(found.entry);
        }
        entries
    }

    /// What a name means in a file: an item of the file itself, or what a `use` line brings.
    pub fn resolve(&self, imports: &[Import], own: Option<usize>, path: &[String]) -> Found {
        if let Some(entry) = own.and_then(|module| self.modules[module].names.get(&path[0])) {
            return Found { import: None, entry: Some(*entry) };
        }
        let module = |import: &Import| import.module && path.len() > 1 && import.local == path[0];
        let name = |import: &Import| !import.module && names(&import.local, &path[0]);
        let import = imports.iter().position(module).or_else(|| imports.iter().position(name));
        let entry = match import {
            Some(import) => imports[import].origin.as_ref().and_then(|origin| self.at(&[origin, &path[1..]].concat())),
            None => own_path(&path.iter().map(String::as_str).collect::<Vec<_>>()).and_then(|steps| self.at(&steps)),
        };
        Found { import, entry }
    }

    /// The item at a path of crate, folder, module and name.
    pub fn at(&self, steps: &[String]) -> Option<usize> {
        let place: [String; 3] = steps.get(..3)?.to_vec().try_into().ok()?;
        let module = &self.modules[*self.places.get(&place)?];
        let name = steps.get(3)?;
        let passed_on = || module.imports.iter().find(|import| import.public && import.local == *name);
        module.names.get(name).copied().or_else(|| self.at(passed_on()?.origin.as_ref()?))
    }

    fn is_constructor(&self, imports: &[Import], own: Option<usize>, name: &str) -> bool {
        let path = [name.to_string()];
        let found = self.resolve(imports, own, &path);
        let variant = found.import.is_some_and(|import| imports[import].written.contains(".TheVariants."));
        let built = found.entry.is_some_and(|entry| {
            let item = &self.entries[entry].item;
            item.form == Form::Data && item.members.iter().any(|member| names(&member.name, name))
        });
        // a constructor that is brought in under another name is not found among the members
        let renamed = found.import.zip(found.entry).is_some_and(|(import, entry)| {
            let last = imports[import].written.rsplit('.').next().unwrap_or_default();
            self.entries[entry].item.name != last
        });
        CONSTRUCTORS.contains(&name) || variant || built || renamed
    }
}

/// Whether a word mentions the name: a part of an operator, as in `x ≡ y` for `◌≡◌`, does.
pub fn names(name: &str, word: &str) -> bool {
    name == word || name.contains('◌') && name.split('◌').any(|part| !part.is_empty() && part == word.trim_matches('◌'))
}

fn names_of(all: &[Entry], entries: &[usize]) -> HashMap<String, usize> {
    let mut found = HashMap::new();
    for &entry in entries {
        let item = &all[entry].item;
        if item.form == Form::Data {
            found.extend(item.members.iter().map(|member| (member.name.clone(), entry)));
        }
    }
    // an item comes before a constructor of its name
    for &entry in entries {
        let name = &all[entry].item.name;
        found.extend(name.split('◌').filter(|part| !part.is_empty()).map(|part| (part.to_string(), entry)));
        found.insert(name.clone(), entry);
    }
    found
}

fn items_of(path: &str, text: &str) -> Vec<Item> {
    items(path, &tokens(path, text, 1))
}

fn own_constructors(items: &[Item]) -> BTreeSet<&str> {
    let types = items.iter().filter(|item| item.form == Form::Data);
    types.flat_map(|item| &item.members).map(|member| member.name.as_str()).collect()
}

/// The crates in the order of their list, then those that stand in no line of it.
fn crate_names(root: &Path) -> Vec<String> {
    let there: Vec<String> = folder(&root.join("crates")).iter().map(|path| stem(path)).collect();
    let mut found = listed_crates(&root.join("crates.txt"));
    for name in &found {
        assert!(there.contains(name), "crates.txt: there is no folder crates/{name}");
    }
    found.extend(there.into_iter().filter(|name| !found.contains(name)).collect::<Vec<_>>());
    found
}

fn listed_crates(list: &Path) -> Vec<String> {
    let mut found = Vec::new();
    for (number, line) in read(list).lines().enumerate().filter(|(_, line)| !line.starts_with('#') && !line.trim().is_empty()) {
        // behind the name may stand of what kind the crate is
        let name = line.split_once(':').and_then(|(head, _)| head.split_whitespace().next());
        let Some(name) = name else { panic!("{}:{}: no crate is named", list.display(), number + 1) };
        found.push(name.to_string());
    }
    found
}

fn shown(root: &Path, path: &Path) -> String {
    path.strip_prefix(root.join("crates")).unwrap_or(path).to_string_lossy().to_string()
}
