// What the table of promises has wrong: names that nothing has, names that do not stand where it says, and names of several items.

use crate::known::Known;
use specs::promises::{groups, Group, Place, Quoted, PROMISES};
use specs::reach::{code_stands_at, named_items, stands_at};
use specs::tree::Tree;

pub fn wrong_names(tree: &Tree, known: &Known) -> Vec<String> {
    let mut found = Vec::new();
    for group in groups(&tree.promises, &tree.crates) {
        for quoted in &group.quoted {
            let wrong = misplaced(tree, quoted).or(ambiguous(tree, quoted)).or(missing(tree, known, quoted));
            found.extend(wrong.map(|wrong| format!("{PROMISES}:{}: {wrong}", quoted.line)));
        }
        found.extend(idle_places(tree, &group));
    }
    found
}

/// A name that stands at none of the places given for it.
fn misplaced(tree: &Tree, quoted: &Quoted) -> Option<String> {
    let name = quoted.name.as_ref().filter(|_| !quoted.places.is_empty())?;
    if quoted.places.iter().any(|place| has(tree, place, name)) {
        return None;
    }
    let places: Vec<&str> = quoted.places.iter().map(|place| place.written.as_str()).collect();
    let mut instead: Vec<String> = named_items(tree, quoted).iter().map(|&entry| module_of(tree, entry)).collect();
    instead.extend(code_of(tree, name));
    let instead = if instead.is_empty() { String::new() } else { format!(", but in {}", instead.join(" and ")) };
    Some(format!("{name} does not stand in {}{instead}", places.join(", ")))
}

/// The places of a group at which none of its names stands, where not all of these stand elsewhere.
fn idle_places(tree: &Tree, group: &Group) -> Vec<String> {
    let names: Vec<&str> = group.quoted.iter().filter_map(|quoted| quoted.name.as_deref()).collect();
    let is_idle = |place: &&Place| !names.iter().any(|name| has(tree, place, name));
    let idle: Vec<&Place> = group.places.iter().filter(is_idle).collect();
    if idle.len() == group.places.len() {
        return Vec::new();
    }
    let line = group.quoted[0].line;
    idle.iter().map(|place| format!("{PROMISES}:{line}: {} has none of {}", place.written, names.join(", "))).collect()
}

/// Whether an item of this name stands at the place, or the code there has the name. What only the code has stands in no file of
/// specifications: a place that is one then means its crate.
fn has(tree: &Tree, place: &Place, name: &str) -> bool {
    let alone = std::slice::from_ref(place);
    let mut items = (0..tree.entries.len()).filter(|&entry| tree.entries[entry].item.name == name).peekable();
    if code_stands_at(tree, name, alone) {
        return true;
    }
    if items.peek().is_some() || place.code {
        return items.any(|entry| stands_at(tree, entry, alone));
    }
    let declares =
        |crate_name: &str| tree.sources.iter().any(|source| source.crate_name == crate_name && source.declared.contains(name));
    tree.modules.iter().any(|module| place.is(&module.crate_name, &module.name) && declares(&module.crate_name))
}

/// A name that several items have, or an item and a function: which of them is meant must be said, since what is not meant would
/// count as promised.
fn ambiguous(tree: &Tree, quoted: &Quoted) -> Option<String> {
    let (name, items) = (quoted.name.as_ref()?, named_items(tree, quoted));
    let mut found: Vec<String> = items.iter().map(|&entry| module_of(tree, entry)).collect();
    if !items.is_empty() && quoted.places.is_empty() {
        found.extend(code_of(tree, name));
    }
    (found.len() > 1).then(|| format!("{name} stands in {}: give its place", found.join(" and ")))
}

/// The crates that have a function of this name.
fn code_of(tree: &Tree, name: &str) -> Vec<String> {
    let sources = tree.sources.iter().filter(|source| source.functions.iter().any(|function| function.name == name));
    sources.map(|source| format!("the code of {}", source.crate_name)).collect()
}

fn module_of(tree: &Tree, entry: usize) -> String {
    let module = &tree.modules[tree.entries[entry].module];
    format!("{}/{}", module.crate_name, module.name)
}

/// A name, a step of a path of the code, or a field of an item named, that is found nowhere.
fn missing(tree: &Tree, known: &Known, quoted: &Quoted) -> Option<String> {
    let items = named_items(tree, quoted);
    let mut steps = quoted.text.split("::").filter(|_| quoted.text.contains("::")).chain(quoted.name.as_deref());
    let unknown = steps.find(|step| is_name(step) && !known.has(step));
    if let Some(unknown) = unknown {
        return Some(format!("there is no {unknown}"));
    }
    let field = quoted.field.as_ref()?;
    let mut members = items.iter().flat_map(|&entry| &tree.entries[entry].item.members);
    let found = members.any(|member| member.name == *field) || items.is_empty() && known.has(field);
    (!found).then(|| format!("there is no {}", quoted.text))
}

/// A letter alone stands for a number, or is one that the script program prints.
fn is_name(text: &str) -> bool {
    text.starts_with(char::is_alphabetic) && text.chars().count() > 1
}
