// The names that the table of promises has in backticks, and the places that it gives for them.

use crate::tokens::in_name;

pub const PROMISES: &str = "docs/PROMISES.md";

/// What stands in one pair of backticks.
#[derive(Debug)]
pub struct Quoted {
    pub text: String,
    /// The first name: `word l` names `word`, `Demand2.kept` names `Demand2`, and `Order.Laws`, an item of a module, names `Laws`. A
    /// path of the code (`records::Rule`) or of a file names nothing.
    pub name: Option<String>,
    /// The field behind it, which begins with a small letter: `kept` in `Demand2.kept`, and in `.kept` alone.
    pub field: Option<String>,
    /// Where it stands, by the text: the module before its dot, or what is given for its group.
    pub places: Vec<Place>,
    pub line: usize,
}

/// Names with only commas between them, and the places given behind them for all: `(records/Checks, Order)`.
#[derive(Debug, Default)]
pub struct Group {
    pub quoted: Vec<Quoted>,
    pub places: Vec<Place>,
}

#[derive(Clone, Debug, PartialEq, Eq)]
pub struct Place {
    pub written: String,
    /// The crates that it may be in; none where the text leaves that open.
    pub crates: Vec<String>,
    /// A file of specifications, or behind `::` one of code.
    pub module: Option<String>,
    pub code: bool,
}

impl Place {
    pub fn in_crate(&self, crate_name: &str) -> bool {
        self.crates.is_empty() || self.crates.iter().any(|name| name == crate_name)
    }

    pub fn is(&self, crate_name: &str, module: &str) -> bool {
        self.in_crate(crate_name) && self.module.as_ref().is_none_or(|name| name == module)
    }
}

/// A paragraph, or a cell of a table, with the crates that its section or its row is about.
struct Block {
    text: String,
    line: usize,
    about: Vec<String>,
}

/// The groups of a page, in a repository of these crates.
pub fn groups(page: &str, crates: &[String]) -> Vec<Group> {
    blocks(page, crates).iter().flat_map(|block| groups_of(block, crates)).collect()
}

fn blocks(page: &str, crates: &[String]) -> Vec<Block> {
    let mut found: Vec<Block> = Vec::new();
    let mut section: Vec<String> = Vec::new();
    let mut open = false; // whether the last block may go on
    for (number, line) in page.lines().enumerate() {
        if line.starts_with('#') {
            section.clear();
        }
        if line.starts_with('|') {
            let about = [section.clone(), crates_in(line, crates)].concat();
            let cells = line.trim_matches('|').split('|');
            found.extend(cells.map(|cell| Block { text: cell.to_string(), line: number + 1, about: about.clone() }));
        } else if open && !line.starts_with("- ") && !line.trim().is_empty() {
            found.last_mut().into_iter().for_each(|block| block.text = format!("{}\n{line}", block.text));
        } else {
            found.push(Block { text: line.to_string(), line: number + 1, about: section.clone() });
        }
        open = !line.starts_with(['|', '#']) && !line.trim().is_empty();
        if let Some(head) = found.last_mut().filter(|block| block.text.starts_with("Crate")) {
            section = quoted_crates(&head.text, crates);
            head.about = section.clone();
        }
    }
    found
}

/// The crates that a row gives as places, or as parts of places.
fn crates_in(row: &str, crates: &[String]) -> Vec<String> {
    let brackets = row.split('(').skip(1).filter_map(|rest| rest.split_once(')'));
    let words = brackets.flat_map(|(inner, _)| places_in(inner));
    let heads = words.map(|word| word.split(['/', ':']).next().unwrap_or_default().to_string());
    heads.filter(|head| crates.contains(head)).collect()
}

fn quoted_crates(text: &str, crates: &[String]) -> Vec<String> {
    text.split('`').skip(1).step_by(2).filter(|quoted| crates.iter().any(|name| name == quoted)).map(String::from).collect()
}

fn groups_of(block: &Block, crates: &[String]) -> Vec<Group> {
    assert!(block.text.matches('`').count() % 2 == 0, "{PROMISES}:{}: a backtick that nothing closes", block.line);
    let mut found = vec![Group::default()];
    let mut line = block.line;
    for (part, text) in block.text.split('`').enumerate() {
        let Some(group) = found.last_mut() else { continue };
        if part % 2 == 1 {
            group.quoted.push(quoted(text, line, block, crates));
        } else {
            group.places = resolved(&given(text), block, crates);
            if !group.places.is_empty() || !matches!(text.trim(), "," | "and") {
                found.push(Group::default());
            }
        }
        line += text.matches('\n').count();
    }
    found.retain(|group| !group.quoted.is_empty());
    for Group { quoted, places } in &mut found {
        let without = quoted.iter_mut().filter(|quoted| quoted.places.is_empty());
        without.for_each(|quoted| quoted.places = places.clone());
    }
    found
}

fn quoted(text: &str, line: usize, block: &Block, crates: &[String]) -> Quoted {
    let run = |from: &str| from.chars().take_while(|&character| in_name(character)).collect::<String>();
    let head = run(text);
    let rest = &text[head.len()..];
    let path = text.contains("::") || text.contains('/') || text.ends_with(".antt");
    let behind = rest.trim_start().strip_prefix('.').map(run).filter(|behind| !path && !behind.is_empty());
    let is_step = !head.is_empty() && rest.starts_with('.') && behind.iter().any(|behind| behind.starts_with(char::is_uppercase));
    let (step, field) = if is_step { (behind, None) } else { (None, behind) };
    let places = step.iter().flat_map(|_| resolved(std::slice::from_ref(&head), block, crates)).collect();
    let name = Some(step.unwrap_or(head)).filter(|name| !name.is_empty() && !path);
    Quoted { text: text.to_string(), name, field, places, line }
}

/// The places that the text behind names gives: `(Checks)` right behind them, `, records/Checks)` where they stand in brackets
/// themselves, or `(records/Checks, Order)` anywhere before the next name.
fn given(text: &str) -> Vec<String> {
    let text = text.trim_start();
    let inside = |rest: &str| rest.split_once(')').map(|(inner, _)| places_in(inner)).unwrap_or_default();
    let of_path = |places: &Vec<String>| places.iter().any(|place| place.contains('/'));
    let behind = text.strip_prefix('(').map(inside).filter(|places| !places.is_empty());
    let beside = || text.strip_prefix(", ").map(inside).filter(of_path);
    let further = || text.split('(').skip(1).map(inside).find(of_path);
    behind.or_else(beside).or_else(further).unwrap_or_default()
}

/// Single words between commas. What has several words, as `(A + 1)`, is no place.
fn places_in(inner: &str) -> Vec<String> {
    let word = |part: &&str| {
        let first = part.chars().next().is_some_and(char::is_alphabetic);
        first && part.chars().all(|character| character.is_alphanumeric() || matches!(character, '_' | '/' | ':'))
    };
    inner.split(',').map(str::trim).filter(word).map(String::from).collect()
}

/// In `(records/Checks, Order)` the second is in the crate of the first; a module alone is in a crate that the section or the row
/// is about, if there is one.
fn resolved(written: &[String], block: &Block, crates: &[String]) -> Vec<Place> {
    let mut found: Vec<Place> = Vec::new();
    let mut about = block.about.clone();
    for word in written {
        let (before, module) = match word.split_once("::").or(word.split_once('/')) {
            Some((before, module)) => (Some(before), Some(module)),
            None if crates.contains(word) => (Some(word.as_str()), None),
            None => (None, Some(word.as_str())),
        };
        about = before.map_or(about, |before| vec![before.to_string()]);
        let (module, code) = (module.map(String::from), word.contains("::"));
        found.push(Place { written: word.clone(), crates: about.clone(), module, code });
    }
    found
}
