// What functions ask of their callers by `requires`: the kinds of what is asked, the forms of the clauses that ask it, and the
// functions that ask or show it.

use crate::sources::{Call, Function};
use crate::tokens::{closing, parted, tokens, Kind, Token};
use crate::tree::Tree;
use std::collections::BTreeSet;

/// The kinds, as their file lists them.
pub struct Asked {
    pub path: String,
    /// The crates whose public functions ask nothing.
    pub face: Vec<String>,
    pub asks: Vec<Ask>,
}

pub struct Ask {
    /// In plain words.
    pub what: String,
    pub forms: Vec<Form>,
}

/// The words of a clause, where `_` stands for any.
pub struct Form {
    pub words: Vec<String>,
    pub line: usize,
}

/// A function, by the number of its source and its number there: the order of the crates and files.
pub type Place = (usize, usize);

/// The functions that ask one thing, and those that call one of them and do not ask it themselves.
pub struct Row<'a> {
    pub what: &'a str,
    pub asking: BTreeSet<Place>,
    pub showing: BTreeSet<Place>,
}

impl Asked {
    /// `nothing:` with crates, then lines of plain words with the forms below each, indented.
    pub fn read(path: &str, text: &str) -> Asked {
        let mut found = Asked { path: path.to_string(), face: Vec::new(), asks: Vec::new() };
        for (number, line) in text.lines().enumerate().filter(|(_, line)| !line.starts_with('#') && !line.trim().is_empty()) {
            if let Some(crates) = line.strip_prefix("nothing:") {
                found.face.extend(crates.split_whitespace().map(String::from));
            } else if line.starts_with(' ') {
                let Some(ask) = found.asks.last_mut() else { panic!("{path}:{}: nothing says what this asks", number + 1) };
                ask.forms.push(Form { words: words(&tokens(path, line, number + 1)), line: number + 1 });
            } else {
                found.asks.push(Ask { what: line.to_string(), forms: Vec::new() });
            }
        }
        found
    }

    pub fn rows<'a>(&'a self, tree: &Tree) -> Vec<Row<'a>> {
        self.asks.iter().map(|ask| row(tree, ask)).collect()
    }

    /// The public functions of the crates that ask nothing, and all that C calls.
    pub fn face(&self, tree: &Tree) -> BTreeSet<Place> {
        let public = |place: &Place| {
            let (source, function) = (&tree.sources[place.0], function(tree, *place));
            function.exported || function.public && self.face.contains(&source.crate_name)
        };
        all(tree).into_iter().filter(public).collect()
    }

    /// Public functions that ask something, and crates without one; clauses of no form, and forms of no clause; lost calls.
    pub fn wrong(&self, tree: &Tree) -> Vec<String> {
        let mut found = self.wrong_face(tree);
        let forms: Vec<&Form> = self.asks.iter().flat_map(|ask| &ask.forms).collect();
        let clauses: Vec<(Place, Vec<String>)> = all(tree).into_iter().flat_map(|place| asked_at(tree, place)).collect();
        let unknown = clauses.iter().filter(|(_, clause)| !forms.iter().any(|form| fits(&form.words, clause)));
        found.extend(unknown.map(|(place, clause)| format!("{}: no plain words for {}", shown(tree, *place), clause.join(" "))));
        let idle = forms.iter().filter(|form| !clauses.iter().any(|(_, clause)| fits(&form.words, clause)));
        found.extend(idle.map(|form| format!("{}:{}: no function asks this", self.path, form.line)));
        found.extend(lost_calls(tree));
        found
    }

    fn wrong_face(&self, tree: &Tree) -> Vec<String> {
        let face = self.face(tree);
        let asking = face.iter().filter(|&&place| !function(tree, place).requires.is_empty());
        let without = self.face.iter().filter(|name| !face.iter().any(|place| tree.sources[place.0].crate_name == **name));
        let asking = asking.map(|&place| format!("{} is public, and has a requires", shown(tree, place)));
        asking.chain(without.map(|name| format!("{}: {name} has no public function", self.path))).collect()
    }
}

fn row<'a>(tree: &Tree, ask: &'a Ask) -> Row<'a> {
    let is_of_kind = |clause: &[String]| ask.forms.iter().any(|form| fits(&form.words, clause));
    let asks = |place: &Place| asked_at(tree, *place).iter().any(|(_, clause)| is_of_kind(clause));
    let asking: BTreeSet<Place> = all(tree).into_iter().filter(asks).collect();
    let shows = |place: &Place| !asking.contains(place) && called(tree, *place).iter().any(|other| asking.contains(other));
    let showing = all(tree).into_iter().filter(shows).collect();
    Row { what: &ask.what, asking, showing }
}

fn all(tree: &Tree) -> Vec<Place> {
    let sources = tree.sources.iter().enumerate();
    sources.flat_map(|(number, source)| (0..source.functions.len()).map(move |function| (number, function))).collect()
}

pub fn function(tree: &Tree, place: Place) -> &Function {
    &tree.sources[place.0].functions[place.1]
}

fn shown(tree: &Tree, place: Place) -> String {
    format!("{}: {}", tree.sources[place.0].path, function(tree, place).name)
}

/// The parts of its clauses.
fn asked_at(tree: &Tree, place: Place) -> Vec<(Place, Vec<String>)> {
    let found = function(tree, place).requires.iter().flat_map(|clause| clauses(clause));
    found.map(|clause| (place, clause)).collect()
}

/// The parts of a clause that `×` joins, without the brackets around them, each by its words.
pub fn clauses(clause: &[Token]) -> Vec<Vec<String>> {
    let parts = parted(clause, |token| token.is_name("×"));
    if parts.len() > 1 {
        return parts.into_iter().flat_map(clauses).collect();
    }
    match clause {
        [first, inner @ .., _] if first.is_mark("(") && closing(clause, 0) + 1 == clause.len() => clauses(inner),
        _ => vec![words(clause)],
    }
}

fn words(tokens: &[Token]) -> Vec<String> {
    let word = |token: &Token| match token.kind {
        Kind::Field | Kind::Step => format!(".{}", token.text),
        Kind::Name | Kind::Mark => token.text.clone(),
    };
    tokens.iter().map(word).collect()
}

/// Whether a clause has the form. What `_` stands for closes no bracket that it has not opened.
pub fn fits(form: &[String], clause: &[String]) -> bool {
    match form.split_first() {
        None => clause.is_empty(),
        Some((first, rest)) if first == "_" => whole_runs(clause).into_iter().any(|length| fits(rest, &clause[length..])),
        Some((first, rest)) => clause.first() == Some(first) && fits(rest, &clause[1..]),
    }
}

/// How many words may be taken from the front so that every bracket among them is closed.
fn whole_runs(words: &[String]) -> Vec<usize> {
    let mut found = Vec::new();
    let mut depth = 0;
    for (at, word) in words.iter().enumerate() {
        depth += i32::from(matches!(word.as_str(), "(" | "{")) - i32::from(matches!(word.as_str(), ")" | "}"));
        if depth < 0 {
            break;
        }
        if depth == 0 {
            found.push(at + 1);
        }
    }
    found
}

/// Calls by a name that a function with a `requires` has, where it is not found out which function is called.
fn lost_calls(tree: &Tree) -> Vec<String> {
    let asking = all(tree).into_iter().filter(|&place| !function(tree, place).requires.is_empty());
    let names: BTreeSet<&str> = asking.map(|place| function(tree, place).name.as_str()).collect();
    let mut found = Vec::new();
    for place in all(tree) {
        let calls = function(tree, place).calls.iter().filter(|call| names.contains(call.name.as_str()));
        let lost = calls.filter(|call| resolved(tree, place.0, call).is_none());
        found.extend(lost.map(|call| format!("{} calls {}, which is not found", shown(tree, place), call.name)));
    }
    found
}

/// The functions of the crates that a function calls.
fn called(tree: &Tree, place: Place) -> Vec<Place> {
    function(tree, place).calls.iter().filter_map(|call| resolved(tree, place.0, call)).collect()
}

/// A call is of a function of the crate that its path or a `use` line names first, else of its own file or crate.
fn resolved(tree: &Tree, source: usize, call: &Call) -> Option<Place> {
    let own = &tree.sources[source];
    let first = call.path.as_ref().or(own.uses.get(&call.name));
    let crate_name = first.filter(|first| tree.crates.contains(first)).unwrap_or(&own.crate_name);
    let at = |number: usize| {
        let functions = &tree.sources[number].functions;
        functions.iter().position(|function| function.name == call.name).map(|function| (number, function))
    };
    let of_crate = (0..tree.sources.len()).filter(|&number| tree.sources[number].crate_name == *crate_name);
    let own_file = Some(source).filter(|_| own.crate_name == *crate_name);
    own_file.into_iter().chain(of_crate).find_map(at)
}
