// Whether an item is a definition or a law. A definition is a type, or computes data; a law's type says something.

use crate::items::{Form, Item};
use crate::mentions::binder_colon;
use crate::tokens::{closing, parted, places, Kind, Token};
use crate::tree::{Found, Tree};
use std::cell::RefCell;
use std::collections::{BTreeSet, HashMap};

const PLAIN: [&str; 4] = ["ℕ", "Bool", "String", "Char"];
const CONTAINERS: [&str; 2] = ["List", "Option"];
/// Types that say something, of the other libraries.
const SAYINGS: [&str; 7] = ["⊥", "Unit", "Dec", "◌≡◌", "IfSome", "Consumes", "Appends"];
const RELATIONS: [&str; 8] = ["≡", "≢", "<", "≤", "↔", "⊎", "¬", "∣"];

pub struct Kinds<'a> {
    tree: &'a Tree,
    /// For each item that stands for a type whether that type is data.
    known: RefCell<HashMap<usize, bool>>,
    /// Types of other libraries of which nothing is known here; what has such a type is taken for a law.
    pub unknown: RefCell<BTreeSet<String>>,
}

impl<'a> Kinds<'a> {
    pub fn new(tree: &'a Tree) -> Kinds<'a> {
        Kinds { tree, known: RefCell::new(HashMap::new()), unknown: RefCell::new(BTreeSet::new()) }
    }

    pub fn is_definition(&self, entry: usize) -> bool {
        let item = &self.tree.entries[entry].item;
        item.form != Form::Value || self.is_data(&item.signature, entry, item)
    }

    /// Whether a value of this type, in the text of this item, is data: a number, a list of numbers, a type, or a function to
    /// such.
    fn is_data(&self, tokens: &[Token], entry: usize, item: &Item) -> bool {
        let Some(result) = parted(tokens, |token| token.is_name("→")).pop() else { return false };
        let factors = parted(result, |token| token.is_name("×"));
        if factors.len() > 1 {
            return factors.into_iter().all(|factor| self.is_data(factor, entry, item));
        }
        if result.is_empty() || !places(result, |token| RELATIONS.contains(&token.text.as_str())).is_empty() {
            return false;
        }
        if result[0].opens() {
            let inner = &result[1..closing(result, 0)];
            return self.is_data(&inner[binder_colon(inner).map_or(0, |at| at + 1)..], entry, item);
        }
        self.is_data_by_head(result, entry, item)
    }

    fn is_data_by_head(&self, tokens: &[Token], entry: usize, item: &Item) -> bool {
        let head = tokens[0].text.as_str();
        if head == "Type" || PLAIN.contains(&head) {
            return true;
        }
        if SAYINGS.contains(&head) {
            return false;
        }
        if CONTAINERS.contains(&head) {
            return arguments(&tokens[1..]).into_iter().all(|argument| self.is_data(argument, entry, item));
        }
        if let Some(class) = variable(item, head) {
            return class.first().is_some_and(|token| token.is_name("Type"));
        }
        self.named_data(tokens, entry)
    }

    fn named_data(&self, tokens: &[Token], entry: usize) -> bool {
        let module = self.tree.entries[entry].module;
        let imports = &self.tree.modules[module].imports;
        let steps = tokens.iter().skip(1).take_while(|token| token.kind == Kind::Step);
        let path: Vec<String> = tokens.iter().take(1).chain(steps).map(|token| token.text.clone()).collect();
        match self.tree.resolve(imports, Some(module), &path) {
            Found { entry: Some(named), .. } => self.stands_for_data(named),
            Found { import: Some(import), .. } if imports[import].written.contains(".declared.") => true,
            _ => {
                self.unknown.borrow_mut().insert(path.join("."));
                false
            }
        }
    }

    /// A type that is met again inside itself is taken for data there.
    fn stands_for_data(&self, entry: usize) -> bool {
        if let Some(&known) = self.known.borrow().get(&entry) {
            return known;
        }
        self.known.borrow_mut().insert(entry, true);
        let item = &self.tree.entries[entry].item;
        let found = match item.form {
            Form::Record => item.members.iter().all(|member| self.is_data(&member.signature, entry, item)),
            Form::Data => item.members.iter().all(|member| self.holds_data(&member.signature, entry, item)),
            Form::Value => is_type(item) && item.clauses.iter().all(|clause| self.is_data(&clause.body, entry, item)),
        };
        self.known.borrow_mut().insert(entry, found);
        found
    }

    /// Whether all arguments of a constructor are data.
    fn holds_data(&self, signature: &[Token], entry: usize, item: &Item) -> bool {
        let parts = parted(signature, |token| token.is_name("→"));
        parts[..parts.len() - 1].iter().all(|part| {
            let bound = part.first().is_some_and(Token::opens);
            let types = if bound { arguments(part) } else { vec![*part] };
            types.into_iter().all(|argument| self.is_data(argument, entry, item))
        })
    }
}

fn is_type(item: &Item) -> bool {
    let result = parted(&item.signature, |token| token.is_name("→")).pop();
    result.is_some_and(|tokens| tokens.first().is_some_and(|token| token.is_name("Type")))
}

/// The arguments of an application, or binders in a row: single names, or what stands in brackets.
fn arguments(tokens: &[Token]) -> Vec<&[Token]> {
    let mut found = Vec::new();
    let mut at = 0;
    while at < tokens.len() {
        let end = if tokens[at].opens() { closing(tokens, at) } else { at };
        found.push(&tokens[at..tokens.len().min(end + 1)]);
        at = end + 1;
    }
    found
}

/// The type of a variable that the item binds before its result.
fn variable<'t>(item: &'t Item, name: &str) -> Option<&'t [Token]> {
    let binders = [&item.parameters, &item.signature];
    binders.into_iter().flat_map(|tokens| groups(tokens)).find_map(|group| {
        let at = binder_colon(group)?;
        group[..at].iter().any(|token| token.text == name).then(|| &group[at + 1..])
    })
}

fn groups(tokens: &[Token]) -> Vec<&[Token]> {
    let open = places(tokens, |token| token.opens());
    open.into_iter().map(|at| &tokens[at + 1..closing(tokens, at)]).collect()
}
