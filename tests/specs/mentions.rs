// The names that a text mentions, apart from those that it binds itself.

use crate::items::{Clause, Form, Item};
use crate::tokens::{closing, parted, places, Kind, Token};

/// A name, with the names behind its dots.
#[derive(Clone, Debug, PartialEq, Eq)]
pub struct Mention {
    pub path: Vec<String>,
    pub line: usize,
}

/// The names that an item's text mentions: those of its type, and all.
pub struct Mentioned {
    pub statement: Vec<Mention>,
    pub whole: Vec<Mention>,
}

pub struct Walker<'a> {
    bound: Vec<String>,
    found: Vec<Mention>,
    /// In a pattern a constructor is mentioned, and any other name is bound.
    constructor: &'a dyn Fn(&str) -> bool,
}

pub fn of_item(item: &Item, constructor: &dyn Fn(&str) -> bool) -> Mentioned {
    let mut walker = Walker { bound: Vec::new(), found: Vec::new(), constructor };
    let statement = walker.item(item);
    let whole = walker.found;
    Mentioned { statement: whole[..statement].to_vec(), whole }
}

/// The names that a contract's text mentions, the names of the function's arguments and of its result being bound.
pub fn of_text(tokens: &[Token], arguments: &[String]) -> Vec<Mention> {
    let bound = arguments.iter().cloned().chain(["result".to_string()]).collect();
    let mut walker = Walker { bound, found: Vec::new(), constructor: &|_| false };
    walker.term(tokens);
    walker.found
}

impl Walker<'_> {
    /// Returns how many of the names found belong to the item's statement.
    fn item(&mut self, item: &Item) -> usize {
        let before = self.bound.len();
        self.open_term(&item.parameters);
        let inside = self.bound.len();
        self.term(&item.signature);
        self.members(item);
        let statement = self.found.len();
        self.bound.truncate(inside);
        self.term(&item.unfolding);
        for clause in &item.clauses {
            self.clause(clause);
        }
        self.bound.truncate(before);
        statement
    }

    /// A field's type may name the fields before it.
    fn members(&mut self, item: &Item) {
        for member in &item.members {
            self.term(&member.signature);
            if item.form == Form::Record {
                self.bound.push(member.name.clone());
            }
        }
    }

    fn clause(&mut self, clause: &Clause) {
        let before = self.bound.len();
        self.pattern(&clause.patterns);
        self.bound.extend(clause.locals.iter().map(|local| local.name.clone()));
        self.term(&clause.body);
        for local in &clause.locals {
            self.item(local);
        }
        self.bound.truncate(before);
    }

    fn pattern(&mut self, tokens: &[Token]) {
        for (at, token) in tokens.iter().enumerate() {
            if token.kind != Kind::Name || token.text == "=" {
                continue;
            }
            // `{j = x}` binds x
            let label = at > 0 && tokens[at - 1].is_mark("{") && tokens.get(at + 1).is_some_and(|next| next.is_name("="));
            let path = tokens.get(at + 1).is_some_and(|next| next.kind == Kind::Step);
            if path || is_applied(tokens, at) || (self.constructor)(&token.text) {
                self.mention(tokens, at);
            } else if !label {
                self.bound.push(token.text.clone());
            }
        }
    }

    /// A term by itself: what it binds ends with it.
    fn term(&mut self, tokens: &[Token]) {
        let before = self.bound.len();
        self.open_term(tokens);
        self.bound.truncate(before);
    }

    /// A term whose binders reach as far as the brackets around it.
    fn open_term(&mut self, tokens: &[Token]) {
        // for each `let` that awaits its `in`: how many names were bound before it, and the names that it binds
        let mut lets: Vec<(usize, Vec<String>)> = Vec::new();
        // for each `elim` in whose cases this is: how many names were bound before them
        let mut elims: Vec<usize> = Vec::new();
        let mut at = 0;
        while at < tokens.len() {
            let token = &tokens[at];
            if token.opens() {
                let end = closing(tokens, at);
                self.group(&tokens[at + 1..end], at > 0 && tokens[at - 1].is_name("record"));
                at = end;
            } else if token.is_name("λ") {
                at = self.binders(tokens, at + 1);
            } else if token.is_name("let") || token.is_name("unfold") {
                let (names, next) = let_names(tokens, at);
                lets.push((self.bound.len(), names));
                at = next;
                continue;
            } else if token.is_name("=") {
                // what the type of a `let` binds does not reach its value
                self.bound.truncate(lets.last().map_or(self.bound.len(), |pending| pending.0));
            } else if token.is_name("in") {
                if let Some((before, names)) = lets.pop() {
                    self.bound.truncate(before);
                    self.bound.extend(names);
                }
            } else if token.is_name("[") {
                elims.push(self.bound.len());
                at = self.case(tokens, at);
            } else if token.is_name("|") && !elims.is_empty() {
                self.bound.truncate(elims[elims.len() - 1]);
                at = self.case(tokens, at);
            } else if token.is_name("]") {
                self.bound.truncate(elims.pop().unwrap_or(self.bound.len()));
            } else if token.kind == Kind::Name {
                self.mention(tokens, at);
            }
            at += 1;
        }
    }

    /// Binds the pattern of a case of an `elim`, behind its `[` or `|`, and returns the place of its `↦`. Where no pattern stands there
    /// it returns that of the `[`: before the `|` of a first case, or where there is no case.
    fn case(&mut self, tokens: &[Token], before: usize) -> usize {
        let end = (before + 1..tokens.len()).find(|&at| ["↦", "]", "|"].iter().any(|end| tokens[at].is_name(end)));
        let Some(end) = end.filter(|&end| tokens[end].is_name("↦")) else { return before };
        // as in round brackets: a name with others behind it is a constructor
        let bracket = |text: &str| Token { kind: Kind::Mark, text: text.to_string(), ..tokens[before].clone() };
        self.pattern(&[&[bracket("(")], &tokens[before + 1..end], &[bracket(")")]].concat());
        end
    }

    /// What stands in brackets: binders with their type, the fields of a record, an implicit argument by name, or terms.
    fn group(&mut self, tokens: &[Token], record: bool) {
        if let Some(at) = binder_colon(tokens).filter(|_| !record) {
            self.term(&tokens[at + 1..]);
            self.bound.extend(tokens[..at].iter().map(|token| token.text.clone()));
            return;
        }
        for part in parted(tokens, |token| token.is_mark(",") || token.is_mark(";")) {
            let labelled = part.len() > 1 && (part[1].is_name("=") || record && part[1].is_name(":"));
            self.term(if labelled { &part[2..] } else { part });
        }
    }

    /// Binds what stands between a λ and its dot, and returns the dot's place.
    fn binders(&mut self, tokens: &[Token], from: usize) -> usize {
        let mut at = from;
        while at < tokens.len() && !tokens[at].is_mark(".") {
            if tokens[at].opens() {
                let end = closing(tokens, at);
                let inner = &tokens[at + 1..end];
                match binder_colon(inner) {
                    Some(_) => self.group(inner, false),
                    None => self.bound.extend(names_of_pattern(inner)),
                }
                at = end;
            } else {
                self.bound.push(tokens[at].text.clone());
            }
            at += 1;
        }
        at
    }

    fn mention(&mut self, tokens: &[Token], at: usize) {
        let token = &tokens[at];
        if self.bound.contains(&token.text) {
            return;
        }
        let steps = tokens[at + 1..].iter().take_while(|next| next.kind == Kind::Step);
        let path = [token].into_iter().chain(steps).map(|step| step.text.clone()).collect();
        self.found.push(Mention { path, line: token.line });
    }
}

/// Whether the name is the head of `(some x)`. In `(x ∷ rest)` an operator follows, and x is none.
fn is_applied(tokens: &[Token], at: usize) -> bool {
    let operator = |token: &Token| token.kind == Kind::Name && !token.text.chars().any(|character| character.is_alphanumeric());
    let head = at > 0 && tokens[at - 1].is_mark("(");
    head && tokens
        .get(at + 1)
        .is_some_and(|next| next.opens() || next.kind == Kind::Name && (!operator(next) || next.text == "_"))
}

/// The colon of `(x y : A)`: before it stand only names.
pub fn binder_colon(tokens: &[Token]) -> Option<usize> {
    let at = tokens.iter().position(|token| token.is_name(":"))?;
    (at > 0 && tokens[..at].iter().all(|token| token.kind == Kind::Name)).then_some(at)
}

/// The names that a `let` binds, and where its type or its value begins. An `unfold` has an `in` too, and binds nothing.
fn let_names(tokens: &[Token], at: usize) -> (Vec<String>, usize) {
    if tokens[at].is_name("unfold") {
        return (Vec::new(), at + 1);
    }
    let rest = &tokens[at + 1..];
    let end = places(rest, |token| token.is_name("=") || token.is_name(":")).first().copied().unwrap_or(rest.len());
    (names_of_pattern(&rest[..end]), at + 1 + end)
}

/// The names in `(a, b)` or `record { x = a; y = b }`, or the one name.
fn names_of_pattern(tokens: &[Token]) -> Vec<String> {
    let label = |at: usize| tokens.get(at + 1).is_some_and(|next| next.is_name("="));
    let named = tokens.iter().enumerate().filter(|(at, token)| token.kind == Kind::Name && !label(*at) && token.text != "=");
    named.map(|(_, token)| token.text.clone()).collect()
}
