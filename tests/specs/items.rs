// The items of a specification: what each is called, its type, its clauses and what is local to them.

use crate::tokens::{closing, parted, places, Kind, Token};

#[derive(Clone, Copy, PartialEq, Eq, Debug)]
pub enum Form {
    Value,
    Record,
    Data,
}

#[derive(Clone, Debug)]
pub struct Item {
    pub name: String,
    pub form: Form,
    pub public: bool,
    pub first_line: usize,
    pub last_line: usize,
    /// The last line of its type; of a record or a data type, the last of all.
    pub statement_line: usize,
    /// The lines of the heads of the blocks around it, which belong to what it says.
    pub lines_around: usize,
    /// The binders of the blocks around it, and those before its own colon.
    pub parameters: Vec<Token>,
    pub signature: Vec<Token>,
    pub unfolding: Vec<Token>,
    pub clauses: Vec<Clause>,
    /// The fields of a record, the constructors of a data type.
    pub members: Vec<Member>,
}

/// What the blocks around an item bring: their binders, and the lines of their heads.
#[derive(Clone, Debug, Default)]
pub struct Around {
    parameters: Vec<Token>,
    lines: usize,
}

#[derive(Clone, Debug)]
pub struct Member {
    pub name: String,
    pub signature: Vec<Token>,
}

#[derive(Clone, Debug)]
pub struct Clause {
    /// The patterns, after the item's name.
    pub patterns: Vec<Token>,
    pub body: Vec<Token>,
    pub locals: Vec<Item>,
}

const MARKS: [&str; 4] = ["unfoldable", "abbrev", "pub", "axiom"];
/// What begins a line that declares no item and mentions none.
const HEADER: [&str; 5] = ["use", "mod", "infix", "infixl", "infixr"];

/// The items of a file.
pub fn items(path: &str, tokens: &[Token]) -> Vec<Item> {
    items_in(path, tokens, &Around::default())
}

/// The items of a block, those of the blocks inside it too.
fn items_in(path: &str, tokens: &[Token], around: &Around) -> Vec<Item> {
    let mut found: Vec<Item> = Vec::new();
    for chunk in chunks(tokens) {
        let marks = chunk.iter().take_while(|token| MARKS.contains(&token.text.as_str())).count();
        let rest = &chunk[marks..];
        let known = found.len();
        match rest.first().map_or("", |token| token.text.as_str()) {
            "module" => found.extend(block(path, rest, around)),
            "mutual" => found.extend(mutual(path, rest, around)),
            "record" => found.push(type_item(path, rest, around, Form::Record)),
            "data" => found.push(type_item(path, rest, around, Form::Data)),
            "unfolding" => add(path, &mut found, chunk, |item| item.unfolding.extend_from_slice(&rest[1..])),
            "ruleset" => found.push(ruleset(path, rest, around)),
            "open" => found.extend(opened(path, rest, around)),
            word if HEADER.contains(&word) => {}
            _ if colon(rest).is_some() => found.push(value_item(rest, around)),
            _ => add_clause(path, &mut found, chunk),
        }
        if chunk[..marks].iter().any(|token| token.is_name("pub")) {
            found[known..].iter_mut().for_each(|item| item.public = true);
        }
    }
    found
}

/// The declarations of a block, and each part of one that begins a line at the block's column; a bracket that closes begins none.
fn chunks(tokens: &[Token]) -> Vec<&[Token]> {
    let Some(first) = tokens.first() else { return Vec::new() };
    let begins = |token: &Token| token.leads && token.column <= first.column && !token.closes() && !token.is_name("]");
    let starts: Vec<usize> = (0..tokens.len()).filter(|&at| at == 0 || begins(&tokens[at])).collect();
    let ends = starts.iter().skip(1).copied().chain([tokens.len()]);
    starts.iter().zip(ends).map(|(&start, end)| &tokens[start..end]).collect()
}

/// A line under an item's type belongs to the item.
fn add(path: &str, found: &mut [Item], chunk: &[Token], change: impl FnOnce(&mut Item)) {
    let Some(item) = found.last_mut() else { unread(path, &chunk[0]) };
    item.last_line = chunk[chunk.len() - 1].line;
    change(item);
}

/// A clause begins with the name of the item above it, or has its operator between the patterns. Anything else is nothing that is
/// known here, and must not be taken for a clause: an item in it would be seen by nobody.
fn add_clause(path: &str, found: &mut [Item], chunk: &[Token]) {
    let name = found.last().map(|item| item.name.clone()).unwrap_or_default();
    let Some(&equals) = places(chunk, |token| token.is_name("=")).first() else { unread(path, &chunk[0]) };
    let named = chunk[0].is_name(&name);
    if !named && !is_infix(&chunk[..equals], &name) {
        unread(path, &chunk[0]);
    }
    add(path, found, chunk, |item| item.clauses.push(clause(path, chunk, usize::from(named))));
}

/// Whether this stands before the `=` of a clause: `x + y` for `◌+◌`.
fn is_infix(head: &[Token], name: &str) -> bool {
    let part = |token: &Token| name.contains('◌') && token.kind == Kind::Name && name.split('◌').any(|part| part == token.text);
    head.iter().any(part) && places(head, |token| token.is_name(":")).is_empty()
}

fn unread(path: &str, token: &Token) -> ! {
    panic!("{path}:{}: {} begins neither an item nor a clause of the item before it", token.line, token.text)
}

/// The place of a type's colon after the name, and after levels in braces if there are.
fn colon(tokens: &[Token]) -> Option<usize> {
    let after = if tokens.get(1)?.is_mark("{") { closing(tokens, 1) + 1 } else { 1 };
    tokens.get(after).filter(|token| token.is_name(":")).map(|_| after)
}

/// `module _ (parameters) where`: each item inside is one of the file, over these parameters too.
fn block(path: &str, tokens: &[Token], around: &Around) -> Vec<Item> {
    let Some(at) = place_of_where(tokens) else { unread(path, &tokens[0]) };
    let mut inside = around.clone();
    inside.parameters.extend_from_slice(&tokens[2..at]);
    inside.lines += tokens[at].line - tokens[0].line + 1;
    items_in(path, &tokens[at + 1..], &inside)
}

/// `mutual`: each item inside is one of the file, and an `unfolding` line that stands first is for them all.
fn mutual(path: &str, tokens: &[Token], around: &Around) -> Vec<Item> {
    let first = chunks(&tokens[1..]).first().copied().filter(|chunk| chunk[0].is_name("unfolding")).unwrap_or(&[]);
    let mut found = items_in(path, &tokens[1 + first.len()..], around);
    for item in &mut found {
        item.unfolding.extend(first.iter().skip(1).cloned());
    }
    found
}

/// `ruleset name = (law, ← other)`: a name for a list of others.
fn ruleset(path: &str, tokens: &[Token], around: &Around) -> Item {
    let Some(name) = tokens.get(1).filter(|_| tokens.get(2).is_some_and(|token| token.is_name("="))) else {
        unread(path, &tokens[0])
    };
    let mut item = new_item(tokens, Form::Value, &name.text, around, &[]);
    item.clauses.push(Clause { patterns: Vec::new(), body: tokens[3..].to_vec(), locals: Vec::new() });
    item
}

/// `open r use {f, g as h}`: the fields of a value by names of their own, each of which has what `r` mentions.
fn opened(path: &str, tokens: &[Token], around: &Around) -> Vec<Item> {
    let brought = |at: &usize| tokens.get(at + 1).is_some_and(|token| token.is_mark("{"));
    let Some(at) = places(tokens, |token| token.is_name("use")).into_iter().find(brought) else { unread(path, &tokens[0]) };
    let fields = parted(&tokens[at + 2..closing(tokens, at + 1)], |token| token.is_mark(","));
    let names = fields.iter().filter_map(|field| field.last());
    names.map(|name| new_item(tokens, Form::Value, &name.text, around, &tokens[1..at])).collect()
}

fn value_item(tokens: &[Token], around: &Around) -> Item {
    let signature = colon(tokens).map_or(&tokens[1..], |at| &tokens[at + 1..]);
    new_item(tokens, Form::Value, &tokens[0].text, around, signature)
}

fn type_item(path: &str, tokens: &[Token], around: &Around, form: Form) -> Item {
    let end = place_of_where(tokens).unwrap_or(tokens.len());
    let head = &tokens[..end];
    let at = places(head, |token| token.is_name(":")).first().copied().unwrap_or(end);
    let mut item = new_item(tokens, form, &tokens[1].text, around, head.get(at + 1..).unwrap_or(&[]));
    item.parameters.extend_from_slice(&head[2..at]);
    item.members = chunks(tokens.get(end + 1..).unwrap_or(&[])).into_iter().flat_map(|chunk| members(path, chunk)).collect();
    item
}

fn new_item(tokens: &[Token], form: Form, name: &str, around: &Around, signature: &[Token]) -> Item {
    let last_line = tokens[tokens.len() - 1].line;
    Item {
        name: name.to_string(),
        form,
        public: false,
        first_line: tokens[0].line,
        last_line,
        statement_line: last_line,
        lines_around: around.lines,
        parameters: around.parameters.clone(),
        signature: signature.to_vec(),
        unfolding: Vec::new(),
        clauses: Vec::new(),
        members: Vec::new(),
    }
}

/// A field or a constructor; several may stand before one colon.
fn members(path: &str, tokens: &[Token]) -> Vec<Member> {
    if HEADER.contains(&tokens[0].text.as_str()) {
        return Vec::new(); // how an operator among the fields is read
    }
    let Some(&at) = places(tokens, |token| token.is_name(":")).first() else { unread(path, &tokens[0]) };
    let names = tokens[..at].iter().filter(|token| token.kind == Kind::Name && !MARKS.contains(&token.text.as_str()));
    names.map(|token| Member { name: token.text.clone(), signature: tokens[at + 1..].to_vec() }).collect()
}

/// The clause whose patterns begin here, behind the item's name if it stands before them.
fn clause(path: &str, tokens: &[Token], from: usize) -> Clause {
    let end = place_of_where(tokens).unwrap_or(tokens.len());
    let equals = places(&tokens[..end], |token| token.is_name("=")).first().copied().unwrap_or(end);
    Clause {
        patterns: tokens[from..equals].to_vec(),
        body: tokens[..end].get(equals + 1..).unwrap_or(&[]).to_vec(),
        locals: items(path, tokens.get(end + 1..).unwrap_or(&[])),
    }
}

fn place_of_where(tokens: &[Token]) -> Option<usize> {
    tokens.iter().position(|token| token.is_name("where"))
}
