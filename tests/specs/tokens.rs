// The words of a specification, a proof or a contract: names, fields, steps of a path, and marks. Comments are left out.

use crate::comments::{quoted_end, without_comments};

#[derive(Clone, Copy, PartialEq, Eq, Debug)]
pub enum Kind {
    /// A name, a numeral or a word of the language.
    Name,
    /// `x` in `(f r).x`: a field of what stands before it.
    Field,
    /// `x` in `M.x` or `r.x`: one step further down a path, or a field of the one name before it.
    Step,
    /// A bracket, a comma, a semicolon, or the dot after the binders of a λ.
    Mark,
}

#[derive(Clone, Debug)]
pub struct Token {
    pub kind: Kind,
    pub text: String,
    pub line: usize,
    pub column: usize,
    /// Whether it is the first of its line.
    pub leads: bool,
}

impl Token {
    pub fn is_name(&self, text: &str) -> bool {
        self.kind == Kind::Name && self.text == text
    }

    pub fn is_mark(&self, text: &str) -> bool {
        self.kind == Kind::Mark && self.text == text
    }

    pub fn opens(&self) -> bool {
        self.is_mark("(") || self.is_mark("{")
    }

    pub fn closes(&self) -> bool {
        self.is_mark(")") || self.is_mark("}")
    }
}

/// The words of a text of this file whose first line has this number.
pub fn tokens(path: &str, text: &str, first_line: usize) -> Vec<Token> {
    let mut found = Vec::new();
    for (number, (line, written)) in without_comments(path, text, first_line).lines().zip(text.lines()).enumerate() {
        // a declaration is told by its column, which a comment before it moves
        if !line.trim().is_empty() && indent(line) != indent(written) {
            panic!("{path}:{}: a comment before the first word of the line", first_line + number);
        }
        line_tokens(line, first_line + number, &mut found);
    }
    found
}

fn indent(line: &str) -> usize {
    line.chars().take_while(|character| character.is_whitespace()).count()
}

fn line_tokens(line: &str, number: usize, found: &mut Vec<Token>) {
    let characters: Vec<char> = line.chars().collect();
    let before = found.len();
    let mut at = 0;
    while at < characters.len() {
        if characters[at].is_whitespace() {
            at += 1;
            continue;
        }
        let (kind, start, end) = token_at(&characters, at);
        let text = characters[start..end].iter().filter(|character| !matches!(character, '«' | '»')).collect();
        found.push(Token { kind, text, line: number, column: at, leads: found.len() == before });
        at = end;
    }
}

/// The kind of the word that begins here, and where its text begins and ends.
fn token_at(characters: &[char], at: usize) -> (Kind, usize, usize) {
    match characters[at] {
        '"' => (Kind::Name, at, quoted_end(characters, at).unwrap_or(characters.len())),
        '.' if characters.get(at + 1).is_some_and(|&next| in_name(next) || next == '«') => {
            let tight = at > 0 && (in_name(characters[at - 1]) || characters[at - 1] == '»');
            (if tight { Kind::Step } else { Kind::Field }, at + 1, name_end(characters, at + 1))
        }
        character if in_name(character) || character == '«' => (Kind::Name, at, name_end(characters, at)),
        _ => (Kind::Mark, at, at + 1),
    }
}

pub fn in_name(character: char) -> bool {
    !character.is_whitespace() && !matches!(character, '(' | ')' | '{' | '}' | '.' | ';' | ',' | '@' | '"' | '«' | '»')
}

/// The end of the name that begins here; between `«` and `»` anything may stand.
pub fn name_end(characters: &[char], start: usize) -> usize {
    if characters[start] == '«' {
        return (start..characters.len()).find(|&at| characters[at] == '»').map_or(characters.len(), |at| at + 1);
    }
    (start..characters.len()).find(|&at| !in_name(characters[at])).unwrap_or(characters.len())
}

/// The place of the bracket that closes the one at `open`.
pub fn closing(tokens: &[Token], open: usize) -> usize {
    let mut depth = 0;
    for (at, token) in tokens.iter().enumerate().skip(open) {
        if token.opens() {
            depth += 1;
        } else if token.closes() {
            depth -= 1;
            if depth == 0 {
                return at;
            }
        }
    }
    tokens.len()
}

/// The places, outside of brackets, where the test holds.
pub fn places(tokens: &[Token], test: impl Fn(&Token) -> bool) -> Vec<usize> {
    let mut found = Vec::new();
    let mut depth = 0;
    for (at, token) in tokens.iter().enumerate() {
        if token.closes() {
            depth -= 1;
        }
        if depth == 0 && test(token) {
            found.push(at);
        }
        if token.opens() {
            depth += 1;
        }
    }
    found
}

/// The parts between the places, outside of brackets, where the test holds.
pub fn parted(tokens: &[Token], test: impl Fn(&Token) -> bool) -> Vec<&[Token]> {
    let mut parts = Vec::new();
    let mut from = 0;
    for at in places(tokens, test) {
        parts.push(&tokens[from..at]);
        from = at + 1;
    }
    parts.push(&tokens[from..]);
    parts
}
