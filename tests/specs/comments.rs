// Texts without their comments. What is left keeps its line and its column.

use crate::tokens::{in_name, name_end};

/// Where a piece of a text ends, and whether it is a comment; no end where something opened is not closed.
struct Piece {
    comment: bool,
    end: Option<usize>,
}

/// A specification, a proof or a contract without `-- ..` and `{- .. -}`.
pub fn without_comments(path: &str, text: &str, first_line: usize) -> String {
    blanked(path, text, first_line, spec_piece)
}

/// A source file, or a C header, without `// ..` and `/* .. */`.
pub fn without_code_comments(path: &str, text: &str) -> String {
    blanked(path, text, 1, code_piece)
}

fn blanked(path: &str, text: &str, first_line: usize, piece: fn(&[char], usize) -> Piece) -> String {
    let characters: Vec<char> = text.chars().collect();
    let mut found = String::with_capacity(text.len());
    let mut at = 0;
    while at < characters.len() {
        let Piece { comment, end } = piece(&characters, at);
        let Some(end) = end else {
            let line = first_line + characters[..at].iter().filter(|&&character| character == '\n').count();
            panic!("{path}:{line}: a comment or a quoted text that does not end");
        };
        found.extend(characters[at..end].iter().map(|&character| if comment && character != '\n' { ' ' } else { character }));
        at = end;
    }
    found
}

fn spec_piece(characters: &[char], at: usize) -> Piece {
    match &characters[at..] {
        ['-', '-', ..] => Piece { comment: true, end: Some(line_end(characters, at)) },
        ['{', '-', ..] => Piece { comment: true, end: block_end(characters, at, ['{', '-'], ['-', '}']) },
        ['"', ..] => Piece { comment: false, end: quoted_end(characters, at) },
        ['«', ..] => Piece { comment: false, end: Some(name_end(characters, at)) },
        // two hyphens inside a name begin no comment
        [first, ..] if in_name(*first) => Piece { comment: false, end: Some(name_end(characters, at)) },
        _ => Piece { comment: false, end: Some(at + 1) },
    }
}

fn code_piece(characters: &[char], at: usize) -> Piece {
    match &characters[at..] {
        ['/', '/', ..] => Piece { comment: true, end: Some(line_end(characters, at)) },
        ['/', '*', ..] => Piece { comment: true, end: block_end(characters, at, ['/', '*'], ['*', '/']) },
        _ => Piece { comment: false, end: code_word_end(characters, at) },
    }
}

/// The end of the word of code that begins here: a name or a number, a quoted text, or one mark.
pub fn code_word_end(characters: &[char], at: usize) -> Option<usize> {
    match &characters[at..] {
        ['"', ..] => quoted_end(characters, at),
        ['b', '"' | '\'', ..] => quoted_end(characters, at + 1),
        [first, ..] if in_code_name(*first) => {
            (at..characters.len()).find(|&place| !in_code_name(characters[place])).or(Some(characters.len()))
        }
        _ => Some(at + 1),
    }
}

pub fn in_code_name(character: char) -> bool {
    character.is_alphanumeric() || character == '_'
}

fn line_end(characters: &[char], at: usize) -> usize {
    (at..characters.len()).find(|&place| characters[place] == '\n').unwrap_or(characters.len())
}

/// Such a comment may stand inside another.
fn block_end(characters: &[char], start: usize, open: [char; 2], close: [char; 2]) -> Option<usize> {
    let mut depth = 0;
    let mut at = start;
    while at + 1 < characters.len() {
        let pair = [characters[at], characters[at + 1]];
        if pair == open {
            depth += 1;
        } else if pair == close {
            depth -= 1;
        }
        at += if pair == open || pair == close { 2 } else { 1 };
        if depth == 0 {
            return Some(at);
        }
    }
    None
}

/// The end of a text between quotes, on its line. What stands behind a backslash ends none.
pub fn quoted_end(characters: &[char], start: usize) -> Option<usize> {
    let mut at = start + 1;
    while at < characters.len() && characters[at] != '\n' {
        match characters[at] {
            '\\' => at += 2,
            last if last == characters[start] => return Some(at + 1),
            _ => at += 1,
        }
    }
    None
}
