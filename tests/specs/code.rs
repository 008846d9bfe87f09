// The words of a source file: names and numbers, quoted texts, and single marks.

use crate::comments::{code_word_end, in_code_name};

pub struct Word {
    pub text: String,
    /// Where it begins and ends among the characters of the file.
    pub start: usize,
    pub end: usize,
    pub line: usize,
}

impl Word {
    pub fn is_name(&self) -> bool {
        self.text.chars().all(in_code_name) && !self.text.starts_with(|first: char| first.is_ascii_digit())
    }
}

/// The words of a text without comments.
pub fn words(path: &str, characters: &[char]) -> Vec<Word> {
    let mut found = Vec::new();
    let mut line = 1;
    let mut start = 0;
    while start < characters.len() {
        let end = code_word_end(characters, start);
        let end = end.unwrap_or_else(|| panic!("{path}:{line}: a quoted text that does not end"));
        if !characters[start].is_whitespace() {
            found.push(Word { text: characters[start..end].iter().collect(), start, end, line });
        }
        line += usize::from(characters[start] == '\n');
        start = end;
    }
    found
}

/// The place of the bracket that closes the one at `open`.
pub fn closing(path: &str, words: &[Word], open: usize) -> usize {
    let close = match words[open].text.as_str() {
        "(" => ")",
        "[" => "]",
        _ => "}",
    };
    let mut depth = 0;
    for (at, word) in words.iter().enumerate().skip(open) {
        if word.text == words[open].text {
            depth += 1;
        } else if word.text == close {
            depth -= 1;
            if depth == 0 {
                return at;
            }
        }
    }
    panic!("{path}:{}: a bracket that nothing closes", words[open].line)
}
