// What is a comment, and what only looks like one.

use crate::comments::{without_code_comments, without_comments};
use crate::tokens::tokens;

fn plain(text: &str) -> String {
    without_comments("Test.antt", text, 1)
}

fn code(text: &str) -> String {
    without_code_comments("test.rt", text)
}

#[test]
fn of_specifications() {
    assert_eq!(plain("a -- b\nc"), "a     \nc");
    assert_eq!(plain("a {- b\nc -} d"), "a     \n     d");
    assert_eq!(plain("a {- b {- c -} d -} e"), "a                   e");
    assert_eq!(plain("{--} a {---} b"), "     a       b");
    assert_eq!(plain("-- {- a\nb -- -}"), "       \nb      ");
}

#[test]
fn none_in_a_specification() {
    for text in ["\"{- a -}\" -x", "\"-- a\"", "\"a\\\" -- b\"", "a--b", "«--» «{-»", "{ - a - }", "x - } -"] {
        assert_eq!(plain(text), text);
    }
}

#[test]
fn of_code() {
    assert_eq!(code("a // { b }\nc"), "a         \nc");
    assert_eq!(code("a /* b /* c */ d */ e"), "a                   e");
    for text in ["b\"// a\"", "b'\"' / b'\\''", "a / b", "&'a [u8]"] {
        assert_eq!(code(text), text);
    }
}

#[test]
fn words_behind_a_comment_keep_their_place() {
    let found = tokens("Test.antt", "a\n  {- b\n -}\n    c {- d -} e", 7);
    let places: Vec<(&str, usize, usize)> = found.iter().map(|word| (word.text.as_str(), word.line, word.column)).collect();
    assert_eq!(places, [("a", 7, 0), ("c", 10, 4), ("e", 10, 14)]);
}

#[test]
#[should_panic(expected = "Test.antt:2: a comment before the first word of the line")]
fn a_comment_that_moves_a_declaration() {
    tokens("Test.antt", "a\n{- b -} c", 1);
}

#[test]
#[should_panic(expected = "Test.antt:2: a comment or a quoted text that does not end")]
fn a_comment_without_an_end() {
    plain("a\nb {- c {- d -}\ne");
}

#[test]
#[should_panic(expected = "Test.antt:1: a comment or a quoted text that does not end")]
fn a_text_without_an_end() {
    plain("a \"b\nc\"");
}
