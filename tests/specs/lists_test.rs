// A list between its marks: put into a page, and compared with what stands there.

use crate::lists::List;

const PAGE: &str =
    "Before\n<!-- other: begin -->\n| x |\n<!-- other: end -->\n<!-- rows: begin -->\n| a | `b`, `c` (low) | `d` |\n| e | 5 |\n\
                    <!-- rows: end -->\nBehind\n";

fn rows(text: &str) -> List {
    List { name: "rows", text: text.to_string() }
}

fn standing(text: &str) -> Vec<String> {
    let lines = rows(text).standing(PAGE);
    lines.iter().map(|line| line.strip_prefix("docs/PROMISES.md: ").unwrap().to_string()).collect()
}

#[test]
fn put_between_its_marks() {
    let page = rows("| new |\n").replaced(PAGE).unwrap();
    assert_eq!(page, PAGE.replace("| a | `b`, `c` (low) | `d` |\n| e | 5 |\n", "| new |\n"));
    assert!(rows("| new |\n").replaced("Before\n<!-- rows: begin -->\n").is_none());
}

#[test]
fn the_same_list() {
    assert!(standing("| a | `b`, `c` (low) | `d` |\n| e | 5 |\n").is_empty());
}

#[test]
fn names_too_few_and_too_many() {
    assert_eq!(standing("| a | `b`, `f`, `c` (low) | `d` |\n| e | 5 |\n"), ["a: + `f`"]);
    assert_eq!(standing("| a | `b` (low) | `d` |\n| e | 6 |\n"), ["a: - `c`", "e: - 5 + 6"]);
    assert_eq!(standing("| a | `b`, `c` (low) | `c` |\n| e | 5 |\n"), ["a: - `d` + `c`"]);
    assert_eq!(standing("| a | `c`, `b` (low) | `d` |\n| e | 5 |\n"), ["a: in another order"]);
}

#[test]
fn rows_too_few_and_too_many() {
    assert_eq!(standing("| a | `b`, `c` (low) | `d` |\n| g | 5 |\n"), ["- | e | 5 |", "+ | g | 5 |"]);
    assert_eq!(standing("| e | 5 |\n| a | `b`, `c` (low) | `d` |\n"), ["the list `rows` is in another order"]);
    assert_eq!(rows("").standing("No marks\n"), ["docs/PROMISES.md: no lines for the list `rows`"]);
}
