// What a small tree of two crates asks of callers: the functions by kinds, who shows it, and what is wrong with a list of kinds.

use crate::asked::{clauses, fits, function, Asked, Place};
use crate::tokens::tokens;
use crate::tree::Tree;
use std::collections::BTreeSet;
use std::fs::{create_dir_all, remove_dir_all, write};

const LOW: &str = "\
pub mod deep;

pub fn within(at: usize, many: usize)
    requires { at < many }
{
    deep::within_both(at)
}

fn passed_on(at: usize)
    requires { (at < 4) × sound at ≡ true }
{
    within(at, 4);
    let text = b\"called (at)\";
}

pub fn called(at: usize) {
    if at < 3 { passed_on(at) }
}
";

const DEEP: &str = "\
pub fn within_both(at: usize) -> bool
    requires low { (at < 4) × ((at.now ≡ (4)) × (at < 5)) }
    ensures low { result ≡ true }
{
    Some(at).called(at)
}
";

const TOP: &str = "\
use low::within;
use low::deep::within_both;

pub fn first(at: usize) { within(at, at + 1) }

fn second(at: usize) {
    io::called(at);
    low::passed_on(at)
}

fn through_a_module(at: usize) {
    deeper::own(at)
}

#[unsafe(no_mangle)]
pub extern \"C\" fn third(at: u32) { own(within_both(at)) }

fn own(at: bool)
    requires { at < 2 }
{}
";

const KINDS: &str = "\
# The kinds.
nothing: top

an index is low
    _ < _

it is sound
    sound _ ≡ true
    at.now ≡ _
";

fn tree(test: &str, top: &str) -> Tree {
    let root = std::env::temp_dir().join(format!("asked_{}_{test}", std::process::id()));
    let files = [("crates/low/src/lib.rt", LOW), ("crates/low/src/deep.rt", DEEP), ("crates/top/src/lib.rt", top)];
    for (path, text) in files.iter().chain(&[("crates.txt", "low:\ntop: low\n"), ("docs/PROMISES.md", "")]) {
        create_dir_all(root.join(path).parent().unwrap()).unwrap();
        write(root.join(path), text).unwrap();
    }
    let found = Tree::read(&root);
    remove_dir_all(&root).unwrap();
    found
}

fn names(tree: &Tree, places: &BTreeSet<Place>) -> Vec<String> {
    places.iter().map(|&place| function(tree, place).name.clone()).collect()
}

#[test]
fn who_asks_and_who_shows() {
    let tree = tree("rows", TOP);
    let asked = Asked::read("kinds", KINDS);
    let rows = asked.rows(&tree);
    assert_eq!(rows.iter().map(|row| row.what).collect::<Vec<_>>(), ["an index is low", "it is sound"]);
    assert_eq!(names(&tree, &rows[0].asking), ["within_both", "within", "passed_on", "own"]);
    assert_eq!(names(&tree, &rows[0].showing), ["called", "first", "second", "through_a_module", "third"]);
    assert_eq!(names(&tree, &rows[1].asking), ["within_both", "passed_on"]);
    assert_eq!(names(&tree, &rows[1].showing), ["within", "called", "second", "third"]);
    assert_eq!(names(&tree, &asked.face(&tree)), ["first", "third"]);
    assert!(asked.wrong(&tree).is_empty());
}

#[test]
fn a_clause_of_no_form_and_a_form_of_no_clause() {
    let tree = tree("forms", TOP);
    let wrong = Asked::read("kinds", "nothing: top\nlow\n    at < _\nnever\n    at ≡ _\n").wrong(&tree);
    let expected = [
        "low/src/deep.rt: within_both: no plain words for at .now ≡ ( 4 )",
        "low/src/lib.rt: passed_on: no plain words for sound at ≡ true",
        "kinds:5: no function asks this",
    ];
    assert_eq!(wrong, expected);
}

#[test]
fn public_functions_that_ask() {
    let top = TOP.replace("(at: usize) { within", "(at: usize) requires { at < 1 } { within");
    let wrong = Asked::read("kinds", KINDS).wrong(&tree("public", &top));
    assert_eq!(wrong, ["top/src/lib.rt: first is public, and has a requires"]);
    let top = TOP.replace("(at: u32) {", "(at: u32) requires low { at < 1 } {");
    let wrong = Asked::read("kinds", &KINDS.replace("nothing: top\n", "")).wrong(&tree("exported", &top));
    assert_eq!(wrong, ["top/src/lib.rt: third is public, and has a requires"]);
}

#[test]
fn a_face_without_public_functions() {
    let wrong = Asked::read("kinds", &KINDS.replace("nothing: top", "nothing: top other")).wrong(&tree("face", TOP));
    assert_eq!(wrong, ["kinds: other has no public function"]);
}

#[test]
fn a_call_of_what_is_not_found() {
    let wrong = Asked::read("kinds", KINDS).wrong(&tree("lost", &TOP.replace("use low::within;\n", "")));
    assert_eq!(wrong, ["top/src/lib.rt: first calls within, which is not found"]);
}

#[test]
fn parts_of_a_clause() {
    let parts = |text: &str| clauses(&tokens("test", text, 1)).iter().map(|part| part.join(" ")).collect::<Vec<_>>();
    assert_eq!(parts(" a ≤ b "), ["a ≤ b"]);
    assert_eq!(parts("(a < b) × ((c ≡ (d × e)) × (r.few))"), ["a < b", "c ≡ ( d × e )", "r .few"]);
    assert_eq!(parts("((k : ℕ) → f k)"), ["( k : ℕ ) → f k"]);
    assert_eq!(parts("(a) < (b)"), ["( a ) < ( b )"]);
}

#[test]
fn forms() {
    let fits = |form: &str, clause: &str| {
        let words = |text: &str| clauses(&tokens("test", text, 1)).remove(0);
        fits(&words(form), &words(clause))
    };
    assert!(fits("_ ≤ length _.now", "at + 4 * n ≤ length out.now"));
    assert!(!fits("_ ≤ length _.now", "at ≤ length out.now / 6"));
    assert!(!fits("_ ≤ length _.now", "at ≤ length a.now + f (b)"));
    assert!(fits("_ ≤ length _.now / 6", "at ≤ length out.now / 6"));
    assert!(!fits("_ ≤ length (now _)", "at ≤ length (now a) + f (b)"));
    assert!(fits("f _", "f (x) {y}.z") && !fits("f _", "f"));
    assert!(fits("choice.cost < _", "choice.cost < 3") && !fits("choice.cost < _", "choice cost < 3"));
}

#[test]
#[should_panic(expected = "kinds:2: nothing says what this asks")]
fn a_form_before_its_words() {
    Asked::read("kinds", "nothing: top\n    a < b\n");
}
