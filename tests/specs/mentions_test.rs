// Which names of a text are mentioned, and which are bound by it.

use crate::items::items;
use crate::mentions::of_item;
use crate::tokens::tokens;

/// The names mentioned by the one item of a text; `Some` and `Pair` are constructors.
fn mentioned(text: &str) -> Vec<String> {
    let found = items("Test.antt", &tokens("Test.antt", text, 1));
    assert_eq!(found.len(), 1);
    let whole = of_item(&found[0], &|name| name == "Some" || name == "Pair").whole;
    let mut names: Vec<String> = whole.into_iter().map(|mention| mention.path.join(".")).collect();
    names.sort();
    names.dedup();
    names.retain(|name| !["→", ":", "ℕ", "record"].contains(&name.as_str()));
    names
}

#[test]
fn binders_of_a_type() {
    assert_eq!(mentioned("f : (a b : ℕ) {c : P a} → q b → r\nf a b = s"), ["P", "q", "r", "s"]);
    assert_eq!(mentioned("f : ((a : ℕ) → p a) → a"), ["a", "p"]);
}

#[test]
fn patterns() {
    assert_eq!(mentioned("f : t\nf a (Some b) = g a b"), ["Some", "g", "t"]);
    assert_eq!(mentioned("f : t\nf (other b) {c = d} = g b c d"), ["c", "g", "other", "t"]);
    assert_eq!(mentioned("f : t\nf (M.one a) = a\nf b = a"), ["M.one", "a", "t"]);
}

#[test]
fn terms() {
    assert_eq!(mentioned("f : t\nf = (λ a (b : p). g a b, a)"), ["a", "g", "p", "t"]);
    assert_eq!(mentioned("f : t\nf = let a : (b : p) → q = b in g a b"), ["b", "g", "p", "q", "t"]);
    assert_eq!(mentioned("f : t\nf = let a = λ b. b in a b"), ["b", "t"]);
    assert_eq!(mentioned("f : t\nf = record { a = b; c = λ d. d.e }"), ["b", "t"]);
    assert_eq!(mentioned("f : t\nf = (g {a = b}).c -- d"), ["b", "g", "t"]);
    assert_eq!(mentioned("f : t\nf = g.c (h a).b"), ["a", "g.c", "h", "t"]);
}

#[test]
fn cases() {
    assert_eq!(
        mentioned("f : t\nf = elim g as (λ a. p a) [ Some b ↦ h b | c ↦ c b ] c"),
        ["Some", "as", "b", "c", "elim", "g", "h", "p", "t"]
    );
    let text = "f : t\nf = elim g [ Some b ↦ elim b [ (a, Some c) ↦ c b | a → d ↦ a d ] | e ∷ c ↦ e c b ] d";
    assert_eq!(mentioned(text), ["Some", "b", "d", "elim", "g", "t"]);
    assert_eq!(mentioned("f : t\nf = (elim g [ ], λ a. elim a [ other b ↦ b ], a)"), ["a", "elim", "g", "other", "t"]);
    assert_eq!(mentioned("f : t\nf = elim g [\n  | other b ↦ b\n  | c ↦ c\n  ]"), ["elim", "g", "other", "t"]);
}

#[test]
fn locals() {
    let text = "f : t\nunfolding u\nf a = g a\n  where\n    g : p\n    g b = h b a\n      where\n        h : q\n        h = g\n";
    assert_eq!(mentioned(text), ["p", "q", "t", "u"]);
}

#[test]
fn blocks() {
    let text = "module _ (a : p)\n    (b : q) where\n  -- why\n  pub f : r a\n  f c = (\n    s b c,\n  )\n";
    assert_eq!(mentioned(text), ["p", "q", "r", "s"]);
    let text = "f : t\nf = record {\n  a = b;\n}\n\ng : t\ng = f\n";
    let found = items("Test.antt", &tokens("Test.antt", text, 1));
    assert_eq!(found.iter().map(|item| (item.first_line, item.last_line)).collect::<Vec<_>>(), [(1, 4), (6, 7)]);
}
