// Which items a file has, in blocks too, and what is not passed over.

use crate::items::{items, Item};
use crate::tokens::{tokens, Token};

fn read(text: &str) -> Vec<Item> {
    items("Test.antt", &tokens("Test.antt", text, 1))
}

fn names(items: &[Item]) -> Vec<&str> {
    items.iter().map(|item| item.name.as_str()).collect()
}

fn texts(tokens: &[Token]) -> Vec<&str> {
    tokens.iter().map(|token| token.text.as_str()).collect()
}

const MUTUAL: &str = "\
first : t
first = x

unfoldable mutual
  unfolding u v
  pub even : ℕ → Bool
  even zero = true
  even (suc n) = odd n

  odd : ℕ → Bool
  unfolding w
  odd n = even n

last : t
last = y
";

#[test]
fn mutual_blocks() {
    let found = read(MUTUAL);
    assert_eq!(names(&found), ["first", "even", "odd", "last"]);
    assert_eq!(found.iter().map(|item| item.public).collect::<Vec<_>>(), [false, true, false, false]);
    assert_eq!(found.iter().map(|item| item.clauses.len()).collect::<Vec<_>>(), [1, 2, 1, 1]);
    assert_eq!(texts(&found[1].unfolding), ["u", "v"]);
    assert_eq!(texts(&found[2].unfolding), ["w", "u", "v"]);
}

const TYPES: &str = "\
module _ (a : p) where
  mutual
    pub data D : Type 0 where
      one two : E → D

    data E : Type 0 where
      three : D → E

  f : q
  f = a
";

#[test]
fn mutual_types_inside_a_block() {
    let found = read(TYPES);
    assert_eq!(names(&found), ["D", "E", "f"]);
    assert_eq!(found[0].members.iter().map(|member| member.name.as_str()).collect::<Vec<_>>(), ["one", "two"]);
    assert!(found.iter().all(|item| texts(&item.parameters) == ["(", "a", ":", "p", ")"]));
}

const BLOCKS: &str = "\
f : t

module _ (a : p)
    (b : q) where
  g : t

  module _ (c : r) where
    h : t

  mutual
    i : t

j : t
";

#[test]
fn lines_of_the_blocks_around() {
    let found = read(BLOCKS);
    assert_eq!(names(&found), ["f", "g", "h", "i", "j"]);
    assert_eq!(found.iter().map(|item| item.lines_around).collect::<Vec<_>>(), [0, 2, 3, 2, 0]);
}

#[test]
fn a_name_in_a_comment_is_no_item() {
    assert_eq!(names(&read("f : t\nf = x\n{-\ng : t\ng = f\n-}\nh : t\nh = y\n")), ["f", "h"]);
}

#[test]
fn clauses_of_operators() {
    let found = read("◌+◌ : ℕ → ℕ → ℕ\nzero + n = n\n◌+◌ (suc m) n = suc (m + n)\n\nelims : t\nelims = elim n [\n  a ↦ b\n]\n");
    assert_eq!(names(&found), ["◌+◌", "elims"]);
    assert_eq!(texts(&found[0].clauses[0].patterns), ["zero", "+", "n"]);
    assert_eq!(texts(&found[0].clauses[1].patterns), ["(", "suc", "m", ")", "n"]);
}

#[test]
#[should_panic(expected = "Test.antt:3: opaque begins neither an item nor a clause of the item before it")]
fn an_unknown_mark() {
    read("f : t\nf = x\nopaque g : t\ng = y\n");
}

#[test]
#[should_panic(expected = "Test.antt:3: opaque begins neither")]
fn an_unknown_mark_behind_an_operator() {
    read("◌+◌ : t\n◌+◌ = x\nopaque g : (n : ℕ) → n + 0 ≡ n\ng n = refl\n");
}

#[test]
#[should_panic(expected = "Test.antt:3: f begins neither")]
fn a_name_for_a_mark() {
    read("f : t\nf = x\nf g : t\n");
}

#[test]
#[should_panic(expected = "Test.antt:4: g begins neither")]
fn a_clause_of_another_item() {
    read("g : t\nf : t\nf = x\ng = y\n");
}

#[test]
#[should_panic(expected = "Test.antt:5: opaque begins neither")]
fn an_unknown_mark_among_locals() {
    read("f : t\nf = g\n  where\n    -- why\n    opaque g : t\n");
}

#[test]
fn clauses_of_a_name_that_an_operator_is_in() {
    assert_eq!(names(&read("a_b : ℕ → ℕ\na_b zero = zero\na_b (suc n) = n\n\nb : t\nb = a_b\n")), ["a_b", "b"]);
}

#[test]
#[should_panic(expected = "Test.antt:3: a begins neither")]
fn a_part_of_a_name_is_no_operator() {
    read("a_b : t\na_b = x\na = y\n");
}

#[test]
fn names_opened() {
    let found = read("f : t\nopen R f use {x, y as z}\n");
    assert_eq!(names(&found), ["f", "x", "z"]);
    assert_eq!(texts(&found[2].signature), ["R", "f"]);
}

#[test]
#[should_panic(expected = "Test.antt:2: open begins neither")]
fn names_opened_in_another_way() {
    read("f : t\nopen R f using (x)\n");
}

#[test]
fn rule_sets() {
    let found = read("f : t\nf = x\n\npub ruleset laws = (f, ← g, others)\n");
    assert_eq!(names(&found), ["f", "laws"]);
    assert_eq!(texts(&found[1].clauses[0].body), ["(", "f", ",", "←", "g", ",", "others", ")"]);
    assert!(found[1].public);
}

#[test]
#[should_panic(expected = "Test.antt:1: ruleset begins neither")]
fn a_rule_set_of_another_form() {
    read("ruleset laws where f g\n");
}

#[test]
#[should_panic(expected = "Test.antt:3: deriving begins neither")]
fn what_a_type_derives() {
    read("data D : Type 0 where\n  one : D\n  deriving IsSet as D-set\n");
}
