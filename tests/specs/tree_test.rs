// A small tree of two crates: what its items are, what is reached, and which imports are idle; and trees that cannot be read.

use crate::kinds::Kinds;
use crate::reach::{closure, contracts, ends, promises};
use crate::tree::Tree;
use std::fs::{create_dir_all, remove_dir_all, remove_file, write};
use std::panic::{catch_unwind, resume_unwind};
use std::path::Path;

const BASE: &str = "\
-- Numbers.
use Rattle.std.specs.Prelude.{◌≡◌, refl, List, []}
use Prim.Native.Nat.{ℕ, suc, ◌<◌}

pub record Couple : Type 0 where
  pub left : ℕ
  pub right : List ℕ

pub record Below (n m : ℕ) : Type 0 where
  pub less : n < m

pub data Step : Type 0 where
  up : ℕ → Step
  stay : Step

abbrev pub Numbers : Type 0
Numbers = ℕ → ℕ

pub twice : Numbers
twice n = n

pub couple : {S : Type 0} → S → Couple × S
couple s = (record { left = 0; right = [] }, s)

pub below : (n : ℕ) → Below n (suc n)
below n = record { less = less n }
  where
    less : (n : ℕ) → n < suc n
    less n = twice

pub some_below : (n : ℕ) × (n < 1)
some_below = (0, (below 0).less)

module _ (couple : ℕ) where
  pub moved : Step → ℕ
  moved (up twice) = couple
  moved stay = 0
";

const TOP: &str = "\
-- Uses of numbers.
use Rattle.low.specs.Base.{Step, up as upward, below}
use Rattle.low.specs.Base as base
use Rattle.low.specs.declared.Kind.TheVariants.{Plain}

alone : Step
alone = upward 1

plain : Kind → Step
plain Plain = base.moved

pub promised : base.Couple
promised = alone
";

const SOURCE: &str = "\
ghost use Rattle.low.specs.Base.{moved, twice};

pub fn step(
    twice: u32,
) -> u32
    ensures named { result ≡ moved twice }
{
    twice
}
";

const PROOF: &str =
    "use Rattle.low.specs.Base.{below, some_below}\n\npub returns : goal.returns\nreturns c = some_below c.args\n";
const PROMISED: &str = "The `low` crate; `promised` and `twice x` (high/Top), `some::below`.\n";

const LAWS: &str = "\
-- What holds of numbers.
use Rattle.low.specs.Base.{twice}
use Rattle.high.proofs.TopLaws.{law}

pub twice_law : (n : ℕ) → twice n ≡ n
twice_law n = law n
";

const FILES: [(&str, &str); 6] = [
    ("crates.txt", "# the crates\nlow:\nhigh staticlib: low\n"),
    ("docs/PROMISES.md", PROMISED),
    ("crates/low/specs/Base.antt", BASE),
    ("crates/low/src/lib.rt", SOURCE),
    ("crates/low/proofs/step/Answers.antt", PROOF),
    ("crates/high/specs/Top.antt", TOP),
];

/// The tree of the two crates, after a change; each test writes it for itself.
fn changed(test: &str, change: impl FnOnce(&Path)) -> Tree {
    let root = std::env::temp_dir().join(format!("specs_{}_{test}", std::process::id()));
    for (path, text) in FILES {
        create_dir_all(root.join(path).parent().unwrap()).unwrap();
        write(root.join(path), text).unwrap();
    }
    change(&root);
    let found = catch_unwind(|| Tree::read(&root));
    remove_dir_all(&root).unwrap();
    found.unwrap_or_else(|panic| resume_unwind(panic))
}

fn tree(test: &str) -> Tree {
    changed(test, |_| ())
}

fn names(tree: &Tree, entries: impl IntoIterator<Item = usize>) -> Vec<&str> {
    entries.into_iter().map(|entry| tree.entries[entry].item.name.as_str()).collect()
}

#[test]
fn definitions_and_laws() {
    let tree = tree("kinds");
    let kinds = Kinds::new(&tree);
    let laws = (0..tree.entries.len()).filter(|&entry| !kinds.is_definition(entry));
    assert_eq!(names(&tree, laws), ["below", "some_below"]);
    assert!(kinds.unknown.take().is_empty());
}

#[test]
fn what_is_reached() {
    let tree = tree("reach");
    assert_eq!(names(&tree, promises(&tree)), ["twice", "promised"]);
    assert_eq!(names(&tree, ends(&tree)), ["twice", "some_below", "moved", "promised"]);
    let reached = closure(&ends(&tree), |entry| &tree.entries[entry].whole);
    let unreached = (0..tree.entries.len()).filter(|entry| !reached.contains(entry));
    assert_eq!(names(&tree, unreached), ["couple", "plain"]);
}

#[test]
fn idle_imports() {
    let tree = tree("imports");
    let mut idle = Vec::new();
    for user in &tree.users {
        let unused = user.imports.iter().zip(&user.mentioned).filter(|(_, mentioned)| !**mentioned);
        idle.extend(unused.map(|(import, _)| format!("{}:{}: {}", user.path, import.line, import.local)));
    }
    let expected = [
        "low/specs/Base.antt:2: ◌≡◌",
        "low/specs/Base.antt:2: refl",
        "high/specs/Top.antt:2: below",
        "low/proofs/step/Answers.antt:1: below",
        "low/src/lib.rt:1: twice",
    ];
    assert_eq!(idle, expected);
}

/// What a page of promises names, in a tree where both crates have a `twice`.
fn promised(test: &str, page: &str) -> Vec<String> {
    let tree = changed(test, |root| {
        write(root.join("docs/PROMISES.md"), page).unwrap();
        write(root.join("crates/high/specs/Top.antt"), "pub twice : t\ntwice = x\n\npub step : t\nstep = x\n").unwrap();
    });
    let shown = |entry: usize| {
        let module = &tree.modules[tree.entries[entry].module];
        format!("{}/{} {}", module.crate_name, module.name, tree.entries[entry].item.name)
    };
    promises(&tree).into_iter().map(shown).collect()
}

#[test]
fn a_place_settles_a_name() {
    assert_eq!(promised("both", "`twice`\n"), ["low/Base twice", "high/Top twice"]);
    assert_eq!(promised("there", "`twice` (high/Top)\n"), ["high/Top twice"]);
    assert_eq!(promised("alone", "`twice` (Base)\n"), ["low/Base twice"]);
    assert_eq!(promised("about", "Crate `high`:\n\n| `twice` (Top) |\n"), ["high/Top twice"]);
    assert_eq!(promised("item", "`step`\n"), ["high/Top step"]);
    assert!(promised("code", "`step` (low)\n").is_empty());
    assert!(promised("file", "`step` (low::lib)\n").is_empty());
    assert_eq!(promised("crate", "`twice` (high)\n"), ["high/Top twice"]);
}

#[test]
fn a_crate_alone_means_its_code() {
    let of = |test: &str, page: &str| {
        let tree = changed(test, |root| {
            write(root.join("crates/low/src/lib.rt"), SOURCE.replace("fn step", "fn twice")).unwrap();
            write(root.join("docs/PROMISES.md"), page).unwrap();
        });
        promises(&tree).len()
    };
    assert_eq!(of("own_code", "`twice` (low)\n"), 0);
    assert_eq!(of("own_file", "`twice` (low/Base)\n"), 1);
    assert_eq!(of("own_both", "`twice` (low, low/Base)\n"), 1);
}

#[test]
fn worked_examples_are_told_by_their_first_line() {
    let reached = |test: &str, first_line: &str| {
        let text = format!("{first_line}\nexample : t\nexample = x\n");
        let tree = changed(test, |root| write(root.join("crates/high/specs/Examples.antt"), text).unwrap());
        names(&tree, ends(&tree)).contains(&"example")
    };
    assert!(reached("examples", "-- Worked examples: one."));
    assert!(!reached("no_examples", "-- Examples: one."));
}

#[test]
fn a_contract_beside_its_function_and_a_comment() {
    let source = "ghost use Rattle.low.specs.Base.{moved, twice, couple};\n// ensures { couple }\n\
                  pub fn step(x: u32) -> u32 ensures { moved result } { x } // twice\n";
    let tree = changed("contract", |root| {
        write(root.join("crates/low/src/lib.rt"), source).unwrap();
        write(root.join("docs/PROMISES.md"), "").unwrap();
    });
    assert_eq!(names(&tree, ends(&tree)), ["some_below", "moved"]);
}

#[test]
fn what_attributes_name_is_reached_and_not_believed() {
    let hint = "#[tactic(auto, using(crate::specs::Base::couple))]\npub fn step";
    let tree = changed("hint", |root| write(root.join("crates/low/src/lib.rt"), SOURCE.replace("pub fn step", hint)).unwrap());
    assert!(names(&tree, ends(&tree)).contains(&"couple"));
    assert_eq!(names(&tree, contracts(&tree, false)), ["moved"]);
}

#[test]
fn laws_in_the_folder_of_proofs() {
    let with_laws = |root: &Path| {
        write(root.join("crates/low/proofs/BaseLaws.antt"), LAWS).unwrap();
        write(root.join("crates/low/proofs/Lib.antt"), "pub mod BaseLaws\n").unwrap();
        write(root.join("crates/low/specs/Lib.antt"), "pub mod Base\n").unwrap();
        create_dir_all(root.join("crates/high/proofs")).unwrap();
        write(root.join("crates/high/proofs/TopLaws.antt"), "pub law : (n : ℕ) → n ≡ n\nlaw n = refl\n").unwrap();
        write(root.join("docs/PROMISES.md"), "`twice_law` (low/BaseLaws)\n").unwrap();
    };
    let tree = changed("laws", with_laws);
    assert_eq!(names(&tree, promises(&tree)), ["twice_law"]);
    let reached = closure(&promises(&tree), |entry| &tree.entries[entry].whole);
    assert_eq!(names(&tree, reached), ["Numbers", "twice", "twice_law", "law"]);
    assert!(!names(&tree, tree.proved_with.iter().copied()).contains(&"law"));
    let law = names(&tree, 0..tree.entries.len()).iter().position(|name| *name == "twice_law").unwrap();
    assert_eq!(tree.modules[tree.entries[law].module].path, "low/proofs/BaseLaws.antt");
    assert!(!Kinds::new(&tree).is_definition(law));
}

#[test]
#[should_panic(expected = "low/proofs/Base.antt: the crate has another file of this name")]
fn a_file_of_one_name_in_both_folders() {
    changed("one_name", |root| write(root.join("crates/low/proofs/Base.antt"), "law : t\nlaw = x\n").unwrap());
}

#[test]
#[should_panic(expected = "crates.txt: No such file")]
fn no_list_of_crates() {
    changed("no_list", |root| remove_file(root.join("crates.txt")).unwrap());
}

#[test]
#[should_panic(expected = "crates: No such file")]
fn no_crates() {
    changed("no_crates", |root| remove_dir_all(root.join("crates")).unwrap());
}

#[test]
#[should_panic(expected = "crates.txt: there is no folder crates/high")]
fn a_crate_without_a_folder() {
    changed("no_folder", |root| remove_dir_all(root.join("crates/high")).unwrap());
}

#[test]
#[should_panic(expected = "docs/PROMISES.md: No such file")]
fn no_promises() {
    changed("no_promises", |root| remove_file(root.join("docs/PROMISES.md")).unwrap());
}

#[test]
#[should_panic(expected = "high/specs/Top.antt: stream did not contain valid UTF-8")]
fn a_specification_that_is_no_text() {
    changed("no_text", |root| write(root.join("crates/high/specs/Top.antt"), b"alone : t\n\xff").unwrap());
}

#[test]
#[should_panic(expected = "low/src/lib.rt: stream did not contain valid UTF-8")]
fn a_source_that_is_no_text() {
    changed("no_source", |root| write(root.join("crates/low/src/lib.rt"), b"fn one() {}\n\xff").unwrap());
}

#[test]
#[should_panic(expected = "low/proofs/step/Answers.antt: No such file")]
fn a_proof_that_is_elsewhere() {
    changed("no_proof", |root| {
        let path = root.join("crates/low/proofs/step/Answers.antt");
        remove_file(&path).unwrap();
        std::os::unix::fs::symlink("nowhere", path).unwrap();
    });
}
