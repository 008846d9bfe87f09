// The names of a page, and the places that it gives for them.

use crate::promises::{groups, Place};

/// The names of each group, with the places of the first: as crates/module.
fn read(page: &str) -> Vec<(String, String)> {
    let crates = ["low", "high", "top"].map(String::from);
    let shown = |place: &Place| format!("{}/{}", place.crates.join("+"), place.module.as_deref().unwrap_or_default());
    let row = |group: crate::promises::Group| {
        let names: Vec<&str> = group.quoted.iter().filter_map(|quoted| quoted.name.as_deref()).collect();
        (names.join(" "), group.quoted[0].places.iter().map(shown).collect::<Vec<_>>().join(" "))
    };
    groups(page, &crates).into_iter().map(row).collect()
}

fn pairs(expected: &[(&str, &str)]) -> Vec<(String, String)> {
    expected.iter().map(|(names, places)| (names.to_string(), places.to_string())).collect()
}

#[test]
fn places_behind_names() {
    let page = "| `a`, `b x` and `c` (low/Base, Order) | `d`; `e` (high); `f` (A + 1), `g` (low::file) |";
    let row = [("a b c", "low/Base low/Order"), ("d", ""), ("e", "high/"), ("f", ""), ("g", "low/file")];
    assert_eq!(read(page), pairs(&row));
}

#[test]
fn places_further_on() {
    let page = "By `a` (`b`, low/Base), and `c`, `d`: so\nmuch (high/Top, Under) for\n`e`\n(top/Most), not (so) much.\n\n\
                `f` (A + 1) is (low/Base)\n";
    let rows = [("a", ""), ("b", "low/Base"), ("c d", "high/Top high/Under"), ("e", "top/Most"), ("f", "low/Base")];
    assert_eq!(read(page), pairs(&rows));
}

#[test]
fn the_crates_that_a_section_or_a_row_is_about() {
    let page = "\
## One
Crate `low`, with `Order.Laws`:
as `top`.

| `a` (Base) | `b` (high/Top) |
| `c` (Base) | |

## Two
| `d` (Base) | |
| `e` (Base) | `f` (high) |
";
    let rows = [
        ("low", ""),
        ("Laws", "low+top/Order"),
        ("top", ""),
        ("a", "low+top+high/Base"),
        ("b", "high/Top"),
        ("c", "low+top/Base"),
        ("d", "/Base"),
        ("e", "high/Base"),
        ("f", "high/"),
    ];
    assert_eq!(read(page), pairs(&rows));
}

#[test]
fn fields_and_paths() {
    let found = groups("- `Demand2.kept`, `.made`, `Order.Laws`, `low::Kind`, `docs/x`, `X.antt`, `x.antt`\n- `a`", &[]);
    let fields: Vec<Option<&str>> = found[0].quoted.iter().map(|quoted| quoted.field.as_deref()).collect();
    assert_eq!(fields, [Some("kept"), Some("made"), None, None, None, None, None]);
    let names: Vec<Option<&str>> = found[0].quoted.iter().map(|quoted| quoted.name.as_deref()).collect();
    assert_eq!(names, [Some("Demand2"), None, Some("Laws"), None, None, None, None]);
    assert_eq!((found.len(), found[1].quoted[0].line), (2, 2));
}

#[test]
#[should_panic(expected = "docs/PROMISES.md:1: a backtick that nothing closes")]
fn a_backtick_alone() {
    read("`a` and `b");
}
