// The names of what calls with a neighbour list reach, for the counts of a run: how far the list that is lent is from the table's, what is
// odd about a table that is written to, and what becomes of the numbers that name the written slot.

use crate::input::{Call, Input};
use crate::lists::right_list;
use reference::listed::NO_NEIGHBOUR;
use reference::table::{read_slots, Rule, SHAPE};

/// Of a success: the list was that of the table, or was worked out afresh. Of any other answer: it stays as it was.
const RIGHT: &str = "right list";
const REFRESHED: &str = "refreshed list";
const KEPT: &str = "list kept";

pub fn of_list(refreshed: Option<bool>) -> &'static str {
    match refreshed {
        Some(true) => REFRESHED,
        Some(false) => RIGHT,
        None => KEPT,
    }
}

pub fn with_list(kind: &str, refreshed: Option<bool>) -> String {
    format!("{kind}, {}", of_list(refreshed))
}

/// Of a list that is worked out afresh: one number was another, and that the first or the last; several were; it is right if the flag is
/// the other one.
const ONE_NUMBER: &str = "list off by one number";
const FIRST_NUMBER: &str = "list off by the first number";
const LAST_NUMBER: &str = "list off by the last number";
const SEVERAL_NUMBERS: &str = "list off by several numbers";
const OTHER_FLAG: &str = "list of the other flag";

const STALE: [&str; 5] = [ONE_NUMBER, FIRST_NUMBER, LAST_NUMBER, SEVERAL_NUMBERS, OTHER_FLAG];

/// Those that hold of the list that an input lends, whose length is right.
pub fn stale_kinds(input: &Input) -> Vec<&'static str> {
    let (Some(list), Some(right)) = (&input.list, right_list(input)) else { return Vec::new() };
    let off: Vec<usize> = (0..right.len()).filter(|&place| list[place] != right[place]).collect();
    let other_flag = Input { uncounted: u32::from(!input.is_uncounted()), ..input.clone() };
    let holds = [
        (ONE_NUMBER, off.len() == 1),
        (FIRST_NUMBER, off == [0]),
        (LAST_NUMBER, off == [right.len() - 1]),
        (SEVERAL_NUMBERS, off.len() > 1),
        (OTHER_FLAG, !off.is_empty() && right_list(&other_flag).as_ref() == Some(list)),
    ];
    holds.into_iter().filter(|(_, holds)| *holds).map(|(kind, _)| kind).collect()
}

/// Of a table that is written to, which planning would decline or which is half-way through a plan.
const TWICE: &str = "listed, an id twice";
const THRICE: &str = "listed, an id three times";
const UNEQUAL: &str = "listed, unequal copies";
const TIED: &str = "listed, tied rules";
const DISORDERED: &str = "listed, lower rank before";

const TABLES: [&str; 5] = [TWICE, THRICE, UNEQUAL, TIED, DISORDERED];

/// Tables of more slots than this are not looked at for that.
const LOOKED_AT_MOST: usize = 64;

pub fn table_kinds(input: &Input) -> Vec<&'static str> {
    let slots = read_slots(&input.table, input.width).expect("a written table passes checks 1 and 2");
    let rules: Vec<Rule> = slots.into_iter().flatten().collect();
    if rules.len() > LOOKED_AT_MOST {
        return Vec::new();
    }
    let any_pair = |test: &dyn Fn(&Rule, &Rule) -> bool| {
        rules.iter().enumerate().any(|(place, earlier)| rules[place + 1..].iter().any(|later| test(earlier, later)))
    };
    let times = |rule: &Rule| rules.iter().filter(|other| other.id == rule.id).count();
    let is_ordered = |one: &Rule, other: &Rule| one.id != other.id && one.is_ordered_with(other, input.is_uncounted());
    let holds = [
        (TWICE, any_pair(&|one, other| one.id == other.id)),
        (THRICE, rules.iter().any(|rule| times(rule) > 2)),
        (
            UNEQUAL,
            any_pair(&|one, other| {
                one.id == other.id && one.is_ordered_with(other, input.is_uncounted()) && one.rank != other.rank
            }),
        ),
        (TIED, any_pair(&|one, other| is_ordered(one, other) && one.rank == other.rank)),
        (DISORDERED, any_pair(&|one, other| is_ordered(one, other) && one.rank < other.rank)),
    ];
    holds.into_iter().filter(|(_, holds)| *holds).map(|(kind, _)| kind).collect()
}

/// A number of another slot than the written one changes: of a slot before it and of one after it.
const CHANGED: [&str; 2] = ["dependant changes", "preceding changes"];

/// What becomes of such a number, which is, or was, the written slot.
const CHANGES: [[&str; 4]; 2] = [
    [
        "dependant written, none before",
        "dependant written, one further on before",
        "dependant gone, none left",
        "dependant gone, one further on",
    ],
    [
        "preceding written, none before",
        "preceding written, one further on before",
        "preceding gone, none left",
        "preceding gone, one further on",
    ],
];

/// Those that a write to a slot has made, from the lists of the table before and after it.
pub fn change_kinds(before: &[u16], after: &[u16], written: usize) -> Vec<&'static str> {
    let mut kinds = Vec::new();
    for place in (0..before.len()).filter(|place| place / 2 != written && before[*place] != after[*place]) {
        let became = after[place] as usize == written;
        let other = if became { before[place] } else { after[place] };
        kinds.push(CHANGED[place % 2]);
        kinds.push(CHANGES[place % 2][2 * usize::from(!became) + usize::from(other != NO_NEIGHBOUR)]);
    }
    kinds
}

/// The name of a refusal for the length of the list alone, by whether it is too short or too long.
pub fn list_misfit(wanted: usize, numbers: usize) -> String {
    let how = match numbers {
        0 => "none",
        _ if numbers + 1 == wanted => "one less",
        _ if numbers == wanted + 1 => "one more",
        _ if numbers < wanted => "less",
        _ => "more",
    };
    format!("{SHAPE} list numbers, {how}")
}

/// What every run must reach of calls with a list.
pub fn wanted_of_lists() -> Vec<(Call, String)> {
    let mut wanted = Vec::new();
    let success =
        [(Call::PlanInsert, &["one write", "down", "up", "replacement"][..]), (Call::CarryOut, &["copied", "put in", "emptied"])];
    for (call, kinds) in success {
        for kind in kinds.iter().flat_map(|kind| [false, true].map(|refreshed| with_list(kind, Some(refreshed)))) {
            wanted.extend([kind.clone(), format!("{kind}, uncounted")].map(|kind| (call, kind)));
        }
        wanted.extend([RIGHT, REFRESHED].map(|list| (call, format!("{list}, large"))));
        wanted.extend(STALE.map(|kind| (call, kind.to_string())));
        wanted.extend(["none", "one less", "one more", "less", "more"].map(|how| (call, format!("{SHAPE} list numbers, {how}"))));
    }
    for kind in ["1", "2", "3", "4", "5", "18", "6", "8", "9", "10", "11"] {
        wanted.push((Call::PlanInsert, with_list(kind, None)));
    }
    for kind in ["1", "2", "5", "18", "12", "finished"] {
        wanted.push((Call::CarryOut, with_list(kind, None)));
    }
    wanted.extend(TABLES.iter().chain(CHANGES.iter().flatten()).map(|kind| (Call::CarryOut, kind.to_string())));
    wanted.extend(CHANGED.map(|kind| (Call::CarryOut, format!("{kind}, large"))));
    wanted
}
