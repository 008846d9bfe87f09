// Counts of what a run reached at each width: answers and refusals of each call, plan lengths and directions.
// A run that never reached one of the answers listed here, at one of the widths, has tested less than it says, and fails.
// A rule is named exact here where every mask bit is set; its rank under 1.0 is 65,536.
// An answer that a call gives because its table is told as uncounted, or as counted, is counted apart with that of the other.

use crate::actions::FLAGS;
use crate::alike::{alike, ANOTHER_MASK, ANOTHER_RANK, EQUAL};
use crate::covered::{self, COVERED, UNCOVERED};
use crate::exact::OTHER_EDITIONS;
use crate::input::{Call, Input};
use crate::largest::{LAST, LONG};
use crate::lists::right_list;
use crate::neighbours::{change_kinds, list_misfit, of_list, stale_kinds, table_kinds, wanted_of_lists, with_list};
use reference::bits::{Bits, WIDTHS};
use reference::carry::{fits, Carried};
use reference::given::{Given, EDITION_10, EDITION_13};
use reference::image::image_bytes;
use reference::listed::{list_numbers, ListedCarried, ListedPlan};
use reference::plan::{Planned, EMPTYING, PUT_IN};
use reference::table::{
    read_slots, record_words, rule_of, Refusal, Rule, CROSSED, EDITION, EXACT_RANK, FULL, IMAGE, KNOWN, ORDER, RECORD, RULE,
    SHAPE, SHORT, SLOTS_MOST, TIE, TWICE, UNKNOWN, WRITE,
};
use std::collections::BTreeMap;

/// Tables of more slots than this are counted apart too, since what a search does over many slots small tables don't reach.
const SMALL_MOST: usize = 64;

#[derive(Default)]
pub struct Tally {
    /// By call and answer, then by the width that the call was told.
    counts: BTreeMap<(Call, String), BTreeMap<usize, u64>>,
    /// Inputs by the width that they tell.
    inputs: BTreeMap<usize, u64>,
    /// The width told, the slots of the table that the input starts with, and whether one of them has rank 65,536.
    width: usize,
    slots: usize,
    holds_exact_rank: bool,
    /// Whether the table is told as an uncounted one.
    uncounted: bool,
    /// How many insert plans had 1, 2, 3 .. writes, and how long the longest was, at each width; the last place is for longer ones.
    lengths: BTreeMap<usize, [u64; 10]>,
    longest: BTreeMap<usize, usize>,
    pub lookups_between: u64,
}

/// Widths that no table has, beside the two that tables have; every call must be told each of them.
pub const OTHER_WIDTHS: [usize; 5] = [0, 1, 3, 4, 6];

/// What all calls that take a table refuse with 1.
const TABLE_WORDS: [&str; 3] = ["1 no words", "1 part of a slot", "1 too many slots"];

/// The answers and refusals that every run must reach at each of the two widths.
fn wanted() -> Vec<(Call, String)> {
    let mut wanted = Vec::new();
    let mut want = |call: Call, kinds: &[&str], numbers: &[u32]| {
        wanted.extend(kinds.iter().map(|kind| (call, kind.to_string())));
        wanted.extend(numbers.iter().map(|number| (call, format!("{number}"))));
    };
    for call in [Call::Lookup, Call::PlanInsert, Call::PlanDelete, Call::CarryOut, Call::Save, Call::Load] {
        want(call, &TABLE_WORDS, &[]);
    }
    let table = [RECORD, TWICE, ORDER];
    want(Call::Lookup, &["hit", "miss", "1 key words"], &[RECORD]);
    want(Call::SlotRecord, &["record", "empty part", "empty part, 1", "empty part, 2"], &[]);
    want(Call::PlanInsert, &["one write", "down", "up", "replacement"], &table);
    want(Call::PlanInsert, &["1 rule words"], &[RULE, EDITION, KNOWN, TIE, FULL, CROSSED, SHORT]);
    want(Call::PlanDelete, &["emptying"], &table);
    want(Call::PlanDelete, &[], &[RULE, UNKNOWN, SHORT]);
    want(Call::CarryOut, &["copied", "put in", "emptied", "finished"], &[RECORD, RULE, EDITION]);
    want(
        Call::CarryOut,
        &["1 rule words, copy", "1 rule words, put-in", "1 rule words, emptying", "1 rule words, finished"],
        &[],
    );
    want(Call::CarryOut, &["12 done > total", "12 total > words", "12 copy", "12 put-in", "12 emptying"], &[]);
    want(Call::Save, &["saved"], &table);
    want(Call::Save, &[], &[SHORT]);
    want(Call::Load, &["loaded", "14 at 0", "14 at 2", "14 at an id", "14 at a slot", "14 at an offset", "14 at a body"], &[]);
    want(Call::Load, &["14 at 2, the other width's length"], &[TWICE, ORDER]);
    wanted.extend(wanted_of_editions());
    wanted.extend(wanted_of_replacements());
    wanted.extend(wanted_of_covers());
    wanted.extend(wanted_of_uncounted());
    wanted.extend(wanted_of_large());
    wanted.extend(wanted_of_largest());
    wanted.extend(wanted_of_lists());
    wanted
}

/// The answers on tables that pass and have a rule of rank 65,536, which are counted apart too; of a load, the table that it leaves.
const HELD: [(Call, &[&str]); 7] = [
    (Call::Lookup, &["hit", "miss"]),
    (Call::SlotRecord, &["record", "empty part"]),
    (Call::PlanInsert, &["one write", "down", "up", "replacement", COVERED, UNCOVERED, "6", "8", "9", "10", "18"]),
    (Call::PlanDelete, &["emptying", "7"]),
    (Call::CarryOut, &["copied", "put in", "emptied", "finished"]),
    (Call::Save, &["saved"]),
    (Call::Load, &["loaded"]),
];

/// What every run must reach of ranks and editions.
fn wanted_of_editions() -> Vec<(Call, String)> {
    let mut wanted: Vec<(Call, String)> =
        HELD.iter().flat_map(|(call, kinds)| kinds.iter().map(|kind| (*call, held(kind)))).collect();
    let mut want = |call: Call, kinds: &[&str]| wanted.extend(kinds.iter().map(|kind| (call, kind.to_string())));
    for call in [Call::Lookup, Call::PlanInsert, Call::PlanDelete, Call::CarryOut, Call::Save] {
        want(call, &["2, 65,536 not exact", "2, 65,537 exact"]);
    }
    want(Call::Lookup, &["hit, rank 65,536"]);
    // no rule precedes one of rank 65,536: it is never crossed, and no plan for it goes up; one that it ties with is equal, and of another
    // action in an uncounted table
    want(Call::PlanInsert, &["one write, rank 65,536", "down, rank 65,536", "replacement, rank 65,536", "8, rank 65,536"]);
    for kind in ["one write", "down", "up", "replacement", "8"] {
        want(Call::PlanInsert, &[&exact_under_13(kind), &nearly_exact(kind)]);
    }
    want(Call::PlanInsert, &["5, 65,536 exact", "5, another edition", "18, id present"]);
    want(Call::CarryOut, &["put in, rank 65,536", "put in, exact under 13", "put in, nearly exact", "5, 65,536 exact"]);
    want(Call::CarryOut, &["5, another edition", "18, does not fit", "copied, another edition", "emptied, another edition"]);
    want(Call::CarryOut, &["finished, another edition", "12 copy, another edition"]);
    want(Call::Load, &["14 at a body, 65,536 not exact", "14 at a body, 65,537 exact"]);
    for call in [Call::PlanInsert, Call::CarryOut] {
        wanted.extend(OTHER_EDITIONS.map(|edition| (call, of_edition(edition))));
    }
    wanted
}

/// The answers that are counted apart too where the rule is equal to one of the table, or nearly so.
const ALIKE: [(Call, &str, &[&str]); 6] = [
    (Call::PlanInsert, EQUAL, &["6", "8", "11", "18"]),
    (Call::PlanInsert, ANOTHER_RANK, &["one write", "down", "up", "9", "10"]),
    (Call::PlanInsert, ANOTHER_MASK, &["8"]),
    (Call::CarryOut, EQUAL, &["put in", "emptied", "12 copy", "18"]),
    (Call::CarryOut, ANOTHER_RANK, &["12 put-in"]),
    (Call::CarryOut, ANOTHER_MASK, &["12 put-in"]),
];

/// What every run must reach of rules sent again, and of rules that are nearly equal to one of the table.
fn wanted_of_replacements() -> Vec<(Call, String)> {
    let mut wanted = vec![(Call::PlanInsert, full("replacement"))];
    for (call, like, kinds) in ALIKE {
        wanted.extend(kinds.iter().map(|kind| (call, with(kind, like))));
    }
    wanted.push((Call::CarryOut, ranked_highest(&with("put in", EQUAL))));
    wanted
}

/// What every run must reach of rules that another covers and of rules that none does: in plans of each kind, in tables of many slots
/// and of 1,024, and beside rules that a wrong comparison would name.
fn wanted_of_covers() -> Vec<(Call, String)> {
    let mut wanted: Vec<String> = covered::KINDS.map(str::to_string).to_vec();
    for kind in [COVERED, UNCOVERED] {
        wanted.extend([kind.to_string(), large(kind), exact_under_13(kind), nearly_exact(kind)]);
        wanted.extend(["one write", "down", "up", "replacement"].map(|plan| with(plan, kind)));
    }
    // no rank is above 65,536
    wanted.extend([last(COVERED), ranked_highest(UNCOVERED)]);
    wanted.into_iter().map(|kind| (Call::PlanInsert, kind)).collect()
}

/// The key's reply has another id than that of the highest-ranked match; or another than one write before, within a plan.
pub const OTHER_ID: &str = "another id of the action";
pub const ID_CHANGES: &str = "the id changes in a plan";

/// The answers to calls that are told of a table whether it is counted, which are counted apart too where it is not.
const TOLD: [(Call, &[&str]); 5] = [
    (Call::PlanInsert, &["2", "3", "4", "5", "18", "6", "8", "9", "10", "11", "one write", "down", "up", "replacement"]),
    (Call::PlanInsert, &[COVERED, UNCOVERED]),
    (Call::PlanDelete, &["2", "3", "4", "5", "7", "11", "emptying"]),
    (Call::Save, &["2", "3", "4", "11", "saved"]),
    (Call::Load, &["14 at 0", "14 at 2", "14 at an id", "14 at a slot", "14 at an offset", "14 at a body", "3", "4", "loaded"]),
];

/// The answers of an uncounted table beside those that a counted one of the same words would give, where they are others.
const NOT_COUNTED: [(Call, &str, &[&str]); 13] = [
    (Call::PlanInsert, "one write", &["4", "8", "10", "down", "up"]),
    (Call::PlanInsert, "down", &["4", "8", "10", "down"]),
    (Call::PlanInsert, "up", &["4", "8", "10", "up"]),
    (Call::PlanInsert, "replacement", &["4"]),
    (Call::PlanInsert, "6", &["4"]),
    (Call::PlanInsert, "8", &["4", "replacement"]),
    (Call::PlanInsert, "9", &["4", "8"]),
    (Call::PlanInsert, "10", &["4"]),
    (Call::PlanInsert, "11", &["4", "8", "11"]),
    (Call::PlanDelete, "emptying", &["4"]),
    (Call::PlanDelete, "7", &["4"]),
    (Call::Save, "saved", &["4"]),
    (Call::Load, "loaded", &["4"]),
];

/// What every run must reach of tables that are told as uncounted: all that counted ones reach, answers that the flag decides, told by
/// each of several numbers, and several equal rules. Of counted tables the same answers the other way about.
fn wanted_of_uncounted() -> Vec<(Call, String)> {
    let mut wanted = vec![(Call::Lookup, OTHER_ID.to_string()), (Call::Lookup, ID_CHANGES.to_string())];
    wanted.extend(TOLD.iter().flat_map(|(call, kinds)| kinds.iter().map(|kind| (*call, uncounted(kind)))));
    for (call, kind, others) in NOT_COUNTED {
        wanted.extend(others.iter().map(|other| (call, not_counted(kind, other))));
        wanted.extend(others.iter().map(|other| (call, not_uncounted(other, kind))));
    }
    for call in [Call::PlanInsert, Call::PlanDelete, Call::Save, Call::Load] {
        wanted.extend(FLAGS.map(|flag| (call, of_flag(flag))));
    }
    wanted.push((Call::PlanInsert, SEVERAL_EQUAL.to_string()));
    wanted.push((Call::PlanInsert, full(SEVERAL_EQUAL)));
    wanted
}

/// A rule is replaced, and another equal one of its action stays.
const SEVERAL_EQUAL: &str = "replacement, several equal";

/// The name of an answer on a table that is told as uncounted.
fn uncounted(kind: &str) -> String {
    format!("{kind}, uncounted")
}

/// The name of an answer of an uncounted table that is another if the table is counted, and of a counted one.
fn not_counted(kind: &str, counted: &str) -> String {
    format!("{kind}, counted {counted}")
}

fn not_uncounted(kind: &str, uncounted: &str) -> String {
    format!("{kind}, uncounted {uncounted}")
}

/// The name of what a call accepts by the number that its table is told to be uncounted by, and declines with 4 otherwise.
fn of_flag(flag: u32) -> String {
    format!("accepted by flag {flag:#x}")
}

/// The answers that every run must reach on tables of many slots.
fn wanted_of_large() -> Vec<(Call, String)> {
    let mut wanted = Vec::new();
    let mut want_large = |call: Call, kinds: &[&str], numbers: &[u32]| {
        wanted.extend(kinds.iter().map(|kind| (call, large(kind))));
        wanted.extend(numbers.iter().map(|number| (call, large(&number.to_string()))));
    };
    want_large(Call::Lookup, &["hit", "miss"], &[RECORD]);
    want_large(
        Call::PlanInsert,
        &["one write", "down", "up", "replacement"],
        &[RECORD, TWICE, ORDER, RULE, KNOWN, TIE, FULL, CROSSED, SHORT],
    );
    want_large(Call::PlanDelete, &["emptying"], &[UNKNOWN]);
    want_large(Call::CarryOut, &["copied", "put in", "emptied", "finished"], &[]);
    want_large(Call::Save, &["saved"], &[SHORT]);
    want_large(Call::Load, &["loaded"], &[]);
    wanted
}

/// What every run must reach at each of the other widths.
fn wanted_at_other_widths() -> Vec<(Call, String)> {
    let calls = [Call::Lookup, Call::PlanInsert, Call::PlanDelete, Call::CarryOut, Call::Save, Call::Load];
    let mut wanted = vec![(Call::SlotRecord, "empty part, 1".to_string())];
    wanted.extend(calls.map(|call| (call, SHAPE.to_string())));
    wanted
}

/// The answers that every run must reach on tables of 1,024 slots: the last slot decides them, or plans are the longest.
fn wanted_of_largest() -> Vec<(Call, String)> {
    let mut wanted: Vec<(Call, String)> =
        ["down", "up"].iter().flat_map(|way| [longest(way), long(way)]).map(|kind| (Call::PlanInsert, kind)).collect();
    let mut want = |call: Call, kinds: &[&str], numbers: &[u32]| {
        wanted.extend(kinds.iter().map(|kind| (call, last(kind))));
        wanted.extend(numbers.iter().map(|number| (call, last(&number.to_string()))));
    };
    want(Call::Lookup, &["hit"], &[RECORD]);
    want(Call::SlotRecord, &["record"], &[]);
    want(Call::PlanInsert, &["one write", "replacement"], &[RECORD, TWICE, ORDER, KNOWN, TIE, CROSSED]);
    want(Call::PlanDelete, &["emptying"], &[RECORD, TWICE, ORDER]);
    want(Call::CarryOut, &["copied", "put in", &with("put in", EQUAL), "emptied"], &[RECORD]);
    want(Call::Save, &["saved"], &[RECORD, TWICE, ORDER]);
    want(Call::Load, &["loaded"], &[TWICE, ORDER]);
    for number in ["4", "8", "10"] {
        want(Call::PlanInsert, &[&not_counted("one write", number)], &[]);
    }
    for (call, kind) in [(Call::PlanDelete, "emptying"), (Call::Save, "saved"), (Call::Load, "loaded")] {
        want(call, &[&not_counted(kind, "4")], &[]);
    }
    wanted
}

/// The name of an answer on a table that has a rule of rank 65,536.
fn held(kind: &str) -> String {
    format!("{kind}, 65,536 held")
}

/// The name of an answer to a rule that is like one of the table, or of a plan by whether a rule covers the new one.
fn with(kind: &str, like: &str) -> String {
    format!("{kind}, {like}")
}

/// The name of an answer on a table without an empty slot.
fn full(kind: &str) -> String {
    format!("{kind}, full")
}

/// The name of an answer where the rule that is given gets rank 65,536.
fn ranked_highest(kind: &str) -> String {
    format!("{kind}, rank 65,536")
}

/// The name of an answer where the rule that is given is exact under 1.3, and where it is nearly so under 1.0.
fn exact_under_13(kind: &str) -> String {
    format!("{kind}, exact under 13")
}

fn nearly_exact(kind: &str) -> String {
    format!("{kind}, nearly exact")
}

/// The name of a refusal for an edition that there is not.
fn of_edition(edition: u32) -> String {
    format!("{EDITION}, edition {edition}")
}

/// The name of an answer that an edition that there is not has no part in.
fn another_edition(kind: &str) -> String {
    format!("{kind}, another edition")
}

/// The name of an answer on a table of many slots.
fn large(kind: &str) -> String {
    format!("{kind}, large")
}

/// The name of an answer that the last of 1,024 slots decides.
fn last(kind: &str) -> String {
    format!("{kind}, last slot")
}

/// The name of a plan that moves the rules of all 1,024 slots, and of one that moves nearly all.
fn longest(way: &str) -> String {
    format!("{way}, {SLOTS_MOST} writes")
}

fn long(way: &str) -> String {
    format!("{way}, {LONG} and more")
}

/// The refusals whose spot is a slot.
const SLOT_SPOTS: [u32; 6] = [RECORD, TWICE, ORDER, KNOWN, TIE, CROSSED];

impl Tally {
    /// The width and the table of an input, for what is counted of it.
    pub fn begin(&mut self, input: &Input) {
        *self.inputs.entry(input.width).or_default() += 1;
        self.width = input.width;
        self.slots = input.table.len() / record_words(input.width);
        self.holds_exact_rank = holds_exact_rank(&input.table, input.width);
        self.uncounted = input.is_uncounted();
    }

    fn add(&mut self, call: Call, kind: String) {
        *self.counts.entry((call, kind)).or_default().entry(self.width).or_default() += 1;
    }

    pub fn count(&mut self, call: Call, kind: &str) {
        self.add(call, kind.to_string());
        if self.slots > SMALL_MOST {
            self.add(call, large(kind));
        }
        if self.holds_exact_rank && HELD.iter().any(|(held, kinds)| *held == call && kinds.contains(&kind)) {
            self.add(call, held(kind));
        }
        if self.uncounted && TOLD.iter().any(|(told, kinds)| *told == call && kinds.contains(&kind)) {
            self.add(call, uncounted(kind));
        }
    }

    pub fn hit(&mut self, input: &Input, slot: usize) {
        self.count_at(Call::Lookup, "hit", slot);
        if rule_at(input, slot).rank == EXACT_RANK {
            self.add(Call::Lookup, ranked_highest("hit"));
        }
    }

    /// An answer to a rule that is like one of the table; that of a put-in over an equal rule, by its slot and its rank too.
    fn count_alike(&mut self, call: Call, kind: &str, input: &Input) {
        if !ALIKE.iter().any(|(of, _, kinds)| *of == call && kinds.contains(&kind)) {
            return;
        }
        let Some(like) = alike(call, input) else { return };
        if kind == "put in" && like == EQUAL {
            let kind = with(kind, like);
            self.count_at(call, &kind, input.plan[input.done as usize] as usize % 65_536);
            if let Some(apart) = given_apart(&kind, input) {
                self.add(call, apart);
            }
        } else if ALIKE.iter().any(|(of, counted, kinds)| (*of, *counted) == (call, like) && kinds.contains(&kind)) {
            self.add(call, with(kind, like));
        }
    }

    /// An answer that the slot decides.
    pub fn count_at(&mut self, call: Call, kind: &str, slot: usize) {
        self.count(call, kind);
        if self.slots == SLOTS_MOST && slot == LAST {
            self.add(call, last(kind));
        }
    }

    /// The part of the table that is a slot's record; where it is empty, 1 or 2 may be why.
    pub fn part(&mut self, input: &Input, words: u64, table: Result<(), Refusal>) {
        let kind = match (words, table) {
            (0, Err(refusal)) => format!("empty part, {}", refusal.number),
            (0, Ok(())) => "empty part".to_string(),
            _ => "record".to_string(),
        };
        self.count_at(Call::SlotRecord, &kind, input.slot as usize);
    }

    pub fn refusal(&mut self, call: Call, input: &Input, refusal: Refusal) {
        if refusal.number == SHAPE {
            return self.count(call, misfit(call, input));
        }
        let kind = refusal.number.to_string();
        if SLOT_SPOTS.contains(&refusal.number) {
            self.count_at(call, &kind, refusal.spot as usize);
        } else {
            self.count(call, &kind);
        }
        if let Some(apart) = refused_apart(call, input, refusal) {
            self.add(call, apart);
        }
        self.count_alike(call, &kind, input);
        if refusal.number == EDITION && OTHER_EDITIONS.contains(&input.edition) {
            self.add(call, of_edition(input.edition));
        }
    }

    /// The reference's answer to a call on a table as it is told, counted apart where another would be given if it were told otherwise;
    /// an accepted one has a name.
    pub fn by_flag<T: PartialEq>(
        &mut self,
        call: Call,
        input: &Input,
        name: impl Fn(&T) -> &'static str,
        answer: impl Fn(bool) -> Result<T, Refusal>,
    ) -> Result<T, Refusal> {
        let (told, other) = (answer(input.is_uncounted()), answer(!input.is_uncounted()));
        if told != other {
            let [kind, other_kind] = [&told, &other].map(|answer| match answer {
                Ok(accepted) => name(accepted).to_string(),
                Err(refusal) => refusal.number.to_string(),
            });
            let apart = if input.is_uncounted() { not_counted(&kind, &other_kind) } else { not_uncounted(&kind, &other_kind) };
            let is_last = |answer: &Result<T, Refusal>| answer.as_ref().is_err_and(|refusal| refusal.spot == LAST as u64);
            if self.slots == SLOTS_MOST && (is_last(&told) || is_last(&other)) {
                self.add(call, last(&apart));
            }
            self.add(call, apart);
            if told.is_ok() && other_kind == ORDER.to_string() && FLAGS.contains(&input.uncounted) {
                self.add(call, of_flag(input.uncounted));
            }
        }
        told
    }

    pub fn plan(&mut self, call: Call, input: &Input, writes: &[u32]) {
        let to = writes[0] as usize % 65_536;
        if call == Call::PlanDelete {
            return self.count_at(call, "emptying", to);
        }
        let most = self.longest.entry(self.width).or_default();
        *most = writes.len().max(*most);
        let lengths = self.lengths.entry(self.width).or_default();
        lengths[(writes.len() - 1).min(9)] += 1;
        let kind = plan_kind(input, writes);
        if let Some(apart) = given_apart(kind, input) {
            self.add(call, apart);
        }
        self.count_alike(call, kind, input);
        if kind == "replacement" {
            self.count_replacement(input, to);
        }
        if writes.len() == 1 {
            return self.count_at(call, kind, to);
        }
        self.count(call, kind);
        if writes.len() == SLOTS_MOST {
            self.add(call, longest(kind));
        } else if writes.len() >= LONG {
            self.add(call, long(kind));
        }
    }

    /// Whether a planned insert tells that a rule covers the new one, and of which slot.
    pub fn cover(&mut self, input: &Input, planned: &Planned) {
        let (call, kind) = (Call::PlanInsert, if planned.covered.is_some() { COVERED } else { UNCOVERED });
        match planned.covered {
            Some(slot) => self.count_at(call, kind, slot),
            None => self.count(call, kind),
        }
        self.add(call, with(plan_kind(input, &planned.writes), kind));
        if let Some(apart) = given_apart(kind, input) {
            self.add(call, apart);
        }
        for apart in covered::kinds(input, planned) {
            self.add(call, apart.to_string());
        }
    }

    /// A replacement, apart where no slot is empty, and where another equal rule stays.
    fn count_replacement(&mut self, input: &Input, to: usize) {
        let rules: Vec<Rule> = (0..self.slots).map(|slot| rule_at(input, slot)).collect();
        let is_full = rules.iter().all(|rule| rule.id != 0);
        if is_full {
            self.add(Call::PlanInsert, full("replacement"));
        }
        if rules[to + 1..].iter().any(|rule| rule.id != 0 && rule.equals(&rules[to])) {
            self.count_at(Call::PlanInsert, SEVERAL_EQUAL, to);
            if is_full {
                self.add(Call::PlanInsert, full(SEVERAL_EQUAL));
            }
        }
    }

    pub fn carried(&mut self, input: &Input, answer: &Result<Carried, Refusal>) {
        let next = input.plan.get(input.done as usize).copied().unwrap_or(0);
        let kind = match (answer, next / 65_536) {
            (Ok(Carried::Finished), _) => "finished",
            (Ok(Carried::Wrote), PUT_IN) => "put in",
            (Ok(Carried::Wrote), EMPTYING) => "emptied",
            (Ok(Carried::Wrote), _) => "copied",
            (Err(refusal), _) if refusal.number != WRITE => return self.refusal(Call::CarryOut, input, *refusal),
            (Err(_), _) if input.done > input.total => "12 done > total",
            (Err(_), _) if input.total as usize > input.plan.len() => "12 total > words",
            (Err(_), PUT_IN) => "12 put-in",
            (Err(_), EMPTYING) => "12 emptying",
            (Err(_), _) => "12 copy",
        };
        let to = next as usize % 65_536;
        self.count_at(Call::CarryOut, kind, to);
        self.count_alike(Call::CarryOut, kind, input);
        let apart = match kind {
            _ if !is_edition(input.edition) => Some(another_edition(kind)),
            "put in" => given_apart(kind, input),
            _ => None,
        };
        if let Some(apart) = apart {
            self.add(Call::CarryOut, apart);
        }
    }

    /// The planning of an insert with a list.
    pub fn listed_plan(&mut self, input: &Input, answer: &Result<ListedPlan, Refusal>) {
        let call = Call::PlanInsert;
        match answer {
            Ok(ListedPlan { planned, refreshed }) => self.listed(call, plan_kind(input, &planned.writes), input, *refreshed),
            Err(refusal) => self.listed_refusal(call, input, *refusal),
        }
    }

    /// A write with a list, and the list that it leaves.
    pub fn listed_write(&mut self, input: &Input, answer: &Result<ListedCarried, Refusal>, after: &[u16]) {
        let call = Call::CarryOut;
        let refreshed = match answer {
            Ok(ListedCarried::Wrote { refreshed }) => *refreshed,
            Ok(ListedCarried::Finished) => return self.count(call, &with_list("finished", None)),
            Err(refusal) => return self.listed_refusal(call, input, *refusal),
        };
        let write = input.plan[input.done as usize];
        let kind = match write / 65_536 {
            PUT_IN => "put in",
            EMPTYING => "emptied",
            _ => "copied",
        };
        self.listed(call, kind, input, refreshed);
        let before = right_list(input).expect("a written table passes checks 1 and 2");
        for kind in table_kinds(input).into_iter().chain(change_kinds(&before, after, write as usize % 65_536)) {
            self.count(call, kind);
        }
    }

    fn listed(&mut self, call: Call, kind: &str, input: &Input, refreshed: bool) {
        let kind = with_list(kind, Some(refreshed));
        self.count(call, &kind);
        self.count(call, of_list(Some(refreshed)));
        if self.uncounted {
            self.add(call, uncounted(&kind));
        }
        let stale = if refreshed { stale_kinds(input) } else { Vec::new() };
        for kind in stale {
            self.count(call, kind);
        }
    }

    fn listed_refusal(&mut self, call: Call, input: &Input, refusal: Refusal) {
        self.count(call, &with_list(&refusal.number.to_string(), None));
        let wanted = list_numbers(self.slots);
        let lent = input.list.as_ref().map_or(wanted, |list| list.len());
        let is_by_list = refusal.number == SHAPE && misfit(call, input).starts_with("1 rule words") && lent != wanted;
        if is_by_list && input.rule.len() == record_words(input.width) {
            self.add(call, list_misfit(wanted, lent));
        }
    }

    /// A load that is accepted, by the table that it leaves.
    pub fn loaded(&mut self, table: &[u64], highest_rule: usize) {
        self.holds_exact_rank = holds_exact_rank(table, self.width);
        self.count_at(Call::Load, "loaded", highest_rule);
    }

    /// A refused load, by the field that an image was refused at.
    pub fn loading(&mut self, refusal: Refusal, input: &Input) {
        if refusal.number != IMAGE {
            return self.refusal(Call::Load, input, refusal);
        }
        let image = &input.image;
        let bodies = image.get(2..4).map_or(4, |count| 4 + 10 * u64::from(u16::from_be_bytes([count[0], count[1]])));
        let kind = match refusal.spot {
            0 => "14 at 0",
            2 if is_of_other_width(image, input.width) => "14 at 2, the other width's length",
            2 => "14 at 2",
            spot if spot >= bodies => self.body(&input.image[spot as usize..]),
            spot => match (spot - 4) % 10 {
                0 => "14 at an id",
                4 => "14 at a slot",
                _ => "14 at an offset",
            },
        };
        self.count(Call::Load, kind);
    }

    /// The name of a refusal at a body, which the bytes start with; by its rank it is counted apart too.
    fn body(&mut self, bytes: &[u8]) -> &'static str {
        let word = |place: usize| u64::from_be_bytes(bytes[8 * place..8 * place + 8].try_into().expect("eight bytes"));
        let words: Vec<u64> = (0..2 * self.width).map(word).collect();
        let (value, mask) = (Bits::of_words(&words[..self.width]), Bits::of_words(&words[self.width..]));
        let rule = Rule { id: 1, rank: word(2 * self.width) >> 32, value, mask, action: 0 };
        if let Some(why) = unsound_by_rank(&rule, self.width) {
            self.add(Call::Load, format!("14 at a body, {why}"));
        }
        "14 at a body"
    }

    /// What this run never reached.
    pub fn missing(&self) -> Vec<String> {
        let reached = |call: Call, kind: &String, width: usize| {
            self.counts.get(&(call, kind.clone())).is_some_and(|at_widths| at_widths.contains_key(&width))
        };
        let mut missing = Vec::new();
        for (widths, kinds) in [(&WIDTHS[..], wanted()), (&OTHER_WIDTHS[..], wanted_at_other_widths())] {
            for width in widths {
                let left = kinds.iter().filter(|(call, kind)| !reached(*call, kind, *width));
                missing.extend(left.map(|(call, kind)| format!("{call:?} {kind} at width {width}")));
            }
        }
        missing
    }

    pub fn print(&self) {
        println!("  {:<12} {:<36} {:>10} {:>10} {:>10}", "", "", "width 2", "width 5", "another");
        print_row("inputs", "", &self.inputs);
        for ((call, kind), at_widths) in &self.counts {
            print_row(&format!("{call:?}"), kind, at_widths);
        }
        for (width, lengths) in &self.lengths {
            let longest = self.longest[width];
            println!("  width {width}: insert plans of 1, 2, .. 9 writes and of more: {lengths:?}; longest {longest}");
        }
        println!("  lookups between writes: {}", self.lookups_between);
    }
}

/// The name of an insert's plan.
pub fn plan_kind(input: &Input, writes: &[u32]) -> &'static str {
    match writes {
        [put] if rule_at(input, *put as usize % 65_536).id != 0 => "replacement",
        [_] => "one write",
        [copy, ..] if copy / 65_536 < copy % 65_536 => "down",
        _ => "up",
    }
}

fn print_row(call: &str, kind: &str, at_widths: &BTreeMap<usize, u64>) {
    let [two, five] = WIDTHS.map(|width| at_widths.get(&width).copied().unwrap_or(0));
    let others = at_widths.values().sum::<u64>() - two - five;
    println!("  {call:<12} {kind:<36} {two:>10} {five:>10} {others:>10}");
}

fn is_edition(edition: u32) -> bool {
    [EDITION_10, EDITION_13].contains(&edition)
}

fn holds_exact_rank(table: &[u64], width: usize) -> bool {
    WIDTHS.contains(&width) && table.chunks_exact(record_words(width)).any(|record| record[2 * width + 1] == EXACT_RANK)
}

fn rule_at(input: &Input, slot: usize) -> Rule {
    rule_of(&input.table[slot * record_words(input.width)..][..record_words(input.width)], input.width)
}

/// Why a rule may not stand in a slot, where it is for its rank alone.
fn unsound_by_rank(rule: &Rule, width: usize) -> Option<&'static str> {
    let is_exact = rule.mask == Bits::all(width);
    match rule.rank {
        _ if !(Rule { rank: 0, ..*rule }).is_sound(width) => None,
        65_536 if !is_exact => Some("65,536 not exact"),
        65_537 if is_exact => Some("65,537 exact"),
        _ => None,
    }
}

/// The name of an answer to a sound rule for what its mask and its edition give it, where that is worth a count of its own.
fn given_apart(kind: &str, input: &Input) -> Option<String> {
    let rule = Given::of_record(&input.rule, input.width).ranked(input.width, input.edition).ok()?;
    let is_exact = rule.mask == Bits::all(input.width);
    match input.edition {
        EDITION_10 if is_exact => Some(ranked_highest(kind)),
        EDITION_13 if is_exact => Some(exact_under_13(kind)),
        EDITION_10 if is_nearly_exact(rule.mask, input.width) => Some(nearly_exact(kind)),
        _ => None,
    }
}

/// Whether a mask has all bits of some word, and not all bits of the width.
fn is_nearly_exact(mask: Bits, width: usize) -> bool {
    mask != Bits::all(width) && mask.words(width).contains(&u64::MAX)
}

/// The name of a refusal that a rank or an edition has a part in, beside its number.
fn refused_apart(call: Call, input: &Input, refusal: Refusal) -> Option<String> {
    let number = refusal.number;
    match number {
        RECORD => unsound_by_rank(&rule_at(input, refusal.spot as usize), input.width).map(|why| format!("{number}, {why}")),
        TIE | CROSSED => given_apart(&number.to_string(), input),
        RULE if matches!(call, Call::PlanInsert | Call::CarryOut) => {
            let given = Given::of_record(&input.rule, input.width);
            let is_by_priority = Given { priority: 0, ..given }.is_sound();
            match given.priority {
                _ if !is_edition(input.edition) => Some(another_edition(&number.to_string())),
                EXACT_RANK if is_by_priority && given.mask == Bits::all(input.width) => Some(format!("{number}, 65,536 exact")),
                _ => None,
            }
        }
        EDITION if call == Call::PlanInsert => {
            let id = Given::of_record(&input.rule, input.width).id;
            let is_present = (0..input.table.len() / record_words(input.width)).any(|slot| rule_at(input, slot).id == id);
            is_present.then(|| format!("{number}, id present"))
        }
        EDITION => {
            let slots = read_slots(&input.table, input.width).expect("checks 1 and 2 come before");
            let given = Given::of_record(&input.rule, input.width);
            let fits_under = |edition: u32| {
                let new = given.ranked(input.width, edition).expect("check 5 comes before");
                fits(&slots, input.plan[input.done as usize], Some(&new))
            };
            (!fits_under(EDITION_10) && !fits_under(EDITION_13)).then(|| format!("{number}, does not fit"))
        }
        _ => None,
    }
}

/// Which words of an input that is refused with 1 are at fault.
fn misfit(call: Call, input: &Input) -> &'static str {
    let (words, slot_words) = (input.table.len(), record_words(input.width));
    if !WIDTHS.contains(&input.width) {
        return "1";
    }
    if words == 0 {
        return TABLE_WORDS[0];
    }
    if words % slot_words != 0 {
        return TABLE_WORDS[1];
    }
    if words / slot_words > SLOTS_MOST {
        return TABLE_WORDS[2];
    }
    match (call, input.plan.get(input.done as usize).map(|write| write / 65_536)) {
        (Call::Lookup, _) => "1 key words",
        (Call::CarryOut, _) if input.done >= input.total => "1 rule words, finished",
        (Call::CarryOut, Some(PUT_IN)) => "1 rule words, put-in",
        (Call::CarryOut, Some(EMPTYING)) => "1 rule words, emptying",
        (Call::CarryOut, _) => "1 rule words, copy",
        _ => "1 rule words",
    }
}

/// Whether an image of so many rules would have this length at the other width, and has some rule.
fn is_of_other_width(image: &[u8], width: usize) -> bool {
    let rules = usize::from(u16::from_be_bytes([image[2], image[3]]));
    rules > 0 && WIDTHS.iter().any(|&other| other != width && image.len() == image_bytes(other, rules))
}
