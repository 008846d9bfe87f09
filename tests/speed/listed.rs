// The calls with a neighbour list lent, and what they are measured with: lists that are the table's or not, and single writes.
// They are ours alone; beside them stand our calls without a list.

use crate::answers::Progress;
use crate::cases::Measured;
use crate::inputs::{occupied_slots, Input, Lent};
use crate::tables::Kind;
use crate::versions::Call;
use reference::plan::{write_word, EMPTYING, PUT_IN};
use reference::table::record_words;

extern "C" {
    fn tcam_plan_insert_listed(
        table: *const u64,
        words: usize,
        width: u32,
        uncounted: u32,
        rule: *const u64,
        rule_words: usize,
        edition: u32,
        list: *mut u16,
        list_numbers: usize,
        plan: *mut u32,
        plan_words: usize,
        count: *mut u32,
        covered: *mut u32,
        refreshed: *mut u32,
        spot: *mut u32,
    ) -> u32;
    fn tcam_carry_out_listed(
        table: *mut u64,
        words: usize,
        width: u32,
        uncounted: u32,
        rule: *const u64,
        rule_words: usize,
        edition: u32,
        list: *mut u16,
        list_numbers: usize,
        plan: *const u32,
        plan_words: usize,
        progress: *mut Progress,
        refreshed: *mut u32,
    ) -> u64;
}

pub const SYMBOLS: [&str; 2] = ["tcam_plan_insert_listed", "tcam_carry_out_listed"];

/// The cell that tells whether the list was worked out afresh.
pub const REFRESHED: usize = 3;

/// Makes the call of an input that has a list, and gives its result.
pub fn perform(input: &Input, lent: &mut Lent) -> u64 {
    let (width, flag, edition) = (input.given, input.uncounted, input.edition);
    let (table, words) = (lent.table.as_mut_ptr(), lent.table.len());
    let (rule, rule_words) = (input.rule.as_ptr(), input.rule.len());
    let (list, numbers) = (lent.list.as_mut_ptr(), lent.list.len());
    let (plan, plan_words) = (lent.plan.as_mut_ptr(), lent.plan.len());
    let [first, second, third, refreshed] = &mut lent.cells;
    if input.call == Call::PlanInsert {
        let number = unsafe {
            tcam_plan_insert_listed(
                table, words, width, flag, rule, rule_words, edition, list, numbers, plan, plan_words, first, second, refreshed,
                third,
            )
        };
        return u64::from(number);
    }
    assert_eq!(input.call, Call::CarryOut, "a call that takes a list");
    let mut progress = Progress { done: lent.done, total: lent.total };
    let result = unsafe {
        tcam_carry_out_listed(
            table,
            words,
            width,
            flag,
            rule,
            rule_words,
            edition,
            list,
            numbers,
            plan,
            plan_words,
            &mut progress,
            refreshed,
        )
    };
    (lent.done, lent.total) = (progress.done, progress.total);
    result
}

/// Whether a planned insert is lent the table's list.
#[derive(Clone, Copy, Debug, PartialEq, Eq, PartialOrd, Ord)]
pub enum Agreement {
    Right,
    /// Nearly every number is another.
    Stale,
}

/// One write that is carried out.
#[derive(Clone, Copy, Debug, PartialEq, Eq, PartialOrd, Ord)]
pub enum Write {
    /// A rule is copied to the empty slot beside it.
    Copy,
    /// The new rule is put in there.
    PutIn,
    /// That rule is taken out.
    Emptying,
    /// The first rule is copied over that rule, of which another copy stands in the slot that was empty.
    Over,
}

/// The writes that are carried out on any table with an empty slot, and those on a table in which one rule is the neighbour of all.
pub const WRITES: [Write; 3] = [Write::Copy, Write::PutIn, Write::Emptying];
pub const NEIGHBOUR_WRITES: [Write; 2] = [Write::Emptying, Write::Over];

pub fn writes_on(kind: Kind) -> &'static [Write] {
    if kind.is_of_one_neighbour() {
        &NEIGHBOUR_WRITES
    } else {
        &WRITES
    }
}

impl Write {
    pub fn name(self) -> &'static str {
        match self {
            Write::Copy => "a copy",
            Write::PutIn => "a put-in",
            Write::Emptying => "an emptying",
            Write::Over => "a copy over a rule",
        }
    }
}

/// A list of the table's length in which nearly every number is another.
fn stale_list(input: &Input) -> Vec<u16> {
    vec![0; 2 * input.table.len() / record_words(input.width)]
}

fn with_list(input: &Input, list: Vec<u16>) -> Input {
    Input { list: Some(list), ..input.clone() }
}

/// What the call leaves of a table with such a list: the table, and its list.
fn left_by(input: &Input) -> (Vec<u64>, Vec<u16>) {
    let stale = with_list(input, stale_list(input));
    let mut lent = Lent::new(&stale);
    assert_eq!(perform(&stale, &mut lent), 0, "a call that is accepted");
    (lent.table, lent.list)
}

/// The empty slot that is written to, of several the middle one, and the slot of the rule beside it; or the last slot, and that of the
/// rule that is the neighbour of all.
fn places(kind: Kind, input: &Input) -> (usize, usize) {
    let slots = input.table.len() / record_words(input.width);
    if kind.is_of_one_neighbour() {
        return (slots - 1, slots / 2);
    }
    let occupied = occupied_slots(&input.table, input.width);
    let vacant: Vec<usize> = (0..slots).filter(|slot| occupied.binary_search(slot).is_err()).collect();
    let empty = vacant[vacant.len() / 2];
    (empty, if empty + 1 < slots { empty + 1 } else { empty - 1 })
}

/// One write on the table of a planned insert and with its list.
fn write_on(kind: Kind, plan: &Input, list: &[u16], write: Write) -> Input {
    let (empty, beside) = places(kind, plan);
    let one = |word: u32| {
        let input = Input { call: Call::CarryOut, plan: vec![word], done: 0, total: 1, ..plan.clone() };
        with_list(&input, list.to_vec())
    };
    let copy = one(write_word(beside as u32, empty));
    match write {
        Write::Copy => copy,
        Write::PutIn => one(write_word(PUT_IN, empty)),
        Write::Emptying => one(write_word(EMPTYING, beside)),
        Write::Over => {
            let (table, list) = left_by(&copy);
            Input { table, list: Some(list), ..one(write_word(0, beside)) }
        }
    }
}

/// The writes on the table of a planned insert, each with the list of the table that it is made on.
fn writes(kind: Kind, plan: &Input, list: &[u16]) -> Vec<(Write, Input)> {
    writes_on(kind).iter().map(|&write| (write, write_on(kind, plan, list, write))).collect()
}

/// What is counted on a table: the planned insert with either list, and each write with the table's list and without one. Where one
/// rule is the neighbour of all, the writes alone.
pub fn counted(kind: Kind, plan: &Input) -> Vec<(Measured, Input)> {
    let (_, list) = left_by(plan);
    let mut inputs = Vec::new();
    if !kind.is_of_one_neighbour() {
        inputs.push((Measured::ListedPlan(Agreement::Right), with_list(plan, list.clone())));
        inputs.push((Measured::ListedPlan(Agreement::Stale), with_list(plan, stale_list(plan))));
    }
    for (write, input) in writes(kind, plan, &list) {
        inputs.push((Measured::Write(write), Input { list: None, ..input.clone() }));
        inputs.push((Measured::ListedWrite(write), input));
    }
    inputs
}

/// The writes without a list, for the self-check.
pub fn writes_without_list(kind: Kind, plan: &Input) -> Vec<Input> {
    let (_, list) = left_by(plan);
    writes(kind, plan, &list).into_iter().map(|(_, input)| Input { list: None, ..input }).collect()
}
