// What the reference says a call must show, and the comparison of one input with what the library showed.
// Cells and buffers that a call leaves as they were are expected with their first contents.

use crate::guarded::{Guarded, Seen};
use crate::input::{initial_bytes, initial_words, Call, Input, CELL_START};
use crate::listed::{check_carry_listed, check_plan_listed};
use crate::tally::{plan_kind, Tally, ID_CHANGES, OTHER_ID};
use reference::bits::Bits;
use reference::carry::{carry_out, Carried, Progress};
use reference::given::Given;
use reference::image::{load, save};
use reference::lookup::{is_promised, lookup, slot_record, Found};
use reference::plan::{plan_delete, plan_insert, replaced_slot, Planned};
use reference::table::{first_out_of_order, read_slots, record_words, Refusal, Rule, Slot, COUNTED};
use support::calls::NONE;

/// Tables of up to this many slots are tested for order after every write; larger ones now and then, and around the last write.
const SLOTS_ALWAYS_TESTED: usize = 64;

/// The result of tcam_carry_out that says "finished": the header's number, since document 01 has none.
pub const FINISHED: u64 = 0xffff_ffff;

pub struct Mismatch {
    pub what: String,
    pub library: String,
    pub reference: String,
}

impl Mismatch {
    fn of(what: String, library: impl std::fmt::Debug, reference: impl std::fmt::Debug) -> Mismatch {
        Mismatch { what, library: format!("{library:x?}"), reference: format!("{reference:x?}") }
    }
}

/// Makes the input's call on both sides.
pub fn check(library: &Guarded, input: &Input, tally: &mut Tally) -> Result<(), Mismatch> {
    tally.begin(input);
    match input.call {
        Call::Lookup => input.keys.iter().try_for_each(|key| check_lookup(library, input, key, tally).map(|_| ())),
        Call::SlotRecord => {
            let expected = expected_slot_record(input);
            tally.part(input, expected.result, read_slots(&input.table, input.width).map(|_| ()));
            same("slot_record", library.slot_record(input), expected)
        }
        Call::PlanInsert => check_plan_insert(library, &mut input.clone(), tally).map(|_| ()),
        Call::PlanDelete => check_plan_delete(library, input, tally).map(|_| ()),
        Call::CarryOut => check_carry_out(library, &mut input.clone(), tally).map(|_| ()),
        Call::Save => check_save(library, input, tally),
        Call::Load => check_load(library, input, tally),
        Call::InsertInFull | Call::DeleteInFull => check_in_full(library, input, tally),
    }
}

pub fn same(what: &str, seen: Seen, expected: Seen) -> Result<(), Mismatch> {
    if seen == expected {
        return Ok(());
    }
    let mut parts = Vec::new();
    let mut note = |part: &str, differs: bool| {
        if differs {
            parts.push(part.to_string());
        }
    };
    note("result", seen.result != expected.result);
    note("cells", seen.cells != expected.cells);
    note("table", seen.table != expected.table);
    note("rule or key", seen.beside != expected.beside);
    note("plan", seen.plan != expected.plan);
    note("image", seen.image != expected.image);
    note("list", seen.list != expected.list);
    note("guards", seen.guards_hold != expected.guards_hold);
    Err(Mismatch::of(format!("{what}: {}", parts.join(", ")), seen, expected))
}

/// What is seen of a call that changes nothing; `cells` cells with their first contents.
pub fn untouched(input: &Input, cells: usize) -> Seen {
    Seen {
        result: 0,
        cells: (0..cells).map(|cell| CELL_START + cell as u32).collect(),
        table: input.table.clone(),
        beside: Vec::new(),
        plan: Vec::new(),
        image: Vec::new(),
        list: Vec::new(),
        guards_hold: true,
    }
}

/// A refusal of a call whose last cell is the spot.
pub fn refused(mut seen: Seen, refusal: Refusal) -> Seen {
    seen.result = u64::from(refusal.number);
    *seen.cells.last_mut().unwrap() = refusal.spot as u32;
    seen
}

fn check_lookup(library: &Guarded, input: &Input, key: &[u64], tally: &mut Tally) -> Result<Option<Found>, Mismatch> {
    let answer = lookup(&input.table, input.width, key);
    let mut expected = untouched(input, 4);
    expected.beside = key.to_vec();
    match answer {
        Ok(Found::Hit { slot, id, action }) => {
            expected.cells[..3].copy_from_slice(&[slot as u32, id, action]);
            tally.hit(input, slot);
        }
        Ok(Found::Miss) => {
            expected.cells[..3].copy_from_slice(&[0, 0, 0]);
            tally.count(Call::Lookup, "miss");
        }
        Err(refusal) => {
            expected = refused(expected, refusal);
            tally.refusal(Call::Lookup, input, refusal);
        }
    }
    same("lookup", library.lookup(input, key), expected)?;
    Ok(answer.ok())
}

fn expected_slot_record(input: &Input) -> Seen {
    let part = slot_record(&input.table, input.width, u64::from(input.slot));
    let mut expected = untouched(input, 1);
    expected.result = part.len() as u64;
    expected.cells[0] = part.start as u32;
    expected
}

/// The plan of an insert, and the slot of the rule that covers the new one; the same with the input's list, which is then as the reference
/// says.
fn check_plan_insert(library: &Guarded, input: &mut Input, tally: &mut Tally) -> Result<Option<Vec<u32>>, Mismatch> {
    let name = |planned: &Planned| plan_kind(input, &planned.writes);
    let answer = tally.by_flag(Call::PlanInsert, input, name, |uncounted| {
        plan_insert(&input.table, input.width, uncounted, &input.rule, input.edition, input.room)
    });
    let mut expected = untouched(input, 3);
    expected.beside = input.rule.clone();
    if let Ok(planned) = &answer {
        expected.cells[1] = planned.covered.map_or(NONE, |slot| slot as u32);
        tally.cover(input, planned);
    }
    let answer = answer.map(|planned| planned.writes);
    expected = with_plan(expected, Call::PlanInsert, input, &answer, tally);
    same("plan_insert", library.plan_insert(input), expected)?;
    check_plan_listed(library, input, tally)?;
    Ok(answer.ok())
}

fn check_plan_delete(library: &Guarded, input: &Input, tally: &mut Tally) -> Result<Option<Vec<u32>>, Mismatch> {
    let planned = |uncounted: bool| plan_delete(&input.table, input.width, uncounted, input.id, input.room);
    let answer = tally.by_flag(Call::PlanDelete, input, |_| "emptying", planned);
    let expected = with_plan(untouched(input, 2), Call::PlanDelete, input, &answer, tally);
    same("plan_delete", library.plan_delete(input), expected)?;
    Ok(answer.ok())
}

/// What is seen of a plan, whose first cell is its count, or of its refusal; either is counted.
fn with_plan(mut expected: Seen, call: Call, input: &Input, answer: &Result<Vec<u32>, Refusal>, tally: &mut Tally) -> Seen {
    expected.plan = initial_words(input.room);
    match answer {
        Ok(writes) => {
            expected.cells[0] = writes.len() as u32;
            expected.plan[..writes.len()].copy_from_slice(writes);
            tally.plan(call, input, writes);
            expected
        }
        Err(refusal) => {
            tally.refusal(call, input, *refusal);
            refused(expected, *refusal)
        }
    }
}

/// One write, without the input's list and with it; table, progress and list of the input are advanced as the reference says.
fn check_carry_out(library: &Guarded, input: &mut Input, tally: &mut Tally) -> Result<Option<Carried>, Mismatch> {
    let mut progress = Progress { done: input.done, total: input.total };
    let mut table = input.table.clone();
    let answer = carry_out(&mut table, input.width, &input.rule, input.edition, &input.plan, &mut progress);
    let result = match answer {
        Ok(Carried::Wrote) => 0,
        Ok(Carried::Finished) => FINISHED,
        Err(refusal) => u64::from(refusal.number) + (refusal.spot << 32),
    };
    tally.carried(input, &answer);
    let mut expected = untouched(input, 0);
    expected.result = result;
    expected.cells = vec![progress.done, progress.total];
    expected.table = table.clone();
    expected.beside = input.rule.clone();
    expected.plan = input.plan.clone();
    same("carry_out", library.carry_out(input), expected)?;
    if takes_list_now(input) {
        check_carry_listed(library, input, tally)?;
    }
    input.table = table;
    input.done = progress.done;
    Ok(answer.ok())
}

fn check_save(library: &Guarded, input: &Input, tally: &mut Tally) -> Result<(), Mismatch> {
    let mut expected = untouched(input, 2);
    expected.image = initial_bytes(input.room);
    let saved = |uncounted: bool| save(&input.table, input.width, uncounted, input.room);
    match tally.by_flag(Call::Save, input, |_| "saved", saved) {
        Ok(bytes) => {
            expected.cells[0] = bytes.len() as u32;
            expected.image[..bytes.len()].copy_from_slice(&bytes);
            tally.count_at(Call::Save, "saved", highest_rule(&input.table, input.width));
        }
        Err(refusal) => {
            expected = refused(expected, refusal);
            tally.refusal(Call::Save, input, refusal);
        }
    }
    same("save", library.save(input), expected)
}

/// The highest slot that has a rule, or 0 where none has.
fn highest_rule(table: &[u64], width: usize) -> usize {
    table.chunks(record_words(width)).rposition(|record| record[2 * width] != 0).unwrap_or(0)
}

/// A table that loads is saved again to the same bytes, on the reference.
fn check_load(library: &Guarded, input: &Input, tally: &mut Tally) -> Result<(), Mismatch> {
    let mut expected = untouched(input, 1);
    expected.image = input.image.clone();
    let loaded = |uncounted: bool| load(&input.image, input.table.len(), input.width, uncounted);
    match tally.by_flag(Call::Load, input, |_| "loaded", loaded) {
        Ok(table) => {
            let again = save(&table, input.width, input.is_uncounted(), input.image.len());
            if again.as_ref() != Ok(&input.image) {
                return Err(Mismatch::of("the reference saves other bytes".to_string(), &input.image, again));
            }
            tally.loaded(&table, highest_rule(&table, input.width));
            expected.table = table;
        }
        Err(refusal) => {
            expected = refused(expected, refusal);
            tally.loading(refusal, input);
        }
    }
    same("load", library.load(input), expected)
}

/// An insert or a delete in full; after an insert the same rule is sent again under another id and with another action. An uncounted table
/// declines that, and takes it with the same action.
fn check_in_full(library: &Guarded, input: &Input, tally: &mut Tally) -> Result<(), Mismatch> {
    let Some(table) = check_change(library, input, tally)? else { return Ok(()) };
    if input.call == Call::DeleteInFull {
        return Ok(());
    }
    let with_same_action: &[bool] = if input.is_uncounted() { &[false, true] } else { &[false] };
    for &same_action in with_same_action {
        let again = sent_again(input, table.clone(), same_action);
        let is_accepted = check_change(library, &again, tally)?.is_some();
        if is_accepted != (same_action || !input.is_uncounted()) {
            return Err(Mismatch::of(format!("a rule sent again: accepted {is_accepted}"), &again.table, &again.rule));
        }
    }
    Ok(())
}

/// The input's rule given once more on the table that its plan has left; a word of the plan buffer is enough.
fn sent_again(input: &Input, table: Vec<u64>, same_action: bool) -> Input {
    let (width, slot_words) = (input.width, record_words(input.width));
    let is_known = |id: &u64| table.chunks(slot_words).any(|record| record[2 * width] >> 32 == *id);
    let id = (1..).find(|id| !is_known(id)).expect("a table has few ids");
    let mut again = input.clone();
    let action = if same_action { input.rule[2 * width] } else { !input.rule[2 * width] };
    again.rule[2 * width] = id << 32 | action & 0xffff_ffff;
    again.room = 1 + input.room % 2;
    again.table = table;
    again
}

/// The rules that count once the input's change is made: without the deleted one or the replaced one, and with the new one.
fn rules_after(input: &Input, slots: &[Slot]) -> Vec<Rule> {
    let rules = slots.iter().flatten().copied();
    if input.call == Call::DeleteInFull {
        return rules.filter(|rule| rule.id != input.id).collect();
    }
    let given = Given::of_record(&input.rule, input.width);
    let new = given.ranked(input.width, input.edition).expect("a planned rule is sound");
    let replaced = replaced_slot(slots, &new, input.is_uncounted()).and_then(|slot| slots[slot]);
    rules.filter(|rule| Some(*rule) != replaced).chain([new]).collect()
}

/// Plans, then carries out write by write, and gives the last table. Before the last write each key has its old reply, after it its
/// new one; in an uncounted table only the reply's action is the old one and the new one.
fn check_change(library: &Guarded, input: &Input, tally: &mut Tally) -> Result<Option<Vec<u64>>, Mismatch> {
    let mut state = input.clone();
    let planned = match input.call {
        Call::DeleteInFull => check_plan_delete(library, input, tally)?,
        _ => check_plan_insert(library, &mut state, tally)?,
    };
    let Some(writes) = planned else { return Ok(None) };
    let slots = read_slots(&input.table, input.width).expect("a planned table is sound");
    let new_rules = rules_after(input, &slots);
    let old_rules: Vec<Rule> = slots.into_iter().flatten().collect();
    state.plan = initial_words(input.room);
    state.plan[..writes.len()].copy_from_slice(&writes);
    state.done = 0;
    state.total = writes.len() as u32;
    let mut before = Vec::new();
    loop {
        let rules = if state.done < state.total { &old_rules } else { &new_rules };
        let replies = check_state(library, &state, rules, tally)?;
        if state.done < state.total && before.iter().zip(&replies).any(|(before, reply)| before != reply) {
            tally.count(Call::Lookup, ID_CHANGES);
        }
        before = replies;
        match check_carry_out(library, &mut state, tally)? {
            Some(Carried::Wrote) => {}
            Some(Carried::Finished) => break,
            None => {
                return Err(Mismatch::of(
                    "the library's plan does not fit, by the reference".to_string(),
                    &state.plan,
                    state.done,
                ))
            }
        }
    }
    if state.done != state.total {
        return Err(Mismatch::of("finished too early".to_string(), state.done, state.total));
    }
    Ok(Some(state.table))
}

/// Whether much is asked between two writes: the tables of many slots that a long plan leaves are asked now and then.
fn is_watched(state: &Input) -> bool {
    let slots = state.table.len() / record_words(state.width);
    slots <= SLOTS_ALWAYS_TESTED || state.done % 256 == 0 || state.done + 1 >= state.total
}

/// Whether the next write is made with the list too. Of a plan in full some are made without, so that the list is one of an earlier table.
fn takes_list_now(state: &Input) -> bool {
    let is_left_out = state.list_left_out != 0 && state.done % state.list_left_out == state.list_left_out - 1;
    state.call == Call::CarryOut || is_watched(state) && !is_left_out
}

/// An id and an action, or a miss.
type Reply = Option<(u32, u32)>;

/// Order and replies between two writes; the replies, where they are asked.
fn check_state(library: &Guarded, state: &Input, rules: &[Rule], tally: &mut Tally) -> Result<Vec<Reply>, Mismatch> {
    let mut replies = Vec::new();
    let slots: Vec<Slot> = read_slots(&state.table, state.width).expect("copies of sound records are sound");
    if is_watched(state) {
        if let Some(slot) = first_out_of_order(&slots, state.is_uncounted()) {
            return Err(Mismatch::of(format!("out of order after {} writes", state.done), slot, &state.plan));
        }
        for key in &state.keys {
            let found = check_lookup(library, state, key, tally)?.expect("the records are sound");
            tally.lookups_between += 1;
            let is_kept = |uncounted: bool| is_promised(found.reply(), rules, Bits::of_words(key), uncounted);
            if !is_kept(state.is_uncounted()) {
                return Err(Mismatch::of(format!("reply after {} writes", state.done), found, rules));
            }
            if !is_kept(COUNTED) {
                tally.count(Call::Lookup, OTHER_ID);
            }
            replies.push(found.reply());
        }
    }
    Ok(replies)
}
