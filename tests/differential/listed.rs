// The two calls with a neighbour list: what the reference says that they must show, beside the same call without a list.
// The list of the input is what a call leaves of it, so that the next one is lent that.

use crate::compare::{refused, same, untouched, Mismatch, FINISHED};
use crate::guarded::Guarded;
use crate::input::{initial_words, Input};
use crate::tally::Tally;
use reference::carry::Progress;
use reference::listed::{carry_out_listed, plan_insert_listed, ListedCarried, ListedPlan};
use support::calls::NONE;

/// The planning of an insert with the input's list, if it has one.
pub fn check_plan_listed(library: &Guarded, input: &mut Input, tally: &mut Tally) -> Result<(), Mismatch> {
    let Some(mut list) = input.list.clone() else { return Ok(()) };
    let (flag, room) = (input.is_uncounted(), input.room);
    let answer = plan_insert_listed(&input.table, input.width, flag, &input.rule, input.edition, &mut list, room);
    tally.listed_plan(input, &answer);
    let mut expected = untouched(input, 4);
    expected.beside = input.rule.clone();
    expected.plan = initial_words(room);
    expected.list = list.clone();
    match answer {
        Ok(ListedPlan { planned, refreshed }) => {
            let covered = planned.covered.map_or(NONE, |slot| slot as u32);
            expected.cells[..3].copy_from_slice(&[planned.writes.len() as u32, covered, u32::from(refreshed)]);
            expected.plan[..planned.writes.len()].copy_from_slice(&planned.writes);
        }
        Err(refusal) => expected = refused(expected, refusal),
    }
    same("plan_insert_listed", library.plan_insert_listed(input), expected)?;
    input.list = Some(list);
    Ok(())
}

/// One write with the input's list, if it has one; neither table nor progress of the input is advanced.
pub fn check_carry_listed(library: &Guarded, input: &mut Input, tally: &mut Tally) -> Result<(), Mismatch> {
    let Some(mut list) = input.list.clone() else { return Ok(()) };
    let (flag, edition) = (input.is_uncounted(), input.edition);
    let (mut table, mut progress) = (input.table.clone(), Progress { done: input.done, total: input.total });
    let answer = carry_out_listed(&mut table, input.width, flag, &input.rule, edition, &mut list, &input.plan, &mut progress);
    tally.listed_write(input, &answer, &list);
    let mut expected = untouched(input, 1);
    expected.cells = vec![progress.done, progress.total, expected.cells[0]];
    expected.result = match answer {
        Ok(ListedCarried::Wrote { refreshed }) => {
            expected.cells[2] = u32::from(refreshed);
            0
        }
        Ok(ListedCarried::Finished) => FINISHED,
        Err(refusal) => u64::from(refusal.number) + (refusal.spot << 32),
    };
    expected.table = table;
    expected.beside = input.rule.clone();
    expected.plan = input.plan.clone();
    expected.list = list.clone();
    same("carry_out_listed", library.carry_out_listed(input), expected)?;
    input.list = Some(list);
    Ok(())
}
