// The library's calls as include/tcam.h declares them, for the test programs that link target/staticlib/libtcam.a.
// Beside them stand plain forms of the planning of inserts and of carrying out, for programs that need no guarded buffers.

use reference::carry::Progress;
use reference::listed::ListedPlan;
use reference::plan::Planned;
use reference::table::{record_words, Refusal};

#[repr(C)]
pub struct ProgressRecord {
    pub done: u32,
    pub total: u32,
}

// Laid out by hand: a line for the table, one for the rule or the key and the list, one for what the call fills in.
#[rustfmt::skip]
extern "C" {
    pub fn tcam_lookup(
        table: *const u64, words: usize, width: u32,
        key: *const u64, key_words: usize,
        slot: *mut u32, id: *mut u32, action: *mut u32, spot: *mut u32,
    ) -> u32;
    pub fn tcam_slot_record(table: *const u64, words: usize, width: u32, slot: u32, first: *mut u32) -> u32;
    pub fn tcam_plan_insert(
        table: *const u64, words: usize, width: u32, uncounted: u32,
        rule: *const u64, rule_words: usize, edition: u32,
        plan: *mut u32, plan_words: usize, count: *mut u32, covered: *mut u32, spot: *mut u32,
    ) -> u32;
    pub fn tcam_plan_delete(
        table: *const u64, words: usize, width: u32, uncounted: u32, id: u32,
        plan: *mut u32, plan_words: usize, count: *mut u32, spot: *mut u32,
    ) -> u32;
    pub fn tcam_carry_out(
        table: *mut u64, words: usize, width: u32,
        rule: *const u64, rule_words: usize, edition: u32,
        plan: *const u32, plan_words: usize, progress: *mut ProgressRecord,
    ) -> u64;
    pub fn tcam_plan_insert_listed(
        table: *const u64, words: usize, width: u32, uncounted: u32,
        rule: *const u64, rule_words: usize, edition: u32, list: *mut u16, list_numbers: usize,
        plan: *mut u32, plan_words: usize, count: *mut u32, covered: *mut u32, refreshed: *mut u32, spot: *mut u32,
    ) -> u32;
    pub fn tcam_carry_out_listed(
        table: *mut u64, words: usize, width: u32, uncounted: u32,
        rule: *const u64, rule_words: usize, edition: u32, list: *mut u16, list_numbers: usize,
        plan: *const u32, plan_words: usize, progress: *mut ProgressRecord, refreshed: *mut u32,
    ) -> u64;
    pub fn tcam_save(
        table: *const u64, words: usize, width: u32, uncounted: u32,
        image: *mut u8, image_bytes: usize, bytes: *mut u32, spot: *mut u32,
    ) -> u32;
    pub fn tcam_load(
        image: *const u8, image_bytes: usize,
        table: *mut u64, words: usize, width: u32, uncounted: u32, spot: *mut u32,
    ) -> u32;
}

/// The slot that says that there is none.
pub const NONE: u32 = 65_535;

/// What the library tells of the insert of a rule, given as a record under an edition; the plan's buffer has one word per slot.
pub fn plan_insert(table: &[u64], width: usize, uncounted: bool, rule: &[u64], edition: u32) -> Result<Planned, Refusal> {
    let mut plan = vec![0; table.len() / record_words(width)];
    let (mut count, mut covered, mut spot) = (0, 0, 0);
    let (room, cells) = (plan.len(), (&mut count, &mut covered, &mut spot));
    let number = unsafe {
        let (words, rule_words) = (table.len(), rule.len());
        let (table, rule, buffer) = (table.as_ptr(), rule.as_ptr(), plan.as_mut_ptr());
        let (width, flag) = (width as u32, u32::from(uncounted));
        tcam_plan_insert(table, words, width, flag, rule, rule_words, edition, buffer, room, cells.0, cells.1, cells.2)
    };
    if number != 0 {
        return Err(Refusal { number, spot: u64::from(spot) });
    }
    plan.truncate(count as usize);
    Ok(Planned { writes: plan, covered: (covered != NONE).then_some(covered as usize) })
}

/// One write of a plan, made by the library: its result, and the progress as it is then.
pub fn carry_out(table: &mut [u64], width: usize, rule: &[u64], edition: u32, plan: &[u32], progress: &mut Progress) -> u64 {
    let mut record = ProgressRecord { done: progress.done, total: progress.total };
    let result = unsafe {
        let (words, rule_words, plan_words) = (table.len(), rule.len(), plan.len());
        let (table, rule, plan) = (table.as_mut_ptr(), rule.as_ptr(), plan.as_ptr());
        tcam_carry_out(table, words, width as u32, rule, rule_words, edition, plan, plan_words, &mut record)
    };
    *progress = Progress { done: record.done, total: record.total };
    result
}

/// What the library tells of the same insert with a list.
pub fn plan_insert_listed(
    table: &[u64],
    width: usize,
    uncounted: bool,
    rule: &[u64],
    edition: u32,
    list: &mut [u16],
) -> Result<ListedPlan, Refusal> {
    let mut plan = vec![0; table.len() / record_words(width)];
    let (mut count, mut covered, mut refreshed, mut spot) = (0, 0, 2, 0);
    let cells = (&mut count, &mut covered, &mut refreshed, &mut spot);
    let number = unsafe {
        let (words, rule_words, numbers, room) = (table.len(), rule.len(), list.len(), plan.len());
        let (table, rule, list, plan) = (table.as_ptr(), rule.as_ptr(), list.as_mut_ptr(), plan.as_mut_ptr());
        let (width, flag) = (width as u32, u32::from(uncounted));
        tcam_plan_insert_listed(
            table, words, width, flag, rule, rule_words, edition, list, numbers, plan, room, cells.0, cells.1, cells.2, cells.3,
        )
    };
    if number != 0 {
        return Err(Refusal { number, spot: u64::from(spot) });
    }
    plan.truncate(count as usize);
    let planned = Planned { writes: plan, covered: (covered != NONE).then_some(covered as usize) };
    Ok(ListedPlan { planned, refreshed: flag_of(refreshed) })
}

fn flag_of(refreshed: u32) -> bool {
    assert!(refreshed < 2, "whether a list was refreshed is told as 0 or 1, not as {refreshed}");
    refreshed == 1
}

/// One write with a list: the result, and whether the list was refreshed, where the call tells it.
pub fn carry_out_listed(
    table: &mut [u64],
    width: usize,
    uncounted: bool,
    rule: &[u64],
    edition: u32,
    list: &mut [u16],
    plan: &[u32],
    progress: &mut Progress,
) -> (u64, Option<bool>) {
    let mut record = ProgressRecord { done: progress.done, total: progress.total };
    let mut refreshed = u32::MAX;
    let result = unsafe {
        let (words, rule_words, numbers, plan_words) = (table.len(), rule.len(), list.len(), plan.len());
        let (table, rule, list, plan) = (table.as_mut_ptr(), rule.as_ptr(), list.as_mut_ptr(), plan.as_ptr());
        let (width, flag) = (width as u32, u32::from(uncounted));
        tcam_carry_out_listed(
            table,
            words,
            width,
            flag,
            rule,
            rule_words,
            edition,
            list,
            numbers,
            plan,
            plan_words,
            &mut record,
            &mut refreshed,
        )
    };
    *progress = Progress { done: record.done, total: record.total };
    (result, (refreshed != u32::MAX).then(|| flag_of(refreshed)))
}
