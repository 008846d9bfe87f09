// What one call is given, and the buffers and cells that it is lent.
// An input has a field for everything that some call takes; each call reads its own.

use crate::answers::Progress;
use crate::listed;
use crate::tables::RuleTable;
use crate::versions::{Call, Version, CALLS};
use reference::image::{image_bytes, save};
use reference::plan::plan_insert;
use reference::table::record_words;

#[derive(Clone, Debug)]
pub struct Input {
    pub call: Call,
    /// The width at which the table is made.
    pub width: usize,
    /// The width that is given.
    pub given: u32,
    /// The number by which the table is named as counted or uncounted.
    pub uncounted: u32,
    pub table: Vec<u64>,
    pub key: Vec<u64>,
    pub slot: u32,
    pub id: u32,
    /// The record of a rule that is given, and its edition.
    pub rule: Vec<u64>,
    pub edition: u32,
    /// Words of the plan buffer, or bytes of the image buffer, that the call may write.
    pub room: usize,
    pub plan: Vec<u32>,
    pub done: u32,
    pub total: u32,
    pub image: Vec<u8>,
    /// A neighbour list, where a planned insert or a write is lent one.
    pub list: Option<Vec<u16>>,
}

/// The buffers and cells of a call. What a call may not write keeps the marks it starts with.
#[derive(Clone, Debug, PartialEq, Eq)]
pub struct Lent {
    pub table: Vec<u64>,
    pub plan: Vec<u32>,
    pub image: Vec<u8>,
    pub list: Vec<u16>,
    pub cells: [u32; 4],
    pub done: u32,
    pub total: u32,
}

const CELL_MARK: u32 = 0x6c65_6e74;
const PLAN_MARK: u32 = 0x706c_616e;
const IMAGE_MARK: u8 = 0xa5;
const TABLE_MARK: u64 = 0x7461_626c_6574_6162;

impl Lent {
    pub fn new(input: &Input) -> Lent {
        let (plan, image) = match input.call {
            Call::PlanInsert | Call::PlanDelete => (vec![PLAN_MARK; input.room], Vec::new()),
            Call::Save => (Vec::new(), vec![IMAGE_MARK; input.room]),
            _ => (input.plan.clone(), input.image.clone()),
        };
        let table = if input.call == Call::Load { vec![TABLE_MARK; input.table.len()] } else { input.table.clone() };
        let list = input.list.clone().unwrap_or_default();
        Lent { table, plan, image, list, cells: [CELL_MARK; 4], done: input.done, total: input.total }
    }

    /// Takes back what a step changed.
    pub fn restore(&mut self, input: &Input) {
        self.done = input.done;
        self.table.copy_from_slice(&input.table);
    }
}

/// Makes the call of a version and gives its result; with a list the call is ours.
pub fn perform(version: &Version, input: &Input, lent: &mut Lent) -> u64 {
    if input.list.is_some() {
        return listed::perform(input, lent);
    }
    let (table, words, width, flag) = (lent.table.as_mut_ptr(), lent.table.len(), input.given, input.uncounted);
    let (plan, plan_words) = (lent.plan.as_mut_ptr(), lent.plan.len());
    let (image, image_bytes) = (lent.image.as_mut_ptr(), lent.image.len());
    let (key, key_words) = (input.key.as_ptr(), input.key.len());
    let (rule, rule_words, edition) = (input.rule.as_ptr(), input.rule.len(), input.edition);
    let [first, second, third, fourth] = &mut lent.cells;
    let number = unsafe {
        match input.call {
            Call::Lookup => (version.lookup)(table, words, width, key, key_words, first, second, third, fourth),
            Call::SlotRecord => (version.slot_record)(table, words, width, input.slot, first),
            Call::PlanInsert => (version.plan_insert)(
                table, words, width, flag, rule, rule_words, edition, plan, plan_words, first, second, third,
            ),
            Call::PlanDelete => (version.plan_delete)(table, words, width, flag, input.id, plan, plan_words, first, second),
            Call::Save => (version.save)(table, words, width, flag, image, image_bytes, first, second),
            Call::Load => (version.load)(image, image_bytes, table, words, width, flag, first),
            Call::CarryOut => return perform_carry_out(version, input, lent),
        }
    };
    u64::from(number)
}

fn perform_carry_out(version: &Version, input: &Input, lent: &mut Lent) -> u64 {
    let (table, words) = (lent.table.as_mut_ptr(), lent.table.len());
    let (rule, rule_words, edition) = (input.rule.as_ptr(), input.rule.len(), input.edition);
    let (plan, plan_words) = (lent.plan.as_ptr(), lent.plan.len());
    let mut progress = Progress { done: lent.done, total: lent.total };
    let step = version.carry_out;
    let number = unsafe { step(table, words, input.given, rule, rule_words, edition, plan, plan_words, &mut progress) };
    lent.done = progress.done;
    lent.total = progress.total;
    number
}

/// The slots of a table that are not empty.
pub fn occupied_slots(table: &[u64], width: usize) -> Vec<usize> {
    let records = table.chunks_exact(record_words(width)).enumerate();
    records.filter(|(_, record)| record.iter().any(|&word| word != 0)).map(|(slot, _)| slot).collect()
}

/// The seven inputs of a table: the last rule's key, record and delete; the new rule's plan and its first write.
/// The plan and the image are the reference's.
pub fn inputs_of(table: &RuleTable) -> Vec<Input> {
    let (width, words) = (table.width, &table.words);
    let slots = words.len() / record_words(width);
    let slot = occupied_slots(words, width).last().copied().unwrap_or(0);
    let last = &words[slot * record_words(width)..][..record_words(width)];
    let rule = table.new.record(width);
    let planned = plan_insert(words, width, table.uncounted, &rule, table.edition, slots);
    let plan = planned.map(|planned| planned.writes).unwrap_or_default();
    let image = save(words, width, table.uncounted, image_bytes(width, slots)).expect("a sound table");
    let input = |call: Call| Input {
        call,
        width,
        given: width as u32,
        uncounted: u32::from(table.uncounted),
        table: words.clone(),
        key: last[..width].to_vec(),
        slot: slot as u32,
        id: (last[2 * width] >> 32) as u32,
        rule: rule.clone(),
        edition: table.edition,
        room: if call == Call::Save { image.len() } else { slots },
        plan: plan.clone(),
        done: 0,
        total: plan.len() as u32,
        image: image.clone(),
        list: None,
    };
    CALLS.into_iter().map(input).collect()
}
