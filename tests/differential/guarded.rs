// The library's calls, each made on fenced buffers.
// A call gives back everything that can be seen of it: the result, the cells and the buffers as they are afterwards.

use crate::fence::Fence;
use crate::input::{initial_bytes, initial_words, Input, CELL_START};
use crate::lists::NUMBERS_MOST;
use reference::bits::WIDTHS;
use reference::image::image_bytes;
use reference::table::SLOTS_MOST;
use support::calls::*;

/// Everything that can be seen of a call. Cells and buffers that a call doesn't have stay out or empty.
#[derive(Clone, Debug, PartialEq, Eq)]
pub struct Seen {
    pub result: u64,
    pub cells: Vec<u32>,
    pub table: Vec<u64>,
    /// The words of the rule or of the key.
    pub beside: Vec<u64>,
    pub plan: Vec<u32>,
    pub image: Vec<u8>,
    pub list: Vec<u16>,
    pub guards_hold: bool,
}

/// Lent cells with a guard word between any two of them.
struct Cells {
    words: [u32; 9],
}

const CELL_GUARD: u32 = 0x7e57_7e57;

impl Cells {
    fn new() -> Cells {
        let mut words = [CELL_GUARD; 9];
        for cell in 0..4 {
            words[2 * cell + 1] = CELL_START + cell as u32;
        }
        Cells { words }
    }

    fn cell(&mut self, place: usize) -> *mut u32 {
        unsafe { self.words.as_mut_ptr().add(2 * place + 1) }
    }

    fn first(&self, count: usize) -> Vec<u32> {
        (0..count).map(|place| self.words[2 * place + 1]).collect()
    }

    fn guards_hold(&self) -> bool {
        self.words.iter().step_by(2).all(|&word| word == CELL_GUARD)
    }
}

/// What a call is lent beside the table.
#[derive(Default)]
struct Contents<'a> {
    beside: &'a [u64],
    plan: &'a [u32],
    image: &'a [u8],
    list: &'a [u16],
}

/// The buffers where they are lent, each with its length.
struct Buffers {
    table: (*mut u64, usize),
    beside: (*const u64, usize),
    plan: (*mut u32, usize),
    image: (*mut u8, usize),
    list: (*mut u16, usize),
}

/// The fenced room for the buffers, made once.
pub struct Guarded {
    table: Fence,
    beside: Fence,
    plan: Fence,
    image: Fence,
    list: Fence,
}

/// The most words that an input has in its table, and in its rule or a key.
pub const TABLE_WORDS_MOST: usize = 14 * (SLOTS_MOST + 1);
pub const RECORD_WORDS_MOST: usize = 600;

impl Guarded {
    pub fn new() -> Guarded {
        Guarded {
            table: Fence::new(8 * TABLE_WORDS_MOST),
            beside: Fence::new(8 * RECORD_WORDS_MOST),
            plan: Fence::new(8 * SLOTS_MOST),
            image: Fence::new(image_bytes(WIDTHS[1], SLOTS_MOST) + 4096),
            list: Fence::new(2 * NUMBERS_MOST),
        }
    }

    /// Lends the buffers, makes the call and looks at everything afterwards.
    fn observe(
        &self,
        input: &Input,
        contents: Contents,
        cell_count: usize,
        call: impl FnOnce(&Buffers, &mut Cells) -> u64,
    ) -> Seen {
        let after = input.fence_after;
        let (table, beside) = (self.table.lend(&input.table, after), self.beside.lend(contents.beside, after));
        let (plan, image) = (self.plan.lend(contents.plan, after), self.image.lend(contents.image, after));
        let list = self.list.lend(contents.list, after);
        let buffers = Buffers {
            table: (table.pointer(after), input.table.len()),
            beside: (beside.pointer::<u64>(after), contents.beside.len()),
            plan: (plan.pointer(after), contents.plan.len()),
            image: (image.pointer(after), contents.image.len()),
            list: (list.pointer(after), contents.list.len()),
        };
        let mut cells = Cells::new();
        let result = call(&buffers, &mut cells);
        let fences =
            [(&self.table, &table), (&self.beside, &beside), (&self.plan, &plan), (&self.image, &image), (&self.list, &list)];
        Seen {
            result,
            cells: cells.first(cell_count),
            table: table.read_back(),
            beside: beside.read_back(),
            plan: plan.read_back(),
            image: image.read_back(),
            list: list.read_back(),
            guards_hold: cells.guards_hold() && fences.iter().all(|(fence, lent)| fence.guards_hold(lent, after)),
        }
    }

    pub fn lookup(&self, input: &Input, key: &[u64]) -> Seen {
        let contents = Contents { beside: key, ..Contents::default() };
        self.observe(input, contents, 4, |Buffers { table, beside: key, .. }, cells| unsafe {
            let (slot, id, action, spot) = (cells.cell(0), cells.cell(1), cells.cell(2), cells.cell(3));
            u64::from(tcam_lookup(table.0, table.1, input.width as u32, key.0, key.1, slot, id, action, spot))
        })
    }

    pub fn slot_record(&self, input: &Input) -> Seen {
        self.observe(input, Contents::default(), 1, |Buffers { table, .. }, cells| unsafe {
            u64::from(tcam_slot_record(table.0, table.1, input.width as u32, input.slot, cells.cell(0)))
        })
    }

    pub fn plan_insert(&self, input: &Input) -> Seen {
        let contents = Contents { beside: &input.rule, plan: &initial_words(input.room), ..Contents::default() };
        self.observe(input, contents, 3, |Buffers { table, beside: rule, plan, .. }, cells| unsafe {
            let (width, flag, edition) = (input.width as u32, input.uncounted, input.edition);
            let (count, covered, spot) = (cells.cell(0), cells.cell(1), cells.cell(2));
            let ((table, words), (rule, rule_words), (plan, room)) = (*table, *rule, *plan);
            u64::from(tcam_plan_insert(table, words, width, flag, rule, rule_words, edition, plan, room, count, covered, spot))
        })
    }

    pub fn plan_delete(&self, input: &Input) -> Seen {
        let contents = Contents { plan: &initial_words(input.room), ..Contents::default() };
        self.observe(input, contents, 2, |Buffers { table, plan, .. }, cells| unsafe {
            let (width, flag, count, spot) = (input.width as u32, input.uncounted, cells.cell(0), cells.cell(1));
            u64::from(tcam_plan_delete(table.0, table.1, width, flag, input.id, plan.0, plan.1, count, spot))
        })
    }

    /// The cells seen are the progress record afterwards.
    pub fn carry_out(&self, input: &Input) -> Seen {
        let contents = Contents { beside: &input.rule, plan: &input.plan, ..Contents::default() };
        let mut guarded = [CELL_GUARD, input.done, input.total, CELL_GUARD];
        let mut seen = self.observe(input, contents, 0, |Buffers { table, beside: rule, plan, .. }, _| unsafe {
            let (width, edition) = (input.width as u32, input.edition);
            let progress = guarded.as_mut_ptr().add(1) as *mut ProgressRecord;
            tcam_carry_out(table.0, table.1, width, rule.0, rule.1, edition, plan.0, plan.1, progress)
        });
        seen.cells = guarded[1..3].to_vec();
        seen.guards_hold &= guarded[0] == CELL_GUARD && guarded[3] == CELL_GUARD;
        seen
    }

    pub fn plan_insert_listed(&self, input: &Input) -> Seen {
        let (plan, list) = (initial_words(input.room), input.list.as_deref().unwrap_or(&[]));
        let contents = Contents { beside: &input.rule, plan: &plan, list, ..Contents::default() };
        self.observe(input, contents, 4, |Buffers { table, beside: rule, plan, list, .. }, cells| unsafe {
            let (width, flag, edition) = (input.width as u32, input.uncounted, input.edition);
            let (count, covered, refreshed, spot) = (cells.cell(0), cells.cell(1), cells.cell(2), cells.cell(3));
            let ((table, words), (rule, rule_words), (list, numbers), (plan, room)) = (*table, *rule, *list, *plan);
            u64::from(tcam_plan_insert_listed(
                table, words, width, flag, rule, rule_words, edition, list, numbers, plan, room, count, covered, refreshed, spot,
            ))
        })
    }

    /// The cells seen are the progress record afterwards, and whether the list was refreshed.
    pub fn carry_out_listed(&self, input: &Input) -> Seen {
        let list = input.list.as_deref().unwrap_or(&[]);
        let contents = Contents { beside: &input.rule, plan: &input.plan, list, ..Contents::default() };
        let mut guarded = [CELL_GUARD, input.done, input.total, CELL_GUARD];
        let mut seen = self.observe(input, contents, 1, |Buffers { table, beside: rule, plan, list, .. }, cells| unsafe {
            let (width, flag, edition, refreshed) = (input.width as u32, input.uncounted, input.edition, cells.cell(0));
            let progress = guarded.as_mut_ptr().add(1) as *mut ProgressRecord;
            let ((table, words), (rule, rule_words), (list, numbers), (plan, room)) = (*table, *rule, *list, *plan);
            tcam_carry_out_listed(
                table, words, width, flag, rule, rule_words, edition, list, numbers, plan, room, progress, refreshed,
            )
        });
        seen.cells = [&guarded[1..3], &seen.cells].concat();
        seen.guards_hold &= guarded[0] == CELL_GUARD && guarded[3] == CELL_GUARD;
        seen
    }

    pub fn save(&self, input: &Input) -> Seen {
        let contents = Contents { image: &initial_bytes(input.room), ..Contents::default() };
        self.observe(input, contents, 2, |Buffers { table, image, .. }, cells| unsafe {
            let (width, flag, bytes, spot) = (input.width as u32, input.uncounted, cells.cell(0), cells.cell(1));
            u64::from(tcam_save(table.0, table.1, width, flag, image.0, image.1, bytes, spot))
        })
    }

    pub fn load(&self, input: &Input) -> Seen {
        let contents = Contents { image: &input.image, ..Contents::default() };
        self.observe(input, contents, 1, |Buffers { table, image, .. }, cells| unsafe {
            let (width, flag) = (input.width as u32, input.uncounted);
            u64::from(tcam_load(image.0, image.1, table.0, table.1, width, flag, cells.cell(0)))
        })
    }
}
