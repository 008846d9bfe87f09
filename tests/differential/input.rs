// One input of the differential test: a call and everything handed to it, in one flat record that can be made smaller.
// Buffers that a call only writes start with known contents, so that words left as they were can be told.

use reference::given::EDITION_13;
use reference::table::record_words;

#[derive(Clone, Copy, Debug, PartialEq, Eq, PartialOrd, Ord)]
pub enum Call {
    Lookup,
    SlotRecord,
    PlanInsert,
    PlanDelete,
    CarryOut,
    Save,
    Load,
    /// An insert planned and carried out write by write, with lookups between the writes.
    InsertInFull,
    /// The same for a delete.
    DeleteInFull,
}

#[derive(Clone, Debug, PartialEq, Eq)]
pub struct Input {
    pub call: Call,
    /// The words of a value, as the call is told; they may be others than those of table, rule and keys.
    pub width: usize,
    /// The number by which the table is told to be counted or uncounted, where the call takes one.
    pub uncounted: u32,
    pub table: Vec<u64>,
    /// The new rule's record, with its priority.
    pub rule: Vec<u64>,
    /// The edition that is told with the rule, which may be none that there is.
    pub edition: u32,
    /// The id to delete.
    pub id: u32,
    pub keys: Vec<Vec<u64>>,
    pub slot: u32,
    /// Length of the lent plan buffer in words, or of the image buffer in bytes.
    pub room: usize,
    pub plan: Vec<u32>,
    pub done: u32,
    pub total: u32,
    pub image: Vec<u8>,
    /// The neighbour list that is lent: where there is one, an insert is planned and a write is made with it too.
    pub list: Option<Vec<u16>>,
    /// Of a plan carried out in full every so many writes one is made without the list; 0 is none.
    pub list_left_out: u32,
    pub fence_after: bool,
}

impl Input {
    /// A rule of zeros under 1.3 and nothing else beside the table, which is told as counted.
    pub fn new(call: Call, width: usize, table: Vec<u64>, fence_after: bool) -> Input {
        Input {
            call,
            width,
            uncounted: 0,
            table,
            rule: vec![0; record_words(width)],
            edition: EDITION_13,
            id: 0,
            keys: Vec::new(),
            slot: 0,
            room: 0,
            plan: Vec::new(),
            done: 0,
            total: 0,
            image: Vec::new(),
            list: None,
            list_left_out: 0,
            fence_after,
        }
    }

    /// As the header says: 0 is counted, and any other number uncounted.
    pub fn is_uncounted(&self) -> bool {
        self.uncounted != 0
    }
}

/// Cell number k starts with this plus k.
pub const CELL_START: u32 = 0xce11_0000;

pub fn initial_words(count: usize) -> Vec<u32> {
    (0..count).map(|place| 0xb0ff_0000 + place as u32).collect()
}

pub fn initial_bytes(count: usize) -> Vec<u8> {
    (0..count).map(|place| (place % 251) as u8 ^ 0xb0).collect()
}
