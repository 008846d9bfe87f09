// The versions that are compared, each as its seven calls, and the calls' names.
// All have the signatures of include/tcam.h; the symbols are those that callgrind is told of.

use crate::answers::Progress;

extern crate safe as _;
extern crate unchecked as _;

#[derive(Clone, Copy, Debug, PartialEq, Eq, PartialOrd, Ord)]
pub enum Call {
    PlanInsert,
    PlanDelete,
    Lookup,
    SlotRecord,
    CarryOut,
    Save,
    Load,
}

pub const CALLS: [Call; 7] =
    [Call::PlanInsert, Call::PlanDelete, Call::Lookup, Call::SlotRecord, Call::CarryOut, Call::Save, Call::Load];

impl Call {
    pub fn name(self) -> &'static str {
        match self {
            Call::PlanInsert => "plan_insert",
            Call::PlanDelete => "plan_delete",
            Call::Lookup => "lookup",
            Call::SlotRecord => "slot_record",
            Call::CarryOut => "carry_out",
            Call::Save => "save",
            Call::Load => "load",
        }
    }
}

type Word = *const u64;
type Cell = *mut u32;
type Plan = *const u32;
pub type PlanInsert = unsafe extern "C" fn(Word, usize, u32, u32, Word, usize, u32, Cell, usize, Cell, Cell, Cell) -> u32;
pub type PlanDelete = unsafe extern "C" fn(Word, usize, u32, u32, u32, Cell, usize, Cell, Cell) -> u32;
pub type Lookup = unsafe extern "C" fn(Word, usize, u32, Word, usize, Cell, Cell, Cell, Cell) -> u32;
pub type SlotRecord = unsafe extern "C" fn(Word, usize, u32, u32, Cell) -> u32;
pub type CarryOut = unsafe extern "C" fn(*mut u64, usize, u32, Word, usize, u32, Plan, usize, *mut Progress) -> u64;
pub type Save = unsafe extern "C" fn(Word, usize, u32, u32, *mut u8, usize, Cell, Cell) -> u32;
pub type Load = unsafe extern "C" fn(*const u8, usize, *mut u64, usize, u32, u32, Cell) -> u32;

pub struct Version {
    pub name: &'static str,
    pub prefix: &'static str,
    pub plan_insert: PlanInsert,
    pub plan_delete: PlanDelete,
    pub lookup: Lookup,
    pub slot_record: SlotRecord,
    pub carry_out: CarryOut,
    pub save: Save,
    pub load: Load,
}

impl Version {
    pub fn symbol(&self, call: Call) -> String {
        format!("{}_{}", self.prefix, call.name())
    }
}

/// Declares the seven calls of a version and names them; parameters as in the types above.
macro_rules! version {
    ($name:literal $prefix:literal: $insert:ident $delete:ident $lookup:ident $record:ident $carry:ident $save:ident $load:ident) => {{
        extern "C" {
            fn $insert(
                _: Word,
                _: usize,
                _: u32,
                _: u32,
                _: Word,
                _: usize,
                _: u32,
                _: Cell,
                _: usize,
                _: Cell,
                _: Cell,
                _: Cell,
            ) -> u32;
            fn $delete(_: Word, _: usize, _: u32, _: u32, _: u32, _: Cell, _: usize, _: Cell, _: Cell) -> u32;
            fn $lookup(_: Word, _: usize, _: u32, _: Word, _: usize, _: Cell, _: Cell, _: Cell, _: Cell) -> u32;
            fn $record(_: Word, _: usize, _: u32, _: u32, _: Cell) -> u32;
            fn $carry(_: *mut u64, _: usize, _: u32, _: Word, _: usize, _: u32, _: Plan, _: usize, _: *mut Progress) -> u64;
            fn $save(_: Word, _: usize, _: u32, _: u32, _: *mut u8, _: usize, _: Cell, _: Cell) -> u32;
            fn $load(_: *const u8, _: usize, _: *mut u64, _: usize, _: u32, _: u32, _: Cell) -> u32;
        }
        Version {
            name: $name,
            prefix: $prefix,
            plan_insert: $insert,
            plan_delete: $delete,
            lookup: $lookup,
            slot_record: $record,
            carry_out: $carry,
            save: $save,
            load: $load,
        }
    }};
}

/// Places in the list of versions.
pub const OURS: usize = 0;
pub const SAFE: usize = 1;
pub const UNCHECKED: usize = 2;
pub const GCC: usize = 3;
pub const REFERENCE: usize = 4;

#[rustfmt::skip]
pub fn versions() -> Vec<Version> {
    vec![
        version!("ours" "tcam":
            tcam_plan_insert tcam_plan_delete tcam_lookup tcam_slot_record tcam_carry_out tcam_save tcam_load),
        version!("safe Rust" "safe":
            safe_plan_insert safe_plan_delete safe_lookup safe_slot_record safe_carry_out safe_save safe_load),
        version!("unchecked Rust" "unchecked":
            unchecked_plan_insert unchecked_plan_delete unchecked_lookup unchecked_slot_record unchecked_carry_out
            unchecked_save unchecked_load),
        version!("gcc -O3" "c":
            c_plan_insert c_plan_delete c_lookup c_slot_record c_carry_out c_save c_load),
        version!("reference" "reference":
            reference_plan_insert reference_plan_delete reference_lookup reference_slot_record reference_carry_out
            reference_save reference_load),
    ]
}
