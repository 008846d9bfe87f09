// What the Rust versions share: refusals, records, the progress record, and the form in which their calls cross to C.
// `export_calls` turns lent pointers into slices and answers into numbers and cells, and chooses the width; all else is the
// versions' own.

pub use reference::given::{EDITION_10, EDITION_13};
pub use reference::plan::{EMPTYING, PUT_IN};
pub use reference::table::{
    CROSSED, EDITION, EXACT_RANK, FULL, IMAGE, KNOWN, ORDER, PRIORITY_MOST, RECORD, RULE, SHAPE, SHORT, SLOTS_MOST, TIE, TWICE,
    UNKNOWN, WRITE,
};

/// What an answer has in place of a slot where there is none.
pub const NO_SLOT: u32 = 65_535;

/// A number and a spot.
pub struct Refusal {
    pub number: u32,
    pub spot: u32,
}

pub fn refuse<T>(number: u32, spot: usize) -> Result<T, Refusal> {
    Err(Refusal { number, spot: spot as u32 })
}

/// A slot's record, of W words of value and as many of mask; that of a rule that is given too, with its priority for its rank.
#[derive(Clone, Copy)]
#[repr(C)]
pub struct Record<const W: usize> {
    pub value: [u64; W],
    pub mask: [u64; W],
    /// Id and action.
    pub owner: u64,
    pub rank: u64,
}

impl<const W: usize> Record<W> {
    pub const WORDS: usize = 2 * W + 2;
    pub const EMPTY: Record<W> = Record { value: [0; W], mask: [0; W], owner: 0, rank: 0 };

    /// Check 1: the slots of a table of so many words.
    fn slots(words: usize) -> Result<usize, Refusal> {
        let slots = words / Self::WORDS;
        if words % Self::WORDS != 0 || slots < 1 || slots > SLOTS_MOST {
            return refuse(SHAPE, 0);
        }
        Ok(slots)
    }

    /// Check 1: a table's records, which are its words and nothing else.
    pub fn all(table: &[u64]) -> Result<&[Record<W>], Refusal> {
        let slots = Self::slots(table.len())?;
        Ok(unsafe { std::slice::from_raw_parts(table.as_ptr().cast(), slots) })
    }

    pub fn all_mut(table: &mut [u64]) -> Result<&mut [Record<W>], Refusal> {
        let slots = Self::slots(table.len())?;
        Ok(unsafe { std::slice::from_raw_parts_mut(table.as_mut_ptr().cast(), slots) })
    }

    /// Check 1 of a rule: the words of one record.
    pub fn one(rule: &[u64]) -> Result<&Record<W>, Refusal> {
        if rule.len() != Self::WORDS {
            return refuse(SHAPE, 0);
        }
        Ok(unsafe { &*rule.as_ptr().cast() })
    }
}

/// Check 1 of a key.
pub fn key_of<const W: usize>(key: &[u64]) -> Result<&[u64; W], Refusal> {
    key.try_into().or_else(|_| refuse(SHAPE, 0))
}

/// A plan's words, and the slot of the rule that covers the new one, or that there is none.
pub struct Planned {
    pub count: u32,
    pub covered: u32,
}

pub struct Hit {
    pub slot: u32,
    pub id: u32,
    pub action: u32,
}

#[repr(C)]
pub struct Progress {
    pub done: u32,
    pub total: u32,
}

/// # Safety
/// The pointer is valid for the length, where that is not 0.
pub unsafe fn lent<'a, T>(pointer: *const T, length: usize) -> &'a [T] {
    if length == 0 {
        return &[];
    }
    std::slice::from_raw_parts(pointer, length)
}

/// # Safety
/// The pointer is valid for the length, where that is not 0.
pub unsafe fn lent_mut<'a, T>(pointer: *mut T, length: usize) -> &'a mut [T] {
    if length == 0 {
        return &mut [];
    }
    std::slice::from_raw_parts_mut(pointer, length)
}

/// An answer that is one number, over its cell and the spot's.
pub fn spread(answer: Result<u32, Refusal>, data: &mut u32, spot: &mut u32) -> u32 {
    match answer {
        Ok(number) => {
            *data = number;
            0
        }
        Err(refusal) => {
            *spot = refusal.spot;
            refusal.number
        }
    }
}

/// The answer to an insert, over its cells.
pub fn spread_planned(answer: Result<Planned, Refusal>, count: &mut u32, covered: &mut u32, spot: &mut u32) -> u32 {
    match answer {
        Ok(planned) => {
            *count = planned.count;
            *covered = planned.covered;
            0
        }
        Err(refusal) => {
            *spot = refusal.spot;
            refusal.number
        }
    }
}

/// A lookup's answer, over its cells.
pub fn spread_hit(answer: Result<Option<Hit>, Refusal>, slot: &mut u32, id: &mut u32, action: &mut u32, spot: &mut u32) -> u32 {
    match answer {
        Ok(found) => {
            let hit = found.unwrap_or(Hit { slot: 0, id: 0, action: 0 });
            *slot = hit.slot;
            *id = hit.id;
            *action = hit.action;
            0
        }
        Err(refusal) => {
            *spot = refusal.spot;
            refusal.number
        }
    }
}

/// A step's answer as one number: 0 for a write, 2^32 - 1 for "finished", else number and spot.
pub fn step_number(answer: Result<bool, Refusal>) -> u64 {
    match answer {
        Ok(true) => 0,
        Ok(false) => 0xffff_ffff,
        Err(refusal) => u64::from(refusal.spot) << 32 | u64::from(refusal.number),
    }
}

/// A call at the width given, as a constant: the compiler makes a copy for each. Any other width is refused.
#[macro_export]
macro_rules! at_width {
    ($width:expr, $module:ident::$call:ident($($given:expr),*)) => {
        match $width {
            2 => $module::$call::<2>($($given),*),
            5 => $module::$call::<5>($($given),*),
            _ => refuse(SHAPE, 0),
        }
    };
}

/// The seven calls under the names given, with the signatures of include/tcam.h.
#[macro_export]
macro_rules! export_calls {
    ($lookup:ident $slot_record:ident $plan_insert:ident $plan_delete:ident $carry_out:ident $save:ident $load:ident) => {
        #[no_mangle]
        unsafe extern "C" fn $lookup(
            table: *const u64,
            words: usize,
            width: u32,
            key: *const u64,
            key_words: usize,
            slot: &mut u32,
            id: &mut u32,
            action: &mut u32,
            spot: &mut u32,
        ) -> u32 {
            let (table, key) = (lent(table, words), lent(key, key_words));
            spread_hit($crate::at_width!(width, lookups::lookup(table, key)), slot, id, action, spot)
        }

        #[no_mangle]
        unsafe extern "C" fn $slot_record(table: *const u64, words: usize, width: u32, slot: u32, first: &mut u32) -> u32 {
            let table = lent(table, words);
            let held = $crate::at_width!(width, lookups::holds_rule(table, slot as usize));
            let record_words = if held.unwrap_or(false) { 2 * width + 2 } else { 0 };
            *first = slot.wrapping_mul(record_words);
            record_words
        }

        #[no_mangle]
        unsafe extern "C" fn $plan_insert(
            table: *const u64,
            words: usize,
            width: u32,
            uncounted: u32,
            rule: *const u64,
            rule_words: usize,
            edition: u32,
            plan: *mut u32,
            plan_words: usize,
            count: &mut u32,
            covered: &mut u32,
            spot: &mut u32,
        ) -> u32 {
            let (table, rule, plan) = (lent(table, words), lent(rule, rule_words), lent_mut(plan, plan_words));
            let answer = $crate::at_width!(width, plans::plan_insert(table, uncounted != 0, rule, edition, plan));
            spread_planned(answer, count, covered, spot)
        }

        #[no_mangle]
        unsafe extern "C" fn $plan_delete(
            table: *const u64,
            words: usize,
            width: u32,
            uncounted: u32,
            id: u32,
            plan: *mut u32,
            plan_words: usize,
            count: &mut u32,
            spot: &mut u32,
        ) -> u32 {
            let (table, plan) = (lent(table, words), lent_mut(plan, plan_words));
            spread($crate::at_width!(width, plans::plan_delete(table, uncounted != 0, id, plan)), count, spot)
        }

        #[no_mangle]
        unsafe extern "C" fn $carry_out(
            table: *mut u64,
            words: usize,
            width: u32,
            rule: *const u64,
            rule_words: usize,
            edition: u32,
            plan: *const u32,
            plan_words: usize,
            progress: &mut Progress,
        ) -> u64 {
            let (table, rule, plan) = (lent_mut(table, words), lent(rule, rule_words), lent(plan, plan_words));
            step_number($crate::at_width!(width, steps::carry_out(table, rule, edition, plan, progress)))
        }

        #[no_mangle]
        unsafe extern "C" fn $save(
            table: *const u64,
            words: usize,
            width: u32,
            uncounted: u32,
            image: *mut u8,
            image_bytes: usize,
            bytes: &mut u32,
            spot: &mut u32,
        ) -> u32 {
            let (table, image) = (lent(table, words), lent_mut(image, image_bytes));
            spread($crate::at_width!(width, images::save(table, uncounted != 0, image)), bytes, spot)
        }

        #[no_mangle]
        unsafe extern "C" fn $load(
            image: *const u8,
            image_bytes: usize,
            table: *mut u64,
            words: usize,
            width: u32,
            uncounted: u32,
            spot: &mut u32,
        ) -> u32 {
            let (image, table) = (lent(image, image_bytes), lent_mut(table, words));
            let mut loaded = 0;
            spread($crate::at_width!(width, images::load(image, table, uncounted != 0)).map(|()| 0), &mut loaded, spot)
        }
    };
}
