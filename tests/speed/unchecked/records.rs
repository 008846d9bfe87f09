// Reads and stores without a bounds check; tests of one slot's record, and of two, which end at the first word that tells.
// After check 2 an id of 0 tells an empty slot: no further word is kept in a register for it.

use crate::answers::{refuse, Record, Refusal, EDITION, EDITION_10, EDITION_13, EXACT_RANK, PRIORITY_MOST, RULE};

/// # Safety
/// `place` is below the length.
#[inline(always)]
pub unsafe fn at<T: Copy>(slice: &[T], place: usize) -> T {
    *slice.get_unchecked(place)
}

/// # Safety
/// `place` is below the length.
#[inline(always)]
pub unsafe fn put<T>(slice: &mut [T], place: usize, item: T) {
    *slice.get_unchecked_mut(place) = item;
}

#[inline(always)]
pub fn is_empty<const W: usize>(record: &Record<W>) -> bool {
    let some = (0..W).fold(record.owner | record.rank, |some, word| some | record.value[word] | record.mask[word]);
    some == 0
}

#[inline(always)]
pub fn id_of<const W: usize>(record: &Record<W>) -> u32 {
    (record.owner >> 32) as u32
}

#[inline(always)]
fn is_within<const W: usize>(record: &Record<W>) -> bool {
    (0..W).all(|word| record.value[word] & !record.mask[word] == 0)
}

/// Whether every mask bit is set.
#[inline(always)]
fn is_exact<const W: usize>(record: &Record<W>) -> bool {
    (0..W).all(|word| record.mask[word] == u64::MAX)
}

/// Whether a record's rank and pattern are a rule's: the rank is a priority, or the one above all priorities that only a rule
/// without wildcards may have. Of most records the first comparison tells.
#[inline(always)]
pub fn rest_is_sound<const W: usize>(record: &Record<W>) -> bool {
    if record.rank > PRIORITY_MOST && !(record.rank == EXACT_RANK && is_exact(record)) {
        return false;
    }
    is_within(record)
}

/// Checks 5 and 18 of a rule that is given; its record with its rank.
#[inline(always)]
pub fn ranked<const W: usize>(given: &Record<W>, edition: u32) -> Result<Record<W>, Refusal> {
    if id_of(given) == 0 || given.rank > PRIORITY_MOST || !is_within(given) {
        return refuse(RULE, 0);
    }
    match edition {
        EDITION_10 if is_exact(given) => Ok(Record { rank: EXACT_RANK, ..*given }),
        EDITION_10 | EDITION_13 => Ok(*given),
        _ => refuse(EDITION, 0),
    }
}

/// Whether a record is empty or sound.
#[inline(always)]
pub fn is_fit<const W: usize>(record: &Record<W>) -> bool {
    if id_of(record) != 0 {
        rest_is_sound(record)
    } else {
        is_empty(record)
    }
}

/// Of most records the first two words of a key tell, of an empty one its id: the further words are asked last.
#[inline(always)]
pub fn matches<const W: usize>(record: &Record<W>, key: &[u64; W]) -> bool {
    let word_matches = |word: usize| (key[word] ^ record.value[word]) & record.mask[word] == 0;
    (0..2).all(word_matches) && id_of(record) != 0 && (2..W).all(word_matches)
}

#[inline(always)]
pub fn overlap<const W: usize>(first: &Record<W>, second: &Record<W>) -> bool {
    (0..W).all(|word| (first.value[word] ^ second.value[word]) & first.mask[word] & second.mask[word] == 0)
}

#[inline(always)]
fn same_action<const W: usize>(first: &Record<W>, second: &Record<W>) -> bool {
    first.owner as u32 == second.owner as u32
}

#[inline(always)]
fn distinct<const W: usize>(first: &Record<W>, second: &Record<W>, uncounted: bool) -> bool {
    let are_two = id_of(first) != 0 && id_of(second) != 0 && id_of(first) != id_of(second);
    are_two && !(uncounted && same_action(first, second))
}

/// Whether the records hold two rules of different ids that overlap, in an uncounted table of different actions too; patterns tell most
/// pairs apart.
#[inline(always)]
pub fn rules_overlap<const W: usize>(first: &Record<W>, second: &Record<W>, uncounted: bool) -> bool {
    overlap(first, second) && distinct(first, second, uncounted)
}

#[inline(always)]
pub fn tied<const W: usize>(first: &Record<W>, second: &Record<W>, uncounted: bool) -> bool {
    first.rank == second.rank && overlap(first, second) && distinct(first, second, uncounted)
}

/// Whether a record holds a rule of the new one's rank, value and mask; of most records the rank tells.
#[inline(always)]
pub fn is_equal<const W: usize>(record: &Record<W>, new: &Record<W>) -> bool {
    let same_word = |word: usize| record.value[word] == new.value[word] && record.mask[word] == new.mask[word];
    record.rank == new.rank && (0..W).all(same_word) && id_of(record) != 0
}

/// Whether it has the new one's action too, as in an uncounted table a rule that is replaced.
#[inline(always)]
pub fn is_equal_in_action<const W: usize>(record: &Record<W>, new: &Record<W>) -> bool {
    is_equal(record, new) && same_action(record, new)
}

#[inline(always)]
pub fn precedes<const W: usize>(first: &Record<W>, second: &Record<W>, uncounted: bool) -> bool {
    first.rank > second.rank && overlap(first, second) && distinct(first, second, uncounted)
}

/// Whether the first's mask has no bit outside the second's.
#[inline(always)]
fn mask_is_within<const W: usize>(first: &Record<W>, second: &Record<W>) -> bool {
    (0..W).all(|word| first.mask[word] & !second.mask[word] == 0)
}

/// Whether a record holds a rule of a higher rank that covers the new one: the two overlap, and it cares for no bit but those of the new
/// one. The masks are asked first: they tell most rules that overlap. An empty slot's rank is above none.
#[inline(always)]
pub fn obscures<const W: usize>(record: &Record<W>, new: &Record<W>) -> bool {
    record.rank > new.rank && mask_is_within(record, new) && overlap(record, new)
}
