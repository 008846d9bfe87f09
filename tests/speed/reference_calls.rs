// tests/reference, as it is, behind the signatures of include/tcam.h.
// Its answers are copied into the lent buffers; a refusal writes none of them.

use crate::answers::*;

/// The reference's spots have 64 bits; those of these calls fit 32.
fn narrow(refusal: reference::table::Refusal) -> Refusal {
    Refusal { number: refusal.number, spot: refusal.spot as u32 }
}

/// Copies an answer's items into the lent buffer, and tells how many they are.
fn copied<T: Copy>(answer: Result<Vec<T>, reference::table::Refusal>, buffer: &mut [T]) -> Result<u32, Refusal> {
    let items = answer.map_err(narrow)?;
    buffer[..items.len()].copy_from_slice(&items);
    Ok(items.len() as u32)
}

mod lookups {
    use super::{narrow, Hit, Refusal};
    use reference::lookup::Found;

    pub fn lookup<const W: usize>(table: &[u64], key: &[u64]) -> Result<Option<Hit>, Refusal> {
        match reference::lookup::lookup(table, W, key).map_err(narrow)? {
            Found::Hit { slot, id, action } => Ok(Some(Hit { slot: slot as u32, id, action })),
            Found::Miss => Ok(None),
        }
    }

    pub fn holds_rule<const W: usize>(table: &[u64], slot: usize) -> Result<bool, Refusal> {
        Ok(!reference::lookup::slot_record(table, W, slot as u64).is_empty())
    }
}

mod plans {
    use super::{copied, narrow, Planned, Refusal, NO_SLOT};

    pub fn plan_insert<const W: usize>(
        table: &[u64],
        uncounted: bool,
        rule: &[u64],
        edition: u32,
        plan: &mut [u32],
    ) -> Result<Planned, Refusal> {
        let planned = reference::plan::plan_insert(table, W, uncounted, rule, edition, plan.len()).map_err(narrow)?;
        let covered = planned.covered.map_or(NO_SLOT, |slot| slot as u32);
        Ok(Planned { count: copied(Ok(planned.writes), plan)?, covered })
    }

    pub fn plan_delete<const W: usize>(table: &[u64], uncounted: bool, id: u32, plan: &mut [u32]) -> Result<u32, Refusal> {
        copied(reference::plan::plan_delete(table, W, uncounted, id, plan.len()), plan)
    }
}

mod steps {
    use super::{narrow, Progress, Refusal};
    use reference::carry::Carried;

    pub fn carry_out<const W: usize>(
        table: &mut [u64],
        rule: &[u64],
        edition: u32,
        plan: &[u32],
        progress: &mut Progress,
    ) -> Result<bool, Refusal> {
        let mut record = reference::carry::Progress { done: progress.done, total: progress.total };
        let carried = reference::carry::carry_out(table, W, rule, edition, plan, &mut record).map_err(narrow)?;
        progress.done = record.done;
        Ok(carried == Carried::Wrote)
    }
}

mod images {
    use super::{copied, Refusal};

    pub fn save<const W: usize>(table: &[u64], uncounted: bool, image: &mut [u8]) -> Result<u32, Refusal> {
        copied(reference::image::save(table, W, uncounted, image.len()), image)
    }

    pub fn load<const W: usize>(image: &[u8], table: &mut [u64], uncounted: bool) -> Result<(), Refusal> {
        copied(reference::image::load(image, table.len(), W, uncounted), table).map(|_| ())
    }
}

crate::export_calls!(
    reference_lookup reference_slot_record reference_plan_insert reference_plan_delete reference_carry_out reference_save
    reference_load
);
