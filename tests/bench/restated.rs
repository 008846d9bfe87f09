// What the self-check holds planners to that are not in the reference: document 001's algorithm 2 in its own addresses, and
// a count of the priority-ordered firmware's writes by trial. Slow, and apart from what the planners use.

use crate::fast_rule::Way;
use crate::memory::{Chain, Memory, NoPlan};
use reference::table::{Rule, COUNTED};

/// The memory in document 001's addresses, the highest of which is where rules move to.
struct Published {
    table: Vec<Option<Rule>>,
    /// The DAG's edges: whether the first rule's address is to be lower than the second's.
    has_edge: fn(&Rule, &Rule) -> bool,
}

impl Published {
    fn addresses_of(&self, is_sought: impl Fn(&Rule) -> bool) -> impl Iterator<Item = usize> {
        let found: Vec<bool> = self.table.iter().map(|entry| entry.as_ref().is_some_and(&is_sought)).collect();
        (0..found.len()).filter(move |&address| found[address])
    }

    /// succ(A) of algorithm 2, s of algorithm 1: the least address that the rule has an edge to.
    fn successor(&self, rule: &Rule) -> Option<usize> {
        self.addresses_of(|other| (self.has_edge)(rule, other)).min()
    }

    /// M(A): the length of algorithm 1's path.
    fn metric(&self, address: usize) -> usize {
        match &self.table[address] {
            None => 0,
            Some(rule) => 1 + self.successor(rule).map_or(0, |next| self.metric(next)),
        }
    }

    /// Algorithm 2 for the candidates from `address` to the successor's, or to the highest, as figure 3 calls it.
    fn schedule(&self, address: usize, successor: Option<usize>) -> Option<Chain> {
        let mut least = usize::MAX;
        let mut chosen = None;
        for candidate in address..=successor.unwrap_or(self.table.len() - 1) {
            let metric = self.metric(candidate);
            if metric <= least {
                least = metric;
                chosen = Some(candidate);
            }
        }
        let chosen = chosen?;
        let mut chain = vec![chosen];
        if let Some(displaced) = &self.table[chosen] {
            chain.extend(self.schedule(chosen + 1, self.successor(displaced))?);
        }
        Some(chain)
    }
}

pub fn algorithm_2(memory: &Memory, new: &Rule, way: Way) -> Result<Chain, NoPlan> {
    let mut table = memory.slots.clone();
    let has_edge: fn(&Rule, &Rule) -> bool = match way {
        Way::Up => |rule, other| rule.depends_on(other, COUNTED),
        Way::Down => |rule, other| rule.precedes(other, COUNTED),
    };
    if way == Way::Up {
        table.reverse();
    }
    let published = Published { table, has_edge };
    let before = published.addresses_of(|other| has_edge(other, new)).max();
    let successor = published.successor(new);
    if before.is_some() && successor.is_some() && before > successor {
        return Err(NoPlan::Crossed);
    }
    let chain = published.schedule(before.map_or(0, |before| before + 1), successor).ok_or(NoPlan::NoRoom)?;
    let highest = memory.slots.len() - 1;
    Ok(chain.into_iter().map(|address| if way == Way::Up { highest - address } else { address }).collect())
}

pub fn is_by_priority(slots: &[Option<Rule>]) -> bool {
    let ranks: Vec<u64> = slots.iter().flatten().map(|rule| rule.rank).collect();
    ranks.windows(2).all(|pair| pair[0] >= pair[1])
}

/// Every empty slot is tried with every slot for the new rule, what stands between them shifted by one toward the empty one:
/// the least number of slots that change, where the rules then stand by falling priority.
pub fn shortest_shift(memory: &Memory, new: &Rule) -> Option<usize> {
    let mut counts = Vec::new();
    for empty in (0..memory.slots.len()).filter(|&slot| memory.slots[slot].is_none()) {
        for place in 0..memory.slots.len() {
            let mut shifted = memory.slots.clone();
            shifted.remove(empty);
            shifted.insert(place, Some(*new));
            if is_by_priority(&shifted) {
                counts.push(empty.abs_diff(place) + 1);
            }
        }
    }
    counts.into_iter().min()
}
