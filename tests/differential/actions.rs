// What tables without counters ask for beside the style of a table: numbers that name a table as counted or not, few actions, so that
// rules of one action and of several are both frequent, and equal rules of one action.

use reference::table::{Rule, Slot, UNCOUNTED};
use support::random::Random;

/// Numbers that all name a table as uncounted: such as would pass for 0 where only a part is looked at, or not for 1.
pub const FLAGS: [u32; 6] = [1, 2, 1 << 8, 1 << 16, 1 << 31, u32::MAX];

/// A number by which a call is told whether its table is an uncounted one.
pub fn flag(random: &mut Random, uncounted: bool) -> u32 {
    let any = random.word() as u32 | 1;
    match random.below(16) {
        _ if !uncounted => 0,
        0 => any,
        _ => random.pick(&FLAGS),
    }
}

/// One to four actions, most of which differ from the first in one bit.
pub fn few_actions(random: &mut Random) -> Vec<u32> {
    let any = random.word() as u32;
    let first = random.pick(&[0, 1, 7, u32::MAX, any]);
    let mut others = [first ^ 1, first ^ 1 << 31, first ^ 1 << random.below(32), any];
    random.shuffle(&mut others);
    let count = random.between(0, 3);
    [&[first], &others[..count]].concat()
}

/// Gives some slots the value, mask, rank and action of another, and the id of the slot, where the table stays in order uncounted.
pub fn add_equal_rules(random: &mut Random, table: &mut [Slot], id_of: impl Fn(usize) -> u32) {
    for _ in 0..random.between(1, 3) {
        let (from, to) = (random.below(table.len()), random.below(table.len()));
        let Some(rule) = table[from] else { continue };
        let equal = Rule { id: id_of(to), ..rule };
        if from != to && stands_in_order(table, to, &equal) {
            table[to] = Some(equal);
        }
    }
}

/// Whether a rule may stand in a slot of an uncounted table, among the rules of the others.
fn stands_in_order(table: &[Slot], slot: usize, rule: &Rule) -> bool {
    table.iter().enumerate().filter(|(other, _)| *other != slot).all(|(other, entry)| {
        let is_ordered = |other: &Rule| other.is_ordered_with(rule, UNCOUNTED);
        entry.filter(is_ordered).is_none_or(|met| if other < slot { met.rank > rule.rank } else { met.rank < rule.rank })
    })
}
