// How inputs are made: sound tables of every fill and layout, damage to them, arbitrary words, plans and images.
// Rules use few bit positions, so that overlaps, ties and crossings are frequent and plans long, and one rule often covers another.
// In larger tables they also stand apart, so that the maps of 160 slots and more tell most pairs.
// Half of the inputs have values of two words, half of five; in some, words and width don't fit each other.
// In half of the tables some rules are exact, with every mask bit set, or nearly so, among those that are not.
// In a quarter of the inputs the rule is one of the table sent again, or nearly so; a third of these tables is full.
// Half of the tables are made uncounted, with few actions, ranks that often tie, and equal rules; most are told as what they are made.
// Half of the inputs for calls that have a form with a neighbour list are lent one; half of the tables to carry out on are disordered.

use crate::actions::{add_equal_rules, few_actions, flag};
use crate::exact::{edition, exact_or_nearly, Edged};
use crate::input::{Call, Input};
use crate::largest::make_largest;
use crate::lists::{disorder, lend_list, make_fit, takes_list};
use crate::misfit;
use reference::bits::{Bits, WIDTHS};
use reference::given::{Given, EDITION_10, EDITION_13};
use reference::image::{body_offset, image_bytes, image_of};
use reference::plan::{plan_insert, write_word, EMPTYING, PUT_IN};
use reference::table::{read_slots, record_words, rule_of, words_of, Rule, Slot, EXACT_RANK, PRIORITY_MOST, SLOTS_MOST};
use support::random::Random;

/// How the patterns of a table are made.
#[derive(Clone, Copy, PartialEq)]
enum Style {
    /// Rule k overlaps rules k - 1 and k + 1 only: two neighbours of a Gray code, the bit that differs uncared for.
    Path,
    /// Prefixes of few values: nested or apart.
    Prefix,
    /// Parts of one value over the places in use: of two rules one mostly covers the other, and many match alike.
    Nested { value: usize },
    /// Each bit 0, 1 or uncared for.
    Mixed,
    /// Mask 0 or nearly: every pair overlaps.
    Wild,
    /// Random words, few bits cared for.
    Wide,
    /// Rules in groups, taken in turn: each overlaps the rules of its own group, and those between two of them not.
    Apart { groups: usize, place: usize },
}

/// How far apart the rules of a group stand: a few slots, and around 4, 8, 16, 64 and 128, where a search that takes slots by
/// blocks would miss one between two blocks.
const GROUPS: [usize; 21] = [2, 3, 4, 5, 7, 8, 9, 12, 15, 16, 17, 19, 20, 33, 63, 64, 65, 68, 130, 132, 200];

/// The bits of a group's number.
const GROUP_BITS: usize = 10;

/// Where a group's number stands: first in a word, last in one, or over two.
pub fn group_place(random: &mut Random, width: usize) -> usize {
    match random.below(3) {
        0 => 64 * random.below(width),
        1 => 64 * random.below(width) + 64 - GROUP_BITS,
        _ => 64 * random.below(width - 1) + 64 - GROUP_BITS / 2,
    }
}

pub fn group_number(place: usize, number: usize) -> Bits {
    Bits::number(place, GROUP_BITS, number)
}

/// A number that has all bits of the groups' numbers.
pub const EVERY_GROUP: usize = (1 << GROUP_BITS) - 1;

/// Value and mask.
type Pattern = (Bits, Bits);

struct Maker<'a> {
    random: &'a mut Random,
    width: usize,
    style: Style,
    /// The bit positions in use.
    bits: Vec<usize>,
    /// Of eight rules so many are exact, or nearly so. Where the style leaves a bit uncared for, they have that of `elsewhere`: so
    /// two of them are often alike.
    exact_of_eight: usize,
    elsewhere: Bits,
    /// Whether the rule is one of the table sent again, or nearly so.
    again: bool,
    /// Whether the table is in order as an uncounted one, and the actions of most rules.
    uncounted: bool,
    actions: Vec<u32>,
}

/// One input of this many is at an edge of the largest table.
const LARGEST_EVERY: u64 = 1000;

pub fn make_input(seed: u64, number: u64) -> Input {
    let random = &mut Random::new(seed, number);
    let is_largest = number % LARGEST_EVERY == 0;
    let mut input = if is_largest {
        let turn = (number / LARGEST_EVERY) as usize;
        make_largest(random, WIDTHS[turn % 2], turn / 2)
    } else {
        make_any(random, WIDTHS[number as usize % 2])
    };
    if takes_list(input.call) && random.one_in(2) {
        if !is_largest {
            make_fit(random, &mut input);
        }
        lend_list(random, &mut input);
    }
    input
}

fn make_any(random: &mut Random, width: usize) -> Input {
    let fence_after = random.one_in(2);
    let slots = slot_count(random);
    let style = style(random, slots, width);
    let bits = bit_positions(random, width);
    let exact_of_eight = random.pick(&[0, 0, 0, 0, 1, 2, 4, 7]);
    let elsewhere = if random.one_in(2) { random.bits(width) } else { Bits::NONE };
    let again = random.one_in(4);
    let (uncounted, actions) = (random.one_in(2), few_actions(random));
    let mut maker = Maker { random, width, style, bits, exact_of_eight, elsewhere, again, uncounted, actions };
    let call = maker.random.pick(CALLS);
    if call == Call::InsertInFull || call == Call::DeleteInFull {
        return maker.in_full(call, slots, fence_after);
    }
    let mut table =
        if maker.random.one_in(40) { misfit::either_width(maker.random, width, slots) } else { maker.sound_table(slots) };
    let new = maker.new_rule(&table);
    if matches!(call, Call::Lookup | Call::SlotRecord | Call::CarryOut) && maker.random.one_in(2) {
        maker.add_copies(&mut table);
    }
    if call == Call::CarryOut && maker.random.one_in(4) {
        maker.add_equal(&mut table, &new);
    }
    if call == Call::CarryOut && maker.random.one_in(2) {
        disorder(maker.random, &mut table);
    }
    let mut input = Input::new(call, width, words_of(&table, width), fence_after);
    (input.rule, input.id) = (new.record(width), new.id);
    input.edition = edition(maker.random, if call == Call::CarryOut { 6 } else { 24 });
    input.uncounted = maker.told_flag();
    if maker.random.one_in(3) {
        maker.damage(&mut input.table);
    }
    maker.fill_in(&mut input, &table, &new);
    if maker.random.one_in(16) {
        misfit::misfit(maker.random, &mut input, &table);
    }
    input
}

/// The calls that are made, by how often.
const CALLS: &[Call] = &[
    Call::Lookup,
    Call::SlotRecord,
    Call::PlanInsert,
    Call::PlanInsert,
    Call::PlanInsert,
    Call::PlanDelete,
    Call::CarryOut,
    Call::CarryOut,
    Call::InsertInFull,
    Call::InsertInFull,
    Call::InsertInFull,
    Call::DeleteInFull,
    Call::Save,
    Call::Load,
];

fn slot_count(random: &mut Random) -> usize {
    if random.one_in(3000) {
        return random.pick(&[1022, 1023, 1024, 1024, 1024]);
    }
    if random.one_in(100) {
        let most = random.pick(&[128, 256, 256, 512, 1021]);
        return random.between(65, most);
    }
    if random.one_in(12) {
        return random.between(13, 64);
    }
    random.between(1, 12)
}

/// Tables of more than 12 slots have their rules apart every other time: the other styles overlap at every few slots.
fn style(random: &mut Random, slots: usize, width: usize) -> Style {
    if random.one_in(if slots > 12 { 2 } else { 8 }) {
        return Style::Apart { groups: random.pick(&GROUPS), place: group_place(random, width) };
    }
    let nested = Style::Nested { value: random.below(1 << BITS_MOST) };
    random.pick(&[Style::Path, Style::Path, Style::Prefix, nested, nested, Style::Mixed, Style::Mixed, Style::Wild, Style::Wide])
}

/// The most positions that a table uses.
const BITS_MOST: usize = 7;

/// Up to seven positions, often the ends of the words.
fn bit_positions(random: &mut Random, width: usize) -> Vec<usize> {
    let mut bits: Vec<usize> = Vec::new();
    let count = random.pick(&[1, 2, 3, 3, 4, 4, 5, BITS_MOST]);
    while bits.len() < count {
        let in_word = if random.one_in(2) { random.pick(&[0, 1, 31, 32, 62, 63]) } else { random.below(64) };
        let bit = 64 * random.below(width) + in_word;
        if !bits.contains(&bit) {
            bits.push(bit);
        }
    }
    bits
}

impl Maker<'_> {
    /// A number over the positions in use: bit k of `small` at position k.
    fn spread(&self, small: usize) -> Bits {
        let is_set = |(place, _): &(usize, &usize)| small >> place & 1 == 1;
        self.bits.iter().enumerate().filter(is_set).fold(Bits::NONE, |bits, (_, &bit)| bits | Bits::at(bit))
    }

    /// Any number over the positions in use.
    fn some_bits(&mut self) -> Bits {
        let small = self.random.below(1 << self.bits.len());
        self.spread(small)
    }

    /// Value and mask of a rule; `place` is where it stands among the rules of a path.
    fn pattern(&mut self, place: usize) -> Pattern {
        let (value, mask) = self.style_pattern(place);
        if self.random.below(8) >= self.exact_of_eight {
            return (value, mask);
        }
        let wider = exact_or_nearly(self.random, self.width, 6);
        ((value | self.elsewhere & !mask) & wider, wider)
    }

    fn style_pattern(&mut self, place: usize) -> Pattern {
        let all = 1 << self.bits.len();
        match self.style {
            Style::Path => {
                let gray = |number: usize| number ^ number >> 1;
                let (here, next) = (gray(place % all), gray((place + 1) % all));
                let mask = self.spread(all - 1) & !self.spread(here ^ next);
                (self.spread(here) & mask, mask)
            }
            Style::Prefix => {
                let length = self.random.below(self.bits.len() + 1);
                let mask = self.spread((1 << length) - 1);
                (self.some_bits() & mask, mask)
            }
            Style::Nested { value } => self.part_of(value),
            Style::Mixed => {
                let mask = self.some_bits();
                (self.some_bits() & mask, mask)
            }
            Style::Wild => {
                let mask = if self.random.one_in(4) { self.spread(1) } else { Bits::NONE };
                (self.some_bits() & mask, mask)
            }
            Style::Wide => {
                let mut word = || self.random.bits(self.width);
                let mask = word() & word() & word() & word();
                (word() & mask, mask)
            }
            Style::Apart { groups, place: group_place } => {
                let group = if self.random.one_in(16) { self.random.below(groups) } else { place % groups };
                let joined = if self.random.one_in(16) { self.random.pick(&[1, 2, 3, 7]) } else { 0 };
                let mask = group_number(group_place, EVERY_GROUP & !joined);
                (group_number(group_place, group) & mask, mask)
            }
        }
    }

    /// The first places of a value, sometimes with some left out or with other bits.
    fn part_of(&mut self, value: usize) -> Pattern {
        let length = self.random.below(self.bits.len() + 1);
        let others = if self.random.one_in(8) { self.some_bits() } else { Bits::NONE };
        let left_out = if self.random.one_in(4) { self.some_bits() } else { Bits::NONE };
        let mask = self.spread((1 << length) - 1) & !left_out;
        ((self.spread(value) ^ others) & mask, mask)
    }

    /// A sound table and an insert or a delete, planned and carried out, with keys to be looked up between the writes. A delete's
    /// rule is of zeros or another; it plays no part.
    fn in_full(&mut self, call: Call, slots: usize, fence_after: bool) -> Input {
        let table = self.sound_table(slots);
        let new = self.new_rule(&table);
        let mut input = Input::new(call, self.width, words_of(&table, self.width), fence_after);
        input.uncounted = self.told_flag();
        let subject = new.with_rank(0);
        let subject = if call == Call::DeleteInFull { self.present_rule(&table).unwrap_or(subject) } else { subject };
        if call == Call::InsertInFull || self.random.one_in(2) {
            input.rule = new.record(self.width);
            input.edition = edition(self.random, 24);
        }
        input.id = subject.id;
        input.keys = (0..4).map(|_| self.key(&table, (subject.value, subject.mask))).collect();
        input.room = slots + self.random.below(3);
        input
    }

    /// The flag that the table is made for, and sometimes the other one.
    fn told_flag(&mut self) -> u32 {
        let is_other = self.random.one_in(10);
        flag(self.random, self.uncounted != is_other)
    }

    /// One of the few actions, or once in so many times any.
    fn action(&mut self, any_in: usize) -> u32 {
        if self.random.one_in(any_in) {
            self.random.word() as u32
        } else {
            self.random.pick(&self.actions)
        }
    }

    /// A sound table: patterns, ids and actions at random, then ranks from the last slot to the first, each higher than those of the
    /// later rules that it is ordered with.
    fn sound_table(&mut self, slots: usize) -> Vec<Slot> {
        let occupied = self.occupied(slots);
        let mut ids: Vec<u32> = (1..=slots as u32).collect();
        self.random.shuffle(&mut ids);
        let id_step = self.random.pick(&[1, 1, 1, 65_536, 4_194_303]);
        let mut table: Vec<Slot> = vec![None; slots];
        let spread = self.random.pick(&[1, 1, 2, 3, 20]);
        let mut patterns = self.patterns(occupied.iter().filter(|&&is_occupied| is_occupied).count()).into_iter();
        for slot in (0..slots).filter(|&slot| occupied[slot]) {
            let (value, mask) = patterns.next().expect("a pattern for each occupied slot");
            let action = self.action(if self.uncounted { 16 } else { 4 });
            table[slot] = Some(Rule { id: ids[slot] * id_step, rank: 0, value, mask, action });
        }
        self.give_priorities(&mut table, spread);
        self.give_exact_ranks(&mut table);
        if self.uncounted && self.random.one_in(2) {
            add_equal_rules(self.random, &mut table, |slot| ids[slot] * id_step);
        }
        table
    }

    /// The patterns of so many rules. In some tables those that are exact come first, as where all were inserted under 1.0.
    fn patterns(&mut self, count: usize) -> Vec<Pattern> {
        let mut path_place = self.random.below(4);
        let mut patterns = Vec::new();
        for _ in 0..count {
            patterns.push(self.pattern(path_place));
            path_place += if self.random.one_in(8) { 2 } else { 1 };
        }
        if self.random.one_in(2) {
            patterns.sort_by_key(|(_, mask)| *mask != Bits::all(self.width));
        }
        patterns
    }

    /// A priority for each rule's rank, as under 1.3.
    fn give_priorities(&mut self, table: &mut [Slot], spread: usize) {
        let mut highest = 0;
        for slot in (0..table.len()).rev() {
            let Some(rule) = table[slot] else { continue };
            let is_below = |later: &&Rule| later.is_ordered_with(&rule, self.uncounted);
            let above = table[slot + 1..].iter().flatten().filter(is_below).map(|later| later.rank + 1).max();
            let priority = above.unwrap_or(0) + self.random.below(spread) as u64;
            table[slot].as_mut().unwrap().rank = priority;
            highest = highest.max(priority);
        }
        let factor = self.random.pick(&[1, 2, 2, 2, 10]);
        if highest * factor <= PRIORITY_MOST {
            let top = if self.random.one_in(8) { PRIORITY_MOST - highest * factor } else { 0 };
            for rule in table.iter_mut().flatten() {
                rule.rank = rule.rank * factor + top;
            }
        }
    }

    /// Rank 65,536 for all exact rules that may have it, for some, or for none: a table may have rules of both editions. A rule that is
    /// ordered with an earlier one may not.
    fn give_exact_ranks(&mut self, table: &mut [Slot]) {
        let of_two = self.random.pick(&[0, 1, 2, 2]);
        for slot in 0..table.len() {
            let Some(rule) = table[slot].filter(|rule| rule.mask == Bits::all(self.width)) else { continue };
            let stands_first = !table[..slot].iter().flatten().any(|earlier| earlier.is_ordered_with(&rule, self.uncounted));
            if self.random.below(2) < of_two && stands_first {
                table[slot] = Some(Rule { rank: EXACT_RANK, ..rule });
            }
        }
    }

    /// Which slots hold a rule: none, all, all but one or two, a block, or each by chance.
    fn occupied(&mut self, slots: usize) -> Vec<bool> {
        if self.again && self.random.one_in(3) {
            return vec![true; slots];
        }
        match self.random.below(16) {
            0 => vec![false; slots],
            1 => vec![true; slots],
            2..=10 => {
                let mut occupied = vec![true; slots];
                let any = self.random.below(slots);
                occupied[self.random.pick(&[0, slots - 1, any])] = false;
                if self.random.one_in(4) {
                    let other = self.random.below(slots);
                    occupied[other] = false;
                }
                occupied
            }
            11 => {
                let first = self.random.below(slots);
                let last = self.random.between(first, slots - 1);
                (0..slots).map(|slot| slot >= first && slot <= last).collect()
            }
            _ => {
                let fill = self.random.between(1, 9);
                (0..slots).map(|_| self.random.below(10) < fill).collect()
            }
        }
    }

    /// A rule to insert: mostly of the table's style and of a priority that leaves it uncrossed somewhere; often with the pattern of
    /// a rule present, where that is exact; sometimes one between two rules.
    fn new_rule(&mut self, table: &[Slot]) -> Given {
        if let Some(rule) = self.present_rule(table).filter(|_| self.again) {
            return self.sent_again(table, rule);
        }
        if self.random.one_in(10) {
            if let Some((one, other)) = self.against_rank(table) {
                return self.between_two(table, one, other);
            }
        }
        let place = self.random.below(table.len() + 2);
        let (value, mask) = match self.present_rule(table) {
            Some(rule) if rule.mask == Bits::all(self.width) && self.random.one_in(3) => (rule.value, rule.mask),
            _ => self.pattern(place),
        };
        let mut rule = Given { id: self.new_id(table), priority: 0, value, mask, action: self.action(8) };
        let overlapping = table.iter().flatten().filter(|other| other.overlaps(&rule.with_rank(0)));
        let priorities: Vec<u64> = overlapping.map(|other| other.rank).filter(|&rank| rank <= PRIORITY_MOST).collect();
        let near = if priorities.is_empty() { self.random.below(40) as u64 } else { self.random.pick(&priorities) };
        rule.priority = match self.random.below(if self.uncounted { 16 } else { 13 }) {
            0 | 13.. => near,
            1 => self.random.pick(&[0, 1, 65_534, 65_535, 65_535, 65_536, 65_537, 1 << 17, u32::MAX.into(), 1 << 32, u64::MAX]),
            2 => self.random.below(65_536) as u64,
            3..=7 => near + 1,
            8 if mask == Bits::all(self.width) => EXACT_RANK,
            _ => near.saturating_sub(1),
        };
        if self.random.one_in(60) {
            rule.value ^= self.any_bit();
        }
        rule
    }

    /// A rule of the table with another id, which replaces it if the edition gives it the same rank and, in an uncounted table, its action
    /// is the same; or one that differs from it in the priority, in a bit of the mask or of the value, or not even in the id.
    fn sent_again(&mut self, table: &[Slot], rule: Rule) -> Given {
        let Rule { id, rank, value, mask, .. } = rule;
        let priority = if rank == EXACT_RANK { self.random.below(65_536) as u64 } else { rank };
        let action = if self.random.one_in(3) { self.action(4) } else { rule.action };
        let mut given = Given { id: self.new_id(table), priority, value, mask, action };
        let bit = self.any_bit();
        match self.random.below(10) {
            0 => given.priority = (priority + 1).min(PRIORITY_MOST),
            1 => given.priority = priority.saturating_sub(1),
            2 => {
                given.mask ^= bit;
                given.value &= given.mask;
            }
            3 => given.value ^= bit & mask,
            4 => given.id = id,
            _ => {}
        }
        given
    }

    /// Two rules with room between their ranks, the higher one in the higher slot; such a pair is looked for a few times.
    fn against_rank(&mut self, table: &[Slot]) -> Option<(Rule, Rule)> {
        for _ in 0..8 {
            let (one, other) = (self.random.below(table.len()), self.random.below(table.len()));
            if let (Some(lower), Some(higher)) = (table[one.min(other)], table[one.max(other)]) {
                if lower.rank + 1 < higher.rank {
                    return Some((lower, higher));
                }
            }
        }
        None
    }

    /// A rule that overlaps both, of a priority between their ranks: it is crossed, but not in an uncounted table if it has the action of
    /// one of them.
    fn between_two(&mut self, table: &[Slot], lower: Rule, higher: Rule) -> Given {
        let mask = lower.mask & higher.mask & !(lower.value ^ higher.value);
        let any = self.action(8);
        let action = self.random.pick(&[lower.action, higher.action, any]);
        let priority = (lower.rank + higher.rank) / 2;
        Given { id: self.new_id(table), priority, value: lower.value & mask, mask, action }
    }

    fn new_id(&mut self, table: &[Slot]) -> u32 {
        if self.random.one_in(80) {
            return 0;
        }
        if self.random.one_in(30) {
            if let Some(rule) = self.present_rule(table) {
                return rule.id;
            }
        }
        let mut id = if self.random.one_in(2) { u32::MAX } else { self.random.word() as u32 | 1 };
        while table.iter().flatten().any(|rule| rule.id == id) {
            id = id.wrapping_sub(2);
        }
        id
    }

    fn present_rule(&mut self, table: &[Slot]) -> Option<Rule> {
        let rules: Vec<Rule> = table.iter().flatten().copied().collect();
        if rules.is_empty() {
            None
        } else {
            Some(self.random.pick(&rules))
        }
    }

    fn any_bit(&mut self) -> Bits {
        Bits::at(self.random.below(64 * self.width))
    }

    /// A key that matches some rule, nearly matches one, or is anything.
    fn key(&mut self, table: &[Slot], new: Pattern) -> Vec<u64> {
        let present = self.present_rule(table).map_or(new, |rule| (rule.value, rule.mask));
        let (value, mask) = if self.random.one_in(3) { new } else { present };
        let some_bits = self.some_bits();
        let elsewhere = if self.random.one_in(2) { self.random.bits(self.width) } else { self.elsewhere };
        let key = match self.random.below(6) {
            0 => self.random.bits(self.width),
            1 => some_bits,
            2 => value ^ self.any_bit(),
            _ => value | (some_bits | elsewhere) & !mask,
        };
        key.words(self.width).to_vec()
    }

    /// Copies of rules in empty slots or over other copies, as in the middle of a plan.
    fn add_copies(&mut self, table: &mut [Slot]) {
        for _ in 0..self.random.between(1, 3) {
            let (from, to) = (self.random.below(table.len()), self.random.below(table.len()));
            if table[to].is_none() || self.random.one_in(3) {
                table[to] = table[from];
            }
        }
    }

    /// A rule's value, mask and rank in another slot too, under that one's id or a new one: no sound table has two such rules. It is
    /// one with the new rule's pattern, if there is one.
    fn add_equal(&mut self, table: &mut [Slot], new: &Given) {
        let id = self.new_id(table);
        let is_alike = |rule: &Rule| rule.value == new.value && rule.mask == new.mask;
        let alike: Vec<Slot> = table.iter().copied().filter(|entry| entry.as_ref().is_some_and(is_alike)).collect();
        if let Some(rule) = self.present_rule(if alike.is_empty() { table } else { &alike }) {
            let to = self.random.below(table.len());
            table[to] = Some(Rule { id: table[to].map_or(id.max(1), |other| other.id), ..rule });
        }
    }

    fn damage(&mut self, words: &mut Vec<u64>) {
        let slot_words = record_words(self.width);
        let slots = words.len() / slot_words;
        let record = slot_words * self.random.below(slots);
        let (id_and_action, rank) = (record + slot_words - 2, record + slot_words - 1);
        let other = slot_words * self.random.below(slots);
        match self.random.below(24) {
            0..=3 => {
                let word = self.random.below(words.len());
                words[word] ^= 1 << self.random.below(64);
            }
            4 => words.truncate(words.len() - self.random.between(1, slot_words)),
            5 => words.extend(vec![0; self.random.between(1, slot_words)]),
            6 => *words = vec![0; self.odd_length()],
            7 => words[id_and_action] &= 0xffff_ffff,
            8 => words[rank] = self.random.pick(&[65_535, 65_536, 65_537, 1 << 32, 65_536 + (1 << 32), 1 << 63, u64::MAX]),
            9 => (0..slot_words).for_each(|word| words.swap(record + word, other + word)),
            10 | 11 => words[other + slot_words - 2] = words[id_and_action],
            12 => words[rank] = words[rank].wrapping_add(1),
            13..=15 => {
                let other = self.overlapping_record(words, record);
                words[rank] = words[other + slot_words - 1].saturating_add(self.random.below(2) as u64);
            }
            16 => words.iter_mut().for_each(|word| *word = self.random.word()),
            17..=20 => Edged::draw(self.random, self.width).put_in_record(&mut words[record..record + slot_words]),
            21 | 22 => words[id_and_action] = words[id_and_action] >> 32 << 32 | u64::from(self.action(8)),
            _ => {
                for word in words.iter_mut() {
                    let any = self.random.any_word();
                    *word = self.random.pick(&[0, 0, 0, 1, 1 << 32, 3, any]);
                }
            }
        }
    }

    /// A number of words that no table has.
    fn odd_length(&mut self) -> usize {
        let slot_words = record_words(self.width);
        let most = slot_words * SLOTS_MOST;
        self.random.pick(&[0, 1, slot_words - 1, slot_words + 1, most - 1, most + 1, most + slot_words])
    }

    /// Where a record begins whose rule overlaps that of the record at `record`, which may be that one itself.
    fn overlapping_record(&mut self, words: &[u64], record: usize) -> usize {
        let (slot_words, rule) = (record_words(self.width), rule_of(&words[record..], self.width));
        let is_met = |at: usize| words[at + slot_words - 2] != 0 && rule_of(&words[at..], self.width).overlaps(&rule);
        let met: Vec<usize> = (0..words.len()).step_by(slot_words).filter(|&at| is_met(at)).collect();
        if met.is_empty() {
            record
        } else {
            self.random.pick(&met)
        }
    }

    /// What the call needs beside the table and the rule.
    fn fill_in(&mut self, input: &mut Input, table: &[Slot], new: &Given) {
        let slots = table.len();
        match input.call {
            Call::Lookup => input.keys = (0..3).map(|_| self.key(table, (new.value, new.mask))).collect(),
            Call::SlotRecord => input.slot = self.slot_number(slots) as u32,
            Call::PlanInsert => {
                input.room = match self.random.below(4) {
                    0 => self.random.below(slots + 2),
                    1 => self.random.below(3),
                    _ => slots + self.random.below(2),
                }
            }
            Call::PlanDelete => {
                if !self.random.one_in(8) {
                    input.id = self.present_rule(table).map_or(input.id, |rule| rule.id);
                }
                input.room = self.random.pick(&[0, 1, 1, 2, 9]);
            }
            Call::CarryOut => self.plan_to_carry_out(input, slots),
            Call::Save => {
                let needed = image_bytes(self.width, table.iter().flatten().count());
                input.room = match self.random.below(4) {
                    0 => self.random.below(needed + 1),
                    1 => needed.saturating_sub(1),
                    2 => needed,
                    _ => needed + self.random.below(60),
                }
            }
            Call::Load => self.image_to_load(input, table),
            Call::InsertInFull | Call::DeleteInFull => {}
        }
    }

    fn slot_number(&mut self, slots: usize) -> u64 {
        match self.random.below(10) {
            // the last two times the words of a slot are just above 2^32
            0 => self.random.pick(&[1023, 1024, 65_535, 65_533, 1 << 31, u64::from(u32::MAX), 715_827_883, 357_913_942]),
            1 => slots as u64,
            _ => self.random.below(slots) as u64,
        }
    }

    /// A plan of the library's kind, drawn under any edition, or a foreign one, with progress at its start, within it, or wrong.
    fn plan_to_carry_out(&mut self, input: &mut Input, slots: usize) {
        if self.random.one_in(4) {
            let edition = self.random.pick(&[EDITION_10, EDITION_13]);
            if let Ok(planned) = plan_insert(&input.table, self.width, input.is_uncounted(), &input.rule, edition, slots) {
                input.plan = planned.writes;
            }
        }
        if self.again {
            self.writes_over_equal(input, slots);
        }
        for _ in 0..self.random.below(5) {
            let from = match self.random.below(4) {
                0 => PUT_IN,
                1 => EMPTYING,
                _ => (self.slot_number(slots) & 0xffff) as u32,
            };
            input.plan.push(write_word(from, (self.slot_number(slots) & 0xffff) as usize));
        }
        if self.random.one_in(10) {
            input.plan.push(self.random.word() as u32);
        }
        let words = input.plan.len();
        match self.random.below(10) {
            0 => {
                input.total = self.random.pick(&[words as u32 + 1, u32::MAX, 1, 0]);
                input.done = self.random.pick(&[0, 1, words as u32, u32::MAX, u32::MAX - 1]);
            }
            1 => {
                input.total = self.random.below(words + 1) as u32;
                input.done = self.random.below(words + 2) as u32;
            }
            _ => {
                input.total = words as u32;
                input.done = self.random.below(words + 1) as u32;
            }
        }
    }

    /// Put-ins and copies into a slot whose rule has the value of the input's, and its mask or its rank or both, or emptyings of it.
    fn writes_over_equal(&mut self, input: &mut Input, slots: usize) {
        let given = rule_of(&input.rule, self.width);
        let is_alike = |rule: &Rule| rule.value == given.value && (rule.mask == given.mask || rule.rank == given.rank);
        let rules = input.table.chunks_exact(record_words(self.width)).map(|record| rule_of(record, self.width));
        let alike: Vec<usize> =
            rules.enumerate().filter(|(_, rule)| rule.id != 0 && is_alike(rule)).map(|(slot, _)| slot).collect();
        if alike.is_empty() {
            return;
        }
        for _ in 0..self.random.between(1, 2) {
            let to = self.random.pick(&alike);
            let from = match self.random.below(9) {
                0..=4 => PUT_IN,
                5 => EMPTYING,
                6 | 7 => self.random.pick(&alike) as u32,
                _ => (self.slot_number(slots) & 0xffff) as u32,
            };
            input.plan.push(write_word(from, to));
        }
    }

    /// An image of a table of this many slots, whole or damaged, for a lent table full of anything.
    fn image_to_load(&mut self, input: &mut Input, table: &[Slot]) {
        let mut meant = table.to_vec();
        let spoil_table = self.random.below(10);
        if spoil_table == 0 {
            self.random.shuffle(&mut meant);
        }
        if spoil_table == 1 {
            let (from, to) = (self.random.below(table.len()), self.random.below(table.len()));
            meant[to] = meant[from];
        }
        let image_width = if self.random.one_in(16) { self.random.pick(&WIDTHS) } else { self.width };
        input.image = image_of(&meant, image_width);
        if read_slots(&input.table, self.width).is_ok() && self.random.one_in(2) {
            input.table.iter_mut().for_each(|word| *word = self.random.any_word());
        }
        if image_width != self.width || self.random.one_in(3) {
            return;
        }
        for _ in 0..self.random.pick(&[1, 1, 1, 2]) {
            self.damage_image(&mut input.image);
        }
    }

    fn damage_image(&mut self, image: &mut Vec<u8>) {
        let rule_bytes = image_bytes(self.width, 1) - image_bytes(self.width, 0);
        let rules = image.len() / rule_bytes;
        if image.is_empty() {
            return;
        }
        let entry = 4 + 10 * self.random.below(rules.max(1));
        let body = body_offset(self.width, rules, self.random.below(rules.max(1)));
        let pattern_bytes = 16 * self.width;
        let field = match self.random.below(13) {
            0 => return image.truncate(self.random.below(image.len())),
            1 => return image.extend(vec![0; self.random.pick(&[1, 2, rule_bytes - 1, rule_bytes])]),
            2 => self.random.below(4),
            3 => entry + 3,
            4 => entry + 5,
            5 => entry + 6 + self.random.below(4),
            6 => body + self.random.below(pattern_bytes),
            7 => body + pattern_bytes + self.random.below(4),
            8 => entry + self.random.below(4),
            9..=11 if rules > 0 => return Edged::draw(self.random, self.width).put_in_body(&mut image[body..]),
            _ => self.random.below(image.len()),
        };
        if field < image.len() {
            image[field] = match self.random.below(4) {
                0 => 0,
                1 => image[field] ^ 1 << self.random.below(8),
                2 => image[field].wrapping_add(1),
                _ => self.random.word() as u8,
            };
        }
    }
}
