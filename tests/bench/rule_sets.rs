// Seeded rule sets in the spirit of ClassBench: what its access-list, firewall and route seeds are like, not their files.
// A key is source address (32), destination address (32), source port (16), destination port (16), protocol (8), rest unused.

use reference::table::Rule;
use std::collections::HashSet;
use support::random::Random;

#[derive(Clone, Copy, Debug, PartialEq, Eq)]
pub enum RuleSet {
    /// Narrow rules: pairs of nested networks and hosts, exact ports; few overlaps.
    AccessList,
    /// Wide rules: addresses and ports often uncared for; many overlaps.
    Firewall,
    /// Destination prefixes, nested; the priority is the prefix length.
    Routes,
}

pub const RULE_SETS: [RuleSet; 3] = [RuleSet::AccessList, RuleSet::Firewall, RuleSet::Routes];

impl RuleSet {
    pub fn name(self) -> &'static str {
        match self {
            RuleSet::AccessList => "access list",
            RuleSet::Firewall => "firewall",
            RuleSet::Routes => "routes",
        }
    }
}

/// A pattern of some bits of the key: value and mask.
type Pattern = (u128, u128);

/// Rules of ids 1, 2, .., of which no two overlap at equal priority.
pub fn make_rules(set: RuleSet, count: usize, random: &mut Random) -> Vec<Rule> {
    let mut seen: HashSet<Pattern> = HashSet::new();
    let mut patterns: Vec<Pattern> = Vec::new();
    while patterns.len() < count {
        let pattern = match set {
            RuleSet::AccessList => list_pattern(random, &ACCESS_LIST),
            RuleSet::Firewall => list_pattern(random, &FIREWALL),
            RuleSet::Routes => route_pattern(random, &patterns),
        };
        if seen.insert(pattern) {
            patterns.push(pattern);
        }
    }
    let priorities = match set {
        RuleSet::AccessList => list_order(&patterns, 40, random),
        RuleSet::Firewall => list_order(&patterns, 90, random),
        RuleSet::Routes => patterns.iter().map(|(_, mask)| u64::from(mask.count_ones())).collect(),
    };
    let rule = |(place, priority): (usize, u64)| Rule {
        id: place as u32 + 1,
        rank: priority,
        value: patterns[place].0.into(),
        mask: patterns[place].1.into(),
        action: action_of_place(place),
    };
    priorities.into_iter().enumerate().map(rule).collect()
}

/// Actions play no part in a plan for a counted table: a few different ones, in turn.
fn action_of_place(place: usize) -> u32 {
    place as u32 % 7
}

/// A list's own order as priorities, all different: narrow rules tend to come first, by `noise` bits more or less.
fn list_order(patterns: &[Pattern], noise: usize, random: &mut Random) -> Vec<u64> {
    let mut order: Vec<(u32, usize)> =
        patterns.iter().enumerate().map(|(place, (_, mask))| (mask.count_ones() + random.below(noise) as u32, place)).collect();
    order.sort();
    let step = 65_535 / patterns.len() as u64;
    let mut priorities = vec![0; patterns.len()];
    for (turn, (_, place)) in order.into_iter().enumerate() {
        priorities[place] = turn as u64 * step;
    }
    priorities
}

/// The leading `length` bits of a field of `width` bits that starts at bit `start` of the key, from the top.
fn leading(field: u128, start: u32, width: u32, length: u32) -> Pattern {
    let mask = (((1u128 << length) - 1) << (width - length)) << (128 - start - width);
    (field << (128 - start - width) & mask, mask)
}

fn join(patterns: &[Pattern]) -> Pattern {
    patterns.iter().fold((0, 0), |(value, mask), part| (value | part.0, mask | part.1))
}

/// One of few networks: four of 8 bits, in each eight of 16, in each sixteen of 24, in each any host.
fn address(random: &mut Random) -> u128 {
    let octets = [10 + random.below(4), 16 * random.below(8), 5 * random.below(16), random.below(256)];
    octets.iter().fold(0, |address, &octet| address * 256 + octet as u128)
}

/// The first choice whose share of the hundred is hit.
fn choose(random: &mut Random, shares: &[(usize, u32)]) -> u32 {
    let mut left = random.below(100);
    for &(share, choice) in shares {
        if left < share {
            return choice;
        }
        left -= share;
    }
    shares[shares.len() - 1].1
}

const PORTS: [u128; 16] = [20, 21, 22, 23, 25, 53, 80, 110, 123, 143, 161, 443, 993, 1433, 3306, 8080];

/// A port: one of the well-known ones, a range of a power of two, or any, by the shares of the first two.
fn port(random: &mut Random, start: u32, (exact, range): (usize, usize)) -> Pattern {
    let kind = random.below(100);
    if kind < exact {
        leading(random.pick(&PORTS), start, 16, 16)
    } else if kind < exact + range {
        leading(random.word() as u128 & 0xffff, start, 16, random.between(1, 10) as u32)
    } else {
        (0, 0)
    }
}

fn protocol(random: &mut Random, any: usize) -> Pattern {
    if random.below(100) < any {
        (0, 0)
    } else {
        leading(random.pick(&[6, 6, 17, 1]), 96, 8, 8)
    }
}

/// How the fields of a list's rules are spread, in hundredths: prefix lengths of both addresses, exact ports and ranges of
/// both ports, and how often the protocol is any.
struct Spread {
    source: &'static [(usize, u32)],
    destination: &'static [(usize, u32)],
    source_port: (usize, usize),
    destination_port: (usize, usize),
    any_protocol: usize,
}

const ACCESS_LIST: Spread = Spread {
    source: &[(35, 0), (5, 8), (10, 16), (30, 24), (20, 32)],
    destination: &[(5, 0), (10, 16), (35, 24), (50, 32)],
    source_port: (2, 3),
    destination_port: (55, 15),
    any_protocol: 15,
};

const FIREWALL: Spread = Spread {
    source: &[(50, 0), (15, 8), (15, 16), (15, 24), (5, 32)],
    destination: &[(30, 0), (10, 8), (20, 16), (25, 24), (15, 32)],
    source_port: (5, 15),
    destination_port: (35, 30),
    any_protocol: 25,
};

fn list_pattern(random: &mut Random, spread: &Spread) -> Pattern {
    let source = choose(random, spread.source);
    let destination = choose(random, spread.destination);
    join(&[
        leading(address(random), 0, 32, source),
        leading(address(random), 32, 32, destination),
        port(random, 64, spread.source_port),
        port(random, 80, spread.destination_port),
        protocol(random, spread.any_protocol),
    ])
}

/// Half of the prefixes lie within an earlier one.
fn route_pattern(random: &mut Random, earlier: &[Pattern]) -> Pattern {
    let shares = [(2, 8), (2, 12), (12, 16), (5, 18), (7, 19), (9, 20), (9, 21), (13, 22), (11, 23), (24, 24), (6, 32)];
    let length = choose(random, &shares);
    let any = random.word() as u128 & 0xffff_ffff;
    let field = if !earlier.is_empty() && random.one_in(2) {
        let (value, mask) = random.pick(earlier);
        value >> 64 & 0xffff_ffff | any & !(mask >> 64) & 0xffff_ffff
    } else {
        any
    };
    leading(field, 32, 32, length)
}
