// How scripts are made: tables, inserts, deletes and lookups over few bits and few priorities, and lines that are malformed.
// Ids are small, so that known and absent ones, ties, crossings and full tables are frequent. Rules are often sent again.

use support::random::Random;

/// How large a script's tables, ids, priorities and patterns are, and how many lines it has at most; whether all its patterns overlap.
struct Scale {
    slots: (usize, usize),
    ids: usize,
    priorities: usize,
    bits: usize,
    lines: usize,
    nested: bool,
}

/// Mostly small; one in forty fills tables of more than one block of 64 slots, some with maps (160 slots and more), and in one in ten every rule
/// overlaps every other, so that an insert moves all rules up to the next empty slot.
fn scale(random: &mut Random) -> Scale {
    if random.one_in(40) {
        return Scale { slots: (60, 300), ids: 400, priorities: 400, bits: random.between(5, 10), lines: 700, nested: false };
    }
    if random.one_in(10) {
        return Scale { slots: (12, 60), ids: 60, priorities: 5000, bits: random.between(1, 8), lines: 120, nested: true };
    }
    Scale { slots: (1, 12), ids: 30, priorities: 30, bits: random.between(1, 4), lines: 80, nested: false }
}

pub fn script(random: &mut Random) -> Vec<u8> {
    let mut script = Vec::new();
    let mut sent = Vec::new();
    let scale = scale(random);
    for place in 0..random.between(0, scale.lines) {
        let mut line = match random.below(40) {
            0 if scale.lines < 100 || random.one_in(20) => table(random, &scale),
            _ if place == 0 && !random.one_in(8) => table(random, &scale),
            1..=22 => insert(random, &scale, &mut sent),
            23..=27 => format!("D {}", some_id(random, &scale)).into_bytes(),
            _ => lookup(random, scale.bits),
        };
        if random.one_in(12) {
            damage(random, &mut line);
        }
        script.extend(line);
        script.push(b'\n');
    }
    if random.one_in(4) {
        script.pop();
    }
    script
}

fn table(random: &mut Random, scale: &Scale) -> Vec<u8> {
    let slots = match random.below(10) {
        0 => random.pick(&[0, 1023, 1024, 1025, 4_294_967_295, 4_294_967_296, 9_999_999_999]),
        _ => random.between(scale.slots.0, scale.slots.1) as u64,
    };
    format!("T {slots}").into_bytes()
}

fn some_id(random: &mut Random, scale: &Scale) -> u64 {
    if random.one_in(40) {
        return random.pick(&[0, 4_294_967_295, 4_294_967_296]);
    }
    random.between(1, scale.ids) as u64
}

/// Nested patterns have no 0, so that the key of ones matches them all. A few others care for all 128 bits, most of them 0, as a key's
/// are: by the script's edition, 1.3, such a rule stands no higher than its priority.
fn pattern(random: &mut Random, scale: &Scale) -> String {
    if !scale.nested && random.one_in(25) {
        return (0..128).map(|place| if place < scale.bits { random.pick(&['0', '1']) } else { '0' }).collect();
    }
    let length = if random.one_in(60) { random.between(120, 130) } else { random.between(1, scale.bits) };
    let symbols: &[char] = if scale.nested { &['1', '*'] } else { &['0', '1', '*', '*'] };
    (0..length).map(|_| random.pick(symbols)).collect()
}

/// Every fifth insert has priority and pattern of an earlier one, which are kept in `sent`.
fn insert(random: &mut Random, scale: &Scale, sent: &mut Vec<(u64, String)>) -> Vec<u8> {
    let priority =
        if random.one_in(30) { random.pick(&[0, 65_535, 65_536, 4_294_967_295]) } else { random.below(scale.priorities) as u64 };
    let action = if random.one_in(10) { random.word() & 0xffff_ffff } else { random.below(9) as u64 };
    let again = random.one_in(5) && !sent.is_empty();
    let (priority, pattern) = if again { sent[random.below(sent.len())].clone() } else { (priority, pattern(random, scale)) };
    let line = format!("I {} {priority} {pattern} {action}", some_id(random, scale));
    sent.push((priority, pattern));
    line.into_bytes()
}

fn lookup(random: &mut Random, bits: usize) -> Vec<u8> {
    let length = if random.one_in(20) { random.between(100, 129) } else { random.between(1, bits) };
    let key: String = (0..length).map(|_| random.pick(&['0', '1'])).collect();
    format!("L {key}").into_bytes()
}

fn damage(random: &mut Random, line: &mut Vec<u8>) {
    let place = random.below(line.len() + 1);
    match random.below(8) {
        0 => line.clear(),
        1 => line.insert(place, random.pick(b" \t\r\0+-x*,0")),
        2 => line.truncate(place),
        3 => line.extend(vec![random.pick(b" 01*"); random.pick(&[1, 100, 255, 256, 257, 300, 5000])]),
        4 => line.push(random.pick(b" \r\t")),
        5 => line.insert(0, random.pick(b" 0TIDL")),
        6 => {
            let zeros = vec![b'0'; random.between(1, 11)];
            let after = line.iter().position(|&byte| byte == b' ').map_or(0, |space| space + 1);
            line.splice(after..after, zeros);
        }
        _ => {
            if place < line.len() {
                line[place] = random.word() as u8;
            }
        }
    }
}
