// The script program as a function from input bytes to output bytes.
// Each line is read whole, then answered; after a refusal the next line is read. No line names a table as uncounted.

use crate::bits::Bits;
use crate::carry::{carry_out, Carried, Progress};
use crate::given::{Given, EDITION_13};
use crate::lookup::{lookup, Found};
use crate::plan::{plan_delete, plan_insert, EMPTYING, PUT_IN};
use crate::table::{record_words, refuse, Refusal, COUNTED, LINE, SHAPE, SLOTS_MOST};

const LINE_BYTES_MOST: usize = 256;

/// "The script program stays at two."
const WIDTH: usize = 2;
const BITS: usize = 64 * WIDTH;

enum Command {
    Table { slots: u32 },
    Insert(Given),
    Delete { id: u32 },
    Lookup { key: Bits },
}

pub fn run_script(input: &[u8]) -> Vec<u8> {
    let mut words: Vec<u64> = Vec::new();
    let mut output = String::new();
    for (place, line) in lines_of(input).into_iter().enumerate() {
        let answer = match read_line(line) {
            None => refuse(LINE, place + 1),
            Some(command) => answer_to(command, &mut words),
        };
        match answer {
            Ok(text) => output.push_str(&text),
            Err(refusal) => output.push_str(&format!("R {} {}\n", refusal.number, refusal.spot)),
        }
    }
    output.into_bytes()
}

/// "Lines end in a newline (the last may lack it); nothing after the last newline is no line."
fn lines_of(input: &[u8]) -> Vec<&[u8]> {
    let mut lines: Vec<&[u8]> = input.split(|&byte| byte == b'\n').collect();
    if lines.last().is_some_and(|last| last.is_empty()) {
        lines.pop();
    }
    lines
}

fn read_line(line: &[u8]) -> Option<Command> {
    if line.is_empty() || line.len() > LINE_BYTES_MOST {
        return None;
    }
    let fields: Vec<&[u8]> = line.split(|&byte| byte == b' ').collect();
    match fields.as_slice() {
        [b"T", slots] => Some(Command::Table { slots: read_number(slots)? }),
        [b"I", id, priority, pattern, action] => {
            let (value, mask) = read_pattern(pattern)?;
            Some(Command::Insert(Given {
                id: read_number(id)?,
                priority: u64::from(read_number(priority)?),
                value,
                mask,
                action: read_number(action)?,
            }))
        }
        [b"D", id] => Some(Command::Delete { id: read_number(id)? }),
        [b"L", key] => Some(Command::Lookup { key: read_key(key)? }),
        _ => None,
    }
}

/// "Numbers have 1 to 10 decimal digits and fit 32 bits."
fn read_number(field: &[u8]) -> Option<u32> {
    if field.is_empty() || field.len() > 10 || !field.iter().all(|byte| byte.is_ascii_digit()) {
        return None;
    }
    let number = field.iter().fold(0u64, |number, byte| number * 10 + u64::from(byte - b'0'));
    u32::try_from(number).ok()
}

/// "A pattern has 1 to 128 of `0 1 *`, highest bit first, the rest uncared for."
fn read_pattern(field: &[u8]) -> Option<(Bits, Bits)> {
    if field.is_empty() || field.len() > BITS {
        return None;
    }
    let mut value = Bits::NONE;
    let mut mask = Bits::NONE;
    for (place, byte) in field.iter().enumerate() {
        let bit = Bits::at(place);
        match byte {
            b'0' => mask |= bit,
            b'1' => {
                mask |= bit;
                value |= bit;
            }
            b'*' => {}
            _ => return None,
        }
    }
    Some((value, mask))
}

/// "A key 1 to 128 of `0 1`, the rest 0."
fn read_key(field: &[u8]) -> Option<Bits> {
    if field.contains(&b'*') {
        return None;
    }
    read_pattern(field).map(|(value, _)| value)
}

fn answer_to(command: Command, words: &mut Vec<u64>) -> Result<String, Refusal> {
    match command {
        Command::Table { slots } => {
            if slots < 1 || slots as usize > SLOTS_MOST {
                return refuse(SHAPE, 0);
            }
            *words = vec![0; slots as usize * record_words(WIDTH)];
            Ok(format!("N {slots}\n"))
        }
        Command::Insert(rule) => {
            let record = rule.record(WIDTH);
            let planned = plan_insert(words, WIDTH, COUNTED, &record, EDITION_13, words.len() / record_words(WIDTH))?;
            Ok(carried_out(words, &record, &planned.writes))
        }
        Command::Delete { id } => {
            let plan = plan_delete(words, WIDTH, COUNTED, id, 1)?;
            let no_rule = vec![0; record_words(WIDTH)];
            Ok(carried_out(words, &no_rule, &plan))
        }
        Command::Lookup { key } => Ok(match lookup(words, WIDTH, key.words(WIDTH))? {
            Found::Hit { slot, id, action } => format!("A {slot} {id} {action}\n"),
            Found::Miss => "M\n".to_string(),
        }),
    }
}

/// Carries the whole plan out and gives the lines that print it. The script's edition is 13, with the words of no rule too.
fn carried_out(words: &mut [u64], rule: &[u64], plan: &[u32]) -> String {
    let mut progress = Progress { done: 0, total: plan.len() as u32 };
    while carry_out(words, WIDTH, rule, EDITION_13, plan, &mut progress) == Ok(Carried::Wrote) {}
    assert_eq!(progress.done, progress.total, "our own plan is carried out in full");
    let mut text = format!("P {}\n", plan.len());
    for write in plan {
        let (from, to) = (write / 65_536, write % 65_536);
        text.push_str(&match from {
            PUT_IN => format!("W - {to}\n"),
            EMPTYING => format!("E {to}\n"),
            _ => format!("W {from} {to}\n"),
        });
    }
    text
}
