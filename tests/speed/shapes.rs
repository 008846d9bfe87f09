// Accepted inputs given another width, or another number of words of a rule or a key: each is refused before all else is looked at.
// Beside them images made at the other width.

use crate::inputs::Input;
use crate::versions::Call;
use reference::bits::WIDTHS;
use reference::table::record_words;

const OTHER_WIDTHS: [u32; 7] = [0, 1, 3, 4, 6, 7, u32::MAX];

/// Of the two widths that tables have, the other one.
pub fn other_width(width: usize) -> usize {
    if width == WIDTHS[0] {
        WIDTHS[1]
    } else {
        WIDTHS[0]
    }
}

/// Inputs that are refused as SHAPE, or by the empty part.
pub fn misshaped(input: &Input) -> Vec<Input> {
    let width = input.width;
    let mut inputs: Vec<Input> = OTHER_WIDTHS.into_iter().map(|given| Input { given, ..input.clone() }).collect();
    if matches!(input.call, Call::PlanInsert | Call::CarryOut) {
        let counts = [0, record_words(width) - 1, record_words(width) + 1, record_words(other_width(width))];
        inputs.extend(counts.map(|count| Input { rule: resized(&input.rule, count), ..input.clone() }));
    }
    if input.call == Call::Lookup {
        let counts = [0, width - 1, width + 1, other_width(width)];
        inputs.extend(counts.map(|count| Input { key: resized(&input.key, count), ..input.clone() }));
    }
    if input.call == Call::CarryOut {
        let with_writes = [(vec![65_534 << 16 | input.slot], 1), (Vec::new(), 0)];
        inputs.extend(with_writes.map(|(plan, total)| Input { rule: Vec::new(), plan, total, ..input.clone() }));
    }
    inputs
}

fn resized(words: &[u64], count: usize) -> Vec<u64> {
    let mut resized = words.to_vec();
    resized.resize(count, 0);
    resized
}

/// What a misshaped input gives.
pub fn wanted(call: Call) -> u64 {
    if call == Call::SlotRecord {
        0
    } else {
        1
    }
}

/// A load of an image that is made at the other width, for as many slots.
pub fn other_image(load: &Input, others: &[Input]) -> Input {
    assert!(load.call == Call::Load && others[0].width != load.width);
    Input { image: others[0].image.clone(), ..load.clone() }
}
