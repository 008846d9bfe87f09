// The saved image on the reference: bytes, each refusal with its spot, and the way back, at both widths.
// One table of three slots with two rules serves all of them. Each call is made counted and uncounted, with the same answer: no two
// rules here have one action, and nothing of this stands in an image.

use crate::bits::WIDTHS;
use crate::edge_test::{of_each_kind, refused, rule};
use crate::image;
use crate::table::*;

pub fn save(words: &[u64], width: usize, room: usize) -> Result<Vec<u8>, Refusal> {
    of_each_kind(|uncounted| image::save(words, width, uncounted, room))
}

pub fn load(image: &[u8], table_words: usize, width: usize) -> Result<Vec<u64>, Refusal> {
    of_each_kind(|uncounted| image::load(image, table_words, width, uncounted))
}

fn table(width: usize) -> Vec<u64> {
    words_of(&[Some(rule(7, 513, "1*0")), None, Some(rule(9, 2, "11"))], width)
}

/// What a width makes of an image of two rules, whose bodies start at byte 24.
struct Lengths {
    width: usize,
    table_words: usize,
    image: usize,
    body: usize,
}

const LENGTHS: [Lengths; 2] =
    [Lengths { width: 2, table_words: 18, image: 104, body: 40 }, Lengths { width: 5, table_words: 36, image: 200, body: 88 }];

#[test]
fn bytes_of_an_image() {
    for Lengths { width, table_words, image: bytes, body } in LENGTHS {
        let image = save(&table(width), width, 300).unwrap();
        assert_eq!(image.len(), bytes);
        assert_eq!(image[..14], [0, 3, 0, 2, 0, 0, 0, 7, 0, 0, 0, 0, 0, 24]);
        assert_eq!(image[14..24], [0, 0, 0, 9, 0, 2, 0, 0, 0, 24 + body as u8]);
        assert_eq!(image[24..26], [0x80, 0]);
        let mask = 24 + 8 * width;
        assert_eq!(image[mask..mask + 2], [0xa0, 0]);
        assert_eq!(image[24 + body - 8..24 + body], [0, 0, 2, 1, 0, 0, 0, 107]);
        assert_eq!(load(&image, table_words, width), Ok(table(width)));
        assert_eq!(save(&vec![0; 2 * table_words / 3], width, 4), Ok(vec![0, 2, 0, 0]));
    }
}

#[test]
fn save_declines() {
    for Lengths { width, image: bytes, .. } in LENGTHS {
        assert_eq!(save(&table(width), width, bytes - 1), refused(SHORT, bytes as u64));
        assert_eq!(save(&table(width)[1..], width, bytes), refused(SHAPE, 0));
        let twice = words_of(&[Some(rule(7, 5, "1")), Some(rule(7, 4, "1"))], width);
        assert_eq!(save(&twice, width, 0), refused(TWICE, 1));
    }
}

#[test]
fn load_declines_other_lengths() {
    for Lengths { width, table_words, .. } in LENGTHS {
        assert_eq!(load(&[], table_words, width), refused(IMAGE, 0));
        assert_eq!(load(&[0, 3, 0], table_words, width), refused(IMAGE, 0));
        assert_eq!(load(&[0, 3, 0, 0], 2 * table_words / 3, width), refused(IMAGE, 0));
        assert_eq!(load(&[], 0, width), refused(SHAPE, 0));
        assert_eq!(load(&[0, 3, 0, 0, 0], table_words, width), refused(IMAGE, 2));
        assert_eq!(load(&[0, 3, 0, 0], table_words, width), Ok(vec![0; table_words]));
    }
}

#[test]
fn load_declines_wrong_fields() {
    for Lengths { width, table_words, body, .. } in LENGTHS {
        let load_edited = |at: usize, byte: u8| {
            let mut image = save(&table(width), width, 200).unwrap();
            image[at] = byte;
            load(&image, table_words, width)
        };
        assert_eq!(load_edited(3, 4), refused(IMAGE, 2));
        assert_eq!(load_edited(7, 0), refused(IMAGE, 4));
        assert_eq!(load_edited(9, 3), refused(IMAGE, 8));
        assert_eq!(load_edited(9, 2), refused(IMAGE, 18));
        assert_eq!(load_edited(13, 25), refused(IMAGE, 10));
        assert_eq!(load_edited(24 + 8 * width - 1, 1), refused(IMAGE, 24)); // the value's last bit
        assert_eq!(load_edited(24 + 2 * body - 7, 1), refused(IMAGE, 24 + body as u64)); // rank 65,538
        assert_eq!(load_edited(17, 7), refused(TWICE, 2));
        assert_eq!(load_edited(24 + body - 6, 0), refused(ORDER, 2)); // rank 1
    }
}

#[test]
fn lengths_at_both_widths() {
    let three = [Some(rule(1, 3, "1")), Some(rule(2, 2, "1")), Some(rule(3, 1, "1"))];
    for (width, few, most) in [(2, 154, 51_204), (5, 298, 100_356)] {
        assert_eq!(save(&words_of(&three, width), width, few).map(|image| image.len()), Ok(few));
        let full: Vec<Slot> = (0..1024).map(|slot| Some(rule(slot as u32 + 1, 2000 - slot, ""))).collect();
        let image = save(&words_of(&full, width), width, most).unwrap();
        assert_eq!(image.len(), most);
        assert_eq!(load(&image, 1024 * record_words(width), width), Ok(words_of(&full, width)));
        assert_eq!(save(&words_of(&full, width), width, most - 1), refused(SHORT, most as u64));
    }
}

#[test]
fn an_image_of_the_other_width() {
    for (width, other) in [(2, 5), (5, 2)] {
        let image = save(&table(other), other, 200).unwrap();
        assert_eq!(load(&image, 3 * record_words(width), width), refused(IMAGE, 2));
        let no_rules = save(&vec![0; 3 * record_words(other)], other, 4).unwrap();
        assert_eq!(load(&no_rules, 3 * record_words(width), width), Ok(vec![0; 3 * record_words(width)]));
    }
    // as many words are six slots at two words
    assert_eq!(load(&save(&[0; 36], 5, 4).unwrap(), 36, 2), refused(IMAGE, 0));
}

#[test]
fn other_widths() {
    for width in WIDTHS {
        for wrong in [0, 1, 3, 4, 6] {
            assert_eq!(load(&save(&table(width), width, 200).unwrap(), 3 * record_words(width), wrong), refused(SHAPE, 0));
            assert_eq!(save(&table(width), wrong, 200), refused(SHAPE, 0));
        }
    }
}
