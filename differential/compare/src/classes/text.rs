//! Text that is no record: all strings of up to three bytes, those of four and five bytes at the borders of RFC 3629's
//! ranges, and drawn text, damaged. Each string stands alone and within longer ASCII, at an offset that changes, so that
//! strings meet every place of a block and both ends.

use super::names::CHARACTERS;
use super::Use;
use crate::form::Form;
use crate::random::Random;

/// Both ends of each range, and their neighbours.
const BORDERS: [u8; 24] = [
    0x00, 0x7f, 0x80, 0x8f, 0x90, 0x9f, 0xa0, 0xbf, 0xc0, 0xc1, 0xc2, 0xdf, 0xe0, 0xe1, 0xec, 0xed, 0xee,
    0xef, 0xf0, 0xf1, 0xf3, 0xf4, 0xf5, 0xff,
];

const LONGEST: usize = 70;

pub fn text(drawn_texts: usize, _: Form, use_input: Use) {
    let everything: Vec<u8> = (0..=255).collect();
    (0..=3).for_each(|length| strings(&everything, length, use_input));
    (4..=5).for_each(|length| strings(&BORDERS, length, use_input));
    drawn(drawn_texts, use_input);
}

/// All strings of this length, of these bytes.
fn strings(of: &[u8], length: usize, use_input: Use) {
    let mut string = vec![0; length];
    for number in 0..of.len().pow(length as u32) {
        let mut rest = number;
        for byte in &mut string {
            *byte = of[rest % of.len()];
            rest /= of.len();
        }
        use_input(&string);
        let mut text = [b'a'; LONGEST];
        let start = number % (LONGEST - length);
        let end = start + length;
        text[start..end].copy_from_slice(&string);
        use_input(&text[..end + number % (LONGEST - end)]);
    }
}

/// Characters of each size; half the time a byte of them is altered, left out or added. Then cut anywhere.
fn drawn(count: usize, use_input: Use) {
    let mut random = Random::new(5);
    for _ in 0..count {
        let (mut text, length) = (String::new(), 1 + random.below(LONGEST));
        while text.len() < length {
            text.push_str(random.pick(&CHARACTERS));
        }
        let mut text = text.into_bytes();
        let place = random.below(text.len());
        match random.below(6) {
            0 => text[place] = random.pick(&BORDERS),
            1 => drop(text.remove(place)),
            2 => text.insert(place, random.pick(&BORDERS)),
            _ => {}
        }
        use_input(&text);
        use_input(&text[..random.below(text.len() + 1)]);
    }
}
