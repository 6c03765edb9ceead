//! CallBegin names at the limits of RFC 3629, at several offsets in their 32 bytes.

use super::Use;
use crate::form::Form;
use crate::frame::{written, META};
use crate::random::Random;

const SECONDS: [u8; 12] = [0x00, 0x41, 0x7f, 0x80, 0x8f, 0x90, 0x9f, 0xa0, 0xbf, 0xc0, 0xc2, 0xff];
const TAILS: [u8; 5] = [0x00, 0x7f, 0x80, 0xbf, 0xc0];
const ADDRESS: [u8; 8] = [1, 2, 3, 4, 5, 6, 7, 8];

/// Characters at the limits of each size.
pub const CHARACTERS: [&str; 11] = [
    "a",
    "\u{7f}",
    "\u{80}",
    "\u{7ff}",
    "\u{800}",
    "\u{d7ff}",
    "\u{e000}",
    "\u{20ac}",
    "\u{ffff}",
    "\u{10000}",
    "\u{10ffff}",
];

pub fn names(fine: usize, _: Form, use_input: Use) {
    sequences(fine, &mut |sequence| {
        for start in [0, 5, 28, 29, 30, 31] {
            let mut field = [b'a'; 32];
            let end = 32.min(start + 4);
            field[start..end].copy_from_slice(&sequence[..end - start]);
            use_field(&field, &ADDRESS, use_input);
        }
    });
    lengths(use_input);
    sizes(use_input);
    texts(fine * 30_000, use_input);
}

/// Two bytes and, where a longer character may begin, two more that matter.
pub fn sequences(fine: usize, use_sequence: Use) {
    let everything: Vec<u8> = (0..=255).collect();
    let seconds = if fine > 1 { &everything[..] } else { &SECONDS };
    for lead in 0..=255u8 {
        let thirds = if lead >= 0xe0 { &TAILS[..] } else { &TAILS[1..2] };
        let fourths = if lead >= 0xf0 { &TAILS[..] } else { &TAILS[1..2] };
        for &second in seconds {
            for &third in thirds {
                fourths.iter().for_each(|&fourth| use_sequence(&[lead, second, third, fourth]));
            }
        }
    }
}

/// Every length of name from characters of each size. What follows the zero byte varies, and must be ignored.
fn lengths(use_input: Use) {
    for character in CHARACTERS {
        let text = character.repeat(32);
        for length in 0..=32 {
            for behind in [0, b'a', 0x80, 0xff] {
                let mut field = [behind; 32];
                field[..length].copy_from_slice(&text.as_bytes()[..length]);
                if length < 32 {
                    field[length] = 0;
                }
                use_field(&field, &ADDRESS, use_input);
            }
        }
    }
}

/// Good and bad names, with address bytes cut off or added.
fn sizes(use_input: Use) {
    for bad in [0x00, b'a', 0x80, 0xc0, 0xff] {
        for place in 0..32 {
            let mut field = [b'a'; 32];
            field[place] = bad;
            for cut in 0..=ADDRESS.len() {
                use_field(&field, &ADDRESS[..cut], use_input);
            }
            use_field(&field, &[&ADDRESS[..], &ADDRESS[..3]].concat(), use_input);
            use_field(&field[..place], &[], use_input);
        }
    }
}

/// Random characters; half the time one byte of them is altered.
fn texts(count: usize, use_input: Use) {
    let mut random = Random::new(3);
    for _ in 0..count {
        let mut text = String::new();
        while text.len() < 32 {
            let bits = random.pick(&[7, 11, 16, 21]);
            text.push(char::from_u32(random.sized(bits) as u32).unwrap_or('b'));
        }
        let mut field = text.into_bytes();
        field.truncate(32);
        if random.once_in(2) {
            let place = random.below(32);
            field[place] = random.byte();
        }
        use_field(&field, &ADDRESS, use_input);
    }
}

fn use_field(name: &[u8], address: &[u8], use_input: Use) {
    let mut bytes = Vec::new();
    written(&mut bytes, META, &[&[3], name, address].concat());
    use_input(&bytes);
}
