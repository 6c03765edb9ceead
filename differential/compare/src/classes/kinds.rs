//! Every kind and every tag with content sizes around what it takes, in every frame.

use super::Use;
use crate::content::{need, META_NEEDS};
use crate::form::Form;
use crate::frame::*;
use crate::random::Random;

/// Content bytes by their offset: zeros, ones, counting, or random.
const FILLS: [fn(usize, &mut Random) -> u8; 4] =
    [|_, _| 0, |_, _| 0xff, |place, _| place as u8 + 1, |_, random| random.byte()];

/// All 64 kinds, known and unknown.
pub fn kinds(fine: usize, form: Form, use_input: Use) {
    let mut random = Random::new(1);
    for kind in (0..=252u8).step_by(4) {
        use_input(&[kind]);
        use_input(&[kind, kind]);
        for size in 0..=need(kind, form) + 2 {
            fills(fine, size, &mut random, &mut |content| frames(kind, content, use_input));
        }
    }
}

/// Every tag byte of Meta and FileMeta.
pub fn tags(fine: usize, _: Form, use_input: Use) {
    let mut random = Random::new(2);
    for kind in [META, FILE_META] {
        for tag in 0..=255u8 {
            let need = match kind {
                META => META_NEEDS.get(usize::from(tag)).copied().unwrap_or(2),
                _ => 4,
            };
            for size in 0..=need + 2 {
                fills(fine, size, &mut random, &mut |rest| {
                    frames(kind, &[&[tag], rest].concat(), use_input);
                });
            }
        }
    }
}

/// Contents of `size` bytes, the random ones `fine` times.
fn fills(fine: usize, size: usize, random: &mut Random, use_content: Use) {
    let plain = FILLS.len() - 1;
    for fill in &FILLS[..plain] {
        let content: Vec<u8> = (0..size).map(|place| fill(place, random)).collect();
        use_content(&content);
    }
    for _ in 0..fine {
        let content: Vec<u8> = (0..size).map(|place| FILLS[plain](place, random)).collect();
        use_content(&content);
    }
}

/// The content in each width and with each trailer: alone, with bytes after it, and without its last byte.
fn frames(kind: u8, content: &[u8], use_input: Use) {
    for width in WIDTHS {
        for trailer in TRAILERS {
            let mut bytes = Vec::new();
            if frame(&mut bytes, kind, width, content, trailer) {
                use_input(&bytes);
                use_input(&bytes[..bytes.len() - 1]);
                bytes.extend_from_slice(&[0x31, 0x02, 0x04, 0x03, 0x00]);
                use_input(&bytes);
            }
        }
    }
}

/// Lengths at the limits of their widths, up to the largest, with few bytes after them.
pub fn lengths(_: usize, _: Form, use_input: Use) {
    let borders = [7, 8, 15, 16, 24, 31, 32].map(|bits| 1u64 << bits);
    for kind in (0..=252u8).step_by(4) {
        for width in WIDTHS {
            for length in (0..=8).chain(borders.into_iter().flat_map(|border| border - 7..=border + 1)) {
                for behind in [0, 1, 5, 8] {
                    let mut bytes = vec![kind | low_bits(width)];
                    bytes.extend_from_slice(&length.to_le_bytes()[..width]);
                    bytes.extend_from_slice(&[9, 0, 0, 0, 1, 2, 3, 4][..behind]);
                    use_input(&bytes);
                    use_input(&bytes[..bytes.len() - 1]);
                }
            }
        }
    }
}

/// Traces of eight tags of Meta and of FileMeta each, with as many bytes as each tag takes.
pub fn tag_rows(_: usize, _: Form, use_input: Use) {
    for kind in [META, FILE_META] {
        for row in (0..=248u8).step_by(8) {
            let mut bytes = Vec::new();
            for tag in row..=row + 7 {
                let need = META_NEEDS.get(usize::from(tag)).copied().unwrap_or(1);
                let mut content = vec![0x21; 1 + need];
                content[0] = tag;
                if kind == FILE_META && tag == 0 {
                    content[1] = 0;
                }
                written(&mut bytes, kind, &content);
            }
            use_input(&bytes);
        }
    }
}

/// The magic bytes: cut, longer, with each byte altered, in other frames, and twice.
pub fn magic(_: usize, _: Form, use_input: Use) {
    for cut in 0..=MAGIC_BYTES.len() {
        use_input(&MAGIC_BYTES[..cut]);
    }
    for byte in 0..=255 {
        use_input(&[&MAGIC_BYTES[..], &[byte]].concat());
        for place in 0..MAGIC_BYTES.len() {
            let mut bytes = MAGIC_BYTES;
            bytes[place] = byte;
            use_input(&bytes);
        }
    }
    frames(MAGIC, &MAGIC_BYTES[2..7], use_input);
    use_input(&[MAGIC_BYTES, MAGIC_BYTES].concat());
}
