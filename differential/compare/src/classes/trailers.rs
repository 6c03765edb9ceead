//! Trailers for reading backwards, that lead to the start of their record, close to it, before the first byte, or far
//! off.

use super::Use;
use crate::form::Form;
use crate::frame::*;
use crate::random::Random;

pub fn trailers(fine: usize, _: Form, use_input: Use) {
    let mut random = Random::new(18);
    for _ in 0..fine {
        for kind in [ARCH, FILE_META, META, PC, MEM_WRITE, MAGIC, 0x08] {
            for size in (0..=10).chain(120..=130).chain(240..=256) {
                WIDTHS.iter().for_each(|&width| leads(&mut random, kind, width, size, use_input));
            }
            for size in [65_525, 65_535, 70_000] {
                leads(&mut random, kind, 4, size, use_input);
            }
        }
    }
}

/// A record with bytes before it, and every trailer.
fn leads(random: &mut Random, kind: u8, width: usize, size: usize, use_input: Use) {
    let right = (1 + width + size) as u32;
    let mut content = Vec::new();
    random.bytes(size, &mut content);
    for before in [0, 1, 7] {
        let near = [right - 1, right, right + 1, right + before, right + before + 1];
        let far = [right | 1 << 17, right | 1 << 24, 1 << 31, u32::MAX - 4, u32::MAX];
        for back in near.into_iter().chain(far) {
            let byte = u8::try_from(back).map(Trailer::Byte);
            for trailer in byte.into_iter().chain([Trailer::Word(back)]) {
                let mut bytes = Vec::new();
                random.bytes(before as usize, &mut bytes);
                if frame(&mut bytes, kind, width, &content, trailer) {
                    use_input(&bytes);
                }
            }
        }
    }
}
