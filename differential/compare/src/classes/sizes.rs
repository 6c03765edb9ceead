//! Contents about the limits of the length's widths, and longer ones.

use super::lists::long_lists;
use super::Use;
use crate::form::Form;
use crate::frame::*;

const SIZES: [usize; 12] = [0, 1, 251, 252, 253, 254, 255, 256, 257, 65_529, 65_530, 65_531];
const LARGER: [usize; 8] = [65_526, 65_534, 65_535, 65_536, 65_537, 70_000, 131_072, 1_000_000];
const LONG: [usize; 3] = [65_535, 65_536, 70_000];

pub fn sizes(fine: usize, _: Form, use_input: Use) {
    for kind in KINDS.into_iter().chain([0x08]) {
        for size in SIZES {
            fills(kind, size, use_input);
        }
    }
    for size in LARGER {
        fills(MAP, size, use_input);
        if fine > 1 {
            for kind in [META, FILE_META, MEM_WRITE, 0x08] {
                fills(kind, size, use_input);
            }
        }
    }
}

/// Every kind with contents that the original emits in a Map alone; and long register lists.
pub fn long(_: usize, _: Form, use_input: Use) {
    for kind in KINDS {
        for size in LONG {
            fills(kind, size, use_input);
        }
    }
    long_lists(use_input);
}

/// One byte over and over, after eight others that give Meta every kind of tag.
fn fills(kind: u8, size: usize, use_input: Use) {
    for fill in [0x00, 0x0a, 0x61, 0xff] {
        for first in [0x00, 0x03, 0x0b, 0x0c] {
            let mut content = vec![fill; size];
            let counted = size.min(8);
            content[..counted].copy_from_slice(&[first, 1, 2, 3, 4, 5, 6, 7][..counted]);
            frames(kind, &content, use_input);
        }
    }
}

fn frames(kind: u8, content: &[u8], use_input: Use) {
    for width in WIDTHS {
        for trailer in [Trailer::One, Trailer::Five, Trailer::Missing] {
            let mut bytes = Vec::new();
            if frame(&mut bytes, kind, width, content, trailer) {
                use_input(&bytes[..bytes.len() - 1]);
                use_input(&bytes);
                bytes.extend_from_slice(&MAGIC_BYTES);
                use_input(&bytes);
            }
        }
    }
}
