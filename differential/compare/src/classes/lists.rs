//! Register lists: the count against the entries, entries that are cut, and bytes after the counted ones.

use super::Use;
use crate::content::entry;
use crate::form::Form;
use crate::frame::{frame, written, Trailer, FILE_META, LONGEST_OF_TWO, TRAILERS, WIDTHS};
use crate::random::Random;

type UseList<'a> = &'a mut dyn FnMut(u8, &[u8]);

/// The longest list that the original emits.
const LONGEST_EMITTED: usize = LONGEST_OF_TWO - 2;

pub fn lists(count: usize, _: Form, use_input: Use) {
    fixed(&mut |count, list| {
        if list.len() <= LONGEST_EMITTED {
            framed(count, list, use_input);
        }
    });
    random_lists(count, use_input);
}

/// Lists that are longer than those that the original emits.
pub fn long_lists(use_input: Use) {
    long(&mut |count, list| {
        if list.len() > LONGEST_EMITTED {
            framed(count, list, use_input);
        }
    });
}

fn framed(count: u8, list: &[u8], use_input: Use) {
    let mut bytes = Vec::new();
    written(&mut bytes, FILE_META, &[&[0, count], list].concat());
    use_input(&bytes);
}

/// Lists with a stated count, right or wrong; some are longer than any that the original emits.
pub fn fixed(use_list: UseList) {
    regular(use_list);
    small(use_list);
    long(use_list);
}

/// Up to four entries with names of one length, cut at every byte, with every count near their number.
fn regular(use_list: UseList) {
    for name in [0, 1, 2, 5] {
        for entries in 0..=4usize {
            let one = [&[0x34, 0x12, name as u8], &[b'r'; 5][..name]].concat();
            let list = [&one.repeat(entries)[..], &[0x80, 0x00, 0x02, 0xff]].concat();
            for end in 0..=list.len() {
                for count in (0..=entries + 2).chain([255]) {
                    use_list(count as u8, &list[..end]);
                }
            }
        }
    }
}

/// All lists of up to five bytes, from a few byte values.
fn small(use_list: UseList) {
    const BYTES: [u8; 6] = [0, 1, 2, 3, 4, 255];
    for length in 0..=5u32 {
        for choice in 0..BYTES.len().pow(length) {
            let byte = |place| BYTES[choice / BYTES.len().pow(place) % BYTES.len()];
            let list: Vec<u8> = (0..length).map(byte).collect();
            (0..=3).for_each(|count| use_list(count, &list));
        }
    }
}

/// As many entries as a count can state, and a few more or less.
fn long(use_list: UseList) {
    for entries in 253..=257 {
        for name in [0, 1, 255] {
            let one = [&[0xff, 0x7f, name as u8], &[b'r'; 255][..name]].concat();
            let list = one.repeat(entries);
            for count in [0, 1, 253, 254, 255] {
                for cut in [0, 1, name + 1, name + 3] {
                    use_list(count, &list[..list.len() - cut]);
                }
            }
        }
    }
}

fn random_lists(count: usize, use_input: Use) {
    let mut random = Random::new(4);
    let (mut content, mut bytes) = (Vec::new(), Vec::new());
    for _ in 0..count {
        let entries = random.below(8);
        let stated = (entries + random.below(3)).saturating_sub(random.below(2)) as u8;
        content.clear();
        content.extend_from_slice(&[0, stated]);
        (0..entries).for_each(|_| entry(&mut random, &mut content));
        let kept = content.len() - random.below(4).min(content.len());
        content.truncate(kept);
        let extra = random.below(5);
        random.bytes(extra, &mut content);
        bytes.clear();
        let (width, trailer) = (random.pick(&WIDTHS), random.pick(&TRAILERS));
        if !frame(&mut bytes, FILE_META, width, &content, trailer) {
            frame(&mut bytes, FILE_META, 2, &content, Trailer::Five);
        }
        use_input(&bytes);
    }
}
