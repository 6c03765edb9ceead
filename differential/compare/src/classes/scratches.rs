//! Traces of a scratched disk: a record of a written trace holds the bytes of another, and its trailer or a length is
//! altered, so that the trailer leads to the record inside, or a record does not end where its trailer does.

use super::Use;
use crate::emit::emit;
use crate::form::Form;
use crate::frame::*;
use crate::random::Random;

/// Records that hold another, and those inside: also one that is refused with 3, and one with 7.
const OUTER: [u8; 4] = [MEM_WRITE, MEM_WRITE, MEM_READ, MAP];
const INNER: [u8; 6] = [MEM_WRITE, MEM_WRITE, MEM_WRITE, REG_WRITE, MAGIC, 0x08];

/// The shortest content with two length bytes, but in a Map.
const SHORTEST_OF_TWO: usize = 254;

pub fn scratched(count: usize, form: Form, use_input: Use) {
    // The only frames that are refused with 2 backwards: the length bytes are a part of the trailer.
    (0..=252u8).step_by(4).for_each(|kind| use_input(&[kind | low_bits(4), 1, 0, 0, 0, 0]));
    let mut random = Random::new(21);
    let mut bytes = Vec::new();
    for _ in 0..count {
        bytes.clear();
        (0..random.below(3)).for_each(|_| emit(&mut random, form, &mut bytes));
        let starts = nested(&mut random, form, &mut bytes);
        scratch(&mut random, starts, &mut bytes);
        (0..random.below(3)).for_each(|_| emit(&mut random, form, &mut bytes));
        use_input(&bytes);
    }
}

/// Appends a record with another in its content; where each starts. Once in three the one inside has no trailer, and
/// that of the record around it is in its place: if it leads there, both ends of the one inside are the same.
fn nested(random: &mut Random, form: Form, bytes: &mut Vec<u8>) -> [usize; 2] {
    let (kind, long) = (random.pick(&OUTER), random.once_in(8));
    let five = long || kind == MAP;
    let (width, trailer, size) = if five { (2, Trailer::Five, 5) } else { (1, Trailer::One, 1) };
    let (mut content, mut inner) = (Vec::new(), Vec::new());
    form.put(random, &mut content);
    let before = random.below(10) + if long { SHORTEST_OF_TWO } else { 0 };
    random.bytes(before, &mut content);
    let within = content.len();
    form.put(random, &mut inner);
    let after = random.below(10);
    random.bytes(after, &mut inner);
    frame(&mut content, random.pick(&INNER), width, &inner, trailer);
    if random.once_in(3) {
        content.truncate(content.len() - size);
    } else {
        let after = random.pick(&[0, 0, 1, 3, 8]);
        random.bytes(after, &mut content);
    }
    let start = bytes.len();
    written(bytes, kind, &content);
    [start, bytes.len() - size - content.len() + within]
}

/// Two times in three the trailer at the end is altered, mostly to lead to the record inside; half the time, one of the
/// two lengths.
fn scratch(random: &mut Random, [outer, inner]: [usize; 2], bytes: &mut [u8]) {
    let end = bytes.len();
    if !random.once_in(3) {
        let anywhere = outer + random.below(end - outer - 5);
        let start = random.pick(&[inner, inner, inner, anywhere]);
        lead(random, start, bytes);
    }
    if random.once_in(2) {
        let length = 1 + random.pick(&[outer, inner]);
        let less = random.pick(&[1, 5, 0xff, 0xfb, (end - inner) as u8]);
        bytes[length] = bytes[length].wrapping_sub(less);
    }
}

/// Alters the trailer at the end, so that it leads to `start`: its last byte; or, half the time where that is 0 and
/// always where a byte is too small, the four before it.
fn lead(random: &mut Random, start: usize, bytes: &mut [u8]) {
    let end = bytes.len();
    let byte = u8::try_from(end - 1 - start).ok();
    match byte.filter(|_| bytes[end - 1] != 0 || random.once_in(2)) {
        Some(byte) => bytes[end - 1] = byte,
        None => {
            let back = (end - 5 - start) as u32;
            bytes[end - 5..end - 1].copy_from_slice(&back.to_le_bytes());
        }
    }
}
