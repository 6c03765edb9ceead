//! Contents that each kind takes, put together from document 01's text alone.

use crate::form::Form;
use crate::frame::*;
use crate::random::Random;

/// How many bytes each tag of Meta takes.
pub const META_NEEDS: [usize; 12] = [8, 4, 8, 40, 0, 8, 0, 8, 4, 12, 12, 20];

/// How many content bytes a kind takes; for Meta and FileMeta, the tag and the byte after it.
pub fn need(kind: u8, form: Form) -> usize {
    match kind {
        MAP | INSTRUCTION | PC | MEM_READ | MEM_WRITE => form.width(),
        UNMAP => 2 * form.width(),
        INTERRUPT => 12,
        ARCH | REG_READ | REG_WRITE => 4,
        FILE_META | REG_WRITE_NATIVE | META => 2,
        MAGIC => 5,
        _ => 1,
    }
}

/// Appends a content that is shown, of any kind but Magic.
pub fn content(random: &mut Random, form: Form, kind: u8, out: &mut Vec<u8>) {
    match kind {
        META => return meta(random, out),
        FILE_META if random.once_in(3) => return unknown(random, 1, out),
        FILE_META => return register_list(random, out),
        UNMAP | PC => (0..need(kind, form) / form.width()).for_each(|_| form.put(random, out)),
        MAP | INSTRUCTION | MEM_READ | MEM_WRITE => form.put(random, out),
        _ => numbers(random, need(kind, form), out),
    }
    if !matches!(kind, UNMAP | PC | INTERRUPT) {
        let count = size(random);
        random.bytes(count, out);
    }
}

fn meta(random: &mut Random, out: &mut Vec<u8>) {
    match random.below(14) {
        3 => {
            out.push(3);
            name(random, out);
            numbers(random, 8, out);
        }
        tag if tag < 12 => {
            out.push(tag as u8);
            numbers(random, META_NEEDS[tag], out);
        }
        _ => unknown(random, 12, out),
    }
}

fn unknown(random: &mut Random, first: usize, out: &mut Vec<u8>) {
    out.push((first + random.below(256 - first)) as u8);
    let count = size(random);
    random.bytes(count, out);
}

/// Numbers in `count` bytes altogether, small ones more often than a uniform choice would give.
fn numbers(random: &mut Random, count: usize, out: &mut Vec<u8>) {
    let end = out.len() + count;
    while out.len() < end {
        let width = (end - out.len()).min(8);
        out.extend_from_slice(&random.sized(8 * width).to_le_bytes()[..width]);
    }
}

/// A name in 32 bytes, of one to four bytes a character.
fn name(random: &mut Random, out: &mut Vec<u8>) {
    let longest = random.below(33);
    let mut name = String::new();
    loop {
        let bits = random.pick(&[7, 7, 7, 11, 16, 21]);
        let character = char::from_u32(random.sized(bits) as u32).unwrap_or('x');
        if name.len() + character.len_utf8() > longest {
            break;
        }
        name.push(character);
    }
    let mut field = name.into_bytes();
    field.resize(32, 0);
    out.extend_from_slice(&field);
}

fn register_list(random: &mut Random, out: &mut Vec<u8>) {
    let count = random.below(6);
    out.extend_from_slice(&[0, count as u8]);
    for _ in 0..count {
        entry(random, out);
    }
    if random.once_in(4) {
        let extra = random.below(6);
        random.bytes(extra, out);
    }
}

pub fn entry(random: &mut Random, out: &mut Vec<u8>) {
    numbers(random, 2, out);
    let length = if random.once_in(40) { random.below(256) } else { random.below(6) };
    out.push(length as u8);
    random.bytes(length, out);
}

/// Mostly short, sometimes about the limit of one length byte.
pub fn size(random: &mut Random) -> usize {
    match random.below(60) {
        0 => 230 + random.below(30),
        1 => random.below(300),
        _ => random.below(9),
    }
}
