//! What can happen to stored bytes.

use crate::frame::KINDS;
use crate::random::Random;

/// Damages `bytes` once. `other` is another trace, for splices.
pub fn damage(random: &mut Random, other: &[u8], bytes: &mut Vec<u8>) {
    if bytes.is_empty() {
        return random.bytes(3, bytes);
    }
    let place = random.below(bytes.len());
    match random.below(9) {
        0 | 1 => bytes[place] ^= 1 << random.below(8),
        2 => bytes[place] = random.byte(),
        3 => bytes[place] = random.pick(&[0, 1, 2, 3, 4, 5, 0x7f, 0x80, 0xfe, 0xff]),
        4 => bytes[place] = random.pick(&KINDS) | random.below(4) as u8,
        5 => bytes.truncate(place),
        6 => splice(random, other, place, bytes),
        7 => swap(random, place, bytes),
        _ => {
            let end = bytes.len().min(place + random.below(6));
            let mut some = Vec::new();
            let count = random.below(6);
            random.bytes(count, &mut some);
            bytes.splice(place..end, some);
        }
    }
}

/// From `place` on, the other trace's bytes, from some offset of its own.
fn splice(random: &mut Random, other: &[u8], place: usize, bytes: &mut Vec<u8>) {
    bytes.truncate(place);
    bytes.extend_from_slice(&other[random.below(other.len() + 1)..]);
}

/// Exchanges two pieces: the one up to `place`, and one after it.
fn swap(random: &mut Random, place: usize, bytes: &mut [u8]) {
    let end = place + random.below(bytes.len() - place + 1);
    let start = random.below(place + 1);
    bytes[start..end].rotate_left(place - start);
}
