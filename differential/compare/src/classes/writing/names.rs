//! Names of functions: every length, characters of every size, and what is no name.

use super::Give;
use crate::classes::names::{sequences, CHARACTERS};
use crate::form::Form;
use crate::given::{name, Given};
use crate::random::Random;

const CALL_BEGIN: u64 = 12;

fn give_name(name: &[u8], give: Give) {
    give(&[Given::new(CALL_BEGIN, [0x1000, 0, 0], name)]);
}

/// Every length, and three that are too long: of each character as many as fit, filled up with the digit 1; or with the
/// last one cut.
pub fn names(_: usize, _: Form, give: Give) {
    for length in 0..=35 {
        for character in CHARACTERS.iter().cycle().skip(length).take(CHARACTERS.len()) {
            let fits = length / character.len();
            let mut text = character.repeat(fits);
            text += &"1".repeat(length - text.len());
            give_name(text.as_bytes(), give);
            give_name(&character.repeat(35).as_bytes()[..length], give);
        }
    }
}

/// The limits of RFC 3629, zero bytes at every offset, and random characters, of which half the time one byte is
/// altered.
pub fn texts(fine: usize, _: Form, give: Give) {
    sequences(fine, &mut |sequence| {
        for (before, length) in [(0, 1), (0, 2), (0, 3), (0, 4), (7, 4), (28, 4), (29, 3), (31, 1)] {
            give_name(&[&[b'a'; 31][..before], &sequence[..length]].concat(), give);
        }
    });
    for length in 1..=33 {
        for place in 0..length {
            let mut name = vec![b'a'; length];
            name[place] = 0;
            give_name(&name, give);
        }
    }
    let mut random = Random::new(16);
    for _ in 0..fine * 30_000 {
        let length = random.below(33);
        let mut name = name(&mut random, length);
        if length > 0 && random.once_in(2) {
            name[random.below(length)] = random.byte();
        }
        give_name(&name, give);
    }
}
