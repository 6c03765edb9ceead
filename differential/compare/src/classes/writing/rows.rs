//! Random records in rows.

use super::Give;
use crate::content::size;
use crate::form::Form;
use crate::given::Given;
use crate::random::Random;
use crate::types::{Slice, TYPES};

pub fn rows(count: usize, form: Form, give: Give) {
    let mut random = Random::new(17);
    let mut row = Vec::new();
    for _ in 0..count {
        row.clear();
        for _ in 0..1 + random.below(12) {
            let (kind, length) = (&TYPES[random.below(TYPES.len())], size(&mut random));
            let mut given = Given::good(&mut random, form, kind, length);
            if random.once_in(20) {
                spoil(&mut random, kind.slice, &mut given);
            }
            row.push(given);
        }
        give(&row);
    }
}

/// Makes one that is refused, if the type can be.
fn spoil(random: &mut Random, slice: Slice, given: &mut Given) {
    let number = &mut given.record.numbers[0];
    match slice {
        Slice::Name => given.bytes.insert(0, random.pick(&[0, 0x80, 0xff])),
        Slice::List => *number = 255,
        Slice::Unknown(least) => *number = random.below(least as usize) as u64,
        Slice::Ignored | Slice::Contents => given.record.record_type = random.pick(&[0, 2, 28]),
    }
}
