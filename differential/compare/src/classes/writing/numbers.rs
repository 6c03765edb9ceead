//! Numbers at the limits of all widths; and what is not a record.

use super::Give;
use crate::form::Form;
use crate::given::{numbers as fitting, Given};
use crate::random::Random;
use crate::types::{Slice, Type, TYPES};

const BORDERS: [u64; 10] = [0, 1, 255, 256, 65_535, 65_536, u32::MAX as u64, 1 << 32, 1 << 63, u64::MAX];

/// Types that are not written; cut to fewer bits, some would be types that are.
const NO_TYPES: [u64; 14] =
    [0, 2, 28, 29, 127, 128, 255, 256, 257, 0x1_0005, 0x1_0000_0001, 0x1_0000_000c, 1 << 63 | 27, u64::MAX];

/// Every type with each of its numbers at each limit, or random, whether they fit or not; and with each length of
/// bytes.
pub fn numbers(fine: usize, form: Form, give: Give) {
    let mut random = Random::new(11);
    let choices = BORDERS.len() + 1;
    for kind in &TYPES {
        for choice in 0..choices.pow(kind.bits.len() as u32) {
            let mut numbers = fitting(&mut random, form, kind);
            for (place, number) in numbers[..kind.bits.len()].iter_mut().enumerate() {
                let border = BORDERS.get(choice / choices.pow(place as u32) % choices);
                *number = border.copied().unwrap_or(*number);
            }
            for length in (0..=40).cycle().take(41 * fine) {
                give(&[with(&mut random, form, kind, numbers, length)]);
            }
        }
    }
}

/// The numbers, and bytes to go with them: for a register list as many entries as it counts.
fn with(random: &mut Random, form: Form, kind: &Type, numbers: [u64; 3], length: usize) -> Given {
    let mut given = Given::good(random, form, kind, length);
    given.record.numbers = numbers;
    if kind.slice == Slice::List {
        let entry = [&[0x34, 0x12, length as u8], &[b'r'; 40][..length]].concat();
        given.bytes = entry.repeat(numbers[0].min(255) as usize);
    }
    given
}

/// What is not a record: nothing else must be looked at, so the bytes may be wrong in any way.
pub fn wrong(fine: usize, form: Form, give: Give) {
    let mut random = Random::new(12);
    for _ in 0..fine {
        for record_type in NO_TYPES {
            let numbers = [0; 3].map(|_| random.sized(64));
            bytes(&mut random, &mut |bytes| give(&[Given::new(record_type, numbers, bytes)]));
        }
        for kind in &TYPES {
            for place in (0..kind.bits.len()).filter(|&place| kind.bits[place] < 64) {
                let least = 1 << kind.bits[place];
                for number in [least, least + 20, least << 8 | 1, 1 << 63, u64::MAX] {
                    let mut numbers = fitting(&mut random, form, kind);
                    numbers[place] = number;
                    bytes(&mut random, &mut |bytes| give(&[Given::new(kind.number, numbers, bytes)]));
                }
            }
        }
    }
}

/// None; some; too many for a name; too many for the original in any type but Map.
fn bytes(random: &mut Random, use_bytes: super::Use) {
    for length in [0, 5, 33, 65_531] {
        let mut bytes = vec![0; length];
        bytes.iter_mut().take(5).for_each(|byte| *byte = random.byte());
        use_bytes(&bytes);
    }
}
