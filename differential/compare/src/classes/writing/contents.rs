//! Contents of every length up to forty, about the limits of the frames, and longer than the original takes; and every
//! tag.

use super::Give;
use crate::form::Form;
use crate::given::Given;
use crate::random::Random;
use crate::types::{Slice, Type, MAP, TYPES};

const FILLS: [u8; 3] = [0x61, 0x00, 0xff];

const SIZES: [usize; 16] =
    [250, 251, 252, 253, 254, 255, 256, 257, 258, 65_528, 65_529, 65_530, 65_531, 65_532, 65_536, 70_000];
const MAPS: [usize; 6] = [65_531, 65_535, 65_536, 65_544, 131_072, 1_000_000];

/// The longest with two length bytes, and some with four.
const LONG: [usize; 5] = [65_530, 65_531, 65_535, 65_536, 70_000];
const LONGEST: usize = 1_000_000;
const MEM_WRITE: u64 = 27;

/// Every type: bytes that it takes, `fine` times, and any bytes.
pub fn contents(fine: usize, form: Form, give: Give) {
    let mut random = Random::new(13);
    for kind in &TYPES {
        for length in 0..=40 {
            for fill in FILLS {
                give(&[Given::raw(&mut random, form, kind, &vec![fill; length])]);
            }
            for _ in 0..fine {
                give(&[Given::good(&mut random, form, kind, length)]);
            }
            for _ in 0..fine.div_ceil(10) {
                let mut bytes = Vec::new();
                random.bytes(length, &mut bytes);
                give(&[Given::raw(&mut random, form, kind, &bytes)]);
            }
        }
    }
}

/// Every type whose content grows, at the sizes of content where the frame changes; and larger Maps. Other types are
/// handed as many bytes.
pub fn sizes(fine: usize, form: Form, give: Give) {
    let mut random = Random::new(14);
    for kind in &TYPES {
        let head = if kind.grows() { kind.head(form) } else { 0 };
        for size in SIZES {
            fills(&mut random, size - head, &mut |random, bytes| {
                give(&[Given::raw(random, form, kind, bytes)]);
                refused(random, form, kind, bytes, give);
            });
        }
    }
    let map = Type::find(MAP).expect("Map");
    for size in MAPS.into_iter().cycle().take(MAPS.len() * fine) {
        fills(&mut random, size, &mut |random, bytes| give(&[Given::raw(random, form, map, bytes)]));
    }
}

/// Every type whose content grows, at the sizes of M-101, alone and in rows; a MemWrite that is longer; and a register
/// list of 255 names of 255 bytes.
pub fn long(fine: usize, form: Form, give: Give) {
    let mut random = Random::new(21);
    let growing: Vec<&Type> = TYPES.iter().filter(|kind| kind.grows()).collect();
    for _ in 0..fine {
        for kind in &growing {
            for size in LONG {
                fills(&mut random, size - kind.head(form), &mut |random, bytes| {
                    give(&[Given::raw(random, form, kind, bytes)]);
                });
            }
        }
        (0..50).for_each(|_| long_row(&mut random, form, &growing, give));
        let mem_write = Type::find(MEM_WRITE).expect("MemWrite");
        give(&[Given::good(&mut random, form, mem_write, LONGEST)]);
        long_names(&mut random, give);
    }
}

/// Long contents, and of three one that is not.
fn long_row(random: &mut Random, form: Form, growing: &[&Type], give: Give) {
    let mut row = Vec::new();
    for _ in 0..2 + random.below(3) {
        let kind = random.pick(growing);
        let size = if random.once_in(3) { 8 + random.below(300) } else { random.pick(&LONG) };
        row.push(Given::good(random, form, kind, size - kind.head(form)));
    }
    give(&row);
}

/// As many names as a count can state, as long as a name can be: all counted, the last not, and one more than there are.
fn long_names(random: &mut Random, give: Give) {
    let mut list = Vec::new();
    for _ in 0..255 {
        list.extend_from_slice(&[random.byte(), random.byte(), 255]);
        random.bytes(255, &mut list);
    }
    for (count, cut) in [(255, 0), (254, 0), (255, 1)] {
        give(&[Given::new(3, [count, 0, 0], &list[..list.len() - cut])]);
    }
}

/// Random bytes; and one byte over and over, after a few others.
fn fills(random: &mut Random, length: usize, use_bytes: &mut dyn FnMut(&mut Random, &[u8])) {
    for fill in FILLS {
        let mut bytes = vec![fill; length];
        bytes[..4].copy_from_slice(&[5, 0, 1, b'r']);
        use_bytes(random, &bytes);
    }
    let mut bytes = Vec::new();
    random.bytes(length, &mut bytes);
    use_bytes(random, &bytes);
}

/// A tag that is taken, or a list that holds one entry less than it counts.
fn refused(random: &mut Random, form: Form, kind: &Type, bytes: &[u8], give: Give) {
    let mut given = Given::raw(random, form, kind, bytes);
    let number = &mut given.record.numbers[0];
    match kind.slice {
        Slice::Unknown(least) => *number = random.below(least as usize) as u64,
        Slice::List if *number < 255 => *number += 1,
        _ => return,
    }
    give(&[given]);
}

/// Every tag of the unknown types, also those that are taken.
pub fn tags(fine: usize, _: Form, give: Give) {
    for number in [21, 4] {
        for tag in 0..=255 {
            for length in (2..2 + fine).chain([0, 1]) {
                let bytes: Vec<u8> = (1..=length).map(|place| (tag as usize + place) as u8).collect();
                give(&[Given::new(number, [tag, 0, 0], &bytes)]);
            }
        }
    }
}
