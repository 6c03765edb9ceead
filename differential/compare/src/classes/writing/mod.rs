//! Records to write, class by class, in rows: the records of a row are written one after the other.

mod contents;
mod names;
mod numbers;
mod rows;

use super::lists::fixed;
use super::{class, Class, Use, NAMES};
use crate::form::Form;
use crate::given::Given;
use crate::random::Random;
use crate::types::Type;
use contents::{contents, long, sizes, tags};
use names::{names, texts};
use numbers::{numbers, wrong};
use rows::rows;

pub type Give<'a> = Use<'a, [Given]>;

pub const CLASSES: [Class<[Given]>; 11] = [
    class("write examples", examples, [1, 1], [12, 4]),
    class("write tags", tags, [4, 40], [20, 0]),
    class("write names", names, [1, 1], [40, 0]),
    class("write texts", texts, [1, 20], [30, 0]),
    class("write sizes", sizes, [1, 2], [20, 10]),
    class("write contents", contents, [150, 1000], [90, 30]),
    class("write numbers", numbers, [1, 10], [30, 10]),
    class("write lists", lists, [50_000, 500_000], [40, 0]),
    class("write no record", wrong, [1, 20], [0, 0]),
    class("write rows", rows, [150_000, 1_500_000], [50, 20]),
    class("write long", long, [1, 5], [0, 0]),
];

/// Document 01's examples.
fn examples(_: usize, form: Form, give: Give) {
    let mut one = |record_type, numbers, bytes: &[u8]| give(&[Given::new(record_type, numbers, bytes)]);
    one(1, [0; 3], b"");
    one(7, [0x1000, 0, 0], b"");
    one(22, [3, 258, 0], b"");
    one(5, [0x2000, 0, 0], b"");
    one(10, [5, 0, 0], b"");
    for size in [253, 254, 65_530, 65_531] {
        one(27, [0x1000, 0, 0], &vec![0x61; size - form.width()]);
    }
    NAMES.iter().for_each(|name| one(12, [0x1000, 0, 0], name));
}

/// Register lists with every count near that of their entries.
fn lists(count: usize, form: Form, give: Give) {
    fixed(&mut |stated, list| give(&[Given::new(3, [stated.into(), 0, 0], list)]));
    let kind = Type::find(3).expect("register lists");
    let mut random = Random::new(15);
    for _ in 0..count {
        let length = random.below(60);
        let mut given = Given::good(&mut random, form, kind, length);
        if random.once_in(8) {
            given.record.numbers[0] += random.below(4) as u64;
        }
        give(&[given]);
    }
}
