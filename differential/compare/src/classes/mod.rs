//! The inputs, class by class. Each class hands its inputs to `use_input`, in the same order in every run. An input is
//! bytes to be read or, in the classes of `writing`, a row of records to be written.

mod kinds;
mod lists;
mod names;
mod scratches;
mod sizes;
mod text;
pub mod traces;
mod trailers;
pub mod writing;

use crate::form::Form;
use crate::frame::{self, KINDS};
use kinds::{kinds, lengths, magic, tag_rows, tags};
use lists::lists;
use names::names;
use scratches::scratched;
use sizes::{long, sizes};
use text::text;
use traces::{damaged, emitted, other_forms, random_strings, written};
use trailers::trailers;

pub type Use<'a, T = [u8]> = &'a mut dyn FnMut(&T);

pub struct Class<T: ?Sized = [u8]> {
    pub name: &'static str,
    make: fn(usize, Form, Use<T>),
    /// How many inputs are asked for in the bounded and in the long run. For a class with a fixed end it says how fine
    /// the class is.
    bounded: usize,
    long: usize,
    /// How many are kept in the first form, and in each other form.
    kept: [usize; 2],
}

#[derive(Clone, Copy, PartialEq, Eq)]
pub enum Run {
    Bounded,
    Long,
}

impl<T: ?Sized> Class<T> {
    /// In the long run the other forms together have as much as the first.
    pub fn make(&self, run: Run, form: Form, use_input: Use<T>) {
        let amount = match (run, form) {
            (Run::Bounded, _) => self.bounded,
            (Run::Long, Form::Le64) => self.long,
            (Run::Long, _) => self.bounded.max(self.long / 3),
        };
        (self.make)(amount, form, use_input);
    }

    pub fn kept(&self, form: Form) -> usize {
        self.kept[usize::from(form != Form::Le64)]
    }
}

const fn class<T: ?Sized>(
    name: &'static str,
    make: fn(usize, Form, Use<T>),
    [bounded, long]: [usize; 2],
    kept: [usize; 2],
) -> Class<T> {
    Class { name, make, bounded, long, kept }
}

/// Bytes that are checked for text alone. No form has a part in that.
pub const TEXT: Class = class("text", text, [500_000, 20_000_000], [0, 0]);

pub const CLASSES: [Class; 19] = [
    class("examples", examples, [1, 1], [99, 9]),
    class("up to three bytes", up_to_three, [1, 1], [300, 0]),
    class("four bytes", four, [1, 2], [100, 0]),
    class("kinds and sizes", kinds, [1, 20], [350, 90]),
    class("tags and sizes", tags, [1, 10], [300, 0]),
    class("lengths", lengths, [1, 1], [100, 0]),
    class("all tags in rows", tag_rows, [1, 1], [64, 0]),
    class("Magic", magic, [1, 1], [60, 0]),
    class("names", names, [1, 20], [300, 0]),
    class("register lists", lists, [300_000, 10_000_000], [300, 0]),
    class("large contents", sizes, [1, 2], [60, 20]),
    class("long contents", long, [1, 1], [0, 0]),
    class("trailers", trailers, [1, 10], [0, 0]),
    class("written traces", written, [500_000, 10_000_000], [250, 60]),
    class("emitted traces", emitted, [200_000, 5_000_000], [250, 60]),
    class("damaged traces", damaged, [3_000_000, 60_000_000], [350, 60]),
    class("scratched traces", scratched, [200_000, 4_000_000], [0, 0]),
    class("random strings", random_strings, [3_000_000, 60_000_000], [300, 30]),
    class("other forms", other_forms, [300_000, 3_000_000], [0, 30]),
];

/// Document 01's examples, and the smallest inputs outside its domain.
const EXAMPLES: &[&str] = &[
    "",
    "20",
    "21 00",
    "21 01 00",
    "31 01 02",
    "21",
    "22 01",
    "21 09 00",
    "55 02 07 03",
    "09 02 aa 03",
    "05",
    "03 ff ff ff ff",
    "21 09 00 10 00 00 00 00 00 00 0a",
    "39 0d 03 00 00 00 02 01 00 00 00 00 00 00 0e",
    "13 0d 00 00 00 00 20 00 00 00 00 00 00 0d 00 00 00 00",
    "f1 06 65 78 00 3c 7f 07 31 06 01 05 00 00 00 07",
    "01 01 00",
    "31 02 03 03",
    "31 02 09 03",
    "31 02 0a 03",
    "31 02 0b 03",
];

/// Names of which document 01 says that two pass and three do not.
pub const NAMES: [&[u8]; 5] =
    [b"\xe2\x82\xac", b"\xf4\x8f\xbf\xbf", b"\xc0\x80", b"\xed\xa0\x80", b"\xf4\x90\x80\x80"];

fn examples(_: usize, _: Form, use_input: Use) {
    for text in EXAMPLES {
        let byte = |pair| u8::from_str_radix(pair, 16).expect("two digits");
        let bytes: Vec<u8> = text.split_whitespace().map(byte).collect();
        use_input(&bytes);
    }
    for name in NAMES {
        let mut content = [0; 41];
        content[0] = 3;
        content[1..=name.len()].copy_from_slice(name);
        let mut bytes = Vec::new();
        frame::written(&mut bytes, frame::META, &content);
        use_input(&bytes);
    }
}

fn up_to_three(_: usize, _: Form, use_input: Use) {
    use_input(&[]);
    for a in 0..=255 {
        use_input(&[a]);
    }
    for a in 0..=255 {
        (0..=255).for_each(|b| use_input(&[a, b]));
    }
    for a in 0..=255 {
        for b in 0..=255 {
            (0..=255).for_each(|c| use_input(&[a, b, c]));
        }
    }
}

/// A kind with one length byte, a length of up to three, and any two bytes: the known kinds, or all.
fn four(fine: usize, _: Form, use_input: Use) {
    for kind in (0..=252u8).step_by(4) {
        if fine > 1 || KINDS.contains(&kind) {
            for length in 0..=3 {
                for a in 0..=255 {
                    (0..=255).for_each(|b| use_input(&[kind | 1, length, a, b]));
                }
            }
        }
    }
}
