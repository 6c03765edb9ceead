//! Writes inputs and what the original Rust answers to each, and records and what it emits of each, for a program that
//! replays them without Rust. `keep DIR` makes DIR/stdin and DIR/stdout. The proved codec is not linked into this
//! program.

mod inputs;
mod records;

use compare::classes::{writing, Class, Run, CLASSES};
use compare::form::{Form, FORMS};
use inputs::Inputs;
use records::Records;
use std::ops::RangeInclusive;

const HEADER: &str = "\
# What the original Rust (lib.rs and record.rs of dynamic-trace, unchanged) answers to inputs of every class,
# and what it writes.
# Made, and made again, by: differential/run --keep DIR
# stdin holds an input a line: bytes as pairs of digits, xx*N for N times the byte xx, - for no bytes.
# stdout holds its answers in the same line: START LENGTH 0 TYPE N0 N1 N2 BYTES-START BYTES-END for a record
# that is shown, with NUMBER:START:END for each name of a register list, placed within the list;
# START LENGTH NUMBER for a record that is refused; last, end POSITION or unfinished POSITION NUMBER.
# After the inputs, stdin holds a record to be written a line: w TYPE N0 N1 N2 BYTES, numbers decimal, BYTES its
# name, register list or contents, as above; numbers and bytes that its type does not have are not looked at.
# stdout holds in the same line the bytes of the whole record, as above.
# Addresses have eight bytes, least significant first; in a line of stdin that begins with @1 and a space they have
# eight, most significant first, with @2 four, least significant first, with @3 four, most significant first.
";

const LONGEST_LINE: usize = 4000;
/// The longest in another form than the first.
const LONGEST_OTHER: usize = 160;
/// The most bytes of an input, or handed over with a record.
const LONGEST_INPUT: usize = 66_000;
const MOST_BYTES: usize = 700_000;
const MOST_STDIN: usize = 393_216;

/// The two files.
struct Lines {
    stdin: String,
    stdout: String,
}

fn main() {
    let directory = std::env::args().nth(1).expect("the directory to write into");
    compare::panics::silence();
    let mut lines = Lines { stdin: HEADER.into(), stdout: HEADER.into() };
    let counts = FORMS.map(|form| keep_form(form, &mut lines));
    lines.complete();
    for (name, text) in [("stdin", &lines.stdin), ("stdout", &lines.stdout)] {
        let path = format!("{directory}/{name}");
        std::fs::write(&path, text).unwrap_or_else(|error| panic!("{path}: {error}"));
        println!("{path}: {} bytes", text.len());
    }
    for (form, (inputs, records)) in FORMS.iter().zip(counts) {
        println!("{}: {inputs} inputs, {records} records", form.name());
    }
}

/// Keeps the inputs and records of one form; how many there are of each.
fn keep_form(form: Form, lines: &mut Lines) -> (usize, usize) {
    let (mut inputs, mut records) = (Inputs::new(form), Records::new(form));
    for class in CLASSES {
        keep_class(&class, form, &mut |bytes| inputs.keep(bytes, lines));
    }
    for class in writing::CLASSES {
        class.make(Run::Bounded, form, &mut |row| {
            row.iter().for_each(|given| records.keep_new(given, lines));
        });
    }
    for class in writing::CLASSES {
        keep_class(&class, form, &mut |row| records.keep_of_class(&row[0], lines));
    }
    inputs.complete();
    records.complete();
    (inputs.count(), records.count())
}

/// The longest line of a form.
fn longest(form: Form) -> usize {
    if form == Form::Le64 {
        LONGEST_LINE
    } else {
        LONGEST_OTHER
    }
}

/// Keeps as many inputs as the class says, evenly out of all that it has. Classes repeat in cycles of two and three;
/// the step is a multiple of neither.
fn keep_class<T: ?Sized>(class: &Class<T>, form: Form, keep: &mut dyn FnMut(&T) -> bool) {
    let mut left = class.kept(form);
    if left == 0 {
        return;
    }
    let mut inputs = 0;
    class.make(Run::Bounded, form, &mut |_| inputs += 1);
    let mut step = (inputs / left).max(1);
    while !matches!(step % 6, 1 | 5) {
        step += 1;
    }
    let (mut place, mut due) = (0, 0);
    class.make(Run::Bounded, form, &mut |input| {
        if place >= due && left > 0 && keep(input) {
            due += step;
            left -= 1;
        }
        place += 1;
    });
}

impl Lines {
    /// False, and nothing, where a line would be longer than `longest`.
    fn add(&mut self, form: Form, asked: String, answered: String, longest: usize) -> bool {
        let fits = asked.len() <= longest && answered.len() <= longest;
        if fits {
            if form != Form::Le64 {
                self.stdin += &format!("@{} ", form.number());
            }
            self.stdin += &(asked + "\n");
            self.stdout += &(answered + "\n");
        }
        fits
    }

    /// Every line has its answer, and there are not too many bytes.
    fn complete(&self) {
        let [asked, answered] = [&self.stdin, &self.stdout].map(|text| (text.lines().count(), text.len()));
        assert!(asked.0 == answered.0, "{} lines have {} answers", asked.0, answered.0);
        assert!(asked.1 < MOST_STDIN, "too many bytes in stdin: {}", asked.1);
        assert!(asked.1 + answered.1 < MOST_BYTES, "too many bytes: {} and {}", asked.1, answered.1);
        for line in self.stdin.lines().chain(self.stdout.lines()) {
            assert!(line.len() <= LONGEST_LINE, "a line of {} bytes", line.len());
        }
    }
}

/// The tag of a record that has one; 0 of any other.
fn tag(record_type: u64, numbers: [u64; 3]) -> u64 {
    match record_type {
        4 | 21 => numbers[0],
        _ => 0,
    }
}

/// The tags that a type has.
fn tags(record_type: u64) -> RangeInclusive<u64> {
    match record_type {
        4 => 1..=255,
        21 => 12..=255,
        _ => 0..=0,
    }
}
