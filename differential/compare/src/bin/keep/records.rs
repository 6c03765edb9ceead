//! Records to be written, and what the original emits of each.

use crate::{longest, tag, tags, Lines, LONGEST_INPUT};
use compare::answer::FlatRecord;
use compare::form::Form;
use compare::given::Given;
use compare::hex::tokens;
use compare::types::{Slice, Type, MAP, TYPES};
use compare::writing::emit;
use std::collections::BTreeSet;

/// Sizes of content for every type whose content grows, and one for Map alone.
const SIZES: [usize; 6] = [252, 253, 254, 255, 256, 65_530];
const LONG_MAP: usize = 65_539;
const LONGEST_NAME: usize = 32;

/// The longest line, in bytes, of a record that is kept for what it shows.
const SHORT_LINE: usize = 120;

#[derive(Default)]
pub struct Records {
    form: Form,
    kept: BTreeSet<Given>,
    shown: BTreeSet<Shows>,
}

/// What a record is an example of.
#[derive(Clone, Copy, Debug, PartialEq, Eq, PartialOrd, Ord)]
enum Shows {
    /// A type, with the tag where there is one.
    Type(u64, u64),
    /// A type, and its number of content bytes.
    Size(u64, usize),
    /// A type, and which of its numbers is as large as can be in the form.
    Largest(u64, usize),
    /// A name, by its number of bytes.
    Name(usize),
}

impl Records {
    pub fn new(form: Form) -> Self {
        Records { form, ..Self::default() }
    }

    /// Keeps a record that shows something new.
    pub fn keep_new(&mut self, given: &Given, lines: &mut Lines) {
        if self.shows(given).iter().any(|shows| !self.shown.contains(shows)) {
            self.keep(given, SHORT_LINE, lines);
        }
    }

    /// The same of any record; in another form than the first, only where it has an address. False where it is not kept.
    pub fn keep_of_class(&mut self, given: &Given, lines: &mut Lines) -> bool {
        let formed = given.kind().is_some_and(|kind| kind.formed() > 0);
        (formed || self.form == Form::Le64) && self.keep(given, longest(self.form), lines)
    }

    /// False where the record is not kept: it is too long, outside the domain, or kept already.
    fn keep(&mut self, given: &Given, longest: usize, lines: &mut Lines) -> bool {
        let mut bytes = Vec::new();
        let known = given.bytes.len() > LONGEST_INPUT || self.kept.contains(given);
        if known || emit(given, self.form, &mut bytes).outside.is_some() {
            return false;
        }
        let FlatRecord { record_type, numbers: [n0, n1, n2] } = given.record;
        let call = format!("w {record_type} {n0} {n1} {n2} {}", tokens(&given.bytes));
        if !lines.add(self.form, call, tokens(&bytes), longest) {
            return false;
        }
        self.kept.insert(given.clone());
        self.shown.extend(self.shows(given));
        true
    }

    /// Everything that must be among them is.
    pub fn complete(&self) {
        for kind in TYPES.iter().filter(|kind| self.wants(kind)) {
            tags(kind.number).for_each(|tag| self.has(Shows::Type(kind.number, tag)));
            sizes(kind).for_each(|size| self.has(Shows::Size(kind.number, size)));
            (0..kind.bits.len()).for_each(|place| self.has(Shows::Largest(kind.number, place)));
        }
        if self.form == Form::Le64 {
            (0..=LONGEST_NAME).for_each(|length| self.has(Shows::Name(length)));
        }
    }

    /// Whether a type must be among them: in another form than the first, one with a number of 64 bits.
    fn wants(&self, kind: &Type) -> bool {
        self.form == Form::Le64 || kind.bits.contains(&64)
    }

    fn has(&self, shows: Shows) {
        assert!(self.shown.contains(&shows), "no record is written that shows {shows:?}");
    }

    pub fn count(&self) -> usize {
        self.kept.len()
    }

    fn shows(&self, given: &Given) -> Vec<Shows> {
        let FlatRecord { record_type, numbers } = given.record;
        let Some(kind) = given.kind().filter(|kind| self.wants(kind)) else {
            return Vec::new();
        };
        let mut shows = vec![Shows::Type(record_type, tag(record_type, numbers))];
        let size = kind.head(self.form) + given.bytes.len();
        if sizes(kind).any(|shown| shown == size) {
            shows.push(Shows::Size(record_type, size));
        }
        for (place, &bits) in kind.bits.iter().enumerate() {
            let formed = place < kind.formed();
            let bits = if formed { 8 * self.form.width() as u32 } else { bits };
            if numbers[place] == u64::MAX >> (64 - bits) {
                shows.push(Shows::Largest(record_type, place));
            }
        }
        if kind.slice == Slice::Name && self.form == Form::Le64 {
            shows.push(Shows::Name(given.bytes.len()));
        }
        shows
    }
}

fn sizes(kind: &Type) -> impl Iterator<Item = usize> {
    let all = if kind.grows() { &SIZES[..] } else { &[] };
    let long = if kind.number == MAP { Some(LONG_MAP) } else { None };
    all.iter().copied().chain(long)
}
