//! What was compared, class by class, and the first difference.

use compare::answer::Answer;
use compare::form::Form;
use compare::hex::tokens;
use compare::random::Random;
use compare::source::{Outside, Said, ENDS_DIFFER};
use std::fmt::{Debug, Display};
use std::hint::black_box;

/// What a reason for lying outside the domain is called in the report.
const REASONS: [(Outside, &str); 17] = [
    (Outside::Empty, "no bytes"),
    (Outside::Span, "short span"),
    (Outside::Native, "RegWriteNative"),
    (Outside::CallBegin, "Meta 3"),
    (Outside::Allocated, "Meta 9"),
    (Outside::Freed, "Meta 10"),
    (Outside::Reallocated, "Meta 11"),
    (Outside::Arch, "Arch"),
    (Outside::Position, "position"),
    (Outside::Room, "room"),
    (Outside::Name, "bad name"),
    (Outside::Tag, "taken tag"),
    (Outside::List, "short list"),
    (Outside::Wide, "wide address"),
    (Outside::NotARecord, "no record"),
    (Outside::Long, "long content in M-101's frame"),
    (Outside::Unforeseen, "UNFORESEEN"),
];

const ORIGINAL: &str = "the original";
const DOCUMENT: &str = "document 01";
const CHANGES: &str = "document 02";
const SINGLE_CALLS: &str = "single calls";
const ONE_WRITE: &str = "one write";
const BACKWARDS: &str = "backwards";

/// The columns of the report between the class and the reasons, and their widths.
const COLUMNS: [(&str, usize); 12] = [
    ("inputs", 10),
    ("inside", 10),
    ("compared", 11),
    ("unframed", 11),
    ("outside", 9),
    ("beyond", 11),
    ("rows", 9),
    ("portions", 9),
    ("differences", 11),
    ("forward", 10),
    ("with 16", 9),
    ("of 16", 9),
];

#[derive(Default)]
pub struct Tally {
    form: Form,
    inputs: u64,
    /// Inputs outside the domain, by the first reason found in them.
    reasons: [u64; REASONS.len()],
    /// Answers of the original that ours was compared with.
    compared: u64,
    /// Answers of ours in reading backwards that frame no record: the original has no calls for them.
    unframed: u64,
    /// Answers of ours outside the domain, compared with what document 01 or 02 defines there.
    outside: u64,
    /// Answers of ours to an offset beyond the end, which the original has no calls for.
    beyond: u64,
    /// Rows of records that ours also wrote by one call, compared with what its single calls left.
    rows: u64,
    /// MemWrites that ours also wrote in portions, compared with what one write must leave.
    portions: u64,
    differences: u64,
    /// Records that ours framed backwards, and then read forwards.
    forward: u64,
    /// Inputs with a 16, and how many answers are 16. These are among the unframed.
    with_differing_ends: u64,
    differing_ends: u64,
    first: Option<String>,
    input: Vec<u8>,
    reason: Option<Outside>,
    ends_differ: bool,
    random: Random,
}

impl Tally {
    /// Of inputs in one form.
    pub fn new(form: Form) -> Self {
        Tally { form, ..Self::default() }
    }

    pub fn form(&self) -> Form {
        self.form
    }

    /// Begins an input.
    pub fn begin(&mut self, bytes: &[u8]) {
        self.inputs += 1;
        self.input.clear();
        self.input.extend_from_slice(bytes);
        self.reason = None;
        self.ends_differ = false;
    }

    /// One of several values, chosen at random.
    pub fn turn<T: Copy>(&mut self, of: &[T]) -> T {
        self.random.pick(of)
    }

    /// For a choice that is not one of a few.
    pub fn random(&mut self) -> &mut Random {
        &mut self.random
    }

    /// Ends an input: the lent bytes must not have been altered.
    pub fn end(&mut self, bytes: &[u8]) {
        if self.input != black_box(bytes) {
            self.differ(&"the lent bytes", 0, ORIGINAL, &"unaltered", &"altered");
        }
        if let Some(reason) = self.reason {
            let at = REASONS.iter().position(|(outside, _)| *outside == reason);
            self.reasons[at.expect("a reason")] += 1;
        }
        self.with_differing_ends += u64::from(self.ends_differ);
    }

    /// Compares ours with what must be answered; false where they differ.
    pub fn hold<T: PartialEq + Debug>(
        &mut self,
        what: impl Display,
        at: u64,
        said: &Said<T>,
        ours: &T,
    ) -> bool {
        let Some(reason) = said.outside else {
            return self.inside(what, at, &said.says, ours);
        };
        self.reason.get_or_insert(reason);
        match reason {
            Outside::Position => self.beyond += 1,
            _ => self.outside += 1,
        }
        if reason == Outside::Unforeseen {
            self.differ(&what, at, ORIGINAL, &"does what was not foreseen", ours);
        }
        let changed = matches!(reason, Outside::Wide | Outside::Long);
        let document = if changed { CHANGES } else { DOCUMENT };
        self.equal(&what, at, document, &said.says, ours)
    }

    /// The same, where the original answers.
    pub fn inside<T: PartialEq + Debug>(&mut self, what: impl Display, at: u64, says: &T, ours: &T) -> bool {
        self.compared += 1;
        self.equal(&what, at, ORIGINAL, says, ours)
    }

    /// The same, at an offset beyond the end.
    pub fn beyond<T: PartialEq + Debug>(&mut self, what: &str, at: u64, says: &T, ours: &T) {
        self.beyond += 1;
        self.equal(&what, at, DOCUMENT, says, ours);
    }

    /// The same, where reading backwards frames no record.
    pub fn unframed(&mut self, what: &str, at: u64, says: &Answer, ours: &Answer) {
        self.unframed += 1;
        let changed = says.reading.number == ENDS_DIFFER;
        self.differing_ends += u64::from(changed);
        self.ends_differ |= changed;
        let document = if changed { CHANGES } else { DOCUMENT };
        self.equal(&what, at, document, says, ours);
    }

    /// Compares what ours reads forwards with what it read backwards.
    pub fn forward(&mut self, what: &str, at: u64, says: &Answer, ours: &Answer) {
        self.forward += 1;
        self.equal(&what, at, BACKWARDS, says, ours);
    }

    /// Compares what one call left of a row with what the single calls must leave. The bytes of the row are `bytes`.
    pub fn one_call<T: PartialEq + Debug>(
        &mut self,
        bytes: &[u8],
        what: impl Display,
        at: u64,
        says: &T,
        ours: &T,
    ) {
        self.rows += 1;
        self.input.clear();
        self.input.extend_from_slice(bytes);
        self.equal(&what, at, SINGLE_CALLS, says, ours);
    }

    /// Compares what an opening, portions and a closing left with what one write must leave.
    pub fn in_portions<T: PartialEq + Debug>(&mut self, what: impl Display, at: u64, says: &T, ours: &T) {
        self.portions += 1;
        self.equal(&what, at, ONE_WRITE, says, ours);
    }

    fn equal<T>(&mut self, what: &dyn Display, at: u64, who: &str, says: &T, ours: &T) -> bool
    where
        T: PartialEq + Debug,
    {
        let equal = says == ours;
        if !equal {
            self.differ(what, at, who, says, ours);
        }
        equal
    }

    fn differ(&mut self, what: &dyn Display, at: u64, who: &str, says: &dyn Debug, ours: &dyn Debug) {
        self.differences += 1;
        if self.first.is_none() {
            let (input, form) = (tokens(&self.input), self.form.name());
            let compared = format!("input         {input}\ncompared      {what} {at}, form {form}");
            self.first = Some(format!("{compared}\n{who:<13} {says:?}\nours          {ours:?}"));
        }
    }

    pub fn first(&self) -> Option<&str> {
        self.first.as_deref()
    }

    pub fn add(&mut self, other: &Tally) {
        self.inputs += other.inputs;
        for (sum, count) in self.reasons.iter_mut().zip(other.reasons) {
            *sum += count;
        }
        self.compared += other.compared;
        self.unframed += other.unframed;
        self.outside += other.outside;
        self.beyond += other.beyond;
        self.rows += other.rows;
        self.portions += other.portions;
        self.differences += other.differences;
        self.forward += other.forward;
        self.with_differing_ends += other.with_differing_ends;
        self.differing_ends += other.differing_ends;
        self.first = self.first.take().or_else(|| other.first.clone());
    }

    pub fn header() -> String {
        row("class", COLUMNS.map(|(column, _)| column), "inputs not inside, by reason")
    }

    pub fn line(&self, name: &str) -> String {
        let inside = self.inputs - self.reasons.iter().sum::<u64>();
        let counts = [
            self.inputs,
            inside,
            self.compared,
            self.unframed,
            self.outside,
            self.beyond,
            self.rows,
            self.portions,
            self.differences,
            self.forward,
            self.with_differing_ends,
            self.differing_ends,
        ];
        let named = REASONS.iter().zip(self.reasons).filter(|(_, count)| *count > 0);
        let reasons: Vec<String> = named.map(|((_, reason), count)| format!("{count} {reason}")).collect();
        row(name, counts, &reasons.join(", "))
    }
}

fn row<T: Display>(name: &str, counts: [T; COLUMNS.len()], reasons: &str) -> String {
    let mut row = format!("{name:<17}");
    for (count, (_, width)) in counts.iter().zip(COLUMNS) {
        row += &format!(" {count:>width$}");
    }
    format!("{row}  {reasons}").trim_end().into()
}
