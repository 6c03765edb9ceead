//! What the original Rust answers, in the terms of trace.h; and where it lies outside the domain of document 01.

use crate::answer::{Answer, Entry, Part, Reading, Value, FINISHED, REFUSED, UNFINISHED};
use crate::form::Form;
use crate::panics::caught;
use crate::shown::shown;
use dynamic_trace::record::{Error as Why, FileMeta, ParseError, Record};
use dynamic_trace::{index, lenlen, vlen, RawRecord};
use std::error::Error;

const NO_START: u64 = 6;
/// Document 02's, M-104: read forwards, the record found from the trailer ends elsewhere, or is unfinished.
pub const ENDS_DIFFER: u64 = 16;

/// An answer that ours must equal: the original's own or, outside the domain, the one that document 01 or 02 defines.
pub struct Said<T> {
    pub says: T,
    pub outside: Option<Outside>,
}

/// Why an input, or a record to be written, lies outside the domain.
#[derive(Clone, Copy, Debug, PartialEq, Eq)]
pub enum Outside {
    /// No bytes: the original reads the first unchecked, and is not called.
    Empty,
    /// It panics: a span that ends in 0 and is shorter than five bytes.
    Span,
    /// It panics: RegWriteNative with one content byte.
    Native,
    /// It panics: Meta 3, 9, 10 and 11 with too few bytes after the tag.
    CallBegin,
    Allocated,
    Freed,
    Reallocated,
    /// It refuses an Arch record for its content, which document 01 leaves out.
    Arch,
    /// The caller's mistakes in writing: 8, 9, 11 to 14, and what is not a record.
    Position,
    Room,
    Name,
    Tag,
    List,
    Wide,
    NotARecord,
    /// It panics: a content above 65,530 bytes to write, in any type but Map. This is accepted: M-101 of document 02 has
    /// the bytes, which the original reads.
    Long,
    /// It panics, or writes, in any other case. This counts as a difference.
    Unforeseen,
}

impl<T> Said<T> {
    pub fn inside(says: T) -> Self {
        Said { says, outside: None }
    }

    pub fn outside(says: T, why: Outside) -> Self {
        Said { says, outside: Some(why) }
    }
}

impl Said<u64> {
    /// Whether a record is written.
    pub fn writes(&self) -> bool {
        self.says == 0 && self.outside != Some(Outside::Unforeseen)
    }
}

/// The length of the record at the front, or the number wanted.
pub fn one_record(bytes: &[u8]) -> u64 {
    match index::one_record(bytes) {
        Ok(length) => length as u64,
        Err(wanted) => wanted as u64,
    }
}

/// Where the content lies.
pub fn value(bytes: &[u8]) -> Said<Value> {
    if bytes.is_empty() {
        return Said::outside((1, Part::default()), Outside::Empty);
    }
    match caught(|| RawRecord::new(bytes).value()) {
        Some(Some(content)) => Said::inside((0, place(bytes, content))),
        Some(None) => Said::inside((1, Part::default())),
        None if short_span(bytes) => Said::outside((2, Part::default()), Outside::Span),
        None => Said::outside((2, Part::default()), Outside::Unforeseen),
    }
}

/// The one record that these bytes are.
pub fn parse(bytes: &[u8], form: Form) -> Said<Reading> {
    if bytes.is_empty() {
        return Said::outside(Reading::refused(1), Outside::Empty);
    }
    match caught(|| RawRecord::new(bytes).parse(form.parse())) {
        Some(Ok(record)) => Said::inside(shown(bytes, &record)),
        Some(Err(error)) => refused(bytes, &error),
        None => panicked(bytes),
    }
}

/// What is at `position`.
pub fn next(bytes: &[u8], position: usize, form: Form) -> Said<Answer> {
    let rest = &bytes[position..];
    let start = position as u64;
    match index::one_record(rest) {
        Ok(length) => {
            let Said { says, outside } = parse(&rest[..length], form);
            let reading = says.framed(start, length as u64);
            Said { says: Answer { position: form.at(reading.end), reading }, outside }
        }
        Err(wanted) => {
            let (answer, number) = if rest.is_empty() { (FINISHED, 0) } else { (UNFINISHED, wanted as u64) };
            Said::inside(Answer { position: form.at(start), reading: Reading::last(answer, number) })
        }
    }
}

/// The record from `start` up to `position`, read backwards.
pub fn previous(bytes: &[u8], start: usize, position: usize, form: Form) -> Said<Answer> {
    let Said { says, outside } = parse(&bytes[start..position], form);
    let reading = says.framed(start as u64, (position - start) as u64);
    Said { says: Answer { position: form.at(reading.start), reading }, outside }
}

/// Where the record starts that ends at `position`, or why there is none. The original has no such function: document
/// 01's rule gives the start and, by M-104 of document 02, the record there must end at the position, read forwards.
pub fn start(bytes: &[u8], position: usize) -> Result<usize, Reading> {
    let start = led_to(bytes, position)?;
    match frames(bytes, start, position) {
        true => Ok(start),
        false => Err(Reading::last(REFUSED, ENDS_DIFFER)),
    }
}

/// Where the trailer that ends at `position` leads, or why there is no such place.
fn led_to(bytes: &[u8], position: usize) -> Result<usize, Reading> {
    let Some(&last) = bytes[..position].last() else {
        return Err(Reading::last(FINISHED, 0));
    };
    let found = match last {
        0 => position.checked_sub(5).and_then(|before| {
            let word = [0, 1, 2, 3].map(|place| bytes[before + place]);
            before.checked_sub(u32::from_le_bytes(word) as usize)
        }),
        _ => position.checked_sub(1 + usize::from(last)),
    };
    found.ok_or(Reading::last(REFUSED, NO_START))
}

/// Whether the record at `start` ends at `position`. The bytes after the position have no part in that.
fn frames(bytes: &[u8], start: usize, position: usize) -> bool {
    let length = Ok(position - start);
    let [without, with] = [position, bytes.len()].map(|end| index::one_record(&bytes[start..end]) == length);
    assert!(without == with, "a frame that depends on the bytes after it");
    with
}

/// The names of the register list that starts at offset `list` of `record`, by their offsets in the list.
pub fn names(record: &[u8], list: usize) -> Vec<Entry> {
    let parsed = RawRecord::new(record).parse(Form::Le64.parse());
    let Ok(Record::FileMeta(FileMeta::RegisterNameMap(map))) = parsed else {
        return Vec::new();
    };
    let entry = |(number, name): (u16, &[u8])| {
        let Part { start, end } = place(&record[list..], name);
        Entry { number: number.into(), name_start: start, name_end: end, next: end }
    };
    map.iter().map(entry).collect()
}

/// Where `part`, which is borrowed from `bytes`, lies in them.
pub fn place(bytes: &[u8], part: &[u8]) -> Part {
    let start = (part.as_ptr() as usize).wrapping_sub(bytes.as_ptr() as usize);
    let end = start.checked_add(part.len());
    assert!(end.is_some_and(|end| end <= bytes.len()), "not a part of the bytes");
    Part { start: start as u64, end: (start + part.len()) as u64 }
}

/// The number of an error: that of the innermost one.
fn refused(bytes: &[u8], error: &ParseError) -> Said<Reading> {
    let mut inner: Option<&(dyn Error + 'static)> = None;
    let mut outer = error.source();
    while let Some(error) = outer {
        inner = Some(error);
        outer = error.source();
    }
    let number = match inner.map(|error| error.downcast_ref::<Box<Why>>().map(|why| &**why)) {
        None if RawRecord::new(bytes).kind().is_err() => 7,
        Some(Some(Why::InvalidMagic)) => 3,
        Some(Some(Why::NoData)) => 1,
        Some(Some(Why::NotEnoughBytes)) => 4,
        Some(Some(Why::BadData)) => 5,
        _ => panic!("an error that has no number: {error:?}"),
    };
    if number == 4 && bytes[0] & 0xfc == 0 {
        let (_, content) = value(bytes).says;
        return Said::outside(Reading::with_bytes(2, 0, content), Outside::Arch);
    }
    Said::inside(Reading::refused(number))
}

/// The refusal that document 01 defines where `parse` panics.
fn panicked(bytes: &[u8]) -> Said<Reading> {
    let (number, content) = value(bytes).says;
    if number != 0 {
        let why = if short_span(bytes) { Outside::Span } else { Outside::Unforeseen };
        return Said::outside(Reading::refused(2), why);
    }
    let content = &bytes[content.start as usize..content.end as usize];
    let behind = content.len().saturating_sub(1);
    let why = match (bytes[0] & 0xfc, content.first()) {
        (0x54, Some(_)) if content.len() == 1 => Outside::Native,
        (0x30, Some(3)) if behind < 32 => Outside::CallBegin,
        (0x30, Some(9)) if behind < 8 => Outside::Allocated,
        (0x30, Some(10)) if behind < 8 => Outside::Freed,
        (0x30, Some(11)) if behind < 16 => Outside::Reallocated,
        _ => Outside::Unforeseen,
    };
    Said::outside(Reading::refused(4), why)
}

/// Whether the span ends in 0 and is shorter than five bytes.
fn short_span(bytes: &[u8]) -> bool {
    let width = lenlen(bytes[0]);
    let length = vlen(width, bytes).unwrap_or(0);
    let span = bytes.get(1 + width..1 + width + length);
    span.is_some_and(|span| span.len() < 5 && span.last() == Some(&0))
}
