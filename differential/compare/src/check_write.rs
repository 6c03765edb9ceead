//! Everything that is compared for a row of records that are written.

use crate::ours::{self, PORTIONS};
use crate::tally::Tally;
use compare::answer::{All, Call, FlatRecord, Position};
use compare::form::Form;
use compare::given::Given;
use compare::hex::tokens;
use compare::random::Random;
use compare::source::{self, Said};
use compare::types::MEM_WRITE;
use compare::writing::{emit, write};
use std::fmt::{Debug, Formatter};
use std::hint::black_box;

const LAST: usize = usize::MAX;

/// What a portion or a closing says where no record is open.
const NONE_OPEN: u64 = 19;

/// How many bytes, which are not lent, lie on each side of the output.
const AROUND: usize = 16;

/// The row, once where there is room for it, and once where there is not.
pub fn check(row: &[Given], tally: &mut Tally) {
    let length = row.iter().map(|given| length(given, tally.form())).sum();
    let position = tally.turn(&[0, 0, 1, 21]);
    let behind = tally.turn(&[0, 0, 1, 21]);
    write_row(row, position, position + length + behind, tally);
    let (position, room) = too_little(position, length, tally);
    write_row(row, position, room, tally);
}

/// The length of a record as it must be written; for one that is refused, more than it would have.
fn length(given: &Given, form: Form) -> usize {
    let mut emitted = Vec::new();
    let written = emit(given, form, &mut emitted).writes();
    if written {
        emitted.len()
    } else {
        given.bytes.len() + 60
    }
}

/// A position and a room, at random: one byte is missing; several are; the position is the end; nothing is lent; the
/// position is beyond the end.
fn too_little(position: usize, length: usize, tally: &mut Tally) -> (usize, usize) {
    let some = tally.random().below(length);
    let less = (position, position + length - 1);
    tally.turn(&[
        less,
        less,
        (position, position + some),
        (position, position),
        (0, 0),
        (position + 1, position),
        (position + length, position + length - 1),
        (LAST - some, position + length),
        (LAST, position + length),
    ])
}

/// Each record at the position that ours handed back, up to the first difference; and all by one call, which must leave
/// what the single calls leave up to the first that is refused.
fn write_row(row: &[Given], first: usize, room: usize, tally: &mut Tally) {
    let mut output = Output::new(first, room, tally);
    let (mut position, mut one_call) = (first, false);
    for (before, given) in row.iter().enumerate() {
        tally.begin(&given.bytes);
        let written = output.write(given, position, tally);
        tally.end(&given.bytes);
        let Some((number, next)) = written else {
            return;
        };
        if number != 0 && !one_call {
            output.write_all(row, first, (number, before, position), tally);
            one_call = true;
        }
        position = next;
    }
    if !one_call {
        output.write_all(row, first, (0, row.len(), position), tally);
    }
}

/// The bytes in portions, of which the second is empty. The others look random, the same in every run, and do not
/// disturb the tally's choices.
fn split(bytes: &[u8], position: usize) -> [&[u8]; PORTIONS] {
    let mut random = Random::new((position ^ bytes.len()) as u64);
    let (a, b) = (random.below(bytes.len() + 1), random.below(bytes.len() + 1));
    let (a, b) = (a.min(b), a.max(b));
    [&bytes[..a], &[], &bytes[a..b], &bytes[b..]]
}

struct Output {
    room: usize,
    /// What was before the first position, and then what the original emitted, or document 02 has written.
    trace: Vec<u8>,
    /// What ours must hold, with the bytes around it; and what it holds.
    must: Vec<u8>,
    now: Vec<u8>,
}

impl Output {
    fn new(position: usize, room: usize, tally: &mut Tally) -> Self {
        let mut must = Vec::new();
        tally.random().bytes(AROUND + room + AROUND, &mut must);
        let before = must[AROUND..AROUND + room].get(..position).unwrap_or(&[]);
        Output { room, trace: before.into(), now: must.clone(), must }
    }

    /// Writes one record; what was said and the next position, where all is as it must be.
    fn write(&mut self, given: &Given, position: usize, tally: &mut Tally) -> Option<(u64, usize)> {
        let form = tally.form();
        let said = write(given, form, self.room, position, &mut self.trace);
        let frame = self.trace.get(position..).unwrap_or(&[]);
        let next = position + frame.len();
        if said.writes() {
            // The rule for reading backwards finds what is written.
            assert!(source::start(&self.trace, next) == Ok(position), "a trailer that leads elsewhere");
            let place = AROUND + position..AROUND + next;
            self.must[place.clone()].copy_from_slice(frame);
            // Before the call, every byte differs from the one to be written.
            self.now[place].iter_mut().zip(frame).for_each(|(now, byte)| *now = !byte);
        }
        let mut record = given.record;
        let at = form.at(position as u64);
        let (number, ours_next) = ours::write(&mut self.now, AROUND, at, &mut record, &given.bytes);
        let ours = Written { number, next: ours_next, record: black_box(record), out: &self.now };
        let next_is = form.at(next as u64);
        let says = Written { number: said.says, next: next_is, record: given.record, out: &self.must };
        let what = format_args!("write {:?} into {} bytes, position", given.record, self.room);
        let said = Said { says, outside: said.outside };
        let equal = tally.hold(what, position as u64, &said, &ours);
        if equal && given.record.record_type == MEM_WRITE {
            self.write_portions(given, position, (number, next), tally);
        }
        equal.then_some((number, next))
    }

    /// Writes a MemWrite in portions. One write said `number`, and its end is `end`; no byte was written since.
    fn write_portions(&self, given: &Given, position: usize, (number, end): (u64, usize), tally: &mut Tally) {
        // Before the calls, every byte that is to be written has another value.
        let mut now = self.must.clone();
        if number == 0 {
            now[AROUND + position..AROUND + end].iter_mut().for_each(|byte| *byte = !*byte);
        }
        let (address, [from, next]) =
            (given.record.numbers[0], [position, end].map(|at| tally.form().at(at as u64)));
        let (ours_numbers, ours_next) =
            ours::write_portions(&mut now, AROUND, from, address, split(&given.bytes, position));
        let mut numbers = [if number == 0 { 0 } else { NONE_OPEN }; PORTIONS + 2];
        numbers[0] = number;
        let ours = InPortions { numbers: ours_numbers, next: ours_next, out: &now };
        let says = InPortions { numbers, next, out: &self.must };
        let what = format_args!("write {:?} in portions into {} bytes, position", given.record, self.room);
        tally.in_portions(what, position as u64, &says, &ours);
    }

    /// Writes the whole row by one call. The single calls said `number` after `records` records, which end at `end`; no
    /// byte was written since.
    fn write_all(
        &self,
        row: &[Given],
        first: usize,
        (number, records, end): (u64, usize, usize),
        tally: &mut Tally,
    ) {
        let call = |given: &Given| Call { record: given.record, length: given.bytes.len() as u64 };
        let calls: Vec<Call> = row.iter().map(call).collect();
        let bytes = row.iter().map(|given| &given.bytes[..]).collect::<Vec<_>>().concat();
        let used = calls[..records].iter().map(|call| call.length).sum();
        let all = All { records: records as u64, bytes: used };
        // Before the call, every byte that is to be written has another value.
        let mut now = self.must.clone();
        if first < end {
            now[AROUND + first..AROUND + end].iter_mut().for_each(|byte| *byte = !*byte);
        }
        let (mut lent, mut taken) = (calls.clone(), bytes.clone());
        let [from, next] = [first, end].map(|at| tally.form().at(at as u64));
        let (ours_number, ours_next, ours_all) =
            ours::write_all(&mut now, AROUND, from, &mut lent, &mut taken);
        let (lent, taken) = (black_box(lent), black_box(taken));
        let ours = AllWritten {
            number: ours_number,
            next: ours_next,
            all: ours_all,
            calls: &lent,
            bytes: &taken,
            out: &now,
        };
        let says = AllWritten { number, next, all, calls: &calls, bytes: &bytes, out: &self.must };
        let what = format_args!("write {} records into {} bytes, position", row.len(), self.room);
        tally.one_call(&bytes, what, first as u64, &says, &ours);
    }
}

/// The state after a call.
#[derive(PartialEq)]
struct Written<'a> {
    number: u64,
    next: Position,
    record: FlatRecord,
    out: &'a [u8],
}

impl Debug for Written<'_> {
    fn fmt(&self, f: &mut Formatter) -> std::fmt::Result {
        let Written { number, next, record, out } = self;
        write!(f, "{number}, next {next:?}, {record:?}, output with {AROUND} bytes around it ")?;
        f.write_str(&tokens(out))
    }
}

/// The state after an opening, portions and a closing.
#[derive(PartialEq)]
struct InPortions<'a> {
    numbers: [u64; PORTIONS + 2],
    next: Position,
    out: &'a [u8],
}

impl Debug for InPortions<'_> {
    fn fmt(&self, f: &mut Formatter) -> std::fmt::Result {
        let InPortions { numbers, next, out } = self;
        write!(f, "{numbers:?}, next {next:?}, output with {AROUND} bytes around it ")?;
        f.write_str(&tokens(out))
    }
}

/// The state after one call for a row.
#[derive(PartialEq)]
struct AllWritten<'a> {
    number: u64,
    next: Position,
    all: All,
    calls: &'a [Call],
    bytes: &'a [u8],
    out: &'a [u8],
}

impl Debug for AllWritten<'_> {
    fn fmt(&self, f: &mut Formatter) -> std::fmt::Result {
        let AllWritten { number, next, all, calls, bytes, out } = self;
        write!(f, "{number}, next {next:?}, {all:?}, {calls:?}, bytes {}, ", tokens(bytes))?;
        write!(f, "output with {AROUND} bytes around it {}", tokens(out))
    }
}
