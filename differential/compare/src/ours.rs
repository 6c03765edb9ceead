//! What the proved codec answers, by the C interface of include/trace.h.

use crate::whole::Whole;
use compare::answer::{All, Answer, Call, Entry, FlatRecord, Part, Position, Reading, Value};
use compare::form::Form;

extern "C" {
    fn aglimtaq_read_next(bytes: *const u8, length: usize, position: *mut Position, reading: *mut Reading);
    fn aglimtaq_read_previous(
        bytes: *const u8,
        length: usize,
        position: *mut Position,
        reading: *mut Reading,
    );
    fn aglimtaq_parse(bytes: *const u8, length: usize, base: usize, form: u64, reading: *mut Reading);
    fn aglimtaq_one_record(bytes: *const u8, length: usize) -> u64;
    fn aglimtaq_value(bytes: *const u8, length: usize, part: *mut Part) -> u64;
    fn aglimtaq_next_name(list: *const u8, length: usize, at: usize, entry: *mut Entry) -> u64;
    fn aglimtaq_is_utf8(bytes: *const u8, length: usize) -> u64;
    fn aglimtaq_count(bytes: *const u8, length: usize, end: *mut u64) -> u64;
    fn aglimtaq_walk(
        bytes: *const u8,
        length: usize,
        form: u64,
        counts: *mut u64,
        sizes: *mut u64,
        end: *mut u64,
    );
    fn aglimtaq_walk_back(
        bytes: *const u8,
        length: usize,
        form: u64,
        counts: *mut u64,
        sizes: *mut u64,
        end: *mut u64,
    );
    fn aglimtaq_write(
        out: *mut u8,
        room: usize,
        position: *mut Position,
        record: *const FlatRecord,
        bytes: *const u8,
        length: usize,
    ) -> u64;
    fn aglimtaq_write_all(
        out: *mut u8,
        room: usize,
        position: *mut Position,
        calls: *const Call,
        count: usize,
        bytes: *const u8,
        length: usize,
        all: *mut All,
    ) -> u64;
    fn aglimtaq_begin(out: *mut u8, room: usize, position: *mut Position, address: u64, stated: usize)
        -> u64;
    fn aglimtaq_portion(
        out: *mut u8,
        room: usize,
        position: *mut Position,
        bytes: *const u8,
        length: usize,
    ) -> u64;
    fn aglimtaq_close(out: *mut u8, room: usize, position: *mut Position) -> u64;
}

/// What every field holds before a call, so that a field which is not written is noticed.
const UNWRITTEN: u64 = 0xa5a5_a5a5_a5a5_a5a5;

fn unwritten() -> Reading {
    let x = UNWRITTEN;
    Reading {
        answer: x,
        number: x,
        start: x,
        end: x,
        record_type: x,
        numbers: [x; 3],
        bytes_start: x,
        bytes_end: x,
    }
}

pub fn read_next(bytes: &[u8], mut position: Position) -> Answer {
    let mut reading = unwritten();
    unsafe { aglimtaq_read_next(bytes.as_ptr(), bytes.len(), &mut position, &mut reading) };
    Answer { position, reading }
}

pub fn read_previous(bytes: &[u8], mut position: Position) -> Answer {
    let mut reading = unwritten();
    unsafe { aglimtaq_read_previous(bytes.as_ptr(), bytes.len(), &mut position, &mut reading) };
    Answer { position, reading }
}

pub fn parse(bytes: &[u8], base: u64, form: Form) -> Reading {
    let mut reading = unwritten();
    unsafe { aglimtaq_parse(bytes.as_ptr(), bytes.len(), base as usize, form.number(), &mut reading) };
    reading
}

pub fn one_record(bytes: &[u8]) -> u64 {
    unsafe { aglimtaq_one_record(bytes.as_ptr(), bytes.len()) }
}

pub fn value(bytes: &[u8]) -> Value {
    let mut part = Part { start: UNWRITTEN, end: UNWRITTEN };
    let number = unsafe { aglimtaq_value(bytes.as_ptr(), bytes.len(), &mut part) };
    (number, part)
}

pub fn next_name(list: &[u8], at: usize) -> (u64, Entry) {
    let x = UNWRITTEN;
    let mut entry = Entry { number: x, name_start: x, name_end: x, next: x };
    let there = unsafe { aglimtaq_next_name(list.as_ptr(), list.len(), at, &mut entry) };
    (there, entry)
}

pub fn is_utf8(bytes: &[u8]) -> u64 {
    unsafe { aglimtaq_is_utf8(bytes.as_ptr(), bytes.len()) }
}

/// How many records follow each other from the first byte on, and where the last ends.
pub fn count(bytes: &[u8]) -> (u64, u64) {
    let mut end = UNWRITTEN;
    let records = unsafe { aglimtaq_count(bytes.as_ptr(), bytes.len(), &mut end) };
    (records, end)
}

pub fn walk(bytes: &[u8], form: Form) -> Whole {
    whole(bytes, form, aglimtaq_walk)
}

pub fn walk_back(bytes: &[u8], form: Form) -> Whole {
    whole(bytes, form, aglimtaq_walk_back)
}

type Walk = unsafe extern "C" fn(*const u8, usize, u64, *mut u64, *mut u64, *mut u64);

fn whole(bytes: &[u8], form: Form, walk: Walk) -> Whole {
    let x = UNWRITTEN;
    let (mut counts, mut sizes, mut end) = ([x; 8], [x; 64], [x; 3]);
    let (to_counts, to_sizes) = (counts.as_mut_ptr(), sizes.as_mut_ptr());
    unsafe { walk(bytes.as_ptr(), bytes.len(), form.number(), to_counts, to_sizes, end.as_mut_ptr()) };
    let [position, wanted, refused] = end;
    Whole { counts, sizes, position, wanted, refused }
}

/// What writing says, and the position after it. The output is `out` without `around` bytes on each side.
pub fn write(
    out: &mut [u8],
    around: usize,
    mut position: Position,
    record: &mut FlatRecord,
    bytes: &[u8],
) -> (u64, Position) {
    let room = out.len() - 2 * around;
    let number = unsafe {
        let lent = out.as_mut_ptr().add(around);
        aglimtaq_write(lent, room, &mut position, record, bytes.as_ptr(), bytes.len())
    };
    (number, position)
}

/// What writing a list says, and what it leaves. The output is `out` without `around` bytes on each side.
pub fn write_all(
    out: &mut [u8],
    around: usize,
    mut position: Position,
    calls: &mut [Call],
    bytes: &mut [u8],
) -> (u64, Position, All) {
    let (room, x) = (out.len() - 2 * around, UNWRITTEN);
    let mut all = All { records: x, bytes: x };
    let number = unsafe {
        let lent = out.as_mut_ptr().add(around);
        let (from, count) = (calls.as_mut_ptr(), calls.len());
        let (slices, length) = (bytes.as_mut_ptr(), bytes.len());
        aglimtaq_write_all(lent, room, &mut position, from, count, slices, length, &mut all)
    };
    (number, position, all)
}

/// How many portions `write_portions` takes.
pub const PORTIONS: usize = 4;

/// What an opening, each portion and a closing say, and the position after them. The output is `out` without `around`
/// bytes on each side.
pub fn write_portions(
    out: &mut [u8],
    around: usize,
    mut position: Position,
    address: u64,
    portions: [&[u8]; PORTIONS],
) -> ([u64; PORTIONS + 2], Position) {
    let (room, stated) = (out.len() - 2 * around, portions.iter().map(|portion| portion.len()).sum());
    let mut numbers = [UNWRITTEN; PORTIONS + 2];
    unsafe {
        let lent = out.as_mut_ptr().add(around);
        numbers[0] = aglimtaq_begin(lent, room, &mut position, address, stated);
        for (number, bytes) in numbers[1..].iter_mut().zip(portions) {
            *number = aglimtaq_portion(lent, room, &mut position, bytes.as_ptr(), bytes.len());
        }
        numbers[PORTIONS + 1] = aglimtaq_close(lent, room, &mut position);
    }
    (numbers, position)
}
