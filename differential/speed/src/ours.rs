//! The proved codec's side of each workload, by the C interface of include/trace.h.

use crate::stage::{Stage, Tally, COUNT, END, KINDS, TIMES};
use compare::answer::{All, Call, FlatRecord, Position, Reading, REFUSED_AT, SHOWN};
use std::hint::black_box;

extern "C" {
    fn aglimtaq_count(bytes: *const u8, length: usize, end: *mut u64) -> u64;
    fn aglimtaq_walk(
        bytes: *const u8,
        length: usize,
        form: u64,
        counts: *mut u64,
        sizes: *mut u64,
        end: *mut u64,
    );
    fn aglimtaq_walk_back(
        bytes: *const u8,
        length: usize,
        form: u64,
        counts: *mut u64,
        sizes: *mut u64,
        end: *mut u64,
    );
    fn aglimtaq_is_utf8(bytes: *const u8, length: usize) -> u64;
    fn aglimtaq_read_next(bytes: *const u8, length: usize, position: *mut Position, reading: *mut Reading);
    fn aglimtaq_read_previous(
        bytes: *const u8,
        length: usize,
        position: *mut Position,
        reading: *mut Reading,
    );
    fn aglimtaq_write(
        out: *mut u8,
        room: usize,
        position: *mut Position,
        record: *const FlatRecord,
        bytes: *const u8,
        length: usize,
    ) -> u64;
    fn aglimtaq_write_all(
        out: *mut u8,
        room: usize,
        position: *mut Position,
        calls: *const Call,
        count: usize,
        bytes: *const u8,
        length: usize,
        all: *mut All,
    ) -> u64;
}

type Read = unsafe extern "C" fn(*const u8, usize, *mut Position, *mut Reading);
type Walk = unsafe extern "C" fn(*const u8, usize, u64, *mut u64, *mut u64, *mut u64);

#[no_mangle]
#[inline(never)]
pub extern "C" fn speed_a_ours(stage: &mut Stage) {
    let trace = stage.trace;
    stage.answer[COUNT] = unsafe { aglimtaq_count(trace.as_ptr(), trace.len(), &mut stage.answer[END]) };
}

#[no_mangle]
#[inline(never)]
pub extern "C" fn speed_b_ours(stage: &mut Stage) {
    walk(stage, aglimtaq_walk);
}

#[no_mangle]
#[inline(never)]
pub extern "C" fn speed_c_ours(stage: &mut Stage) {
    let (room, mut position, mut accepted) = (stage.out.len(), stage.form.at(0), 0);
    let out = stage.out.as_mut_ptr();
    for (record, bytes) in stage.given {
        let refused =
            unsafe { aglimtaq_write(out, room, &mut position, record, bytes.as_ptr(), bytes.len()) };
        accepted += u64::from(refused == 0);
    }
    stage.answer[END] = position.at;
    stage.answer[COUNT] = accepted;
}

#[no_mangle]
#[inline(never)]
pub extern "C" fn speed_d_ours(stage: &mut Stage) {
    walk(stage, aglimtaq_walk_back);
}

#[no_mangle]
#[inline(never)]
pub extern "C" fn speed_e_ours(stage: &mut Stage) {
    let names = stage.names.iter();
    stage.answer[COUNT] = names.map(|name| unsafe { aglimtaq_is_utf8(name.as_ptr(), name.len()) }).sum();
}

#[no_mangle]
#[inline(never)]
pub extern "C" fn speed_f_ours(stage: &mut Stage) {
    calls(stage, 0, aglimtaq_read_next);
}

#[no_mangle]
#[inline(never)]
pub extern "C" fn speed_f_back_ours(stage: &mut Stage) {
    calls(stage, stage.trace.len() as u64, aglimtaq_read_previous);
}

#[no_mangle]
#[inline(never)]
pub extern "C" fn speed_g_ours(stage: &mut Stage) {
    let (out, room) = (stage.out.as_mut_ptr(), stage.out.len());
    let ((calls, bytes), mut all, mut position) = (stage.list, All::default(), stage.form.at(0));
    let (slices, length) = (bytes.as_ptr(), bytes.len());
    unsafe {
        aglimtaq_write_all(out, room, &mut position, calls.as_ptr(), calls.len(), slices, length, &mut all)
    };
    stage.answer[END] = position.at;
    stage.answer[COUNT] = all.records;
}

#[no_mangle]
#[inline(never)]
pub extern "C" fn speed_h_ours(stage: &mut Stage) {
    let (out, room, (record, slice)) = (stage.out.as_mut_ptr(), stage.out.len(), stage.long);
    let (mut position, mut accepted) = (stage.form.at(0), 0);
    for _ in 0..TIMES {
        position.at = 0;
        let refused =
            unsafe { aglimtaq_write(out, room, &mut position, &record, slice.as_ptr(), slice.len()) };
        accepted += u64::from(refused == 0);
    }
    stage.answer[END] = position.at;
    stage.answer[COUNT] = accepted;
}

/// One call for the whole trace. What it counts lies where `Tally` has it.
#[inline(always)]
fn walk(stage: &mut Stage, walk: Walk) {
    let answer: &mut Tally = &mut stage.answer;
    let (end, counts) = answer.split_at_mut(COUNT);
    let (counts, sizes) = counts.split_at_mut(KINDS - COUNT);
    let (trace, form, end) = (stage.trace, stage.form.number(), end[END..].as_mut_ptr());
    unsafe { walk(trace.as_ptr(), trace.len(), form, counts.as_mut_ptr(), sizes.as_mut_ptr(), end) };
}

/// One call for each record, and every field of what it hands back is used.
#[inline(always)]
fn calls(stage: &mut Stage, from: u64, read: Read) {
    let (mut position, mut reading, mut shown) = (stage.form.at(from), Reading::default(), 0);
    loop {
        unsafe { read(stage.trace.as_ptr(), stage.trace.len(), &mut position, &mut reading) };
        black_box(&reading);
        match reading.answer {
            SHOWN => shown += 1,
            REFUSED_AT => {}
            _ => break,
        }
    }
    stage.answer[END] = position.at;
    stage.answer[COUNT] = shown;
}
