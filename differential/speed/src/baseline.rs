//! The original's side of each workload, and the second baseline's, which is the same code over another library.

use crate::stage::{Stage, BEFORE, COUNT, END, KINDS, REFUSED, TIMES};
use std::hint::black_box;

/// The original at its fastest: the parsed record is used where it lies, and the counts are kept in registers.
macro_rules! reading {
    ($library:ident, $walk:ident, $calls:ident) => {
        #[no_mangle]
        #[inline(never)]
        pub extern "C" fn $walk(stage: &mut Stage) {
            let (mut shown, mut refused, mut end, mut kinds) = (0, 0, 0, [0; 64]);
            for raw in $library::TraceBuffer::new(stage.trace).iter() {
                match &raw.parse($library::record::parse_le64) {
                    Ok(record) => {
                        black_box(record);
                        shown += 1;
                    }
                    Err(_) => refused += 1,
                }
                let length = raw.len() as u64;
                kinds[usize::from(raw.bytes()[0] / 4)] += length;
                end += length;
            }
            stage.answer[END] = end;
            stage.answer[COUNT] = shown;
            stage.answer[REFUSED] = refused;
            stage.answer[KINDS..].copy_from_slice(&kinds);
        }

        #[no_mangle]
        #[inline(never)]
        pub extern "C" fn $calls(stage: &mut Stage) {
            let (mut shown, mut end) = (0, 0);
            let mut records = $library::TraceBuffer::new(stage.trace).iter();
            while let Some(raw) = records.next() {
                let record = raw.parse($library::record::parse_le64);
                black_box(&record);
                shown += u64::from(record.is_ok());
                end += raw.len() as u64;
            }
            stage.answer[END] = end;
            stage.answer[COUNT] = shown;
        }
    };
}

reading!(dynamic_trace, speed_b_original, speed_f_original);
reading!(dynamic_trace_lazy, speed_b_lazy, speed_f_lazy);

#[no_mangle]
#[inline(never)]
pub extern "C" fn speed_a_original(stage: &mut Stage) {
    let (mut count, mut end) = (0, 0);
    for raw in dynamic_trace::TraceBuffer::new(stage.trace).iter() {
        count += 1;
        end += raw.len() as u64;
    }
    stage.answer[END] = end;
    stage.answer[COUNT] = count;
}

#[no_mangle]
#[inline(never)]
pub extern "C" fn speed_c_original(stage: &mut Stage) {
    stage.emitted.clear();
    for record in stage.records {
        record.emit(&mut stage.emitted, dynamic_trace::record::emit_le64);
    }
    stage.answer[COUNT] = stage.records.len() as u64;
    stage.answer[END] = stage.emitted.len() as u64;
}

#[no_mangle]
#[inline(never)]
pub extern "C" fn speed_e_std(stage: &mut Stage) {
    let names = stage.names.iter();
    stage.answer[COUNT] = names.map(|name| u64::from(std::str::from_utf8(name).is_ok())).sum();
}

/// A plain copy of the slice of a long record, to where it lies in that record.
#[no_mangle]
#[inline(never)]
pub extern "C" fn speed_h_copy(stage: &mut Stage) {
    let (_, slice) = stage.long;
    let end = BEFORE + slice.len();
    for _ in 0..TIMES {
        stage.out[BEFORE..end].copy_from_slice(slice);
        black_box(&stage.out);
    }
    stage.answer[END] = end as u64;
    stage.answer[COUNT] = TIMES as u64;
}

/// A plain copy of the trace, which bounds what any walk could do.
#[no_mangle]
#[inline(never)]
pub extern "C" fn speed_copy(stage: &mut Stage) {
    let length = stage.trace.len();
    stage.out[..length].copy_from_slice(stage.trace);
    black_box(&stage.out);
    stage.answer[END] = length as u64;
}
