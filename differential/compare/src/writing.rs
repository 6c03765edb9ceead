//! What the original Rust emits; and where a record to be written lies outside the domain of document 01, with what is
//! written there.

use crate::answer::FlatRecord;
use crate::form::Form;
use crate::frame::{frame, written, Trailer, FILE_META, LONGEST_OF_TWO, META};
use crate::given::{entries, Given};
use crate::panics::caught;
use crate::source::{self, Outside, Said};
use crate::types::{self, Slice, Type};
use dynamic_trace::record::*;
use dynamic_trace::RawRecord;

const BEYOND_END: u64 = 8;
const NO_ROOM: u64 = 9;
const BAD_NAME: u64 = 11;
const TAKEN_TAG: u64 = 12;
const SHORT_LIST: u64 = 13;
const WIDE_ADDRESS: u64 = 14;
const NOT_A_RECORD: u64 = 256;

/// Writes at `position` of an output of `room` bytes. Says 0, and appends the original's bytes to `trace`, or those of
/// document 02 where the content is long; or says the refusal, and appends nothing.
pub fn write(given: &Given, form: Form, room: usize, position: usize, trace: &mut Vec<u8>) -> Said<u64> {
    let before = trace.len();
    let said = emit(given, form, trace);
    let length = trace.len() - before;
    let refused = match said.says {
        NOT_A_RECORD => return said,
        _ if position > room => Said::outside(BEYOND_END, Outside::Position),
        0 if length > room - position => Said::outside(NO_ROOM, Outside::Room),
        _ => return said,
    };
    trace.truncate(before);
    refused
}

/// The same, where there is room enough.
pub fn emit(given: &Given, form: Form, trace: &mut Vec<u8>) -> Said<u64> {
    let Some(kind) = given.kind() else {
        return Said::outside(NOT_A_RECORD, Outside::NotARecord);
    };
    let before = trace.len();
    let done = caught(|| original(given, form, trace));
    let refusal = refusal(kind, given, form);
    let long = refusal.is_none() && long(kind, given, form);
    if long && done.is_none() {
        trace.truncate(before);
        frame_long(kind, given, form, trace);
    }
    let kept = (long || done == Some(true)) && reads_back(kind, given, form, &trace[before..]);
    let said = match refusal {
        None if kept && !long => return Said::inside(0),
        // It panics, but reads what document 02 has written.
        None if kept && done.is_none() => return Said::outside(0, Outside::Long),
        // It does not take it, or reads something else back.
        Some((number, why)) if !kept => Said::outside(number, why),
        refusal => Said::outside(refusal.map_or(0, |(number, _)| number), Outside::Unforeseen),
    };
    trace.truncate(before);
    said
}

/// The refusals of documents 01 and 02 that lie in the record: 11, 12 or 13, then 14. No content here is so long that 10
/// would come after them.
fn refusal(kind: &Type, given: &Given, form: Form) -> Option<(u64, Outside)> {
    let (bytes, number) = (&given.bytes[..], given.record.numbers[0]);
    let formed = &given.record.numbers[..kind.formed()];
    let bad_name = || bytes.len() > 32 || bytes.contains(&0) || std::str::from_utf8(bytes).is_err();
    match kind.slice {
        _ if formed.iter().any(|&number| form.too_wide(number)) => Some((WIDE_ADDRESS, Outside::Wide)),
        Slice::Name if bad_name() => Some((BAD_NAME, Outside::Name)),
        Slice::Unknown(least) if number < least => Some((TAKEN_TAG, Outside::Tag)),
        Slice::List if (entries(bytes).0.len() as u64) < number => Some((SHORT_LIST, Outside::List)),
        _ => None,
    }
}

/// Whether the original panics for the length of the content.
fn long(kind: &Type, given: &Given, form: Form) -> bool {
    kind.grows() && kind.number != types::MAP && kind.head(form) + given.bytes.len() > LONGEST_OF_TWO
}

/// Appends what document 02 has written of a long content. What comes before the slice is what the original emits there
/// with a shorter one: none, or in a register list as many entries as it counts, without names.
fn frame_long(kind: &Type, given: &Given, form: Form, out: &mut Vec<u8>) {
    let entries = if kind.slice == Slice::List { given.record.numbers[0] as usize } else { 0 };
    let shorter = Given { record: given.record, bytes: vec![0; 3 * entries] };
    let mut emitted = Vec::new();
    assert!(original(&shorter, form, &mut emitted), "the original does not take a shorter slice");
    let content = RawRecord::new(&emitted).value().expect("a content");
    let head = content.strip_suffix(&shorter.bytes[..]).expect("a content that ends in its slice");
    written(out, emitted[0] & 0xfc, &[head, &given.bytes].concat());
}

/// Whether the original shows again what was given.
fn reads_back(kind: &Type, given: &Given, form: Form, emitted: &[u8]) -> bool {
    let shown = source::parse(emitted, form).says;
    let count = kind.bits.len();
    let bytes = &emitted[shown.bytes_start as usize..shown.bytes_end as usize];
    shown.record_type == kind.number
        && shown.numbers[..count] == given.record.numbers[..count]
        && (kind.slice == Slice::Ignored || bytes == given.bytes)
}

/// Has the original emit it; false where it cannot make such a record.
fn original(given: &Given, form: Form, out: &mut Vec<u8>) -> bool {
    let mut frame = Vec::new();
    match record(given, &mut frame) {
        Some(record) => {
            record.emit(out, form.emit());
            true
        }
        None => false,
    }
}

/// The record as the original makes it. It makes unknown types, and lists with bytes after their entries, only by
/// reading them in `frame`.
fn record<'a>(given: &'a Given, frame: &'a mut Vec<u8>) -> Option<Record<'a>> {
    let (tag, data) = (given.record.numbers[0] as u8, &given.bytes[..]);
    match given.record.record_type {
        3 => made(given.record, data).or_else(|| parsed(FILE_META, &[0, tag], data, frame)),
        4 => parsed(FILE_META, &[tag], data, frame),
        21 => parsed(META, &[tag], data, frame),
        _ => made(given.record, data),
    }
}

/// The record as a caller of the original makes it without reading; none where that is not possible.
pub fn made(record: FlatRecord, data: &[u8]) -> Option<Record<'_>> {
    let FlatRecord { record_type, numbers: [a, b, c] } = record;
    let record = match record_type {
        1 => Record::Magic,
        3 => match entries(data) {
            (entries, []) if entries.len() as u64 == a => RegisterNameMap::new(entries.into_iter()).into(),
            _ => return None,
        },
        5 => Map::new(a, data).into(),
        6 => Unmap::new(a, b).into(),
        7 => Instruction::new(a, data).into(),
        8 => Pc::new(a).into(),
        22 => Interrupt::new(a as u32, b).into(),
        23 => RegRead::new(a as u32, data).into(),
        24 => RegWrite::new(a as u32, data).into(),
        25 => RegWriteNative::new(a as u16, data).into(),
        26 => MemRead::new(a, data).into(),
        27 => MemWrite::new(a, data).into(),
        _ => meta(record_type, [a, b, c], data)?.into(),
    };
    Some(record)
}

fn meta(record_type: u64, [a, b, c]: [u64; 3], data: &[u8]) -> Option<Meta<'static>> {
    let meta = match record_type {
        9 => Meta::InstructionCount(InstructionCount::new(a)),
        10 => Meta::ThreadId(ThreadId::new(a as u32)),
        11 => Meta::ProcessId(ProcessId::new(a)),
        12 => Meta::CallBegin(CallBegin::new(String::from_utf8(data.into()).ok()?, a)),
        13 => Meta::CallModeledOpsEnd(CallModeledOpsEnd::new()),
        14 => Meta::CallEnd(CallEnd::new(a)),
        15 => Meta::OperandUncertain(OperandUncertain::new()),
        16 => Meta::AddressDependencyEdge(AddressDependencyEdge::new(a)),
        17 => Meta::RegisterDependencyEdge(RegisterDependencyEdge::new(a as u32)),
        18 => Meta::MemoryAllocated(MemoryAllocated::new(a, b as u32)),
        19 => Meta::MemoryFreed(MemoryFreed::new(a, b as u32)),
        20 => Meta::MemoryReallocated(MemoryReallocated::new(a, b, c as u32)),
        _ => return None,
    };
    Some(meta)
}

/// What the original shows of this content.
fn parsed<'a>(kind: u8, head: &[u8], data: &[u8], out: &'a mut Vec<u8>) -> Option<Record<'a>> {
    frame(out, kind, 4, &[head, data].concat(), Trailer::Five);
    RawRecord::new(out).parse(Form::Le64.parse()).ok()
}
