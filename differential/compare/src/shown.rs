//! A record of the original, shown in the terms of trace.h: type, numbers, and where its bytes lie.

use crate::answer::{Part, Reading};
use crate::source::place;
use dynamic_trace::record::{CallBegin, FileMeta, Meta, Record, RegisterNameMap};
use dynamic_trace::RawRecord;
use std::hash::{Hash, Hasher};

pub fn shown(bytes: &[u8], record: &Record) -> Reading {
    let with =
        |record_type, number, contents| Reading::with_bytes(record_type, number, place(bytes, contents));
    match record {
        Record::Magic => Reading::plain(1, [0; 3]),
        Record::Arch(_) => with(2, 0, RawRecord::new(bytes).value().expect("a content")),
        Record::FileMeta(FileMeta::RegisterNameMap(r)) => register_list(bytes, r),
        Record::FileMeta(FileMeta::Unknown(r)) => with(4, r.tag().into(), r.contents()),
        Record::Map(r) => with(5, r.base(), r.contents()),
        Record::Unmap(r) => Reading::plain(6, [r.base(), r.length(), 0]),
        Record::Instruction(r) => with(7, r.pc(), r.insbytes()),
        Record::Pc(r) => Reading::plain(8, [r.pc(), 0, 0]),
        Record::Meta(r) => meta(bytes, r),
        Record::Interrupt(r) => Reading::plain(22, [r.num().into(), r.tick(), 0]),
        Record::RegRead(r) => with(23, r.regnum().into(), r.contents()),
        Record::RegWrite(r) => with(24, r.regnum().into(), r.contents()),
        Record::RegWriteNative(r) => with(25, r.regnum().into(), r.contents()),
        Record::MemRead(r) => with(26, r.address(), r.contents()),
        Record::MemWrite(r) => with(27, r.address(), r.contents()),
    }
}

fn meta(bytes: &[u8], meta: &Meta) -> Reading {
    let one = |record_type, number| Reading::plain(record_type, [number, 0, 0]);
    match meta {
        Meta::InstructionCount(r) => one(9, r.tick()),
        Meta::ThreadId(r) => one(10, r.threadid().into()),
        Meta::ProcessId(r) => one(11, r.processid()),
        Meta::CallBegin(r) => call_begin(bytes, r),
        Meta::CallModeledOpsEnd(_) => one(13, 0),
        Meta::CallEnd(r) => one(14, r.call_instruction_addr()),
        Meta::OperandUncertain(_) => one(15, 0),
        Meta::AddressDependencyEdge(r) => one(16, r.address()),
        Meta::RegisterDependencyEdge(r) => one(17, r.register().into()),
        Meta::MemoryAllocated(r) => Reading::plain(18, [r.address(), r.size().into(), 0]),
        Meta::MemoryFreed(r) => Reading::plain(19, [r.address(), r.size().into(), 0]),
        Meta::MemoryReallocated(r) => Reading::plain(20, [r.new_address(), r.old_address(), r.size().into()]),
        Meta::Unknown(r) => Reading::with_bytes(21, r.tag().into(), place(bytes, r.contents())),
    }
}

/// The original copies the name. It comes after the tag, and the bytes there must be the same.
fn call_begin(bytes: &[u8], record: &CallBegin) -> Reading {
    let content = RawRecord::new(bytes).value().expect("a content");
    let name = &content[1..1 + record.name().len()];
    assert!(name == record.name().as_bytes(), "a name that is not behind the tag");
    Reading::with_bytes(12, record.address(), place(bytes, name))
}

/// The original has no accessors for the count and the list, but hands both to a hasher, without a copy.
fn register_list(bytes: &[u8], record: &RegisterNameMap) -> Reading {
    let mut seen = Seen { bytes, count: None, list: None };
    record.hash(&mut seen);
    Reading::with_bytes(3, seen.count.expect("a count"), seen.list.expect("a list"))
}

struct Seen<'a> {
    bytes: &'a [u8],
    count: Option<u64>,
    list: Option<Part>,
}

impl Hasher for Seen<'_> {
    fn write_u8(&mut self, count: u8) {
        assert!(self.count.replace(count.into()).is_none());
    }

    fn write_usize(&mut self, _length: usize) {}

    fn write(&mut self, list: &[u8]) {
        assert!(self.list.replace(place(self.bytes, list)).is_none());
    }

    fn finish(&self) -> u64 {
        0
    }
}
