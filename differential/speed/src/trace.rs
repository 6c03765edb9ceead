//! The trace that is walked, and the records that are written: a realistic mix, in an order that no branch predictor
//! can learn, and the same in every run.

use crate::names;
use crate::stage::{Given, List};
use compare::answer::{Call, FlatRecord};
use compare::form::Form;
use compare::random::Random;
use compare::types::Type;
use compare::writing::made;
use dynamic_trace::record::{Arch, Record};
use dynamic_trace::TraceBuffer;

const MAGIC: u64 = 1;
const REGISTER_NAME_MAP: u64 = 3;
pub const MAP: u64 = 5;
const UNMAP: u64 = 6;
const INSTRUCTION: u64 = 7;
const PC: u64 = 8;
const INSTRUCTION_COUNT: u64 = 9;
const THREAD_ID: u64 = 10;
const CALL_BEGIN: u64 = 12;
const CALL_END: u64 = 14;
const MEMORY_ALLOCATED: u64 = 18;
const INTERRUPT: u64 = 22;
const REG_READ: u64 = 23;
const REG_WRITE: u64 = 24;
const REG_WRITE_NATIVE: u64 = 25;
const MEM_READ: u64 = 26;
pub const MEM_WRITE: u64 = 27;
/// A MemWrite that takes two length bytes: no type of the format, but one of the mix.
const LONG_WRITE: u64 = 100;

/// Of a thousand records, how many are of each type.
const MIX: [(usize, u64); 15] = [
    (450, INSTRUCTION),
    (200, REG_WRITE),
    (80, REG_READ),
    (100, MEM_READ),
    (80, MEM_WRITE),
    (30, REG_WRITE_NATIVE),
    (20, INSTRUCTION_COUNT),
    (10, CALL_BEGIN),
    (10, CALL_END),
    (4, INTERRUPT),
    (4, THREAD_ID),
    (4, PC),
    (4, MEMORY_ALLOCATED),
    (2, UNMAP),
    (2, LONG_WRITE),
];

const REGISTERS: usize = 48;
const MAP_SIZE: usize = 64 << 10;
/// A Map comes once in this many bytes of contents.
const MAP_EVERY: usize = 2 << 20;

#[derive(Default)]
pub struct Mix {
    random: Random,
    /// Bytes handed out since the last Map.
    since_map: usize,
}

impl Mix {
    /// The next record; its bytes are appended to `data`.
    pub fn next(&mut self, data: &mut Vec<u8>) -> FlatRecord {
        let before = data.len();
        let drawn = if self.since_map > MAP_EVERY { MAP } else { self.draw() };
        self.bytes(drawn, data);
        self.since_map = if drawn == MAP { 0 } else { self.since_map + data.len() - before };
        let record_type = if drawn == LONG_WRITE { MEM_WRITE } else { drawn };
        FlatRecord { record_type, numbers: self.numbers(record_type) }
    }

    fn draw(&mut self) -> u64 {
        let mut left = self.random.below(1000);
        for (share, record_type) in MIX {
            if left < share {
                return record_type;
            }
            left -= share;
        }
        unreachable!("the mix has a thousand shares")
    }

    fn bytes(&mut self, drawn: u64, data: &mut Vec<u8>) {
        let length = match drawn {
            MAP => MAP_SIZE,
            INSTRUCTION => 2 + self.random.below(14),
            REG_READ | REG_WRITE | REG_WRITE_NATIVE => 8,
            MEM_READ | MEM_WRITE => self.random.pick(&[1, 2, 4, 8]),
            LONG_WRITE => 300 + self.random.below(1701),
            CALL_BEGIN => {
                let length = 6 + self.random.below(27);
                return data.extend(names::name(&mut self.random, length, &[]));
            }
            _ => 0,
        };
        self.random.bytes(length, data);
    }

    fn numbers(&mut self, record_type: u64) -> [u64; 3] {
        // As many bits as a user's addresses have.
        let address = self.random.number() >> 17;
        let register = self.random.below(REGISTERS) as u64;
        match record_type {
            REG_READ | REG_WRITE | REG_WRITE_NATIVE | THREAD_ID => [register, 0, 0],
            INTERRUPT => [register, address, 0],
            UNMAP | MEMORY_ALLOCATED => [address, 1 + self.random.below(4096) as u64, 0],
            _ => [address, 0, 0],
        }
    }
}

fn flat(record_type: u64, number: u64) -> FlatRecord {
    FlatRecord { record_type, numbers: [number, 0, 0] }
}

fn emit(form: Form, record: FlatRecord, data: &[u8], out: &mut Vec<u8>) {
    made(record, data).expect("a record of the original").emit(out, form.emit());
}

/// A trace of at most `size` bytes in the first form, as the original emits it.
pub fn trace(size: usize) -> Vec<u8> {
    let mut out = emitted(Form::Le64, |_, bytes| bytes >= size);
    out.truncate(cut(&out, size).len());
    out
}

/// The first records of the same trace in another form. In four bytes the original cuts an address.
pub fn in_form(form: Form, records: u64) -> Vec<u8> {
    emitted(form, |count, _| count == records)
}

/// The records of a trace, until there are enough of them, by their number and their bytes.
fn emitted(form: Form, enough: impl Fn(u64, usize) -> bool) -> Vec<u8> {
    let (mut mix, mut data, mut out, mut count) = (Mix::default(), Vec::new(), Vec::new(), 3);
    for number in 0..REGISTERS {
        let name = format!("register_{number}");
        data.extend_from_slice(&[number as u8, 0, name.len() as u8]);
        data.extend_from_slice(name.as_bytes());
    }
    emit(form, flat(MAGIC, 0), &[], &mut out);
    emit(form, flat(REGISTER_NAME_MAP, REGISTERS as u64), &data, &mut out);
    Record::from(Arch::X86_64).emit(&mut out, form.emit());
    while !enough(count, out.len()) {
        data.clear();
        let record = mix.next(&mut data);
        emit(form, record, &data, &mut out);
        count += 1;
    }
    out
}

/// The whole records at the front of a trace, as many as `size` bytes hold.
pub fn cut(trace: &[u8], size: usize) -> &[u8] {
    let records = TraceBuffer::new(&trace[..size.min(trace.len())]).iter();
    &trace[..records.map(|raw| raw.len()).sum()]
}

/// Records to be written, and the bytes of all of them, one after the other.
pub struct Plan {
    records: Vec<(FlatRecord, usize)>,
    data: Vec<u8>,
}

impl Plan {
    pub fn new(count: usize) -> Self {
        let (mut mix, mut data) = (Mix::default(), Vec::new());
        let records = (0..count).map(|_| (mix.next(&mut data), data.len())).collect();
        Plan { records, data }
    }

    /// As ours takes them.
    pub fn given(&self) -> Vec<Given<'_>> {
        let mut start = 0;
        let piece = |&(record, end): &(FlatRecord, usize)| {
            let bytes = &self.data[start..end];
            start = end;
            (record, bytes)
        };
        self.records.iter().map(piece).collect()
    }

    /// As ours takes all of them at once; the bytes are the same that each is given with.
    pub fn list<'a>(&'a self, calls: &'a [Call]) -> List<'a> {
        (calls, &self.data)
    }
}

/// The same with addresses that four bytes hold.
pub fn narrow<'a>(given: &[Given<'a>]) -> Vec<Given<'a>> {
    let cut = |&(mut record, bytes): &Given<'a>| {
        let formed = Type::find(record.record_type).map_or(0, Type::formed);
        record.numbers[..formed].iter_mut().for_each(|number| *number &= u64::from(u32::MAX));
        (record, bytes)
    };
    given.iter().map(cut).collect()
}

/// A call for each.
pub fn calls(given: &[Given]) -> Vec<Call> {
    given.iter().map(|&(record, bytes)| Call { record, length: bytes.len() as u64 }).collect()
}

/// As the original takes them.
pub fn originals<'a>(given: &[Given<'a>]) -> Vec<Record<'a>> {
    given.iter().map(|&(record, bytes)| made(record, bytes).expect("a record of the original")).collect()
}

/// What the original writes of them in a form.
pub fn written(form: Form, records: &[Record]) -> Vec<u8> {
    let mut out = Vec::new();
    records.iter().for_each(|record| record.emit(&mut out, form.emit()));
    out
}
