//! Records as the original itself emits them.

use crate::form::Form;
use crate::random::Random;
use dynamic_trace::record::*;

/// Appends one record, of any type that a caller can make.
pub fn emit(random: &mut Random, form: Form, out: &mut Vec<u8>) {
    let mut data = Vec::new();
    let size = if random.once_in(30) { 230 + random.below(60) } else { random.below(10) };
    random.bytes(size, &mut data);
    let (a, b) = (random.sized(64), random.sized(64));
    let (n, native) = (random.sized(32) as u32, random.sized(16) as u16);
    let record: Record = match random.below(15) {
        0 => Record::Magic,
        1 => Arch::X86_64.into(),
        2 => Map::new(a, &data).into(),
        3 => Unmap::new(a, b).into(),
        4 => Instruction::new(a, &data).into(),
        5 => Pc::new(a).into(),
        6 => Interrupt::new(n, b).into(),
        7 => RegRead::new(n, &data).into(),
        8 => RegWrite::new(n, &data).into(),
        9 => RegWriteNative::new(native, &data).into(),
        10 => MemRead::new(a, &data).into(),
        11 => MemWrite::new(a, &data).into(),
        12 => register_list(random, &data).into(),
        _ => meta(random, a, b, n).into(),
    };
    record.emit(out, form.emit());
}

fn register_list(random: &mut Random, data: &[u8]) -> RegisterNameMap<'static> {
    let entries = random.below(5);
    let numbers: Vec<u16> = (0..entries).map(|_| random.sized(16) as u16).collect();
    let names = numbers.iter().map(|&number| (number, &data[..data.len().min(20)]));
    RegisterNameMap::new(names)
}

fn meta(random: &mut Random, a: u64, b: u64, n: u32) -> Meta<'static> {
    match random.below(12) {
        0 => Meta::InstructionCount(InstructionCount::new(a)),
        1 => Meta::ThreadId(ThreadId::new(n)),
        2 => Meta::ProcessId(ProcessId::new(a)),
        3 => Meta::CallBegin(CallBegin::new(format!("function {a}"), b)),
        4 => Meta::CallModeledOpsEnd(CallModeledOpsEnd::new()),
        5 => Meta::CallEnd(CallEnd::new(a)),
        6 => Meta::OperandUncertain(OperandUncertain::new()),
        7 => Meta::AddressDependencyEdge(AddressDependencyEdge::new(a)),
        8 => Meta::RegisterDependencyEdge(RegisterDependencyEdge::new(n)),
        9 => Meta::MemoryAllocated(MemoryAllocated::new(a, n)),
        10 => Meta::MemoryFreed(MemoryFreed::new(a, n)),
        _ => Meta::MemoryReallocated(MemoryReallocated::new(a, b, n)),
    }
}
