//! What a caller of the writer gives: a record, and the bytes that are handed over with it.

use crate::answer::FlatRecord;
use crate::form::Form;
use crate::random::Random;
use crate::types::{Slice, Type};

#[derive(Clone, PartialEq, Eq, PartialOrd, Ord)]
pub struct Given {
    pub record: FlatRecord,
    pub bytes: Vec<u8>,
}

impl Given {
    pub fn new(record_type: u64, numbers: [u64; 3], bytes: &[u8]) -> Self {
        Given { record: FlatRecord { record_type, numbers }, bytes: bytes.into() }
    }

    /// Its type; none where it is not a record.
    pub fn kind(&self) -> Option<&'static Type> {
        Type::find(self.record.record_type).filter(|kind| kind.fits(self.record.numbers))
    }

    /// A record that is accepted, with `length` bytes; a name has at most 32. In four bytes an address may be too wide.
    pub fn good(random: &mut Random, form: Form, kind: &Type, length: usize) -> Self {
        let mut numbers = numbers(random, form, kind);
        let mut bytes = Vec::new();
        match kind.slice {
            Slice::Name => bytes = name(random, length.min(32)),
            Slice::List => numbers[0] = list(random, length, &mut bytes),
            _ => random.bytes(length, &mut bytes),
        }
        Self::new(kind.number, numbers, &bytes)
    }

    /// A record with these bytes, whatever they are; a register list counts the entries that it holds.
    pub fn raw(random: &mut Random, form: Form, kind: &Type, bytes: &[u8]) -> Self {
        let mut numbers = numbers(random, form, kind);
        if kind.slice == Slice::List {
            numbers[0] = entries(bytes).0.len().min(255) as u64;
        }
        Self::new(kind.number, numbers, bytes)
    }
}

/// Numbers that fit, small ones more often than a uniform choice would give; in four bytes an address may be too wide.
/// Those that the type does not have are 0 or, once in four, random.
pub fn numbers(random: &mut Random, form: Form, kind: &Type) -> [u64; 3] {
    let mut numbers = if random.once_in(4) { [0; 3].map(|_| random.number()) } else { [0; 3] };
    for (place, &bits) in kind.bits.iter().enumerate() {
        let formed = place < kind.formed();
        numbers[place] = if formed { form.address(random) } else { random.sized(bits as usize) };
    }
    if let Slice::Unknown(least) = kind.slice {
        numbers[0] = least + random.below(256 - least as usize) as u64;
    }
    numbers
}

/// A name of exactly `length` bytes, of one to four bytes a character.
pub fn name(random: &mut Random, length: usize) -> Vec<u8> {
    let mut name = String::new();
    while name.len() < length {
        let bits = random.pick(&[7, 7, 11, 16, 21]);
        let character = char::from_u32(random.sized(bits) as u32).unwrap_or('x');
        if character != '\0' && name.len() + character.len_utf8() <= length {
            name.push(character);
        }
    }
    name.into_bytes()
}

/// A register list of exactly `length` bytes, with bytes after its entries; and the count that is stated, which may be
/// smaller.
fn list(random: &mut Random, length: usize, out: &mut Vec<u8>) -> u64 {
    let mut count = 0;
    while out.len() + 3 <= length && count < 255 && !random.once_in(7) {
        let name = random.below((length - out.len() - 2).min(7));
        out.extend_from_slice(&[random.byte(), random.byte(), name as u8]);
        random.bytes(name, out);
        count += 1;
    }
    let rest = length - out.len();
    random.bytes(rest, out);
    let fewer = random.below(count + 1);
    random.pick(&[count, count, fewer]) as u64
}

/// The whole entries at the front of `list`, and what follows them.
pub fn entries(mut list: &[u8]) -> (Vec<(u16, &[u8])>, &[u8]) {
    let mut entries = Vec::new();
    while let [a, b, length, rest @ ..] = list {
        let Some(name) = rest.get(..usize::from(*length)) else {
            break;
        };
        entries.push((u16::from_le_bytes([*a, *b]), name));
        list = &rest[name.len()..];
    }
    (entries, list)
}
