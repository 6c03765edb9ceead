//! The 26 types that are written: the bits of their numbers, and what their bytes are, from document 01 and trace.h.

use crate::form::Form;

/// What the bytes are that are handed over with a record.
#[derive(Clone, Copy, PartialEq, Eq)]
pub enum Slice {
    /// Nothing: the type has no bytes, and they are ignored.
    Ignored,
    Name,
    List,
    Contents,
    /// The contents of an unknown type, and the least tag that it may have.
    Unknown(u64),
}

pub struct Type {
    pub number: u64,
    pub bits: &'static [u32],
    pub slice: Slice,
}

const fn new(number: u64, bits: &'static [u32], slice: Slice) -> Type {
    Type { number, bits, slice }
}

pub const MAP: u64 = 5;
pub const MEM_WRITE: u64 = 27;

pub static TYPES: [Type; 26] = [
    new(1, &[], Slice::Ignored),
    new(3, &[8], Slice::List),
    new(4, &[8], Slice::Unknown(1)),
    new(MAP, &[64], Slice::Contents),
    new(6, &[64, 64], Slice::Ignored),
    new(7, &[64], Slice::Contents),
    new(8, &[64], Slice::Ignored),
    new(9, &[64], Slice::Ignored),
    new(10, &[32], Slice::Ignored),
    new(11, &[64], Slice::Ignored),
    new(12, &[64], Slice::Name),
    new(13, &[], Slice::Ignored),
    new(14, &[64], Slice::Ignored),
    new(15, &[], Slice::Ignored),
    new(16, &[64], Slice::Ignored),
    new(17, &[32], Slice::Ignored),
    new(18, &[64, 32], Slice::Ignored),
    new(19, &[64, 32], Slice::Ignored),
    new(20, &[64, 64, 32], Slice::Ignored),
    new(21, &[8], Slice::Unknown(12)),
    new(22, &[32, 64], Slice::Ignored),
    new(23, &[32], Slice::Contents),
    new(24, &[32], Slice::Contents),
    new(25, &[16], Slice::Contents),
    new(26, &[64], Slice::Contents),
    new(MEM_WRITE, &[64], Slice::Contents),
];

impl Type {
    pub fn find(number: u64) -> Option<&'static Type> {
        TYPES.iter().find(|kind| kind.number == number)
    }

    /// Whether the numbers that the type has fit their bits; the others are ignored.
    pub fn fits(&self, numbers: [u64; 3]) -> bool {
        self.bits.iter().zip(numbers).all(|(&bits, number)| bits == 64 || number >> bits == 0)
    }

    /// Whether its content may have any length.
    pub fn grows(&self) -> bool {
        !matches!(self.slice, Slice::Ignored | Slice::Name)
    }

    /// How many of its numbers, the first ones, take the form: addresses, and the length of an Unmap.
    pub fn formed(&self) -> usize {
        match self.number {
            MAP | 7 | 8 | 26 | 27 => 1,
            6 => 2,
            _ => 0,
        }
    }

    /// For a type that grows, how many content bytes come before those that are handed over.
    pub fn head(&self, form: Form) -> usize {
        let tag = usize::from(self.slice == Slice::List);
        let others = self.bits[self.formed()..].iter().sum::<u32>() as usize / 8;
        tag + self.formed() * form.width() + others
    }
}
