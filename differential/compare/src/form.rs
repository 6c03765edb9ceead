//! The four forms of an address, and the original's `varfmt` for each.

use crate::answer::Position;
use crate::random::Random;
use dynamic_trace::record::*;

/// `enum aglimtaq_form`.
#[derive(Clone, Copy, Debug, Default, PartialEq, Eq, PartialOrd, Ord)]
pub enum Form {
    #[default]
    Le64,
    Be64,
    Le32,
    Be32,
}

pub const FORMS: [Form; 4] = [Form::Le64, Form::Be64, Form::Le32, Form::Be32];

/// What the original parses an address with, and what it emits one with.
pub type Parse = fn(&[u8]) -> Result<(u64, &[u8]), ParseError>;
pub type Emit = fn(u64, &mut [u8]) -> &[u8];

impl Form {
    pub fn number(self) -> u64 {
        self as u64
    }

    pub fn name(self) -> &'static str {
        ["LE64", "BE64", "LE32", "BE32"][self as usize]
    }

    /// How many bytes an address has.
    pub fn width(self) -> usize {
        match self {
            Form::Le64 | Form::Be64 => 8,
            Form::Le32 | Form::Be32 => 4,
        }
    }

    pub fn parse(self) -> Parse {
        [parse_le64, parse_be64, parse_le32, parse_be32][self as usize]
    }

    pub fn emit(self) -> Emit {
        [emit_le64, emit_be64, emit_le32, emit_be32][self as usize]
    }

    /// A position at which no record is open.
    pub fn at(self, at: u64) -> Position {
        Position { at, form: self.number(), ..Position::default() }
    }

    /// Whether an address or an Unmap length has too many bits for the form.
    pub fn too_wide(self, number: u64) -> bool {
        self.width() == 4 && number > u64::from(u32::MAX)
    }

    /// Appends an address that fits, small ones more often than a uniform choice would give.
    pub fn put(self, random: &mut Random, out: &mut Vec<u8>) {
        let number = random.sized(8 * self.width());
        match self {
            Form::Le64 => out.extend_from_slice(&number.to_le_bytes()),
            Form::Be64 => out.extend_from_slice(&number.to_be_bytes()),
            Form::Le32 => out.extend_from_slice(&number.to_le_bytes()[..4]),
            Form::Be32 => out.extend_from_slice(&number.to_be_bytes()[4..]),
        }
    }

    /// An address to be written. In four bytes most fit; of the others many are about the limit.
    pub fn address(self, random: &mut Random) -> u64 {
        if self.width() == 8 {
            return random.sized(64);
        }
        match random.below(40) {
            0 => random.pick(&[0xffff_fffe, 0xffff_ffff]),
            1 => random.pick(&[0x1_0000_0000, 0x1_0000_0001]),
            2 => random.sized(64),
            _ => random.sized(32),
        }
    }
}
