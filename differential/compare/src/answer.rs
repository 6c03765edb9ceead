//! What both sides answer, and what is written. The structs with `repr(C)` are laid out as in include/trace.h, where
//! each field is explained.

pub const SHOWN: u64 = 0;
pub const REFUSED_AT: u64 = 1;
pub const REFUSED: u64 = 2;
pub const FINISHED: u64 = 3;
pub const UNFINISHED: u64 = 4;

/// `struct aglimtaq_position`.
#[repr(C)]
#[derive(Clone, Copy, Debug, Default, PartialEq, Eq)]
pub struct Position {
    pub at: u64,
    pub form: u64,
    pub pending: u64,
    pub start: u64,
    pub stated: u64,
    pub filled: u64,
}

/// `struct aglimtaq_reading`.
#[repr(C)]
#[derive(Clone, Copy, Debug, Default, PartialEq, Eq)]
pub struct Reading {
    pub answer: u64,
    pub number: u64,
    pub start: u64,
    pub end: u64,
    pub record_type: u64,
    pub numbers: [u64; 3],
    pub bytes_start: u64,
    pub bytes_end: u64,
}

/// What a call that reads at a position leaves: the position after it, and the struct.
#[derive(Clone, Copy, Debug, PartialEq, Eq)]
pub struct Answer {
    pub position: Position,
    pub reading: Reading,
}

/// `struct aglimtaq_part`.
#[repr(C)]
#[derive(Clone, Copy, Debug, Default, PartialEq, Eq)]
pub struct Part {
    pub start: u64,
    pub end: u64,
}

/// `struct aglimtaq_entry`.
#[repr(C)]
#[derive(Clone, Copy, Debug, Default, PartialEq, Eq)]
pub struct Entry {
    pub number: u64,
    pub name_start: u64,
    pub name_end: u64,
    pub next: u64,
}

/// `struct aglimtaq_record`.
#[repr(C)]
#[derive(Clone, Copy, Debug, Default, PartialEq, Eq, PartialOrd, Ord)]
pub struct FlatRecord {
    pub record_type: u64,
    pub numbers: [u64; 3],
}

/// `struct aglimtaq_call`: a record, and how many bytes are handed over with it.
#[repr(C)]
#[derive(Clone, Copy, Debug, Default, PartialEq, Eq)]
pub struct Call {
    pub record: FlatRecord,
    pub length: u64,
}

/// `struct aglimtaq_all`.
#[repr(C)]
#[derive(Clone, Copy, Debug, Default, PartialEq, Eq)]
pub struct All {
    pub records: u64,
    pub bytes: u64,
}

/// What `value` gives: 0 and a part, or a refusal and a part of zeros.
pub type Value = (u64, Part);

impl Reading {
    /// A record without bytes.
    pub fn plain(record_type: u64, numbers: [u64; 3]) -> Self {
        Self { record_type, numbers, ..Self::default() }
    }

    /// A record with one number and bytes.
    pub fn with_bytes(record_type: u64, number: u64, bytes: Part) -> Self {
        let shown = Self::plain(record_type, [number, 0, 0]);
        Self { bytes_start: bytes.start, bytes_end: bytes.end, ..shown }
    }

    /// A record that is refused.
    pub fn refused(number: u64) -> Self {
        Self { answer: REFUSED, number, ..Self::default() }
    }

    /// Whether the answer has a part of the bytes: no part starts at 0, where the record's first byte is.
    fn has_bytes(&self) -> bool {
        self.bytes_start > 0
    }

    /// The answer where the bytes begin at offset `base` of a trace.
    pub fn at(mut self, base: u64) -> Self {
        if self.has_bytes() {
            self.bytes_start += base;
            self.bytes_end += base;
        }
        self
    }

    /// The answer where the bytes, `length` of them, were framed at `start`.
    pub fn framed(self, start: u64, length: u64) -> Self {
        let answer = if self.answer == REFUSED { REFUSED_AT } else { self.answer };
        Self { answer, start, end: start + length, ..self.at(start) }
    }

    /// The last reading of a walk.
    pub fn last(answer: u64, number: u64) -> Self {
        Self { answer, number, ..Self::default() }
    }
}
