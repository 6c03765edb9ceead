//! What the tasks work on: inputs and outputs, made and touched before any task is timed.

use crate::tasks::{Task, OURS};
use crate::trace::MAP;
use compare::answer::{Call, FlatRecord};
use compare::form::{Form, FORMS};
use compare::frame;
use dynamic_trace::record::Record;
use dynamic_trace::TraceBuffer;

/// What a task found, as aglimtaq_walk tells it: where it ended, the number wanted and the refusal there; how many
/// records are shown; how many are refused, by number; the bytes of each kind.
pub type Tally = [u64; 75];

pub const END: usize = 0;
pub const COUNT: usize = 3;
pub const REFUSED: usize = 4;
pub const KINDS: usize = 11;

/// A record to be written, and the bytes that are handed over with it.
pub type Given<'a> = (FlatRecord, &'a [u8]);

/// Calls that write records, and the bytes of all of them, one after the other.
pub type List<'a> = (&'a [Call], &'a [u8]);

/// What ours takes in one form: a trace; records, each by itself and all at once; and the bytes that these have when
/// they are written.
#[derive(Clone, Copy)]
pub struct InForm<'a> {
    pub form: Form,
    pub trace: &'a [u8],
    pub given: &'a [Given<'a>],
    pub list: List<'a>,
    pub written: &'a [u8],
}

/// Which of the inputs a workload takes.
#[derive(Clone, Copy, PartialEq)]
pub enum Input {
    Trace,
    Records,
    /// One of the sets of names.
    Names(usize),
    /// A long record, by its type.
    Long(u64),
}

/// How often a long record is written in a round: each time in the same place.
pub const TIMES: usize = 8;

/// How many of its bytes come before its slice, which are the first byte, the length and the address; and after it.
pub const BEFORE: usize = 1 + 4 + 8;
const AFTER: usize = 5;
const ADDRESS: u64 = 0x1234_5678_9abc;

/// How many records or names, and how many bytes.
#[derive(Clone, Copy)]
pub struct Size {
    pub units: u64,
    pub bytes: u64,
}

pub struct Stage<'a> {
    pub form: Form,
    pub trace: &'a [u8],
    /// The same records three times: as ours takes each, as it takes all at once, and as the original takes them.
    pub given: &'a [Given<'a>],
    pub list: List<'a>,
    pub records: &'a [Record<'a>],
    /// The same trace and records in each form; the addresses of the records are those that four bytes hold.
    pub forms: [InForm<'a>; FORMS.len()],
    /// The sets of names, and the one that is in use.
    pub sets: &'a [Vec<&'a [u8]>],
    pub names: &'a [&'a [u8]],
    /// A long record.
    pub long: Given<'a>,
    /// Ours writes here, and the copies.
    pub out: Vec<u8>,
    /// The original appends here.
    pub emitted: Vec<u8>,
    /// How many bytes all records have when they are written.
    pub room: usize,
    pub answer: Tally,
}

impl<'a> Stage<'a> {
    /// Both outputs have at least `room` bytes. All are written here, so that no task is the first to touch a page.
    pub fn new(
        first: InForm<'a>,
        records: &'a [Record<'a>],
        forms: [InForm<'a>; FORMS.len()],
        sets: &'a [Vec<&'a [u8]>],
        slice: &'a [u8],
    ) -> Self {
        let InForm { form, trace, given, list, written } = first;
        let room = written.len();
        let most = room.max(trace.len()).max(BEFORE + slice.len() + AFTER);
        let (out, mut emitted) = (vec![1; most], vec![1; room]);
        emitted.clear();
        let (names, long, answer) = (&[][..], (FlatRecord::default(), slice), [0; 75]);
        Stage { form, trace, given, list, records, forms, sets, names, long, out, emitted, room, answer }
    }

    /// From here on ours takes the trace and the records of a form.
    pub fn take(&mut self, form: Form) {
        let InForm { form, trace, given, list, written } = self.forms[form as usize];
        (self.form, self.trace, self.given, self.list) = (form, trace, given, list);
        self.room = written.len();
    }

    pub fn choose(&mut self, input: Input) {
        match input {
            Input::Names(set) => self.names = &self.sets[set],
            Input::Long(record_type) => self.long.0 = FlatRecord { record_type, numbers: [ADDRESS, 0, 0] },
            Input::Trace | Input::Records => {}
        }
    }

    /// Takes away what was written of an input's records, so that the next task must write them.
    pub fn wipe(&mut self, input: Input) {
        if matches!(input, Input::Records | Input::Long(_)) {
            self.out.fill(0);
            self.emitted.clear();
        }
    }

    /// The bytes of the long record, by documents 01 (Map) and 02 (M-101).
    pub fn long_frame(&self) -> Vec<u8> {
        let (record, slice) = self.long;
        let kind = if record.record_type == MAP { frame::MAP } else { frame::MEM_WRITE };
        let mut out = Vec::new();
        frame::written(&mut out, kind, &[&ADDRESS.to_le_bytes(), slice].concat());
        out
    }

    /// What a task has written.
    pub fn written(&self, task: &Task) -> &[u8] {
        match task.side {
            OURS => &self.out[..self.room],
            _ => &self.emitted,
        }
    }

    /// What there is of an input.
    pub fn size(&self, input: Input) -> Size {
        let (units, bytes) = match input {
            Input::Names(_) => (self.names.len(), self.names.iter().map(|name| name.len()).sum()),
            Input::Records => (self.records.len(), self.room),
            Input::Long(_) => (TIMES, TIMES * self.long.1.len()),
            Input::Trace => (TraceBuffer::new(self.trace).iter().count(), self.trace.len()),
        };
        Size { units: units as u64, bytes: bytes as u64 }
    }
}
