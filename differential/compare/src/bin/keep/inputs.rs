//! Inputs, and how the original walks over each.

use crate::{longest, tag, tags, Lines, LONGEST_INPUT};
use compare::answer::{Reading, FINISHED, REFUSED_AT, UNFINISHED};
use compare::form::Form;
use compare::hex::tokens;
use compare::source::{self, Said};
use compare::types::TYPES;
use std::collections::BTreeSet;
use std::fmt::Write;

const LAST_TYPE: u64 = 27;
const REFUSALS: [u64; 5] = [1, 3, 4, 5, 7];
const SHORT_CONTENT: u64 = 4;

#[derive(Default)]
pub struct Inputs {
    form: Form,
    kept: BTreeSet<Vec<u8>>,
    /// Types with the tag, where there is one; refusals; endings.
    types: BTreeSet<(u64, u64)>,
    refusals: BTreeSet<u64>,
    endings: BTreeSet<u64>,
}

impl Inputs {
    pub fn new(form: Form) -> Self {
        Inputs { form, ..Self::default() }
    }

    /// False where the input is not kept: it is too long, outside the domain, or kept already; or the original answers
    /// the same in the first form.
    pub fn keep(&mut self, bytes: &[u8], lines: &mut Lines) -> bool {
        if bytes.len() > LONGEST_INPUT || self.kept.contains(bytes) {
            return false;
        }
        let Some((answers, text)) = answers(bytes, self.form) else {
            return false;
        };
        if self.form != Form::Le64 && self.same_in_first(bytes, &text) {
            return false;
        }
        if !lines.add(self.form, tokens(bytes), text, longest(self.form)) {
            return false;
        }
        self.kept.insert(bytes.to_vec());
        answers.iter().for_each(|answer| self.note(answer));
        true
    }

    fn same_in_first(&self, bytes: &[u8], text: &str) -> bool {
        answers(bytes, Form::Le64).is_some_and(|(_, first)| first == text)
    }

    fn note(&mut self, answer: &Reading) {
        match answer.answer {
            FINISHED | UNFINISHED => drop(self.endings.insert(answer.answer)),
            REFUSED_AT => drop(self.refusals.insert(answer.number)),
            _ => drop(self.types.insert((answer.record_type, tag(answer.record_type, answer.numbers)))),
        }
    }

    /// Everything that must be among them is.
    pub fn complete(&self) {
        if self.form != Form::Le64 {
            return self.complete_addresses();
        }
        for record_type in 1..=LAST_TYPE {
            for tag in tags(record_type) {
                assert!(self.types.contains(&(record_type, tag)), "no type {record_type}, tag {tag}");
            }
        }
        assert!(self.refusals.iter().eq(&REFUSALS), "refusals {:?}", self.refusals);
        assert!(self.endings.len() == 2, "one ending only");
    }

    /// The same of another form: every type with an address, and one that is too short.
    fn complete_addresses(&self) {
        for kind in TYPES.iter().filter(|kind| kind.formed() > 0) {
            assert!(self.types.contains(&(kind.number, 0)), "no type {} in {:?}", kind.number, self.form);
        }
        assert!(self.refusals.contains(&SHORT_CONTENT), "none is too short in {:?}", self.form);
    }

    pub fn count(&self) -> usize {
        self.kept.len()
    }
}

/// The walk over `bytes`; none where a part of it lies outside the domain.
fn answers(bytes: &[u8], form: Form) -> Option<(Vec<Reading>, String)> {
    let (mut answers, mut text, mut position) = (Vec::new(), String::new(), 0);
    loop {
        let Said { says: answer, outside: None } = source::next(bytes, position, form) else {
            return None;
        };
        position = answer.position.at as usize;
        text += &line(bytes, position, &answer.reading);
        answers.push(answer.reading);
        if matches!(answer.reading.answer, FINISHED | UNFINISHED) {
            return Some((answers, text));
        }
        text += "; ";
    }
}

fn line(bytes: &[u8], position: usize, answer: &Reading) -> String {
    let Reading { number, start, end, record_type, numbers, .. } = *answer;
    let length = end - start;
    match answer.answer {
        FINISHED => return format!("end {position}"),
        UNFINISHED => return format!("unfinished {position} {number}"),
        REFUSED_AT => return format!("{start} {length} {number}"),
        _ => {}
    }
    let ([n0, n1, n2], from, to) = (numbers, answer.bytes_start, answer.bytes_end);
    let mut text = format!("{start} {length} 0 {record_type} {n0} {n1} {n2} {from} {to}");
    if record_type == 3 {
        let record = &bytes[start as usize..end as usize];
        for name in source::names(record, (from - start) as usize) {
            let _ = write!(text, " {}:{}:{}", name.number, name.name_start, name.name_end);
        }
    }
    text
}
