//! Traces of several records: as this program writes them, as the original emits them, and damaged; and random strings.

use super::Use;
use crate::content::content;
use crate::damage::damage;
use crate::emit::emit;
use crate::form::{Form, FORMS};
use crate::frame::{frame, KINDS, MAGIC, MAGIC_BYTES, TRAILERS, WIDTHS};
use crate::random::Random;

pub fn written(count: usize, form: Form, use_input: Use) {
    let mut random = Random::new(5);
    let mut bytes = Vec::new();
    for _ in 0..count {
        bytes.clear();
        let records = 1 + random.below(12);
        trace(&mut random, form, records, &mut bytes);
        use_input(&bytes);
    }
}

pub fn emitted(count: usize, form: Form, use_input: Use) {
    let mut random = Random::new(6);
    let mut bytes = Vec::new();
    for _ in 0..count {
        bytes.clear();
        (0..1 + random.below(10)).for_each(|_| emit(&mut random, form, &mut bytes));
        use_input(&bytes);
    }
}

/// Traces in another form than the one they are read in.
pub fn other_forms(count: usize, form: Form, use_input: Use) {
    let mut random = Random::new(20);
    let others: Vec<Form> = FORMS.into_iter().filter(|&other| other != form).collect();
    let mut bytes = Vec::new();
    for _ in 0..count {
        bytes.clear();
        let (other, records) = (random.pick(&others), 1 + random.below(4));
        trace(&mut random, other, records, &mut bytes);
        use_input(&bytes);
    }
}

/// Each trace is damaged several times, each time from the start, with another trace for splices.
pub fn damaged(count: usize, form: Form, use_input: Use) {
    let mut random = Random::new(7);
    let (mut bytes, mut other, mut now) = (Vec::new(), Vec::new(), Vec::new());
    for round in 0..count {
        if round % 16 == 0 {
            std::mem::swap(&mut bytes, &mut other);
            bytes.clear();
            let records = 1 + random.below(6);
            if random.once_in(4) {
                (0..records).for_each(|_| emit(&mut random, form, &mut bytes));
            } else {
                trace(&mut random, form, records, &mut bytes);
            }
        }
        now.clear();
        now.extend_from_slice(&bytes);
        (0..1 + random.below(3)).for_each(|_| damage(&mut random, &other, &mut now));
        use_input(&now);
    }
}

/// Bytes of which many are kinds, tags or small lengths.
pub fn random_strings(count: usize, _: Form, use_input: Use) {
    let mut random = Random::new(8);
    let mut bytes = Vec::new();
    for _ in 0..count {
        bytes.clear();
        let most = random.pick(&[6, 16, 40, 80]);
        for _ in 0..1 + random.below(most) {
            let byte = match random.below(8) {
                0..=2 => random.pick(&KINDS) | random.below(4) as u8,
                3..=4 => random.below(16) as u8,
                5 => 0,
                _ => random.byte(),
            };
            bytes.push(byte);
        }
        use_input(&bytes);
    }
}

/// Appends records that are shown, most of them in the frame that a writer makes.
pub fn trace(random: &mut Random, form: Form, records: usize, bytes: &mut Vec<u8>) {
    let mut inner = Vec::new();
    for _ in 0..records {
        let kind = random.pick(&KINDS);
        if kind == MAGIC {
            bytes.extend_from_slice(&MAGIC_BYTES);
            continue;
        }
        inner.clear();
        content(random, form, kind, &mut inner);
        let (width, trailer) = (random.pick(&WIDTHS), random.pick(&TRAILERS));
        if !random.once_in(5) || !frame(bytes, kind, width, &inner, trailer) {
            crate::frame::written(bytes, kind, &inner);
        }
    }
}
