//! The listing: its text, made from the original's answers, against a program that lists.

use crate::tally::Tally;
use compare::answer::{FINISHED, UNFINISHED};
use compare::classes::traces::trace;
use compare::classes::{Run, CLASSES};
use compare::damage::damage;
use compare::form::Form;
use compare::frame::{low_bits, MAGIC_BYTES};
use compare::random::Random;
use compare::source::{self, Outside, Said};
use std::fmt::Write as _;
use std::io::{Read as _, Write as _};
use std::path::Path;
use std::process::{Command, Stdio};

/// The most bytes that are listed.
const MOST: usize = 65_536;

pub fn check(program: &Path, run: Run, tally: &mut Tally) {
    let mut one = |bytes: &[u8]| {
        tally.begin(bytes);
        let said = text(bytes);
        let printed = printed(program, bytes, said.says.len() + 100);
        tally.hold("listing", 0, &said, &printed);
        tally.end(bytes);
    };
    CLASSES[0].make(run, Form::Le64, &mut one);
    let mut random = Random::new(9);
    for round in 0..if run == Run::Long { 3000 } else { 400 } {
        let mut bytes = MAGIC_BYTES.to_vec();
        let longest = random.below(2048);
        while bytes.len() < longest {
            trace(&mut random, Form::Le64, 1, &mut bytes);
        }
        let other = bytes.clone();
        (0..round % 4).for_each(|_| damage(&mut random, &other, &mut bytes));
        bytes.truncate(2048);
        one(&bytes);
    }
    for length in 0..100 {
        one(&foreign(&mut random, length));
    }
    large(&mut random, &mut one);
}

/// Records of all kinds, known or not, and of any width, with random spans, cut after `length` bytes.
fn foreign(random: &mut Random, length: usize) -> Vec<u8> {
    let mut bytes = Vec::new();
    while bytes.len() < length {
        let (width, span) = (random.pick(&[0, 1, 1, 1, 2, 4]), random.below(24));
        bytes.push(random.byte() & 0xfc | low_bits(width));
        bytes.extend_from_slice(&span.to_le_bytes()[..width]);
        random.bytes(if width == 0 { 0 } else { span }, &mut bytes);
    }
    bytes.truncate(length);
    bytes
}

/// At the largest length that is listed, and beyond.
fn large(random: &mut Random, one: &mut dyn FnMut(&[u8])) {
    let mut shown = Vec::new();
    while shown.len() <= MOST {
        trace(random, Form::Le64, 1, &mut shown);
    }
    let whole = MAGIC_BYTES.repeat(MOST / 8 + 1);
    for bytes in [whole, shown, foreign(random, MOST + 1), vec![0; MOST + 1]] {
        for length in [MOST - 1, MOST, MOST + 1] {
            one(&bytes[..length]);
        }
    }
    one(&[0; 3 * MOST]);
}

/// What must be printed, by document 01, for what the original answers.
fn text(bytes: &[u8]) -> Said<String> {
    let mut says = String::new();
    let mut outside: Option<Outside> = None;
    if bytes.len() > MOST {
        return Said { says: "too long\n".into(), outside };
    }
    let mut position = 0;
    loop {
        let said = source::next(bytes, position, Form::Le64);
        outside = outside.or(said.outside);
        let answer = said.says.reading;
        let (start, length) = (answer.start, answer.end - answer.start);
        let _ = match answer.answer {
            FINISHED => writeln!(says, "end {position}"),
            UNFINISHED => writeln!(says, "unfinished {position} {}", answer.number),
            _ => {
                let kind = bytes[position] & 0xfc;
                writeln!(says, "{start} {length} {kind:02x} {}", answer.number)
            }
        };
        if matches!(answer.answer, FINISHED | UNFINISHED) {
            return Said { says, outside };
        }
        position = answer.end as usize;
    }
}

/// What the program prints of `bytes`, up to `most` bytes, and how it ended if by a signal.
fn printed(program: &Path, bytes: &[u8], most: usize) -> String {
    let pipes = Command::new(program).stdin(Stdio::piped()).stdout(Stdio::piped()).spawn();
    let mut child = pipes.expect("the listing program starts");
    let mut stdin = child.stdin.take().expect("a pipe");
    let stdout = child.stdout.take().expect("a pipe");
    let bytes = bytes.to_vec();
    // It may end before it has read everything; only what it printed is compared.
    let writer = std::thread::spawn(move || drop(stdin.write_all(&bytes)));
    let mut text = Vec::new();
    stdout.take(most as u64).read_to_end(&mut text).expect("the listing is read");
    if text.len() == most {
        // It has printed too much, and may never end.
        child.kill().expect("the listing program can be stopped");
    }
    let status = child.wait().expect("the listing program ends");
    writer.join().expect("the writer ends");
    let text = String::from_utf8_lossy(&text);
    match status.code() {
        Some(_) => text.into(),
        None => format!("{text}({status})"),
    }
}
