//! Bytes as text: tokens of hexadecimal digits, where `xx*N` is N times the byte xx, and `-` is no bytes.

use std::fmt::Write;

/// From this many times in a row on, a byte is written as `xx*N`.
const RUN: usize = 12;

pub fn tokens(bytes: &[u8]) -> String {
    if bytes.is_empty() {
        return "-".into();
    }
    let mut text = String::new();
    let mut after_long = false;
    for run in bytes.chunk_by(|a, b| a == b) {
        let long = run.len() >= RUN;
        if (long || after_long) && !text.is_empty() {
            text.push(' ');
        }
        let _ = match long {
            true => write!(text, "{:02x}*{}", run[0], run.len()),
            false => run.iter().try_for_each(|byte| write!(text, "{byte:02x}")),
        };
        after_long = long;
    }
    text
}
