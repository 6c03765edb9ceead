//! Everything that is compared for one input that is read.

use crate::ours;
use crate::tally::Tally;
use crate::whole::Adding;
use compare::answer::{Answer, Entry, Reading, REFUSED_AT, SHOWN};
use compare::form::Form;
use compare::source::{self, Said};

const REGISTER_NAME_MAP: u64 = 3;
const BEYOND_END: u64 = 8;
const LAST: u64 = u64::MAX;

/// How many records are read backwards from the end.
const BACK: usize = 64;

/// In the first form also what no form has a part in.
pub fn check(bytes: &[u8], tally: &mut Tally) {
    tally.begin(bytes);
    walk(bytes, tally);
    walk_back(bytes, tally);
    if tally.form() == Form::Le64 {
        tally.inside("one_record", 0, &source::one_record(bytes), &ours::one_record(bytes));
        tally.hold("value", 0, &source::value(bytes), &ours::value(bytes));
        is_utf8(bytes, tally);
    }
    parse(bytes, tally);
    beyond(bytes, tally);
    tally.end(bytes);
}

/// The same, for bytes that are checked for text alone.
pub fn text(bytes: &[u8], tally: &mut Tally) {
    tally.begin(bytes);
    is_utf8(bytes, tally);
    tally.end(bytes);
}

fn is_utf8(bytes: &[u8], tally: &mut Tally) {
    let text = u64::from(std::str::from_utf8(bytes).is_ok());
    tally.inside("is_utf8", 0, &text, &ours::is_utf8(bytes));
}

/// From record to record, each call at the position that ours handed back, up to the first difference; half the time
/// also back from there. The sum of the calls is compared with the one call that walks over all.
fn walk(bytes: &[u8], tally: &mut Tally) {
    let (mut position, mut adding, form) = (0, Adding::new(), tally.form());
    loop {
        let said = source::next(bytes, position, form);
        let ours = ours::read_next(bytes, form.at(position as u64));
        if !tally.hold("read_next, position", position as u64, &said, &ours) {
            return;
        }
        if adding.add(bytes, &said) {
            break;
        }
        names(bytes, &said.says.reading, tally);
        position = ours.position.at as usize;
        if tally.turn(&[true, false]) {
            previous(bytes, position, tally);
        }
    }
    if form == Form::Le64 {
        tally.inside("count", 0, &adding.framed(), &ours::count(bytes));
    }
    tally.hold("walk", 0, &adding.said(), &ours::walk(bytes, form));
}

/// Backwards from the end, each call at the position that the one before must hand back, and the sum of the calls; then
/// once at any position.
fn walk_back(bytes: &[u8], tally: &mut Tally) {
    let (mut position, mut adding) = (bytes.len(), Adding::new());
    for _ in 0..BACK {
        let said = previous(bytes, position, tally);
        if adding.add(bytes, &said) {
            tally.hold("walk_back", 0, &adding.said(), &ours::walk_back(bytes, tally.form()));
            break;
        }
        position = said.says.position.at as usize;
    }
    let any = tally.random().below(bytes.len() + 1);
    previous(bytes, any, tally);
}

/// The record that ends at `position`: what must be answered, compared with ours.
fn previous(bytes: &[u8], position: usize, tally: &mut Tally) -> Said<Answer> {
    let (what, at, form) = ("read_previous, position", position as u64, tally.form());
    let ours = ours::read_previous(bytes, form.at(at));
    let said = match source::start(bytes, position) {
        Ok(start) => {
            let said = source::previous(bytes, start, position, form);
            tally.hold(what, at, &said, &ours);
            said
        }
        Err(reading) => {
            let none = Answer { position: form.at(at), reading };
            tally.unframed(what, at, &none, &ours);
            Said::inside(none)
        }
    };
    forward(bytes, at, &ours, tally);
    said
}

/// Where ours framed a record backwards from `at`: from the position that it handed back it must read the same record
/// forwards, and hand back `at`.
fn forward(bytes: &[u8], at: u64, back: &Answer, tally: &mut Tally) {
    if matches!(back.reading.answer, SHOWN | REFUSED_AT) {
        let says = Answer { position: tally.form().at(at), reading: back.reading };
        let ours = ours::read_next(bytes, back.position);
        tally.forward("read_next, position", back.position.at, &says, &ours);
    }
}

/// In the first form, where `map` shows a register list: its names, in turn, up to the end.
fn names(bytes: &[u8], map: &Reading, tally: &mut Tally) {
    let shows_list = (map.answer, map.record_type) == (SHOWN, REGISTER_NAME_MAP);
    if !shows_list || tally.form() != Form::Le64 {
        return;
    }
    let [start, end, from, to] =
        [map.start, map.end, map.bytes_start, map.bytes_end].map(|place| place as usize);
    let list = &bytes[from..to];
    let mut at = 0;
    for entry in source::names(&bytes[start..end], from - start) {
        if !tally.inside("next_name, at", at as u64, &(1, entry), &ours::next_name(list, at)) {
            return;
        }
        at = entry.next as usize;
    }
    let none = (0, Entry::default());
    tally.inside("next_name, at", at as u64, &none, &ours::next_name(list, at));
    for beyond in [list.len() as u64, list.len() as u64 + 1, LAST - 2, LAST] {
        let ours = ours::next_name(list, beyond as usize);
        tally.beyond("next_name, at", beyond, &none, &ours);
    }
}

/// The bytes as they are, whether or not they are one frame: at base 0, and at another base.
fn parse(bytes: &[u8], tally: &mut Tally) {
    let form = tally.form();
    let Said { says, outside } = source::parse(bytes, form);
    let room = LAST - bytes.len() as u64;
    for base in [0, tally.turn(&[1, 0x1_0000_0005, room])] {
        let said = Said { says: says.at(base), outside };
        tally.hold("parse, base", base, &said, &ours::parse(bytes, base, form));
    }
}

/// A position or a base that is too large, chosen at random.
fn beyond(bytes: &[u8], tally: &mut Tally) {
    let (refused, form) = (Reading::refused(BEYOND_END), tally.form());
    let length = bytes.len() as u64;
    let at = tally.turn(&[length + 1, length + 2, LAST]);
    let said = Answer { position: form.at(at), reading: refused };
    match tally.turn(&[0, 1, 2]) {
        0 => {
            let ours = ours::read_next(bytes, said.position);
            tally.beyond("read_next, position", at, &said, &ours);
        }
        1 if length > 0 => {
            let base = tally.turn(&[LAST - length + 1, LAST]);
            tally.beyond("parse, base", base, &refused, &ours::parse(bytes, base, form));
        }
        _ => {
            let ours = ours::read_previous(bytes, said.position);
            tally.beyond("read_previous, position", at, &said, &ours);
        }
    }
}
