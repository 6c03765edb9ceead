//! Times tasks side by side: in each round each of them, one after the other, on the same input.

use crate::stage::{Input, Stage, Tally, BEFORE, COUNT, END, KINDS};
use crate::tasks::{Task, OURS};
use compare::form::FORMS;
use std::time::{Duration, Instant};

/// The least number of rounds; and the time until which more are done.
pub const ROUNDS: usize = 3;
const SPENT: Duration = Duration::from_millis(100);

/// Of each task the times of all rounds, in nanoseconds.
pub fn race(stage: &mut Stage, tasks: &[&Task], input: Input) -> Vec<Vec<u64>> {
    match input {
        Input::Long(_) => agree_on_long(stage, tasks, input),
        _ => agree(stage, tasks, input),
    }
    let mut rounds = vec![Vec::new(); tasks.len()];
    let begin = Instant::now();
    while rounds[0].len() < ROUNDS || begin.elapsed() < SPENT {
        for (task, times) in tasks.iter().zip(&mut rounds) {
            times.push(once(stage, task).as_nanos() as u64);
        }
    }
    rounds
}

/// The same of one task in each form, on the same records.
pub fn race_forms(stage: &mut Stage, task: &Task, input: Input) -> Vec<Vec<u64>> {
    agree_in_forms(stage, task, input);
    let mut rounds = vec![Vec::new(); FORMS.len()];
    let begin = Instant::now();
    while rounds[0].len() < ROUNDS || begin.elapsed() < SPENT {
        for (form, times) in FORMS.into_iter().zip(&mut rounds) {
            stage.take(form);
            times.push(once(stage, task).as_nanos() as u64);
        }
    }
    rounds
}

fn once(stage: &mut Stage, task: &Task) -> Duration {
    stage.answer = [0; 75];
    let begin = Instant::now();
    (task.run)(stage);
    begin.elapsed()
}

/// The first round, which warms caches and is not counted. Every task must go through the whole input, and all that
/// tally must find the same. All that write records must write the same bytes.
fn agree(stage: &mut Stage, tasks: &[&Task], input: Input) {
    let size = stage.size(input);
    let mut first: Option<(Tally, &Task)> = None;
    let mut written: Option<Vec<u8>> = None;
    for task in tasks {
        stage.wipe(input);
        once(stage, task);
        let found = stage.answer;
        let end = if task.ends_at_0() { 0 } else { size.bytes };
        assert_eq!(found[END], end, "{} ends elsewhere", task.symbol);
        let count = if task.workload == "copy" { 0 } else { size.units };
        assert_eq!(found[COUNT], count, "{} finds another number", task.symbol);
        if task.tallies() {
            let (expected, other) = *first.get_or_insert((found, task));
            assert_eq!(found[1..], expected[1..], "{} and {} do not agree", task.symbol, other.symbol);
        }
        if input == Input::Records {
            let first = written.get_or_insert_with(|| stage.written(task).to_vec());
            assert!(stage.written(task) == first, "{} writes something else", task.symbol);
        }
    }
}

/// The first round of a long record. Ours must write the frame that documents 01 and 02 have, and the copy its slice.
fn agree_on_long(stage: &mut Stage, tasks: &[&Task], input: Input) {
    let (size, frame) = (stage.size(input), stage.long_frame());
    for task in tasks {
        stage.wipe(input);
        once(stage, task);
        let copied = BEFORE..BEFORE + stage.long.1.len();
        let place = if task.side == OURS { 0..frame.len() } else { copied };
        assert_eq!(stage.answer[END], place.end as u64, "{} ends elsewhere", task.symbol);
        assert_eq!(stage.answer[COUNT], size.units, "{} writes another number", task.symbol);
        assert!(stage.out[place.clone()] == frame[place], "{} writes something else", task.symbol);
    }
}

/// The first round of the forms. In each the task must go through the whole input, find as many records shown and
/// refused as in the first, and write what the original writes.
fn agree_in_forms(stage: &mut Stage, task: &Task, input: Input) {
    let mut first: Option<Tally> = None;
    for form in FORMS {
        stage.take(form);
        stage.wipe(input);
        once(stage, task);
        let (found, size) = (stage.answer, stage.size(input));
        let end = if task.ends_at_0() { 0 } else { size.bytes };
        assert_eq!(found[END], end, "{} ends elsewhere in {}", task.symbol, form.name());
        let expected = *first.get_or_insert(found);
        assert_eq!(found[COUNT..KINDS], expected[COUNT..KINDS], "{} in {}", task.symbol, form.name());
        assert_eq!(found[COUNT], size.units, "{} finds another number in {}", task.symbol, form.name());
        if input == Input::Records {
            let written = stage.forms[form as usize].written;
            assert!(
                stage.written(task) == written,
                "{} writes something else in {}",
                task.symbol,
                form.name()
            );
        }
    }
}
