//! Times the proved codec beside the original; `bench`, which builds it, says how it is called.

mod baseline;
mod names;
mod ours;
mod pool;
mod race;
mod report;
mod stage;
mod tasks;
mod trace;

use compare::form::{Form, FORMS};
use compare::random::Random;
use dynamic_trace::TraceBuffer;
use names::{Names, SETS};
use pool::{gather, tell, Races, PROCESSES};
use race::{race, race_forms, ROUNDS};
use stage::{InForm, Input, Stage, TIMES};
use std::process::ExitCode;
use tasks::{Task, Workload, IN_FORMS, OURS, WALKS, WORKLOADS};
use trace::{calls, cut, in_form, narrow, originals, written, Plan};

const MIB: usize = 1 << 20;

/// How much of the trace is walked, in MiB: the last is all of it.
const PARTS: [usize; 4] = [1, 4, 16, 64];

/// How much there is to do: where instructions are counted, less.
struct Amount {
    trace: usize,
    records: usize,
    names: usize,
    /// The bytes of a long record.
    slice: usize,
}

const TIMED: Amount = Amount { trace: 64 * MIB, records: 1_000_000, names: 100_000, slice: 16 * MIB };
const COUNTED: Amount = Amount { trace: MIB, records: 20_000, names: 2_000, slice: 0 };

fn main() -> ExitCode {
    let words: Vec<String> = std::env::args().skip(1).collect();
    let words: Vec<&str> = words.iter().map(|word| &word[..]).collect();
    let mut missed = 0;
    match words[..] {
        [] => _ = timed(),
        ["--hold"] => missed = timed(),
        ["--rounds"] => rounds(),
        ["--tasks"] => list(),
        ["--count", workload, side] => count(workload, side),
        ["--counted"] => {
            report::counted(&std::io::read_to_string(std::io::stdin()).expect("counts on standard input"));
        }
        _ => panic!("unknown arguments: {words:?}"),
    }
    ExitCode::from(u8::from(missed > 0))
}

/// Makes all inputs, and does the work on them.
fn staged<T>(amount: Amount, work: impl FnOnce(&mut Stage) -> T) -> T {
    let trace = trace::trace(amount.trace);
    let plan = Plan::new(amount.records);
    let given = plan.given();
    let first_calls = calls(&given);
    let records = originals(&given);
    let first = written(Form::Le64, &records);
    let names: Vec<Names> = (0..SETS).map(|set| Names::new(set, amount.names)).collect();
    let names: Vec<Vec<&[u8]>> = names.iter().map(|set| set.all()).collect();
    let list = plan.list(&first_calls);
    let first = InForm { form: Form::Le64, trace: &trace, given: &given, list, written: &first };

    let units = TraceBuffer::new(&trace).iter().count() as u64;
    let traces = FORMS.map(|form| in_form(form, units));
    let narrow = narrow(&given);
    let narrow_calls = calls(&narrow);
    let all_written = FORMS.map(|form| written(form, &originals(&narrow)));
    let forms = FORMS.map(|form| {
        let (trace, written) = (&traces[form as usize], &all_written[form as usize]);
        InForm { form, trace, given: &narrow, list: plan.list(&narrow_calls), written }
    });
    let mut slice = Vec::new();
    Random::default().bytes(amount.slice, &mut slice);
    work(&mut Stage::new(first, &records, forms, &names, &slice))
}

/// What one process does: all races.
fn rounds() {
    staged(TIMED, |stage| {
        for workload in &WORKLOADS {
            stage.choose(workload.input);
            let rounds = race(stage, &workload.tasks(), workload.input);
            tell(workload.name, stage.size(workload.input), &rounds);
        }
        let trace = stage.trace;
        for part in PARTS {
            stage.trace = cut(trace, part * MIB);
            let rounds = race(stage, &WALKS, Input::Trace);
            tell(&named(part), stage.size(Input::Trace), &rounds);
        }
        for workload in IN_FORMS.map(Workload::find) {
            let rounds = race_forms(stage, workload.ours, workload.input);
            tell(&in_forms(workload.name), stage.size(workload.input), &rounds);
        }
    })
}

/// The name of a workload's race in all forms.
fn in_forms(workload: &str) -> String {
    format!("{workload}_forms")
}

/// The name of the race on a part of the trace, in MiB.
fn named(part: usize) -> String {
    format!("{part}_MiB")
}

/// All tables of times; how many targets are missed.
fn timed() -> usize {
    let races = gather();
    let (trace, written) = (races["b"].size, races["c"].size);
    println!("The trace: {} records, {} bytes.", trace.units, trace.bytes);
    println!("Written: {} records, {} bytes.", written.units, written.bytes);
    println!("Names: {} of each kind.", TIMED.names);
    println!("A long record: {} bytes, written {TIMES} times in a round.", TIMED.slice);
    println!("In a round every side runs once; the first of a process warms, and is not counted.");
    println!("A time is the median of {PROCESSES} processes of {ROUNDS} rounds each, or more.");
    println!("It is for one record or name. MB: a million bytes.");
    report::comparisons_head();
    let compared = |workload: &Workload| report::comparisons(workload, &races[workload.name]);
    let missed: usize = WORKLOADS.iter().map(compared).sum();
    println!("\nTargets missed: {missed}.");
    let above = formed(&races);
    grown(&races);
    missed + above
}

/// The table of the forms; how many times are above the limit.
fn formed(races: &Races) -> usize {
    println!("\nOurs in each form of addresses, on the same records:");
    report::forms_head();
    let compared = |name: &&str| report::forms(Workload::find(name), &races[&in_forms(name)]);
    let above = IN_FORMS.iter().map(compared).sum();
    println!("\nForms above the limit: {above}.");
    above
}

fn grown(races: &Races) {
    let parts = PARTS.map(|part| &races[&named(part)]);
    println!("\nThe walks beside a plain copy of the trace:");
    report::beside_copy(parts[parts.len() - 1]);
    println!("\nThe same on the first part of the trace, and on ever more of it:");
    report::growth(&PARTS.map(|part| format!("{part} MiB")), &parts);
}

/// The tasks whose instructions are counted: workload, side or form, and the name of the function.
fn list() {
    for workload in IN_FORMS.map(Workload::find) {
        for form in FORMS {
            println!("{} {} {}", workload.name, form.name(), workload.ours.symbol);
        }
    }
    for workload in Workload::counted() {
        let own = |task: &&Task| task.side != OURS || std::ptr::eq(*task, workload.ours);
        for task in workload.tasks().into_iter().filter(own) {
            println!("{} {} {}", workload.name, task.side, task.symbol);
        }
    }
}

/// Runs one task once, and says how many records or names it went through.
fn count(name: &str, side: &str) {
    let workload = Workload::find(name);
    let form = FORMS.into_iter().find(|form| form.name() == side);
    let side = if form.is_some() { OURS } else { side };
    let task = workload.tasks().into_iter().find(|task| task.side == side).expect("a side");
    staged(COUNTED, |stage| {
        stage.choose(workload.input);
        form.into_iter().for_each(|form| stage.take(form));
        (task.run)(stage);
        println!("{}", stage.size(workload.input).units);
    })
}
