//! The proved codec against the original Rust. `compare [--long] TRACELIST RAWLIST`; these are the listing programs.
//! Exit status 1 where anything differs.

mod check;
mod check_write;
mod listing;
mod ours;
mod tally;
mod whole;

use compare::classes::{writing, Class, Run, CLASSES, TEXT};
use compare::form::{Form, FORMS};
use std::path::Path;
use std::process::ExitCode;
use tally::Tally;

/// One for each form.
type Totals = [Tally; FORMS.len()];

fn main() -> ExitCode {
    let mut programs: Vec<String> = std::env::args().skip(1).collect();
    let long = programs.first().is_some_and(|word| word == "--long");
    let run = if long { Run::Long } else { Run::Bounded };
    programs.drain(..usize::from(long));
    compare::panics::silence();
    println!("{}", Tally::header());
    let (mut read, mut written, mut total) = (Totals::default(), Totals::default(), Tally::default());
    for class in CLASSES {
        in_each_form(&class, run, check::check, &mut read);
    }
    for class in writing::CLASSES {
        in_each_form(&class, run, check_write::check, &mut written);
    }
    let mut texts = Tally::default();
    TEXT.make(run, Form::Le64, &mut |bytes| check::text(bytes, &mut texts));
    println!("{}", texts.line(TEXT.name));
    total.add(&texts);
    for program in programs.iter().map(Path::new) {
        let name = program.file_name().and_then(|name| name.to_str()).unwrap_or("listing");
        if program.exists() {
            let mut tally = Tally::default();
            listing::check(program, run, &mut tally);
            println!("{}", tally.line(name));
            total.add(&tally);
        } else {
            println!("{name:<17} not compared: there is no {}", program.display());
        }
    }
    for (what, totals) in [("read", read), ("written", written)] {
        for (form, tally) in FORMS.iter().zip(totals) {
            println!("{}", tally.line(&format!("all {what}, {}", form.name())));
            total.add(&tally);
        }
    }
    println!("{}", total.line("total"));
    match total.first() {
        None => ExitCode::SUCCESS,
        Some(first) => {
            println!("\nThe first difference:\n{first}");
            ExitCode::from(1)
        }
    }
}

/// Compares the inputs of a class in each form, and prints their sum.
fn in_each_form<T: ?Sized>(class: &Class<T>, run: Run, check: fn(&T, &mut Tally), totals: &mut Totals) {
    let mut sum = Tally::default();
    for (form, total) in FORMS.into_iter().zip(totals) {
        let mut tally = Tally::new(form);
        class.make(run, form, &mut |input| check(input, &mut tally));
        sum.add(&tally);
        total.add(&tally);
    }
    println!("{}", sum.line(class.name));
}
