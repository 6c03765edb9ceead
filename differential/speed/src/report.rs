//! The tables: comparisons with their targets, walks beside a plain copy, growth, and counted instructions.

use crate::pool::{Race, Times};
use crate::stage::Size;
use crate::tasks::{Task, Workload, IN_FORMS, MOST_IN_FORMS, OURS, WALKS};
use compare::form::FORMS;
use std::collections::HashMap;

impl Size {
    fn rate(&self, nanoseconds: f64) -> f64 {
        self.bytes as f64 * 1000.0 / nanoseconds
    }

    /// The time of one record or name.
    fn time(&self, nanoseconds: f64) -> String {
        format!("{:.2} ns", nanoseconds / self.units as f64)
    }

    /// The same, and the megabytes (of a million bytes) of a second.
    fn cell(&self, nanoseconds: f64) -> String {
        format!("{}, {:.0} MB/s", self.time(nanoseconds), self.rate(nanoseconds))
    }
}

fn row(cells: &[String]) {
    println!("| {} |", cells.join(" | "));
}

fn head(cells: &[&str]) {
    println!("\n| {} |\n|{}", cells.join(" | "), "---|".repeat(cells.len()));
}

pub fn comparisons_head() {
    head(&["workload", "ours", "against", "theirs", "ratio", "of the fastest rounds", "target", "met"]);
}

/// A row for each that ours is compared with; returns how many targets are missed.
pub fn comparisons(workload: &Workload, race: &Race) -> usize {
    let (size, times, mut missed) = (race.size, race.times(), 0);
    let ours = times[0];
    for ((task, target), theirs) in workload.others.iter().zip(&times[1..]) {
        let ratio = ours.median / theirs.median;
        let met = target.map(|target| ratio <= target);
        missed += usize::from(met == Some(false));
        row(&[
            format!("{}: {}", workload.name, workload.title),
            size.cell(ours.median),
            task.shown(),
            size.cell(theirs.median),
            format!("{ratio:.3}"),
            format!("{:.3}", ours.fastest / theirs.fastest),
            target.map_or("none".into(), |target| format!("{target:.2}")),
            met.map_or("", |met| if met { "yes" } else { "NO" }).into(),
        ]);
    }
    missed
}

pub fn forms_head() {
    head(&["workload", "LE64", "form", "time", "ratio", "of the fastest rounds", "limit", "met"]);
}

/// A row for each form of a workload but the first; returns how many are above the limit.
pub fn forms(workload: &Workload, race: &Race) -> usize {
    let (times, mut above) = (race.times(), 0);
    let first = times[0];
    for (form, time) in FORMS.iter().zip(&times).skip(1) {
        let ratio = time.median / first.median;
        above += usize::from(ratio > MOST_IN_FORMS);
        row(&[
            format!("{}: {}", workload.name, workload.title),
            race.size.time(first.median),
            form.name().into(),
            race.size.time(time.median),
            format!("{ratio:.3}"),
            format!("{:.3}", time.fastest / first.fastest),
            format!("{MOST_IN_FORMS:.2}"),
            if ratio > MOST_IN_FORMS { "NO" } else { "yes" }.into(),
        ]);
    }
    above
}

fn walk(task: &Task) -> String {
    format!("{}, {}", task.workload, task.side)
}

/// Each walk beside a plain copy, which is the first.
pub fn beside_copy(race: &Race) {
    let times = race.times();
    head(&["walk", "MB/s", "of the copy's"]);
    for (task, time) in WALKS.iter().zip(&times) {
        let (rate, part) = (race.size.rate(time.median), times[0].median / time.median);
        row(&[walk(task), format!("{rate:.0}"), format!("{:.1} %", 100.0 * part)]);
    }
}

/// The walks over larger and larger parts of the trace, each under its title.
pub fn growth(titles: &[String], races: &[&Race]) {
    let titles: Vec<&str> = std::iter::once("walk").chain(titles.iter().map(|title| &title[..])).collect();
    head(&titles);
    let columns: Vec<(Size, Vec<Times>)> = races.iter().map(|race| (race.size, race.times())).collect();
    for (index, task) in WALKS.iter().enumerate() {
        let cells = columns.iter().map(|(size, times)| size.cell(times[index].median));
        row(&std::iter::once(walk(task)).chain(cells).collect::<Vec<_>>());
    }
}

/// Instructions for each record or name, from lines of: workload, side, instructions, records or names.
pub fn counted(lines: &str) {
    let mut counts = Counts::new();
    for line in lines.lines() {
        let words: Vec<&str> = line.split_whitespace().collect();
        let [workload, side, instructions, units] = words[..] else { panic!("not a count: {line}") };
        let number = |word: &str| word.parse::<f64>().expect("a number");
        counts.insert((workload, side), number(instructions) / number(units));
    }
    counted_beside(&counts);
    counted_in_forms(&counts);
}

/// By workload, and by side or, in another form than the first, the form.
type Counts<'a> = HashMap<(&'a str, &'a str), f64>;

fn counted_in_forms(counts: &Counts) {
    println!("\nThe same in each form:");
    let names: Vec<&str> = FORMS.iter().map(|form| form.name()).collect();
    head(&[&["workload"], &names[..]].concat());
    for name in IN_FORMS {
        let workload = Workload::find(name);
        let count = |side: &&str| format!("{:.1}", counts[&(name, *side)]);
        let title = format!("{name}: {}", workload.title);
        row(&[title].into_iter().chain(names.iter().map(count)).collect::<Vec<_>>());
    }
}

fn counted_beside(counts: &Counts) {
    println!("\nInstructions for each record or name, counted by callgrind on a smaller input:");
    head(&["workload", "ours", "against", "theirs", "ratio"]);
    for workload in Workload::counted() {
        let ours = counts[&(workload.name, OURS)];
        for (task, _) in workload.others {
            let name = if task.side == OURS { task.workload } else { workload.name };
            let theirs = counts[&(name, task.side)];
            row(&[
                format!("{}: {}", workload.name, workload.title),
                format!("{ours:.1}"),
                task.shown(),
                format!("{theirs:.1}"),
                format!("{:.3}", ours / theirs),
            ]);
        }
    }
}
