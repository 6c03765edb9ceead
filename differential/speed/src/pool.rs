//! The rounds of several processes, put together, because one process can differ: in one, a side took 1.7 times as long
//! in all rounds as in the others.

use crate::stage::Size;
use std::collections::BTreeMap;
use std::env::current_exe;
use std::process::{Command, Stdio};

pub const PROCESSES: usize = 7;

/// Of all rounds of one task, in nanoseconds.
#[derive(Clone, Copy)]
pub struct Times {
    pub median: f64,
    pub fastest: f64,
}

/// All rounds of one race, for each of its tasks.
pub struct Race {
    pub size: Size,
    rounds: Vec<Vec<u64>>,
}

pub type Races = BTreeMap<String, Race>;

/// Prints what a process found, a line for each task: race, task, records or names, bytes, and the rounds.
pub fn tell(race: &str, size: Size, rounds: &[Vec<u64>]) {
    for (task, rounds) in rounds.iter().enumerate() {
        let rounds: Vec<String> = rounds.iter().map(u64::to_string).collect();
        println!("{race} {task} {} {} {}", size.units, size.bytes, rounds.join(" "));
    }
}

/// Runs several processes of this program, and collects what they print.
pub fn gather() -> Races {
    let mut races = Races::new();
    for _ in 0..PROCESSES {
        let mut process = Command::new(current_exe().expect("this program"));
        let told = process.arg("--rounds").stderr(Stdio::inherit()).output().expect("a process");
        assert!(told.status.success(), "a process failed");
        String::from_utf8(told.stdout).expect("text").lines().for_each(|line| add(line, &mut races));
    }
    races
}

fn add(line: &str, races: &mut Races) {
    let (race, numbers) = line.split_once(' ').expect("a race");
    let numbers: Vec<u64> = numbers.split(' ').map(|number| number.parse().expect("a number")).collect();
    let [task, units, bytes, rounds @ ..] = &numbers[..] else { panic!("not a task: {line}") };
    let size = Size { units: *units, bytes: *bytes };
    let race = races.entry(race.into()).or_insert(Race { size, rounds: Vec::new() });
    race.rounds.resize_with(race.rounds.len().max(*task as usize + 1), Vec::new);
    race.rounds[*task as usize].extend(rounds);
}

impl Race {
    pub fn times(&self) -> Vec<Times> {
        self.rounds.iter().map(|rounds| Times::new(rounds.clone())).collect()
    }
}

impl Times {
    fn new(mut rounds: Vec<u64>) -> Self {
        rounds.sort_unstable();
        Times { median: rounds[rounds.len() / 2] as f64, fastest: rounds[0] as f64 }
    }
}
