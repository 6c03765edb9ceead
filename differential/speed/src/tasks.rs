//! The workloads: what is timed, against what, and the targets.

use crate::baseline::*;
use crate::names::*;
use crate::ours::*;
use crate::stage::{Input, Stage};
use crate::trace::{MAP, MEM_WRITE};

/// The work of one side in one workload. It is one function, so that its instructions can be counted by its name.
pub struct Task {
    pub workload: &'static str,
    pub side: &'static str,
    pub symbol: &'static str,
    pub run: extern "C" fn(&mut Stage),
}

type Others = &'static [(&'static Task, Option<f64>)];

pub struct Workload {
    pub name: &'static str,
    pub title: &'static str,
    pub input: Input,
    pub ours: &'static Task,
    /// What ours is compared with, and how much of their time it may take.
    pub others: Others,
}

pub const OURS: &str = "ours";

macro_rules! tasks {
    ($($name:ident: $workload:literal, $side:expr, $run:ident;)*) => {
        $(pub static $name: Task =
            Task { workload: $workload, side: $side, symbol: stringify!($run), run: $run };)*
    };
}

tasks! {
    A_OURS: "a", OURS, speed_a_ours;
    A_ORIGINAL: "a", "original", speed_a_original;
    B_OURS: "b", OURS, speed_b_ours;
    B_ORIGINAL: "b", "original", speed_b_original;
    B_LAZY: "b", "lazy", speed_b_lazy;
    C_OURS: "c", OURS, speed_c_ours;
    C_ORIGINAL: "c", "original", speed_c_original;
    D_OURS: "d", OURS, speed_d_ours;
    E_OURS: "e", OURS, speed_e_ours;
    E_STD: "e", "std", speed_e_std;
    F_OURS: "f", OURS, speed_f_ours;
    F_ORIGINAL: "f", "original", speed_f_original;
    F_LAZY: "f", "lazy", speed_f_lazy;
    F_BACK_OURS: "f_back", OURS, speed_f_back_ours;
    G_OURS: "g", OURS, speed_g_ours;
    H_OURS: "h", OURS, speed_h_ours;
    H_COPY: "h", "memcpy", speed_h_copy;
    COPY: "copy", "plain", speed_copy;
}

const fn on_trace(title: &'static str, ours: &'static Task, others: Others) -> Workload {
    Workload { name: ours.workload, title, input: Input::Trace, ours, others }
}

const fn on_names(name: &'static str, title: &'static str, set: usize, others: Others) -> Workload {
    Workload { name, title, input: Input::Names(set), ours: &E_OURS, others }
}

const fn on_records(title: &'static str, ours: &'static Task, others: Others) -> Workload {
    Workload { name: ours.workload, title, input: Input::Records, ours, others }
}

const fn on_long(name: &'static str, title: &'static str, record_type: u64, others: Others) -> Workload {
    Workload { name, title, input: Input::Long(record_type), ours: &H_OURS, others }
}

pub static WORKLOADS: [Workload; 15] = [
    on_trace("frames only", &A_OURS, &[(&A_ORIGINAL, Some(0.5))]),
    on_trace("every record parsed", &B_OURS, &[(&B_ORIGINAL, Some(0.35)), (&B_LAZY, Some(1.0))]),
    on_records("records written", &C_OURS, &[(&C_ORIGINAL, Some(0.7))]),
    on_trace("every record parsed, backwards", &D_OURS, &[(&B_OURS, Some(1.2))]),
    on_names("e", "names, ASCII, 32 bytes", ASCII, &[(&E_STD, Some(1.5))]),
    on_names("e_any", "the same, at any address", ASCII_ANYWHERE, &[(&E_STD, None)]),
    on_names("e_short", "names, ASCII, 8 to 31 bytes", ASCII_SHORTER, &[(&E_STD, None)]),
    on_names("e_few", "names, 1 or 2 other characters", FEW_OTHERS, &[(&E_STD, Some(1.0))]),
    on_names("e_most", "names, 10 three-byte characters", MOSTLY_OTHERS, &[(&E_STD, Some(1.0))]),
    on_names("e_small", "the same as e_few, 8 to 18 bytes", FEW_SHORTER, &[(&E_STD, None)]),
    on_trace("one call for each record", &F_OURS, &[(&F_ORIGINAL, Some(1.0)), (&F_LAZY, None)]),
    on_trace("one call for each record, backwards", &F_BACK_OURS, &[(&F_OURS, None)]),
    on_records("records written, one call for all", &G_OURS, &[(&C_ORIGINAL, None), (&C_OURS, None)]),
    on_long("h", "MemWrite of 16 MiB", MEM_WRITE, &[(&H_COPY, Some(1.25))]),
    on_long("h_map", "Map of 16 MiB", MAP, &[(&H_COPY, None)]),
];

/// What ours does in every form, and how much of its time in the first form it may take in another.
pub static IN_FORMS: [&str; 6] = ["b", "c", "d", "f", "f_back", "g"];
pub const MOST_IN_FORMS: f64 = 1.15;

/// What is timed on traces that grow, beside a plain copy of them.
pub static WALKS: [&Task; 10] =
    [&COPY, &A_OURS, &A_ORIGINAL, &B_OURS, &B_ORIGINAL, &B_LAZY, &D_OURS, &F_OURS, &F_ORIGINAL, &F_LAZY];

impl Workload {
    pub fn find(name: &str) -> &'static Workload {
        WORKLOADS.iter().find(|workload| workload.name == name).expect("a workload")
    }

    /// Those whose instructions are counted: not where a plain copy is one instruction, over and over.
    pub fn counted() -> impl Iterator<Item = &'static Workload> {
        WORKLOADS.iter().filter(|workload| !matches!(workload.input, Input::Long(_)))
    }

    /// Ours first.
    pub fn tasks(&self) -> Vec<&'static Task> {
        std::iter::once(self.ours).chain(self.others.iter().map(|other| other.0)).collect()
    }
}

impl Task {
    /// How a table names it beside ours.
    pub fn shown(&self) -> String {
        match self.side {
            OURS => format!("ours ({})", self.workload),
            side => side.to_string(),
        }
    }

    /// Whether it tells the bytes of each kind, and how many records are refused.
    pub fn tallies(&self) -> bool {
        ["b", "d"].contains(&self.workload)
    }

    /// Whether it ends at the first byte; names have no end.
    pub fn ends_at_0(&self) -> bool {
        ["d", "e", "f_back"].contains(&self.workload)
    }
}
