//! The older edition: saving a take in it, and reading a file of it, each beside the same with the newer edition alone.
use std::hint::black_box;

use crate::calls::Call;
use crate::measure::Other;
use crate::takes::{Columns, Kind, Material, Names};
use crate::{Effort, Rounds, Tasks, cell, effort, head, ratio, row, shown};

/// What is measured.
#[derive(Clone, Copy)]
enum Task {
    Export,
    OlderExport,
    ExportOfOlder,
    Open,
    OpenOlder,
}

impl Task {
    const ALL: [Task; 5] = [Task::Export, Task::OlderExport, Task::ExportOfOlder, Task::Open, Task::OpenOlder];

    fn name(self) -> &'static str {
        match self {
            Task::Export => "export",
            Task::OlderExport => "older export",
            Task::ExportOfOlder => "export, older file",
            Task::Open => "open",
            Task::OpenOlder => "open, older file",
        }
    }

    /// The same with the newer edition alone.
    fn with_newer(self) -> Task {
        match self {
            Task::Export | Task::OlderExport | Task::ExportOfOlder => Task::Export,
            Task::Open | Task::OpenOlder => Task::Open,
        }
    }
}

/// A take as a file of each edition, and an output.
struct Case {
    newer: Material,
    older: Material,
    out: Vec<u8>,
}

impl Case {
    fn new(kind: Kind, size: usize) -> Case {
        let newer = Material::new(kind, Names::Padded, size);
        let file = vmd::export_older(&newer.file).unwrap();
        Case { out: newer.output(), newer, older: Material { file, halves: Vec::new(), columns: Columns::default() } }
    }
}

impl Tasks<Task> for Case {
    fn run(&mut self, task: Task) {
        match task {
            Task::Export => Call::Export.run(&self.newer, &mut self.out),
            Task::OlderExport => drop(black_box(vmd::export_older_into(&self.newer.file, &mut self.out).unwrap())),
            Task::ExportOfOlder => Call::Export.run(&self.older, &mut self.out),
            Task::Open => Call::Open.run(&self.newer, &mut self.out),
            Task::OpenOlder => Call::Open.run(&self.older, &mut self.out),
        }
        black_box(&mut self.out);
    }

    /// Copies the file that is read.
    fn copy(&mut self, task: Task) {
        let material = match task {
            Task::Export | Task::OlderExport | Task::Open => &self.newer,
            Task::ExportOfOlder | Task::OpenOlder => &self.older,
        };
        Call::Open.copy(material, &mut self.out);
    }
}

pub fn table(size: usize, other: &Other) {
    let effort = Effort { rounds: effort(size).rounds.min(9), ..effort(size) };
    println!("\n## The older edition\n");
    println!(
        "Takes of {}, names of 4 to 10 bytes. Medians of {} rounds, as multiples of a copy of the file that is read, and of \
         the same call with the newer edition alone.",
        shown(size),
        effort.rounds
    );
    head(["take", "call", "by a copy, warm", "by a copy, cold", "by the newer, warm", "by the newer, cold"]);
    for kind in Kind::USUAL {
        let times = Case::new(kind, size).times(Task::ALL, effort, other);
        for task in Task::ALL {
            let (of, newer) = (&times[task as usize], &times[task.with_newer() as usize]);
            let by_copy = of.iter().map(Rounds::ratio);
            let by_newer = of.iter().zip(newer).map(|(of, newer)| ratio(&of.call, &newer.call));
            row([kind.name().into(), task.name().into()].into_iter().chain(by_copy.chain(by_newer).map(cell)));
        }
    }
}
