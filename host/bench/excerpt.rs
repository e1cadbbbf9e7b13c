//! Excerpts: the library's calls in lent memory, each beside a copy of the file and its export.
use std::hint::black_box;

use crate::measure::Other;
use crate::takes::{self, FIRST_FRAME, FRAMES, Kind, Section};
use crate::{Effort, Rounds, Tasks, cell, effort, head, ratio, row, shown};

/// What is measured.
#[derive(Clone, Copy, PartialEq)]
pub enum Task {
    Export,
    All,
    Moved,
    Half,
    HalfAtRandom,
    Thousandth,
    Nothing,
    Exact,
    Size,
    SizeAtRandom,
}

impl Task {
    const ALL: [Task; 10] = [
        Task::Export,
        Task::All,
        Task::Moved,
        Task::Half,
        Task::HalfAtRandom,
        Task::Thousandth,
        Task::Nothing,
        Task::Exact,
        Task::Size,
        Task::SizeAtRandom,
    ];
    /// Those that two builds are compared by.
    pub const COMPARED: [Task; 5] = [Task::All, Task::Half, Task::HalfAtRandom, Task::Nothing, Task::Exact];

    pub fn name(self) -> &'static str {
        match self {
            Task::Export => "export",
            Task::All => "all",
            Task::Moved => "all, moved",
            Task::Half => "half",
            Task::HalfAtRandom => "half, at random",
            Task::Thousandth => "a thousandth",
            Task::Nothing => "nothing",
            Task::Exact => "half, exact output",
            Task::Size => "size of half",
            Task::SizeAtRandom => "size of half, at random",
        }
    }

    /// The first and the last frame.
    fn frames(self) -> [u32; 2] {
        match self {
            Task::Export | Task::All => [0, u32::MAX],
            Task::Moved => [FIRST_FRAME, u32::MAX],
            Task::Thousandth => [FIRST_FRAME + FRAMES / 2, FIRST_FRAME + FRAMES / 2 + FRAMES / 1000 - 1],
            Task::Nothing => [0, FIRST_FRAME - 1],
            _ => [FIRST_FRAME + FRAMES / 4, FIRST_FRAME + FRAMES / 4 * 3 - 1],
        }
    }
}

/// A take with frames that rise and the same with frames at random, and an output of the export's length.
pub struct Case {
    rising: Vec<u8>,
    at_random: Vec<u8>,
    out: Vec<u8>,
    /// How long the half is whose frames rise.
    half: usize,
}

impl Case {
    pub fn new([rising, at_random]: [Vec<u8>; 2]) -> Case {
        assert_eq!(vmd::export_size(&rising), Ok(rising.len() as u64));
        let [first, last] = Task::Half.frames();
        let half = vmd::excerpt_size(&rising, first, last).unwrap() as usize;
        // ones: the system would lend one page of zeros for all
        Case { out: vec![1; rising.len()], rising, at_random, half }
    }

    /// What the call is lent: the file, the first and the last frame, and the output.
    pub fn lent(&mut self, task: Task) -> (&[u8], [u32; 2], &mut [u8]) {
        let file = match task {
            Task::HalfAtRandom | Task::SizeAtRandom => &self.at_random,
            _ => &self.rising,
        };
        let room = if task == Task::Exact { self.half } else { self.out.len() };
        (file, task.frames(), &mut self.out[..room])
    }
}

impl Tasks<Task> for Case {
    fn run(&mut self, task: Task) {
        let (file, [first, last], out) = self.lent(task);
        match task {
            Task::Export => drop(black_box(vmd::export_into(file, out).unwrap())),
            Task::Size | Task::SizeAtRandom => drop(black_box(vmd::excerpt_size(file, first, last).unwrap())),
            _ => drop(black_box(vmd::excerpt_into(file, first, last, out).unwrap())),
        }
        black_box(&mut self.out);
    }

    fn copy(&mut self, _: Task) {
        self.out.copy_from_slice(&self.rising);
        black_box(&mut self.out);
    }
}

pub fn table(size: usize, other: &Other) {
    let effort = Effort { rounds: effort(size).rounds.min(9), ..effort(size) };
    println!("\n## Excerpts\n");
    println!(
        "Takes of {}, names of 4 to 10 bytes, frames {FIRST_FRAME} to {} in every section, rising or at random. What stays: all \
         from frame 0, all from the first frame, which is subtracted, the middle half, a thousandth, nothing. Outputs have the \
         export's length; an exact one has the excerpt's, so that the records are counted first. Medians of {} rounds, as \
         multiples of a copy of the file and of its export in the same state of the caches.",
        shown(size),
        FIRST_FRAME + FRAMES - 1,
        effort.rounds
    );
    head(["take", "by"].into_iter().chain(Task::ALL.map(Task::name)));
    let kinds = Kind::ALL.map(|kind| (kind.name(), takes::kind_to_cut(kind, size)));
    // export copies the last two as they are
    let sections = [Section::Cameras, Section::Lights, Section::SelfShadows];
    let sections = sections.map(|section| (section.name(), takes::section_to_cut(section, size)));
    for (take, files) in kinds.into_iter().chain(sections) {
        let times = Case::new(files).times(Task::ALL, effort, other);
        for (state, name) in ["warm", "cold"].into_iter().enumerate() {
            let by_copy = times.iter().map(|of| cell(of[state].ratio()));
            row([take.into(), format!("a copy, {name}")].into_iter().chain(by_copy));
            let export = &times[Task::Export as usize][state];
            let by_export = |of: &[Rounds; 2]| cell(ratio(&of[state].call, &export.call));
            row([take.into(), format!("the export, {name}")].into_iter().chain(times.iter().map(by_export)));
        }
    }
}
