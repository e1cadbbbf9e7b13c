//! Property frames with IK states, which have no fixed size: by number, which is a walk over up to 15 others, and one after
//! another.
use std::hint::black_box;

use vmd::Take;

use crate::measure::{Other, median};
use crate::takes::{Kind, Material, Names};
use crate::{Effort, Rounds, Tasks, cell, effort, head, row, shown};

/// What is measured.
#[derive(Clone, Copy)]
enum Task {
    Open,
    ByNumber,
    InOrder,
    Backwards,
    StatesByNumber,
    StatesInOrder,
}

impl Task {
    const ALL: [Task; 6] =
        [Task::Open, Task::ByNumber, Task::InOrder, Task::Backwards, Task::StatesByNumber, Task::StatesInOrder];

    fn name(self) -> &'static str {
        match self {
            Task::Open => "Take::open",
            Task::ByNumber => "frames by number",
            Task::InOrder => "frames in order",
            Task::Backwards => "frames backwards",
            Task::StatesByNumber => "frames and IK states by number",
            Task::StatesInOrder => "frames and IK states in order",
        }
    }
}

/// A take, and an output.
struct Case<'f> {
    take: Take<'f>,
    out: Vec<u8>,
}

impl Tasks<Task> for Case<'_> {
    fn run(&mut self, task: Task) {
        let take = &self.take;
        let numbers = 0..take.properties();
        match task {
            Task::Open => drop(black_box(Take::open(take.file()).unwrap())),
            Task::ByNumber => numbers.for_each(|i| see(take.property(i).unwrap())),
            Task::InOrder => take.property_frames().for_each(see),
            Task::Backwards => take.property_frames().rev().for_each(see),
            Task::StatesByNumber => numbers.for_each(|i| {
                see(take.property(i).unwrap());
                take.ik_states_of(i).for_each(see);
            }),
            Task::StatesInOrder => take.property_frames_with_ik_states().for_each(|(frame, states)| {
                see(frame);
                states.for_each(see);
            }),
        }
    }

    fn copy(&mut self, _: Task) {
        self.out.copy_from_slice(self.take.file());
        black_box(&mut self.out);
    }
}

fn see<T>(record: T) {
    black_box(record);
}

pub fn table(size: usize, other: &Other) {
    let effort = Effort { rounds: effort(size).rounds.min(9), ..effort(size) };
    let file = Material::new(Kind::IkStates, Names::Padded, size).file;
    let mut case = Case { take: Take::open(&file).unwrap(), out: file.clone() };
    let frames = case.take.properties();
    println!("\n## Property frames\n");
    println!(
        "All {} property frames, of 2 IK states each, of a take of {}. Medians of {} rounds: nanoseconds per frame, and the \
         whole as a multiple of a copy of the file in the same state of the caches.",
        frames,
        shown(size),
        effort.rounds
    );
    head(["read", "ns per frame, warm", "ns per frame, cold", "by a copy, warm", "by a copy, cold"]);
    for (task, of) in Task::ALL.into_iter().zip(&case.times(Task::ALL, effort, other)) {
        let per_frame = |rounds: &Rounds| 1e9 * median(rounds.call.clone()) / frames as f64;
        let nanoseconds = of.iter().map(|rounds| format!("{:.1}", per_frame(rounds)));
        row([task.name().into()].into_iter().chain(nanoseconds).chain(of.iter().map(|rounds| cell(rounds.ratio()))));
    }
}
