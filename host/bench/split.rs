//! Splitting takes into parts: the names counted alone, and the whole call with tables that are long enough for any names,
//! which are then not counted, and with tables that are just long enough. And the figures of a season, which counts names too.
use std::hint::black_box;

use vmd::{OwnedParts, Season, Take};

use crate::measure::{Other, seconds};
use crate::takes::{self, Kind, Order};
use crate::{Effort, Tasks, cell, effort, head, row, shown};

/// What is measured.
#[derive(Clone, Copy)]
enum Task {
    Counting,
    LongTables,
    ExactTables,
    Season,
}

impl Task {
    const SPLITS: [Task; 3] = [Task::Counting, Task::LongTables, Task::ExactTables];
    const ALL: [Task; 4] = [Task::Counting, Task::LongTables, Task::ExactTables, Task::Season];

    fn name(self) -> &'static str {
        match self {
            Task::Counting => "counting names",
            Task::LongTables => "split, tables for any names",
            Task::ExactTables => "split, exact tables",
            Task::Season => "season figures",
        }
    }
}

/// A take, and memory for its parts.
struct Case {
    file: Vec<u8>,
    exact: OwnedParts,
    long: OwnedParts,
    out: Vec<u8>,
}

impl Case {
    fn new(file: Vec<u8>) -> Case {
        let exact = Take::open(&file).unwrap().parts().unwrap();
        let mut long = exact.clone();
        let (bones, morphs) = (exact.bone_frames.len(), exact.morph_frames.len());
        // ones, as in the other outputs: the system would lend one page of zeros for all
        long.bone_name_bytes.resize(15 * bones, 1);
        long.bone_name_ends.resize(bones, 1);
        long.morph_name_bytes.resize(15 * morphs, 1);
        long.morph_name_ends.resize(morphs, 1);
        Case { out: vec![1; file.len()], file, exact, long }
    }
}

impl Tasks<Task> for Case {
    fn run(&mut self, task: Task) {
        match task {
            Task::Counting => drop(black_box(vmd::split_sizes(&self.file).unwrap())),
            Task::LongTables => split_into(&self.file, &mut self.long),
            Task::ExactTables => split_into(&self.file, &mut self.exact),
            Task::Season => assert!(Season::new().add(&self.file)),
        }
    }

    fn copy(&mut self, _: Task) {
        self.out.copy_from_slice(&self.file);
        black_box(&mut self.out);
    }
}

fn split_into(file: &[u8], lent: &mut OwnedParts) {
    black_box(vmd::split_into(file, lent.as_parts_mut()).unwrap());
    black_box(lent);
}

pub fn table(sizes: &[usize], other: &Other) {
    println!("\n## Parts out of a take\n");
    table_of(Task::SPLITS, sizes, other, &[]);
}

pub fn season(size: usize, other: &Other) {
    println!(
        "\n## Season figures\n\nA take added to a season's figures. The target at 32 MiB is at most 2.2, warm. With remarks each \
         name is spelled in three ways.\n"
    );
    let with_remarks = [(Kind::Bones, Order::Random), (Kind::Mixed, Order::InTurn), (Kind::Morphs, Order::Random)];
    table_of([Task::Season], &[size], other, &with_remarks);
}

/// Takes with 200 names, as shows have them, and some of them with remarks.
fn table_of<const N: usize>(tasks: [Task; N], sizes: &[usize], other: &Other, with_remarks: &[(Kind, Order)]) {
    println!(
        "Takes with 200 names of 4 to 10 bytes. Medians of {} rounds, as multiples of a copy of the file in the same state of \
         the caches.",
        rounds(sizes[0]).rounds
    );
    let columns = tasks.map(|task| ["warm", "cold"].map(|state| format!("{}, {state}", task.name())));
    head(["take", "names", "size"].into_iter().chain(columns.as_flattened().iter().map(String::as_str)));
    let takes = [
        (Kind::Bones, Order::Grouped),
        (Kind::Bones, Order::InTurn),
        (Kind::Mixed, Order::InTurn),
        (Kind::Morphs, Order::InTurn),
        (Kind::Bones, Order::Random),
        (Kind::Morphs, Order::Random),
    ];
    let without = takes.iter().map(|&(kind, order)| (kind, order, false));
    for (kind, order, remarks) in without.chain(with_remarks.iter().map(|&(kind, order)| (kind, order, true))) {
        for &size in sizes {
            let (file, names) = match remarks {
                true => (takes::with_remarks(kind, order, size), format!("{}, remarks", order.name())),
                false => (takes::with_names(kind, 200, order, size), order.name().into()),
            };
            let times = Case::new(file).times(tasks, rounds(size), other);
            let cells = times.as_flattened().iter().map(|rounds| cell(rounds.ratio()));
            row([kind.name().into(), names, shown(size)].into_iter().chain(cells));
        }
    }
}

fn rounds(size: usize) -> Effort {
    Effort { rounds: 9, ..effort(size) }
}

/// Takes in which no name appears twice.
pub fn all_different([bones, morphs]: [usize; 2]) {
    println!("\n## Names that all differ\n\nSeconds, one run each.");
    head(["take", "names"].into_iter().chain(Task::ALL.map(Task::name)));
    for (kind, records) in [(Kind::Bones, bones), (Kind::Morphs, morphs)] {
        for order in [Order::Rising, Order::Falling, Order::Random] {
            let mut case = Case::new(takes::all_different(kind, order, records));
            let cells = Task::ALL.map(|task| format!("{:.3}", seconds(1, || case.run(task))));
            row([format!("{records} {}", kind.name()), order.name().into()].into_iter().chain(cells));
        }
    }
}
