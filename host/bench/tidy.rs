//! Tidying: the library's call in lent memory, how long the tidied file is alone, and the crate's call, which makes memory of
//! its own; each beside a copy of the file, its export and the same in plain Rust. And how long a refusal for an output that is
//! too short takes, since the records are then counted without memory.
use std::hint::black_box;

use vmd::{Refusal, Take};

use crate::measure::{after, median, seconds};
use crate::takes::{self, Keys, Naming, Section};
use crate::{Rounds, cell, head, plain, ratio, row};

/// What is measured.
#[derive(Clone, Copy)]
enum Task {
    Tidy,
    Size,
    Export,
    Owned,
    Plain,
}

impl Task {
    const ALL: [Task; 5] = [Task::Tidy, Task::Size, Task::Export, Task::Owned, Task::Plain];

    fn name(self) -> &'static str {
        match self {
            Task::Tidy => "tidy",
            Task::Size => "size",
            Task::Export => "export",
            Task::Owned => "vmd::tidy",
            Task::Plain => "plain Rust",
        }
    }
}

/// A take, and memory to tidy it in.
struct Case {
    file: Vec<u8>,
    scratch: Vec<u64>,
    out: Vec<u8>,
}

impl Case {
    fn new(file: Vec<u8>) -> Case {
        let take = Take::open(&file).unwrap();
        let counts = [take.bones(), take.morphs(), take.cameras(), take.lights(), take.self_shadows(), take.properties()];
        // ones: the system would lend one page of zeros for all
        let (scratch, out) = (vec![1; counts.into_iter().max().unwrap()], vec![1; file.len()]);
        Case { file, scratch, out }
    }

    fn run(&mut self, task: Task) {
        match task {
            Task::Tidy => drop(black_box(vmd::tidy_into(&self.file, &mut self.scratch, &mut self.out).unwrap())),
            Task::Size => drop(black_box(vmd::tidy_size(&self.file, &mut self.scratch).unwrap())),
            Task::Export => drop(black_box(vmd::export_into(&self.file, &mut self.out).unwrap())),
            Task::Owned => drop(black_box(vmd::tidy(&self.file).unwrap())),
            Task::Plain => drop(black_box(plain::tidy(&self.file))),
        }
        black_box(&mut self.out);
    }

    fn copy(&mut self) {
        self.out.copy_from_slice(&self.file);
        black_box(&mut self.out);
    }

    /// Each task after one run of its own, and the copy after two.
    fn times(&mut self) -> [Rounds; 5] {
        let mut times = Task::ALL.map(|_| Rounds::default());
        for _ in 0..ROUNDS {
            let copy = after(2, 1, || self.copy());
            for (task, rounds) in Task::ALL.into_iter().zip(&mut times) {
                rounds.push(after(1, 1, || self.run(task)), copy);
            }
        }
        times
    }
}

const ROUNDS: usize = 5;

/// A take that is measured: its sections with their records, in which order these come, whether their names have remarks, and
/// whether it is joined with itself.
struct Measured {
    sections: Vec<(Section, usize)>,
    keys: Keys,
    remarks: bool,
    twice: bool,
}

impl Measured {
    fn new(section: Section, records: usize, keys: Keys) -> Measured {
        Measured { sections: vec![(section, records)], keys, remarks: false, twice: false }
    }

    fn file(&self) -> Vec<u8> {
        let naming = if self.remarks { Naming::Remarks } else { Naming::Few };
        let file = takes::with_keys(&self.sections, self.keys, naming);
        if self.twice { vmd::join(&file, &file).unwrap() } else { file }
    }

    fn name(&self) -> String {
        let times = if self.twice { 2 } else { 1 };
        let of = |(section, records): &(Section, usize)| format!("{} {}", times * records, section.name());
        self.sections.iter().map(of).collect::<Vec<_>>().join(", ")
    }

    fn order(&self) -> String {
        let (remarks, twice) =
            (if self.remarks { ", remarks" } else { "" }, if self.twice { ", joined with itself" } else { "" });
        format!("{}{remarks}{twice}", self.keys.name())
    }
}

/// Takes of so many bytes; shuffled bones and morphs also with half and a quarter of them.
fn measured(size: usize) -> Vec<Measured> {
    let of = |section: Section, part: usize, keys| Measured::new(section, section.records(size) / part, keys);
    let mut all = Vec::new();
    for section in [Section::Bones, Section::Morphs] {
        all.extend([1, 2, 4].map(|part| of(section, part, Keys::Shuffled)));
        all.extend([Keys::Shuffled, Keys::Tidy].map(|keys| Measured { remarks: true, ..of(section, 1, keys) }));
    }
    all.push(Measured { twice: true, ..of(Section::Bones, 2, Keys::Tidy) });
    let mixed = [(Section::Bones, 60), (Section::Morphs, 30), (Section::Cameras, 10)];
    let mixed = mixed.map(|(section, percent)| (section, section.records(size / 100 * percent)));
    all.push(of(Section::Bones, 1, Keys::Tidy));
    all.push(Measured { sections: mixed.to_vec(), keys: Keys::Tidy, remarks: false, twice: false });
    all.push(of(Section::Morphs, 1, Keys::Tidy));
    let others = [Section::Cameras, Section::Lights, Section::SelfShadows, Section::Properties, Section::IkStates];
    all.extend(others.map(|section| of(section, 1, Keys::Tidy)));
    all.extend([Section::Cameras, Section::SelfShadows, Section::IkStates].map(|section| of(section, 1, Keys::Shuffled)));
    all
}

pub fn table(size: usize) {
    println!("\n## Tidying\n");
    println!(
        "Bones and morphs have 200 names, with remarks each spelled in three ways, and no two records of one the same frame; of \
         a take that is joined with itself the half is dropped. Medians of {ROUNDS} rounds, warm: milliseconds, and as multiples \
         of a copy of the file and of the plain Rust. The library's calls are lent their memory; `vmd::tidy` and the plain Rust \
         allocate theirs. The targets at 32 MiB are 1.5 times the plain Rust for shuffled bones, and 6 copies for takes that are \
         tidy."
    );
    let by_copy = Task::ALL.map(|task| format!("{}, by a copy", task.name()));
    let by_plain = [Task::Tidy, Task::Owned].map(|task| format!("{}, by plain Rust", task.name()));
    head(["take", "order", "tidy, ms"].into_iter().chain(by_copy.iter().chain(&by_plain).map(String::as_str)));
    for measured in measured(size) {
        let mut case = Case::new(measured.file());
        case.run(Task::Tidy);
        let plain = plain::tidy(&case.file);
        assert!(case.out[..plain.len()] == plain, "the plain Rust gives another file");
        let times = case.times();
        let plain = &times[Task::Plain as usize].call;
        let milliseconds = format!("{:.1}", 1e3 * median(times[Task::Tidy as usize].call.clone()));
        let by_copy = times.iter().map(Rounds::ratio);
        let by_plain = [Task::Tidy, Task::Owned].map(|task| ratio(&times[task as usize].call, plain));
        let cells = by_copy.chain(by_plain).map(cell);
        row([measured.name(), measured.order(), milliseconds].into_iter().chain(cells));
    }
}

/// Seconds for an output that is a byte too short.
fn refusal(file: Vec<u8>) -> f64 {
    let mut case = Case::new(file);
    let (size, _) = vmd::tidy_size(&case.file, &mut case.scratch).unwrap();
    let out = &mut case.out[..size as usize - 1];
    seconds(1, || {
        let answer = vmd::tidy_into(&case.file, &mut case.scratch, out);
        assert_eq!(answer.err(), Some(Refusal::OutputTooShort));
    })
}

pub fn refused(size: usize) {
    println!("\n## Tidying into an output that is a byte too short\n");
    println!(
        "Seconds to the refusal, one run each, of records that are tidy, that rise and fall by frame (by name where all names \
         differ) and that are shuffled. The target at 32 MiB is 5 seconds for bones of 200 names."
    );
    head(["take", "names"].into_iter().chain(Keys::ALL.map(Keys::name)));
    let named =
        [Section::Bones, Section::Morphs].into_iter().flat_map(|section| Naming::ALL.map(|naming| (section, naming)));
    let others = [Section::Cameras, Section::Lights, Section::SelfShadows, Section::Properties];
    for (section, naming) in named.chain(others.map(|section| (section, Naming::Few))) {
        let records = section.records(size);
        let file = |keys| takes::with_keys(&[(section, records)], keys, naming);
        let cells = Keys::ALL.map(|keys| format!("{:.3}", refusal(file(keys))));
        let names = if section.has_names() { naming.name() } else { "-" };
        row([format!("{records} {}", section.name()), names.into()].into_iter().chain(cells));
    }
}
