//! How long reading, saving, joining, tidying, cutting, building, splitting and the figures of a season take, as multiples of a
//! plain copy of the same bytes, in one process. The original Rust is measured beside where it is built in (feature
//! `original`). Prints the tables of docs/PERFORMANCE.md.
//!
//! Times are the process's CPU time. A call and its copy are measured one after the other, each in the same state of the
//! caches: other memory is read, twice as much as the last cache holds, and then it runs several times. The first run is
//! cold, on buffers not touched since; the last is warm, on buffers just touched. In each round everything is measured once;
//! a figure is the median over the rounds of the call's time by the copy's.
use std::fs;
use std::hint::black_box;
use std::process::Command;

use calls::Call;
use measure::{Other, after, median, seconds};
use takes::{Kind, Material, Names};
use vmd::Take;

mod against;
mod calls;
mod excerpt;
mod measure;
mod older;
#[cfg(feature = "original")]
mod original;
mod plain;
mod properties;
mod split;
mod tables;
mod takes;
mod tidy;

/// What is measured of the original.
#[derive(Clone, Copy)]
enum Original {
    Parse,
    Export,
    Build,
}

impl Original {
    const ALL: [Original; 3] = [Original::Parse, Original::Export, Original::Build];
    /// Those that are built in.
    const BUILT: &[Original] = if cfg!(feature = "original") { &Original::ALL } else { &[] };

    fn name(self) -> &'static str {
        match self {
            Original::Parse => "Rust: parse",
            Original::Export => "Rust: parse, export",
            Original::Build => "Rust: build, export",
        }
    }
}

/// A take in each of the forms that a call needs, and an output.
struct Case {
    material: Material,
    out: Vec<u8>,
    #[cfg(feature = "original")]
    original: original::Material,
}

impl Case {
    fn new(kind: Kind, names: Names, size: usize) -> Case {
        let material = Material::new(kind, names, size);
        Case {
            out: material.output(),
            #[cfg(feature = "original")]
            original: original::Material::new(&material),
            material,
        }
    }

    fn run(&mut self, call: Call) {
        call.run(&self.material, &mut self.out);
    }

    fn copy(&mut self, call: Call) {
        call.copy(&self.material, &mut self.out);
    }

    fn run_original(&self, call: Original) {
        #[cfg(feature = "original")]
        match call {
            Original::Parse => drop(black_box(original::parse(&self.material.file))),
            Original::Export => drop(black_box(original::export(&self.material.file))),
            Original::Build => drop(black_box(self.original.build(&self.material))),
        }
        #[cfg(not(feature = "original"))]
        unreachable!("{} is not built in", call.name());
    }

    /// Every call in every round, and the original in the first rounds.
    fn times(&mut self, effort: Effort, other: &Other) -> Times {
        let mut times = Times::default();
        for round in 0..effort.rounds {
            for call in Call::ALL {
                let copy = other.cold_and_warm(effort.batch, || self.copy(call));
                let time = other.cold_and_warm(effort.batch, || self.run(call));
                times.cold[call as usize].push(time[0], copy[0]);
                times.warm[call as usize].push(time[1], copy[1]);
            }
            for &call in Original::BUILT.iter().filter(|_| round < effort.original_rounds) {
                let time = after(1, effort.batch.div_ceil(8), || self.run_original(call));
                times.original[call as usize].push(time, times.warm[Call::Open as usize].copy[round as usize]);
            }
        }
        times
    }
}

#[derive(Clone, Copy)]
struct Effort {
    rounds: u32,
    original_rounds: u32,
    batch: u32,
}

fn effort(size: usize) -> Effort {
    match size {
        0..=65_535 => Effort { rounds: 9, original_rounds: 9, batch: 2000 },
        65_536..=4_194_304 => Effort { rounds: 9, original_rounds: 9, batch: 8 },
        4_194_305..=67_108_864 => Effort { rounds: 25, original_rounds: 5, batch: 1 },
        _ => Effort { rounds: 5, original_rounds: 3, batch: 1 },
    }
}

/// Seconds of a call and of its copy, round by round.
#[derive(Default)]
struct Rounds {
    call: Vec<f64>,
    copy: Vec<f64>,
}

impl Rounds {
    fn push(&mut self, call: f64, copy: f64) {
        self.call.push(call);
        self.copy.push(copy);
    }

    /// The call by its copy.
    fn ratio(&self) -> Option<f64> {
        ratio(&self.call, &self.copy)
    }

    /// The best speed of the copy of so many bytes.
    fn copy_speed(&self, bytes: usize) -> String {
        let best = self.copy.iter().copied().reduce(f64::min).unwrap();
        format!("{:.1}", bytes as f64 / best / 1e9)
    }
}

/// Tasks on a take, each measured beside a copy of what it reads.
trait Tasks<T: Copy> {
    fn run(&mut self, task: T);
    fn copy(&mut self, task: T);

    /// Warm and cold, task by task.
    fn times<const N: usize>(&mut self, tasks: [T; N], effort: Effort, other: &Other) -> [[Rounds; 2]; N] {
        let mut times = tasks.map(|_| <[Rounds; 2]>::default());
        for _ in 0..effort.rounds {
            for (task, [warm_rounds, cold_rounds]) in tasks.into_iter().zip(&mut times) {
                let [cold_copy, warm_copy] = other.cold_and_warm(effort.batch, || self.copy(task));
                let [cold, warm] = other.cold_and_warm(effort.batch, || self.run(task));
                warm_rounds.push(warm, warm_copy);
                cold_rounds.push(cold, cold_copy);
            }
        }
        times
    }
}

/// One time by another of the same round: the median, where there are rounds that have both.
fn ratio(times: &[f64], others: &[f64]) -> Option<f64> {
    let ratios: Vec<_> = times.iter().zip(others).map(|(time, other)| time / other).collect();
    (!ratios.is_empty()).then(|| median(ratios))
}

/// By the calls' numbers.
#[derive(Default)]
struct Times {
    warm: [Rounds; 4],
    cold: [Rounds; 4],
    original: [Rounds; 3],
}

// ---- the tables

const KIB: usize = 1 << 10;
const MIB: usize = 1 << 20;

fn row(cells: impl IntoIterator<Item = String>) {
    println!("| {} |", cells.into_iter().collect::<Vec<_>>().join(" | "));
}

fn head<'n>(cells: impl IntoIterator<Item = &'n str>) {
    let cells: Vec<_> = cells.into_iter().collect();
    println!("\n| {} |\n|{}", cells.join(" | "), "---|".repeat(cells.len()));
}

fn shown(size: usize) -> String {
    if size < MIB { format!("{} KiB", size / KIB) } else { format!("{} MiB", size / MIB) }
}

fn cell(ratio: Option<f64>) -> String {
    ratio.map_or("-".into(), |ratio| format!("{ratio:.2}"))
}

type Measured = Vec<(Kind, Names, Times)>;

/// The largest takes of a show, with every kind of names.
fn full_size(size: usize, other: &Other) -> Measured {
    println!("\n## Takes of {}\n", shown(size));
    println!(
        "Medians of {} rounds, as multiples of a copy of the same bytes in the same state of the caches.",
        effort(size).rounds
    );
    let calls = Call::ALL.map(|call| ["warm", "cold"].map(|state| format!("{}, {state}", call.name())));
    head(["take", "names"].into_iter().chain(calls.as_flattened().iter().map(String::as_str)));
    let mut all = Vec::new();
    for kind in Kind::USUAL {
        for names in Names::ALL {
            let times = Case::new(kind, names, size).times(effort(size), other);
            let cells = Call::ALL.map(|call| [&times.warm, &times.cold].map(|state| cell(state[call as usize].ratio())));
            row([kind.name().into(), names.name().into()].into_iter().chain(cells.as_flattened().iter().cloned()));
            all.push((kind, names, times));
        }
    }
    all
}

fn originals(size: usize, all: &Measured) {
    println!("\n## The original Rust\n");
    println!(
        "Medians of {} rounds, each after one run, as multiples of a warm copy of the file.",
        effort(size).original_rounds
    );
    head(["take", "names"].into_iter().chain(Original::ALL.map(Original::name)));
    for (kind, names, times) in all {
        let cells = times.original.iter().map(|rounds| cell(rounds.ratio()));
        row([kind.name().into(), names.name().into()].into_iter().chain(cells));
    }
}

/// The targets at full size, each against the worst of the kinds of names.
fn targets(all: &Measured) {
    println!("\n## Targets\n\nWarm, each against the median with the kind of names that it is worst with.");
    head(["what", "target", "measured", ""]);
    let of = |kind: Kind| all.iter().filter(move |(of, ..)| *of == kind).map(|(.., times)| times);
    let at_most = |what: &str, call: Call, most: [f64; 2]| {
        for (kind, most) in [Kind::Bones, Kind::Mixed].into_iter().zip(most) {
            let measured = of(kind).filter_map(|times| times.warm[call as usize].ratio()).reduce(f64::max).unwrap();
            let met = if measured <= most { "met" } else { "MISSED" };
            row([format!("{what}, {}", kind.name()), format!("at most {most:.2}"), format!("{measured:.2}"), met.into()]);
        }
    };
    let at_least = |what: &str, slow: Original, fast: Call, factor: f64| {
        for kind in [Kind::Bones, Kind::Mixed] {
            let faster = |times: &Times| ratio(&times.original[slow as usize].call, &times.warm[fast as usize].call);
            let measured = of(kind).filter_map(faster).reduce(f64::min);
            let met = measured.map_or("not measured", |measured| if measured >= factor { "met" } else { "MISSED" });
            row([
                format!("{what}, {}", kind.name()),
                format!("at least {factor} times as fast"),
                cell(measured),
                met.into(),
            ]);
        }
    };
    at_most("opening", Call::Open, [0.40, 0.50]);
    at_most("export", Call::Export, [1.05, 1.15]);
    at_most("join", Call::Join, [1.10, 1.25]);
    at_most("build", Call::Build, [1.4, 1.8]);
    at_least("export against the Rust's parse and export", Original::Export, Call::Export, 8.0);
    at_least("build against the Rust's build and export", Original::Build, Call::Build, 1.0);
}

/// How times grow with the take, and that a fetch's does not.
fn growth(sizes: &[usize], other: &Other) {
    println!("\n## Growth\n\nWarm, names padded with zeros. A fetch gives a record with its name and interpolation bytes.");
    let calls = Call::ALL.map(Call::name);
    let fetches = ["first fetch, ns", "last fetch, ns"];
    head(["take", "size", "copy, GB/s"].into_iter().chain(calls).chain(fetches));
    for kind in Kind::USUAL {
        for &size in sizes {
            let mut case = Case::new(kind, Names::Padded, size);
            let times = case.times(Effort { rounds: effort(size).rounds.min(9), original_rounds: 0, ..effort(size) }, other);
            let take = Take::open(&case.material.file).unwrap();
            let speed = times.warm[Call::Open as usize].copy_speed(case.material.file.len());
            let last = take.bones().max(take.morphs()) - 1;
            let cells = times.warm.iter().map(|rounds| cell(rounds.ratio()));
            let fetches = [0, last].map(|i| format!("{:.1}", fetch(&take, i) * 1e9));
            row([kind.name().into(), shown(size), speed].into_iter().chain(cells).chain(fetches));
        }
    }
}

/// Seconds to fetch a record of the longer section by its number: the median of some rounds.
fn fetch(take: &Take, i: usize) -> f64 {
    let run = || match take.bones() > take.morphs() {
        true => drop(black_box(take.bone(black_box(i)).unwrap())),
        false => drop(black_box(take.morph(black_box(i)).unwrap())),
    };
    median((0..9).map(|_| seconds(100_000, run)).collect())
}

// ---- memory

fn peak_kib() -> Option<u64> {
    let status = fs::read_to_string("/proc/self/status").ok()?;
    status.lines().find_map(|line| line.strip_prefix("VmHWM:"))?.trim().trim_end_matches(" kB").parse().ok()
}

/// By how much the peak rises, in KiB.
fn risen(run: impl FnOnce()) -> Option<u64> {
    peak_kib()?; // reading it takes memory too, the first time
    fs::write("/proc/self/clear_refs", "5").ok()?; // the peak falls to what is held now
    let before = peak_kib()?;
    run();
    Some(peak_kib()? - before)
}

/// The memory that each call needs beyond what it is lent, each in a process of its own.
fn memory(size: usize) {
    println!(
        "\n## Memory\n\nBy how much the process's peak (VmHWM) rises over the lent buffers, in KiB; takes of {}.",
        shown(size)
    );
    let calls = Call::ALL.len() + Original::BUILT.len();
    head(["take"].into_iter().chain(Call::ALL.map(Call::name)).chain(Original::BUILT.iter().map(|call| call.name())));
    for (kind, of) in Kind::USUAL.iter().enumerate() {
        let cells = (0..calls).map(|call| {
            let words = [kind, size, call].map(|word| word.to_string());
            let done = Command::new(std::env::current_exe().unwrap()).arg("--memory").args(words).output().unwrap();
            String::from_utf8(done.stdout).unwrap().trim().to_owned()
        });
        row([of.name().into()].into_iter().chain(cells));
    }
}

/// One figure of that table: the kind, the size and the call by their numbers, the original's after the library's.
fn memory_of(words: &[String]) {
    let [kind, size, call] = [0, 1, 2].map(|k| words[k].parse::<usize>().unwrap());
    let mut case = Case::new(Kind::USUAL[kind], Names::Padded, size);
    case.copy(Call::Open);
    let kib = match Call::ALL.get(call) {
        Some(&call) => risen(|| case.run(call)),
        None => risen(|| case.run_original(Original::ALL[call - Call::ALL.len()])),
    };
    println!("{}", kib.map_or("-".into(), |kib| kib.to_string()));
}

fn machine() -> String {
    let info = fs::read_to_string("/proc/cpuinfo").unwrap_or_default();
    let field = |name: &str| info.lines().find(|line| line.starts_with(name)).and_then(|line| line.split_once(": "));
    let model = field("model name").map_or("a machine without a name", |(_, model)| model);
    let load = fs::read_to_string("/proc/loadavg").unwrap_or_default();
    format!("{model}, at a load of {}", load.split(' ').next().unwrap_or("-"))
}

fn main() {
    let words: Vec<_> = std::env::args().skip(1).collect();
    let (quick, words) = match words.split_first() {
        Some((word, rest)) if word == "--quick" => (true, rest),
        _ => (false, &words[..]),
    };
    let (full, sizes) = if quick { (MIB, vec![KIB, MIB]) } else { (32 * MIB, vec![KIB, MIB, 32 * MIB, 256 * MIB]) };
    let split_sizes = if quick { &[MIB][..] } else { &[MIB, 4 * MIB, 16 * MIB, 32 * MIB] };
    let table_names = if quick { 50_000 } else { 1_000_000 };
    match words {
        [] => {}
        [option, rest @ ..] if option == "--memory" => return memory_of(rest),
        [option, new, old] if option == "--against" || option == "--opening" => {
            println!("Measured by `./bench` on {}.", machine());
            let calls = if option == "--opening" { &[Call::Open][..] } else { &Call::ALL };
            against::table(calls, full, effort(full).batch, [new, old]);
            if option == "--against" {
                against::fetches(full, [new, old]);
                against::excerpts(full, effort(full).batch, [new, old]);
            }
            return;
        }
        [option] if option == "--split" => {
            println!("Measured by `./bench` on {}.", machine());
            return split::table(split_sizes, &Other::new());
        }
        [option] if option == "--season" => {
            println!("Measured by `./bench` on {}.", machine());
            return split::season(full, &Other::new());
        }
        [option] if option == "--tidy" => {
            println!("Measured by `./bench` on {}.", machine());
            return tidy::table(full);
        }
        [option] if option == "--tidy-refused" => {
            println!("Measured by `./bench` on {}.", machine());
            return tidy::refused(full);
        }
        [option] if option == "--excerpt" => {
            println!("Measured by `./bench` on {}.", machine());
            return excerpt::table(full, &Other::new());
        }
        [option] if option == "--older" => {
            println!("Measured by `./bench` on {}.", machine());
            return older::table(full, &Other::new());
        }
        [option] if option == "--properties" => {
            println!("Measured by `./bench` on {}.", machine());
            return properties::table(full, &Other::new());
        }
        [option] if option == "--names" => {
            println!("Measured by `./bench` on {}.", machine());
            return split::all_different(if quick { [30_000, 140_000] } else { [300_000, 1_400_000] });
        }
        [option] if option == "--tables" => {
            println!("Measured by `./bench` on {}.", machine());
            return tables::table(table_names, full);
        }
        _ => {
            eprintln!(
                "bench: the options are --quick, which measures small takes, --older, --properties, --split, --season, --tidy, \
                 --tidy-refused, --excerpt, --tables, --names, --against LIBRARY and --opening LIBRARY"
            );
            std::process::exit(2);
        }
    }
    println!("Measured by `./bench` on {}.", machine());
    if !cfg!(feature = "original") {
        println!("\nThe original Rust is not built here, so it is not measured: `oracle/build.sh samples` lays it out.");
    }
    let other = Other::new();
    let all = full_size(full, &other);
    if !quick {
        targets(&all);
    }
    if !Original::BUILT.is_empty() {
        originals(full, &all);
    }
    older::table(full, &other);
    growth(&sizes, &other);
    properties::table(full, &other);
    split::table(split_sizes, &other);
    split::season(full, &other);
    tidy::table(full);
    excerpt::table(full, &other);
    tables::table(table_names, full);
    memory(full);
}
