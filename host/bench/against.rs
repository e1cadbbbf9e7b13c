//! Two builds of the library in one process, measured in turn on the same buffers.
use std::ffi::{CStr, CString, c_char, c_int, c_void};
use std::mem;

use crate::calls::Call;
use crate::excerpt::{self, Task};
use crate::measure::{after, median, quarter};
use crate::takes::{self, Kind, Material, Names};
use crate::{head, row, shown};

const ROUNDS: usize = 51;

type Run = fn(Call, &Material, &mut [u8]);
type RunExcerpt = fn(&[u8], [u32; 2], &mut [u8]);

unsafe extern "C" {
    fn dlopen(path: *const c_char, flags: c_int) -> *mut c_void;
    fn dlsym(object: *mut c_void, name: *const c_char) -> *mut c_void;
    fn dlerror() -> *const c_char;
}

/// A function of a shared object that is made of shared.rs; null where it has none of that name.
fn found(path: &str, name: &CStr) -> *mut c_void {
    const NOW: c_int = 2; // and its names for itself alone, which is how it is without RTLD_GLOBAL
    let path = CString::new(path).unwrap();
    // SAFETY: strings of C.
    unsafe {
        let object = dlopen(path.as_ptr(), NOW);
        assert!(!object.is_null(), "{}", CStr::from_ptr(dlerror()).to_string_lossy());
        dlsym(object, name.as_ptr())
    }
}

/// The calls that every build has.
fn load(path: &str) -> Run {
    let run = found(path, c"run_call");
    assert!(!run.is_null(), "{path} has no calls");
    // SAFETY: what the symbol names is `shared::run_call`, of this type.
    unsafe { mem::transmute::<*mut c_void, Run>(run) }
}

/// The call for an excerpt, where the build has it.
fn load_excerpt(path: &str) -> Option<RunExcerpt> {
    let run = found(path, c"run_excerpt");
    // SAFETY: what the symbol names is `shared::run_excerpt`, of this type.
    (!run.is_null()).then(|| unsafe { mem::transmute::<*mut c_void, RunExcerpt>(run) })
}

/// Seconds of a call by the new build and by the old one, round by round.
fn times(call: Call, material: &Material, out: &mut [u8], builds: [Run; 2], batch: u32) -> Vec<[f64; 2]> {
    in_turn(builds, |run| {
        if call == Call::Fetches {
            run(Call::Open, material, out); // for the scratch, which is each build's own
        }
        after(1, batch, || run(call, material, out))
    })
}

/// What is measured of the new build and of the old one, each before the other in every other round.
fn in_turn<R: Copy>([new, old]: [R; 2], mut time: impl FnMut(R) -> f64) -> Vec<[f64; 2]> {
    let round = |round| {
        if round % 2 == 0 {
            let new = time(new);
            [new, time(old)]
        } else {
            let old = time(old);
            [time(new), old]
        }
    };
    (0..ROUNDS).map(round).collect()
}

/// The new build's time as a multiple of the old one's in the same round: the median, and a cell with between which values
/// half of the rounds lie.
fn compared(times: &[[f64; 2]]) -> (f64, String) {
    let ratios: Vec<_> = times.iter().map(|[new, old]| new / old).collect();
    let half = format!("{:.3} to {:.3}", quarter(ratios.clone(), 1), quarter(ratios.clone(), 3));
    (median(ratios), half)
}

/// Whether the time by the new build is at most 1.05 times the other's.
fn met(ratio: f64) -> String {
    if ratio <= 1.05 { "met".into() } else { "MISSED".into() }
}

pub fn table(calls: &[Call], size: usize, batch: u32, builds: [&str; 2]) {
    println!("\n## Against another build\n");
    println!(
        "Takes of {}, buffers just touched, names of 4 to 10 letters; building again with names of pairs. The time by this build as a multiple of the other's in the \
         same round: the median of {ROUNDS} rounds, and between which values half of them lie.",
        shown(size)
    );
    head(["take", "names", "call", "this / other", "half of the rounds", "at most 1.05"]);
    let builds = builds.map(load);
    for kind in Kind::ALL {
        for names in [Names::Padded, Names::Pairs] {
            let material = Material::new(kind, names, size);
            let mut out = material.output();
            for &call in calls.iter().filter(|&&call| names == Names::Padded || call == Call::Build) {
                let (ratio, half) = compared(&times(call, &material, &mut out, builds, batch));
                let cells = [kind.name().into(), names.name().into(), call.name().into(), format!("{ratio:.3}"), half];
                row(cells.into_iter().chain([met(ratio)]));
            }
        }
    }
}

/// By number, as earlier builds have it too, which keep a place for each frame.
pub fn fetches(size: usize, builds: [&str; 2]) {
    println!("\n## Property frames by number, against another build\n");
    println!(
        "All property frames of takes of {}, fetched in the file's order by numbers, without the opening; buffers just \
         touched, medians of {ROUNDS} rounds.",
        shown(size)
    );
    head(["take", "this, ns per frame", "other, ns per frame", "this / other", "half of the rounds"]);
    let builds = builds.map(load);
    for kind in [Kind::Properties, Kind::IkStates] {
        let material = Material::new(kind, Names::Padded, size);
        let times = times(Call::Fetches, &material, &mut material.output(), builds, 1);
        let frames = material.columns.property_count as f64;
        let [new, old] = [0, 1].map(|build| {
            let seconds = median(times.iter().map(|times| times[build]).collect());
            format!("{:.1}", 1e9 * seconds / frames)
        });
        let (ratio, half) = compared(&times);
        row([kind.name().into(), new, old, format!("{ratio:.2}"), half]);
    }
}

/// Where both builds have them.
pub fn excerpts(size: usize, batch: u32, builds: [&str; 2]) {
    println!("\n## Excerpts, against another build\n");
    let [Some(new), Some(old)] = builds.map(load_excerpt) else {
        return println!("Not measured: a build has no such call.");
    };
    println!("Takes of {} and excerpts as in the table of excerpts, buffers just touched, {ROUNDS} rounds.", shown(size));
    head(["take", "excerpt", "this / other", "half of the rounds", "at most 1.05"]);
    for kind in Kind::ALL {
        let mut case = excerpt::Case::new(takes::kind_to_cut(kind, size));
        for task in Task::COMPARED {
            let (file, frames, out) = case.lent(task);
            let (ratio, half) = compared(&in_turn([new, old], |run| after(1, batch, || run(file, frames, out))));
            row([kind.name().into(), task.name().into(), format!("{ratio:.3}"), half, met(ratio)]);
        }
    }
}
