//! CPU time, on buffers that are in the caches and on buffers that are not.
use std::fs;
use std::hint::black_box;

/// The process's CPU time.
fn cpu_seconds() -> f64 {
    #[repr(C)]
    struct Timespec {
        seconds: i64,
        nanoseconds: i64,
    }
    unsafe extern "C" {
        fn clock_gettime(clock: i32, time: *mut Timespec) -> i32;
    }
    const PROCESS_CPU_TIME: i32 = 2;
    let mut time = Timespec { seconds: 0, nanoseconds: 0 };
    // SAFETY: the clock is one that Linux has, and the slot is what it writes.
    assert_eq!(unsafe { clock_gettime(PROCESS_CPU_TIME, &mut time) }, 0);
    time.seconds as f64 + time.nanoseconds as f64 * 1e-9
}

/// Seconds for one of so many runs.
pub fn seconds(batch: u32, mut run: impl FnMut()) -> f64 {
    let begun = cpu_seconds();
    (0..batch).for_each(|_| run());
    (cpu_seconds() - begun) / f64::from(batch)
}

/// The same after so many runs on the same buffers.
pub fn after(runs: u32, batch: u32, mut run: impl FnMut()) -> f64 {
    (0..runs).for_each(|_| run());
    seconds(batch, run)
}

/// Memory of its own, twice as much as the last cache holds.
pub struct Other(Vec<u8>);

impl Other {
    pub fn new() -> Other {
        let shown = fs::read_to_string("/sys/devices/system/cpu/cpu0/cache/index3/size").unwrap_or_default();
        let cache = shown.trim().strip_suffix('K').and_then(|kib| kib.parse::<usize>().ok()).unwrap_or(1 << 18) << 10;
        Other(vec![1; 2 * cache]) // ones: the system would lend one page of zeros for all
    }

    /// Seconds for a run on buffers not touched since all of the other memory was read, and for each of so many on buffers
    /// that some runs have touched since. A single run leaves little of a large take in the caches.
    pub fn cold_and_warm(&self, batch: u32, mut run: impl FnMut()) -> [f64; 2] {
        black_box(self.0.iter().step_by(64).fold(0, |sum: u8, byte| sum.wrapping_add(*byte)));
        [seconds(1, &mut run), after(6, batch, run)]
    }
}

/// The value that as many are below as above.
pub fn median(values: Vec<f64>) -> f64 {
    quarter(values, 2)
}

/// The value that so many quarters of the values are below.
pub fn quarter(mut values: Vec<f64>, quarters: usize) -> f64 {
    values.sort_by(f64::total_cmp);
    values[(values.len() - 1) * quarters / 4]
}
