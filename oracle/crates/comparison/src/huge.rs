//! Counts at and above 4,294,967,295. Memory that is mapped and not written costs nothing, and the calls refuse before they
//! look at the records: so the columns and files here can be as long as they say. And a file on memory that cannot be read.

use crate::check::{check_in_both, same, Checked};
use crate::lent::Output;
use crate::library;
use crate::manner::{met_in_join, Expected, MANNERS};
use crate::parts::check_built;
use crate::tally::Tally;
use oracle::files::{Pieces, SIZES};
use oracle::original::{self, FIRST_ABOVE_LAST};
use oracle::parts::{Columns, Parts};
use oracle::spans;
use std::ffi::c_void;

const MOST: usize = u32::MAX as usize;
const SELF_SHADOWS: usize = 4;

extern "C" {
    fn mmap(address: *mut c_void, len: usize, protection: i32, flags: i32, file: i32, offset: i64) -> *mut c_void;
}

/// This many zero bytes, of which only those take memory that are written.
fn zeros(len: usize) -> Option<&'static mut [u8]> {
    const READ_AND_WRITE: i32 = 1 | 2;
    mapped(len, READ_AND_WRITE)
}

fn mapped(len: usize, protection: i32) -> Option<&'static mut [u8]> {
    const PRIVATE_ANONYMOUS_NORESERVE: i32 = 0x2 | 0x20 | 0x4000;
    let mapped = unsafe { mmap(std::ptr::null_mut(), len, protection, PRIVATE_ANONYMOUS_NORESERVE, -1, 0) };
    (mapped as isize != -1).then(|| unsafe { std::slice::from_raw_parts_mut(mapped.cast(), len) })
}

pub fn run() -> Tally {
    let mut tally = Tally::new("Counts at and above 4,294,967,295, and a file that cannot be read", &[]);
    match zeros(64 * (MOST + 1)) {
        Some(zeros) => columns(&mut tally, zeros),
        None => println!("columns of so many records: not run, the memory could not be mapped"),
    }
    let half = SIZES[SELF_SHADOWS] * (MOST / 2 + 1) + 75;
    match (zeros(half), zeros(half)) {
        (Some(first), Some(second)) => files(&mut tally, first, second),
        _ => println!("files of so many records: not run, the memory could not be mapped"),
    }
    unread(&mut tally);
    tally
}

// ---- columns, against the original

fn columns(tally: &mut Tally, zeros: &[u8]) {
    let mut output = Output::default();
    for (bones, morphs) in [(MOST + 1, 0), (0, MOST + 1), (MOST + 1, MOST + 1), (MOST, 0), (0, MOST), (MOST, MOST + 1)] {
        for frames_missing in [0, 1] {
            let columns = columns_of(zeros, bones, morphs, frames_missing);
            let expected = original::build_columns(&Parts::default(), columns).map(|take| original::export(&take));
            let checked = check_built(&Parts::default(), columns, &expected, &mut output);
            let answer = expected.err().unwrap_or(0);
            tally.count("columns, no names", checked.map(|()| answer), || format!("{bones} bones, {morphs} morphs"));
        }
    }
}

fn columns_of(zeros: &[u8], bones: usize, morphs: usize, frames_missing: usize) -> Columns<'_> {
    let numbers = |len: usize| unsafe { std::slice::from_raw_parts(zeros[..4 * len].as_ptr().cast::<u32>(), len) };
    let floats = |len: usize| unsafe { std::slice::from_raw_parts(zeros[..4 * len].as_ptr().cast::<f32>(), len) };
    Columns {
        bone_name_indices: numbers(bones),
        bone_frames: numbers(bones.saturating_sub(frames_missing)),
        bone_translations_xyz: floats(3 * bones),
        bone_rotations_xyzw: floats(4 * bones),
        bone_interpolations: &zeros[..64 * bones],
        morph_name_indices: numbers(morphs),
        morph_frames: numbers(morphs.saturating_sub(frames_missing)),
        morph_weights: floats(morphs),
    }
}

// ---- files, against document 01: the original would need a record in memory for each

/// A file of so many self-shadows and so many bytes more, all zero; four more are a property count.
fn shadows(zeros: &mut [u8], count: u32, more: usize) -> &[u8] {
    let mut pieces = Pieces::empty();
    pieces.sections[SELF_SHADOWS].count = count;
    let head = pieces.first_sections(SELF_SHADOWS + 1);
    zeros[..head.len()].copy_from_slice(&head);
    &zeros[..head.len() + SIZES[SELF_SHADOWS] * count as usize + more]
}

fn files(tally: &mut Tally, first: &mut [u8], second: &mut [u8]) {
    let half = (MOST / 2 + 1) as u32;
    for more in [0, 5] {
        let first = shadows(first, half, more);
        let too_many = Expected { lenient: Err::<Vec<u8>, u32>(11), strict: met_in_join(first, first) };
        let checked = check_in_both(
            "join",
            &too_many,
            &mut Output::default(),
            |manner, size| library::join_size(manner, first, first, size),
            |manner, out, written| library::join_animations(manner, first, first, out, written),
        );
        let shown = || format!("{half} self-shadows twice, each time with {more} bytes after them");
        tally.count("joins of two halves", checked.map(|()| too_many.answers()), shown);
    }
    let checked = check_fitting(shadows(first, half, 0), shadows(second, half - 1, 0));
    tally.count("joins of two halves", checked.map(|()| 0u32), || format!("{half} self-shadows and one fewer"));
}

fn check_fitting(first: &[u8], second: &[u8]) -> Checked {
    for manner in MANNERS {
        let mut size = 0;
        same("join size: answer", library::join_size(manner, first, second, &mut size), 0)?;
        same("join size", size, 74 + (SIZES[SELF_SHADOWS] * MOST) as u64)?;
    }
    Ok(())
}

// ---- excerpts, of a file that cannot be read

/// 18 is tested before the file is read: to read a byte of this one would stop the program.
fn unread(tally: &mut Tally) {
    const NO_ACCESS: i32 = 0;
    let file = &*mapped(1 << 20, NO_ACCESS).expect("memory for a file that cannot be read");
    let mut output = Output::default();
    for span in spans::spans_of_edges().filter(|span| span.first_is_above()) {
        let refused = Expected { lenient: Err::<Vec<u8>, u32>(FIRST_ABOVE_LAST), strict: FIRST_ABOVE_LAST };
        let checked = check_in_both(
            "excerpt",
            &refused,
            &mut output,
            |manner, size| library::excerpt_size(manner, file, span, size),
            |manner, out, written| library::excerpt_animation(manner, file, span, out, written),
        );
        tally.count("excerpts of a file that cannot be read", checked.map(|()| refused.answers()), || format!("{span:?}"));
    }
}
