//! Which cases the replaying program gets: every outcome of every call, in small inputs.

use crate::base;
use crate::cases::{Case, Room, BUILD, CONVERT, EXPORT, JOIN, OPEN, ROOMS};
use oracle::files::{self, file_of, FileKind, FILE_KINDS};
use oracle::older::{self, narrowed};
use oracle::part_sets::{self, Fault, FAULTS, NOT_WHOLE, PLACES};
use oracle::parts::Parts;
use oracle::random::Random;
use std::collections::BTreeMap;
use std::path::Path;

const SEED: u64 = 20_261_115;

/// Faults that refusal 5 does not hide.
const SEEN: &[Fault] = FAULTS.split_at(NOT_WHOLE).1;

/// The program lends buffers of a fixed size.
const LONGEST_INPUT: usize = 4096;

pub fn write(path: &Path) {
    let mut cases = Vec::new();
    add_fixed_files(&mut cases);
    add_random_files(&mut cases);
    add_joins(&mut cases);
    add_builds(&mut cases);
    add_older_files(&mut cases);
    add_older_joins(&mut cases);
    add_pairs(&mut cases);
    let mut bytes = Vec::new();
    let mut outcomes: BTreeMap<(u32, u32), usize> = BTreeMap::new();
    for case in &cases {
        assert!(case.input_len() <= LONGEST_INPUT);
        case.put(&mut bytes);
        *outcomes.entry((case.kind, case.answer)).or_default() += 1;
    }
    std::fs::write(path, &bytes).expect("the data file is written");
    println!("{}: {} cases, {} bytes", path.display(), cases.len(), bytes.len());
    for ((kind, answer), count) in outcomes {
        println!("  {:<7}{answer:>3}: {count}", label(kind));
    }
}

fn label(kind: u32) -> &'static str {
    match kind {
        OPEN => "open",
        EXPORT => "export",
        JOIN => "join",
        BUILD => "build",
        CONVERT => "convert",
        _ => unreachable!(),
    }
}

fn room(i: usize) -> Room {
    ROOMS[i % ROOMS.len()]
}

fn add_fixed_files(cases: &mut Vec<Case>) {
    let mut random = Random::for_case(SEED, 0);
    for file in files::takes_of_document_01() {
        cases.push(Case::open(file.clone()));
        cases.extend(ROOMS.map(|room| Case::export(file.clone(), room)));
    }
    let whole = files::full_pieces(1, &mut random).file();
    cases.extend(files::prefixes(&whole).map(Case::open));
    for at in 0..whole.len() {
        let mut changed = whole.clone();
        changed[at] ^= 1 + random.below(255) as u8;
        cases.push(Case::export(changed, if at % 8 == 0 { room(at / 8) } else { Room::Exact }));
    }
    for (i, file) in files::large_counts().into_iter().enumerate() {
        cases.push(if i % 2 == 0 { Case::open(file) } else { Case::export(file, room(i / 2)) });
    }
}

/// Small files of every kind, opened and exported.
fn add_random_files(cases: &mut Vec<Case>) {
    for (k, kind) in FILE_KINDS.into_iter().enumerate().filter(|(_, kind)| *kind != FileKind::Large) {
        let (most, longest) = if kind == FileKind::ManyProperties { (6, 1200) } else { (22, 420) };
        let drawn = (0u64..).map(|i| file_of(kind, &mut Random::for_case(SEED, ((k as u64 + 1) << 32) + i)));
        for (i, file) in drawn.filter(|file| file.len() <= longest).take(2 * most).enumerate() {
            cases.push(if i % 2 == 0 { Case::open(file) } else { Case::export(file, room(i / 2)) });
        }
    }
}

fn add_joins(cases: &mut Vec<Case>) {
    let fixed = files::takes_of_document_01();
    for (i, first) in fixed.iter().enumerate() {
        for (j, second) in fixed.iter().enumerate() {
            cases.push(Case::join(first.clone(), second.clone(), room(i + j)));
        }
    }
    let mut random = Random::for_case(SEED, 1 << 40);
    for i in 0..80 {
        let (first, second) = (files::pieces(1, &mut random).file(), files::pieces(1, &mut random).file());
        cases.push(Case::join(first, second, room(i)));
    }
}

fn add_builds(cases: &mut Vec<Case>) {
    let mut random = Random::for_case(SEED, 1 << 41);
    cases.extend(ROOMS.map(|room| Case::build(&Parts::default(), room)));
    for i in 0..110 {
        cases.push(Case::build(&part_sets::sound(0, 2, &mut random), room(i)));
    }
    for fault in FAULTS {
        cases.extend((0..3).map(|_| Case::build(&faulty(&[fault], &mut random), Room::More)));
    }
    for i in 0..SEEN.len() {
        for step in [1, 3, 7, 13, 19, 24] {
            let pair = [SEEN[i], SEEN[(i + step) % SEEN.len()]];
            cases.push(Case::build(&faulty(&pair, &mut random), Room::Exact));
        }
    }
}

/// Files of the older edition; and newer ones, to be converted.
fn add_older_files(cases: &mut Vec<Case>) {
    let mut random = Random::for_case(SEED, 1 << 42);
    cases.extend(older::bare_lengths().into_iter().map(Case::open));
    for file in files::takes_of_document_01() {
        let older = narrowed(&file);
        cases.push(Case::open(older.clone()));
        cases.extend(ROOMS.map(|room| Case::export(older.clone(), room)));
        cases.extend(ROOMS.map(|room| Case::convert(older.clone(), room)));
        cases.extend(ROOMS.map(|room| Case::convert(file.clone(), room)));
    }
    let whole = narrowed(&files::full_pieces(1, &mut random).file());
    cases.extend(files::prefixes(&whole).map(Case::open));
    cases.extend(older::mixed_magics(&whole).into_iter().map(Case::open));
    let drawn = std::iter::repeat_with(|| older::older_file(&mut random).1).filter(|file| file.len() <= 420);
    for (i, file) in drawn.take(240).enumerate() {
        cases.push(match i % 3 {
            0 => Case::open(file),
            1 => Case::export(file, room(i / 3)),
            _ => Case::convert(file, room(i / 3)),
        });
    }
    for i in 0..80 {
        cases.push(Case::convert(files::pieces(1, &mut random).file(), room(i)));
    }
}

/// An older file first, second, and both times.
fn add_older_joins(cases: &mut Vec<Case>) {
    let mut random = Random::for_case(SEED, 1 << 43);
    for i in 0..90 {
        let (first, second) = (files::pieces(1, &mut random).file(), files::pieces(1, &mut random).file());
        cases.push(match i % 3 {
            0 => Case::join(narrowed(&first), second, room(i / 3)),
            1 => Case::join(first, narrowed(&second), room(i / 3)),
            _ => Case::join(narrowed(&first), narrowed(&second), room(i / 3)),
        });
    }
}

/// Names of one pair, with and without a character.
fn add_pairs(cases: &mut Vec<Case>) {
    for place in PLACES {
        cases.extend(base::PAIRS.map(|pair| Case::build(&base::named_parts(place, &pair), Room::More)));
    }
}

fn faulty(faults: &[Fault], random: &mut Random) -> Parts {
    let mut parts = part_sets::sound(1, 1, random);
    faults.iter().for_each(|&fault| part_sets::add_fault(&mut parts, fault, random));
    make_nans_plain(&mut parts);
    parts
}

/// The program makes its columns' floats from bits, and its language has one NaN.
fn make_nans_plain(parts: &mut Parts) {
    let columns = [&mut parts.bone_translations_xyz, &mut parts.bone_rotations_xyzw, &mut parts.morph_weights];
    for value in columns.into_iter().flatten().filter(|value| value.is_nan()) {
        *value = f32::from_bits(0x7fc0_0000);
    }
}
