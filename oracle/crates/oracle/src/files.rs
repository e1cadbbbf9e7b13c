//! Files to read: document 01's own takes, random takes, and damaged copies.

use crate::names;
use crate::random::Random;

pub const MAGIC: &[u8; 26] = b"Vocaloid Motion Data 0002\0";

/// Bytes of a record of each section; a property frame without its IK states.
pub const SIZES: [usize; 6] = [111, 23, 61, 28, 9, 9];
pub const IK_STATE_SIZE: usize = 21;

/// A section as a file has it: its count, and what stands after it.
#[derive(Clone, Default)]
pub struct Section {
    pub count: u32,
    pub bytes: Vec<u8>,
}

/// A file in pieces, so that counts and records can be changed apart.
#[derive(Clone)]
pub struct Pieces {
    pub header: [u8; 50],
    pub sections: [Section; 6],
}

impl Pieces {
    pub fn empty() -> Self {
        let mut header = [0; 50];
        header[..26].copy_from_slice(MAGIC);
        Pieces { header, sections: Default::default() }
    }

    /// The file with this many of its sections.
    pub fn first_sections(&self, sections: usize) -> Vec<u8> {
        let mut file = self.header.to_vec();
        for section in &self.sections[..sections] {
            file.extend_from_slice(&section.count.to_le_bytes());
            file.extend_from_slice(&section.bytes);
        }
        file
    }

    pub fn file(&self) -> Vec<u8> {
        self.first_sections(6)
    }

    /// Where each count and each section's end stands in the file.
    pub fn boundaries(&self) -> Vec<usize> {
        let mut at = 50;
        let mut boundaries = vec![26, 30, 50];
        for section in &self.sections {
            at += 4;
            boundaries.push(at);
            at += section.bytes.len();
            boundaries.push(at);
        }
        boundaries
    }
}

// ---- fields

/// Patterns that arithmetic, comparison or a copy through a float register could change or merge.
const SPECIAL_FLOATS: [u32; 20] = [
    0x0000_0000, // both zeros
    0x8000_0000,
    0x0000_0001, // denormals
    0x8000_0001,
    0x007f_ffff,
    0x0080_0000, // the smallest and the largest normal numbers
    0x7f7f_ffff,
    0xff7f_ffff,
    0x7f80_0000, // infinities
    0xff80_0000,
    0x7fc0_0000, // quiet NaNs
    0xffc0_0000,
    0x7fc0_0001,
    0x7fff_ffff,
    0xffff_ffff,
    0x7f80_0001, // signalling NaNs
    0xff80_0001,
    0x7fa0_0000,
    0x7fbf_ffff,
    0x3f80_0000,
];

pub fn float(random: &mut Random) -> u32 {
    match random.below(4) {
        0 => random.pick(&SPECIAL_FLOATS),
        1 => random.next_u32(),
        2 => 0x7f80_0000 | random.next_u32(), // a NaN or an infinity
        _ => (random.below(2001) as f32 / 16.0 - 60.0).to_bits(),
    }
}

pub fn frame(random: &mut Random) -> u32 {
    match random.below(8) {
        0 => random.next_u32(),
        1 => random.pick(&[0, 1, 0x7fff_ffff, 0x8000_0000, 0xffff_fffe, 0xffff_ffff]),
        _ => random.below(4000) as u32,
    }
}

fn flag(random: &mut Random) -> u8 {
    random.pick(&[0, 0, 1, 1, 2, 128, 255])
}

fn put_u32(out: &mut Vec<u8>, value: u32) {
    out.extend_from_slice(&value.to_le_bytes());
}

fn put_floats(out: &mut Vec<u8>, count: usize, random: &mut Random) {
    for _ in 0..count {
        put_u32(out, float(random));
    }
}

fn put_random(out: &mut Vec<u8>, count: usize, random: &mut Random) {
    let at = out.len();
    out.resize(at + count, 0);
    random.fill(&mut out[at..]);
}

/// A name field: empty, short, full, with or without bytes after its first zero, good Shift_JIS or not.
pub fn name_field(width: usize, random: &mut Random) -> Vec<u8> {
    let mut field = match random.below(8) {
        0 => Vec::new(),
        1 => names::good_name(width, random),
        2 => names::bad_name(width, random),
        3 => names::marked_or_without_character(width, random),
        4 => {
            let mut any = vec![0; random.below(width + 1)];
            random.fill(&mut any);
            any
        }
        _ => names::good_name(random.below(width), random),
    };
    let rest = width - field.len();
    if rest > 0 && random.one_in(2) {
        field.push(0);
        put_random(&mut field, rest - 1, random);
    }
    field.resize(width, 0);
    field
}

// ---- records

pub fn put_bone(out: &mut Vec<u8>, random: &mut Random) {
    out.extend(name_field(15, random));
    put_u32(out, frame(random));
    put_floats(out, 7, random);
    put_random(out, 64, random);
}

pub fn put_morph(out: &mut Vec<u8>, random: &mut Random) {
    out.extend(name_field(15, random));
    put_u32(out, frame(random));
    put_floats(out, 1, random);
}

pub fn put_camera(out: &mut Vec<u8>, random: &mut Random) {
    put_u32(out, frame(random));
    put_floats(out, 7, random);
    put_random(out, 24, random);
    put_u32(out, random.next_u32());
    out.push(flag(random));
}

pub fn put_light(out: &mut Vec<u8>, random: &mut Random) {
    put_u32(out, frame(random));
    put_floats(out, 6, random);
}

pub fn put_self_shadow(out: &mut Vec<u8>, random: &mut Random) {
    put_u32(out, frame(random));
    out.push(random.pick(&[0, 1, 2, 3, 128, 255]));
    put_floats(out, 1, random);
}

pub fn put_property(out: &mut Vec<u8>, ik_states: usize, random: &mut Random) {
    put_u32(out, frame(random));
    out.push(flag(random));
    put_u32(out, ik_states as u32);
    for _ in 0..ik_states {
        out.extend(name_field(20, random));
        out.push(flag(random));
    }
}

pub(crate) fn put_record(section: usize, out: &mut Vec<u8>, random: &mut Random) {
    match section {
        0 => put_bone(out, random),
        1 => put_morph(out, random),
        2 => put_camera(out, random),
        3 => put_light(out, random),
        4 => put_self_shadow(out, random),
        _ => {
            let ik_states = random.pick(&[0, 0, 1, 1, 2, 3]);
            put_property(out, ik_states, random);
        }
    }
}

/// A whole take with at most this many records in each section.
pub fn pieces(most: usize, random: &mut Random) -> Pieces {
    let mut pieces = Pieces::empty();
    if random.one_in(4) {
        random.fill(&mut pieces.header[26..30]);
    }
    pieces.header[30..].copy_from_slice(&name_field(20, random));
    for (i, section) in pieces.sections.iter_mut().enumerate() {
        section.count = random.below(most + 1) as u32;
        for _ in 0..section.count {
            put_record(i, &mut section.bytes, random);
        }
    }
    pieces
}

/// A take with this many records in every section, and as many IK states in every property frame.
pub fn full_pieces(records: u32, random: &mut Random) -> Pieces {
    let mut pieces = pieces(0, random);
    for (i, section) in pieces.sections.iter_mut().enumerate() {
        section.count = records;
        for _ in 0..records {
            match i {
                5 => put_property(&mut section.bytes, records as usize, random),
                _ => put_record(i, &mut section.bytes, random),
            }
        }
    }
    pieces
}

// ---- random files, by kind

#[derive(Clone, Copy, PartialEq, Eq, PartialOrd, Ord, Debug)]
pub enum FileKind {
    Whole,
    FewerSections,
    BytesOver,
    Cut,
    CutAtBoundary,
    BytesChanged,
    CountChanged,
    IkCountChanged,
    Spliced,
    HeaderChanged,
    Noise,
    ManyProperties,
    Large,
}

pub const FILE_KINDS: [FileKind; 13] = [
    FileKind::Whole,
    FileKind::FewerSections,
    FileKind::BytesOver,
    FileKind::Cut,
    FileKind::CutAtBoundary,
    FileKind::BytesChanged,
    FileKind::CountChanged,
    FileKind::IkCountChanged,
    FileKind::Spliced,
    FileKind::HeaderChanged,
    FileKind::Noise,
    FileKind::ManyProperties,
    FileKind::Large,
];

impl FileKind {
    pub fn label(self) -> &'static str {
        match self {
            FileKind::Whole => "whole takes",
            FileKind::FewerSections => "sections missing",
            FileKind::BytesOver => "bytes over",
            FileKind::Cut => "cut anywhere",
            FileKind::CutAtBoundary => "cut near a boundary",
            FileKind::BytesChanged => "bytes changed",
            FileKind::CountChanged => "a section count changed",
            FileKind::IkCountChanged => "an IK count changed",
            FileKind::Spliced => "two takes spliced",
            FileKind::HeaderChanged => "header bytes changed",
            FileKind::Noise => "random bytes after the magic",
            FileKind::ManyProperties => "many property frames",
            FileKind::Large => "hundreds and thousands of records",
        }
    }
}

/// A kind for the next file: large takes are rare, so that a run stays short.
pub fn file_kind(random: &mut Random) -> FileKind {
    match random.below(400) {
        0 => FileKind::Large,
        n => FILE_KINDS[n % 12],
    }
}

pub fn file_of(kind: FileKind, random: &mut Random) -> Vec<u8> {
    match kind {
        FileKind::Whole => pieces(3, random).file(),
        FileKind::FewerSections => fewer_sections(random),
        FileKind::BytesOver => bytes_over(random),
        FileKind::Cut => cut(random),
        FileKind::CutAtBoundary => cut_at_boundary(random),
        FileKind::BytesChanged => bytes_changed(random),
        FileKind::CountChanged => count_changed(random),
        FileKind::IkCountChanged => ik_count_changed(random),
        FileKind::Spliced => spliced(random),
        FileKind::HeaderChanged => header_changed(random),
        FileKind::Noise => noise(random),
        FileKind::ManyProperties => many_properties(random),
        FileKind::Large => {
            let most = if random.one_in(100) { 20_000 } else { 400 };
            pieces(most, random).file()
        }
    }
}

fn fewer_sections(random: &mut Random) -> Vec<u8> {
    let sections = random.below(6);
    let mut file = pieces(2, random).first_sections(sections);
    if random.one_in(3) {
        let rest = random.below(5);
        put_random(&mut file, rest, random);
    }
    file
}

fn bytes_over(random: &mut Random) -> Vec<u8> {
    let mut file = pieces(2, random).file();
    let over = 1 + random.below(12);
    put_random(&mut file, over, random);
    file
}

fn cut(random: &mut Random) -> Vec<u8> {
    let mut file = pieces(2, random).file();
    file.truncate(random.below(file.len()));
    file
}

fn cut_at_boundary(random: &mut Random) -> Vec<u8> {
    let pieces = pieces(2, random);
    let mut file = pieces.file();
    let boundary = random.pick(&pieces.boundaries());
    file.truncate((boundary + random.below(7)).saturating_sub(3));
    file
}

fn bytes_changed(random: &mut Random) -> Vec<u8> {
    let mut file = pieces(2, random).file();
    for _ in 0..1 + random.below(4) {
        let at = random.below(file.len());
        file[at] = random.byte();
    }
    file
}

/// A count near the right one, or far too large.
pub(crate) fn other_count(count: u32, random: &mut Random) -> u32 {
    match random.below(6) {
        0 => count.wrapping_sub(1),
        1 => count + 1,
        2 => 1 << random.below(32),
        3 => u32::MAX - random.below(3) as u32,
        4 => random.next_u32(),
        _ => random.below(20) as u32,
    }
}

fn count_changed(random: &mut Random) -> Vec<u8> {
    let mut pieces = pieces(3, random);
    let section = &mut pieces.sections[random.below(6)];
    section.count = other_count(section.count, random);
    pieces.file()
}

/// A property frame whose IK count says more or less than its IK states.
fn ik_count_changed(random: &mut Random) -> Vec<u8> {
    let mut pieces = pieces(1, random);
    let frames = 1 + random.below(3);
    let changed = random.below(frames);
    let section = &mut pieces.sections[5];
    *section = Section::default();
    for i in 0..frames {
        let (at, ik_states) = (section.bytes.len(), random.below(3));
        put_property(&mut section.bytes, ik_states, random);
        if i == changed {
            let count = other_count(ik_states as u32, random);
            section.bytes[at + 5..at + 9].copy_from_slice(&count.to_le_bytes());
        }
    }
    section.count = frames as u32;
    pieces.file()
}

fn spliced(random: &mut Random) -> Vec<u8> {
    let (mut first, second) = (pieces(2, random).file(), pieces(2, random).file());
    first.truncate(random.below(first.len() + 1));
    let from = if random.one_in(2) { first.len().min(second.len()) } else { random.below(second.len() + 1) };
    first.extend_from_slice(&second[from..]);
    first
}

fn header_changed(random: &mut Random) -> Vec<u8> {
    let mut file = pieces(1, random).file();
    let at = random.below(50);
    file[at] ^= 1 << random.below(8);
    if random.one_in(3) {
        file.truncate(random.below(56));
    }
    file
}

fn noise(random: &mut Random) -> Vec<u8> {
    let mut file = MAGIC.to_vec();
    let rest = random.below(120);
    put_random(&mut file, rest, random);
    if random.one_in(2) && file.len() >= 58 {
        file[50..58].fill(0);
    }
    file
}

fn many_properties(random: &mut Random) -> Vec<u8> {
    let (mut pieces, frames) = (pieces(1, random), 1 + random.below(40));
    put_properties(&mut pieces.sections[5], frames, 3, random);
    pieces.file()
}

/// This many frames in place of what the section has, with at most so many IK states each.
pub(crate) fn put_properties(section: &mut Section, frames: usize, most_states: usize, random: &mut Random) {
    *section = Section { count: frames as u32, bytes: Vec::new() };
    for _ in 0..frames {
        let ik_states = random.below(most_states + 1);
        put_property(&mut section.bytes, ik_states, random);
    }
}

// ---- fixed files

/// Document 01's takes to try.
pub fn takes_of_document_01() -> Vec<Vec<u8>> {
    let start = Pieces::empty().first_sections(0);
    let counts = |counts: &[u32]| {
        let mut file = start.clone();
        counts.iter().for_each(|&count| put_u32(&mut file, count));
        file
    };
    let one_camera = |perspective: u8| {
        let mut file = counts(&[0, 0, 1]);
        file.resize(file.len() + 60, 0);
        file.push(perspective);
        file
    };
    let mut one_morph = counts(&[0, 1]);
    one_morph.extend_from_slice(&[0x41, 0, 0x42]);
    one_morph.resize(58 + 23, 0);
    let mut one_bone = counts(&[1]);
    one_bone.resize(185, 0);
    vec![
        start[..29].to_vec(),
        vec![0x41; 30],
        start.clone(),
        counts(&[0]),
        [counts(&[0]), vec![7]].concat(),
        counts(&[0, 1]),
        counts(&[0, 0, 1]),
        counts(&[0, 0, 0, 0, 0, 1]),
        one_camera(0),
        one_camera(1),
        one_camera(2),
        one_morph,
        one_bone,
    ]
}

pub fn prefixes(file: &[u8]) -> impl Iterator<Item = Vec<u8>> + '_ {
    (0..=file.len()).map(|len| file[..len].to_vec())
}

/// Every file that differs from this one in one byte.
pub fn single_byte_changes(file: &[u8]) -> impl Iterator<Item = Vec<u8>> + '_ {
    (0..file.len()).flat_map(move |at| {
        (1..=255u8).map(move |by| {
            let mut changed = file.to_vec();
            changed[at] ^= by;
            changed
        })
    })
}

/// Every section's count at, just above and far above what fits, with some bytes left for its records.
pub fn large_counts() -> Vec<Vec<u8>> {
    let mut files = Vec::new();
    for section in 0..6 {
        for left in [0, 1, SIZES[section] - 1, SIZES[section], SIZES[section] + 1, 2 * SIZES[section]] {
            for count in [0, 1, 2, 3, 0x0100_0000, 0x7fff_ffff, 0x8000_0000, 0xffff_fffe, 0xffff_ffff, wrapping_count(section)] {
                let mut file = Pieces::empty().first_sections(section);
                put_u32(&mut file, count);
                file.resize(file.len() + left, 0);
                files.push(file);
            }
        }
    }
    files
}

/// A count whose records would come to a few bytes in 32-bit arithmetic.
fn wrapping_count(section: usize) -> u32 {
    ((1u64 << 32).div_ceil(SIZES[section] as u64)) as u32
}
