//! Takes in which frames of a track repeat, in any order, for tidying: as they are, joined, of the older edition, and damaged.

use crate::files::{frame, other_count, put_record, Pieces, Section};
use crate::named::{put_name, some_names};
use crate::older::{narrowed, of_either_edition};
use crate::original;
use crate::random::Random;

/// Where a record's frame stands.
const FRAME: [usize; 6] = [15, 15, 0, 0, 0, 0];

pub const CROWDED: &str = "frames that repeat";
pub const OLDER_CROWDED: &str = "frames that repeat, older edition";
pub const JOINED: &str = "a take joined some times";
pub const DAMAGED: &str = "frames that repeat, damaged";

/// A file and its kind's label.
pub fn crowded_file(random: &mut Random) -> (&'static str, Vec<u8>) {
    match random.below(8) {
        0 => (OLDER_CROWDED, narrowed(&crowded(random).file())),
        1 => (DAMAGED, of_either_edition(damaged(random), random)),
        2 | 3 => (JOINED, joined(random)),
        _ => (CROWDED, crowded(random).file()),
    }
}

/// Few names and few frames: most tracks have a frame more than once.
fn crowded(random: &mut Random) -> Pieces {
    let names = some_names(random.one_in(2), random);
    let frames: Vec<u32> = (0..1 + random.below(8)).map(|_| frame(random)).collect();
    let most = random.pick(&[2, 6, 20]);
    let mut pieces = Pieces::empty();
    put_name(&mut pieces.header[30..], &names, random);
    for (i, section) in pieces.sections.iter_mut().enumerate() {
        section.count = random.below(most + 1) as u32;
        for _ in 0..section.count {
            let mut record = record_at(i, random.pick(&frames), random);
            if i < 2 {
                put_name(&mut record[..15], &names, random);
                add_line_feed(&mut record[..15], random);
            }
            section.bytes.extend(record);
        }
    }
    pieces
}

pub(crate) fn record_at(section: usize, frame: u32, random: &mut Random) -> Vec<u8> {
    let mut record = Vec::new();
    put_record(section, &mut record, random);
    record[FRAME[section]..FRAME[section] + 4].copy_from_slice(&frame.to_le_bytes());
    record
}

/// A remark after the name in some, which their track does not depend on.
fn add_line_feed(field: &mut [u8], random: &mut Random) {
    let end = field.iter().position(|&byte| byte == 0).unwrap_or(field.len());
    if end + 2 < field.len() && random.one_in(6) {
        field[end..end + 3].copy_from_slice(&[b'\n', random.pick(b"12"), 0]);
    }
}

/// Two takes over and over, as document 01 joins them.
fn joined(random: &mut Random) -> Vec<u8> {
    let takes = [crowded(random).file(), crowded(random).file()];
    let mut whole = takes[0].clone();
    for _ in 0..1 + random.below(3) {
        whole = original::join_files(&whole, &takes[random.below(2)]).expect("whole takes are joined");
    }
    whole
}

fn damaged(random: &mut Random) -> Vec<u8> {
    let mut pieces = crowded(random);
    if random.one_in(3) {
        let section = &mut pieces.sections[random.below(6)];
        section.count = other_count(section.count, random);
        return pieces.file();
    }
    let mut file = pieces.file();
    if random.one_in(2) {
        file.truncate(random.below(file.len()));
    } else {
        file.extend((0..1 + random.below(30)).map(|_| random.byte()));
    }
    file
}

/// Takes of thousands of records in one section, around the numbers that the library counts in one pass: each frame once, in
/// any order; each twice, far apart; one frame alone; few names and frames; each name once, and each again.
pub fn many_records(random: &mut Random) -> Vec<Vec<u8>> {
    let mut files = Vec::new();
    for (turn, count) in [16_385u32, 32_769, 41_000].into_iter().enumerate() {
        for order in 0..6 {
            let section = if order > 2 { 1 } else { [4, 1, 5, 3, 2, 0][(turn + order) % 6] };
            files.push(long_section(section, count, order, random));
        }
    }
    files
}

fn long_section(section: usize, count: u32, order: usize, random: &mut Random) -> Vec<u8> {
    let mut bytes = Vec::new();
    for i in 0..count {
        let shuffled = |i: u32| (i as u64 * 48_271 % 65_537) as u32; // none twice: the divisor is prime
        let (name, frame) = match order {
            0 => (0, shuffled(i)),
            1 => (0, i % (count / 2)),
            2 => (0, 7),
            3 => (random.below(200) as u32, random.below(100) as u32),
            4 => (shuffled(i), 7),
            _ => (shuffled(i % (count / 2)), i / (count / 2)),
        };
        let mut record = record_at(section, frame, random);
        if section < 2 {
            record[..15].copy_from_slice(format!("{name:06}\0remarks1").as_bytes());
        }
        bytes.extend(record);
    }
    let mut pieces = Pieces::empty();
    pieces.sections[section] = Section { count, bytes };
    pieces.file()
}
