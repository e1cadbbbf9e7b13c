//! Files that the strict manner turns down (02 i), and files near them: bytes over, counts that are oversized, both, and cut
//! after that.

use crate::files::{full_pieces, other_count, pieces, put_properties, Pieces, SIZES};
use crate::older::narrowed;
use crate::random::Random;
use crate::strict::EMPTIED;

pub const OVER: &str = "bytes over, after any frames or none";
pub const OVERSIZED: &str = "a count oversized";
pub const CUT_AFTER: &str = "a count oversized, cut after it";
pub const SEVERAL: &str = "counts oversized, and bytes over";
pub const EARLIER: &str = "an earlier or a later section cut too";
pub const NEAR_THE_END: &str = "cut near where such a section ends";

pub const KINDS: [&str; 6] = [OVER, OVERSIZED, CUT_AFTER, SEVERAL, EARLIER, NEAR_THE_END];

/// A file and its kind's label.
pub fn turned_down(random: &mut Random) -> (&'static str, Vec<u8>) {
    let (kind, section) = (random.pick(&KINDS), emptied_section(random));
    let mut pieces = pieces(3, random);
    if ![OVER, NEAR_THE_END].contains(&kind) {
        raise(&mut pieces, section, random);
    }
    match kind {
        OVER => {
            let frames = random.pick(&[0, 0, 1, 2, 15, 16, 17, 40]);
            put_properties(&mut pieces.sections[5], frames, 3, random);
            put_over(&mut pieces, 30, random);
        }
        SEVERAL => {
            let other = emptied_section(random);
            if other != section {
                raise(&mut pieces, other, random);
            }
            put_over(&mut pieces, 200, random);
        }
        EARLIER => raise(&mut pieces, random.pick(&[0, 1, 5]), random),
        _ => {}
    }
    let mut file = pieces.file();
    let records = pieces.first_sections(section).len() + 4;
    match kind {
        CUT_AFTER => file.truncate(records + random.below(file.len() - records + 1)),
        NEAR_THE_END => file.truncate(records + (pieces.sections[section].bytes.len() + random.below(9)).saturating_sub(4)),
        _ => {}
    }
    (kind, file)
}

fn emptied_section(random: &mut Random) -> usize {
    EMPTIED.start() + random.below(EMPTIED.count())
}

/// A count with a record more than the section has, with some more, or with far more.
fn raise(pieces: &mut Pieces, section: usize, random: &mut Random) {
    let count = &mut pieces.sections[section].count;
    *count = match random.below(3) {
        0 => *count + 1,
        1 => *count + 1 + random.below(40) as u32,
        _ => other_count(*count, random),
    };
}

fn put_over(pieces: &mut Pieces, most: usize, random: &mut Random) {
    let mut over = vec![0; 1 + random.below(most)];
    if random.one_in(2) {
        random.fill(&mut over);
    }
    pieces.sections[5].bytes.extend(over);
}

// ---- fixed files

/// The smallest of each kind, and every cut and every number of bytes over around them.
pub fn fixed(random: &mut Random) -> Vec<Vec<u8>> {
    let mut files = Vec::new();
    for frames in [0, 1, 2, 16, 17] {
        let mut pieces = Pieces::empty();
        put_properties(&mut pieces.sections[5], frames, 2, random);
        files.extend((0..=64).map(|over| with_over(&pieces, over)));
    }
    for section in EMPTIED {
        files.push(oversized_at_the_end(section));
        for count in [2, 3, 0x0100_0000, u32::MAX] {
            let mut pieces = full_pieces(1, random);
            pieces.sections[section].count = count;
            let whole = with_over(&pieces, 2 * SIZES[section]);
            files.extend((pieces.first_sections(section).len()..=whole.len()).map(|len| whole[..len].to_vec()));
        }
    }
    files
}

/// A small file of each answer to reading, in both editions: accepted, 1, 2, 16, and 17 for each section.
pub fn each_answer() -> Vec<Vec<u8>> {
    let empty = Pieces::empty();
    let newer = [empty.first_sections(1), empty.first_sections(0), vec![0x41; 30], with_over(&empty, 1)];
    let newer: Vec<Vec<u8>> = newer.into_iter().chain(EMPTIED.map(oversized_at_the_end)).collect();
    let older = newer.iter().map(|file| narrowed(file));
    newer.iter().cloned().chain(older).collect()
}

fn oversized_at_the_end(section: usize) -> Vec<u8> {
    let mut pieces = Pieces::empty();
    pieces.sections[section].count = 1;
    pieces.first_sections(section + 1)
}

fn with_over(pieces: &Pieces, over: usize) -> Vec<u8> {
    let mut file = pieces.file();
    file.resize(file.len() + over, 0);
    file
}
