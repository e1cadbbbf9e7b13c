//! The older edition, which the original refuses: by request e) an older file reads as the original reads it once its header
//! is widened to the newer one's 50 bytes.

use crate::files::{file_kind, file_of, pieces, MAGIC};
use crate::named;
use crate::original::{ENDS_EARLY, MODEL_NAME_TOO_LONG};
use crate::random::Random;
use std::borrow::Cow;

pub const OLDER_MAGIC: &[u8; 26] = b"Vocaloid Motion Data file\0";

/// Where the model name begins in both editions, and where the bone count stands in each.
const NAME: usize = 30;
const SECTIONS: usize = 50;
const OLDER_SECTIONS: usize = 40;

/// What the older header has less, and the zeros after the older name in a widened file.
pub const NARROWER: usize = SECTIONS - OLDER_SECTIONS;

pub fn is_older(file: &[u8]) -> bool {
    file.len() >= NAME && file.starts_with(OLDER_MAGIC)
}

/// The file for the original to read: an older one widened, any other as it is. An older header that is cut is 1.
pub fn widened(file: &[u8]) -> Result<Cow<'_, [u8]>, u32> {
    if !is_older(file) {
        return Ok(Cow::Borrowed(file));
    }
    if file.len() < OLDER_SECTIONS {
        return Err(ENDS_EARLY);
    }
    let (header, sections) = file.split_at(OLDER_SECTIONS);
    Ok(Cow::Owned([MAGIC, &[0; 4][..], &header[NAME..], &[0; NARROWER], sections].concat()))
}

/// What the converter writes for a file with this export; 15 where the model name goes on past ten bytes.
pub fn converted(exported: &[u8]) -> Result<Vec<u8>, u32> {
    let (header, sections) = exported.split_at(SECTIONS);
    let (name, rest) = header[NAME..].split_at(OLDER_SECTIONS - NAME);
    if rest[0] != 0 {
        return Err(MODEL_NAME_TOO_LONG);
    }
    Ok([OLDER_MAGIC, &[0; 4][..], name, sections].concat())
}

// ---- older files out of newer ones

/// The file with an older header: the last ten bytes of its model name are left out. What was changed in the magic is changed
/// in this one too.
pub fn narrowed(file: &[u8]) -> Vec<u8> {
    let mut older = file.to_vec();
    for (byte, (newer, older)) in older.iter_mut().zip(MAGIC.iter().zip(OLDER_MAGIC)) {
        *byte ^= newer ^ older;
    }
    let end = older.len().min(SECTIONS);
    older.drain(end.min(OLDER_SECTIONS)..end);
    older
}

/// As it is, or with an older header.
pub fn of_either_edition(file: Vec<u8>, random: &mut Random) -> Vec<u8> {
    if random.one_in(2) {
        narrowed(&file)
    } else {
        file
    }
}

pub const HEADER_CUT: &str = "cut near the older header's end";
pub const HEADER_OTHER: &str = "other bytes in the older header";

/// A file of any kind with an older header, and its kind's label.
pub fn older_file(random: &mut Random) -> (&'static str, Vec<u8>) {
    match random.below(16) {
        0 => (HEADER_CUT, header_cut(random)),
        1 => (HEADER_OTHER, header_other(random)),
        2 => (named::FEW_NAMES, narrowed(&named::few_names(random))),
        _ => {
            let kind = file_kind(random);
            (kind.label(), narrowed(&file_of(kind, random)))
        }
    }
}

fn header_cut(random: &mut Random) -> Vec<u8> {
    let mut file = narrowed(&pieces(1, random).file());
    file.truncate(NAME - 2 + random.below(22));
    file
}

/// Another bit, anything in bytes 26 to 29, a magic mixed of both, or a name that fills its ten bytes.
fn header_other(random: &mut Random) -> Vec<u8> {
    let mut file = narrowed(&pieces(1, random).file());
    match random.below(4) {
        0 => file[random.below(OLDER_SECTIONS + 4)] ^= 1 << random.below(8),
        1 => random.fill(&mut file[MAGIC.len()..NAME]),
        2 => mix_magics(&mut file, random.below(16)),
        _ => file[NAME..OLDER_SECTIONS].iter_mut().for_each(|byte| *byte = 1 + random.below(255) as u8),
    }
    file
}

/// The magics differ in four bytes: each bit says whether one of them is the newer's.
fn mix_magics(file: &mut [u8], newer: usize) {
    let differing = (0..MAGIC.len()).filter(|&i| MAGIC[i] != OLDER_MAGIC[i]);
    differing.enumerate().filter(|(k, _)| newer >> k & 1 == 1).for_each(|(_, i)| file[i] = MAGIC[i]);
}

/// The file with each mixture of the two magics.
pub fn mixed_magics(file: &[u8]) -> Vec<Vec<u8>> {
    let mixed = (0..16).map(|newer| {
        let mut mixed = file.to_vec();
        mix_magics(&mut mixed, newer);
        mixed
    });
    mixed.collect()
}

/// The older magic and zeros, of every length up to an empty take's.
pub fn bare_lengths() -> Vec<Vec<u8>> {
    let mut bare = OLDER_MAGIC.to_vec();
    bare.resize(OLDER_SECTIONS + 24, 0);
    (0..=bare.len()).map(|len| bare[..len].to_vec()).collect()
}
