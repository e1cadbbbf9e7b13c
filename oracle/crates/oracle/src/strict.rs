//! What a strict reader meets first in a file (02 i), by a walk over the counts with the sizes of document 01. Neither the
//! library nor the original is asked.

use crate::files::{IK_STATE_SIZE, MAGIC, SIZES};
use crate::older::OLDER_MAGIC;
use crate::original::{ENDS_EARLY, MAGIC_DIFFERS};
use std::ops::RangeInclusive;

pub const BYTES_OVER: u32 = 16;
pub const OVERSIZED: u32 = 17;

/// Cameras, lights and self-shadows: the sections that the lenient manner empties.
pub const EMPTIED: RangeInclusive<usize> = 2..=4;

const PROPERTIES: usize = 5;

#[derive(Clone, Copy, PartialEq, Eq, Debug)]
pub enum Met {
    /// The file's end, after so many counts and all that they count.
    End { counts: usize },
    /// 1 or 2, in this section or before the first: the lenient manner meets it too.
    Refused { number: u32, section: usize },
    /// So many bytes after so many property frames.
    BytesOver { frames: u32, over: usize },
    /// The count of a section that the lenient manner empties, and the bytes after it.
    Oversized { section: usize, count: u32, left: usize },
}

impl Met {
    /// The strict manner's answer, 0 or a refusal.
    pub fn answer(self) -> u32 {
        match self {
            Met::End { .. } => 0,
            Met::Refused { number, .. } => number,
            Met::BytesOver { .. } => BYTES_OVER,
            Met::Oversized { .. } => OVERSIZED,
        }
    }
}

pub fn met(file: &[u8]) -> Met {
    match after_header(file) {
        Ok(sections) => walked(sections),
        Err(number) => Met::Refused { number, section: 0 },
    }
}

fn after_header(file: &[u8]) -> Result<&[u8], u32> {
    let magic = file.get(..30).ok_or(ENDS_EARLY)?;
    if magic.starts_with(MAGIC) {
        file.get(50..).ok_or(ENDS_EARLY)
    } else if magic.starts_with(OLDER_MAGIC) {
        file.get(40..).ok_or(ENDS_EARLY)
    } else {
        Err(MAGIC_DIFFERS)
    }
}

fn walked(mut rest: &[u8]) -> Met {
    for (section, size) in SIZES.into_iter().enumerate() {
        let cut = Met::Refused { number: ENDS_EARLY, section };
        if rest.is_empty() && section > 0 {
            return Met::End { counts: section };
        }
        let Some((count, records)) = count_at(rest, 0) else { return cut };
        if section == PROPERTIES {
            return frames_walked(count, records).unwrap_or(cut);
        }
        rest = match records.get(count as usize * size..) {
            Some(after) => after,
            None if EMPTIED.contains(&section) => return Met::Oversized { section, count, left: records.len() },
            None => return cut,
        };
    }
    unreachable!("the properties are the last section")
}

/// Each frame's last four bytes count its IK states. Nothing where the file ends early.
fn frames_walked(frames: u32, mut rest: &[u8]) -> Option<Met> {
    for _ in 0..frames {
        let (states, after) = count_at(rest, SIZES[PROPERTIES] - 4)?;
        rest = after.get(states as usize * IK_STATE_SIZE..)?;
    }
    Some(if rest.is_empty() { Met::End { counts: SIZES.len() } } else { Met::BytesOver { frames, over: rest.len() } })
}

/// The number that stands at this place, and what comes after it.
fn count_at(bytes: &[u8], at: usize) -> Option<(u32, &[u8])> {
    let (number, after) = bytes.get(at..)?.split_first_chunk()?;
    Some((u32::from_le_bytes(*number), after))
}
