//! Takes of many property frames, whole and damaged: a scratch has a place for each sixteen of them.

use crate::files::{other_count, pieces, put_properties, IK_STATE_SIZE, SIZES};
use crate::random::Random;

/// Takes of every number of frames up to 70, and of thousands, around where another place begins.
pub fn every_number(random: &mut Random) -> Vec<Vec<u8>> {
    let short = (0..=70).flat_map(|frames| [(frames, 0), (frames, 1), (frames, 3), (frames, 9)]);
    let long = [255, 256, 257, 1000, 4095, 4096, 4097, 10_000].map(|frames| (frames, 3));
    let takes = short.chain(long).map(|(frames, most_states)| {
        let mut pieces = pieces(1, random);
        put_properties(&mut pieces.sections[5], frames, most_states, random);
        pieces.file()
    });
    takes.collect()
}

pub const UP_TO_70: &str = "up to 70 property frames";

/// Half of them whole; the others cut, with bytes over, or with another number of frames or of a frame's IK states.
pub fn up_to_70(random: &mut Random) -> Vec<u8> {
    let (mut pieces, frames) = (pieces(1, random), 1 + random.below(70));
    let section = &mut pieces.sections[5];
    put_properties(section, frames, 3, random);
    match random.below(8) {
        0 => section.bytes.truncate(random.below(section.bytes.len())),
        1 => section.bytes.extend((0..1 + random.below(30)).map(|_| random.byte())),
        2 => section.count = other_count(section.count, random),
        3 => {
            let at = place_of(random.below(frames), &section.bytes) + IK_COUNT;
            let changed = other_count(u32_at(&section.bytes, at), random);
            section.bytes[at..at + 4].copy_from_slice(&changed.to_le_bytes());
        }
        _ => {}
    }
    pieces.file()
}

/// Where a frame's IK count stands.
const IK_COUNT: usize = 5;

fn u32_at(bytes: &[u8], at: usize) -> u32 {
    u32::from_le_bytes(bytes[at..at + 4].try_into().unwrap())
}

/// Where a frame begins among whole ones.
fn place_of(number: usize, bytes: &[u8]) -> usize {
    (0..number).fold(0, |at, _| at + SIZES[5] + IK_STATE_SIZE * u32_at(bytes, at + IK_COUNT) as usize)
}
