//! First and last frames for excerpts, and takes to cut them from.

use crate::crowded::{crowded_file, record_at};
use crate::files::{frame, Pieces, Section};
use crate::older::{narrowed, of_either_edition};
use crate::random::Random;
use crate::turned_down::turned_down;

/// A first and a last frame, which may be below the first.
#[derive(Clone, Copy, PartialEq, Eq, Debug)]
pub struct Span {
    pub first: u32,
    pub last: u32,
}

/// Every frame there is.
pub const WHOLE: Span = Span { first: 0, last: u32::MAX };

impl Span {
    pub fn first_is_above(self) -> bool {
        self.first > self.last
    }

    pub fn turned(self) -> Span {
        Span { first: self.last, last: self.first }
    }
}

/// A span for a take with these frames.
pub fn span(frames: &[u32], random: &mut Random) -> Span {
    let (a, b) = (bound(frames, random), bound(frames, random));
    let ordered = Span { first: a.min(b), last: a.max(b) };
    match random.below(16) {
        0 => WHOLE,
        1 | 2 => Span { first: a, last: a },
        3 => ordered.turned(),
        4 => Span { first: a.max(1), last: a.max(1) - 1 },
        _ => ordered,
    }
}

/// One of the frames or beside it, the smallest or the largest number, or any.
fn bound(frames: &[u32], random: &mut Random) -> u32 {
    let one = if frames.is_empty() { frame(random) } else { random.pick(frames) };
    match random.below(10) {
        0 => 0,
        1 => u32::MAX,
        2 => frame(random),
        3 => one.wrapping_add(1),
        4 => one.wrapping_sub(1),
        _ => one,
    }
}

pub const TO_TURN_DOWN: &str = "files to turn down";

/// A file and its kind's label.
pub fn file_to_excerpt(random: &mut Random) -> (&'static str, Vec<u8>) {
    if random.one_in(4) {
        (TO_TURN_DOWN, of_either_edition(turned_down(random).1, random))
    } else {
        crowded_file(random)
    }
}

// ---- fixed

/// In no order, and one of them twice.
const FRAMES: [u32; 11] = [6, 0, u32::MAX, 1, 0x8000_0000, 4, 0x7fff_ffff, 5, u32::MAX - 1, 5, 9];

/// Frames of the take, and numbers before, between and after them.
const EDGES: [u32; 13] = [0, 1, 3, 4, 5, 6, 7, 0x7fff_fffe, 0x7fff_ffff, 0x8000_0000, 0x8000_0001, u32::MAX - 1, u32::MAX];

/// A take with a record for each frame in each section, in both editions.
pub fn takes_with_edges(random: &mut Random) -> [Vec<u8>; 2] {
    let mut pieces = Pieces::empty();
    pieces.header[30..34].copy_from_slice(b"edge");
    for (i, section) in pieces.sections.iter_mut().enumerate() {
        let bytes = FRAMES.into_iter().flat_map(|frame| record_at(i, frame, random)).collect();
        *section = Section { count: FRAMES.len() as u32, bytes };
    }
    let newer = pieces.file();
    [narrowed(&newer), newer]
}

/// From each of the edges to each.
pub fn spans_of_edges() -> impl Iterator<Item = Span> {
    EDGES.into_iter().flat_map(|first| EDGES.map(|last| Span { first, last }))
}
