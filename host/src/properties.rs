//! The property frames of a take. They have no fixed size: a scratch has the place of every 16th of them, and the others are
//! reached by a walk from there.
use std::ops::Range;

use crate::c::{self, Opening};
use crate::header::VMD_FRAMES_PER_PLACE;
use crate::header::indices::VMD_PROPERTIES;
use crate::header::sizes::VMD_PROPERTY_SIZE;
use crate::manner::Manner;
use crate::refusal::{Error, Refusal};
use crate::take::PropertyFrame;

/// The places that are lent first: 8 KiB, and enough for 16,384 property frames, more than most takes have.
const FIRST_PLACES: usize = 1024;

/// What opening a file in a manner gives, and a scratch of just the places that it needs.
///
/// How many property frames there are is not known before: a refused opening gives its number only. So few places are lent
/// first, and where these are not enough as many as a file of this length could need.
pub fn open(manner: Manner, file: &[u8]) -> Result<(Opening, Vec<u64>), Error> {
    let most = (file.len() / VMD_PROPERTY_SIZE as usize).div_ceil(VMD_FRAMES_PER_PLACE);
    let mut scratch = zeros(most.min(FIRST_PLACES))?;
    let opening = match c::open(manner, file, &mut scratch) {
        Err(Refusal::ScratchTooShort) => {
            scratch = zeros(most)?;
            c::open(manner, file, &mut scratch)
        }
        answer => answer,
    }?;
    scratch.truncate((opening.counts[VMD_PROPERTIES] as usize).div_ceil(VMD_FRAMES_PER_PLACE));
    scratch.shrink_to_fit();
    Ok((opening, scratch))
}

/// A scratch of so many places.
pub fn zeros(places: usize) -> Result<Vec<u64>, Error> {
    let mut scratch = Vec::new();
    let places = c::reserve(&mut scratch, places as u64)?;
    scratch.resize(places, 0);
    Ok(scratch)
}

/// What is made of the place and the fields of each property frame, in the file's order.
///
/// From the front a frame is read where the one before it ends; a jump past a place of the scratch goes on from there. From
/// the back each frame is reached from its place of the scratch.
pub struct PropertyWalk<'t, F> {
    file: &'t [u8],
    scratch: &'t [u64],
    /// The frames that are still to come.
    numbers: Range<usize>,
    /// Where the first of them stands.
    place: u64,
    make: F,
}

impl<'t, R, F: Fn(u64, PropertyFrame) -> R> PropertyWalk<'t, F> {
    /// Over the frames of a file, with the opening and the scratch of this very file.
    pub fn new(file: &'t [u8], opening: &Opening, scratch: &'t [u64], make: F) -> Self {
        let numbers = 0..opening.counts[VMD_PROPERTIES] as usize;
        PropertyWalk { file, scratch, numbers, place: opening.places[VMD_PROPERTIES], make }
    }

    /// The frame that stands at a place, and the place of the next.
    fn at(&self, place: u64) -> (PropertyFrame, u64) {
        let (record, next) = c::property_frame_at(self.file, place).expect("a take has its property frames whole");
        (PropertyFrame::of(record), next)
    }

    /// The place so many frames after the one at a place.
    fn after(&self, place: u64, frames: usize) -> u64 {
        (0..frames).fold(place, |place, _| self.at(place).1)
    }

    /// Where frame `i` stands.
    fn place_of(&self, i: usize) -> u64 {
        self.after(self.scratch[i / VMD_FRAMES_PER_PLACE], i % VMD_FRAMES_PER_PLACE)
    }
}

impl<R, F: Fn(u64, PropertyFrame) -> R> Iterator for PropertyWalk<'_, F> {
    type Item = R;

    fn next(&mut self) -> Option<R> {
        self.nth(0)
    }

    fn nth(&mut self, n: usize) -> Option<R> {
        let first = self.numbers.start;
        let i = self.numbers.nth(n)?;
        let is_past_a_place = i - i % VMD_FRAMES_PER_PLACE > first;
        let place = if is_past_a_place { self.place_of(i) } else { self.after(self.place, i - first) };
        let (frame, next) = self.at(place);
        self.place = next;
        Some((self.make)(place, frame))
    }

    fn size_hint(&self) -> (usize, Option<usize>) {
        self.numbers.size_hint()
    }
}

impl<R, F: Fn(u64, PropertyFrame) -> R> DoubleEndedIterator for PropertyWalk<'_, F> {
    fn next_back(&mut self) -> Option<R> {
        self.nth_back(0)
    }

    fn nth_back(&mut self, n: usize) -> Option<R> {
        let i = self.numbers.nth_back(n)?;
        let place = self.place_of(i);
        Some((self.make)(place, self.at(place).0))
    }
}

impl<R, F: Fn(u64, PropertyFrame) -> R> ExactSizeIterator for PropertyWalk<'_, F> {}

#[cfg(test)]
mod tests {
    use super::*;

    /// A take of so many property frames without IK states, after a bone or none: frame `i` is at frame `i`.
    fn take(bones: usize, frames: usize) -> Vec<u8> {
        let mut file = b"Vocaloid Motion Data 0002".to_vec();
        file.resize(50, 0);
        file.extend((bones as u32).to_le_bytes());
        file.resize(file.len() + 111 * bones + 16, 0);
        file.extend((frames as u32).to_le_bytes());
        for i in 0..frames {
            file.extend((i as u32).to_le_bytes());
            file.extend([1, 0, 0, 0, 0]);
        }
        file
    }

    /// Around the places that are lent first, and with nothing but frames in the file or with more.
    #[test]
    fn a_scratch_of_just_the_places_that_are_needed() {
        for n in [0, 1, 15, 16, 17, 33, 16_368, 16_369, 16_383, 16_384, 16_385, 16_400, 16_401, 50_000] {
            for bones in [0, 1, 300] {
                let file = take(bones, n);
                let (opening, scratch) = open(Manner::Strict, &file).unwrap();
                assert_eq!(opening.counts, [bones as u32, 0, 0, 0, 0, n as u32]);
                let places = (0..n).step_by(16).map(|i| (74 + 111 * bones + 9 * i) as u64);
                assert_eq!(scratch, places.collect::<Vec<_>>(), "{n} frames, {bones} bones");
            }
        }
    }

    #[test]
    fn a_scratch_that_memory_has_no_room_for() {
        assert_eq!(zeros(1 << 60), Err(Error::NoMemory(1 << 63)));
        assert_eq!(zeros(3), Ok(vec![0; 3]));
    }

    fn walk<'t>(file: &'t [u8], scratch: &'t [u64]) -> PropertyWalk<'t, impl Fn(u64, PropertyFrame) -> (u64, u32)> {
        let (opening, _) = open(Manner::Strict, file).unwrap();
        PropertyWalk::new(file, &opening, scratch, |place, frame| (place, frame.frame))
    }

    /// Where frame `i` of a take without bones stands, and its number.
    fn frame(i: u32) -> (u64, u32) {
        (74 + 9 * u64::from(i), i)
    }

    /// From the front no place of the scratch is looked up: there is none.
    #[test]
    fn from_the_front_without_a_scratch() {
        let file = take(0, 100);
        assert!(walk(&file, &[]).eq((0..100).map(frame)));
        let mut within = walk(&file, &[]);
        assert_eq!((within.nth(10), within.nth(4), within.next()), (Some(frame(10)), Some(frame(15)), Some(frame(16))));
    }

    /// A jump past a place of the scratch goes on from that place, and the frames after it follow: this scratch has the places
    /// of other frames, so that it is seen where a frame was reached from.
    #[test]
    fn a_jump_goes_on_from_the_scratch() {
        let file = take(0, 100);
        let other = [50, 60, 70, 80].map(|i| frame(i).0);
        let mut from_front = walk(&file, &other);
        assert_eq!(from_front.nth(35), Some(frame(73)));
        assert_eq!((from_front.next(), from_front.nth(3)), (Some(frame(74)), Some(frame(78))));
        assert_eq!(from_front.nth(8), Some(frame(81)), "frame 49");
        let mut from_back = walk(&file, &other);
        assert_eq!((from_back.nth_back(39), from_back.next_back()), (Some(frame(92)), Some(frame(91))));
    }
}
