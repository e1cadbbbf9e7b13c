//! The proved library behind functions on slices. A self-test has one of its results altered here.

use crate::alter::{altered, call_begins, Alter, Call};
use crate::files::PER_PLACE;
use crate::header;
use crate::header::indices::{VMD_TOTAL_IK_STATES, VMD_TOTAL_LARGEST_FRAME, VMD_TOTAL_SMALLEST_FRAME};
use crate::manner::Manner;
use mmd_anim_format::vmd::VmdParsedMorphFrame;
use oracle::files::{Pieces, MAGIC, SIZES};
use oracle::names::{self, has_character, is_lead, is_trail, BESIDE_THE_INDEX, RUNS};
use oracle::older::{is_older, NARROWER, OLDER_MAGIC};
use oracle::original::{self, Key, VmdParsedAnimation, ENDS_EARLY, FIRST_ABOVE_LAST, SCRATCH_TOO_SHORT};
use oracle::parts::{Columns, Parts};
use oracle::spans::{Span, WHOLE};
use oracle::strict::{self, Met, BYTES_OVER, EMPTIED, OVERSIZED};
use std::borrow::Cow;
use std::collections::HashMap;

/// A slice's pointer, null where it has no elements, which include/vmd.h allows.
fn pointer<T>(slice: &[T]) -> *const T {
    if slice.is_empty() {
        std::ptr::null()
    } else {
        slice.as_ptr()
    }
}

fn pointer_mut<T>(slice: &mut [T]) -> *mut T {
    if slice.is_empty() {
        std::ptr::null_mut()
    } else {
        slice.as_mut_ptr()
    }
}

// ---- the two manners

macro_rules! of_manner {
    ($manner:expr, $strict:ident, $lenient:ident) => {
        match $manner {
            Manner::Strict => header::$strict,
            Manner::Lenient => header::$lenient,
        }
    };
}

/// A call that reads whole takes, in this manner.
fn read_in(manner: Manner, which: Call, files: &[&[u8]], mut call: impl FnMut(Manner) -> u32) -> u32 {
    if altered(Alter::Nothing) {
        return call(manner);
    }
    let answer = call(asked(manner, which, files));
    if manner == Manner::Strict && turned_down(answer) && altered(Alter::WrittenFirst(which)) {
        call(Manner::Lenient);
    }
    match manner {
        Manner::Lenient => answer,
        Manner::Strict => alter_strict(answer, files),
    }
}

fn turned_down(answer: u32) -> bool {
    [BYTES_OVER, OVERSIZED].contains(&answer)
}

/// The manner in which an altered library would read.
fn asked(manner: Manner, which: Call, files: &[&[u8]]) -> Manner {
    let first_read = || matches!(files, [first, _] if strict::met(first).answer() == 0);
    match manner {
        Manner::Strict if altered(Alter::Lenient(which)) => Manner::Lenient,
        Manner::Strict if altered(Alter::JoinSecondLenient) && first_read() => Manner::Lenient,
        Manner::Strict if files.iter().any(|file| missed(file)) => Manner::Lenient,
        Manner::Lenient if altered(Alter::Strict(which)) => Manner::Strict,
        _ => manner,
    }
}

/// What an altered strict reader passes over.
fn missed(file: &[u8]) -> bool {
    let missed = match strict::met(file) {
        Met::Oversized { left: 0, .. } if altered(Alter::OversizedAtTheEnd) => true,
        Met::Oversized { section, count, left } if altered(Alter::OversizedByOne) => count as usize * SIZES[section] == left + 1,
        Met::Oversized { section, .. } => {
            altered([Alter::CamerasEmptied, Alter::LightsEmptied, Alter::SelfShadowsEmptied][section - EMPTIED.start()])
        }
        Met::BytesOver { over: 1, .. } if altered(Alter::OverOneByte) => true,
        Met::BytesOver { frames: 0, .. } => altered(Alter::OverAfterNone),
        Met::BytesOver { .. } => altered(Alter::OverAfterFrames),
        _ => false,
    };
    missed || altered(Alter::OlderLenient) && is_older(file)
}

/// What an altered strict call would answer.
fn alter_strict(answer: u32, files: &[&[u8]]) -> u32 {
    let met: Vec<Met> = files.iter().map(|file| strict::met(file)).collect();
    match (answer, &met[..]) {
        (BYTES_OVER, _) if altered(Alter::OverAccepted) => 0,
        (BYTES_OVER, _) if altered(Alter::OverAs17) => OVERSIZED,
        (BYTES_OVER, _) if altered(Alter::OverAs1) => ENDS_EARLY,
        (OVERSIZED, _) if altered(Alter::OversizedAccepted) => 0,
        (OVERSIZED, _) if altered(Alter::OversizedAs16) => BYTES_OVER,
        (ENDS_EARLY, [.., Met::Refused { section: 5, .. }]) if altered(Alter::OverBefore1) => BYTES_OVER,
        (ENDS_EARLY, [.., Met::Refused { section: 1, .. }]) if altered(Alter::OversizedMorphs) => OVERSIZED,
        (0, [.., Met::End { counts: ..6 }]) if altered(Alter::MissingCountRefused) => ENDS_EARLY,
        (1.., [_, second]) if altered(Alter::JoinSecondFirst) && second.answer() > 0 => second.answer(),
        _ => answer,
    }
}

// ---- opening

/// The slots of an opening.
#[derive(Clone, PartialEq, Eq, Debug)]
pub struct Opening {
    pub counts: [u32; 6],
    pub places: [u64; 6],
    /// IK states, smallest frame, largest frame.
    pub totals: [u64; 3],
}

/// An older file as a reader would see it that takes it for a newer one.
fn seen(file: &[u8]) -> Cow<'_, [u8]> {
    let mut file = Cow::Borrowed(file);
    if altered(Alter::OlderSectionsFrom50) && is_older(&file) {
        file.to_mut()[..MAGIC.len()].copy_from_slice(MAGIC);
    }
    file
}

pub fn parse_animation(manner: Manner, file: &[u8], scratch: &mut [u64], opening: &mut Opening) -> u32 {
    call_begins(manner);
    if older_magic_refused(file) {
        return original::MAGIC_DIFFERS;
    }
    let read = seen(file);
    let answer = read_in(manner, Call::Opening, &[file], |manner| {
        let call = of_manner!(manner, vmd_parse_animation, vmd_parse_animation_lenient);
        let Opening { counts, places, totals } = &mut *opening;
        unsafe { call(pointer(&read), read.len(), pointer_mut(scratch), scratch.len(), counts, places, totals) }
    });
    alter_older_opening(file, answer, scratch, opening);
    let answer = alter_opening(answer, scratch, opening);
    alter_places(file, answer, scratch, opening)
}

fn older_magic_refused(file: &[u8]) -> bool {
    is_older(file)
        && (altered(Alter::OlderRefused)
            || altered(Alter::OlderCutIsOther) && file.len() < 40
            || altered(Alter::OlderWholeMagic) && file[26..30] != [0; 4])
}

fn alter_older_opening(file: &[u8], answer: u32, scratch: &mut [u64], opening: &mut Opening) {
    if answer != 0 || !is_older(file) {
        return;
    }
    if altered(Alter::OlderPlaces) {
        opening.places.iter_mut().for_each(|place| *place += NARROWER as u64);
    } else if altered(Alter::OlderScratch) {
        scratch.iter_mut().take(places_of(opening)).for_each(|position| *position += NARROWER as u64);
    }
}

fn alter_opening(answer: u32, scratch: &mut [u64], opening: &mut Opening) -> u32 {
    if altered(Alter::OpeningRefusal) && answer == 2 {
        return 1;
    }
    if altered(Alter::ScratchInRefusal) && answer != 0 {
        scratch.iter_mut().for_each(|place| *place = 0);
    }
    if answer != 0 {
        return answer;
    }
    let places = places_of(opening);
    if altered(Alter::OpeningCount) {
        opening.counts[3] += 1;
    } else if altered(Alter::OpeningPlace) {
        opening.places[2] -= 1;
    } else if altered(Alter::IkStatesDropped) {
        opening.totals[VMD_TOTAL_IK_STATES] = 0;
    } else if altered(Alter::SmallestFrame) {
        opening.totals[VMD_TOTAL_SMALLEST_FRAME] &= 0x7fff_ffff;
    } else if altered(Alter::SmallestFrameOfNone) && opening.counts == [0; 6] {
        opening.totals[VMD_TOTAL_SMALLEST_FRAME] = u32::MAX as u64;
    } else if altered(Alter::SmallestFrameAsNone) && opening.totals[VMD_TOTAL_SMALLEST_FRAME] == u32::MAX as u64 {
        opening.totals[VMD_TOTAL_SMALLEST_FRAME] = 0;
    } else if altered(Alter::FramesSwapped) {
        opening.totals.swap(VMD_TOTAL_SMALLEST_FRAME, VMD_TOTAL_LARGEST_FRAME);
    } else if altered(Alter::LargestFrame) {
        opening.totals[VMD_TOTAL_LARGEST_FRAME] &= 0x7fff_ffff;
    } else if altered(Alter::ScratchPosition) && places > 1 {
        scratch[1] += 21;
    } else if altered(Alter::ScratchPastItsEnd) && places < scratch.len() {
        scratch[places] = 0;
    }
    answer
}

fn places_of(opening: &Opening) -> usize {
    (opening.counts[5] as usize).div_ceil(PER_PLACE)
}

/// How many places are asked for, and what they hold.
fn alter_places(file: &[u8], answer: u32, scratch: &mut [u64], opening: &Opening) -> u32 {
    let frames = || original::read(file).map_or(0, |take| take.property_frames.len());
    if altered(Alter::ScratchBeforeManner) && turned_down(answer) && scratch.len() * PER_PLACE < frames() {
        return SCRATCH_TOO_SHORT;
    }
    if altered(Alter::ScratchRoundedDown) && answer == SCRATCH_TOO_SHORT && scratch.len() == frames() / PER_PLACE {
        return 0;
    }
    if altered(Alter::ScratchPlaceForEach) && answer == 0 && scratch.len() < frames() {
        return SCRATCH_TOO_SHORT;
    }
    if altered(Alter::ScratchOneMore) && answer == 0 && frames() > 0 && scratch.len() == frames() / PER_PLACE {
        return SCRATCH_TOO_SHORT;
    }
    if altered(Alter::ScratchHoldsEach) && answer == 0 {
        for place in 1..places_of(opening) {
            scratch[place] = next_place(file, scratch[place - 1]);
        }
    }
    answer
}

fn next_place(file: &[u8], place: u64) -> u64 {
    let mut next = 0;
    unsafe { header::vmd_property_frame_at(pointer(file), file.len(), place, &mut [0; 3], &mut next) };
    next
}

// ---- records by number

type Counts = *const [u32; 6];
type Places = *const [u64; 6];
type ByNumber<const N: usize> = unsafe extern "C" fn(*const u8, usize, Counts, Places, usize, *mut [u32; N]) -> u32;
type PartByNumber = unsafe extern "C" fn(*const u8, usize, Counts, Places, usize, *mut [u64; 2]);

fn by_number<const N: usize>(call: ByNumber<N>, file: &[u8], opening: &Opening, i: usize, record: &mut [u32; N]) -> u32 {
    let answer = unsafe { call(pointer(file), file.len(), &opening.counts, &opening.places, i, record) };
    if altered(Alter::OutsideAccepted) {
        return 0;
    }
    answer
}

fn part_by_number(call: PartByNumber, file: &[u8], opening: &Opening, i: usize) -> [u64; 2] {
    let mut part = [u64::MAX; 2];
    unsafe { call(pointer(file), file.len(), &opening.counts, &opening.places, i, &mut part) };
    part
}

/// frame, translation x y z, rotation x y z w
pub fn bone_frame(file: &[u8], opening: &Opening, i: usize, record: &mut [u32; 8]) -> u32 {
    let answer = by_number(header::vmd_bone_frame, file, opening, i, record);
    for bits in &mut record[1..] {
        if altered(Alter::NanMadeQuiet) && f32::from_bits(*bits).is_nan() {
            *bits |= 0x0040_0000;
        }
        if altered(Alter::ZeroSignLost) && *bits == 0x8000_0000 {
            *bits = 0;
        }
    }
    answer
}

/// frame, weight
pub fn morph_frame(file: &[u8], opening: &Opening, i: usize, record: &mut [u32; 2]) -> u32 {
    let answer = by_number(header::vmd_morph_frame, file, opening, i, record);
    if altered(Alter::MorphWeight) && answer == 0 {
        record[1] ^= 1;
    }
    answer
}

/// frame, distance, position x y z, rotation x y z, field of view, perspective
pub fn camera_frame(file: &[u8], opening: &Opening, i: usize, record: &mut [u32; 10]) -> u32 {
    let answer = by_number(header::vmd_camera_frame, file, opening, i, record);
    if altered(Alter::PerspectiveTurned) && answer == 0 {
        record[9] ^= 1;
    }
    answer
}

/// frame; color r g b, direction x y z
pub fn light_frame(file: &[u8], opening: &Opening, i: usize, frame: &mut u32, values: &mut [f32; 6]) -> u32 {
    unsafe { header::vmd_light_frame(pointer(file), file.len(), &opening.counts, &opening.places, i, frame, values) }
}

/// frame, color r g b, direction x y z
pub fn light_frame_bits(file: &[u8], opening: &Opening, i: usize, record: &mut [u32; 7]) -> u32 {
    let answer = by_number(header::vmd_light_frame_bits, file, opening, i, record);
    if altered(Alter::LightSwapped) && answer == 0 {
        record.swap(3, 4);
    }
    answer
}

/// frame, mode, distance
pub fn self_shadow_frame(file: &[u8], opening: &Opening, i: usize, record: &mut [u32; 3]) -> u32 {
    let answer = by_number(header::vmd_self_shadow_frame, file, opening, i, record);
    if altered(Alter::SelfShadowMode) && answer == 0 {
        record[1] = record[1].min(2);
    }
    answer
}

/// frame, visible, number of IK states
pub fn property_frame(file: &[u8], opening: &Opening, scratch: &[u64], i: usize, record: &mut [u32; 3]) -> u32 {
    let (scratch, i) = walked_from(opening, scratch, i);
    unsafe {
        header::vmd_property_frame(
            pointer(file),
            file.len(),
            &opening.counts,
            &opening.places,
            pointer(scratch),
            scratch.len(),
            i,
            record,
        )
    }
}

/// The scratch and the number that lead to the frame that a mistaken walk would find.
fn walked_from<'a>(opening: &Opening, scratch: &'a [u64], i: usize) -> (&'a [u64], usize) {
    let walked = i % PER_PLACE;
    if i >= opening.counts[5] as usize || i / PER_PLACE >= scratch.len() {
        (scratch, i)
    } else if altered(Alter::FetchPlaceOfNumber) {
        (scratch.get(i..).unwrap_or(&[]), 0)
    } else if altered(Alter::FetchFromFirstPlace) {
        (scratch, walked)
    } else if altered(Alter::FetchWithoutWalk) {
        (scratch, i - walked)
    } else if altered(Alter::FetchWalkTooLong) && walked > 0 {
        (scratch, i + 1)
    } else if altered(Alter::FetchWalkOf14) && walked == PER_PLACE - 1 {
        (scratch, i - 1)
    } else {
        (scratch, i)
    }
}

/// frame, visible, number of IK states; and the place of the next frame
pub fn property_frame_at(file: &[u8], place: u64, record: &mut [u32; 3], next: &mut u64) -> u32 {
    let moved = if altered(Alter::OlderFrameAt) && is_older(file) { NARROWER as u64 } else { 0 };
    let answer = unsafe { header::vmd_property_frame_at(pointer(file), file.len(), place.wrapping_add(moved), record, next) };
    if answer != 0 {
        return alter_no_frame_at(file, place, answer, next);
    }
    if altered(Alter::FrameAtVisible) {
        record[1] ^= 1;
    } else if altered(Alter::FrameAtNext) {
        *next += 21;
    } else if altered(Alter::FrameAtNextWithoutStates) {
        *next = place + 9;
    }
    answer
}

fn alter_no_frame_at(file: &[u8], place: u64, answer: u32, next: &mut u64) -> u32 {
    let nine_bytes = place.checked_add(9).is_some_and(|end| end <= file.len() as u64);
    if altered(Alter::FrameAtInRefusal) {
        *next = place;
    }
    if altered(Alter::FrameAtOutside) && !nine_bytes || altered(Alter::FrameAtStatesCut) && nine_bytes {
        return 0;
    }
    answer
}

/// The number of the frame whose place the scratch has, for one that is walked to from there.
fn not_walked(what: Alter, opening: &Opening, i: usize) -> usize {
    if altered(what) && i < opening.counts[5] as usize {
        i - i % PER_PLACE
    } else {
        i
    }
}

pub fn ik_state(file: &[u8], opening: &Opening, scratch: &[u64], i: usize, j: usize, enabled: &mut u32) -> u32 {
    let answer = unsafe {
        header::vmd_ik_state(
            pointer(file),
            file.len(),
            &opening.counts,
            &opening.places,
            pointer(scratch),
            scratch.len(),
            not_walked(Alter::IkStateWithoutWalk, opening, i),
            j,
            enabled,
        )
    };
    if altered(Alter::IkEnabled) && answer == 0 {
        *enabled = 1;
    }
    answer
}

// ---- names and interpolation bytes: where they begin in the file, and how many there are

pub fn bone_name(file: &[u8], opening: &Opening, i: usize) -> [u64; 2] {
    let mut part = part_by_number(header::vmd_bone_name, file, opening, i);
    if altered(Alter::NameLonger) && part[1] < 15 && part[1] > 0 {
        part[1] += 1;
    }
    part
}

pub fn morph_name(file: &[u8], opening: &Opening, i: usize) -> [u64; 2] {
    part_by_number(header::vmd_morph_name, file, opening, i)
}

pub fn bone_interpolation(file: &[u8], opening: &Opening, i: usize) -> [u64; 2] {
    let mut part = part_by_number(header::vmd_bone_interpolation, file, opening, i);
    if altered(Alter::InterpolationMoved) {
        part[0] = part[0].saturating_sub(1);
    }
    part
}

pub fn camera_interpolation(file: &[u8], opening: &Opening, i: usize) -> [u64; 2] {
    part_by_number(header::vmd_camera_interpolation, file, opening, i)
}

pub fn ik_name(file: &[u8], opening: &Opening, scratch: &[u64], i: usize, j: usize) -> [u64; 2] {
    let mut part = [u64::MAX; 2];
    unsafe {
        header::vmd_ik_name(
            pointer(file),
            file.len(),
            &opening.counts,
            &opening.places,
            pointer(scratch),
            scratch.len(),
            not_walked(Alter::IkNameWithoutWalk, opening, i),
            j,
            &mut part,
        )
    };
    part
}

pub fn model_name(file: &[u8]) -> [u64; 2] {
    let mut part = [u64::MAX; 2];
    unsafe { header::vmd_model_name(pointer(file), file.len(), &mut part) };
    if altered(Alter::OlderNameOf20) && is_older(file) && part[1] == 10 {
        part[1] += file[40..].iter().take(10).take_while(|&&byte| byte != 0).count() as u64;
    } else if altered(Alter::OlderNameMissing) && is_older(file) {
        part = [0, 0];
    }
    part
}

// ---- export

pub fn export_size(manner: Manner, file: &[u8], size: &mut u64) -> u32 {
    call_begins(manner);
    let answer = read_in(manner, Call::ExportSize, &[file], |manner| {
        let call = of_manner!(manner, vmd_export_size, vmd_export_size_lenient);
        unsafe { call(pointer(file), file.len(), size) }
    });
    if altered(Alter::ExportSize) && answer == 0 {
        *size += 1;
    }
    if altered(Alter::OlderExportSize) && answer == 0 && is_older(file) {
        *size -= NARROWER as u64;
    }
    answer
}

pub fn export_animation(manner: Manner, file: &[u8], out: &mut [u8], written: &mut u64) -> u32 {
    call_begins(manner);
    let answer = read_in(manner, Call::Export, &[file], |manner| {
        let call = of_manner!(manner, vmd_export_animation, vmd_export_animation_lenient);
        unsafe { call(pointer(file), file.len(), pointer_mut(out), out.len(), written) }
    });
    let short = || original::export_file(file).is_ok_and(|bytes| out.len() < bytes.len());
    if altered(Alter::OutputBeforeManner) && turned_down(answer) && short() {
        return original::OUTPUT_TOO_SHORT;
    }
    alter_export(answer, out, written);
    if altered(Alter::OlderExportMagic) && answer == 0 && is_older(file) {
        out[..OLDER_MAGIC.len()].copy_from_slice(OLDER_MAGIC);
    } else if altered(Alter::OlderExportName) && answer == 0 && is_older(file) {
        out[40..44].copy_from_slice(&file[40..44]);
    }
    answer
}

fn alter_export(answer: u32, out: &mut [u8], written: &mut u64) {
    let end = *written as usize;
    if altered(Alter::ExportInRefusal) && answer != 0 {
        out.iter_mut().take(1).for_each(|byte| *byte ^= 1);
    } else if answer != 0 {
    } else if altered(Alter::ExportByte) {
        out[end - 1] ^= 1;
    } else if altered(Alter::ExportPastItsEnd) && end < out.len() {
        out[end] ^= 1;
    } else if altered(Alter::ExportIkStatesDropped) {
        let mut take = original::read(&out[..end]).expect("an export is read back");
        take.property_frames.iter_mut().for_each(|frame| frame.ik_states.clear());
        let bytes = original::export(&take);
        out[..bytes.len()].copy_from_slice(&bytes);
        *written = bytes.len() as u64;
    }
}

// ---- conversion to the older edition

pub fn export_older_size(manner: Manner, file: &[u8], size: &mut u64) -> u32 {
    call_begins(manner);
    let answer = read_in(manner, Call::ConvertSize, &[file], |manner| {
        let call = of_manner!(manner, vmd_export_older_size, vmd_export_older_size_lenient);
        unsafe { call(pointer(file), file.len(), size) }
    });
    if altered(Alter::ConvertSize) && answer == 0 {
        *size += NARROWER as u64;
    }
    if altered(Alter::ConvertSizeOfLongName) && answer == original::MODEL_NAME_TOO_LONG {
        return 0;
    }
    answer
}

pub fn export_older_animation(manner: Manner, file: &[u8], out: &mut [u8], written: &mut u64) -> u32 {
    call_begins(manner);
    if let Some(refusal) = conversion_refused(file, out.len()) {
        return refusal;
    }
    let answer = read_in(manner, Call::Convert, &[file], |manner| {
        let call = of_manner!(manner, vmd_export_older_animation, vmd_export_older_animation_lenient);
        unsafe { call(pointer(file), file.len(), pointer_mut(out), out.len(), written) }
    });
    if altered(Alter::ConvertElevenAccepted) && answer == original::MODEL_NAME_TOO_LONG && model_name(file)[1] == 11 {
        return 0;
    }
    if altered(Alter::LongNameBeforeManner) && turned_down(answer) && model_name(file)[1] > 10 {
        return original::MODEL_NAME_TOO_LONG;
    }
    alter_conversion(file, answer, out, written);
    answer
}

/// A refusal that the library does not give, or not first; nothing is written.
fn conversion_refused(file: &[u8], out_len: usize) -> Option<u32> {
    let accepted = || original::read(file).is_ok();
    let name_len = || model_name(file)[1];
    let size = || original::export_file(file).map(|bytes| bytes.len() - NARROWER);
    let too_long = altered(Alter::ConvertTenRefused) && name_len() == 10 && accepted()
        || altered(Alter::ConvertOlderRefused) && is_older(file) && accepted()
        || altered(Alter::ConvertLongNameFirst) && name_len() > 10;
    let too_short = altered(Alter::ConvertShortFirst) && size().is_ok_and(|size| out_len < size)
        || altered(Alter::ConvertExactRefused) && name_len() <= 10 && size() == Ok(out_len);
    if too_long {
        Some(original::MODEL_NAME_TOO_LONG)
    } else if too_short {
        Some(original::OUTPUT_TOO_SHORT)
    } else {
        None
    }
}

fn alter_conversion(file: &[u8], answer: u32, out: &mut [u8], written: &mut u64) {
    let end = *written as usize;
    if altered(Alter::ConvertInRefusal) && answer != 0 {
        out.iter_mut().take(1).for_each(|byte| *byte ^= 1);
    } else if answer != 0 {
    } else if altered(Alter::ConvertByte) {
        out[end - 1] ^= 1;
    } else if altered(Alter::ConvertPastItsEnd) && end < out.len() {
        out[end] ^= 1;
    } else if altered(Alter::ConvertNewerMagic) {
        out[..MAGIC.len()].copy_from_slice(MAGIC);
    } else if altered(Alter::ConvertMagicKept) {
        out[26..30].copy_from_slice(&file[26..30]);
    } else if altered(Alter::ConvertNameKept) {
        out[30..40].copy_from_slice(&file[30..40]);
    } else if altered(Alter::ConvertNameOf20) && end + NARROWER <= out.len() {
        out.copy_within(40..end, 50);
        out[40..50].fill(0);
        *written += NARROWER as u64;
    }
}

// ---- joining

pub fn join_size(manner: Manner, first: &[u8], second: &[u8], size: &mut u64) -> u32 {
    call_begins(manner);
    let answer = read_in(manner, Call::JoinSize, &[first, second], |manner| {
        let call = of_manner!(manner, vmd_join_size, vmd_join_size_lenient);
        unsafe { call(pointer(first), first.len(), pointer(second), second.len(), size) }
    });
    if altered(Alter::JoinSize) && answer == 0 {
        *size += 1;
    }
    answer
}

pub fn join_animations(manner: Manner, first: &[u8], second: &[u8], out: &mut [u8], written: &mut u64) -> u32 {
    call_begins(manner);
    let empty;
    let (a, mut b) = if altered(Alter::JoinTurned) { (second, first) } else { (first, second) };
    if altered(Alter::JoinOlderDropped) && is_older(b) && original::read(b).is_ok() {
        empty = Pieces::empty().file();
        b = &empty;
    }
    let answer = read_in(manner, Call::Join, &[first, second], |manner| {
        let call = of_manner!(manner, vmd_join_animations, vmd_join_animations_lenient);
        unsafe { call(pointer(a), a.len(), pointer(b), b.len(), pointer_mut(out), out.len(), written) }
    });
    if altered(Alter::JoinByte) && answer == 0 {
        out[*written as usize - 1] ^= 1;
    }
    answer
}

/// Which file the joined model name is in, where it begins there, and its length.
pub fn joined_model(first: &[u8], second: &[u8]) -> [u64; 3] {
    let mut part = [u64::MAX; 3];
    unsafe { header::vmd_joined_model(pointer(first), first.len(), pointer(second), second.len(), &mut part) };
    if altered(Alter::JoinModelName) {
        part[0] ^= 1;
    } else if altered(Alter::JoinOlderModelName) && part[2] > 0 && is_older([first, second][part[0] as usize]) {
        part[1] += 1;
    }
    part
}

// ---- tidying

/// Records kept and dropped of each section.
#[derive(Clone, PartialEq, Eq, Debug)]
pub struct Figures {
    pub kept: [u32; 6],
    pub dropped: [u32; 6],
}

pub fn tidy_size(manner: Manner, file: &[u8], scratch: &mut [u64], size: &mut u64, figures: &mut Figures) -> u32 {
    call_begins(manner);
    let answer = read_in(manner, Call::TidySize, &[file], |manner| {
        let call = of_manner!(manner, vmd_tidy_size, vmd_tidy_size_lenient);
        let Figures { kept, dropped } = &mut *figures;
        unsafe { call(pointer(file), file.len(), pointer_mut(scratch), scratch.len(), size, kept, dropped) }
    });
    if altered(Alter::TidySize) && answer == 0 {
        *size = original::export_file(file).map_or(0, |bytes| bytes.len() as u64);
    }
    alter_tidied_scratch(answer, scratch, figures);
    answer
}

pub fn tidy_animation(
    manner: Manner,
    file: &[u8],
    scratch: &mut [u64],
    out: &mut [u8],
    written: &mut u64,
    figures: &mut Figures,
) -> u32 {
    call_begins(manner);
    if let Some(refusal) = tidying_refused(file, scratch.len(), out.len()) {
        return refusal;
    }
    let answer = read_in(manner, Call::Tidy, &[file], |manner| {
        let call = of_manner!(manner, vmd_tidy_animation, vmd_tidy_animation_lenient);
        let (places, out_len) = (scratch.len(), out.len());
        let (scratch, out, Figures { kept, dropped }) = (pointer_mut(scratch), pointer_mut(out), &mut *figures);
        unsafe { call(pointer(file), file.len(), scratch, places, out, out_len, written, kept, dropped) }
    });
    if altered(Alter::TidyScratchBeforeManner) && turned_down(answer) && scratch.len() < largest_section(file) {
        return SCRATCH_TOO_SHORT;
    }
    if answer == 0 {
        alter_tidied(file, out, written);
    } else if altered(Alter::TidyInRefusal) {
        out.iter_mut().take(1).for_each(|byte| *byte ^= 1);
    }
    alter_tidied_scratch(answer, scratch, figures);
    answer
}

fn largest_section(file: &[u8]) -> usize {
    original::read(file).map_or(0, |take| original::counts_of(&take).into_iter().max().unwrap())
}

/// A refusal that the library does not give, or not first; nothing is written.
fn tidying_refused(file: &[u8], places: usize, out_len: usize) -> Option<u32> {
    let take = || original::read(file).ok();
    let exported_len = || take().map_or(0, |take| original::export(&take).len());
    let tidied_len = || take().map_or(0, |take| original::export(&original::tidied(&take)).len());
    let records = || take().map_or(0, |take| original::counts_of(&take).iter().sum());
    let too_short =
        altered(Alter::TidyExportAsked) && out_len < exported_len() || altered(Alter::TidyOutputFirst) && out_len < tidied_len();
    let few_places = altered(Alter::TidyPlaceForEach) && places < records()
        || altered(Alter::TidyScratchFirst) && places == 0 && take().is_none();
    if too_short {
        Some(original::OUTPUT_TOO_SHORT)
    } else if few_places {
        Some(SCRATCH_TOO_SHORT)
    } else {
        None
    }
}

fn alter_tidied(file: &[u8], out: &mut [u8], written: &mut u64) {
    let end = *written as usize;
    if altered(Alter::TidyPastItsEnd) && end < out.len() {
        out[end] ^= 1;
    }
    if !TIDIED_OTHERWISE.into_iter().chain(TRACKED_OTHERWISE).any(altered) {
        return;
    }
    let bytes = mistaken(file, &out[..end]);
    if bytes.len() <= out.len() {
        out[..bytes.len()].copy_from_slice(&bytes);
        *written = bytes.len() as u64;
    }
}

/// What a tidying with one of these mistakes would have written.
fn mistaken(file: &[u8], written: &[u8]) -> Vec<u8> {
    let read = || original::read(file).expect("a file that was tidied");
    let mut tidied = original::read(written).expect("a tidied file");
    if altered(Alter::TidyFirstKept) {
        let first = first_morphs(read(), |record| record.frame);
        tidied.morph_frames.iter_mut().for_each(|kept| *kept = first[&track_of(kept, kept.frame)].clone());
    } else if altered(Alter::TidyTracksByName) {
        tidied.bone_frames.sort_by(|a, b| a.bone_name_bytes.cmp(&b.bone_name_bytes));
    } else if altered(Alter::TidyTrackUnsorted) {
        tidied.light_frames.reverse();
    } else if altered(Alter::TidyLastFrameDropped) {
        tidied.morph_frames.pop();
    } else if altered(Alter::TidyOneTrack) {
        tidied.morph_frames.sort_by_key(|record| record.frame);
    } else if altered(Alter::TidyIkStates) {
        let frames = &mut tidied.property_frames;
        (1..frames.len()).for_each(|i| frames[i - 1].ik_states = frames[i].ik_states.clone());
    } else if altered(Alter::TidyModelName) {
        tidied.metadata.model_name_bytes.clear();
    } else if altered(Alter::TidyDropsNothing) {
        tidied = read();
    } else if altered(Alter::TidyRemarkCut) {
        cut_remarks(&mut tidied);
    } else if altered(Alter::TidyFirstName) {
        let first = first_morphs(read(), |_| 0);
        for kept in &mut tidied.morph_frames {
            let first = &first[&track_of(kept, 0)];
            kept.morph_name_bytes.clone_from(&first.morph_name_bytes);
            kept.morph_name.clone_from(&first.morph_name);
        }
    } else if altered(Alter::TidyRawNames) {
        tidied = original::tidied_by(&read(), original::raw_name);
    } else if let Some(key) = mistaken_key(TRACKED_OTHERWISE) {
        tidied = original::tidied_by(&read(), key);
    }
    original::export(&tidied)
}

/// What an altered library takes for the part of a name that tells its track: the bytes before a carriage return, or before a
/// line feed that is not the field's first byte, its ninth or its last.
fn mistaken_key([at_return, first, at_8, at_14]: [Alter; 4]) -> Option<Key> {
    let keys: [(Alter, Key); 4] = [
        (at_return, |name| before(name, |_, byte| byte == b'\r')),
        (first, |name| before(name, |place, byte| byte == b'\n' && place != 0)),
        (at_8, |name| before(name, |place, byte| byte == b'\n' && place != 8)),
        (at_14, |name| before(name, |place, byte| byte == b'\n' && place != 14)),
    ];
    keys.into_iter().find(|(what, _)| altered(*what)).map(|(_, key)| key)
}

fn before(name: &[u8], ends: fn(usize, u8) -> bool) -> &[u8] {
    let end = (0..name.len()).find(|&place| ends(place, name[place])).unwrap_or(name.len());
    &name[..end]
}

/// The names without what stands after their line feeds.
fn cut_remarks(take: &mut VmdParsedAnimation) {
    let cut = |bytes: &mut Vec<u8>, text: &mut String| {
        bytes.truncate(original::registration_name(bytes).len());
        text.clear(); // which is written where there are no bytes
    };
    take.bone_frames.iter_mut().for_each(|record| cut(&mut record.bone_name_bytes, &mut record.bone_name));
    take.morph_frames.iter_mut().for_each(|record| cut(&mut record.morph_name_bytes, &mut record.morph_name));
}

const TRACKED_OTHERWISE: [Alter; 4] =
    [Alter::TidyReturnCuts, Alter::TidyLineFeedFirst, Alter::TidyLineFeedAt8, Alter::TidyLineFeedAt14];

const TIDIED_OTHERWISE: [Alter; 11] = [
    Alter::TidyFirstKept,
    Alter::TidyTracksByName,
    Alter::TidyTrackUnsorted,
    Alter::TidyLastFrameDropped,
    Alter::TidyOneTrack,
    Alter::TidyIkStates,
    Alter::TidyModelName,
    Alter::TidyDropsNothing,
    Alter::TidyRawNames,
    Alter::TidyRemarkCut,
    Alter::TidyFirstName,
];

/// A track of morphs, and a number by which its records are told apart.
type Track = (Vec<u8>, u32);

fn track_of(record: &VmdParsedMorphFrame, number: u32) -> Track {
    (original::registration_name(&record.morph_name_bytes).to_vec(), number)
}

/// The first morph of each number in each track.
fn first_morphs(take: VmdParsedAnimation, number: fn(&VmdParsedMorphFrame) -> u32) -> HashMap<Track, VmdParsedMorphFrame> {
    take.morph_frames.into_iter().rev().map(|record| (track_of(&record, number(&record)), record)).collect()
}

fn alter_tidied_scratch(answer: u32, scratch: &mut [u64], figures: &mut Figures) {
    let records = |figures: &Figures| (0..6).map(|i| figures.kept[i] + figures.dropped[i]).max().unwrap() as usize;
    if answer != 0 {
        if altered(Alter::TidyScratchInRefusal) && answer == original::OUTPUT_TOO_SHORT {
            scratch.iter_mut().take(1).for_each(|place| *place = 0);
        } else if altered(Alter::TidyFiguresInRefusal) && answer == SCRATCH_TOO_SHORT {
            figures.dropped[5] = 0;
        }
    } else if altered(Alter::TidyScratchLeft) {
        scratch.iter_mut().take(records(figures)).for_each(|place| *place = 1);
    } else if altered(Alter::TidyScratchPastItsEnd) {
        scratch.iter_mut().skip(records(figures)).for_each(|place| *place = 0);
    } else if altered(Alter::TidyKept) {
        figures.kept.swap(3, 4);
    } else if altered(Alter::TidyDropped) {
        figures.dropped = [0; 6];
    }
}

// ---- excerpts

pub fn excerpt_size(manner: Manner, file: &[u8], span: Span, size: &mut u64) -> u32 {
    call_begins(manner);
    match frames_tested_otherwise(manner, file, span) {
        Some(Err(refusal)) => return refusal,
        Some(Ok(bytes)) => {
            *size = bytes.len() as u64;
            return 0;
        }
        None => {}
    }
    let answer = read_in(manner, Call::ExcerptSize, &[file], |manner| {
        let call = of_manner!(manner, vmd_excerpt_size, vmd_excerpt_size_lenient);
        unsafe { call(pointer(file), file.len(), span.first, span.last, size) }
    });
    if answer != 0 {
        if altered(Alter::ExcerptSizeInRefusal) {
            *size = 0;
        }
    } else if altered(Alter::ExcerptSize) {
        *size = original::export_file(file).map_or(0, |bytes| bytes.len() as u64);
    } else if altered(Alter::ExcerptSizeWithoutStates) {
        let take = original::excerpt(&original::read(file).expect("a file with an excerpt"), span);
        *size = 74 + original::counts_of(&take).iter().zip(SIZES).map(|(count, size)| (count * size) as u64).sum::<u64>();
    }
    answer
}

pub fn excerpt_animation(manner: Manner, file: &[u8], span: Span, out: &mut [u8], written: &mut u64) -> u32 {
    call_begins(manner);
    if let Some(given) = frames_tested_otherwise(manner, file, span) {
        return given.map_or_else(|refusal| refusal, |bytes| put_excerpt(&bytes, out, written));
    }
    if output_tested_otherwise(manner, file, span, out.len()) {
        return original::OUTPUT_TOO_SHORT;
    }
    let answer = read_in(manner, Call::Excerpt, &[file], |manner| {
        let call = of_manner!(manner, vmd_excerpt_animation, vmd_excerpt_animation_lenient);
        unsafe { call(pointer(file), file.len(), span.first, span.last, pointer_mut(out), out.len(), written) }
    });
    let short = || original::excerpt_file(file, span).is_ok_and(|bytes| out.len() < bytes.len());
    if altered(Alter::ExcerptOutputBeforeManner) && turned_down(answer) && short() {
        return original::OUTPUT_TOO_SHORT;
    }
    if answer == 0 {
        alter_excerpt(file, span, out, written);
    } else {
        alter_no_excerpt(answer, out, written);
    }
    answer
}

fn put_excerpt(bytes: &[u8], out: &mut [u8], written: &mut u64) -> u32 {
    if out.len() < bytes.len() {
        return original::OUTPUT_TOO_SHORT;
    }
    out[..bytes.len()].copy_from_slice(bytes);
    *written = bytes.len() as u64;
    0
}

/// What a library gives that tests the two frames otherwise, where that is something else.
fn frames_tested_otherwise(manner: Manner, file: &[u8], span: Span) -> Option<Result<Vec<u8>, u32>> {
    let above = span.first_is_above();
    let above_by_one = above && span.first - span.last == 1;
    let excerpt = |span: Span| read_by(manner, file).map(|take| original::export(&original::excerpt(&take, span)));
    if altered(Alter::ExcerptOneFrameRefused) && span.first == span.last {
        Some(Err(FIRST_ABOVE_LAST))
    } else if altered(Alter::ExcerptAboveAccepted) && above || altered(Alter::ExcerptAboveByOne) && above_by_one {
        Some(excerpt(span)) // no record stays
    } else if altered(Alter::ExcerptAboveTurned) && above {
        Some(excerpt(span.turned()))
    } else if altered(Alter::ExcerptReadFirst) && above {
        read_by(manner, file).err().map(Err)
    } else {
        None
    }
}

/// Reading in this manner, without the library.
fn read_by(manner: Manner, file: &[u8]) -> Result<VmdParsedAnimation, u32> {
    match (manner, strict::met(file).answer()) {
        (Manner::Strict, refusal @ 1..) => Err(refusal),
        _ => original::read(file),
    }
}

/// A 13 that the library does not give, or not first; nothing is written.
fn output_tested_otherwise(manner: Manner, file: &[u8], span: Span, out_len: usize) -> bool {
    let above = span.first_is_above();
    let below_export = || read_by(manner, file).is_ok_and(|take| out_len < original::export(&take).len());
    let exact = || read_by(manner, file).is_ok_and(|take| out_len == original::export(&original::excerpt(&take, span)).len());
    altered(Alter::ExcerptOutputFirst) && above && below_export()
        || altered(Alter::ExcerptExportAsked) && !above && below_export()
        || altered(Alter::ExcerptExactRefused) && !above && exact()
}

fn alter_no_excerpt(answer: u32, out: &mut [u8], written: &mut u64) {
    let first_byte = altered(Alter::ExcerptAboveWritten) && answer == FIRST_ABOVE_LAST
        || altered(Alter::ExcerptShortWritten) && answer == original::OUTPUT_TOO_SHORT;
    if first_byte {
        out.iter_mut().take(1).for_each(|byte| *byte ^= 1);
    } else if altered(Alter::ExcerptSlotInRefusal) {
        *written = 0;
    }
}

fn alter_excerpt(file: &[u8], span: Span, out: &mut [u8], written: &mut u64) {
    let end = *written as usize;
    if altered(Alter::ExcerptPastItsEnd) && end < out.len() {
        out[end] ^= 1;
    } else if altered(Alter::ExcerptByte) {
        out[end - 1] ^= 1;
    } else if altered(Alter::ExcerptOlderMagic) && is_older(file) {
        out[..OLDER_MAGIC.len()].copy_from_slice(OLDER_MAGIC);
    } else if altered(Alter::ExcerptWholeIsFile) && span == WHOLE {
        put_excerpt(file, out, written);
    } else if UNFILTERED.into_iter().chain(UNSHIFTED).chain(EXCERPTED_OTHERWISE).any(altered) {
        put_excerpt(&mistaken_excerpt(file, span), out, written);
    }
}

const UNFILTERED: [Alter; 6] = [
    Alter::ExcerptBonesUnfiltered,
    Alter::ExcerptMorphsUnfiltered,
    Alter::ExcerptCamerasUnfiltered,
    Alter::ExcerptLightsUnfiltered,
    Alter::ExcerptSelfShadowsUnfiltered,
    Alter::ExcerptPropertiesUnfiltered,
];

const UNSHIFTED: [Alter; 6] = [
    Alter::ExcerptBonesUnshifted,
    Alter::ExcerptMorphsUnshifted,
    Alter::ExcerptCamerasUnshifted,
    Alter::ExcerptLightsUnshifted,
    Alter::ExcerptSelfShadowsUnshifted,
    Alter::ExcerptPropertiesUnshifted,
];

const EXCERPTED_OTHERWISE: [Alter; 10] = [
    Alter::ExcerptFirstExcluded,
    Alter::ExcerptLastExcluded,
    Alter::ExcerptSigned,
    Alter::ExcerptShiftedFirst,
    Alter::ExcerptSmallestSubtracted,
    Alter::ExcerptCounts,
    Alter::ExcerptSorted,
    Alter::ExcerptModelName,
    Alter::ExcerptIkStates,
    Alter::ExcerptIkStatesOfNumber,
];

/// What an excerpt with one of these mistakes would be.
fn mistaken_excerpt(file: &[u8], span: Span) -> Vec<u8> {
    let take = original::read(file).expect("a file with an excerpt");
    let smallest = original::smallest_frame(&take);
    let mut excerpt = original::reframed(&take, |section, frame| {
        let subtracted = match () {
            _ if altered(UNSHIFTED[section]) => 0,
            _ if altered(Alter::ExcerptSmallestSubtracted) => smallest,
            _ => span.first,
        };
        (altered(UNFILTERED[section]) || stays_by_mistake(frame, span)).then(|| frame.wrapping_sub(subtracted))
    });
    if altered(Alter::ExcerptSorted) {
        excerpt.morph_frames.sort_by_key(|record| record.frame);
    } else if altered(Alter::ExcerptModelName) {
        excerpt.metadata.model_name_bytes.clear();
        excerpt.metadata.model_name.clear(); // which is written where there are no bytes
    } else if altered(Alter::ExcerptIkStates) {
        excerpt.property_frames.iter_mut().for_each(|frame| frame.ik_states.clear());
    } else if altered(Alter::ExcerptIkStatesOfNumber) {
        let frames = excerpt.property_frames.iter_mut().zip(&take.property_frames);
        frames.for_each(|(frame, of_file)| frame.ik_states.clone_from(&of_file.ik_states));
    }
    let mut bytes = original::export(&excerpt);
    if altered(Alter::ExcerptCounts) {
        let (of_file, kept, mut at) = (original::counts_of(&take), original::counts_of(&excerpt), 50);
        for (i, count) in of_file.into_iter().enumerate() {
            bytes[at..at + 4].copy_from_slice(&(count as u32).to_le_bytes());
            at += 4 + SIZES[i] * kept[i];
        }
    }
    bytes
}

fn stays_by_mistake(frame: u32, Span { first, last }: Span) -> bool {
    match () {
        _ if altered(Alter::ExcerptFirstExcluded) => first < frame && frame <= last,
        _ if altered(Alter::ExcerptLastExcluded) => first <= frame && frame < last,
        _ if altered(Alter::ExcerptSigned) => first as i32 <= frame as i32 && frame as i32 <= last as i32,
        _ if altered(Alter::ExcerptShiftedFirst) => first <= frame && frame - first <= last,
        _ => first <= frame && frame <= last,
    }
}

// ---- building

pub fn first_fault(name: &[u8]) -> usize {
    let place = unsafe { header::vmd_first_fault(pointer(name), name.len()) };
    if altered(Alter::NameTest) && name.contains(&0x7f) {
        return name.len();
    }
    if altered(Alter::NamePlace) && place + 1 < name.len() && is_lead(name[place]) {
        return place + 1;
    }
    if let Some(is_good_pair) = other_pairs([Alter::NamePairAccepted, Alter::NamePairRefused, Alter::NameRangeRefused]) {
        return names::first_fault_with(name, is_good_pair);
    }
    if altered(Alter::NamePairPlace) && matches!(name[place..], [a, b, ..] if is_lead(a) && is_trail(b)) {
        return place + 1;
    }
    place
}

/// The pairs that an altered library takes for good ones: 0x85 0x40 too, all but the last of the index, those of the index alone.
fn other_pairs([accepted, refused, range_refused]: [Alter; 3]) -> Option<fn(usize) -> bool> {
    if altered(accepted) {
        Some(|pair| pair == names::pointer(0x85, 0x40) || has_character(pair))
    } else if altered(refused) {
        Some(|pair| pair != RUNS[RUNS.len() - 1].1 && has_character(pair))
    } else if altered(range_refused) {
        Some(|pair| !BESIDE_THE_INDEX.contains(&pair) && has_character(pair))
    } else {
        None
    }
}

/// The parts with names that are good, or not, where an altered library would take them so.
fn judged(parts: &Parts) -> Cow<'_, Parts> {
    match other_pairs([Alter::BuildPairAccepted, Alter::BuildPairRefused, Alter::BuildRangeRefused]) {
        Some(is_good_pair) if parts.are_whole() => Cow::Owned(parts.with_names(|name| judged_name(name, is_good_pair))),
        _ => Cow::Borrowed(parts),
    }
}

fn judged_name(name: &[u8], is_good_pair: fn(usize) -> bool) -> Vec<u8> {
    let good = names::first_fault_with(name, is_good_pair) == name.len();
    if good == (names::first_fault(name) == name.len()) {
        return name.to_vec();
    }
    let judged = if good { b'A' } else { 0xa0 };
    name.iter().map(|&b| if b == 0 { 0 } else { judged }).collect()
}

#[rustfmt::skip]
pub fn build_size(parts: &Parts, c: Columns, size: &mut u64) -> u32 {
    let p = judged(parts);
    unsafe {
        header::vmd_build_size(
            pointer(&p.model_name), p.model_name.len(),
            pointer(&p.bone_name_bytes), p.bone_name_bytes.len(),
            pointer(&p.bone_name_ends), p.bone_name_ends.len(),
            pointer(&p.morph_name_bytes), p.morph_name_bytes.len(),
            pointer(&p.morph_name_ends), p.morph_name_ends.len(),
            pointer(&p.camera_frames), p.camera_frames.len(),
            pointer(&p.light_frames), p.light_frames.len(),
            pointer(&p.self_shadow_frames), p.self_shadow_frames.len(),
            pointer(&p.property_frames), p.property_frames.len(),
            pointer(c.bone_name_indices), c.bone_name_indices.len(),
            pointer(c.bone_frames), c.bone_frames.len(),
            pointer(c.bone_translations_xyz), c.bone_translations_xyz.len(),
            pointer(c.bone_rotations_xyzw), c.bone_rotations_xyzw.len(),
            pointer(c.bone_interpolations), c.bone_interpolations.len(),
            pointer(c.morph_name_indices), c.morph_name_indices.len(),
            pointer(c.morph_frames), c.morph_frames.len(),
            pointer(c.morph_weights), c.morph_weights.len(),
            size,
        )
    }
}

#[rustfmt::skip]
pub fn build_animation_from_parts(parts: &Parts, c: Columns, out: &mut [u8], written: &mut u64) -> u32 {
    let p = judged(parts);
    let answer = unsafe {
        header::vmd_build_animation_from_parts(
            pointer(&p.model_name), p.model_name.len(),
            pointer(&p.bone_name_bytes), p.bone_name_bytes.len(),
            pointer(&p.bone_name_ends), p.bone_name_ends.len(),
            pointer(&p.morph_name_bytes), p.morph_name_bytes.len(),
            pointer(&p.morph_name_ends), p.morph_name_ends.len(),
            pointer(&p.camera_frames), p.camera_frames.len(),
            pointer(&p.light_frames), p.light_frames.len(),
            pointer(&p.self_shadow_frames), p.self_shadow_frames.len(),
            pointer(&p.property_frames), p.property_frames.len(),
            pointer(c.bone_name_indices), c.bone_name_indices.len(),
            pointer(c.bone_frames), c.bone_frames.len(),
            pointer(c.bone_translations_xyz), c.bone_translations_xyz.len(),
            pointer(c.bone_rotations_xyzw), c.bone_rotations_xyzw.len(),
            pointer(c.bone_interpolations), c.bone_interpolations.len(),
            pointer(c.morph_name_indices), c.morph_name_indices.len(),
            pointer(c.morph_frames), c.morph_frames.len(),
            pointer(c.morph_weights), c.morph_weights.len(),
            pointer_mut(out), out.len(), written,
        )
    };
    alter_build(answer, out, written)
}

fn alter_build(answer: u32, out: &mut [u8], written: &mut u64) -> u32 {
    if altered(Alter::BuildRefusal) && answer == 12 {
        return 8;
    }
    if altered(Alter::BuildInRefusal) && answer != 0 {
        out.iter_mut().take(1).for_each(|byte| *byte ^= 1);
    }
    if altered(Alter::BuildByte) && answer == 0 {
        out[*written as usize - 1] ^= 1;
    }
    answer
}

// ---- parts out of a take

/// The sixteen buffers of a split, in their order; floats as their bits.
pub struct Lent<'a> {
    pub bone_name_bytes: &'a mut [u8],
    pub bone_name_ends: &'a mut [u32],
    pub morph_name_bytes: &'a mut [u8],
    pub morph_name_ends: &'a mut [u32],
    pub camera_frames: &'a mut [u8],
    pub light_frames: &'a mut [u8],
    pub self_shadow_frames: &'a mut [u8],
    pub property_frames: &'a mut [u8],
    pub bone_name_indices: &'a mut [u32],
    pub bone_frames: &'a mut [u32],
    pub bone_translations_xyz: &'a mut [u32],
    pub bone_rotations_xyzw: &'a mut [u32],
    pub bone_interpolations: &'a mut [u8],
    pub morph_name_indices: &'a mut [u32],
    pub morph_frames: &'a mut [u32],
    pub morph_weights: &'a mut [u32],
}

/// bone names, their bytes, morph names, their bytes
pub fn split_sizes(manner: Manner, file: &[u8], sizes: &mut [u64; 4]) -> u32 {
    call_begins(manner);
    let read = without_remarks(file);
    let answer = read_in(manner, Call::SplitSizes, &[file], |manner| {
        let call = of_manner!(manner, vmd_split_sizes, vmd_split_sizes_lenient);
        unsafe { call(pointer(&read), read.len(), sizes) }
    });
    if altered(Alter::SplitSizes) && answer == 0 {
        sizes[3] += 1;
    }
    if altered(Alter::SplitOlderSizes) && answer == 0 && is_older(file) {
        sizes[0] += 1;
    }
    answer
}

pub fn split_animation_into_parts(manner: Manner, file: &[u8], mut p: Lent, sizes: &mut [u64; 4]) -> u32 {
    call_begins(manner);
    let read = without_remarks(file);
    let answer = read_in(manner, Call::Split, &[file], |manner| split_in(manner, &read, &mut p, sizes));
    let short = || original::read(file).is_ok_and(|take| p.morph_frames.len() < take.morph_frames.len());
    if altered(Alter::PartsBeforeManner) && turned_down(answer) && short() {
        return original::PARTS_DO_NOT_FIT;
    }
    alter_split(answer, &mut p, sizes)
}

/// A take as a splitter would see it that cuts names at their line feeds.
fn without_remarks(file: &[u8]) -> Cow<'_, [u8]> {
    if !altered(Alter::SplitRemarkCut) || strict::met(file).answer() != 0 {
        return Cow::Borrowed(file);
    }
    let mut take = original::read(file).expect("a file that is accepted in both manners");
    cut_remarks(&mut take);
    Cow::Owned(original::export(&take))
}

#[rustfmt::skip]
fn split_in(manner: Manner, file: &[u8], p: &mut Lent, sizes: &mut [u64; 4]) -> u32 {
    let call = of_manner!(manner, vmd_split_animation_into_parts, vmd_split_animation_into_parts_lenient);
    unsafe {
        call(
            pointer(file), file.len(),
            pointer_mut(p.bone_name_bytes), p.bone_name_bytes.len(),
            pointer_mut(p.bone_name_ends), p.bone_name_ends.len(),
            pointer_mut(p.morph_name_bytes), p.morph_name_bytes.len(),
            pointer_mut(p.morph_name_ends), p.morph_name_ends.len(),
            pointer_mut(p.camera_frames), p.camera_frames.len(),
            pointer_mut(p.light_frames), p.light_frames.len(),
            pointer_mut(p.self_shadow_frames), p.self_shadow_frames.len(),
            pointer_mut(p.property_frames), p.property_frames.len(),
            pointer_mut(p.bone_name_indices), p.bone_name_indices.len(),
            pointer_mut(p.bone_frames), p.bone_frames.len(),
            pointer_mut(p.bone_translations_xyz), p.bone_translations_xyz.len(),
            pointer_mut(p.bone_rotations_xyzw), p.bone_rotations_xyzw.len(),
            pointer_mut(p.bone_interpolations), p.bone_interpolations.len(),
            pointer_mut(p.morph_name_indices), p.morph_name_indices.len(),
            pointer_mut(p.morph_frames), p.morph_frames.len(),
            pointer_mut(p.morph_weights), p.morph_weights.len(),
            sizes,
        )
    }
}

fn alter_split(answer: u32, p: &mut Lent, sizes: &[u64; 4]) -> u32 {
    if altered(Alter::SplitRefusal) && answer == original::PARTS_DO_NOT_FIT {
        return original::OUTPUT_TOO_SHORT;
    }
    if altered(Alter::SplitInRefusal) && answer != 0 {
        p.morph_frames.iter_mut().take(1).for_each(|frame| *frame ^= 1);
    }
    if answer != 0 {
        return answer;
    }
    let names = sizes[0] as usize;
    if altered(Alter::SplitPastItsEnd) {
        p.bone_name_ends.iter_mut().skip(names).take(1).for_each(|end| *end ^= 1);
    } else if altered(Alter::SplitNameEnd) {
        p.bone_name_ends.iter_mut().take(names).skip(1).take(1).for_each(|end| *end ^= 1);
    } else if altered(Alter::SplitNamesSorted) {
        p.bone_name_bytes[..sizes[1] as usize].sort_unstable();
    } else if altered(Alter::SplitIndex) && sizes[2] > 0 {
        p.morph_name_indices[0] ^= 1;
    } else if altered(Alter::SplitNanMadeQuiet) {
        let bits = p.bone_rotations_xyzw.iter_mut().filter(|bits| f32::from_bits(**bits).is_nan());
        bits.for_each(|bits| *bits |= 0x0040_0000);
    } else if altered(Alter::SplitWeight) && sizes[2] > 0 {
        p.morph_weights[0] ^= 1;
    } else if altered(Alter::SplitPerspective) {
        p.camera_frames.iter_mut().skip(60).take(1).for_each(|byte| *byte ^= 1);
    } else if altered(Alter::SplitIkEnabled) && p.property_frames.get(6..9) == Some(&[0; 3]) && p.property_frames[5] > 0 {
        p.property_frames[29] ^= 1;
    } else if altered(Alter::SplitInterpolation) && sizes[0] > 0 {
        p.bone_interpolations[63] ^= 1;
    }
    answer
}

// ---- season figures

/// The slots of a season.
#[derive(Clone, PartialEq, Eq, Debug)]
pub struct Season {
    /// The smallest count of each section, then the largest.
    pub counts: [u32; 12],
    /// Six totals, records, bone names, morph names, takes accepted, takes refused.
    pub figures: [u64; 11],
}

pub fn season_none(season: &mut Season) {
    unsafe { header::vmd_season_none(&mut season.counts, &mut season.figures) };
    if altered(Alter::SeasonNone) {
        season.counts[7] = 1;
    }
}

pub fn season_add(file: &[u8], season: &mut Season) {
    let before = season.clone();
    let strictly = || altered(Alter::SeasonStrict) && turned_down(strict::met(file).answer());
    if altered(Alter::SeasonOlderRefused) && is_older(file) || strictly() {
        season.figures[10] = before.figures[10].saturating_add(1);
        return;
    }
    unsafe { header::vmd_season_add(pointer(file), file.len(), &mut season.counts, &mut season.figures) };
    alter_season(file, &before, season);
}

const COUNTED_OTHERWISE: [Alter; 4] =
    [Alter::SeasonReturnCuts, Alter::SeasonLineFeedFirst, Alter::SeasonLineFeedAt8, Alter::SeasonLineFeedAt14];

fn alter_season(file: &[u8], before: &Season, season: &mut Season) {
    if season.figures[9] == before.figures[9] {
        if altered(Alter::SeasonInRefusal) {
            season.counts[2] = 0;
        } else if altered(Alter::SeasonRefused) {
            season.figures[10] = before.figures[10].wrapping_add(1);
        } else if altered(Alter::SeasonPassed) && original::read(file).is_ok() {
            season.figures[9] = before.figures[9].saturating_add(1);
        }
    } else if altered(Alter::SeasonTotal) {
        season.figures[4] = before.figures[4];
    } else if altered(Alter::SeasonRecords) {
        season.figures[6] -= season.figures[5] - before.figures[5];
    } else if altered(Alter::SeasonSmallest) {
        season.counts[0] = season.counts[0].min(before.counts[0]);
    } else if altered(Alter::SeasonLargest) {
        season.counts[11] = season.counts[11].max(before.counts[11]);
    } else if altered(Alter::SeasonNamesOfRecords) {
        season.figures[7] = before.figures[7].wrapping_add(season.figures[0] - before.figures[0]);
    } else if altered(Alter::SeasonMorphNames) {
        season.figures[8] = before.figures[8].max(season.figures[8] - before.figures[8]);
    } else if altered(Alter::SeasonRawBoneNames) {
        season.figures[7] = before.figures[7].wrapping_add(names_by(file, original::raw_name)[0]);
    } else if altered(Alter::SeasonRawMorphNames) {
        season.figures[8] = before.figures[8].wrapping_add(names_by(file, original::raw_name)[1]);
    } else if let Some(key) = mistaken_key(COUNTED_OTHERWISE) {
        let [bones, morphs] = names_by(file, key);
        season.figures[7] = before.figures[7].wrapping_add(bones);
        season.figures[8] = before.figures[8].wrapping_add(morphs);
    } else if altered(Alter::SeasonAccepted) {
        season.figures[9] = before.figures[9];
    }
}

/// The distinct names of a take's bones and of its morphs, told by this key.
fn names_by(file: &[u8], key: Key) -> [u64; 2] {
    original::distinct_names(&original::read(file).expect("a take that was counted"), key).map(|names| names as u64)
}

/// The quotient and the remainder.
pub fn season_mean(figures: &[u64; 11]) -> [u64; 2] {
    let mut mean = [u64::MAX; 2];
    unsafe { header::vmd_season_mean(figures, &mut mean) };
    if altered(Alter::SeasonMean) && figures[9] > 0 {
        mean[0] = figures[6] / figures[9].saturating_add(figures[10]);
    }
    mean
}
