//! The C interface (`include/vmd.h`) as safe functions. The only other unsafe code of the crate is system.rs.
//!
//! What makes the calls sound: slices and references of Rust are aligned and good for their length, a `&mut` overlaps nothing
//! else, and the slots have the lengths that the header gives: their types are the declared ones. That a call stays inside
//! what it was lent, and writes all of the bytes it says it has written, is proved of the library.
use crate::header::{self, indices, sizes};
use crate::manner::Manner;
use crate::parts::{OwnedParts, Parts, PartsMut, TableSizes};
use crate::refusal::{Error, Refusal};
use crate::take::Take;
use crate::tidy::{Tidied, TidiedSections};

/// What opening gives, lent to every fetch.
#[derive(Clone, Debug)]
pub struct Opening {
    pub counts: [u32; 6],
    pub places: [u64; 6],
    /// The number of IK states, the smallest frame and the largest.
    pub totals: [u64; 3],
}

/// The lenient calls, by the names of the strict ones.
#[rustfmt::skip] // one to a line
mod lenient {
    pub use crate::header::{
        vmd_parse_animation_lenient as vmd_parse_animation,
        vmd_export_size_lenient as vmd_export_size,
        vmd_export_animation_lenient as vmd_export_animation,
        vmd_export_older_size_lenient as vmd_export_older_size,
        vmd_export_older_animation_lenient as vmd_export_older_animation,
        vmd_join_size_lenient as vmd_join_size,
        vmd_join_animations_lenient as vmd_join_animations,
        vmd_tidy_size_lenient as vmd_tidy_size,
        vmd_tidy_animation_lenient as vmd_tidy_animation,
        vmd_excerpt_size_lenient as vmd_excerpt_size,
        vmd_excerpt_animation_lenient as vmd_excerpt_animation,
        vmd_is_canonical_lenient as vmd_is_canonical,
        vmd_first_change_lenient as vmd_first_change,
        vmd_split_sizes_lenient as vmd_split_sizes,
        vmd_split_animation_into_parts_lenient as vmd_split_animation_into_parts,
    };
}

/// The function of a call that reads a whole take, by its strict name: here alone the manner is chosen.
///
/// Functions with it are inlined, so that a call without a named manner refers to the strict function alone: `./bench
/// --against` links such calls with libraries from before the lenient ones.
macro_rules! in_manner {
    ($manner:expr, $call:ident) => {
        match $manner {
            Manner::Strict => header::$call,
            Manner::Lenient => lenient::$call,
        }
    };
}

/// The fetches of a section, as safe functions: `record` words by number, and `part`s of the file by number.
macro_rules! section_calls {
    (records { $($record:ident: $record_c:ident, $words:literal;)* } parts { $($part:ident: $part_c:ident;)* }) => {
        $(pub fn $record(file: &[u8], opening: &Opening, i: usize) -> Option<[u32; $words]> {
            let mut record = [0; $words];
            let (counts, places) = (&opening.counts, &opening.places);
            // SAFETY: a slice, two arrays to read and one to write, each of the declared length.
            let number = unsafe { header::$record_c(file.as_ptr(), file.len(), counts, places, i, &mut record) };
            (number == 0).then_some(record)
        })*
        $(pub fn $part<'f>(file: &'f [u8], opening: &Opening, i: usize) -> &'f [u8] {
            let mut part = [0; 2];
            let (counts, places) = (&opening.counts, &opening.places);
            // SAFETY: as for a record.
            unsafe { header::$part_c(file.as_ptr(), file.len(), counts, places, i, &mut part) };
            part_of(file, part)
        })*
    };
}

section_calls! {
    records {
        bone_frame: vmd_bone_frame, 8;
        morph_frame: vmd_morph_frame, 2;
        camera_frame: vmd_camera_frame, 10;
        light_frame: vmd_light_frame_bits, 7;
        self_shadow_frame: vmd_self_shadow_frame, 3;
    }
    parts {
        bone_name: vmd_bone_name;
        morph_name: vmd_morph_name;
        bone_interpolation: vmd_bone_interpolation;
        camera_interpolation: vmd_camera_interpolation;
    }
}

fn answered(number: u32) -> Result<(), Refusal> {
    match number {
        0 => Ok(()),
        _ => Err(Refusal::of(number)),
    }
}

fn part_of(file: &[u8], [at, len]: [u64; 2]) -> &[u8] {
    &file[at as usize..(at + len) as usize]
}

/// Memory for just `len` elements, which is not cleared.
pub fn reserve<T>(memory: &mut Vec<T>, len: u64) -> Result<usize, Error> {
    let error = Error::NoMemory(len.saturating_mul(size_of::<T>() as u64));
    let room = usize::try_from(len).map_err(|_| error)?;
    memory.try_reserve_exact(room).map_err(|_| error)?;
    Ok(room)
}

/// Memory for just `size` bytes, written by a call that is lent it and says how many it has written. The memory is not
/// cleared before: only what was written is given.
fn written(size: u64, write: impl FnOnce(*mut u8, usize, *mut u64) -> u32) -> Result<Vec<u8>, Error> {
    let mut out = Vec::new();
    let room = reserve(&mut out, size)?;
    let mut len = 0;
    answered(write(out.as_mut_ptr(), room, &mut len))?;
    assert!(len <= size);
    // SAFETY: there is room for `size` bytes, and the call has written the first `len` of them.
    unsafe { out.set_len(len as usize) };
    Ok(out)
}

/// Place j of the scratch receives where property frame 16j stands.
#[inline]
pub fn open(manner: Manner, file: &[u8], scratch: &mut [u64]) -> Result<Opening, Refusal> {
    let call = in_manner!(manner, vmd_parse_animation);
    let mut o = Opening { counts: [0; 6], places: [0; 6], totals: [0; 3] };
    // SAFETY: two slices, and the three arrays of an opening of this function's own.
    answered(unsafe {
        call(file.as_ptr(), file.len(), scratch.as_mut_ptr(), scratch.len(), &mut o.counts, &mut o.places, &mut o.totals)
    })?;
    Ok(o)
}

pub fn property_frame(file: &[u8], o: &Opening, scratch: &[u64], i: usize) -> Option<[u32; 3]> {
    let (counts, places) = (&o.counts, &o.places);
    let mut record = [0; 3];
    // SAFETY: two slices and two arrays to read, and an array of this function's own to write.
    let number = unsafe {
        header::vmd_property_frame(
            file.as_ptr(),
            file.len(),
            counts,
            places,
            scratch.as_ptr(),
            scratch.len(),
            i,
            &mut record,
        )
    };
    (number == 0).then_some(record)
}

/// The property frame at a place, and the place of the next one.
#[inline] // also in other crates: in a walk each call waits for the last one's `next`, which should stay in a register
pub fn property_frame_at(file: &[u8], place: u64) -> Option<([u32; 3], u64)> {
    let (mut record, mut next) = ([0; 3], 0);
    // SAFETY: a slice, and an array and a number of this function's own.
    let number = unsafe { header::vmd_property_frame_at(file.as_ptr(), file.len(), place, &mut record, &mut next) };
    (number == 0).then_some((record, next))
}

pub fn ik_state(file: &[u8], o: &Opening, scratch: &[u64], i: usize, j: usize) -> Option<bool> {
    let (counts, places) = (&o.counts, &o.places);
    let mut enabled = 0;
    // SAFETY: as for a property frame; what is written is one number.
    let number = unsafe {
        header::vmd_ik_state(file.as_ptr(), file.len(), counts, places, scratch.as_ptr(), scratch.len(), i, j, &mut enabled)
    };
    (number == 0).then_some(enabled != 0)
}

pub fn ik_name<'f>(file: &'f [u8], o: &Opening, scratch: &[u64], i: usize, j: usize) -> &'f [u8] {
    let (counts, places) = (&o.counts, &o.places);
    let mut part = [0; 2];
    // SAFETY: as for a property frame.
    unsafe {
        header::vmd_ik_name(file.as_ptr(), file.len(), counts, places, scratch.as_ptr(), scratch.len(), i, j, &mut part)
    };
    part_of(file, part)
}

/// One property frame: with a scratch that has its place alone, a fetch by number 0 walks over none.
const ONE_PROPERTY_FRAME: Opening = Opening { counts: [0, 0, 0, 0, 0, 1], places: [0; 6], totals: [0; 3] };

/// IK state `j` of the property frame at a place.
pub fn ik_state_at(file: &[u8], place: u64, j: usize) -> Option<bool> {
    ik_state(file, &ONE_PROPERTY_FRAME, &[place], 0, j)
}

/// Its name.
pub fn ik_name_at(file: &[u8], place: u64, j: usize) -> &[u8] {
    ik_name(file, &ONE_PROPERTY_FRAME, &[place], 0, j)
}

pub fn model_name(file: &[u8]) -> &[u8] {
    let mut part = [0; 2];
    // SAFETY: a slice, and an array of this function's own.
    unsafe { header::vmd_model_name(file.as_ptr(), file.len(), &mut part) };
    part_of(file, part)
}

/// The calls that save a take in one of the editions: how long the file is, the file in memory of its own, and at the front
/// of a lent output.
macro_rules! saving_calls {
    ($($size:ident: $size_c:ident; $save:ident, $into:ident: $save_c:ident;)*) => {
        $(#[inline]
        pub fn $size(manner: Manner, file: &[u8]) -> Result<u64, Refusal> {
            let call = in_manner!(manner, $size_c);
            let mut size = 0;
            // SAFETY: a slice, and a number of this function's own.
            answered(unsafe { call(file.as_ptr(), file.len(), &mut size) })?;
            Ok(size)
        }

        #[inline]
        pub fn $save(manner: Manner, file: &[u8]) -> Result<Vec<u8>, Error> {
            let call = in_manner!(manner, $save_c);
            // SAFETY: a slice, and new memory for `len` bytes, into which the call writes and does not read.
            written($size(manner, file)?, |out, len, written| unsafe {
                call(file.as_ptr(), file.len(), out, len, written)
            })
        }

        #[inline]
        pub fn $into(manner: Manner, file: &[u8], out: &mut [u8]) -> Result<usize, Refusal> {
            let call = in_manner!(manner, $save_c);
            let mut written = 0;
            // SAFETY: two slices, of which the output is borrowed by this call alone.
            answered(unsafe { call(file.as_ptr(), file.len(), out.as_mut_ptr(), out.len(), &mut written) })?;
            Ok(written as usize)
        })*
    };
}

saving_calls! {
    export_size: vmd_export_size;
    export, export_into: vmd_export_animation;
    export_older_size: vmd_export_older_size;
    export_older, export_older_into: vmd_export_older_animation;
}

#[inline]
pub fn join_size(manner: Manner, first: &[u8], second: &[u8]) -> Result<u64, Refusal> {
    let call = in_manner!(manner, vmd_join_size);
    let mut size = 0;
    // SAFETY: two slices, which may be the same, and a number of this function's own.
    answered(unsafe { call(first.as_ptr(), first.len(), second.as_ptr(), second.len(), &mut size) })?;
    Ok(size)
}

#[inline]
pub fn join(manner: Manner, first: &[u8], second: &[u8]) -> Result<Vec<u8>, Error> {
    let call = in_manner!(manner, vmd_join_animations);
    // SAFETY: two slices, and new memory for `len` bytes, into which the call writes and does not read.
    written(join_size(manner, first, second)?, |out, len, written| unsafe {
        call(first.as_ptr(), first.len(), second.as_ptr(), second.len(), out, len, written)
    })
}

#[inline]
pub fn join_into(manner: Manner, first: &[u8], second: &[u8], out: &mut [u8]) -> Result<usize, Refusal> {
    let call = in_manner!(manner, vmd_join_animations);
    let mut written = 0;
    let (at, len) = (out.as_mut_ptr(), out.len());
    // SAFETY: three slices, of which the output is borrowed by this call alone.
    answered(unsafe { call(first.as_ptr(), first.len(), second.as_ptr(), second.len(), at, len, &mut written) })?;
    Ok(written as usize)
}

pub fn joined_model<'f>(first: &'f [u8], second: &'f [u8]) -> &'f [u8] {
    let mut part = [0; 3];
    // SAFETY: two slices, and an array of this function's own.
    unsafe { header::vmd_joined_model(first.as_ptr(), first.len(), second.as_ptr(), second.len(), &mut part) };
    part_of(if part[0] == 0 { first } else { second }, [part[1], part[2]])
}

#[inline]
pub fn tidy_size(manner: Manner, file: &[u8], scratch: &mut [u64]) -> Result<(u64, TidiedSections), Refusal> {
    let call = in_manner!(manner, vmd_tidy_size);
    let (mut size, mut kept, mut dropped) = (0, [0; 6], [0; 6]);
    let (places, places_len) = (scratch.as_mut_ptr(), scratch.len());
    // SAFETY: two slices, of which the scratch is borrowed by this call alone, and a number and two arrays of this function's
    // own.
    answered(unsafe { call(file.as_ptr(), file.len(), places, places_len, &mut size, &mut kept, &mut dropped) })?;
    Ok((size, TidiedSections::of(kept, dropped)))
}

#[inline]
pub fn tidy_into(
    manner: Manner,
    file: &[u8],
    scratch: &mut [u64],
    out: &mut [u8],
) -> Result<(usize, TidiedSections), Refusal> {
    let call = in_manner!(manner, vmd_tidy_animation);
    let (mut written, mut kept, mut dropped) = (0, [0; 6], [0; 6]);
    // SAFETY: three slices, of which the scratch and the output are borrowed by this call alone, and a number and two arrays of
    // this function's own.
    answered(unsafe {
        call(
            file.as_ptr(),
            file.len(),
            scratch.as_mut_ptr(),
            scratch.len(),
            out.as_mut_ptr(),
            out.len(),
            &mut written,
            &mut kept,
            &mut dropped,
        )
    })?;
    Ok((written as usize, TidiedSections::of(kept, dropped)))
}

/// Tidies into memory of its own for as many bytes as the export has, so that the records need not be counted first.
#[inline]
pub fn tidy(manner: Manner, file: &[u8], scratch: &mut [u64]) -> Result<Tidied, Error> {
    let call = in_manner!(manner, vmd_tidy_animation);
    let (mut kept, mut dropped) = ([0; 6], [0; 6]);
    let (places, places_len) = (scratch.as_mut_ptr(), scratch.len());
    // SAFETY: two slices, of which the scratch is borrowed by this call alone, two arrays of this function's own, and new
    // memory for `len` bytes, of which the call reads none that it has not written.
    let mut tidied = written(export_size(manner, file)?, |out, len, written| unsafe {
        call(file.as_ptr(), file.len(), places, places_len, out, len, written, &mut kept, &mut dropped)
    })?;
    tidied.shrink_to_fit();
    Ok(Tidied { file: tidied, sections: TidiedSections::of(kept, dropped) })
}

#[inline]
pub fn excerpt_size(manner: Manner, file: &[u8], first: u32, last: u32) -> Result<u64, Refusal> {
    let call = in_manner!(manner, vmd_excerpt_size);
    let mut size = 0;
    // SAFETY: a slice, two numbers, and a number of this function's own.
    answered(unsafe { call(file.as_ptr(), file.len(), first, last, &mut size) })?;
    Ok(size)
}

#[inline]
pub fn excerpt_into(manner: Manner, file: &[u8], first: u32, last: u32, out: &mut [u8]) -> Result<usize, Refusal> {
    let call = in_manner!(manner, vmd_excerpt_animation);
    let mut written = 0;
    let (at, len) = (out.as_mut_ptr(), out.len());
    // SAFETY: two slices, of which the output is borrowed by this call alone, and two numbers.
    answered(unsafe { call(file.as_ptr(), file.len(), first, last, at, len, &mut written) })?;
    Ok(written as usize)
}

/// Cuts into memory of its own for as many bytes as the export has, so that the records need not be counted first.
#[inline]
pub fn excerpt(manner: Manner, file: &[u8], first: u32, last: u32) -> Result<Vec<u8>, Error> {
    let call = in_manner!(manner, vmd_excerpt_animation);
    // As the library does: before the file's own refusals, which asking for the export's length would tell.
    if first > last {
        return Err(Refusal::FirstAboveLast.into());
    }
    // SAFETY: a slice, two numbers, and new memory for `len` bytes, of which the call reads none that it has not written.
    let mut excerpt = written(export_size(manner, file)?, |out, len, written| unsafe {
        call(file.as_ptr(), file.len(), first, last, out, len, written)
    })?;
    excerpt.shrink_to_fit();
    Ok(excerpt)
}

#[inline]
pub fn is_canonical(manner: Manner, file: &[u8]) -> Result<bool, Refusal> {
    let call = in_manner!(manner, vmd_is_canonical);
    let mut canonical = 0;
    // SAFETY: a slice, and a number of this function's own.
    answered(unsafe { call(file.as_ptr(), file.len(), &mut canonical) })?;
    Ok(canonical != 0)
}

#[inline]
pub fn first_change(manner: Manner, file: &[u8]) -> Result<Option<usize>, Refusal> {
    let call = in_manner!(manner, vmd_first_change);
    let mut change = [0; 2];
    // SAFETY: a slice, and an array of this function's own.
    answered(unsafe { call(file.as_ptr(), file.len(), &mut change) })?;
    let [is_changed, place] = change;
    Ok((is_changed != 0).then_some(place as usize))
}

/// The place of a name's first byte, read left to right, that starts neither a good single byte nor a good pair of Shift_JIS;
/// the length where all is good. A pair is good where it has a character. A name whose place is below its length is one that
/// [`Parts::build`](crate::Parts::build) answers 7 for, where nothing that it tests before is turned down.
///
/// ```
/// assert_eq!(vmd::first_fault(b"arm"), 3);
/// assert_eq!(vmd::first_fault(b"\x83\x41\x83\x7F"), 2); // a good pair, and a lead without its trail
/// assert_eq!(vmd::first_fault(b"\x83\x41\x85\x40"), 2); // a good pair, and one without a character
/// ```
pub fn first_fault(name: &[u8]) -> usize {
    // SAFETY: a slice.
    unsafe { header::vmd_first_fault(name.as_ptr(), name.len()) }
}

/// Hands a macro the parts, in the header's order, after those named here.
macro_rules! with_parts {
    ($calls:ident! $($first:ident)*) => {
        $calls! {
            $($first)*
            bone_name_bytes
            bone_name_ends
            morph_name_bytes
            morph_name_ends
            camera_frames
            light_frames
            self_shadow_frames
            property_frames
            bone_name_indices
            bone_frames
            bone_translations_xyz
            bone_rotations_xyzw
            bone_interpolations
            morph_name_indices
            morph_frames
            morph_weights
        }
    };
}

/// The two calls over parts: each part is a pointer and a length, in the header's order.
macro_rules! parts_calls {
    ($($part:ident)*) => {
        pub fn build_size(parts: &Parts) -> Result<u64, Refusal> {
            let mut size = 0;
            // SAFETY: slices, and a number of this function's own.
            answered(unsafe { header::vmd_build_size($(parts.$part.as_ptr(), parts.$part.len(),)* &mut size) })?;
            Ok(size)
        }
        pub fn build_into(parts: &Parts, out: &mut [u8]) -> Result<usize, Refusal> {
            let mut written = 0;
            // SAFETY: slices, of which the output is borrowed by this call alone.
            answered(unsafe {
                header::vmd_build_animation_from_parts(
                    $(parts.$part.as_ptr(), parts.$part.len(),)* out.as_mut_ptr(), out.len(), &mut written)
            })?;
            Ok(written as usize)
        }
        pub fn build(parts: &Parts) -> Result<Vec<u8>, Error> {
            // SAFETY: slices, and new memory for `len` bytes, into which the call writes and does not read.
            written(build_size(parts)?, |out, len, written| unsafe {
                header::vmd_build_animation_from_parts($(parts.$part.as_ptr(), parts.$part.len(),)* out, len, written)
            })
        }
    };
}

with_parts!(parts_calls! model_name);

#[inline]
pub fn split_sizes(manner: Manner, file: &[u8]) -> Result<TableSizes, Refusal> {
    let call = in_manner!(manner, vmd_split_sizes);
    let mut sizes = [0; 4];
    // SAFETY: a slice, and an array of this function's own.
    answered(unsafe { call(file.as_ptr(), file.len(), &mut sizes) })?;
    Ok(table_sizes(sizes))
}

fn table_sizes([bone_names, bone_name_bytes, morph_names, morph_name_bytes]: [u64; 4]) -> TableSizes {
    TableSizes { bone_names, bone_name_bytes, morph_names, morph_name_bytes }
}

/// The interpolation bytes of a bone frame.
const BONE_INTERPOLATION: u64 = 64;

/// How many elements each part has, in the header's order.
fn lengths(opening: &Opening, tables: TableSizes) -> [u64; 16] {
    let TableSizes { bone_names, bone_name_bytes, morph_names, morph_name_bytes } = tables;
    let [b, m, c, l, s, p] = opening.counts.map(u64::from);
    let k = opening.totals[indices::VMD_TOTAL_IK_STATES];
    [
        bone_name_bytes,
        bone_names,
        morph_name_bytes,
        morph_names,
        sizes::VMD_CAMERA_SIZE * c,
        sizes::VMD_LIGHT_SIZE * l,
        sizes::VMD_SELF_SHADOW_SIZE * s,
        sizes::VMD_PROPERTY_SIZE * p + sizes::VMD_IK_STATE_SIZE * k,
        b,
        b,
        3 * b,
        4 * b,
        BONE_INTERPOLATION * b,
        m,
        m,
        m,
    ]
}

/// Tables that are long enough for any names: 15 bytes and one end for each record, so that the library need not count the
/// names before it writes them. Where no table may be as long as that, the names are counted.
#[inline]
fn tables_to_lend(manner: Manner, file: &[u8], opening: &Opening) -> Result<TableSizes, Refusal> {
    let [bones, morphs, ..] = opening.counts.map(u64::from);
    if 15 * bones.max(morphs) > u64::from(u32::MAX) {
        return split_sizes(manner, file);
    }
    Ok(table_sizes([bones, 15 * bones, morphs, 15 * morphs]))
}

/// An element of a part, and what the call that splits takes for it.
trait Element {
    type InC;
}

impl Element for u8 {
    type InC = u8;
}

impl Element for u32 {
    type InC = u32;
}

/// A float is lent as its bits: the two have the same size and alignment, and every value of the one is a value of the other.
impl Element for f32 {
    type InC = u32;
}

fn lend<T: Element>(memory: *mut T) -> *mut T::InC {
    memory.cast()
}

/// The calls that split: each part is a pointer and a length, in the header's order.
macro_rules! split_calls {
    ($($part:ident)*) => {
        #[inline]
        pub fn split_into(manner: Manner, file: &[u8], lent: PartsMut) -> Result<TableSizes, Refusal> {
            let call = in_manner!(manner, vmd_split_animation_into_parts);
            let mut sizes = [0; 4];
            // SAFETY: slices, of which those to write are borrowed by this call alone, and an array of this function's own.
            answered(unsafe {
                call(file.as_ptr(), file.len(), $(lend(lent.$part.as_mut_ptr()), lent.$part.len(),)* &mut sizes)
            })?;
            Ok(table_sizes(sizes))
        }

        /// The parts of a take, but for the model name, read in the manner in which it was opened.
        pub fn split(take: &Take) -> Result<OwnedParts, Error> {
            let (manner, file, opening) = (take.manner(), take.file(), take.opening());
            let call = in_manner!(manner, vmd_split_animation_into_parts);
            let mut parts = OwnedParts::default();
            let mut sizes = [0; 4];
            let [$($part),*] = lengths(opening, tables_to_lend(manner, file, opening)?);
            $(let $part = reserve(&mut parts.$part, $part)?;)*
            // SAFETY: a slice, new memory for so many elements, of which the call reads no element that it has not written
            // (it works in the columns of indices and frames), and an array of this function's own.
            answered(unsafe {
                call(file.as_ptr(), file.len(), $(lend(parts.$part.as_mut_ptr()), $part,)* &mut sizes)
            })?;
            let room = [$($part as u64),*];
            let written = lengths(opening, table_sizes(sizes));
            assert!(written.iter().zip(room).all(|(&written, room)| written <= room));
            let [$($part),*] = written;
            // SAFETY: there is room for so many elements, and the call has written them: a take has the opening of its own
            // file in this manner, and `sizes` are those that the call gives for this file.
            $(unsafe { parts.$part.set_len($part as usize) };)*
            parts.bone_name_bytes.shrink_to_fit();
            parts.bone_name_ends.shrink_to_fit();
            parts.morph_name_bytes.shrink_to_fit();
            parts.morph_name_ends.shrink_to_fit();
            Ok(parts)
        }
    };
}

with_parts!(split_calls!);

/// A season's figures as the library has them.
#[derive(Default)]
pub struct SeasonArrays {
    pub counts: [u32; 12],
    pub figures: [u64; 11],
}

pub fn season_none() -> SeasonArrays {
    let mut season = SeasonArrays { counts: [1; 12], figures: [1; 11] }; // the zeros are to be the call's
    // SAFETY: two arrays of this function's own.
    unsafe { header::vmd_season_none(&mut season.counts, &mut season.figures) };
    season
}

pub fn season_add(file: &[u8], season: &mut SeasonArrays) {
    // SAFETY: a slice, and two arrays that are borrowed by this call alone.
    unsafe { header::vmd_season_add(file.as_ptr(), file.len(), &mut season.counts, &mut season.figures) };
}

pub fn season_mean(season: &SeasonArrays) -> [u64; 2] {
    let mut mean = [0; 2];
    // SAFETY: an array to read, and one of this function's own.
    unsafe { header::vmd_season_mean(&season.figures, &mut mean) };
    mean
}

#[cfg(test)]
mod tests {
    use super::*;

    /// A library may know refusals that this crate does not.
    #[test]
    fn every_number_is_an_answer() {
        assert_eq!(answered(0), Ok(()));
        for &refusal in Refusal::ALL {
            assert_eq!(answered(refusal.number()), Err(refusal));
        }
        let unnamed = Refusal::ALL.len() as u32 + 1;
        for number in [unnamed, 1000, u32::MAX] {
            let refusal = answered(number).unwrap_err();
            assert_eq!((refusal, refusal.number()), (Refusal::Other(number), number));
            let sentence = format!("refused {number}: the library's refusal {number}, which this crate has no name for");
            assert_eq!(Error::from(refusal).to_string(), sentence);
        }
    }

    #[test]
    fn memory_that_is_not_there() {
        assert_eq!(reserve(&mut Vec::<u8>::new(), 1 << 63), Err(Error::NoMemory(1 << 63)));
        assert_eq!(reserve(&mut Vec::<f32>::new(), 1 << 61), Err(Error::NoMemory(1 << 63)));
        assert_eq!(reserve(&mut Vec::<u32>::new(), u64::MAX), Err(Error::NoMemory(u64::MAX)));
        assert_eq!(reserve(&mut Vec::<u32>::new(), 5), Ok(5));
    }

    /// A take with two property frames, of the newer edition and of the older.
    fn both_editions() -> [Vec<u8>; 2] {
        let frame = [1, 0, 0, 0, 0, 0, 0, 0, 0];
        let sections = [&[0; 20][..], &[2, 0, 0, 0], &frame, &frame].concat();
        let newer = [b"Vocaloid Motion Data 0002\0\0\0\0\0", &[0; 20][..], &sections].concat();
        let older = [b"Vocaloid Motion Data file\0\0\0\0\0", &[0; 10][..], &sections].concat();
        [newer, older]
    }

    /// A take that the strict manner refuses, and with which number: with a byte over, and with an oversized camera count.
    fn damaged() -> [(u32, Vec<u8>); 2] {
        let [mut over, _] = both_editions();
        let mut oversized = over.clone();
        over.push(0);
        oversized[58] = 1;
        [(16, over), (17, oversized)]
    }

    /// Places are positions in the file as it is.
    #[test]
    fn places_in_both_editions() {
        let places = both_editions().map(|file| {
            let mut scratch = [7; 3];
            (open(Manner::Strict, &file, &mut scratch).unwrap().places, scratch)
        });
        assert_eq!(places[0], ([54, 58, 62, 66, 70, 74], [74, 7, 7]));
        assert_eq!(places[1], ([44, 48, 52, 56, 60, 64], [64, 7, 7]));
    }

    /// A property frame of [`property_take`]: where it stands, and how it is to be read.
    struct Frame {
        place: usize,
        record: [u32; 3],
        states: Vec<(bool, &'static [u8])>,
        end: usize,
    }

    /// A take of property frames, of which frame `i` has `i % 6` IK states.
    fn property_take(n: usize) -> (Vec<u8>, Vec<Frame>) {
        const NAMES: [&[u8]; 5] = [b"left leg", b"right leg", b"", b"twenty bytes of name", b"x"];
        let mut file = [b"Vocaloid Motion Data 0002\0\0\0\0\0", &[0; 40][..], &(n as u32).to_le_bytes()].concat();
        let mut frames = Vec::new();
        for i in 0..n {
            let place = file.len();
            let states: Vec<_> = (0..i % 6).map(|j| ((i + j) % 2 == 1, NAMES[j])).collect();
            let record = [1000 + i as u32, (i % 3 != 0).into(), states.len() as u32];
            file.extend(record[0].to_le_bytes());
            file.push((i % 3) as u8);
            file.extend(record[2].to_le_bytes());
            for (enabled, name) in &states {
                file.extend(name.iter().chain(&[0, 0xC5]).chain(&[0; 20]).take(20));
                file.push((*enabled).into());
            }
            frames.push(Frame { place, record, states, end: file.len() });
        }
        (file, frames)
    }

    /// An opening's number and slots, which held 9s.
    fn opened(file: &[u8], scratch: &mut [u64]) -> (u32, [u32; 6], [u64; 6], [u64; 3]) {
        let (mut counts, mut places, mut totals) = ([9; 6], [9; 6], [9; 3]);
        let (at, len) = (scratch.as_mut_ptr(), scratch.len());
        // SAFETY: two slices, and three arrays of this function's own.
        let number = unsafe {
            header::vmd_parse_animation(file.as_ptr(), file.len(), at, len, &mut counts, &mut places, &mut totals)
        };
        (number, counts, places, totals)
    }

    /// 3 below a sixteenth of the frames, rounded up, and all that was lent is as it was; from there on the place of every
    /// 16th frame, and further places are as they were. A file that is refused for itself is so with any scratch.
    #[test]
    fn a_place_for_sixteen_property_frames() {
        for (n, needed) in [(0, 0), (1, 1), (2, 1), (15, 1), (16, 1), (17, 2), (31, 2), (32, 2), (33, 3), (48, 3), (49, 4)] {
            let (file, frames) = property_take(n);
            let all: Vec<u64> = frames.iter().step_by(16).map(|frame| frame.place as u64).collect();
            for places in 0..needed {
                let mut scratch = vec![7; places];
                assert_eq!(opened(&file, &mut scratch), (3, [9; 6], [9; 6], [9; 3]), "{n} frames, {places} places");
                assert_eq!(scratch, vec![7; places]);
                assert_eq!(open(Manner::Strict, &file, &mut scratch).unwrap_err(), Refusal::ScratchTooShort);
                assert_eq!(open(Manner::Strict, &file[..file.len() - 1], &mut scratch).unwrap_err(), Refusal::EndsEarly);
            }
            for more in [0, 1, 20] {
                let mut scratch = vec![7; needed + more];
                let (number, counts, places, _) = opened(&file, &mut scratch);
                assert_eq!((number, counts[5], places[5]), (0, n as u32, 74), "{n} frames, {more} places more");
                assert_eq!(scratch, [&all[..], &vec![7; more]].concat(), "{n} frames, {more} places more");
            }
        }
    }

    /// With any scratch, and all that was lent is as it was. The lenient manner has the length of the file where a section was
    /// emptied.
    #[test]
    fn openings_of_damaged_takes() {
        for (number, file) in damaged() {
            for places in [0, 1, 20] {
                let mut scratch = vec![7; places];
                assert_eq!(opened(&file, &mut scratch), (number, [9; 6], [9; 6], [9; 3]));
                assert_eq!(scratch, vec![7; places]);
            }
        }
        let [(_, over), (_, oversized)] = damaged();
        let mut scratch = [7; 2];
        assert_eq!(open(Manner::Lenient, &over, &mut []).unwrap_err(), Refusal::ScratchTooShort);
        assert_eq!(open(Manner::Lenient, &over, &mut scratch).unwrap().places, [54, 58, 62, 66, 70, 74]);
        assert_eq!(scratch, [74, 7]);
        assert_eq!(open(Manner::Lenient, &oversized, &mut []).unwrap().places, [54, 58, 92, 92, 92, 92]);
    }

    /// Whether each IK state of a frame is on, and its name, in a file of so many bytes.
    fn expect_states(frame: &Frame, len: usize, fetch: impl Fn(usize) -> (Option<bool>, Vec<u8>)) {
        for j in 0..7 {
            let state = frame.states.get(j).filter(|_| frame.place + 9 + 21 * (j + 1) <= len);
            let expected = (state.map(|state| state.0), state.map_or(vec![], |state| state.1.to_vec()));
            assert_eq!(fetch(j), expected, "state {j} of {:?}, {len} bytes", frame.record);
        }
    }

    /// With the opening of the whole file: a frame is found where its nine bytes are there, and an IK state where all of its
    /// are. A walk that leaves the file is none.
    #[test]
    fn property_frames_of_a_file_that_was_cut() {
        let (file, frames) = property_take(40);
        let mut scratch = [0; 3];
        let o = open(Manner::Strict, &file, &mut scratch).unwrap();
        for end in 0..=file.len() {
            let cut = &file[..end];
            for (i, frame) in frames.iter().enumerate() {
                let is_there = frame.place + 9 <= end;
                let record = property_frame(cut, &o, &scratch, i);
                assert_eq!(record, is_there.then_some(frame.record), "frame {i}, {end} bytes");
                let of_number = |j| (ik_state(cut, &o, &scratch, i, j), ik_name(cut, &o, &scratch, i, j).to_vec());
                expect_states(frame, end, of_number);
                let place = frame.place as u64;
                expect_states(frame, end, |j| (ik_state_at(cut, place, j), ik_name_at(cut, place, j).to_vec()));
            }
        }
    }

    /// Places that no frame has: of the 16 frames that such a place serves there is none, and the others are.
    #[test]
    fn a_scratch_of_another_file() {
        let (file, frames) = property_take(40);
        let mut scratch = [0; 3];
        let o = open(Manner::Strict, &file, &mut scratch).unwrap();
        let found = |scratch: &[u64]| -> Vec<_> { (0..60).map(|i| property_frame(&file, &o, scratch, i)).collect() };
        let mut own: Vec<_> = frames.iter().map(|frame| Some(frame.record)).collect();
        own.resize(60, None);
        assert_eq!(found(&scratch), own);
        let end = file.len() as u64;
        for place in [end - 8, end, end + 1, 1 << 32, (1 << 63) - 1, 1 << 63, u64::MAX - 8, u64::MAX] {
            for j in 0..3 {
                let (mut other, mut expected) = (scratch, own.clone());
                other[j] = place;
                expected[16 * j..16 * j + 16].fill(None);
                assert_eq!(found(&other), expected, "place {j} is {place}");
            }
        }
        for places in 0..3 {
            let mut expected = own.clone();
            expected[16 * places..].fill(None);
            assert_eq!(found(&scratch[..places]), expected, "{places} places");
        }
        // another frame's place: the frames from there on
        let other = [frames[3].place as u64, scratch[0], scratch[1]];
        let numbers = (3..19).chain(0..16).chain(16..24);
        assert!(found(&other)[..40].iter().copied().eq(numbers.map(|i| Some(frames[i].record))));
        // more frames than there are, by the count: the walk leaves the file after the last
        let more = Opening { counts: [u32::MAX; 6], ..o };
        let last: Vec<_> = (32..60).map(|i| property_frame(&file, &more, &scratch, i)).collect();
        assert_eq!(last, own[32..]);
    }

    /// A frame whose IK states would end far after the file: it is there, and nothing comes after it.
    #[test]
    fn more_ik_states_than_any_file_has() {
        const WRAPPED: u32 = 204_522_253; // 21 times it is 17 in 32 bits
        for states in [5, WRAPPED, u32::MAX] {
            let (mut file, frames) = property_take(1);
            let place = file.len() as u64;
            file.extend([0xFF; 5]);
            file.extend(states.to_le_bytes());
            file.extend([0xFF; 21 * 4 + 20]);
            let o = Opening { counts: [0, 0, 0, 0, 0, 9], places: [0; 6], totals: [0; 3] };
            let found = |scratch: &[u64]| [0, 1, 2].map(|i| property_frame(&file, &o, scratch, i));
            let long = Some([u32::MAX, 1, states]);
            assert_eq!(found(&[place]), [long, None, None]);
            assert_eq!(found(&[74]), [Some(frames[0].record), long, None]);
            assert_eq!(property_frame_at(&file, place), None);
            assert_eq!((ik_state_at(&file, place, 3), ik_state_at(&file, place, 4)), (Some(true), None));
            assert_eq!([usize::MAX, 1 << 63, WRAPPED as usize].map(|j| ik_state_at(&file, place, j)), [None; 3]);
        }
    }

    /// The number, and the slots, which held 7s.
    fn frame_at(file: &[u8], place: u64) -> (u32, [u32; 3], u64) {
        let (mut record, mut next) = ([7; 3], 7);
        // SAFETY: a slice, and an array and a number of this function's own.
        let number = unsafe { header::vmd_property_frame_at(file.as_ptr(), file.len(), place, &mut record, &mut next) };
        (number, record, next)
    }

    const NO_FRAME: (u32, [u32; 3], u64) = (4, [7; 3], 7);

    /// One after another, from the section's place to the end of the file; none where the file ends before the frame does.
    #[test]
    fn the_property_frame_at_a_place() {
        let (file, frames) = property_take(20);
        let mut place = open(Manner::Strict, &file, &mut [0; 2]).unwrap().places[5];
        for frame in &frames {
            assert_eq!(place, frame.place as u64);
            let (record, next) = property_frame_at(&file, place).unwrap();
            assert_eq!((record, next), (frame.record, frame.end as u64));
            place = next;
        }
        assert_eq!((place, property_frame_at(&file, place)), (file.len() as u64, None));
        for end in 0..=file.len() {
            for frame in &frames {
                let found = (0, frame.record, frame.end as u64);
                let expected = if frame.end <= end { found } else { NO_FRAME };
                assert_eq!(frame_at(&file[..end], frame.place as u64), expected, "{end} bytes");
            }
        }
        let end = file.len() as u64;
        for place in (end - 8..end + 30).chain([1 << 32, (1 << 63) - 1, 1 << 63, u64::MAX - 8, u64::MAX]) {
            assert_eq!(frame_at(&file, place), NO_FRAME, "place {place}");
        }
        assert_eq!([0, 1, u64::MAX].map(|place| frame_at(&[], place)), [NO_FRAME; 3]);
    }

    /// At any place, whatever stands there, what the layout reads.
    #[test]
    fn the_property_frame_at_any_place() {
        let (file, _) = property_take(20);
        let number = |at: usize| u32::from_le_bytes(file[at..at + 4].try_into().unwrap());
        let mut found = 0;
        for place in 0..file.len() - 8 {
            let states = number(place + 5);
            let next = place as u64 + 9 + 21 * u64::from(states);
            let expected = if next <= file.len() as u64 {
                found += 1;
                (0, [number(place), (file[place + 4] != 0).into(), states], next)
            } else {
                NO_FRAME
            };
            assert_eq!(frame_at(&file, place as u64), expected, "place {place}");
        }
        assert!(found > 200 && found < file.len() - 200, "{found}");
    }

    /// A refused call leaves the slot for the length as it was, one that is done the rest of the output.
    #[test]
    fn slots_of_a_refused_older_export() {
        let [mut file, _] = both_editions();
        let mut out = [7; 85];
        let mut answers = |file: &[u8], room: usize| {
            let (mut size, mut len) = (7, 7);
            // SAFETY: slices, and two numbers of this function's own.
            let numbers = unsafe {
                [
                    header::vmd_export_older_size(file.as_ptr(), file.len(), &mut size),
                    header::vmd_export_older_animation(file.as_ptr(), file.len(), out[..room].as_mut_ptr(), room, &mut len),
                ]
            };
            (numbers, size, len)
        };
        assert_eq!(answers(&file, 82), ([0, 0], 82, 82));
        assert_eq!(answers(&file, 81), ([0, 13], 82, 7));
        file[30..41].fill(b'n');
        assert_eq!(answers(&file, 82), ([15, 15], 7, 7));
        assert_eq!(answers(&file[..53], 0), ([1, 1], 7, 7));
        assert_eq!(answers(&[0; 30], 0), ([2, 2], 7, 7));
        for (number, file) in damaged() {
            assert_eq!(answers(&file, 82), ([number; 2], 7, 7));
        }
        assert_eq!(out[82..], [7; 3]);
    }

    /// The numbers and the slots of both tidying calls with so many places and bytes of output; the slots held 7s.
    fn tidying(file: &[u8], places: usize, room: usize) -> [(u32, u64, [u32; 6], [u32; 6]); 2] {
        let (mut scratch, mut out) = (vec![7; places], vec![7; room]);
        let (at, out) = (scratch.as_mut_ptr(), out.as_mut_ptr());
        [false, true].map(|writes| {
            let (mut len, mut kept, mut dropped) = (7, [7; 6], [7; 6]);
            let (len_of, kept_of, dropped_of) = (&mut len, &mut kept, &mut dropped);
            // SAFETY: slices, and a number and two arrays of this function's own.
            let number = unsafe {
                if writes {
                    let (file, file_len) = (file.as_ptr(), file.len());
                    header::vmd_tidy_animation(file, file_len, at, places, out, room, len_of, kept_of, dropped_of)
                } else {
                    header::vmd_tidy_size(file.as_ptr(), file.len(), at, places, len_of, kept_of, dropped_of)
                }
            };
            (number, len, kept, dropped)
        })
    }

    /// A refused call leaves the slots as they were.
    #[test]
    fn slots_of_tidying() {
        let [file, _] = both_editions(); // two property frames, at the same frame
        let one = [0, 0, 0, 0, 0, 1];
        let (done, refused) = ((0, 83, one, one), |number| (number, 7, [7; 6], [7; 6]));
        assert_eq!(tidying(&file, 2, 83), [done; 2]);
        assert_eq!(tidying(&file, 9, 99), [done; 2]);
        assert_eq!(tidying(&file, 2, 82), [done, refused(13)]);
        assert_eq!(tidying(&file, 1, 83), [refused(3); 2]);
        assert_eq!(tidying(&file, 0, 0), [refused(3); 2]);
        assert_eq!(tidying(&file[..file.len() - 1], 0, 0), [refused(1); 2]);
        assert_eq!(tidying(&[0; 30], 0, 0), [refused(2); 2]);
        for (number, file) in damaged() {
            assert_eq!([0, 99].map(|room| tidying(&file, room, room)), [[refused(number); 2]; 2]);
        }
    }

    /// The numbers and the slots of both calls for an excerpt, with so many bytes of output; the slots held 7s.
    fn excerpts(file: &[u8], first: u32, last: u32, room: usize) -> [(u32, u64); 2] {
        let (mut size, mut len, mut out) = (7, 7, vec![7; room]);
        let (at, file, file_len) = (out.as_mut_ptr(), file.as_ptr(), file.len());
        // SAFETY: slices, and two numbers of this function's own.
        let numbers = unsafe {
            [
                header::vmd_excerpt_size(file, file_len, first, last, &mut size),
                header::vmd_excerpt_animation(file, file_len, first, last, at, room, &mut len),
            ]
        };
        [(numbers[0], size), (numbers[1], len)]
    }

    /// A refused call leaves the slot for the length as it was.
    #[test]
    fn slots_of_excerpts() {
        let [file, _] = both_editions(); // two property frames, at frame 1
        assert_eq!(excerpts(&file, 1, 1, 92), [(0, 92); 2]);
        assert_eq!(excerpts(&file, 2, 9, 99), [(0, 74); 2]);
        assert_eq!(excerpts(&file, 0, 1, 91), [(0, 92), (13, 7)]);
        assert_eq!(excerpts(&file, 2, 9, 73), [(0, 74), (13, 7)]);
        assert_eq!(excerpts(&file, 2, 1, 99), [(18, 7); 2]);
        assert_eq!(excerpts(&[], 2, 1, 0), [(18, 7); 2]);
        assert_eq!(excerpts(&file[..file.len() - 1], 2, 9, 99), [(1, 7); 2]);
        assert_eq!(excerpts(&[0; 30], 2, 9, 99), [(2, 7); 2]);
        for (number, file) in damaged() {
            assert_eq!([0, 99].map(|room| excerpts(&file, 2, 9, room)), [[(number, 7); 2]; 2]);
        }
    }

    /// The numbers and the slots of both calls about canonical files, of a manner; the slots held 7s.
    fn canonical(manner: Manner, file: &[u8]) -> ([u32; 2], u32, [u64; 2]) {
        let (mut canonical, mut change) = (7, [7; 2]);
        let (file, len) = (file.as_ptr(), file.len());
        let (is_canonical, first_change) = (in_manner!(manner, vmd_is_canonical), in_manner!(manner, vmd_first_change));
        // SAFETY: a slice, and a number and an array of this function's own.
        let numbers = unsafe { [is_canonical(file, len, &mut canonical), first_change(file, len, &mut change)] };
        (numbers, canonical, change)
    }

    /// A refused call leaves the slots as they were; the others write all of them.
    #[test]
    fn slots_of_calls_about_canonical_files() {
        let [file, older] = both_editions();
        let refused = |number| ([number; 2], 7, [7; 2]);
        let changed = |place| ([0; 2], 0, [1, place]);
        for manner in [Manner::Strict, Manner::Lenient] {
            assert_eq!(canonical(manner, &file), ([0; 2], 1, [0; 2]));
            assert_eq!(canonical(manner, &older), changed(21));
            assert_eq!(canonical(manner, &file[..70]), changed(70));
            assert_eq!(canonical(manner, &file[..file.len() - 1]), refused(1));
            assert_eq!(canonical(manner, &[0; 30]), refused(2));
        }
        for ((number, file), place) in damaged().into_iter().zip([92, 58]) {
            assert_eq!(canonical(Manner::Strict, &file), refused(number));
            assert_eq!(canonical(Manner::Lenient, &file), changed(place));
        }
    }

    /// Tables of 15 bytes for each record as long as a table may be so long, else as long as the file needs them.
    #[test]
    fn tables_that_are_lent() {
        let mut file = b"Vocaloid Motion Data 0002".to_vec();
        file.resize(54, 0);
        let opening = |bones, morphs| Opening { counts: [bones, morphs, 0, 0, 0, 0], places: [0; 6], totals: [0; 3] };
        let most = u32::MAX / 15;
        let lent = tables_to_lend(Manner::Strict, &file, &opening(7, most)).unwrap();
        let expected = table_sizes([7, 105, most.into(), u32::MAX.into()]);
        assert_eq!(lent, expected);
        assert_eq!(tables_to_lend(Manner::Strict, &file, &opening(most + 1, 0)), Ok(TableSizes::default()));
        assert_eq!(tables_to_lend(Manner::Strict, &file, &opening(0, u32::MAX)), Ok(TableSizes::default()));
        let [_, (_, oversized)] = damaged();
        let lent = |manner| tables_to_lend(manner, &oversized, &opening(most + 1, 0));
        assert_eq!(lent(Manner::Strict), Err(Refusal::CountOversized));
        assert_eq!(lent(Manner::Lenient), Ok(TableSizes::default()));
    }
}
