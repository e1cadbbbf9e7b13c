//! The original's answers, its errors as document 01's numbers.

use crate::files::{Pieces, Section, IK_STATE_SIZE, SIZES};
use crate::older;
use crate::parts::{property_frames_in, push_name, Columns, Parts};
use crate::spans::Span;
use mmd_anim_format::error::ImportError;
pub use mmd_anim_format::vmd::VmdParsedAnimation;
use mmd_anim_format::vmd::{
    build_vmd_animation_from_parts, export_vmd_animation, parse_vmd_animation, VmdPartsDescriptor, VmdPartsInput,
    VmdPartsNameEntry, VmdPoseExport,
};
use std::collections::{HashMap, HashSet};

pub const ENDS_EARLY: u32 = 1;
pub const MAGIC_DIFFERS: u32 = 2;
pub const SCRATCH_TOO_SHORT: u32 = 3;
pub const PARTS_NOT_WHOLE: u32 = 5;
pub const NOT_GOOD: u32 = 7;
pub const OUTPUT_TOO_SHORT: u32 = 13;
pub const PARTS_DO_NOT_FIT: u32 = 14;
pub const MODEL_NAME_TOO_LONG: u32 = 15;
pub const FIRST_ABOVE_LAST: u32 = 18;

/// The original's reading of a file, an older one widened first.
pub fn read(file: &[u8]) -> Result<VmdParsedAnimation, u32> {
    read_unwidened(&older::widened(file)?)
}

/// Its reading of the file as it is: it refuses older ones.
pub fn read_unwidened(file: &[u8]) -> Result<VmdParsedAnimation, u32> {
    parse_vmd_animation(file).map_err(|error| match error {
        ImportError::UnexpectedEof(_) => ENDS_EARLY,
        ImportError::InvalidVmdMagic => MAGIC_DIFFERS,
        other => panic!("document 01 has no number for {other:?}"),
    })
}

/// The frames of all records, section by section.
pub fn frames(take: &VmdParsedAnimation) -> impl Iterator<Item = u32> + '_ {
    let bones = take.bone_frames.iter().map(|record| record.frame);
    let morphs = take.morph_frames.iter().map(|record| record.frame);
    let cameras = take.camera_frames.iter().map(|record| record.frame);
    let lights = take.light_frames.iter().map(|record| record.frame);
    let self_shadows = take.self_shadow_frames.iter().map(|record| record.frame);
    let properties = take.property_frames.iter().map(|record| record.frame);
    bones.chain(morphs).chain(cameras).chain(lights).chain(self_shadows).chain(properties)
}

/// Request c)'s smallest frame, over the records that the original read. It keeps the largest alone.
pub fn smallest_frame(take: &VmdParsedAnimation) -> u32 {
    frames(take).min().unwrap_or(0)
}

pub fn export(take: &VmdParsedAnimation) -> Vec<u8> {
    export_vmd_animation(take)
}

pub fn export_file(file: &[u8]) -> Result<Vec<u8>, u32> {
    read(file).map(|take| export(&take))
}

/// Request e)'s older edition of a file, made of the original's export.
pub fn convert_file(file: &[u8]) -> Result<Vec<u8>, u32> {
    older::converted(&export_file(file)?)
}

/// Document 01's join of two takes that the original read, as the original writes it.
pub fn join_files(first: &[u8], second: &[u8]) -> Result<Vec<u8>, u32> {
    let (mut joined, second) = (read(first)?, read(second)?);
    if joined.metadata.model_name_bytes.is_empty() {
        joined.metadata = second.metadata;
    }
    joined.bone_frames.extend(second.bone_frames);
    joined.morph_frames.extend(second.morph_frames);
    joined.camera_frames.extend(second.camera_frames);
    joined.light_frames.extend(second.light_frames);
    joined.self_shadow_frames.extend(second.self_shadow_frames);
    joined.property_frames.extend(second.property_frames);
    Ok(export(&joined))
}

/// How many records a take has in each section.
pub fn counts_of(take: &VmdParsedAnimation) -> [usize; 6] {
    [
        take.bone_frames.len(),
        take.morph_frames.len(),
        take.camera_frames.len(),
        take.light_frames.len(),
        take.self_shadow_frames.len(),
        take.property_frames.len(),
    ]
}

// ---- tidying

/// Request g)'s tidied take, its tracks told as request k) has it. Which records a track keeps, and in which order, is the
/// original's own answer.
pub fn tidied(take: &VmdParsedAnimation) -> VmdParsedAnimation {
    tidied_by(take, registration_name)
}

/// By another key of a name.
pub fn tidied_by(take: &VmdParsedAnimation, key: Key) -> VmdParsedAnimation {
    VmdParsedAnimation {
        bone_frames: tidied_records(&take.bone_frames, |record| key(&record.bone_name_bytes), |record| record.frame),
        morph_frames: tidied_records(&take.morph_frames, |record| key(&record.morph_name_bytes), |record| record.frame),
        camera_frames: tidied_records(&take.camera_frames, |_| &[], |record| record.frame),
        light_frames: tidied_records(&take.light_frames, |_| &[], |record| record.frame),
        self_shadow_frames: tidied_records(&take.self_shadow_frames, |_| &[], |record| record.frame),
        property_frames: tidied_records(&take.property_frames, |_| &[], |record| record.frame),
        ..take.clone()
    }
}

/// What of a name tells its track.
pub type Key = fn(&[u8]) -> &[u8];

/// The original's own cut at the line feed.
pub fn registration_name(name: &[u8]) -> &[u8] {
    VmdPoseExport::vmd_registration_name(name)
}

/// The whole name.
pub fn raw_name(name: &[u8]) -> &[u8] {
    name
}

fn tidied_records<T: Clone>(records: &[T], key: impl Fn(&T) -> &[u8], frame: impl Fn(&T) -> u32) -> Vec<T> {
    let kept = tracks(records, key).into_iter().flat_map(|track| last_keys_per_frame(track, &frame));
    kept.cloned().collect()
}

/// The names of bones, then of morphs.
pub fn names(take: &VmdParsedAnimation) -> impl Iterator<Item = &[u8]> {
    bone_names(take).chain(morph_names(take))
}

fn bone_names(take: &VmdParsedAnimation) -> impl Iterator<Item = &[u8]> {
    take.bone_frames.iter().map(|record| &record.bone_name_bytes[..])
}

fn morph_names(take: &VmdParsedAnimation) -> impl Iterator<Item = &[u8]> {
    take.morph_frames.iter().map(|record| &record.morph_name_bytes[..])
}

/// How many names of bones and of morphs there are that differ in their keys.
pub fn distinct_names(take: &VmdParsedAnimation, key: Key) -> [usize; 2] {
    let bones: HashSet<&[u8]> = bone_names(take).map(key).collect();
    let morphs: HashSet<&[u8]> = morph_names(take).map(key).collect();
    [bones.len(), morphs.len()]
}

/// How many tracks of bones and morphs have names that are not all the same.
pub fn tracks_of_several_names(take: &VmdParsedAnimation) -> usize {
    keys_of_several(bone_names(take)) + keys_of_several(morph_names(take))
}

fn keys_of_several<'t>(names: impl Iterator<Item = &'t [u8]>) -> usize {
    let spellings: HashSet<&[u8]> = names.collect();
    let mut by_key = HashMap::new();
    spellings.into_iter().for_each(|name| *by_key.entry(registration_name(name)).or_insert(0) += 1);
    by_key.into_values().filter(|&spellings| spellings > 1).count()
}

/// The records of one key, "laid one after another in order of first appearance".
fn tracks<T>(records: &[T], key: impl Fn(&T) -> &[u8]) -> Vec<Vec<&T>> {
    let (mut numbers, mut tracks) = (HashMap::new(), Vec::new());
    for record in records {
        let number = *numbers.entry(key(record)).or_insert(tracks.len());
        if number == tracks.len() {
            tracks.push(Vec::new());
        }
        tracks[number].push(record);
    }
    tracks
}

/// As the original calls it: for the keys of one track, in file order.
fn last_keys_per_frame<'a, T>(track: Vec<&'a T>, frame: impl Fn(&T) -> u32) -> Vec<&'a T> {
    VmdPoseExport::last_vmd_keys_per_frame(track, |key| frame(key))
}

// ---- excerpts

/// Request j)'s excerpt, in the original's own records; none where the first frame is above the last.
pub fn excerpt(take: &VmdParsedAnimation, span: Span) -> VmdParsedAnimation {
    reframed(take, |_, frame| (span.first <= frame && frame <= span.last).then(|| frame - span.first))
}

pub fn excerpt_file(file: &[u8], span: Span) -> Result<Vec<u8>, u32> {
    read(file).map(|take| export(&excerpt(&take, span)))
}

/// The records whose section and frame give a frame, in their order, with the frame that is given.
pub fn reframed(take: &VmdParsedAnimation, given: impl Fn(usize, u32) -> Option<u32>) -> VmdParsedAnimation {
    VmdParsedAnimation {
        kind: take.kind,
        metadata: take.metadata.clone(),
        bone_frames: reframed_records(&take.bone_frames, |record| &mut record.frame, |frame| given(0, frame)),
        morph_frames: reframed_records(&take.morph_frames, |record| &mut record.frame, |frame| given(1, frame)),
        camera_frames: reframed_records(&take.camera_frames, |record| &mut record.frame, |frame| given(2, frame)),
        light_frames: reframed_records(&take.light_frames, |record| &mut record.frame, |frame| given(3, frame)),
        self_shadow_frames: reframed_records(&take.self_shadow_frames, |record| &mut record.frame, |frame| given(4, frame)),
        property_frames: reframed_records(&take.property_frames, |record| &mut record.frame, |frame| given(5, frame)),
    }
}

fn reframed_records<T: Clone>(
    records: &[T],
    frame_of: impl Fn(&mut T) -> &mut u32,
    given: impl Fn(u32) -> Option<u32>,
) -> Vec<T> {
    let kept = records.iter().cloned().filter_map(|mut record| {
        let frame = frame_of(&mut record);
        *frame = given(*frame)?;
        Some(record)
    });
    kept.collect()
}

/// Bytes that are to be written into an output of this many bytes.
pub fn fitted(bytes: Result<Vec<u8>, u32>, out_len: usize) -> Result<Vec<u8>, u32> {
    bytes.and_then(|bytes| if bytes.len() <= out_len { Ok(bytes) } else { Err(OUTPUT_TOO_SHORT) })
}

// ---- parts out of a take

/// What the builder would take for a take that the original read and exported: the name tables by request a)'s rule, columns
/// from the records as they were read, camera, light, self-shadow and property records from the export's bytes.
pub fn parts_of(take: &VmdParsedAnimation, exported: &[u8]) -> Parts {
    let mut parts = Parts { model_name: take.metadata.model_name_bytes.clone(), ..Parts::default() };
    let mut numbers = HashMap::new();
    for frame in &take.bone_frames {
        let name = &frame.bone_name_bytes;
        let index = index_of(name, &mut numbers, &mut parts.bone_name_bytes, &mut parts.bone_name_ends);
        parts.bone_name_indices.push(index);
        parts.bone_frames.push(frame.frame);
        parts.bone_translations_xyz.extend_from_slice(&frame.translation);
        parts.bone_rotations_xyzw.extend_from_slice(&frame.rotation);
        parts.bone_interpolations.extend_from_slice(&frame.interpolation);
    }
    let mut numbers = HashMap::new();
    for frame in &take.morph_frames {
        let name = &frame.morph_name_bytes;
        let index = index_of(name, &mut numbers, &mut parts.morph_name_bytes, &mut parts.morph_name_ends);
        parts.morph_name_indices.push(index);
        parts.morph_frames.push(frame.frame);
        parts.morph_weights.push(frame.weight);
    }
    let mut at = 50 + 4 + SIZES[0] * take.bone_frames.len() + 4 + SIZES[1] * take.morph_frames.len();
    let mut section = |len: usize| {
        let begin = at + 4; // after the count
        at = begin + len;
        exported[begin..at].to_vec()
    };
    parts.camera_frames = section(SIZES[2] * take.camera_frames.len());
    parts.light_frames = section(SIZES[3] * take.light_frames.len());
    parts.self_shadow_frames = section(SIZES[4] * take.self_shadow_frames.len());
    let ik_states: usize = take.property_frames.iter().map(|frame| frame.ik_states.len()).sum();
    parts.property_frames = section(SIZES[5] * take.property_frames.len() + IK_STATE_SIZE * ik_states);
    assert_eq!(at, exported.len());
    parts
}

/// "Name tables hold distinct raw names in order of first appearance, and each record gets its index."
fn index_of<'a>(name: &'a [u8], numbers: &mut HashMap<&'a [u8], u32>, bytes: &mut Vec<u8>, ends: &mut Vec<u32>) -> u32 {
    let next = ends.len() as u32;
    let index = *numbers.entry(name).or_insert(next);
    if index == next {
        push_name(bytes, ends, name);
    }
    index
}

// ---- building

/// What the original builds and exports from parts; refusal 5 by document 01.
pub fn build(parts: &Parts) -> Result<Vec<u8>, u32> {
    if parts.are_whole() {
        build_whole(parts).map(|take| export(&take))
    } else {
        Err(PARTS_NOT_WHOLE)
    }
}

pub fn build_whole(parts: &Parts) -> Result<VmdParsedAnimation, u32> {
    build_columns(parts, parts.columns())
}

/// The same with columns from elsewhere.
pub fn build_columns(parts: &Parts, columns: Columns) -> Result<VmdParsedAnimation, u32> {
    let input = VmdPartsInput {
        descriptor: descriptor(parts),
        bone_name_indices: columns.bone_name_indices,
        bone_frames: columns.bone_frames,
        bone_translations_xyz: columns.bone_translations_xyz,
        bone_rotations_xyzw: columns.bone_rotations_xyzw,
        bone_interpolations: columns.bone_interpolations,
        morph_name_indices: columns.morph_name_indices,
        morph_frames: columns.morph_frames,
        morph_weights: columns.morph_weights,
    };
    build_vmd_animation_from_parts(input).map_err(|message| number_of(&message))
}

/// The original says what is wrong in words.
fn number_of(message: &str) -> u32 {
    match message {
        "camera value is not finite" | "light value is not finite" => 8,
        "bone value is not finite" | "morph weight is not finite" => 8,
        "invalid self-shadow frame" => 9,
        "bone SoA lengths do not match" | "morph SoA lengths do not match" => 10,
        "bone name index out of range" | "morph name index out of range" => 12,
        _ if message.ends_with(" raw bytes") => 6,
        _ if message.ends_with(" CP932 bytes") => 7,
        _ if message.ends_with(" section count exceeds u32") => 11,
        _ => panic!("document 01 has no number for: {message}"),
    }
}

/// "with the right schema and all text names empty"; records as the original's reader reads them.
fn descriptor(parts: &Parts) -> VmdPartsDescriptor {
    let records = records_of(parts);
    VmdPartsDescriptor {
        schema: "mmd-anim-vmd-parts".to_owned(),
        version: 1,
        model_name: String::new(),
        model_name_bytes: parts.model_name.clone(),
        bone_names: entries(parts.bone_names()),
        morph_names: entries(parts.morph_names()),
        camera_frames: records.camera_frames,
        light_frames: records.light_frames,
        self_shadow_frames: records.self_shadow_frames,
        property_frames: records.property_frames,
    }
}

fn entries<'a>(names: impl Iterator<Item = &'a [u8]>) -> Vec<VmdPartsNameEntry> {
    names.map(|name| VmdPartsNameEntry { name: String::new(), name_bytes: name.to_vec() }).collect()
}

/// The records of whole parts, read by the original from a file of these sections.
fn records_of(parts: &Parts) -> VmdParsedAnimation {
    let section = |bytes: &Vec<u8>, count: usize| Section { count: count as u32, bytes: bytes.clone() };
    let mut pieces = Pieces::empty();
    pieces.sections[2] = section(&parts.camera_frames, parts.camera_frames.len() / SIZES[2]);
    pieces.sections[3] = section(&parts.light_frames, parts.light_frames.len() / SIZES[3]);
    pieces.sections[4] = section(&parts.self_shadow_frames, parts.self_shadow_frames.len() / SIZES[4]);
    pieces.sections[5] = section(&parts.property_frames, property_frames_in(&parts.property_frames).unwrap());
    let mut records = read(&pieces.file()).expect("whole records are read");
    let counts = &records.metadata.counts;
    assert_eq!(
        [counts.cameras, counts.lights, counts.self_shadows, counts.properties],
        [2, 3, 4, 5].map(|i| pieces.sections[i].count as usize)
    );
    for state in records.property_frames.iter_mut().flat_map(|frame| &mut frame.ik_states) {
        state.bone_name.clear();
    }
    records
}
