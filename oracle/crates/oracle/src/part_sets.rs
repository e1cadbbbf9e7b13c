//! Part sets to build from: random ones, and ones with chosen faults.

use crate::files;
use crate::names;
use crate::parts::{push_name, Parts};
use crate::random::Random;

// ---- sets without a fault

fn finite(random: &mut Random) -> u32 {
    loop {
        let bits = files::float(random);
        if f32::from_bits(bits).is_finite() {
            return bits;
        }
    }
}

fn finite_float(random: &mut Random) -> f32 {
    f32::from_bits(finite(random))
}

fn make_finite(bytes: &mut [u8], first: usize, floats: usize, random: &mut Random) {
    for field in bytes[first..first + 4 * floats].chunks_mut(4) {
        field.copy_from_slice(&finite(random).to_le_bytes());
    }
}

fn put_camera(out: &mut Vec<u8>, random: &mut Random) {
    let at = out.len();
    files::put_camera(out, random);
    make_finite(&mut out[at..], 4, 7, random);
}

fn put_light(out: &mut Vec<u8>, random: &mut Random) {
    let at = out.len();
    files::put_light(out, random);
    make_finite(&mut out[at..], 4, 6, random);
}

fn put_self_shadow(out: &mut Vec<u8>, random: &mut Random) {
    let at = out.len();
    files::put_self_shadow(out, random);
    out[at + 4] = random.below(3) as u8;
    make_finite(&mut out[at..], 5, 1, random);
}

fn put_ik_state(out: &mut Vec<u8>, name: &[u8], random: &mut Random) {
    let mut field = name.to_vec();
    if field.len() < 20 {
        field.push(0);
        let rest = field.len();
        field.resize(20, 0);
        if random.one_in(2) {
            random.fill(&mut field[rest..]);
        }
    }
    out.extend(field);
    out.push(random.pick(&[0, 1, 2, 128, 255]));
}

fn put_property(out: &mut Vec<u8>, ik_states: usize, random: &mut Random) {
    files::put_property(out, 0, random);
    let count_at = out.len() - 4;
    out[count_at..].copy_from_slice(&(ik_states as u32).to_le_bytes());
    for _ in 0..ik_states {
        let name = names::good_name(random.below(21), random);
        put_ik_state(out, &name, random);
    }
}

fn add_bone(parts: &mut Parts, random: &mut Random) {
    parts.bone_name_indices.push(random.below(parts.bone_name_ends.len()) as u32);
    parts.bone_frames.push(files::frame(random));
    parts.bone_translations_xyz.extend((0..3).map(|_| finite_float(random)));
    parts.bone_rotations_xyzw.extend((0..4).map(|_| finite_float(random)));
    let at = parts.bone_interpolations.len();
    parts.bone_interpolations.resize(at + 64, 0);
    random.fill(&mut parts.bone_interpolations[at..]);
}

fn add_morph(parts: &mut Parts, random: &mut Random) {
    parts.morph_name_indices.push(random.below(parts.morph_name_ends.len()) as u32);
    parts.morph_frames.push(files::frame(random));
    parts.morph_weights.push(finite_float(random));
}

fn add_names(bytes: &mut Vec<u8>, ends: &mut Vec<u32>, count: usize, random: &mut Random) {
    for _ in 0..count {
        let name = names::good_name(random.below(16), random);
        push_name(bytes, ends, &name);
    }
}

fn count(least: usize, most: usize, random: &mut Random) -> usize {
    least + random.below(most - least + 1)
}

/// Parts that the builder accepts, with between least and most of everything.
pub fn sound(least: usize, most: usize, random: &mut Random) -> Parts {
    let mut parts = Parts { model_name: names::good_name(random.below(21), random), ..Parts::default() };
    add_names(&mut parts.bone_name_bytes, &mut parts.bone_name_ends, count(least, most, random), random);
    add_names(&mut parts.morph_name_bytes, &mut parts.morph_name_ends, count(least, most, random), random);
    for _ in 0..count(least, most, random) {
        put_camera(&mut parts.camera_frames, random);
    }
    for _ in 0..count(least, most, random) {
        put_light(&mut parts.light_frames, random);
    }
    for _ in 0..count(least, most, random) {
        put_self_shadow(&mut parts.self_shadow_frames, random);
    }
    for _ in 0..count(least, most, random) {
        let ik_states = count(least, 3.max(least), random);
        put_property(&mut parts.property_frames, ik_states, random);
    }
    if !parts.bone_name_ends.is_empty() {
        (0..count(least, most, random)).for_each(|_| add_bone(&mut parts, random));
    }
    if !parts.morph_name_ends.is_empty() {
        (0..count(least, most, random)).for_each(|_| add_morph(&mut parts, random));
    }
    parts
}

// ---- faults

/// Applied to parts with at least one of everything, each makes its refusal hold, unless an earlier one hides it.
#[derive(Clone, Copy, PartialEq, Eq, Debug)]
pub enum Fault {
    BoneEndsFall,
    BoneEndsShort,
    BoneEndsLong,
    BoneBytesOnly,
    MorphEndsFall,
    MorphEndsShort,
    MorphEndsLong,
    MorphBytesOnly,
    CameraBytes,
    LightBytes,
    SelfShadowBytes,
    PropertyCut,
    PropertyBytesOver,
    IkCount,
    ModelLong,
    ModelZero,
    ModelNotGood,
    BoneNameLong,
    BoneNameZero,
    BoneNameNotGood,
    MorphNameLong,
    MorphNameZero,
    MorphNameNotGood,
    IkNameNotGood,
    CameraFloat,
    LightFloat,
    SelfShadowFloat,
    SelfShadowMode,
    BoneIndices,
    BoneFrames,
    BoneTranslations,
    BoneRotations,
    BoneInterpolations,
    MorphIndices,
    MorphFrames,
    MorphWeights,
    BoneIndex,
    BoneFloat,
    MorphIndex,
    MorphFloat,
}

pub const FAULTS: [Fault; 40] = [
    Fault::BoneEndsFall,
    Fault::BoneEndsShort,
    Fault::BoneEndsLong,
    Fault::BoneBytesOnly,
    Fault::MorphEndsFall,
    Fault::MorphEndsShort,
    Fault::MorphEndsLong,
    Fault::MorphBytesOnly,
    Fault::CameraBytes,
    Fault::LightBytes,
    Fault::SelfShadowBytes,
    Fault::PropertyCut,
    Fault::PropertyBytesOver,
    Fault::IkCount,
    Fault::ModelLong,
    Fault::ModelZero,
    Fault::ModelNotGood,
    Fault::BoneNameLong,
    Fault::BoneNameZero,
    Fault::BoneNameNotGood,
    Fault::MorphNameLong,
    Fault::MorphNameZero,
    Fault::MorphNameNotGood,
    Fault::IkNameNotGood,
    Fault::CameraFloat,
    Fault::LightFloat,
    Fault::SelfShadowFloat,
    Fault::SelfShadowMode,
    Fault::BoneIndices,
    Fault::BoneFrames,
    Fault::BoneTranslations,
    Fault::BoneRotations,
    Fault::BoneInterpolations,
    Fault::MorphIndices,
    Fault::MorphFrames,
    Fault::MorphWeights,
    Fault::BoneIndex,
    Fault::BoneFloat,
    Fault::MorphIndex,
    Fault::MorphFloat,
];

/// So many of FAULTS, the first, are of refusal 5, which hides every other.
pub const NOT_WHOLE: usize = 14;

fn any_fault(random: &mut Random) -> Fault {
    if random.one_in(8) {
        random.pick(&FAULTS)
    } else {
        random.pick(&FAULTS[NOT_WHOLE..])
    }
}

fn not_finite(random: &mut Random) -> u32 {
    match random.below(4) {
        0 => 0x7f80_0000,
        1 => 0xff80_0000,
        2 => 0x7fc0_0000,
        _ => 0x7f80_0000 | random.next_u32(),
    }
}

/// One element more or fewer.
fn off_by_one<T: Copy>(column: &mut Vec<T>, element: T, random: &mut Random) {
    if column.is_empty() || random.one_in(2) {
        column.push(element);
    } else {
        column.pop();
    }
}

/// Ends where the second of two names begins before the first one ends.
fn ends_fall(bytes: &mut Vec<u8>, ends: &mut Vec<u32>) {
    bytes.push(b'A');
    let len = bytes.len() as u32;
    ends.extend([len, len - 1, len]);
}

fn ends_off(bytes: &[u8], ends: &mut Vec<u32>, by: i64) {
    ends.pop();
    ends.push((bytes.len() as i64 + by) as u32);
}

fn set_float(records: &mut [u8], size: usize, first: usize, floats: usize, random: &mut Random) {
    if records.len() < size {
        return;
    }
    let at = random.below(records.len() / size) * size + first + 4 * random.below(floats);
    records[at..at + 4].copy_from_slice(&not_finite(random).to_le_bytes());
}

fn set_column_float(column: &mut [f32], random: &mut Random) {
    if !column.is_empty() {
        column[random.below(column.len())] = f32::from_bits(not_finite(random));
    }
}

fn zero_within(most: usize, random: &mut Random) -> Vec<u8> {
    let mut name = names::good_name(1 + random.below(most), random);
    let at = random.below(name.len());
    name[at] = 0;
    name
}

fn set_index(indices: &mut [u32], names: usize, random: &mut Random) {
    if !indices.is_empty() {
        let over = random.pick(&[0, 1, 1000, u32::MAX - names as u32]);
        indices[random.below(indices.len())] = names as u32 + over;
    }
}

pub fn add_fault(parts: &mut Parts, fault: Fault, random: &mut Random) {
    let p = parts;
    match fault {
        Fault::BoneEndsFall => ends_fall(&mut p.bone_name_bytes, &mut p.bone_name_ends),
        Fault::BoneEndsShort => {
            p.bone_name_bytes.push(b'A');
            ends_off(&p.bone_name_bytes, &mut p.bone_name_ends, -1)
        }
        Fault::BoneEndsLong => ends_off(&p.bone_name_bytes, &mut p.bone_name_ends, random.pick(&[1, 2, 0x7fff_0000])),
        Fault::BoneBytesOnly => {
            p.bone_name_bytes = vec![b'A'];
            p.bone_name_ends.clear()
        }
        Fault::MorphEndsFall => ends_fall(&mut p.morph_name_bytes, &mut p.morph_name_ends),
        Fault::MorphEndsShort => {
            p.morph_name_bytes.push(b'A');
            ends_off(&p.morph_name_bytes, &mut p.morph_name_ends, -1)
        }
        Fault::MorphEndsLong => ends_off(&p.morph_name_bytes, &mut p.morph_name_ends, random.pick(&[1, 2, 0x7fff_0000])),
        Fault::MorphBytesOnly => {
            p.morph_name_bytes = vec![b'A'];
            p.morph_name_ends.clear()
        }
        Fault::CameraBytes => off_by_one(&mut p.camera_frames, 0, random),
        Fault::LightBytes => off_by_one(&mut p.light_frames, 0, random),
        Fault::SelfShadowBytes => off_by_one(&mut p.self_shadow_frames, 0, random),
        Fault::PropertyCut => {
            p.property_frames.pop();
        }
        Fault::PropertyBytesOver => p.property_frames.resize(p.property_frames.len() + 1 + random.below(8), 0),
        Fault::IkCount => {
            let count = random.pick(&[1, 2, 0x0c30_c30c, 0x0c30_c30d, u32::MAX]);
            p.property_frames.extend([0; 5]);
            p.property_frames.extend(count.to_le_bytes());
        }
        Fault::ModelLong => p.model_name = names::good_name(21 + random.below(3), random),
        Fault::ModelZero => p.model_name = zero_within(20, random),
        Fault::ModelNotGood => p.model_name = names::bad_name(20, random),
        Fault::BoneNameLong => {
            push_name(&mut p.bone_name_bytes, &mut p.bone_name_ends, &names::good_name(16 + random.below(3), random))
        }
        Fault::BoneNameZero => push_name(&mut p.bone_name_bytes, &mut p.bone_name_ends, &zero_within(15, random)),
        Fault::BoneNameNotGood => push_name(&mut p.bone_name_bytes, &mut p.bone_name_ends, &names::bad_name(15, random)),
        Fault::MorphNameLong => {
            push_name(&mut p.morph_name_bytes, &mut p.morph_name_ends, &names::good_name(16 + random.below(3), random))
        }
        Fault::MorphNameZero => push_name(&mut p.morph_name_bytes, &mut p.morph_name_ends, &zero_within(15, random)),
        Fault::MorphNameNotGood => push_name(&mut p.morph_name_bytes, &mut p.morph_name_ends, &names::bad_name(15, random)),
        Fault::IkNameNotGood => add_ik_name(p, &names::bad_name(20, random), random),
        Fault::CameraFloat => set_float(&mut p.camera_frames, 61, 4, 7, random),
        Fault::LightFloat => set_float(&mut p.light_frames, 28, 4, 6, random),
        Fault::SelfShadowFloat => set_float(&mut p.self_shadow_frames, 9, 5, 1, random),
        Fault::SelfShadowMode => {
            let at = 9 * random.below((p.self_shadow_frames.len() / 9).max(1)) + 4;
            if let Some(mode) = p.self_shadow_frames.get_mut(at) {
                *mode = random.pick(&[3, 4, 128, 255]);
            }
        }
        Fault::BoneIndices => off_by_one(&mut p.bone_name_indices, 0, random),
        Fault::BoneFrames => off_by_one(&mut p.bone_frames, 0, random),
        Fault::BoneTranslations => off_by_one(&mut p.bone_translations_xyz, 0.0, random),
        Fault::BoneRotations => off_by_one(&mut p.bone_rotations_xyzw, 0.0, random),
        Fault::BoneInterpolations => off_by_one(&mut p.bone_interpolations, 0, random),
        Fault::MorphIndices => off_by_one(&mut p.morph_name_indices, 0, random),
        Fault::MorphFrames => off_by_one(&mut p.morph_frames, 0, random),
        Fault::MorphWeights => off_by_one(&mut p.morph_weights, 0.0, random),
        Fault::BoneIndex => set_index(&mut p.bone_name_indices, p.bone_name_ends.len(), random),
        Fault::BoneFloat if random.one_in(2) => set_column_float(&mut p.bone_translations_xyz, random),
        Fault::BoneFloat => set_column_float(&mut p.bone_rotations_xyzw, random),
        Fault::MorphIndex => set_index(&mut p.morph_name_indices, p.morph_name_ends.len(), random),
        Fault::MorphFloat => set_column_float(&mut p.morph_weights, random),
    }
}

/// A property frame with one IK state of this name.
fn add_ik_name(parts: &mut Parts, name: &[u8], random: &mut Random) {
    put_property(&mut parts.property_frames, 0, random);
    let count_at = parts.property_frames.len() - 4;
    parts.property_frames[count_at] = 1;
    put_ik_state(&mut parts.property_frames, name, random);
}

/// Where a name can stand, and how many bytes it may have there.
#[derive(Clone, Copy, PartialEq, Eq, Debug)]
pub enum Place {
    Model,
    Bone,
    Morph,
    IkState,
}

pub const PLACES: [Place; 4] = [Place::Model, Place::Bone, Place::Morph, Place::IkState];

impl Place {
    pub fn width(self) -> usize {
        match self {
            Place::Model | Place::IkState => 20,
            Place::Bone | Place::Morph => 15,
        }
    }
}

/// One more name, or another one for the model.
pub fn add_name(parts: &mut Parts, place: Place, name: &[u8], random: &mut Random) {
    match place {
        Place::Model => parts.model_name = name.to_vec(),
        Place::Bone => push_name(&mut parts.bone_name_bytes, &mut parts.bone_name_ends, name),
        Place::Morph => push_name(&mut parts.morph_name_bytes, &mut parts.morph_name_ends, name),
        Place::IkState => add_ik_name(parts, name, random),
    }
}

// ---- random sets, by kind

#[derive(Clone, Copy, PartialEq, Eq, PartialOrd, Ord, Debug)]
pub enum SetKind {
    Sound,
    OneFault,
    TwoFaults,
    ManyFaults,
    NoCharacter,
    Marked,
    Large,
}

pub const SET_KINDS: [SetKind; 7] = [
    SetKind::Sound,
    SetKind::OneFault,
    SetKind::TwoFaults,
    SetKind::ManyFaults,
    SetKind::NoCharacter,
    SetKind::Marked,
    SetKind::Large,
];

impl SetKind {
    pub fn label(self) -> &'static str {
        match self {
            SetKind::Sound => "no fault",
            SetKind::OneFault => "one fault",
            SetKind::TwoFaults => "two faults",
            SetKind::ManyFaults => "three to six faults",
            SetKind::NoCharacter => "a pair without a character",
            SetKind::Marked => "a byte order mark",
            SetKind::Large => "up to 300 of everything",
        }
    }
}

pub fn set_kind(random: &mut Random) -> SetKind {
    match random.below(400) {
        0 => SetKind::Large,
        1..=149 => SetKind::Sound,
        150..=249 => SetKind::OneFault,
        250..=319 => SetKind::TwoFaults,
        320..=349 => SetKind::ManyFaults,
        350..=382 => SetKind::NoCharacter,
        _ => SetKind::Marked,
    }
}

pub fn set_of(kind: SetKind, random: &mut Random) -> Parts {
    match kind {
        SetKind::Sound => sound(0, 3, random),
        SetKind::OneFault => with_faults(1, random),
        SetKind::TwoFaults => with_faults(2, random),
        SetKind::ManyFaults => {
            let faults = 3 + random.below(4);
            with_faults(faults, random)
        }
        SetKind::NoCharacter => with_name(names::name_without_character, random),
        SetKind::Marked => with_name(names::marked_name, random),
        SetKind::Large => sound(0, 300, random),
    }
}

fn with_faults(faults: usize, random: &mut Random) -> Parts {
    let mut parts = sound(1, 2, random);
    for _ in 0..faults {
        add_fault(&mut parts, any_fault(random), random);
    }
    parts
}

/// One such name somewhere, and at times a fault.
fn with_name(drawn: fn(usize, &mut Random) -> Vec<u8>, random: &mut Random) -> Parts {
    let mut parts = sound(0, 2, random);
    let place = random.pick(&PLACES);
    let name = drawn(place.width(), random);
    add_name(&mut parts, place, &name, random);
    if random.one_in(4) {
        add_fault(&mut parts, any_fault(random), random);
    }
    parts
}

/// Parts with at least one of everything and these faults.
pub fn with(faults: &[Fault], random: &mut Random) -> Parts {
    let mut parts = sound(1, 3, random);
    for &fault in faults {
        add_fault(&mut parts, fault, random);
    }
    parts
}
