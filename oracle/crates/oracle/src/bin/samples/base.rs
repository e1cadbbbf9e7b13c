//! The files and parts that the examples are made of: small, with different bytes at different places.

use oracle::files::{Pieces, Section};
use oracle::part_sets::Place;
use oracle::parts::{push_name, Parts};

/// Floats that arithmetic or a comparison would change or merge: signalling and quiet NaNs, infinities, both zeros, a
/// denormal.
const SPECIAL: [u32; 8] =
    [0x7f80_0001, 0x8000_0000, 0x0000_0001, 0xffc0_0001, 0x7f80_0000, 0xff80_0000, 0x7fff_ffff, 0x0000_0000];

/// 1, -2, 0.5, the largest and the smallest.
const PLAIN: [u32; 5] = [0x3f80_0000, 0xc000_0000, 0x3f00_0000, 0x7f7f_ffff, 0x0000_0001];

fn numbers(values: &[u32]) -> Vec<u8> {
    values.iter().flat_map(|value| value.to_le_bytes()).collect()
}

fn floats(from: &[u32], first: usize, count: usize) -> Vec<u8> {
    numbers(&(first..first + count).map(|i| from[i % from.len()]).collect::<Vec<_>>())
}

/// A name in its field: a zero after it, and then bytes 88.
fn field(name: &[u8], width: usize) -> Vec<u8> {
    let mut field = name.to_vec();
    field.push(0);
    field.resize(width.max(field.len()), 88);
    field.truncate(width);
    field
}

fn counting(first: u8, count: u8) -> Vec<u8> {
    (first..first + count).collect()
}

fn bone(name: &[u8], frame: u32) -> Vec<u8> {
    [field(name, 15), numbers(&[frame]), floats(&SPECIAL, 0, 7), counting(48, 64)].concat()
}

fn morph(name: &[u8], frame: u32, weight: u32) -> Vec<u8> {
    [field(name, 15), numbers(&[frame, weight])].concat()
}

fn camera(frame: u32, from: &[u32], perspective: u8) -> Vec<u8> {
    [numbers(&[frame]), floats(from, 1, 7), counting(1, 24), numbers(&[45]), vec![perspective]].concat()
}

fn light(frame: u32, from: &[u32]) -> Vec<u8> {
    [numbers(&[frame]), floats(from, 0, 6)].concat()
}

fn self_shadow(frame: u32, mode: u8, distance: u32) -> Vec<u8> {
    [numbers(&[frame]), vec![mode], numbers(&[distance])].concat()
}

fn property(frame: u32, visible: u8, ik_states: &[(&[u8], u8)]) -> Vec<u8> {
    let mut bytes = [numbers(&[frame]), vec![visible], numbers(&[ik_states.len() as u32])].concat();
    for (name, enabled) in ik_states {
        bytes.extend(field(name, 20));
        bytes.push(*enabled);
    }
    bytes
}

fn section(records: &[Vec<u8>]) -> Section {
    Section { count: records.len() as u32, bytes: records.concat() }
}

pub fn empty() -> Vec<u8> {
    Pieces::empty().file()
}

/// A record or more in every section, and every kind of byte that a canonical file does not have.
pub fn six_pieces() -> Pieces {
    let mut pieces = Pieces::empty();
    pieces.header[26..30].fill(88);
    pieces.header[30..].copy_from_slice(&field(b"Mi", 20));
    pieces.sections = [
        section(&[bone(b"A", 7)]),
        section(&[morph(&counting(65, 15), 9, 0xff80_0000)]),
        section(&[camera(5, &SPECIAL, 2)]),
        section(&[light(4, &SPECIAL)]),
        section(&[self_shadow(3, 200, 0x7fff_ffff)]),
        section(&[property(70_000, 255, &[(b"K", 128), (&counting(97, 20), 0)]), property(12, 0, &[])]),
    ];
    pieces
}

/// A whole file in pieces: the magic, what follows it, the model name, then counts and sections.
pub fn in_pieces(file: &[u8], boundaries: &[usize]) -> Vec<Vec<u8>> {
    let starts = [0].iter().chain(boundaries);
    starts.zip(boundaries).map(|(&start, &end)| file[start..end].to_vec()).filter(|piece| !piece.is_empty()).collect()
}

pub fn six() -> Vec<u8> {
    six_pieces().file()
}

/// Where the flags of six stand: perspective, visible of both frames, enabled of both IK states; and its self-shadow's mode.
pub fn flags_of_six() -> [(&'static str, usize); 6] {
    let boundaries = six_pieces().boundaries();
    let (cameras_end, shadows, properties) = (boundaries[8], boundaries[11], boundaries[13]);
    [
        ("perspective", cameras_end - 1),
        ("visible_0", properties + 4),
        ("enabled_0", properties + 9 + 20),
        ("enabled_1", properties + 9 + 21 + 20),
        ("visible_1", properties + 9 + 2 * 21 + 4),
        ("mode", shadows + 4),
    ]
}

fn take_of(model: &[u8], sections: usize, number: usize, records: &[Vec<u8>]) -> Vec<u8> {
    let mut pieces = Pieces::empty();
    pieces.header[30..].copy_from_slice(&field(model, 20));
    pieces.sections[number] = section(records);
    pieces.first_sections(sections)
}

/// Files to join: every section alone, names empty and not, sections missing, an oversized count, and two that are refused.
pub fn joined_files() -> Vec<(&'static str, Vec<u8>)> {
    let mut oversized = take_of(b"Over", 3, 0, &[]);
    oversized[58] = 2;
    oversized.extend(light(9, &PLAIN));
    let mut other_magic = empty();
    other_magic[24] = 51;
    vec![
        ("nothing", empty()[..54].to_vec()),
        ("named", take_of(b"Name", 1, 0, &[])),
        ("two_bones", take_of(b"", 2, 0, &[bone(b"B", 2), bone(b"", 1)])),
        ("a_morph", take_of(b"Morph", 2, 1, &[morph(b"M", 3, 0x7f80_0001)])),
        ("a_camera", take_of(b"", 6, 2, &[camera(6, &SPECIAL, 255)])),
        ("legs", take_of(b"Legs", 6, 5, &[property(8, 1, &[(b"L", 0), (b"R", 2)]), property(9, 0, &[])])),
        ("oversized", oversized),
        ("cut", empty()[..57].to_vec()),
        ("other_magic", other_magic),
    ]
}

/// Parts that are built, with one or two of everything.
pub fn sound_parts() -> Parts {
    let mut parts = Parts { model_name: b"Mi".to_vec(), ..Parts::default() };
    push_name(&mut parts.bone_name_bytes, &mut parts.bone_name_ends, b"A");
    push_name(&mut parts.bone_name_bytes, &mut parts.bone_name_ends, &[0x83, 0x41, 0xb1]);
    push_name(&mut parts.morph_name_bytes, &mut parts.morph_name_ends, b"D");
    parts.camera_frames = camera(5, &PLAIN, 2);
    parts.light_frames = light(4, &PLAIN);
    parts.self_shadow_frames = self_shadow(3, 2, PLAIN[1]);
    parts.property_frames = property(70_000, 255, &[(b"K", 128)]);
    parts.bone_name_indices = vec![1, 0];
    parts.bone_frames = vec![8, 6];
    parts.bone_translations_xyz = (0..6).map(|i| f32::from_bits(PLAIN[i % 5])).collect();
    parts.bone_rotations_xyzw = (0..8).map(|i| f32::from_bits(PLAIN[(i + 2) % 5])).collect();
    parts.bone_interpolations = counting(1, 128);
    parts.morph_name_indices = vec![0];
    parts.morph_frames = vec![9];
    parts.morph_weights = vec![f32::from_bits(PLAIN[2])];
    parts
}

/// Pairs of a lead and a trail: request h)'s 0x85 0x40, document 01's 0x83 0x41, those at both ends of the pointers 8836 to 10715
/// and beside them, the last of the index and the one after it.
pub const PAIRS: [[u8; 2]; 8] =
    [[0x85, 0x40], [0x83, 0x41], [0xef, 0xfc], [0xf0, 0x40], [0xf9, 0xfc], [0xfa, 0x40], [0xfc, 0x4b], [0xfc, 0x4c]];

/// No parts but this name, and the bone, the morph or the IK state that has it.
pub fn named_parts(place: Place, name: &[u8]) -> Parts {
    let mut parts = Parts::default();
    match place {
        Place::Model => parts.model_name = name.to_vec(),
        Place::Bone => {
            push_name(&mut parts.bone_name_bytes, &mut parts.bone_name_ends, name);
            parts.bone_name_indices = vec![0];
            parts.bone_frames = vec![8];
            parts.bone_translations_xyz = vec![0.5; 3];
            parts.bone_rotations_xyzw = vec![1.0; 4];
            parts.bone_interpolations = counting(1, 64);
        }
        Place::Morph => {
            push_name(&mut parts.morph_name_bytes, &mut parts.morph_name_ends, name);
            parts.morph_name_indices = vec![0];
            parts.morph_frames = vec![9];
            parts.morph_weights = vec![0.5];
        }
        Place::IkState => parts.property_frames = property(7, 1, &[(name, 1)]),
    }
    parts
}
