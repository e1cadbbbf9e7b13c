//! Cases of the replaying program: an input, and the original's answer.
//!
//! The file is a sequence of cases. A case is five little-endian u32s (kind, answer, digest, length of the output to lend,
//! number of byte strings), then each byte string as its length, a u32, and its bytes.

use oracle::original::{self, VmdParsedAnimation};
use oracle::parts::Parts;

pub const OPEN: u32 = 1;
pub const EXPORT: u32 = 2;
pub const JOIN: u32 = 3;
pub const BUILD: u32 = 4;
pub const CONVERT: u32 = 5;

/// What an output holds before a call.
const FILLED: u8 = 0xa5;

pub struct Case {
    pub kind: u32,
    pub answer: u32,
    digest: u32,
    out_len: u32,
    strings: Vec<Vec<u8>>,
}

impl Case {
    pub fn input_len(&self) -> usize {
        self.strings.iter().map(Vec::len).sum()
    }

    pub fn put(&self, out: &mut Vec<u8>) {
        let mut put_u32 = |value: u32| out.extend(value.to_le_bytes());
        [self.kind, self.answer, self.digest, self.out_len, self.strings.len() as u32].into_iter().for_each(&mut put_u32);
        for string in &self.strings {
            out.extend((string.len() as u32).to_le_bytes());
            out.extend_from_slice(string);
        }
    }

    /// Opened with scratch enough.
    pub fn open(file: Vec<u8>) -> Case {
        let take = original::read(&file);
        let mut digest = Digest::new();
        if let Ok(take) = &take {
            digest.take(take);
        }
        Case { kind: OPEN, answer: take.err().unwrap_or(0), digest: digest.0, out_len: 0, strings: vec![file] }
    }

    pub fn export(file: Vec<u8>, room: Room) -> Case {
        let exported = original::export_file(&file);
        Case::written(EXPORT, exported, room, vec![file])
    }

    pub fn convert(file: Vec<u8>, room: Room) -> Case {
        let converted = original::convert_file(&file);
        Case::written(CONVERT, converted, room, vec![file])
    }

    pub fn join(first: Vec<u8>, second: Vec<u8>, room: Room) -> Case {
        let joined = original::join_files(&first, &second);
        Case::written(JOIN, joined, room, vec![first, second])
    }

    pub fn build(parts: &Parts, room: Room) -> Case {
        Case::written(BUILD, original::build(parts), room, strings_of(parts))
    }

    fn written(kind: u32, bytes: Result<Vec<u8>, u32>, room: Room, strings: Vec<Vec<u8>>) -> Case {
        let out_len = room.for_bytes(bytes.as_ref().map_or(80, Vec::len));
        let answer = original::fitted(bytes, out_len);
        let mut out = vec![FILLED; out_len];
        let written = answer.as_ref().map_or(&[][..], Vec::as_slice);
        out[..written.len()].copy_from_slice(written);
        let mut digest = Digest::new();
        digest.bytes(&out);
        digest.number(written.len() as u32);
        Case { kind, answer: answer.err().unwrap_or(0), digest: digest.0, out_len: out_len as u32, strings }
    }
}

/// How long an output is lent, by what is to be written.
#[derive(Clone, Copy)]
pub enum Room {
    Exact,
    OneShort,
    OneOver,
    More,
    None,
}

pub const ROOMS: [Room; 5] = [Room::Exact, Room::OneShort, Room::OneOver, Room::More, Room::None];

impl Room {
    fn for_bytes(self, len: usize) -> usize {
        match self {
            Room::Exact => len,
            Room::OneShort => len - 1,
            Room::OneOver => len + 1,
            Room::More => len + 37,
            Room::None => 0,
        }
    }
}

/// The builder's parameters in their order, numbers as little-endian bytes.
fn strings_of(p: &Parts) -> Vec<Vec<u8>> {
    let numbers = |column: &[u32]| column.iter().flat_map(|value| value.to_le_bytes()).collect();
    let floats = |column: &[f32]| column.iter().flat_map(|value| value.to_bits().to_le_bytes()).collect();
    vec![
        p.model_name.clone(),
        p.bone_name_bytes.clone(),
        numbers(&p.bone_name_ends),
        p.morph_name_bytes.clone(),
        numbers(&p.morph_name_ends),
        p.camera_frames.clone(),
        p.light_frames.clone(),
        p.self_shadow_frames.clone(),
        p.property_frames.clone(),
        numbers(&p.bone_name_indices),
        numbers(&p.bone_frames),
        floats(&p.bone_translations_xyz),
        floats(&p.bone_rotations_xyzw),
        p.bone_interpolations.clone(),
        numbers(&p.morph_name_indices),
        numbers(&p.morph_frames),
        floats(&p.morph_weights),
    ]
}

// ---- digests

/// FNV-1a over bytes; numbers as four little-endian bytes.
struct Digest(u32);

impl Digest {
    fn new() -> Self {
        Digest(2_166_136_261)
    }

    fn byte(&mut self, byte: u8) {
        self.0 = (self.0 ^ byte as u32).wrapping_mul(16_777_619);
    }

    fn bytes(&mut self, bytes: &[u8]) {
        bytes.iter().for_each(|&byte| self.byte(byte));
    }

    fn number(&mut self, number: u32) {
        self.bytes(&number.to_le_bytes());
    }

    fn floats(&mut self, values: &[f32]) {
        values.iter().for_each(|value| self.number(value.to_bits()));
    }

    fn name(&mut self, name: &[u8]) {
        self.byte(name.len() as u8);
        self.bytes(name);
    }

    /// Counts, IK states, smallest frame, largest frame, model name, then every field of every record.
    fn take(&mut self, take: &VmdParsedAnimation) {
        self.figures(take);
        self.bytes(&take.metadata.model_name_bytes);
        for frame in &take.bone_frames {
            self.name(&frame.bone_name_bytes);
            self.number(frame.frame);
            self.floats(&frame.translation);
            self.floats(&frame.rotation);
            self.bytes(&frame.interpolation);
        }
        for frame in &take.morph_frames {
            self.name(&frame.morph_name_bytes);
            self.number(frame.frame);
            self.floats(&[frame.weight]);
        }
        self.scene(take);
        for frame in &take.property_frames {
            self.number(frame.frame);
            self.byte(frame.visible as u8);
            self.number(frame.ik_states.len() as u32);
            for state in &frame.ik_states {
                self.name(&state.bone_name_bytes);
                self.byte(state.enabled as u8);
            }
        }
    }

    fn figures(&mut self, take: &VmdParsedAnimation) {
        let counts = &take.metadata.counts;
        for count in [counts.bones, counts.morphs, counts.cameras, counts.lights, counts.self_shadows, counts.properties] {
            self.number(count as u32);
        }
        let ik_states: usize = take.property_frames.iter().map(|frame| frame.ik_states.len()).sum();
        self.number(ik_states as u32);
        self.number(original::smallest_frame(take));
        self.number(take.metadata.max_frame);
    }

    /// Cameras, lights and self-shadows.
    fn scene(&mut self, take: &VmdParsedAnimation) {
        for frame in &take.camera_frames {
            self.number(frame.frame);
            self.floats(&[frame.distance]);
            self.floats(&frame.position);
            self.floats(&frame.rotation);
            self.bytes(&frame.interpolation);
            self.number(frame.fov);
            self.byte(frame.perspective as u8);
        }
        for frame in &take.light_frames {
            self.number(frame.frame);
            self.floats(&frame.color);
            self.floats(&frame.direction);
        }
        for frame in &take.self_shadow_frames {
            self.number(frame.frame);
            self.byte(frame.mode);
            self.floats(&[frame.distance]);
        }
    }
}
