//! The builder's parameters, and document 01's refusal 5, which has no counterpart in the original.

use crate::files::{IK_STATE_SIZE, SIZES};

/// The 17 parameters of the builder, in their order.
#[derive(Clone, Default)]
pub struct Parts {
    pub model_name: Vec<u8>,
    pub bone_name_bytes: Vec<u8>,
    pub bone_name_ends: Vec<u32>,
    pub morph_name_bytes: Vec<u8>,
    pub morph_name_ends: Vec<u32>,
    pub camera_frames: Vec<u8>,
    pub light_frames: Vec<u8>,
    pub self_shadow_frames: Vec<u8>,
    pub property_frames: Vec<u8>,
    pub bone_name_indices: Vec<u32>,
    pub bone_frames: Vec<u32>,
    pub bone_translations_xyz: Vec<f32>,
    pub bone_rotations_xyzw: Vec<f32>,
    pub bone_interpolations: Vec<u8>,
    pub morph_name_indices: Vec<u32>,
    pub morph_frames: Vec<u32>,
    pub morph_weights: Vec<f32>,
}

/// The columns among them.
#[derive(Clone, Copy)]
pub struct Columns<'a> {
    pub bone_name_indices: &'a [u32],
    pub bone_frames: &'a [u32],
    pub bone_translations_xyz: &'a [f32],
    pub bone_rotations_xyzw: &'a [f32],
    pub bone_interpolations: &'a [u8],
    pub morph_name_indices: &'a [u32],
    pub morph_frames: &'a [u32],
    pub morph_weights: &'a [f32],
}

pub fn push_name(bytes: &mut Vec<u8>, ends: &mut Vec<u32>, name: &[u8]) {
    bytes.extend_from_slice(name);
    ends.push(bytes.len() as u32);
}

/// The names of a table whose ends are right.
pub fn names_of<'a>(bytes: &'a [u8], ends: &'a [u32]) -> impl Iterator<Item = &'a [u8]> {
    let mut from = 0;
    ends.iter().map(move |&end| {
        let name = &bytes[from..end as usize];
        from = end as usize;
        name
    })
}

/// "never falling, the last equal to the byte length; with no names the bytes are empty"
fn ends_right(bytes: &[u8], ends: &[u32]) -> bool {
    let rising = ends.windows(2).all(|pair| pair[0] <= pair[1]);
    rising && ends.last().map_or(0, |&end| end as usize) == bytes.len()
}

/// The number of property frames that take up just these bytes.
pub fn property_frames_in(bytes: &[u8]) -> Option<usize> {
    let (mut at, mut frames) = (0, 0);
    while at < bytes.len() {
        let head = bytes.get(at..at + SIZES[5])?;
        let ik_states = u32::from_le_bytes(head[5..9].try_into().unwrap()) as usize;
        at += SIZES[5] + ik_states * IK_STATE_SIZE;
        frames += 1;
    }
    (at == bytes.len()).then_some(frames)
}

fn ik_names_in(bytes: &[u8]) -> Vec<Vec<u8>> {
    let (mut at, mut names) = (0, Vec::new());
    while at < bytes.len() {
        let ik_states = u32::from_le_bytes(bytes[at + 5..at + 9].try_into().unwrap()) as usize;
        at += SIZES[5];
        for _ in 0..ik_states {
            names.push(bytes[at..at + 20].split(|&b| b == 0).next().unwrap().to_vec());
            at += IK_STATE_SIZE;
        }
    }
    names
}

impl Parts {
    pub fn columns(&self) -> Columns<'_> {
        Columns {
            bone_name_indices: &self.bone_name_indices,
            bone_frames: &self.bone_frames,
            bone_translations_xyz: &self.bone_translations_xyz,
            bone_rotations_xyzw: &self.bone_rotations_xyzw,
            bone_interpolations: &self.bone_interpolations,
            morph_name_indices: &self.morph_name_indices,
            morph_frames: &self.morph_frames,
            morph_weights: &self.morph_weights,
        }
    }

    /// Document 01's refusal 5 does not apply.
    pub fn are_whole(&self) -> bool {
        ends_right(&self.bone_name_bytes, &self.bone_name_ends)
            && ends_right(&self.morph_name_bytes, &self.morph_name_ends)
            && self.camera_frames.len() % SIZES[2] == 0
            && self.light_frames.len() % SIZES[3] == 0
            && self.self_shadow_frames.len() % SIZES[4] == 0
            && property_frames_in(&self.property_frames).is_some()
    }

    pub fn bone_names(&self) -> impl Iterator<Item = &[u8]> {
        names_of(&self.bone_name_bytes, &self.bone_name_ends)
    }

    pub fn morph_names(&self) -> impl Iterator<Item = &[u8]> {
        names_of(&self.morph_name_bytes, &self.morph_name_ends)
    }

    /// Every name of whole parts: the model's, those of the tables, those of IK states.
    pub fn all_names(&self) -> Vec<Vec<u8>> {
        let mut names = vec![self.model_name.clone()];
        names.extend(self.bone_names().chain(self.morph_names()).map(<[u8]>::to_vec));
        names.extend(ik_names_in(&self.property_frames));
        names
    }

    /// The same parts, every name replaced by one of the same length.
    pub fn with_names(&self, replaced: impl Fn(&[u8]) -> Vec<u8>) -> Parts {
        let mut parts = self.clone();
        parts.model_name = replaced(&self.model_name);
        parts.bone_name_bytes = self.bone_names().flat_map(&replaced).collect();
        parts.morph_name_bytes = self.morph_names().flat_map(&replaced).collect();
        let mut at = 0;
        while at < parts.property_frames.len() {
            let ik_states = u32::from_le_bytes(parts.property_frames[at + 5..at + 9].try_into().unwrap()) as usize;
            at += SIZES[5];
            for _ in 0..ik_states {
                let field = &mut parts.property_frames[at..at + 20];
                let end = field.iter().position(|&b| b == 0).unwrap_or(20);
                let name = replaced(&field[..end]);
                field[..end].copy_from_slice(&name);
                at += IK_STATE_SIZE;
            }
        }
        parts
    }
}
