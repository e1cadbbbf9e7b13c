//! The original Rust's calls. What its builder takes besides columns is made before the time is taken.
use mmd_anim_format::vmd::{
    VmdParsedAnimation, VmdPartsDescriptor, VmdPartsInput, VmdPartsNameEntry, build_vmd_animation_from_parts,
    export_vmd_animation, parse_vmd_animation,
};

use crate::takes;

pub fn parse(file: &[u8]) -> VmdParsedAnimation {
    parse_vmd_animation(file).unwrap()
}

pub fn export(file: &[u8]) -> Vec<u8> {
    export_vmd_animation(&parse(file))
}

/// The names and cameras as the original's builder takes them.
pub struct Material {
    descriptor: VmdPartsDescriptor,
}

impl Material {
    pub fn new(material: &takes::Material) -> Material {
        let c = &material.columns;
        let mut from = 0;
        let names: Vec<_> = c
            .name_ends
            .iter()
            .map(|&end| {
                let name_bytes = c.name_bytes[from..end as usize].to_vec();
                from = end as usize;
                VmdPartsNameEntry { name: String::new(), name_bytes }
            })
            .collect();
        let descriptor = VmdPartsDescriptor {
            schema: "mmd-anim-vmd-parts".into(),
            version: 1,
            model_name: String::new(),
            model_name_bytes: b"dancer".to_vec(),
            bone_names: names.clone(),
            morph_names: names,
            camera_frames: parse(&material.camera_file()).camera_frames,
            light_frames: Vec::new(),
            self_shadow_frames: Vec::new(),
            property_frames: Vec::new(),
        };
        Material { descriptor }
    }

    pub fn build(&self, material: &takes::Material) -> Vec<u8> {
        let c = &material.columns;
        let input = VmdPartsInput {
            descriptor: self.descriptor.clone(),
            bone_name_indices: &c.bone_indices,
            bone_frames: &c.bone_frames,
            bone_translations_xyz: &c.translations,
            bone_rotations_xyzw: &c.rotations,
            bone_interpolations: &c.interpolations,
            morph_name_indices: &c.morph_indices,
            morph_frames: &c.morph_frames,
            morph_weights: &c.weights,
        };
        export_vmd_animation(&build_vmd_animation_from_parts(input).unwrap())
    }
}
