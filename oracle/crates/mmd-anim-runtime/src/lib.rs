//! The original animation.rs with stand-ins for what it and vmd/mod.rs name of the crate around it. Only clips use these.
#![allow(dead_code)]

use glam::{Quat, Vec3A};

mod animation;
pub use animation::*;

#[derive(Clone, Copy, Debug, PartialEq, Eq)]
pub struct BoneIndex(pub u32);

impl BoneIndex {
    pub fn as_usize(self) -> usize {
        self.0 as usize
    }
}

#[derive(Clone, Copy, Debug, PartialEq, Eq)]
pub struct MorphIndex(pub u32);

pub struct PoseArena;

impl PoseArena {
    pub fn reset_local_pose(&mut self) {
        off_the_path()
    }

    pub fn set_local_position_offset(&mut self, _bone: BoneIndex, _position: Vec3A) {
        off_the_path()
    }

    pub fn set_local_rotation(&mut self, _bone: BoneIndex, _rotation: Quat) {
        off_the_path()
    }

    pub fn set_morph_weight(&mut self, _morph: MorphIndex, _weight: f32) {
        off_the_path()
    }

    pub fn set_ik_enabled(&mut self, _ik_index: usize, _enabled: bool) {
        off_the_path()
    }
}

pub struct ModelArena;

impl ModelArena {
    pub fn bone_count(&self) -> usize {
        off_the_path()
    }

    pub fn fixed_axis(&self, _bone: BoneIndex) -> Option<Vec3A> {
        off_the_path()
    }
}

fn off_the_path() -> ! {
    panic!("the stand-in for the runtime has names only")
}
