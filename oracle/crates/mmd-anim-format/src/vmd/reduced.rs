//! Stand-in: the names that vmd/mod.rs re-exports. A child module sees its parent's private functions, so VmdPoseExport
//! hands out those that have no public caller of their own.

pub struct VmdExportMorphKind;
pub struct VmdExportName;
pub struct VmdPoseExport;
pub struct VmdPoseExportBindings;
pub struct VmdPoseExportError;
pub struct VmdPoseExportReport;

pub fn export_reduced_pose_to_vmd() {
    panic!("the pose export is not compared")
}

impl VmdPoseExport {
    pub fn validate_vmd_parts_name(bytes: &[u8], width: usize, field: &str) -> Result<(), String> {
        super::validate_vmd_parts_name(bytes, width, field)
    }

    pub fn vmd_registration_name(name: &[u8]) -> &[u8] {
        super::vmd_registration_name(name)
    }

    pub fn last_vmd_keys_per_frame<T>(keys: Vec<T>, frame: impl Fn(&T) -> u32) -> Vec<T> {
        super::last_vmd_keys_per_frame(keys, frame)
    }

    pub fn interpolation_ratio(previous_frame: u32, next_frame: u32, frame: f32) -> f32 {
        super::interpolation_ratio(previous_frame, next_frame, frame)
    }

    pub fn lerp(a: f32, b: f32, t: f32) -> f32 {
        super::lerp(a, b, t)
    }
}
