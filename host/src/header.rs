//! The functions of include/vmd.h and its numbers, declared for Rust. This is the only such
//! declaration: the crate has it, and the comparison with the original (oracle/) and the benchmark take this file.
//! tests/interface.rs holds it to the header, parameter by parameter.

/// Bytes of each record in a file.
#[allow(dead_code)] // each user needs some of them
pub mod sizes {
    pub const VMD_BONE_SIZE: u64 = 111;
    pub const VMD_MORPH_SIZE: u64 = 23;
    pub const VMD_CAMERA_SIZE: u64 = 61;
    pub const VMD_LIGHT_SIZE: u64 = 28;
    pub const VMD_SELF_SHADOW_SIZE: u64 = 9;
    pub const VMD_PROPERTY_SIZE: u64 = 9; // without its IK states
    pub const VMD_IK_STATE_SIZE: u64 = 21;
}

/// Property frames to a place of the scratch, which is that of the first of them.
#[allow(dead_code)] // each user needs some of them
pub const VMD_FRAMES_PER_PLACE: usize = 16;

/// Where a section, each of an opening's totals and each of a season's figures stands in the arrays that have them.
#[allow(dead_code)] // each user needs some of them
pub mod indices {
    pub const VMD_BONES: usize = 0;
    pub const VMD_MORPHS: usize = 1;
    pub const VMD_CAMERAS: usize = 2;
    pub const VMD_LIGHTS: usize = 3;
    pub const VMD_SELF_SHADOWS: usize = 4;
    pub const VMD_PROPERTIES: usize = 5;

    // an opening's totals
    pub const VMD_TOTAL_IK_STATES: usize = 0;
    pub const VMD_TOTAL_SMALLEST_FRAME: usize = 1;
    pub const VMD_TOTAL_LARGEST_FRAME: usize = 2;

    // a season's counts, each with the section's index added
    pub const VMD_SEASON_SMALLEST: usize = 0;
    pub const VMD_SEASON_LARGEST: usize = 6;

    // a season's figures
    pub const VMD_SEASON_TOTAL: usize = 0; // with the section's index added
    pub const VMD_SEASON_RECORDS: usize = 6;
    pub const VMD_SEASON_BONE_NAMES: usize = 7;
    pub const VMD_SEASON_MORPH_NAMES: usize = 8;
    pub const VMD_SEASON_ACCEPTED: usize = 9;
    pub const VMD_SEASON_REFUSED: usize = 10;
}

#[rustfmt::skip] // a slice's pointer and length stay on one line
#[allow(dead_code)] // each user calls some of them
unsafe extern "C" {
    pub fn vmd_parse_animation(
        file: *const u8, file_len: usize, scratch: *mut u64, scratch_len: usize, counts: *mut [u32; 6],
        places: *mut [u64; 6], totals: *mut [u64; 3],
    ) -> u32;
    pub fn vmd_parse_animation_lenient(
        file: *const u8, file_len: usize, scratch: *mut u64, scratch_len: usize, counts: *mut [u32; 6],
        places: *mut [u64; 6], totals: *mut [u64; 3],
    ) -> u32;
    pub fn vmd_bone_frame(
        file: *const u8, file_len: usize, counts: *const [u32; 6], places: *const [u64; 6], i: usize,
        record: *mut [u32; 8],
    ) -> u32;
    pub fn vmd_morph_frame(
        file: *const u8, file_len: usize, counts: *const [u32; 6], places: *const [u64; 6], i: usize,
        record: *mut [u32; 2],
    ) -> u32;
    pub fn vmd_camera_frame(
        file: *const u8, file_len: usize, counts: *const [u32; 6], places: *const [u64; 6], i: usize,
        record: *mut [u32; 10],
    ) -> u32;
    pub fn vmd_light_frame(
        file: *const u8, file_len: usize, counts: *const [u32; 6], places: *const [u64; 6], i: usize,
        frame: *mut u32, values: *mut [f32; 6],
    ) -> u32;
    pub fn vmd_light_frame_bits(
        file: *const u8, file_len: usize, counts: *const [u32; 6], places: *const [u64; 6], i: usize,
        record: *mut [u32; 7],
    ) -> u32;
    pub fn vmd_self_shadow_frame(
        file: *const u8, file_len: usize, counts: *const [u32; 6], places: *const [u64; 6], i: usize,
        record: *mut [u32; 3],
    ) -> u32;
    pub fn vmd_property_frame(
        file: *const u8, file_len: usize, counts: *const [u32; 6], places: *const [u64; 6],
        scratch: *const u64, scratch_len: usize, i: usize, record: *mut [u32; 3],
    ) -> u32;
    pub fn vmd_property_frame_at(
        file: *const u8, file_len: usize, place: u64, record: *mut [u32; 3], next: *mut u64,
    ) -> u32;
    pub fn vmd_ik_state(
        file: *const u8, file_len: usize, counts: *const [u32; 6], places: *const [u64; 6],
        scratch: *const u64, scratch_len: usize, i: usize, j: usize, enabled: *mut u32,
    ) -> u32;
    pub fn vmd_bone_name(
        file: *const u8, file_len: usize, counts: *const [u32; 6], places: *const [u64; 6], i: usize,
        part: *mut [u64; 2],
    );
    pub fn vmd_morph_name(
        file: *const u8, file_len: usize, counts: *const [u32; 6], places: *const [u64; 6], i: usize,
        part: *mut [u64; 2],
    );
    pub fn vmd_ik_name(
        file: *const u8, file_len: usize, counts: *const [u32; 6], places: *const [u64; 6],
        scratch: *const u64, scratch_len: usize, i: usize, j: usize, part: *mut [u64; 2],
    );
    pub fn vmd_model_name(file: *const u8, file_len: usize, part: *mut [u64; 2]);
    pub fn vmd_bone_interpolation(
        file: *const u8, file_len: usize, counts: *const [u32; 6], places: *const [u64; 6], i: usize,
        part: *mut [u64; 2],
    );
    pub fn vmd_camera_interpolation(
        file: *const u8, file_len: usize, counts: *const [u32; 6], places: *const [u64; 6], i: usize,
        part: *mut [u64; 2],
    );
    pub fn vmd_export_size(file: *const u8, file_len: usize, size: *mut u64) -> u32;
    pub fn vmd_export_size_lenient(file: *const u8, file_len: usize, size: *mut u64) -> u32;
    pub fn vmd_export_animation(file: *const u8, file_len: usize, out: *mut u8, out_len: usize, written: *mut u64) -> u32;
    pub fn vmd_export_animation_lenient(
        file: *const u8, file_len: usize, out: *mut u8, out_len: usize, written: *mut u64,
    ) -> u32;
    pub fn vmd_export_older_size(file: *const u8, file_len: usize, size: *mut u64) -> u32;
    pub fn vmd_export_older_size_lenient(file: *const u8, file_len: usize, size: *mut u64) -> u32;
    pub fn vmd_export_older_animation(
        file: *const u8, file_len: usize, out: *mut u8, out_len: usize, written: *mut u64,
    ) -> u32;
    pub fn vmd_export_older_animation_lenient(
        file: *const u8, file_len: usize, out: *mut u8, out_len: usize, written: *mut u64,
    ) -> u32;
    pub fn vmd_join_size(first: *const u8, first_len: usize, second: *const u8, second_len: usize, size: *mut u64) -> u32;
    pub fn vmd_join_size_lenient(
        first: *const u8, first_len: usize, second: *const u8, second_len: usize, size: *mut u64,
    ) -> u32;
    pub fn vmd_join_animations(
        first: *const u8, first_len: usize, second: *const u8, second_len: usize,
        out: *mut u8, out_len: usize, written: *mut u64,
    ) -> u32;
    pub fn vmd_join_animations_lenient(
        first: *const u8, first_len: usize, second: *const u8, second_len: usize,
        out: *mut u8, out_len: usize, written: *mut u64,
    ) -> u32;
    pub fn vmd_joined_model(first: *const u8, first_len: usize, second: *const u8, second_len: usize, part: *mut [u64; 3]);
    pub fn vmd_tidy_size(
        file: *const u8, file_len: usize, scratch: *mut u64, scratch_len: usize, size: *mut u64, kept: *mut [u32; 6],
        dropped: *mut [u32; 6],
    ) -> u32;
    pub fn vmd_tidy_size_lenient(
        file: *const u8, file_len: usize, scratch: *mut u64, scratch_len: usize, size: *mut u64, kept: *mut [u32; 6],
        dropped: *mut [u32; 6],
    ) -> u32;
    pub fn vmd_tidy_animation(
        file: *const u8, file_len: usize, scratch: *mut u64, scratch_len: usize, out: *mut u8, out_len: usize,
        written: *mut u64, kept: *mut [u32; 6], dropped: *mut [u32; 6],
    ) -> u32;
    pub fn vmd_tidy_animation_lenient(
        file: *const u8, file_len: usize, scratch: *mut u64, scratch_len: usize, out: *mut u8, out_len: usize,
        written: *mut u64, kept: *mut [u32; 6], dropped: *mut [u32; 6],
    ) -> u32;
    pub fn vmd_excerpt_size(
        file: *const u8, file_len: usize, first_frame: u32, last_frame: u32, size: *mut u64,
    ) -> u32;
    pub fn vmd_excerpt_size_lenient(
        file: *const u8, file_len: usize, first_frame: u32, last_frame: u32, size: *mut u64,
    ) -> u32;
    pub fn vmd_excerpt_animation(
        file: *const u8, file_len: usize, first_frame: u32, last_frame: u32, out: *mut u8, out_len: usize,
        written: *mut u64,
    ) -> u32;
    pub fn vmd_excerpt_animation_lenient(
        file: *const u8, file_len: usize, first_frame: u32, last_frame: u32, out: *mut u8, out_len: usize,
        written: *mut u64,
    ) -> u32;
    pub fn vmd_is_canonical(file: *const u8, file_len: usize, canonical: *mut u32) -> u32;
    pub fn vmd_is_canonical_lenient(file: *const u8, file_len: usize, canonical: *mut u32) -> u32;
    pub fn vmd_first_change(file: *const u8, file_len: usize, change: *mut [u64; 2]) -> u32;
    pub fn vmd_first_change_lenient(file: *const u8, file_len: usize, change: *mut [u64; 2]) -> u32;
    pub fn vmd_first_fault(name: *const u8, name_len: usize) -> usize;
    pub fn vmd_build_size(
        model_name: *const u8, model_name_len: usize,
        bone_name_bytes: *const u8, bone_name_bytes_len: usize,
        bone_name_ends: *const u32, bone_name_ends_len: usize,
        morph_name_bytes: *const u8, morph_name_bytes_len: usize,
        morph_name_ends: *const u32, morph_name_ends_len: usize,
        camera_frames: *const u8, camera_frames_len: usize,
        light_frames: *const u8, light_frames_len: usize,
        self_shadow_frames: *const u8, self_shadow_frames_len: usize,
        property_frames: *const u8, property_frames_len: usize,
        bone_name_indices: *const u32, bone_name_indices_len: usize,
        bone_frames: *const u32, bone_frames_len: usize,
        bone_translations_xyz: *const f32, bone_translations_xyz_len: usize,
        bone_rotations_xyzw: *const f32, bone_rotations_xyzw_len: usize,
        bone_interpolations: *const u8, bone_interpolations_len: usize,
        morph_name_indices: *const u32, morph_name_indices_len: usize,
        morph_frames: *const u32, morph_frames_len: usize,
        morph_weights: *const f32, morph_weights_len: usize,
        size: *mut u64,
    ) -> u32;
    pub fn vmd_build_animation_from_parts(
        model_name: *const u8, model_name_len: usize,
        bone_name_bytes: *const u8, bone_name_bytes_len: usize,
        bone_name_ends: *const u32, bone_name_ends_len: usize,
        morph_name_bytes: *const u8, morph_name_bytes_len: usize,
        morph_name_ends: *const u32, morph_name_ends_len: usize,
        camera_frames: *const u8, camera_frames_len: usize,
        light_frames: *const u8, light_frames_len: usize,
        self_shadow_frames: *const u8, self_shadow_frames_len: usize,
        property_frames: *const u8, property_frames_len: usize,
        bone_name_indices: *const u32, bone_name_indices_len: usize,
        bone_frames: *const u32, bone_frames_len: usize,
        bone_translations_xyz: *const f32, bone_translations_xyz_len: usize,
        bone_rotations_xyzw: *const f32, bone_rotations_xyzw_len: usize,
        bone_interpolations: *const u8, bone_interpolations_len: usize,
        morph_name_indices: *const u32, morph_name_indices_len: usize,
        morph_frames: *const u32, morph_frames_len: usize,
        morph_weights: *const f32, morph_weights_len: usize,
        out: *mut u8, out_len: usize,
        written: *mut u64,
    ) -> u32;
    pub fn vmd_split_sizes(file: *const u8, file_len: usize, sizes: *mut [u64; 4]) -> u32;
    pub fn vmd_split_sizes_lenient(file: *const u8, file_len: usize, sizes: *mut [u64; 4]) -> u32;
    pub fn vmd_split_animation_into_parts(
        file: *const u8, file_len: usize,
        bone_name_bytes: *mut u8, bone_name_bytes_len: usize,
        bone_name_ends: *mut u32, bone_name_ends_len: usize,
        morph_name_bytes: *mut u8, morph_name_bytes_len: usize,
        morph_name_ends: *mut u32, morph_name_ends_len: usize,
        camera_frames: *mut u8, camera_frames_len: usize,
        light_frames: *mut u8, light_frames_len: usize,
        self_shadow_frames: *mut u8, self_shadow_frames_len: usize,
        property_frames: *mut u8, property_frames_len: usize,
        bone_name_indices: *mut u32, bone_name_indices_len: usize,
        bone_frames: *mut u32, bone_frames_len: usize,
        bone_translations_xyz: *mut u32, bone_translations_xyz_len: usize,
        bone_rotations_xyzw: *mut u32, bone_rotations_xyzw_len: usize,
        bone_interpolations: *mut u8, bone_interpolations_len: usize,
        morph_name_indices: *mut u32, morph_name_indices_len: usize,
        morph_frames: *mut u32, morph_frames_len: usize,
        morph_weights: *mut u32, morph_weights_len: usize,
        sizes: *mut [u64; 4],
    ) -> u32;
    pub fn vmd_split_animation_into_parts_lenient(
        file: *const u8, file_len: usize,
        bone_name_bytes: *mut u8, bone_name_bytes_len: usize,
        bone_name_ends: *mut u32, bone_name_ends_len: usize,
        morph_name_bytes: *mut u8, morph_name_bytes_len: usize,
        morph_name_ends: *mut u32, morph_name_ends_len: usize,
        camera_frames: *mut u8, camera_frames_len: usize,
        light_frames: *mut u8, light_frames_len: usize,
        self_shadow_frames: *mut u8, self_shadow_frames_len: usize,
        property_frames: *mut u8, property_frames_len: usize,
        bone_name_indices: *mut u32, bone_name_indices_len: usize,
        bone_frames: *mut u32, bone_frames_len: usize,
        bone_translations_xyz: *mut u32, bone_translations_xyz_len: usize,
        bone_rotations_xyzw: *mut u32, bone_rotations_xyzw_len: usize,
        bone_interpolations: *mut u8, bone_interpolations_len: usize,
        morph_name_indices: *mut u32, morph_name_indices_len: usize,
        morph_frames: *mut u32, morph_frames_len: usize,
        morph_weights: *mut u32, morph_weights_len: usize,
        sizes: *mut [u64; 4],
    ) -> u32;
    pub fn vmd_season_none(counts: *mut [u32; 12], figures: *mut [u64; 11]);
    pub fn vmd_season_add(file: *const u8, file_len: usize, counts: *mut [u32; 12], figures: *mut [u64; 11]);
    pub fn vmd_season_mean(figures: *const [u64; 11], mean: *mut [u64; 2]);
}
