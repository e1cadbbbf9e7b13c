//! Writes the takes of the repository's folder `examples` with the builder: `cargo run --example make_examples`.
use std::error::Error;
use std::path::Path;

use vmd::{NameTable, Parts};

const CENTER: &[u8] = b"\x83\x5A\x83\x93\x83\x5E\x81\x5B"; // the names are Shift_JIS, as editors write them
const LEFT_LEG_IK: &[u8] = b"\x8D\xB6\x91\xAB\x82\x68\x82\x6A";
const RIGHT_LEG_IK: &[u8] = b"\x89\x45\x91\xAB\x82\x68\x82\x6A";
const BLINK: &[u8] = b"\x82\xDC\x82\xCE\x82\xBD\x82\xAB";
const SMILE: &[u8] = b"\x8F\xCE\x82\xA2";

/// The curve of a straight line, in each of a bone's four channels.
fn straight() -> [u8; 64] {
    std::array::from_fn(|k| if k % 16 < 8 { 20 } else { 107 })
}

/// Bones that stand upright at a position each: the name's index, the frame, the position.
struct Bones {
    indices: Vec<u32>,
    frames: Vec<u32>,
    translations: Vec<f32>,
    rotations: Vec<f32>,
    interpolations: Vec<u8>,
}

impl Bones {
    fn new(rows: &[(u32, u32, [f32; 3])]) -> Self {
        Bones {
            indices: rows.iter().map(|row| row.0).collect(),
            frames: rows.iter().map(|row| row.1).collect(),
            translations: rows.iter().flat_map(|row| row.2).collect(),
            rotations: rows.iter().flat_map(|_| [0.0, 0.0, 0.0, 1.0]).collect(),
            interpolations: rows.iter().flat_map(|_| straight()).collect(),
        }
    }
}

/// A property frame as a file has it: the frame, whether the model is seen, and its IK states.
fn property(frame: u32, visible: bool, states: &[(&[u8], bool)]) -> Vec<u8> {
    let mut bytes = frame.to_le_bytes().to_vec();
    bytes.push(visible.into());
    bytes.extend((states.len() as u32).to_le_bytes());
    for (name, enabled) in states {
        let mut field = [0; 20];
        field[..name.len()].copy_from_slice(name);
        bytes.extend(field);
        bytes.push((*enabled).into());
    }
    bytes
}

fn floats(bytes: &mut Vec<u8>, values: &[f32]) {
    values.iter().for_each(|value| bytes.extend(value.to_le_bytes()));
}

/// Two steps and a smile.
fn step() -> Result<Vec<u8>, vmd::Error> {
    let bone_names = NameTable::new([CENTER, LEFT_LEG_IK, RIGHT_LEG_IK]);
    let morph_names = NameTable::new([BLINK, SMILE]);
    let bones = Bones::new(&[
        (0, 0, [0.0, 0.0, 0.0]),
        (1, 0, [0.0, 0.0, 0.0]),
        (2, 0, [0.0, 0.0, 0.0]),
        (0, 15, [0.5, -0.25, 0.0]),
        (1, 15, [1.0, 0.75, 0.0]),
        (0, 30, [1.0, 0.0, 0.0]),
        (1, 30, [2.0, 0.0, 0.0]),
        (2, 30, [1.0, 0.0, 0.0]),
    ]);
    Parts {
        model_name: b"dancer",
        bone_name_bytes: &bone_names.bytes,
        bone_name_ends: &bone_names.ends,
        bone_name_indices: &bones.indices,
        bone_frames: &bones.frames,
        bone_translations_xyz: &bones.translations,
        bone_rotations_xyzw: &bones.rotations,
        bone_interpolations: &bones.interpolations,
        morph_name_bytes: &morph_names.bytes,
        morph_name_ends: &morph_names.ends,
        morph_name_indices: &[0, 0, 0, 1],
        morph_frames: &[10, 12, 14, 20],
        morph_weights: &[0.0, 1.0, 0.0, 0.625],
        ..Default::default()
    }
    .build()
}

/// A leap: both legs' inverse kinematics goes off as the feet leave the floor, and on again as they land.
fn leap() -> Result<Vec<u8>, vmd::Error> {
    let bone_names = NameTable::new([CENTER]);
    let bones = Bones::new(&[(0, 0, [0.0, 0.0, 0.0]), (0, 30, [0.0, 8.5, 2.0]), (0, 60, [0.0, 0.0, 4.0])]);
    let properties = [
        property(0, true, &[(LEFT_LEG_IK, true), (RIGHT_LEG_IK, true)]),
        property(20, true, &[(LEFT_LEG_IK, false), (RIGHT_LEG_IK, true)]),
        property(22, true, &[(LEFT_LEG_IK, false), (RIGHT_LEG_IK, false)]),
        property(55, true, &[(LEFT_LEG_IK, true), (RIGHT_LEG_IK, true)]),
    ]
    .concat();
    Parts {
        model_name: b"dancer",
        bone_name_bytes: &bone_names.bytes,
        bone_name_ends: &bone_names.ends,
        bone_name_indices: &bones.indices,
        bone_frames: &bones.frames,
        bone_translations_xyz: &bones.translations,
        bone_rotations_xyzw: &bones.rotations,
        bone_interpolations: &bones.interpolations,
        property_frames: &properties,
        ..Default::default()
    }
    .build()
}

/// Camera, lights and self-shadows, and no dancer.
fn stage() -> Result<Vec<u8>, vmd::Error> {
    let (mut cameras, mut lights, mut self_shadows) = (Vec::new(), Vec::new(), Vec::new());
    for (frame, distance, field_of_view, perspective) in [(0u32, -45.0, 30u32, 0u8), (90, -20.0, 45, 0), (91, -20.0, 45, 1)]
    {
        cameras.extend(frame.to_le_bytes());
        floats(&mut cameras, &[distance, 0.0, 10.0, 0.0, 0.125, 0.0, 0.0]);
        cameras.extend([20, 107, 20, 107].repeat(6));
        cameras.extend(field_of_view.to_le_bytes());
        cameras.push(perspective);
    }
    for (frame, red) in [(0u32, 0.6), (90, 1.0)] {
        lights.extend(frame.to_le_bytes());
        floats(&mut lights, &[red, 0.5, 0.5, -0.5, -1.0, 0.5]);
    }
    for (frame, mode) in [(0u32, 1u8), (45, 2), (90, 0)] {
        self_shadows.extend(frame.to_le_bytes());
        self_shadows.push(mode);
        floats(&mut self_shadows, &[0.01125]);
    }
    Parts { camera_frames: &cameras, light_frames: &lights, self_shadow_frames: &self_shadows, ..Default::default() }.build()
}

/// Each take with its file's name. The show is the join of those before it, and the encore the show again, in the older
/// edition.
pub fn takes() -> Result<Vec<(&'static str, Vec<u8>)>, vmd::Error> {
    let (step, leap, stage) = (step()?, leap()?, stage()?);
    let show = vmd::join(&vmd::join(&step, &leap)?, &stage)?;
    let encore = vmd::export_older(&show)?;
    Ok(vec![("step.vmd", step), ("leap.vmd", leap), ("stage.vmd", stage), ("show.vmd", show), ("encore.vmd", encore)])
}

#[allow(dead_code)] // the test that compares takes in this file too
fn main() -> Result<(), Box<dyn Error>> {
    let folder = Path::new(env!("CARGO_MANIFEST_DIR")).join("../examples");
    std::fs::create_dir_all(&folder)?;
    for (name, file) in takes()? {
        vmd::save(folder.join(name), &file)?;
    }
    Ok(())
}
