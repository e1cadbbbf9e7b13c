//! Whether saving would touch a file, where first, and what stands there.
use std::fmt;

use crate::header::sizes::*;
use crate::manner::Manner;
use crate::refusal::Refusal;
use crate::take::Take;

/// Whether saving would leave a file as it is: whether it equals its [`export`](crate::export).
///
/// That is so just where the file is of the newer edition, has zeros after its magic and after every name, flags of 0 or 1, all
/// six counts, and no bytes over. What the calls here write is canonical, but for [`export_older`](crate::export_older).
///
/// ```
/// let mut file = *b"Vocaloid Motion Data 0002\0\0\0\0\0dancer\0?????????????\0\0\0\0"; // a model name, and no bones
/// assert!(!vmd::is_canonical(&file)?);
/// assert_eq!(vmd::first_change(&file)?, Some(37));
/// let saved = vmd::export(&file)?;
/// assert!(vmd::is_canonical(&saved)?);
/// assert_eq!(vmd::first_change(&saved)?, None);
/// file[0] = b'v';
/// assert_eq!(vmd::is_canonical(&file), Err(vmd::Refusal::MagicDiffers));
/// # Ok::<(), vmd::Error>(())
/// ```
pub fn is_canonical(file: &[u8]) -> Result<bool, Refusal> {
    Manner::Strict.is_canonical(file)
}

/// The first place that saving would touch: at which a file and its [`export`](crate::export) differ, or just one of them has
/// ended. None for a canonical file. What stands there tells [`Take::first_change`].
pub fn first_change(file: &[u8]) -> Result<Option<usize>, Refusal> {
    Manner::Strict.first_change(file)
}

/// What saving a take would touch first; [`Take::first_change`] gives it. As text it is one line in plain words.
///
/// ```
/// let frame = [90, 0, 0, 0, 7, 0, 0, 0, 0]; // a property frame without IK states
/// let mut file = vmd::Parts { model_name: b"dancer", property_frames: &frame, ..Default::default() }.build()?;
/// file[78] = 7; // which is written as 1
/// let change = vmd::Take::open(&file)?.first_change().unwrap();
/// assert_eq!(change.touched, vmd::Touched::Visible(0));
/// assert_eq!(change.to_string(), "byte 78 is 7 and would be 1: the visible flag of property frame 0");
/// # Ok::<(), vmd::Error>(())
/// ```
#[derive(Clone, Copy, Debug, PartialEq, Eq)]
pub struct Change {
    /// The first place at which the file and its export differ, or just one of them has ended.
    pub place: usize,
    /// The file's byte there; None where it has ended.
    pub found: Option<u8>,
    /// The export's byte there; None where it has ended.
    pub saved: Option<u8>,
    /// What stands there.
    pub touched: Touched,
}

/// What of a take saving touches. Records have the numbers by which [`Take`] gives them: the first is 0.
#[derive(Clone, Copy, Debug, PartialEq, Eq)]
pub enum Touched {
    /// The edition, in the magic: the file is of the older one.
    Edition,
    /// A byte after the magic, 26 to 29.
    AfterMagic,
    /// A byte after the model name, in its field.
    AfterModelName,
    /// A byte after the name of this bone frame, in its field.
    AfterBoneName(usize),
    /// A byte after the name of this morph frame, in its field.
    AfterMorphName(usize),
    /// The perspective flag of this camera frame, which is neither 0 nor 1.
    Perspective(usize),
    /// The visible flag of this property frame, which is neither 0 nor 1.
    Visible(usize),
    /// A byte after the name of this IK state of this property frame, in its field.
    AfterIkName {
        /// The property frame.
        property: usize,
        /// Which of its IK states.
        state: usize,
    },
    /// The enabled flag of this IK state of this property frame, which is neither 0 nor 1.
    Enabled {
        /// The property frame.
        property: usize,
        /// Which of its IK states.
        state: usize,
    },
    /// The count of this section, before which the file ends.
    MissingCount(Section),
    /// The count of this section, which is too large for the bytes after it. Only a take that was opened in the lenient manner
    /// has one.
    OversizedCount(Section),
    /// Bytes after the last of so many property frames, or after their count where that is 0. Only a take that was opened in
    /// the lenient manner has some.
    BytesOver(usize),
}

/// A section of a take. As text it is what one of its records is: `bone`, `self-shadow`.
#[derive(Clone, Copy, Debug, PartialEq, Eq)]
#[allow(missing_docs)]
pub enum Section {
    Bones,
    Morphs,
    Cameras,
    Lights,
    SelfShadows,
    Properties,
}

impl fmt::Display for Change {
    fn fmt(&self, f: &mut fmt::Formatter<'_>) -> fmt::Result {
        let Change { place, found, saved, touched } = self;
        let shown = |byte: &Option<u8>, none: &str| byte.map_or(none.into(), |byte| byte.to_string());
        write!(f, "byte {place} is {} and would be {}: {touched}", shown(found, "missing"), shown(saved, "left out"))
    }
}

impl fmt::Display for Touched {
    fn fmt(&self, f: &mut fmt::Formatter<'_>) -> fmt::Result {
        match self {
            Touched::Edition => write!(f, "the file is of the older edition"),
            Touched::AfterMagic => write!(f, "after the magic"),
            Touched::AfterModelName => write!(f, "after the model name"),
            Touched::AfterBoneName(i) => write!(f, "after the name of bone {i}"),
            Touched::AfterMorphName(i) => write!(f, "after the name of morph {i}"),
            Touched::Perspective(i) => write!(f, "the perspective flag of camera {i}"),
            Touched::Visible(i) => write!(f, "the visible flag of property frame {i}"),
            Touched::AfterIkName { property, state } => {
                write!(f, "after the name of IK state {state} of property frame {property}")
            }
            Touched::Enabled { property, state } => {
                write!(f, "the enabled flag of IK state {state} of property frame {property}")
            }
            Touched::MissingCount(section) => write!(f, "the file ends before the {section} count"),
            Touched::OversizedCount(section) => write!(f, "the {section} count is too large for the bytes after it"),
            Touched::BytesOver(0) => write!(f, "the file goes on after a property count of 0"),
            Touched::BytesOver(_) => write!(f, "the file goes on after the last property frame"),
        }
    }
}

impl fmt::Display for Section {
    fn fmt(&self, f: &mut fmt::Formatter<'_>) -> fmt::Result {
        f.write_str(match self {
            Section::Bones => "bone",
            Section::Morphs => "morph",
            Section::Cameras => "camera",
            Section::Lights => "light",
            Section::SelfShadows => "self-shadow",
            Section::Properties => "property",
        })
    }
}

impl Change {
    /// At the first place that saving a take would touch.
    pub(crate) fn at(place: usize, take: &Take) -> Self {
        let touched = touched(place, take);
        Change { place, found: take.file().get(place).copied(), saved: saved(touched), touched }
    }
}

/// What the export has where it first differs from the file.
fn saved(touched: Touched) -> Option<u8> {
    match touched {
        Touched::Edition => Some(b'0'), // of 0002
        Touched::Perspective(_) | Touched::Visible(_) | Touched::Enabled { .. } => Some(1),
        Touched::BytesOver(_) => None,
        Touched::AfterMagic
        | Touched::AfterModelName
        | Touched::AfterBoneName(_)
        | Touched::AfterMorphName(_)
        | Touched::AfterIkName { .. }
        | Touched::MissingCount(_)
        | Touched::OversizedCount(_) => Some(0),
    }
}

/// Bytes of a section's count.
const COUNT: usize = 4;

/// What stands at the first place that saving touches. All before it is as the export has it, so that a place past the magic
/// is one of the newer edition.
fn touched(place: usize, take: &Take) -> Touched {
    match place {
        ..26 => return Touched::Edition,
        26..30 => return Touched::AfterMagic,
        30..50 => return Touched::AfterModelName,
        _ => {}
    }
    let mut end = 50; // of what stands before a section
    for (section, count, size) in [
        (Section::Bones, take.bones(), VMD_BONE_SIZE),
        (Section::Morphs, take.morphs(), VMD_MORPH_SIZE),
        (Section::Cameras, take.cameras(), VMD_CAMERA_SIZE),
        (Section::Lights, take.lights(), VMD_LIGHT_SIZE),
        (Section::SelfShadows, take.self_shadows(), VMD_SELF_SHADOW_SIZE),
    ] {
        let (records, size) = (end + COUNT, size as usize);
        end = records + count * size;
        if place < records {
            return in_count(section, place, take);
        }
        if place < end {
            return in_record(section, (place - records) / size);
        }
    }
    let frames = end + COUNT;
    if place < frames { in_count(Section::Properties, place, take) } else { in_properties(place, frames, take) }
}

fn in_count(section: Section, place: usize, take: &Take) -> Touched {
    if place == take.file().len() { Touched::MissingCount(section) } else { Touched::OversizedCount(section) }
}

/// In a record of a fixed size, by its number.
fn in_record(section: Section, i: usize) -> Touched {
    match section {
        Section::Bones => Touched::AfterBoneName(i),
        Section::Morphs => Touched::AfterMorphName(i),
        Section::Cameras => Touched::Perspective(i),
        _ => unreachable!("all bytes of a light and of a self-shadow are saved as they are"),
    }
}

/// In the property frames, which begin at a place of their own, or after them. They are read once, one after another.
fn in_properties(place: usize, mut frame: usize, take: &Take) -> Touched {
    const PROPERTY: usize = VMD_PROPERTY_SIZE as usize;
    const IK_STATE: usize = VMD_IK_STATE_SIZE as usize;
    for (property, fields) in take.property_frames().enumerate() {
        let states = frame + PROPERTY;
        let next = states + IK_STATE * fields.ik_states as usize;
        if place < states {
            return Touched::Visible(property);
        }
        if place < next {
            let state = (place - states) / IK_STATE;
            let is_last_byte = (place - states) % IK_STATE == IK_STATE - 1;
            return if is_last_byte {
                Touched::Enabled { property, state }
            } else {
                Touched::AfterIkName { property, state }
            };
        }
        frame = next;
    }
    Touched::BytesOver(take.properties())
}
