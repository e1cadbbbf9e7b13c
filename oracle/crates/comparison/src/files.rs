//! One file of either edition through every call of the reader and the exporter, converted, split into parts, added to a
//! season, tidied, and cut to an excerpt; where a call has two manners, in both.

use crate::check::{check_in_both, same, Checked, SLOT};
use crate::excerpt::ExcerptCheck;
use crate::lent::{Input, Output, Scratch};
use crate::library::{self, Opening};
use crate::manner::{self, Expected, FilesMet, Manner, Read, MANNERS};
use crate::season::SeasonCheck;
use crate::split::SplitCheck;
use crate::tally::Answers;
use crate::tidy::TidyCheck;
use mmd_anim_format::vmd::{
    read_header, VmdParsedAnimation, VmdParsedBoneFrame, VmdParsedCameraFrame, VmdParsedLightFrame, VmdParsedMorphFrame,
    VmdParsedPropertyFrame, VmdParsedSelfShadowFrame,
};
use oracle::files::{IK_STATE_SIZE, SIZES};
use oracle::older::{self, is_older};
use oracle::original::{self, MAGIC_DIFFERS, MODEL_NAME_TOO_LONG, SCRATCH_TOO_SHORT};
use oracle::strict;

const OUTSIDE: u32 = 4;
const UNSET: u32 = 0xdead_beef;

/// By request f) a scratch has a place for the first of each sixteen property frames.
pub const PER_PLACE: usize = 16;

#[derive(Default)]
pub struct FileCheck {
    input: Input,
    output: Output,
    scratch: Scratch,
    pub records: u64,
    /// Accepted files with more property frames than one place is for.
    pub several_places: u64,
    pub editions: EditionTally,
    pub met: FilesMet,
    pub lights: LightNans,
    pub split: SplitCheck,
    pub season: SeasonCheck,
    pub tidy: TidyCheck,
    pub excerpt: ExcerptCheck,
}

/// Files that begin with the older magic, and how many of them are accepted; what the converter wrote and refused with 15.
#[derive(Default)]
pub struct EditionTally {
    pub older: u64,
    pub older_accepted: u64,
    pub converted: u64,
    pub too_long: u64,
}

/// The call with f32 fields keeps a NaN a NaN, and need not keep its bits.
#[derive(Default)]
pub struct LightNans {
    pub seen: u64,
    pub other_bits: u64,
    pub first: Option<(u32, u32)>,
}

fn unset_opening() -> Opening {
    Opening { counts: [UNSET; 6], places: [u64::MAX - 1; 6], totals: [u64::MAX - 2; 3] }
}

impl FileCheck {
    /// The spans of excerpts come from this seed.
    pub fn new(seed: u64) -> Self {
        FileCheck { excerpt: ExcerptCheck::new(seed), ..FileCheck::default() }
    }

    /// The answer in each manner; or a difference.
    pub fn check(&mut self, file: &[u8]) -> Result<Answers, String> {
        let mut input = std::mem::take(&mut self.input);
        let checked = self.check_held(input.hold(file));
        self.input = input;
        checked
    }

    fn check_held(&mut self, file: &[u8]) -> Result<Answers, String> {
        let met = strict::met(file);
        let read = manner::read(file, met)?;
        let opened = read.map(|read| Opened::of(file, &read.take));
        check_model_name(file)?;
        self.check_opening(file, &opened)?;
        if let (Ok(opened), Ok(read)) = (&opened.lenient, &read.lenient) {
            self.check_records(&read.take, opened)?;
        }
        check_in_both(
            "export",
            &read.map(|read| &read.exported),
            &mut self.output,
            |manner, size| library::export_size(manner, file, size),
            |manner, out, written| library::export_animation(manner, file, out, written),
        )?;
        self.check_converted(file, &read)?;
        self.split.check(file, &read)?;
        self.season.check(file, read.lenient.as_ref().ok().map(|read| &read.take))?;
        self.tidy.check(file, &read)?;
        self.excerpt.check(file, &read)?;
        self.met.add(file, met);
        if is_older(file) {
            same("the original's own answer to an older file", original::read_unwidened(file).err(), Some(MAGIC_DIFFERS))?;
            self.editions.older += 1;
            self.editions.older_accepted += read.lenient.is_ok() as u64;
        }
        Ok(read.answers())
    }

    fn check_converted(&mut self, file: &[u8], read: &Expected<Read>) -> Checked {
        let converted = read.and_then(|read| older::converted(&read.exported));
        check_in_both(
            "older export",
            &converted,
            &mut self.output,
            |manner, size| library::export_older_size(manner, file, size),
            |manner, out, written| library::export_older_animation(manner, file, out, written),
        )?;
        self.editions.converted += converted.lenient.is_ok() as u64;
        self.editions.too_long += (converted.lenient == Err(MODEL_NAME_TOO_LONG)) as u64;
        Ok(())
    }

    /// With places enough, with more, and with one too few. Those of a strict refusal are enough for the lenient manner.
    fn check_opening(&mut self, file: &[u8], expected: &Expected<Opened>) -> Checked {
        let enough = expected.lenient.as_ref().map_or(0, |opened| opened.scratch.len());
        for manner in MANNERS {
            let expected = expected.in_manner(manner);
            for places in [enough, enough + 3] {
                self.check_opened(manner, file, places, expected)?;
            }
            if let Some(short) = enough.checked_sub(1) {
                self.check_opened(manner, file, short, expected.and(Err(SCRATCH_TOO_SHORT)))?;
            }
        }
        self.several_places += (enough > 1) as u64;
        Ok(())
    }

    fn check_opened(&mut self, manner: Manner, file: &[u8], places: usize, expected: Result<&Opened, u32>) -> Checked {
        let mut ours = unset_opening();
        let answer = library::parse_animation(manner, file, self.scratch.lend(places), &mut ours);
        let shown = |part: &str| format!("{manner} opening with {places} places: {part}");
        same(&shown("answer"), answer, expected.err().unwrap_or(0))?;
        same(&shown("slots"), &ours, expected.map_or(&unset_opening(), |opened| &opened.opening))?;
        self.scratch.holds(expected.map_or(&[], |opened| &opened.scratch)).map_err(|difference| shown(&difference))
    }

    fn check_records(&mut self, take: &VmdParsedAnimation, opened: &Opened) -> Checked {
        for (i, frame) in take.bone_frames.iter().enumerate() {
            opened.check_bone(i, frame)?;
        }
        for (i, frame) in take.morph_frames.iter().enumerate() {
            opened.check_morph(i, frame)?;
        }
        for (i, frame) in take.camera_frames.iter().enumerate() {
            opened.check_camera(i, frame)?;
        }
        for (i, frame) in take.light_frames.iter().enumerate() {
            opened.check_light(i, frame, &mut self.lights)?;
        }
        for (i, frame) in take.self_shadow_frames.iter().enumerate() {
            opened.check_self_shadow(i, frame)?;
        }
        for (i, frame) in take.property_frames.iter().enumerate() {
            opened.check_property(i, frame)?;
        }
        opened.check_one_after_another(&take.property_frames)?;
        self.records += opened.opening.counts.iter().map(|&count| count as u64).sum::<u64>() + opened.opening.totals[0];
        opened.check_past_the_ends()
    }
}

/// The original's reader keeps no places: these follow document 01 over the counts that it found. In an older file they are
/// those of the widened one, 10 less.
fn opening_of(file: &[u8], take: &VmdParsedAnimation) -> (Opening, Vec<u64>) {
    let widened = older::widened(file).expect("the header of an accepted file");
    let (mut opening, mut positions) = opening_of_newer(&widened, take);
    let less = (widened.len() - file.len()) as u64;
    opening.places.iter_mut().chain(&mut positions).for_each(|place| *place -= less);
    (opening, positions)
}

fn opening_of_newer(file: &[u8], take: &VmdParsedAnimation) -> (Opening, Vec<u64>) {
    let found = &take.metadata.counts;
    let counts = [found.bones, found.morphs, found.cameras, found.lights, found.self_shadows, found.properties];
    let (mut at, mut places) = (50, [file.len() as u64; 6]);
    for (i, &count) in counts.iter().enumerate() {
        let Some(bytes) = file.get(at..at + 4) else { break };
        if u32::from_le_bytes(bytes.try_into().unwrap()) as usize != count {
            break; // an oversized count
        }
        places[i] = at as u64 + 4;
        at += 4 + count * SIZES[i];
    }
    let mut at = places[5];
    let positions = take.property_frames.iter().map(|frame| {
        let position = at;
        at += size_of(frame);
        position
    });
    let positions = positions.collect();
    let ik_states: usize = take.property_frames.iter().map(|frame| frame.ik_states.len()).sum();
    let totals = [ik_states as u64, original::smallest_frame(take) as u64, take.metadata.max_frame as u64];
    (Opening { counts: counts.map(|count| count as u32), places, totals }, positions)
}

/// A property frame's bytes, its IK states included.
fn size_of(frame: &VmdParsedPropertyFrame) -> u64 {
    (SIZES[5] + IK_STATE_SIZE * frame.ik_states.len()) as u64
}

fn property_record(frame: &VmdParsedPropertyFrame) -> [u32; 3] {
    [frame.frame, frame.visible as u32, frame.ik_states.len() as u32]
}

/// The part's bytes.
pub fn bytes_at<'a>(what: &str, file: &'a [u8], part: [u64; 2]) -> Result<&'a [u8], String> {
    let [begin, len] = part;
    let inside = begin.checked_add(len).is_some_and(|end| end <= file.len() as u64);
    if inside {
        Ok(&file[begin as usize..(begin + len) as usize])
    } else {
        Err(format!("{what}: {len} bytes at {begin} of {}", file.len()))
    }
}

/// The file's model name, empty where its header is refused.
pub fn model_of(file: &[u8]) -> Vec<u8> {
    let header = older::widened(file).ok().and_then(|file| read_header(&file).ok().map(|(header, _)| header));
    let field = header.map_or([0; 20], |header| header.model_name_bytes);
    field.split(|&byte| byte == 0).next().unwrap().to_vec()
}

/// Where a model name is in its file.
pub fn model_part(name: &[u8]) -> [u64; 2] {
    if name.is_empty() {
        [0, 0]
    } else {
        [30, name.len() as u64]
    }
}

fn check_model_name(file: &[u8]) -> Checked {
    let (part, name) = (library::model_name(file), model_of(file));
    same("model name", bytes_at("model name", file, part)?, &name)?;
    same("model name: part", part, model_part(&name))
}

fn bits<const N: usize>(values: [f32; N]) -> [u32; N] {
    values.map(f32::to_bits)
}

/// What opening has to give, and the file.
struct Opened<'a> {
    file: &'a [u8],
    opening: Opening,
    scratch: Vec<u64>,
}

impl<'a> Opened<'a> {
    fn of(file: &'a [u8], take: &VmdParsedAnimation) -> Self {
        let (opening, positions) = opening_of(file, take);
        Opened { file, opening, scratch: positions.into_iter().step_by(PER_PLACE).collect() }
    }

    fn check_part(&self, what: &str, part: [u64; 2], expected: &[u8]) -> Checked {
        same(what, bytes_at(what, self.file, part)?, expected)
    }

    fn check_bone(&self, i: usize, frame: &VmdParsedBoneFrame) -> Checked {
        let mut record = [UNSET; 8];
        same("bone: answer", library::bone_frame(self.file, &self.opening, i, &mut record), 0)?;
        let ([x, y, z], [rx, ry, rz, rw]) = (bits(frame.translation), bits(frame.rotation));
        same("bone", record, [frame.frame, x, y, z, rx, ry, rz, rw])?;
        self.check_part("bone name", library::bone_name(self.file, &self.opening, i), &frame.bone_name_bytes)?;
        self.check_part("bone interpolation", library::bone_interpolation(self.file, &self.opening, i), &frame.interpolation)
    }

    fn check_morph(&self, i: usize, frame: &VmdParsedMorphFrame) -> Checked {
        let mut record = [UNSET; 2];
        same("morph: answer", library::morph_frame(self.file, &self.opening, i, &mut record), 0)?;
        same("morph", record, [frame.frame, frame.weight.to_bits()])?;
        self.check_part("morph name", library::morph_name(self.file, &self.opening, i), &frame.morph_name_bytes)
    }

    fn check_camera(&self, i: usize, frame: &VmdParsedCameraFrame) -> Checked {
        let mut record = [UNSET; 10];
        same("camera: answer", library::camera_frame(self.file, &self.opening, i, &mut record), 0)?;
        let ([x, y, z], [rx, ry, rz]) = (bits(frame.position), bits(frame.rotation));
        let perspective = frame.perspective as u32;
        same("camera", record, [frame.frame, frame.distance.to_bits(), x, y, z, rx, ry, rz, frame.fov, perspective])?;
        self.check_part("camera interpolation", library::camera_interpolation(self.file, &self.opening, i), &frame.interpolation)
    }

    fn check_light(&self, i: usize, frame: &VmdParsedLightFrame, nans: &mut LightNans) -> Checked {
        let mut record = [UNSET; 7];
        same("light bits: answer", library::light_frame_bits(self.file, &self.opening, i, &mut record), 0)?;
        let ([r, g, b], [x, y, z]) = (bits(frame.color), bits(frame.direction));
        same("light bits", record, [frame.frame, r, g, b, x, y, z])?;
        let (mut number, mut values) = (UNSET, [0.0; 6]);
        same("light: answer", library::light_frame(self.file, &self.opening, i, &mut number, &mut values), 0)?;
        same("light: frame", number, frame.frame)?;
        for (value, expected) in values.into_iter().zip([r, g, b, x, y, z]) {
            nans.check(value.to_bits(), expected)?;
        }
        Ok(())
    }

    fn check_self_shadow(&self, i: usize, frame: &VmdParsedSelfShadowFrame) -> Checked {
        let mut record = [UNSET; 3];
        same("self-shadow: answer", library::self_shadow_frame(self.file, &self.opening, i, &mut record), 0)?;
        same("self-shadow", record, [frame.frame, frame.mode as u32, frame.distance.to_bits()])
    }

    /// With a scratch that ends after the frame's place, and with one that ends before it.
    fn check_property(&self, i: usize, frame: &VmdParsedPropertyFrame) -> Checked {
        let (enough, short) = (&self.scratch[..=i / PER_PLACE], &self.scratch[..i / PER_PLACE]);
        let mut record = [UNSET; 3];
        let answer = library::property_frame(self.file, &self.opening, enough, i, &mut record);
        same("property: answer", answer, 0)?;
        same("property", record, property_record(frame))?;
        self.check_ik_states(i, frame)?;
        self.check_no_property(short, i)
    }

    fn check_ik_states(&self, i: usize, frame: &VmdParsedPropertyFrame) -> Checked {
        for (j, state) in frame.ik_states.iter().enumerate() {
            let mut enabled = UNSET;
            let answer = library::ik_state(self.file, &self.opening, &self.scratch, i, j, &mut enabled);
            same("IK state: answer", answer, 0)?;
            same("IK state: enabled", enabled, state.enabled as u32)?;
            self.check_part("IK name", library::ik_name(self.file, &self.opening, &self.scratch, i, j), &state.bone_name_bytes)?;
        }
        self.check_no_ik_state(&self.scratch, i, frame.ik_states.len())
    }

    /// From the properties' place on, by place alone; the IK states with a count of one frame and a scratch of its place.
    fn check_one_after_another(&self, frames: &[VmdParsedPropertyFrame]) -> Checked {
        let opening = Opening { counts: [0, 0, 0, 0, 0, 1], ..unset_opening() };
        let mut alone = Opened { file: self.file, opening, scratch: vec![0] };
        let mut place = self.opening.places[5];
        for frame in frames {
            let (mut record, mut next) = ([UNSET; 3], SLOT);
            let answer = library::property_frame_at(self.file, place, &mut record, &mut next);
            same("property at a place: answer", answer, 0)?;
            same("property at a place", record, property_record(frame))?;
            same("the next property's place", next, place + size_of(frame))?;
            alone.scratch[0] = place;
            alone.check_ik_states(0, frame)?;
            check_no_property_at(&self.file[..next as usize - 1], place)?;
            place = next;
        }
        let end = self.file.len() as u64;
        [end - 8, end, end + 1, u64::MAX - 8, u64::MAX].into_iter().try_for_each(|place| check_no_property_at(self.file, place))
    }

    /// Numbers at and above the counts.
    fn check_past_the_ends(&self) -> Checked {
        let (file, opening) = (self.file, &self.opening);
        let past = |section: usize| {
            let count = opening.counts[section] as usize;
            [count, count + 1, usize::MAX]
        };
        for i in past(0) {
            refused("bone", |record: &mut [u32; 8]| library::bone_frame(file, opening, i, record))?;
            same("name of no bone", library::bone_name(file, opening, i), [0, 0])?;
            same("interpolation of no bone", library::bone_interpolation(file, opening, i), [0, 0])?;
        }
        for i in past(1) {
            refused("morph", |record: &mut [u32; 2]| library::morph_frame(file, opening, i, record))?;
            same("name of no morph", library::morph_name(file, opening, i), [0, 0])?;
        }
        for i in past(2) {
            refused("camera", |record: &mut [u32; 10]| library::camera_frame(file, opening, i, record))?;
            same("interpolation of no camera", library::camera_interpolation(file, opening, i), [0, 0])?;
        }
        for i in past(3) {
            refused("light bits", |record: &mut [u32; 7]| library::light_frame_bits(file, opening, i, record))?;
            let (mut number, mut values) = (UNSET, [7.0; 6]);
            same("no light: answer", library::light_frame(file, opening, i, &mut number, &mut values), OUTSIDE)?;
            same("no light: slots", (number, values), (UNSET, [7.0; 6]))?;
        }
        for i in past(4) {
            refused("self-shadow", |record: &mut [u32; 3]| library::self_shadow_frame(file, opening, i, record))?;
        }
        for i in past(5) {
            self.check_no_property(&self.scratch, i)?;
        }
        Ok(())
    }

    fn check_no_property(&self, scratch: &[u64], i: usize) -> Checked {
        refused("property", |record: &mut [u32; 3]| library::property_frame(self.file, &self.opening, scratch, i, record))?;
        self.check_no_ik_state(scratch, i, 0)
    }

    fn check_no_ik_state(&self, scratch: &[u64], i: usize, j: usize) -> Checked {
        for j in [j, j + 1, usize::MAX] {
            refused("IK state", |slot: &mut [u32; 1]| library::ik_state(self.file, &self.opening, scratch, i, j, &mut slot[0]))?;
            same("name of no IK state", library::ik_name(self.file, &self.opening, scratch, i, j), [0, 0])?;
        }
        Ok(())
    }
}

/// A place where no whole frame is: refusal 4, both slots unchanged.
fn check_no_property_at(file: &[u8], place: u64) -> Checked {
    let mut next = SLOT;
    refused("property at a place", |record: &mut [u32; 3]| library::property_frame_at(file, place, record, &mut next))?;
    same("no property at a place: next place", next, SLOT)
}

/// A fetch of no record: refusal 4, its slot unchanged.
fn refused<const N: usize>(what: &str, fetch: impl FnOnce(&mut [u32; N]) -> u32) -> Checked {
    let mut record = [UNSET; N];
    let answer = fetch(&mut record);
    same(&format!("no {what}: answer"), answer, OUTSIDE)?;
    same(&format!("no {what}: slot"), record, [UNSET; N])
}

impl LightNans {
    fn check(&mut self, ours: u32, expected: u32) -> Checked {
        if !f32::from_bits(expected).is_nan() {
            return same("light value", ours, expected);
        }
        if !f32::from_bits(ours).is_nan() {
            return same("light value", ours, expected);
        }
        self.seen += 1;
        if ours != expected {
            self.other_bits += 1;
            self.first.get_or_insert((ours, expected));
        }
        Ok(())
    }
}
