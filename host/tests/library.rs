//! The crate's calls, and that each reaches the right one of the C interface.
mod common;

use std::array;
use std::collections::BTreeSet;
use std::ops::Range;
use std::thread;

use common::records::{key, random_take};
use common::{BOTH, Random, as_older, at_frames, bones, counts, examples, older_start, refused_by_all, start, widened};
use vmd::{
    Error, Figures, IkState, Manner, Mean, NameTable, OwnedParts, Parts, PartsMut, PropertyFrame, Refusal, Season,
    TableSizes, Take,
};

/// Records as a file has them, with a value of its own in every field.
struct Records {
    bytes: Vec<u8>,
}

impl Records {
    fn numbers(mut self, values: &[u32]) -> Self {
        values.iter().for_each(|value| self.bytes.extend(value.to_le_bytes()));
        self
    }

    fn bytes(mut self, bytes: &[u8]) -> Self {
        self.bytes.extend(bytes);
        self
    }

    fn name(mut self, name: &[u8], width: usize) -> Self {
        self.bytes.extend(name);
        self.bytes.resize(self.bytes.len() + width - name.len(), 0);
        self
    }
}

fn bits<const N: usize>(values: [f32; N]) -> [u32; N] {
    values.map(f32::to_bits)
}

/// Six sections; the floats are NaNs with payloads among others, so they are compared by their bits.
fn six_sections() -> Vec<u8> {
    let interpolation: Vec<u8> = (100..164).collect();
    Records { bytes: start()[..30].to_vec() }
        .name(b"model", 20)
        .numbers(&[2])
        .name(b"arm", 15)
        .numbers(&[7, 0x7FC00001, 0xFF800002, 3, 4, 5, 6, 0x80000000])
        .bytes(&interpolation)
        .name(b"fifteen letters", 15)
        .numbers(&[8, 11, 12, 13, 14, 15, 16, 17])
        .bytes(&interpolation[..32])
        .bytes(&interpolation[..32])
        .numbers(&[1])
        .name(b"smile", 15)
        .numbers(&[9, 21])
        .numbers(&[2])
        .numbers(&[10, 31, 32, 33, 34, 35, 36, 37])
        .bytes(&interpolation[..24])
        .numbers(&[38])
        .bytes(&[0])
        .numbers(&[11, 41, 42, 43, 44, 45, 46, 47])
        .bytes(&interpolation[24..48])
        .numbers(&[48])
        .bytes(&[2])
        .numbers(&[1])
        .numbers(&[12, 51, 52, 53, 0x7F800001, 55, 56])
        .numbers(&[1])
        .numbers(&[13])
        .bytes(&[200])
        .numbers(&[61])
        .numbers(&[2])
        .numbers(&[14])
        .bytes(&[0])
        .numbers(&[0])
        .numbers(&[15])
        .bytes(&[9])
        .numbers(&[2])
        .name(b"left", 20)
        .bytes(&[0])
        .name(b"right", 20)
        .bytes(&[7])
        .bytes
}

#[test]
fn every_field_is_read() {
    let file = six_sections();
    let take = Take::open(&file).unwrap();
    let found = (take.bones(), take.morphs(), take.cameras(), take.lights(), take.self_shadows(), take.properties());
    assert_eq!(found, (2, 1, 2, 1, 1, 2));
    assert_eq!((take.ik_states(), take.smallest_frame(), take.largest_frame()), (2, 7, 15));
    assert_eq!(take.model_name(), b"model");
    assert_eq!(take.file(), file);

    let bone = take.bone(0).unwrap();
    assert_eq!((bone.name, bone.frame), (&b"arm"[..], 7));
    assert_eq!(bits(bone.translation), [0x7FC00001, 0xFF800002, 3]);
    assert_eq!(bits(bone.rotation), [4, 5, 6, 0x80000000]);
    assert_eq!(bone.interpolation, &array::from_fn(|k| 100 + k as u8));
    let bone = take.bone(1).unwrap();
    assert_eq!((bone.name, bone.frame, bits(bone.rotation)), (&b"fifteen letters"[..], 8, [14, 15, 16, 17]));
    assert!(take.bone(2).is_none());

    let morph = take.morph(0).unwrap();
    assert_eq!((morph.name, morph.frame, morph.weight.to_bits()), (&b"smile"[..], 9, 21));
    assert!(take.morph(1).is_none());

    let camera = take.camera(0).unwrap();
    assert_eq!((camera.frame, camera.distance.to_bits(), camera.field_of_view), (10, 31, 38));
    assert_eq!((bits(camera.position), bits(camera.rotation)), ([32, 33, 34], [35, 36, 37]));
    assert_eq!((camera.interpolation, camera.perspective), (&array::from_fn(|k| 100 + k as u8), true));
    let camera = take.camera(1).unwrap();
    assert_eq!((camera.interpolation, camera.perspective), (&array::from_fn(|k| 124 + k as u8), false));
    assert!(take.camera(2).is_none());

    let light = take.light(0).unwrap();
    assert_eq!((light.frame, bits(light.color), bits(light.direction)), (12, [51, 52, 53], [0x7F800001, 55, 56]));
    assert!(take.light(1).is_none());

    let self_shadow = take.self_shadow(0).unwrap();
    assert_eq!((self_shadow.frame, self_shadow.mode, self_shadow.distance.to_bits()), (13, 200, 61));
    assert!(take.self_shadow(usize::MAX).is_none());

    let properties = [0, 1].map(|i| take.property(i).map(|p| (p.frame, p.visible, p.ik_states)));
    assert_eq!(properties, [Some((14, false, 0)), Some((15, true, 2))]);
    assert!(take.property(2).is_none());
    let states = [0, 1].map(|j| take.ik_state(1, j).map(|s| (s.name, s.enabled)));
    assert_eq!(states, [Some((&b"left"[..], false)), Some((&b"right"[..], true))]);
    assert!(take.ik_state(1, 2).is_none() && take.ik_state(0, 0).is_none());
}

/// Where the first bone, morph, camera, light and self-shadow of [`six_sections`] stand, and where their first float is and
/// how many there are.
const FIRST_RECORDS: [(Range<usize>, usize, usize); 5] =
    [(54..165, 19, 7), (280..303, 19, 1), (307..368, 4, 7), (433..461, 4, 6), (465..474, 5, 1)];

/// Whether the first records of two takes are equal.
fn equal(a: &Take, b: &Take) -> bool {
    a.bone(0) == b.bone(0)
        && a.morph(0) == b.morph(0)
        && a.camera(0) == b.camera(0)
        && a.light(0) == b.light(0)
        && a.self_shadow(0) == b.self_shadow(0)
}

/// A file tells the two zeros apart, and one NaN from another: so do records. A NaN is equal to itself.
#[test]
fn records_are_equal_by_the_bits_of_their_floats() {
    const BITS: [u32; 5] = [0, 0x8000_0000, 0x7FC0_0000, 0x7FC0_0001, 0xFFC0_0000];
    let places = FIRST_RECORDS.into_iter().flat_map(|(record, at, n)| (0..n).map(move |k| record.start + at + 4 * k));
    for place in places {
        let takes = BITS.map(|bits| {
            let mut file = six_sections();
            file[place..place + 4].copy_from_slice(&bits.to_le_bytes());
            Take::open(file).unwrap()
        });
        for (i, a) in takes.iter().enumerate() {
            for (j, b) in takes.iter().enumerate() {
                assert_eq!(equal(a, b), i == j, "at {place}: {:#010x} and {:#010x}", BITS[i], BITS[j]);
            }
        }
    }
}

/// Every byte of a record counts, but for those after a name's zero.
#[test]
fn records_differ_where_any_field_does() {
    let file = six_sections();
    let take = Take::open(&file).unwrap();
    let after_a_zero = |at: usize| (54 + 4..69).contains(&at) || (280 + 6..295).contains(&at);
    for at in FIRST_RECORDS.into_iter().flat_map(|(record, ..)| record) {
        let mut other = file.clone();
        other[at] ^= 0xFF;
        assert_eq!(equal(&take, &Take::open(other).unwrap()), after_a_zero(at), "byte {at}");
    }
}

#[test]
fn records_one_after_another() {
    let file = six_sections();
    let take = Take::open(&file).unwrap();
    assert!(take.bone_frames().eq([0, 1].map(|i| take.bone(i).unwrap())));
    assert!(take.morph_frames().eq([take.morph(0).unwrap()]));
    assert!(take.camera_frames().eq([0, 1].map(|i| take.camera(i).unwrap())));
    assert!(take.light_frames().eq([take.light(0).unwrap()]));
    assert!(take.self_shadow_frames().eq([take.self_shadow(0).unwrap()]));
    assert!(take.property_frames().eq([0, 1].map(|i| take.property(i).unwrap())));
    assert!(take.ik_states_of(1).eq([0, 1].map(|j| take.ik_state(1, j).unwrap())));
    assert_eq!([0, 1, 2, usize::MAX].map(|i| take.ik_states_of(i).len()), [0, 2, 0, 0]);
    assert_eq!((take.bone_frames().len(), take.morph_frames().len()), (2, 1));

    // from both ends; names and interpolation bytes outlive the iterator
    let curves: Vec<(&[u8], &[u8; 64])> = take.bone_frames().rev().map(|bone| (bone.name, bone.interpolation)).collect();
    assert_eq!(curves.iter().map(|(name, _)| *name).collect::<Vec<_>>(), [&b"fifteen letters"[..], b"arm"]);
    assert_eq!(curves[1].1[..], (100..164).collect::<Vec<u8>>());
    let none = counts(&[0; 6]);
    assert_eq!(Take::open(&none).unwrap().bone_frames().next(), None);
}

#[test]
fn a_file_is_lent_or_given() {
    let file = bones(3, 1);
    let lent = Take::open(&file).unwrap();
    let given: Take<'static> = Take::open(file.clone()).unwrap();
    assert_eq!(lent.bone(2).unwrap(), given.bone(2).unwrap());
}

#[test]
fn refused_files_are_told_by_their_number() {
    let refused = |file: &[u8]| match Take::open(file) {
        Err(Error::Refused(refusal)) => refusal.number(),
        other => panic!("{other:?}"),
    };
    assert_eq!(refused(&[]), 1);
    assert_eq!(refused(&[0x41; 30]), 2);
    assert_eq!(refused(&start()), 1);
    assert_eq!(refused(&counts(&[0, 1])), 1);
    assert_eq!(vmd::export(&start()), Err(Refusal::EndsEarly.into()));
    assert_eq!(vmd::export_size(&[0x41; 99]), Err(Refusal::MagicDiffers));
    assert_eq!(vmd::join(&bones(1, 1), &[0x41; 99]), Err(Refusal::MagicDiffers.into()));
    assert_eq!(vmd::join_size(&start(), &[0x41; 99]), Err(Refusal::EndsEarly));
}

// ---- property frames

/// The scratch is as long as a file needs it.
#[test]
fn as_many_property_frames_as_there_are() {
    for n in [0, 1, 15, 16, 17, 255, 256, 257, 4096, 4097, 16_383, 16_384, 16_385, 70_000] {
        let mut file = counts(&[0, 0, 0, 0, 0, n]);
        for i in 0..n {
            file.extend(i.to_le_bytes());
            file.extend([1, 0, 0, 0, 0]);
        }
        let take = Take::open(&file).unwrap();
        assert_eq!(take.properties(), n as usize);
        assert!((0..n).all(|i| take.property(i as usize).unwrap().frame == i));
        assert!(take.property(n as usize).is_none());
    }
}

/// A property frame as it is to be read, and its IK states.
type Property = (PropertyFrame, Vec<IkState<'static>>);

/// So many property frames with up to five IK states each, among them runs of 16 that have none and 16 that have five.
fn properties(n: u32) -> Vec<Property> {
    const NAMES: [&[u8]; 5] = [b"left leg", b"", b"twenty bytes of name", b"\x8D\xB6\x91\xAB", b"x"];
    let property = |i: u32| {
        let states = match i / 16 {
            1 => 0,
            2 => 5,
            _ => 7 * i % 6,
        };
        let state = |j: u32| IkState { name: NAMES[(i + j) as usize % 5], enabled: (i ^ j) % 3 < 2 };
        let frame = PropertyFrame { frame: i.wrapping_mul(0x9E37_79B9), visible: i % 4 < 2, ik_states: states };
        (frame, (0..states).map(state).collect())
    };
    (0..n).map(property).collect()
}

/// Their file, after a bone. What is true is written as any byte but zero, other bytes follow a name's zero, and the last
/// frame is followed by zeros, which a larger count would have read as frames: it is read in the lenient manner.
fn with_properties(properties: &[Property]) -> Vec<u8> {
    let mut file = bones(1, 1);
    file.truncate(file.len() - 4);
    file.extend((properties.len() as u32).to_le_bytes());
    for (frame, states) in properties {
        file.extend(frame.frame.to_le_bytes());
        file.push(if frame.visible { 0x80 } else { 0 });
        file.extend((states.len() as u32).to_le_bytes());
        for state in states {
            file.extend(state.name.iter().chain(b"\0after the name's end").take(20));
            file.push(if state.enabled { 2 } else { 0 });
        }
    }
    file.resize(file.len() + 40 * 9, 0);
    file
}

/// By number and one after another, from both ends, in files of both editions.
#[test]
fn property_frames_and_their_ik_states() {
    for n in 0..=70 {
        let properties = properties(n as u32);
        let newer = with_properties(&properties);
        for file in [as_older(&newer), newer] {
            let take = Manner::Lenient.open(file).unwrap();
            let states = properties.iter().map(|(_, states)| states.len() as u64).sum();
            assert_eq!((take.properties(), take.ik_states()), (n, states));
            for (i, (frame, states)) in properties.iter().enumerate() {
                assert_eq!(take.property(i), Some(*frame), "frame {i} of {n}");
                assert!((0..7).all(|j| take.ik_state(i, j) == states.get(j).copied()), "frame {i} of {n}");
                assert_eq!(take.ik_states_of(i).len(), states.len());
                assert!(take.ik_states_of(i).eq(states.iter().copied()), "frame {i} of {n}");
                assert!(take.ik_states_of(i).rev().eq(states.iter().rev().copied()), "frame {i} of {n}");
            }
            for i in [n, n + 1, n + 15, n + 16, 1 << 32, usize::MAX] {
                assert_eq!((take.property(i), take.ik_state(i, 0), take.ik_states_of(i).next()), (None, None, None));
            }
            let frames = || properties.iter().map(|(frame, _)| *frame);
            assert!(take.property_frames().eq(frames()));
            assert!(take.property_frames().rev().eq(frames().rev()));
            let collected = |(frame, states): (PropertyFrame, _)| (frame, Vec::from_iter(states));
            assert!(take.property_frames_with_ik_states().map(collected).eq(properties.iter().cloned()));
            assert!(take.property_frames_with_ik_states().rev().map(collected).eq(properties.iter().rev().cloned()));
        }
    }
}

/// A step of one of six kinds: from the front or from the back, to the next or over so many.
fn step<T>(to_come: &mut impl DoubleEndedIterator<Item = T>, kind: usize, over: usize) -> Option<T> {
    match kind {
        0 | 1 => to_come.next(),
        2 | 3 => to_come.next_back(),
        4 => to_come.nth(over),
        _ => to_come.nth_back(over),
    }
}

/// Steps of all kinds, one after another until nothing is left and some more, give what they give over a list of the frames.
#[test]
fn steps_over_property_frames() {
    for n in [0, 1, 2, 15, 16, 17, 31, 32, 33, 48, 49, 70] {
        let properties = properties(n);
        let file = with_properties(&properties);
        let take = Manner::Lenient.open(&file).unwrap();
        for seed in 1..200u32 {
            let mut random = Random::new(seed);
            let longest_jump = [1, 3, 17, 50][seed as usize % 4];
            let (mut frames, mut with_states) = (take.property_frames(), take.property_frames_with_ik_states());
            let mut expected = properties.iter().cloned();
            let mut after_the_last = 0;
            while after_the_last < 3 {
                assert_eq!((frames.len(), frames.size_hint()), (expected.len(), expected.size_hint()));
                assert_eq!((with_states.len(), with_states.size_hint()), (expected.len(), expected.size_hint()));
                let (kind, over) = (random.below(6), random.below(longest_jump));
                let property = step(&mut expected, kind, over);
                assert_eq!(step(&mut frames, kind, over), property.as_ref().map(|(frame, _)| *frame), "seed {seed}");
                let found = step(&mut with_states, kind, over).map(|(frame, states)| (frame, states.collect()));
                assert_eq!(found, property, "seed {seed}");
                after_the_last += u32::from(property.is_none());
            }
        }
    }
}

/// Frames that are skipped, from both ends.
#[test]
fn jumps_over_property_frames() {
    let properties = properties(70);
    let file = with_properties(&properties);
    let take = Manner::Lenient.open(&file).unwrap();
    let frames = || properties.iter().map(|(frame, _)| *frame);
    for k in (0..=72).chain([usize::MAX - 1, usize::MAX]) {
        assert_eq!(take.property_frames().nth(k), frames().nth(k));
        assert_eq!(take.property_frames().nth_back(k), frames().nth_back(k));
        assert!(take.property_frames().skip(k).eq(frames().skip(k)));
        assert!(take.property_frames().rev().skip(k).eq(frames().rev().skip(k)));
        let step = k.max(1);
        assert!(take.property_frames().step_by(step).eq(frames().step_by(step)));
        assert!(take.property_frames().rev().step_by(step).eq(frames().rev().step_by(step)));
    }
}

#[test]
fn saved_and_joined() {
    let (first, second) = (bones(2, 1), bones(3, 2));
    assert_eq!(vmd::export(&first).unwrap(), first);
    assert_eq!(vmd::export_size(&first[..first.len() - 20]), Ok(first.len() as u64));
    let joined = vmd::join(&first, &second).unwrap();
    let mut expected = counts(&[5]);
    expected.extend(&first[54..54 + 222]);
    expected.extend(&second[54..54 + 333]);
    expected.resize(expected.len() + 20, 0);
    assert_eq!(joined, expected);
    assert_eq!(vmd::join_size(&first, &second), Ok(joined.len() as u64));
}

#[test]
fn written_to_a_lent_output() {
    let (first, second) = (bones(2, 1), bones(3, 2));
    let joined = vmd::join(&first, &second).unwrap();
    let mut out = vec![0xA5; joined.len() + 9];
    assert_eq!(vmd::join_into(&first, &second, &mut out), Ok(joined.len()));
    assert_eq!((&out[..joined.len()], &out[joined.len()..]), (&joined[..], &[0xA5; 9][..]));
    assert_eq!(vmd::export_into(&first, &mut out), Ok(first.len()));
    assert_eq!((&out[..first.len()], &out[first.len()..joined.len()]), (&first[..], &joined[first.len()..]));

    let mut out = [0xA5; 75];
    assert_eq!(Parts::default().build_into(&mut out), Ok(74));
    assert_eq!((&out[..74], out[74]), (&counts(&[0; 6])[..], 0xA5));
    let mut out = [0xA5; 73];
    assert_eq!(Parts::default().build_into(&mut out), Err(Refusal::OutputTooShort));
    assert_eq!(vmd::export_into(&first, &mut out), Err(Refusal::OutputTooShort));
    assert_eq!(vmd::join_into(&first, &second, &mut out), Err(Refusal::OutputTooShort));
    assert_eq!(out, [0xA5; 73]);
}

#[test]
fn the_joined_model_name() {
    let named = |name: &[u8]| Parts { model_name: name, ..Default::default() }.build().unwrap();
    let (one, two, none) = (named(b"one"), named(b"second"), named(b""));
    assert_eq!(vmd::joined_model(&one, &two), b"one");
    assert_eq!(vmd::joined_model(&none, &two), b"second");
    assert_eq!(vmd::joined_model(&none, &none), b"");
    assert_eq!(Take::open(vmd::join(&none, &two).unwrap()).unwrap().model_name(), b"second");
}

#[test]
fn built_from_parts_and_read_back() {
    let file = six_sections();
    let (bone_names, morph_names) = (NameTable::new([&b"fifteen letters"[..], b"arm"]), NameTable::new([&b"smile"[..]]));
    let interpolations: Vec<u8> = (0..128).collect();
    let parts = Parts {
        model_name: b"model",
        bone_name_bytes: &bone_names.bytes,
        bone_name_ends: &bone_names.ends,
        morph_name_bytes: &morph_names.bytes,
        morph_name_ends: &morph_names.ends,
        camera_frames: &file[54 + 222 + 4 + 23 + 4..][..122],
        light_frames: &[0; 28],
        self_shadow_frames: &[0, 0, 0, 0, 2, 0, 0, 0, 0],
        property_frames: &file[file.len() - 60..],
        bone_name_indices: &[1, 0],
        bone_frames: &[7, 8],
        bone_translations_xyz: &[1.0, 2.0, 3.0, 4.0, 5.0, 6.0],
        bone_rotations_xyzw: &[7.0, 8.0, 9.0, 10.0, 11.0, 12.0, 13.0, -0.0],
        bone_interpolations: &interpolations,
        morph_name_indices: &[0],
        morph_frames: &[9],
        morph_weights: &[0.5],
    };
    let built = parts.build().unwrap();
    assert_eq!(parts.size(), Ok(built.len() as u64));
    let take = Take::open(&built).unwrap();
    let bone = take.bone(1).unwrap();
    assert_eq!((bone.name, bone.frame, bone.translation), (&b"fifteen letters"[..], 8, [4.0, 5.0, 6.0]));
    assert_eq!(
        (bits(bone.rotation), bone.interpolation),
        (bits([11.0, 12.0, 13.0, -0.0]), &array::from_fn(|k| 64 + k as u8))
    );
    assert_eq!(take.bone(0).unwrap().name, b"arm");
    let morph = take.morph(0).unwrap();
    assert_eq!((morph.name, morph.frame, morph.weight), (&b"smile"[..], 9, 0.5));
    assert_eq!((take.camera(1).unwrap().field_of_view, take.self_shadow(0).unwrap().mode), (48, 2));
    assert_eq!(take.ik_state(1, 1).unwrap().name, b"right");
    assert_eq!(Parts::default().build().unwrap(), counts(&[0; 6]));
}

/// Each refusal of the builder, by one part that is wrong.
#[test]
fn parts_that_are_refused() {
    let names = NameTable::new([&b"arm"[..]]);
    let good = Parts {
        bone_name_bytes: &names.bytes,
        bone_name_ends: &names.ends,
        bone_name_indices: &[0],
        bone_frames: &[7],
        bone_translations_xyz: &[0.0; 3],
        bone_rotations_xyzw: &[0.0; 4],
        bone_interpolations: &[0; 64],
        ..Default::default()
    };
    assert!(good.build().is_ok());
    let refused = |parts: Parts| match parts.build() {
        Err(Error::Refused(refusal)) => {
            assert_eq!(parts.size(), Err(refusal));
            refusal.number()
        }
        other => panic!("{other:?}"),
    };
    assert_eq!(refused(Parts { camera_frames: &[0; 62], ..good }), 5);
    assert_eq!(refused(Parts { model_name: &[b'A'; 21], ..good }), 6);
    assert_eq!(refused(Parts { model_name: &[0x83], ..good }), 7);
    assert_eq!(refused(Parts { bone_rotations_xyzw: &[0.0, f32::NAN, 0.0, 0.0], ..good }), 8);
    assert_eq!(refused(Parts { self_shadow_frames: &[3; 9], ..good }), 9);
    assert_eq!(refused(Parts { bone_frames: &[7, 8], ..good }), 10);
    assert_eq!(refused(Parts { bone_name_indices: &[1], ..good }), 12);
}

/// A name is refused where its first fault is before its end.
#[test]
fn the_first_fault_of_a_name() {
    let places: [(&[u8], usize); 9] = [
        (b"", 0),
        (b"arm", 3),
        (b"\x8D\xB6\x98r", 4), // the second pair's trail is a letter
        (b"\x83\xA0", 2),      // the trail could start nothing
        (b"\x83\x41\xA0\xA0", 2),
        (b"a\x83\x7Fb", 1), // the lead's place, not the other byte's
        (b"ab\x83", 2),     // not the length
        (b"\x81\x81\x40", 3),
        (b"\xFD\xFE\xFF", 0),
    ];
    for (name, place) in places {
        assert_eq!(vmd::first_fault(name), place, "{name:?}");
        let number = Parts { model_name: name, ..Default::default() }.size().map_or_else(|refusal| refusal.number(), |_| 0);
        assert_eq!(number, if place < name.len() { 7 } else { 0 }, "{name:?}");
    }
}

/// One name in each place where the builder judges names: the model's, a bone's, a morph's, an IK state's.
fn named_parts(name: &[u8]) -> [OwnedParts; 4] {
    let table = NameTable::new([&b"arm"[..], name]);
    let mut property_frame = vec![0, 0, 0, 0, 1, 1, 0, 0, 0];
    property_frame.extend(name);
    property_frame.resize(9 + 21, 0);
    let (bytes, ends) = (&table.bytes, &table.ends);
    [
        OwnedParts { model_name: name.to_vec(), ..Default::default() },
        OwnedParts { bone_name_bytes: bytes.clone(), bone_name_ends: ends.clone(), ..Default::default() },
        OwnedParts { morph_name_bytes: bytes.clone(), morph_name_ends: ends.clone(), ..Default::default() },
        OwnedParts { property_frames: property_frame, ..Default::default() },
    ]
}

/// A pair needs a character: its pointer is in the index or lies in 8836 to 10715.
#[test]
fn pairs_with_a_character_and_without() {
    let places: [(&[u8], usize); 14] = [
        (b"\x83\x41", 2),
        (b"\x85\x40", 0),
        (b"A\x85\x40", 1),
        (b"\x83\x41\x85\x40", 2),
        (b"\x81\xAD", 0), // pointer 108
        (b"\x81\xB8", 2), // 119
        (b"\xEF\xFC", 0), // 8835
        (b"\xF0\x40", 2), // 8836
        (b"\xF9\xFC", 2), // 10715
        (b"\xFA\x40", 2), // 10716, in the index
        (b"\xFC\x4B", 2), // 11103, the last
        (b"\xFC\x4C", 0),
        (b"\xEF\xBB\xBF", 0), // a byte order mark is judged as any other name
        (b"\xEF\xBB\xBFarm", 0),
    ];
    for (name, place) in places {
        assert_eq!(vmd::first_fault(name), place, "{name:?}");
        for parts in named_parts(name) {
            let (parts, size) = (parts.as_parts(), if parts.property_frames.is_empty() { 74 } else { 74 + 9 + 21 });
            let mut out = vec![0xA5; size];
            if place == name.len() {
                assert_eq!(parts.size(), Ok(size as u64), "{name:?}");
                assert_eq!(parts.build_into(&mut out), Ok(size));
                assert_eq!((parts.build().unwrap(), vmd::export(&out).unwrap()), (out.clone(), out));
            } else {
                assert_eq!(parts.size(), Err(Refusal::NameNotGood), "{name:?}");
                assert_eq!(parts.build_into(&mut out), Err(Refusal::NameNotGood));
                assert_eq!(parts.build(), Err(Refusal::NameNotGood.into()));
                assert_eq!(out, vec![0xA5; size], "the output is left as it was");
            }
        }
    }
}

/// Names that the builder turns down are read, saved and joined as before.
#[test]
fn pairs_without_a_character_in_a_file() {
    let file = vmd::export(&morphs(&[b"\x85\x40", b"\x83\x41"])).unwrap();
    let take = Take::open(&file).unwrap();
    assert_eq!(take.morph(0).unwrap().name, b"\x85\x40");
    assert_eq!(vmd::export(&file).unwrap(), file);
    assert_eq!(Take::open(vmd::join(&file, &file).unwrap()).unwrap().morph(2).unwrap().name, b"\x85\x40");
    let mut parts = take.parts().unwrap();
    assert_eq!(parts.build(), Err(Refusal::NameNotGood.into()));
    parts.morph_name_bytes[0] = 0x83;
    assert!(parts.build().is_ok());
}

// ---- smallest and largest frame

/// The smallest frame, and the largest.
fn smallest_and_largest(file: &[u8]) -> (u32, u32) {
    frames_of(&Take::open(file).unwrap())
}

fn frames_of(take: &Take) -> (u32, u32) {
    (take.smallest_frame(), take.largest_frame())
}

/// A take with records at these frames in one section, and none in the others.
fn in_section(section: usize, frames: &[u32]) -> Vec<u8> {
    at_frames(array::from_fn(|k| if k == section { frames.to_vec() } else { vec![] }))
}

#[test]
fn frames_of_one_section() {
    for none in [counts(&[0]), counts(&[0; 6])] {
        assert_eq!(smallest_and_largest(&none), (0, 0));
    }
    for section in 0..6 {
        let own = 7 + section as u32;
        for (frames, expected) in [
            (&[own][..], (own, own)),
            (&[0], (0, 0)),
            (&[u32::MAX], (u32::MAX, u32::MAX)), // no sign of a take without records
            (&[5, 9, 8], (5, 9)),
            (&[9, 5, 8], (5, 9)),
            (&[8, 9, 5], (5, 9)),
            (&[u32::MAX, 0], (0, u32::MAX)),
            (&[0x0100, 0xFF], (0xFF, 0x0100)),
            (&[0x8000_0000, 0x7FFF_FFFF], (0x7FFF_FFFF, 0x8000_0000)), // without a sign
        ] {
            assert_eq!(smallest_and_largest(&in_section(section, frames)), expected, "section {section}: {frames:?}");
        }
        // in every place of a longer section
        for at in 0..40 {
            for frame in [5, 999] {
                let mut frames: Vec<u32> = (100..140).collect();
                frames[at] = frame;
                let expected = (*frames.iter().min().unwrap(), *frames.iter().max().unwrap());
                assert_eq!(smallest_and_largest(&in_section(section, &frames)), expected, "section {section}: {frames:?}");
            }
        }
    }
}

/// One record in each section, of which each in turn has the smallest frame, and each other the largest.
#[test]
fn frames_of_six_sections() {
    for smallest in 0..6 {
        for largest in (0..6).filter(|largest| *largest != smallest) {
            let mut frames = [50, 51, 52, 53, 54, 55];
            frames[smallest] = 5;
            frames[largest] = 500;
            let file = at_frames(frames.map(|frame| vec![frame]));
            assert_eq!(smallest_and_largest(&file), (5, 500), "{frames:?}");
        }
    }
}

/// The records of a section that the lenient manner empties do not count, nor does what follows them: the file ends one byte
/// before the end of its self-shadow, its light and its camera.
#[test]
fn frames_of_emptied_sections() {
    let file = at_frames([60, 50, 40, 30, 20, 10].map(|frame| vec![frame]));
    for (len, smallest) in [(file.len(), 10), (301, 30), (288, 40), (256, 50)] {
        let take = Manner::Lenient.open(&file[..len]).unwrap();
        assert_eq!(frames_of(&take), (smallest, 60), "{len} bytes");
    }
}

/// The smaller and the larger of two takes' frames, whichever is first. A take without records does not count, one with a
/// record at frame 0 does.
#[test]
fn frames_of_a_join() {
    let none = counts(&[0; 6]);
    for (i, j) in (0..36).map(|n| (n / 6, n % 6)) {
        let (low, high) = (in_section(i, &[20, 7, 12]), in_section(j, &[40, 90, 30]));
        let (zero, last) = (in_section(i, &[0]), in_section(j, &[u32::MAX]));
        for (first, second, expected) in [
            (&low, &high, (7, 90)),
            (&low, &last, (7, u32::MAX)),
            (&zero, &high, (0, 90)),
            (&none, &low, (7, 20)),
            (&none, &high, (30, 90)),
            (&none, &zero, (0, 0)),
            (&none, &last, (u32::MAX, u32::MAX)),
            (&none, &none, (0, 0)),
        ] {
            for (first, second) in [(first, second), (second, first)] {
                let joined = vmd::join(first, second).unwrap();
                assert_eq!(smallest_and_largest(&joined), expected, "sections {i} and {j}");
            }
        }
    }
}

// ---- the older edition

/// Files of the older edition with these bytes in the model name's field. Among them are records that saving changes and
/// sections that are missing; and, which the lenient manner alone reads, an oversized count and bytes after the last section.
fn older_files(model_name: &[u8; 10]) -> Vec<Vec<u8>> {
    let mut newer = vec![six_sections(), bones(7, 1), property_take(3), morphs(&[b"smile", b"", b"smile\0?"])];
    newer.extend([counts(&[0]), counts(&[0; 6]), counts(&[0, 0, 1]), bones(2, 1)[..276].to_vec()]);
    newer.push([six_sections(), vec![0xC5; 30]].concat());
    let named = |file: &Vec<u8>| {
        let mut older = as_older(file);
        older[26..30].copy_from_slice(b"junk");
        older[30..40].copy_from_slice(model_name);
        older
    };
    newer.iter().map(named).collect()
}

/// The same with several model names: none, one that ends early, and one that fills its field.
fn all_older_files() -> Vec<Vec<u8>> {
    [b"\0unused\0\0\0", b"model\0\0\0?!", b"ten bytes!"].into_iter().flat_map(older_files).collect()
}

/// Where a part of a take stands in its file.
fn place(take: &Take, part: &[u8]) -> usize {
    part.as_ptr() as usize - take.file().as_ptr() as usize
}

/// Where all interpolation bytes stand, and all names that are not empty, but for the model's.
fn places(take: &Take) -> Vec<usize> {
    let curves = take.bone_frames().map(|bone| &bone.interpolation[..]);
    let curves = curves.chain(take.camera_frames().map(|camera| &camera.interpolation[..]));
    let states = (0..take.properties()).flat_map(|i| take.ik_states_of(i)).map(|state| state.name);
    let names = take.bone_frames().map(|bone| bone.name).chain(take.morph_frames().map(|morph| morph.name)).chain(states);
    curves.chain(names.filter(|name| !name.is_empty())).map(|part| place(take, part)).collect()
}

/// A model name that fills its field ends with it, whatever follows; the first bone stands at 44.
#[test]
fn an_older_file_is_read() {
    let names: [(&[u8; 10], &[u8]); 3] =
        [(b"\0unused\0\0\0", b""), (b"model\0\0\0?!", b"model"), (b"ten bytes!", b"ten bytes!")];
    for (field, name) in names {
        let take = Take::open(older_files(field).remove(0)).unwrap();
        assert_eq!(take.model_name(), name);
        let found = [take.bones(), take.morphs(), take.cameras(), take.lights(), take.self_shadows(), take.properties()];
        assert_eq!((found, take.ik_states()), ([2, 1, 2, 1, 1, 2], 2));
        assert_eq!((take.smallest_frame(), take.largest_frame()), (7, 15));
        let bone = take.bone(0).unwrap();
        assert_eq!((bone.name, bone.frame, place(&take, bone.name)), (&b"arm"[..], 7, 44));
    }
}

/// Its records and model name are those of the widened file. They stand 10 bytes before, the name where it stood.
#[test]
fn an_older_file_reads_as_it_does_widened() {
    for older in all_older_files() {
        let wide = widened(&older);
        let (take, expected) = (Manner::Lenient.open(&older).unwrap(), Manner::Lenient.open(&wide).unwrap());
        assert_eq!((take.ik_states(), frames_of(&take)), (expected.ik_states(), frames_of(&expected)));
        assert!(take.bone_frames().eq(expected.bone_frames()));
        assert!(take.morph_frames().eq(expected.morph_frames()));
        assert!(take.camera_frames().eq(expected.camera_frames()));
        assert!(take.light_frames().eq(expected.light_frames()));
        assert!(take.self_shadow_frames().eq(expected.self_shadow_frames()));
        assert!(take.property_frames().eq(expected.property_frames()));
        assert!((0..take.properties()).all(|i| take.ik_states_of(i).eq(expected.ik_states_of(i))));
        assert!(places(&take).iter().map(|place| place + 10).eq(places(&expected)));
        assert_eq!((take.model_name(), take.file()), (expected.model_name(), &older[..]));
        assert!(take.model_name().is_empty() || place(&take, take.model_name()) == 30);
        let parts = take.parts().unwrap();
        assert_eq!(parts, expected.parts().unwrap());
        in_exact_tables(Manner::Lenient, &older, &parts);
        assert_eq!(season_of([&older[..]]), season_of([&wide[..]]));
        for manner in BOTH {
            assert_eq!(manner.export(&older), manner.export(&wide));
            assert_eq!(manner.export_size(&older), manner.export_size(&wide));
            assert_eq!(manner.tidy(&older), manner.tidy(&wide));
        }
        assert!(Manner::Lenient.export(&older).is_ok() && Manner::Lenient.tidy(&older).is_ok());
    }
}

/// What every call that reads a whole take answers, in both manners, for a file that is refused in both.
fn refused_in_both(file: &[u8]) -> u32 {
    let [strict, lenient] = BOTH.map(|manner| refused_by_all(manner, file));
    assert_eq!(strict, lenient);
    assert!(!Season::new().add(file));
    strict
}

/// 30 bytes for the magic, 10 for the model name, and a bone count. Cut anywhere it is answered as the widened file is.
#[test]
fn older_files_that_end_early() {
    let none = [older_start(), vec![0; 4]].concat();
    for len in [0, 25, 26, 29, 30, 39, 40, 43] {
        assert_eq!(refused_in_both(&none[..len]), 1, "{len} bytes");
    }
    assert_eq!(vmd::export(&none).unwrap(), counts(&[0; 6]));
    for older in older_files(b"ten bytes!") {
        let wide = widened(&older);
        for len in 40..=older.len() {
            for manner in BOTH {
                assert_eq!(manner.export(&older[..len]), manner.export(&wide[..len + 10]), "{len} bytes, {manner:?}");
            }
        }
    }
    // a header is there or is not, whatever follows
    let (older, other) =
        (&older_files(b"ten bytes!")[0], Parts { model_name: b"other", ..Default::default() }.build().unwrap());
    let names = [39, 40, 41].map(|len| vmd::joined_model(&older[..len], &other));
    assert_eq!(names, [&b"other"[..], b"ten bytes!", b"ten bytes!"]);
}

/// Each of the 26 bytes counts, in both editions; the four that follow do not.
#[test]
fn magics() {
    let (newer, older) = (six_sections(), as_older(&six_sections()));
    for (file, other) in [(&newer, &older), (&older, &newer)] {
        for at in 0..30 {
            // another byte, and where the editions differ the other one's
            for byte in [file[at] ^ 0x80, other[at]].into_iter().filter(|byte| *byte != file[at]) {
                let mut changed = file.clone();
                changed[at] = byte;
                if at < 26 {
                    assert_eq!([30, 40, changed.len()].map(|len| refused_in_both(&changed[..len])), [2; 3], "byte {at}");
                    assert_eq!(refused_in_both(&changed[..29]), 1);
                } else {
                    assert_eq!(vmd::export(&changed), vmd::export(file), "byte {at}");
                }
            }
        }
    }
}

#[test]
fn takes_of_both_editions_are_joined() {
    let older = older_files(b"ten bytes!");
    let newer = [six_sections(), bones(3, 2), counts(&[0; 6])];
    for older in older.iter().chain(&older_files(b"\0unused\0\0\0")) {
        let wide = widened(older);
        for newer in &newer {
            for ([first, second], [wide_first, wide_second]) in
                [([older, newer], [&wide, newer]), ([newer, older], [newer, &wide]), ([older, older], [&wide, &wide])]
            {
                assert_eq!(vmd::join(first, second), vmd::join(wide_first, wide_second));
                assert_eq!(vmd::joined_model(first, second), vmd::joined_model(wide_first, wide_second));
                let expected = Manner::Lenient.join(wide_first, wide_second).unwrap();
                assert_eq!(Manner::Lenient.join(first, second).unwrap(), expected);
                assert_eq!(Manner::Lenient.join_size(first, second), Ok(expected.len() as u64));
                let mut out = vec![0xA5; expected.len() + 3];
                assert_eq!(Manner::Lenient.join_into(first, second, &mut out), Ok(expected.len()));
                assert_eq!((&out[..expected.len()], &out[expected.len()..]), (&expected[..], &[0xA5; 3][..]));
            }
        }
    }
}

/// From files of both editions: the header of the older, with zeros after the magic and the model name, and the export from
/// its bone count on. Widened it is the export, and it reads as the take.
#[test]
fn saved_in_the_older_edition() {
    let mut files = all_older_files();
    files.extend([six_sections(), bones(7, 1), counts(&[0]), counts(&[0, 0, 1])]);
    files.extend(examples());
    for file in &files {
        let export = Manner::Lenient.export(file).unwrap();
        let older = Manner::Lenient.export_older(file).unwrap();
        assert_eq!(older[..30], *b"Vocaloid Motion Data file\0\0\0\0\0");
        assert_eq!((&older[30..40], &older[40..]), (&export[30..40], &export[50..]));
        assert_eq!(Manner::Lenient.export_older_size(file), Ok(export.len() as u64 - 10));
        assert_eq!(widened(&older), export);
        assert_eq!(vmd::export(&older).unwrap(), export);
        assert_eq!(vmd::export_older(&older).unwrap(), older);
        let parts = Manner::Lenient.open(file).unwrap().parts().unwrap();
        assert_eq!(Take::open(&older).unwrap().parts().unwrap(), parts);
    }
}

/// A file of the newer edition whose model name has so many bytes, and other bytes after its zero.
fn with_model_name_of(len: usize) -> Vec<u8> {
    let mut file = six_sections();
    file[30..50].fill(0xC5);
    file[30..30 + len].fill(b'n');
    if len < 20 {
        file[30 + len] = 0;
    }
    file
}

/// 15 for each that is longer, whatever output there is, and an older file is never refused with it.
#[test]
fn model_names_of_up_to_ten_bytes() {
    for len in 0..=20 {
        let file = with_model_name_of(len);
        let size = vmd::export_size(&file).unwrap() as usize;
        if len <= 10 {
            let older = vmd::export_older(&file).unwrap();
            assert_eq!(older.len(), size - 10);
            assert_eq!(Take::open(&older).unwrap().model_name(), vec![b'n'; len]);
            assert!(older[30 + len..40].iter().all(|byte| *byte == 0));
        } else {
            assert_eq!(vmd::export_older(&file), Err(Refusal::ModelNameTooLong.into()));
            assert_eq!(vmd::export_older_size(&file), Err(Refusal::ModelNameTooLong));
            for room in [0, 39, size - 11, size - 10, size, size + 9] {
                assert_eq!(refused_by_older_export(&file, room), 15, "a name of {len} bytes, an output of {room}");
            }
        }
    }
}

/// The number, with an output of so many bytes, which stay as they were.
fn refused_by_older_export(file: &[u8], room: usize) -> u32 {
    let mut out = vec![0xA5; room];
    let refusal = vmd::export_older_into(file, &mut out).unwrap_err();
    assert!(out.iter().all(|byte| *byte == 0xA5), "a refused call has written");
    refusal.number()
}

/// 1 and 2 come before 15, and 15 before 13.
#[test]
fn refusals_of_the_older_export() {
    let (good, long) = (with_model_name_of(10), with_model_name_of(11));
    let size = vmd::export_older_size(&good).unwrap() as usize;
    for room in [0, 10, size, size + 10] {
        assert_eq!(refused_by_older_export(&long[..long.len() - 1], room), 1);
        assert_eq!(refused_by_older_export(&long[..50], room), 1);
        assert_eq!(refused_by_older_export(&as_older(&good)[..43], room), 1);
        let mut other = long.clone();
        other[25] = b'?';
        assert_eq!(refused_by_older_export(&other, room), 2);
        assert_eq!(refused_by_older_export(&long, room), 15);
    }
    for file in [&good, &as_older(&good)] {
        for room in [0, 1, 39, 40, size - 1] {
            assert_eq!(refused_by_older_export(file, room), 13, "an output of {room} bytes");
        }
        let older = vmd::export_older(file).unwrap();
        for more in [0, 1, 10, 99] {
            let mut out = vec![0xA5; size + more];
            assert_eq!(vmd::export_older_into(file, &mut out), Ok(size));
            assert!(out[..size] == older && out[size..].iter().all(|byte| *byte == 0xA5), "{more} bytes more");
        }
    }
}

// ---- parts out of a take

/// The examples, and takes that the builder takes.
#[test]
fn parts_of_a_take_build_its_export() {
    let mut files = examples();
    files.extend([counts(&[0]), counts(&[0; 6]), morphs(&[b"smile", b"", b"smile\0?"])]);
    files.push(vmd::join(&files[0], &files[1]).unwrap());
    for file in &files {
        let take = Take::open(file).unwrap();
        let parts = take.parts().unwrap();
        let exported = vmd::export(file).unwrap();
        assert_eq!(parts.build().unwrap(), exported);
        assert_eq!(parts.as_parts().build().unwrap(), exported);
        assert_eq!(Take::open(&exported).unwrap().parts().unwrap(), parts);
        assert_eq!(sizes_of(&parts), vmd::split_sizes(file).unwrap());
        assert_eq!(parts.model_name, take.model_name());
    }
}

fn sizes_of(parts: &OwnedParts) -> TableSizes {
    let [bone_names, bone_name_bytes, morph_names, morph_name_bytes] =
        [parts.bone_name_ends.len(), parts.bone_name_bytes.len(), parts.morph_name_ends.len(), parts.morph_name_bytes.len()]
            .map(|len| len as u64);
    TableSizes { bone_names, bone_name_bytes, morph_names, morph_name_bytes }
}

/// Bits of a column: its NaNs keep their payloads.
fn column_bits(column: &[f32]) -> Vec<u32> {
    column.iter().map(|value| value.to_bits()).collect()
}

#[test]
fn every_part_of_a_take() {
    let file = six_sections();
    let parts = Take::open(&file).unwrap().parts().unwrap();
    let interpolation: Vec<u8> = (100..164).collect();
    assert_eq!(parts.model_name, b"model");
    assert_eq!((&parts.bone_name_bytes[..], &parts.bone_name_ends[..]), (&b"armfifteen letters"[..], &[3, 18][..]));
    assert_eq!((&parts.morph_name_bytes[..], &parts.morph_name_ends[..]), (&b"smile"[..], &[5][..]));
    assert_eq!((&parts.bone_name_indices[..], &parts.bone_frames[..]), (&[0, 1][..], &[7, 8][..]));
    assert_eq!(column_bits(&parts.bone_translations_xyz), [0x7FC00001, 0xFF800002, 3, 11, 12, 13]);
    assert_eq!(column_bits(&parts.bone_rotations_xyzw), [4, 5, 6, 0x80000000, 14, 15, 16, 17]);
    let curves = [&interpolation[..], &interpolation[..32], &interpolation[..32]].concat();
    assert_eq!(parts.bone_interpolations, curves);
    assert_eq!((&parts.morph_name_indices[..], &parts.morph_frames[..]), (&[0][..], &[9][..]));
    assert_eq!(column_bits(&parts.morph_weights), [21]);

    // canonical records: perspective byte 2 is written 1, visible 9 and enabled 7 are too
    let exported = vmd::export(&file).unwrap();
    assert_eq!(parts.camera_frames, exported[307..429]);
    assert_eq!((parts.camera_frames[60], parts.camera_frames[121]), (0, 1));
    assert_eq!(parts.light_frames, exported[433..461]);
    assert_eq!(parts.self_shadow_frames, exported[465..474]);
    assert_eq!(parts.property_frames, exported[478..]);
    assert_eq!([4, 13, 38, 59].map(|at| parts.property_frames[at]), [0, 1, 0, 1]);
    assert_eq!(parts.property_frames.len(), 2 * 9 + 2 * 21);

    // the builder turns the NaNs down, and with numbers in their place builds the rest
    assert_eq!(parts.build(), Err(Refusal::NotFinite.into()));
    let mut finite = parts.clone();
    finite.light_frames.clear();
    finite.self_shadow_frames.clear();
    finite.bone_translations_xyz[..2].fill(0.5);
    assert_eq!(Take::open(finite.build().unwrap()).unwrap().parts().unwrap(), finite);
    assert_ne!(finite, parts);
}

/// A take of morphs with these bytes at the front of their names' fields.
fn morphs(names: &[&[u8]]) -> Vec<u8> {
    let mut file = counts(&[0, names.len() as u32]);
    for (i, name) in (0u32..).zip(names) {
        file.extend(*name);
        file.resize(file.len() + 15 - name.len(), 0);
        file.extend(i.to_le_bytes());
        file.extend(0.5f32.to_le_bytes());
    }
    file
}

/// The same names, of bones.
fn named_bones(names: &[&[u8]]) -> Vec<u8> {
    let mut file = counts(&[names.len() as u32]);
    for name in names {
        file.extend(*name);
        file.resize(file.len() + 111 - name.len(), 0);
    }
    file
}

/// Distinct by the bytes before the first zero, in order of first appearance.
#[test]
fn name_tables_of_a_take() {
    let expect = |names: &[&[u8]], distinct: &[&[u8]], indices: &[u32]| {
        let expected = NameTable::new(distinct.iter().copied());
        let parts = Take::open(morphs(names)).unwrap().parts().unwrap();
        assert_eq!((&parts.morph_name_bytes, &parts.morph_name_ends), (&expected.bytes, &expected.ends), "{names:?}");
        assert_eq!(parts.morph_name_indices, indices);
        assert!(parts.bone_name_ends.is_empty() && parts.bone_name_indices.is_empty());
        let parts = Take::open(named_bones(names)).unwrap().parts().unwrap();
        assert_eq!((&parts.bone_name_bytes, &parts.bone_name_ends), (&expected.bytes, &expected.ends), "{names:?}");
        assert_eq!(parts.bone_name_indices, indices);
        assert!(parts.morph_name_ends.is_empty() && parts.morph_name_indices.is_empty());
    };
    expect(&[], &[], &[]);
    expect(&[b""], &[b""], &[0]);
    expect(&[b"", b"a", b"", b"\0a"], &[b"", b"a"], &[0, 1, 0, 0]);
    expect(&[b"z", b"a", b"z", b"m", b"a"], &[b"z", b"a", b"m"], &[0, 1, 0, 2, 1]);
    expect(&[b"a\0b", b"a", b"a\0\0c", b"ab"], &[b"a", b"ab"], &[0, 0, 0, 1]);
    let [full, cut, other]: [&[u8]; 3] = [b"fifteen letters", b"fifteen letter", b"fifteen letterS"];
    expect(&[full, cut, other, full], &[full, cut, other], &[0, 1, 2, 0]);
    let distinct: [&[u8]; 5] = [b"\xFF\x80", b"\x0A", b"\xFF", b"a\x0Ab", b"a"];
    expect(&distinct, &distinct, &[0, 1, 2, 3, 4]);
    // whole names, also where tidying takes them for one
    expect(&[b"A", b"A\nx", b"A\ny", b"A\nx"], &[b"A", b"A\nx", b"A\ny"], &[0, 1, 2, 1]);
}

/// Names in no order, none of them twice.
fn different_names(n: u32) -> Vec<Vec<u8>> {
    (0..n).map(|i| format!("{:x}", i.wrapping_mul(2654435761) >> 8).into_bytes()).collect()
}

/// Bones or morphs with these names, so many times over: in tables that are long enough for any names, and in tables that are
/// just long enough, for which they are counted.
fn try_different_names(fields: &[Vec<u8>], times: usize, of_bones: bool) {
    let names: Vec<&[u8]> = fields.iter().map(Vec::as_slice).collect();
    let expected = NameTable::new(names.iter().copied());
    let (number, bytes) = (fields.len() as u64, fields.iter().map(|name| name.len() as u64).sum());
    let records = names.repeat(times);
    let file = if of_bones { named_bones(&records) } else { morphs(&records) };
    let parts = Take::open(&file).unwrap().parts().unwrap();
    let (table, ends, indices, sizes) = if of_bones {
        let sizes = TableSizes { bone_names: number, bone_name_bytes: bytes, ..Default::default() };
        (&parts.bone_name_bytes, &parts.bone_name_ends, &parts.bone_name_indices, sizes)
    } else {
        let sizes = TableSizes { morph_names: number, morph_name_bytes: bytes, ..Default::default() };
        (&parts.morph_name_bytes, &parts.morph_name_ends, &parts.morph_name_indices, sizes)
    };
    assert!(table == &expected.bytes && ends == &expected.ends);
    assert!(indices == &(0..fields.len() as u32).collect::<Vec<_>>().repeat(times));
    assert_eq!(sizes_of(&parts), sizes);
    in_exact_tables(Manner::Strict, &file, &parts);
    in_a_season(&file, &parts);
}

#[test]
fn thousands_of_names_that_come_twice() {
    for n in [3000, 20_000] {
        try_different_names(&different_names(n), 2, false);
        try_different_names(&different_names(n), 2, true);
    }
}

/// More names than one pass counts, in no order, rising and falling. A pass has from 16,384 to 32,767 of them, and just 16,384
/// where they rise.
#[test]
fn names_that_all_differ() {
    let mut names = different_names(70_000);
    try_different_names(&names, 1, false);
    names.sort();
    names.truncate(40_000);
    try_different_names(&names, 1, false);
    names.truncate(33_000);
    names.reverse();
    try_different_names(&names, 1, true);
}

fn in_exact_tables(manner: Manner, file: &[u8], parts: &OwnedParts) {
    let mut lent = unwritten(parts, 0);
    assert_eq!(manner.split_sizes(file), Ok(sizes_of(parts)));
    assert_eq!(manner.split_into(file, lent.as_parts_mut()), Ok(sizes_of(parts)));
    assert!(lent == *parts);
}

fn in_a_season(file: &[u8], parts: &OwnedParts) {
    let season = season_of([file]);
    let names = [&parts.bone_name_ends, &parts.morph_name_ends].map(|ends| ends.len() as u64);
    assert_eq!([season.bone_names, season.morph_names], names);
}

/// The calls take up to 256 KiB of stack, says include/vmd.h; a thread needs some of its own.
#[test]
fn names_in_a_thread_of_little_stack() {
    let fields: Vec<_> = (0..5000u32).map(|i| (i % 4000).to_string().into_bytes()).collect();
    let names: Vec<&[u8]> = fields.iter().map(Vec::as_slice).collect();
    for file in [morphs(&names), named_bones(&names), six_sections()] {
        let thread = thread::Builder::new().stack_size((256 + 64) << 10);
        let calls = move || {
            let parts = Take::open(&file).unwrap().parts().unwrap();
            in_exact_tables(Manner::Strict, &file, &parts);
            in_a_season(&file, &parts);
        };
        thread.spawn(calls).unwrap().join().unwrap();
    }
}

/// A section that is missing, or that the lenient manner empties, has no parts; the sections before it have theirs.
#[test]
fn parts_of_emptied_sections() {
    let mut file = bones(2, 1);
    file.truncate(54 + 222);
    assert_eq!(Take::open(&file).unwrap().parts().unwrap(), Take::open(bones(2, 1)).unwrap().parts().unwrap());
    file.extend([0; 4]); // morphs
    file.extend(9u32.to_le_bytes()); // cameras that are not there
    file.extend([1; 60]);
    let parts = Manner::Lenient.open(&file).unwrap().parts().unwrap();
    assert_eq!((parts.bone_frames.len(), parts.camera_frames.len(), parts.property_frames.len()), (2, 0, 0));
    assert_eq!(parts.bone_name_ends, [6]);
    assert_eq!(Manner::Lenient.open(counts(&[0, 0, 1])).unwrap().parts().unwrap(), OwnedParts::default());
}

/// What lent memory holds before a call.
trait Unwritten {
    const UNWRITTEN: Self;
}

impl Unwritten for u8 {
    const UNWRITTEN: u8 = 0xA5;
}

impl Unwritten for u32 {
    const UNWRITTEN: u32 = 0xA5A5_A5A5;
}

impl Unwritten for f32 {
    const UNWRITTEN: f32 = f32::from_bits(0x7FA5_A5A5); // a NaN, as no take here has it
}

macro_rules! over_all {
    ($($part:ident)*) => {
        /// Memory for these parts, each longer by so many elements.
        fn unwritten(parts: &OwnedParts, more: usize) -> OwnedParts {
            OwnedParts {
                model_name: parts.model_name.clone(),
                $($part: vec![Unwritten::UNWRITTEN; parts.$part.len() + more]),*
            }
        }

        /// These parts, and so many elements after each that were not written.
        fn followed(parts: &OwnedParts, more: usize) -> OwnedParts {
            let mut parts = parts.clone();
            $(parts.$part.resize(parts.$part.len() + more, Unwritten::UNWRITTEN);)*
            parts
        }

        /// Memory that is longer, but for one part that is too short by an element: each of the sixteen.
        fn too_short(parts: &OwnedParts, more: usize) -> [OwnedParts; 16] {
            [$({
                let mut short = unwritten(parts, more);
                short.$part.truncate(parts.$part.len() - 1);
                short
            }),*]
        }
    };
}

over_all! {
    bone_name_bytes bone_name_ends morph_name_bytes morph_name_ends
    camera_frames light_frames self_shadow_frames property_frames
    bone_name_indices bone_frames bone_translations_xyz bone_rotations_xyzw bone_interpolations
    morph_name_indices morph_frames morph_weights
}

#[test]
fn parts_written_to_lent_memory() {
    let file = six_sections();
    let parts = Take::open(&file).unwrap().parts().unwrap();
    for more in [0, 1, 40] {
        let mut lent = unwritten(&parts, more);
        assert_eq!(vmd::split_into(&file, lent.as_parts_mut()), Ok(sizes_of(&parts)));
        assert_eq!(lent, followed(&parts, more));
    }
    let refused = |file: &[u8], lent: &OwnedParts| {
        let mut after = lent.clone();
        let answer = vmd::split_into(file, after.as_parts_mut());
        assert_eq!(&after, lent, "a refused call has written");
        answer.unwrap_err().number()
    };
    for lent in too_short(&parts, 40) {
        assert_eq!(refused(&file, &lent), 14);
        assert_eq!(refused(&file[..file.len() - 1], &lent), 1);
        assert_eq!(refused(&[0x41; 99], &lent), 2);
    }
    assert_eq!(refused(&start(), &unwritten(&parts, 0)), 1);
    assert_eq!(vmd::split_sizes(&file), Ok(sizes_of(&parts)));
    assert_eq!(vmd::split_sizes(&start()), Err(Refusal::EndsEarly));
    assert_eq!(vmd::split_sizes(&[0x41; 30]), Err(Refusal::MagicDiffers));
    assert_eq!(vmd::split_into(&counts(&[0]), PartsMut::default()), Ok(TableSizes::default()));
}

/// Parts tell the two zeros apart, and one NaN from another, in every column; a NaN is equal to itself.
#[test]
fn parts_are_equal_by_the_bits_of_their_floats() {
    let parts = |bits: u32| {
        let column = vec![f32::from_bits(bits)];
        [
            OwnedParts { bone_translations_xyz: column.clone(), ..Default::default() },
            OwnedParts { bone_rotations_xyzw: column.clone(), ..Default::default() },
            OwnedParts { morph_weights: column, ..Default::default() },
        ]
    };
    let all: Vec<_> = [0, 0x8000_0000, 0x7FC0_0000, 0x7FC0_0001].into_iter().flat_map(parts).collect();
    for (i, a) in all.iter().enumerate() {
        for (j, b) in all.iter().enumerate() {
            assert_eq!(a == b, i == j);
        }
    }
}

// ---- season figures

fn season_of<'f>(files: impl IntoIterator<Item = &'f [u8]>) -> Season {
    let mut season = Season::new();
    files.into_iter().for_each(|file| assert!(season.add(file)));
    season
}

/// A take of so many records of each section, all of zeros: it has one bone name and one morph name.
fn zeros(counts: [u32; 6]) -> Vec<u8> {
    at_frames(counts.map(|count| vec![0; count as usize]))
}

/// What the figures are, from the takes as the crate reads them.
fn expected(files: &[Vec<u8>]) -> Season {
    let takes: Vec<_> = files.iter().map(|file| Take::open(file).unwrap()).collect();
    let counts = takes
        .iter()
        .map(|take| [take.bones(), take.morphs(), take.cameras(), take.lights(), take.self_shadows(), take.properties()]);
    let counts: Vec<_> = counts.map(|counts| counts.map(|count| count as u32)).collect();
    let sections: [Figures; 6] = array::from_fn(|k| {
        let counts = || counts.iter().map(|counts| counts[k]);
        Figures {
            total: counts().map(u64::from).sum(),
            smallest: counts().min().unwrap_or(0),
            largest: counts().max().unwrap_or(0),
        }
    });
    let [bones, morphs, cameras, lights, self_shadows, properties] = sections;
    let bone_names = takes.iter().map(|take| take.bone_frames().map(|bone| key(bone.name)).collect::<BTreeSet<_>>().len());
    let morph_names =
        takes.iter().map(|take| take.morph_frames().map(|morph| key(morph.name)).collect::<BTreeSet<_>>().len());
    Season {
        bones,
        morphs,
        cameras,
        lights,
        self_shadows,
        properties,
        records: sections.iter().map(|section| section.total).sum(),
        bone_names: bone_names.sum::<usize>() as u64,
        morph_names: morph_names.sum::<usize>() as u64,
        accepted: takes.len() as u64,
        refused: 0,
    }
}

/// Every figure has a value of its own here, but for the smallest numbers, which have theirs at the end.
#[test]
fn every_figure_of_a_season() {
    let mut season = Season::new();
    assert_eq!(season, Season::default());
    assert_eq!(season.mean(), Mean { quotient: 0, remainder: 0 });
    assert!(season.add(&zeros([10, 21, 32, 43, 54, 65])));
    assert!(!season.add(b"no take"));
    assert!(season.add(&named_bones(&[b"arm", b"", b"arm", b"leg"])));
    assert!(!season.add(&zeros([1; 6])[..100]));
    assert!(season.add(&morphs(&[b"smile", b"blink", b"wink", b"smile", b"cry", b"laugh"])));
    assert!(season.add(&zeros([100, 102, 104, 106, 108, 110])));
    assert!(!season.add(&[]));
    let figures = |total, largest| Figures { total, smallest: 0, largest };
    let expected = Season {
        bones: figures(114, 100),
        morphs: figures(129, 102),
        cameras: figures(136, 104),
        lights: figures(149, 106),
        self_shadows: figures(162, 108),
        properties: figures(175, 110),
        records: 865,
        bone_names: 1 + 3 + 1,
        morph_names: 1 + 5 + 1,
        accepted: 4,
        refused: 3,
    };
    assert_eq!(season, expected);
    assert_eq!(season.mean(), Mean { quotient: 216, remainder: 1 });

    let season = season_of([&zeros([12, 11, 10, 9, 8, 7])[..], &zeros([1, 2, 3, 4, 5, 6]), &zeros([6, 8, 9, 5, 7, 7])]);
    let smallest = [season.bones, season.morphs, season.cameras, season.lights, season.self_shadows, season.properties];
    assert_eq!(smallest.map(|section| section.smallest), [1, 2, 3, 4, 5, 6]);
}

/// The examples, takes made by hand, one after another, and the same one forty times.
#[test]
fn seasons_of_takes() {
    let mut files = examples();
    files.extend([six_sections(), counts(&[0]), bones(7, 1), property_take(3), morphs(&[b"a\0b", b"a", b"b"])]);
    files.extend((1..40).map(|seed| random_take(&mut Random::new(seed)).file()));
    for n in 0..=files.len() {
        assert_eq!(season_of(files[..n].iter().map(Vec::as_slice)), expected(&files[..n]));
    }
    files.reverse();
    assert_eq!(season_of(files.iter().map(Vec::as_slice)), expected(&files));
    let forty = vec![six_sections(); 40];
    let season = season_of(forty.iter().map(Vec::as_slice));
    assert_eq!(season, expected(&forty));
    assert_eq!((season.records, season.mean()), (360, Mean { quotient: 9, remainder: 0 }));
}

/// Names of one take that agree up to the first line feed are one.
#[test]
fn remarks_in_a_season() {
    let expect = |names: &[&[u8]], distinct: u64| {
        let (of_bones, of_morphs) = (season_of([&named_bones(names)[..]]), season_of([&morphs(names)[..]]));
        assert_eq!([of_bones.bone_names, of_bones.morph_names], [distinct, 0], "{names:?}");
        assert_eq!([of_morphs.bone_names, of_morphs.morph_names], [0, distinct], "{names:?}");
    };
    expect(&[b"A", b"A\nx", b"A\ny"], 1);
    expect(&[b"A\nx", b"B", b"A\n\n", b"B\nx"], 2);
    expect(&[b"", b"\n", b"\nA", b"A"], 2);
    expect(&[b"A\0\nx", b"A", b"Ax"], 2);
    expect(&[b"A", b"A\rx", b"A\x0Bx", b"A\x8Ax", b"A\tx"], 5);
    for place in 0..15 {
        let name = &b"fifteen letters"[..place];
        let spelled = [b"\n!", b"\n?", b"\0\n", b"!\n"].map(|after| [name, after].concat()[..15.min(place + 2)].to_vec());
        expect(&spelled.each_ref().map(Vec::as_slice), 2);
    }
    let takes = [morphs(&[b"A\nx", b"A\ny"]), named_bones(&[b"A\nx"]), morphs(&[b"A", b"B\nx"])];
    let season = season_of(takes.iter().map(Vec::as_slice));
    assert_eq!((season.bone_names, season.morph_names), (1, 1 + 2));
}

/// Property frames with as many IK states as their numbers: IK states and their names are no figures.
fn property_take(n: u32) -> Vec<u8> {
    let mut file = counts(&[0, 0, 0, 0, 0, n]);
    for i in 0..n {
        file.extend(i.to_le_bytes());
        file.push(1);
        file.extend(i.to_le_bytes());
        file.resize(file.len() + 21 * i as usize, 0x41);
    }
    file
}

#[test]
fn refused_takes_alone() {
    let mut season = Season::new();
    for (n, file) in (1..).zip([&[][..], &[0x41; 30], &start(), &zeros([1; 6])[..60], &bones(2, 1)[..275]]) {
        assert!(!season.add(file));
        assert_eq!(season, Season { refused: n, ..Season::default() });
        assert_eq!(season.mean(), Mean::default());
    }
}

/// Interpolation bytes and the bytes after a name's zero or line feed make no difference, nor does the order of the names.
#[test]
fn takes_with_equal_figures() {
    let of = |file: &[u8]| season_of([file]);
    let file = six_sections();
    let curves = [54 + 47..165, 165 + 47..276, 307 + 32..307 + 56, 368 + 32..368 + 56];
    let after_zeros = [54 + 4..69, 280 + 6..295, 496 + 5..516, 517 + 6..537];
    for at in curves.into_iter().chain(after_zeros).flatten() {
        let mut other = file.clone();
        other[at] ^= 0xFF;
        assert_eq!(of(&other), of(&file), "byte {at}");
    }
    for take in [named_bones, morphs] {
        let figures = of(&take(&[b"arm", b"arm\0x", b"leg"]));
        assert_eq!(of(&take(&[b"leg\0arm", b"arm\0leg", b"arm"])), figures);
        assert_eq!(of(&take(&[b"leg", b"arm", b"leg"])), figures);
        assert_eq!(of(&take(&[b"leg\narm", b"arm\nleg", b"arm\n"])), figures);
        assert_ne!(of(&take(&[b"arm", b"arm\x01", b"leg"])), figures);
        assert_ne!(of(&take(&[b"arm", b"arm", b"arm\0leg"])), figures);
    }
}

type Figure = fn(&mut Season) -> &mut u64;

/// The 64-bit figures that a take adds to, and how much zeros([1, 2, 3, 4, 5, 6]) adds.
const ADDED: [(Figure, u64); 10] = [
    (|season| &mut season.bones.total, 1),
    (|season| &mut season.morphs.total, 2),
    (|season| &mut season.cameras.total, 3),
    (|season| &mut season.lights.total, 4),
    (|season| &mut season.self_shadows.total, 5),
    (|season| &mut season.properties.total, 6),
    (|season| &mut season.records, 21),
    (|season| &mut season.bone_names, 1),
    (|season| &mut season.morph_names, 1),
    (|season| &mut season.accepted, 1),
];

#[test]
fn figures_at_their_largest() {
    let (take, none) = (zeros([1, 2, 3, 4, 5, 6]), counts(&[0; 6]));
    let before = season_of([&zeros([9; 6])[..]]);
    for (i, (figure, added)) in ADDED.into_iter().enumerate() {
        for most in [u64::MAX, u64::MAX - added + 1] {
            let mut full = before;
            *figure(&mut full) = most;
            let mut season = full;
            assert!(!season.add(&take), "figure {i}");
            assert_eq!(season, Season { refused: 1, ..full }, "figure {i}");
        }
        let mut season = before;
        *figure(&mut season) = u64::MAX - added;
        assert!(season.add(&take), "figure {i}");
        assert_eq!(*figure(&mut season), u64::MAX);
        assert_eq!((season.bones.smallest, season.properties.smallest, season.refused), (1, 6, 0));
        // a take without records adds to the last alone
        assert_eq!(season.add(&none), i != 9, "figure {i}");
    }
    // the number of refused takes stops, and is no reason to refuse one
    let mut season = Season { refused: u64::MAX, ..before };
    assert!(!season.add(b"no take") && !season.add(&take[..99]));
    assert_eq!(season, Season { refused: u64::MAX, ..before });
    assert!(season.add(&take));
    assert_eq!((season.accepted, season.refused), (2, u64::MAX));
    let mut season = Season { refused: u64::MAX, accepted: u64::MAX, ..before };
    assert!(!season.add(&take));
    assert_eq!(season, Season { refused: u64::MAX, accepted: u64::MAX, ..before });
}

/// Whatever stands there while no take is accepted, the first one sets smallest and largest.
#[test]
fn the_first_take_of_a_season() {
    for (smallest, largest) in [(0, u32::MAX), (u32::MAX, 0), (7, 7)] {
        let figures = |total| Figures { total, smallest, largest };
        let before = Season {
            bones: figures(100),
            morphs: figures(200),
            cameras: figures(300),
            lights: figures(400),
            self_shadows: figures(500),
            properties: figures(600),
            ..Season::new()
        };
        let mut season = before;
        assert!(!season.add(b"no take"));
        assert_eq!(season, Season { refused: 1, ..before });
        assert!(season.add(&zeros([1, 2, 3, 4, 5, 6])));
        let of_one = |total, count| Figures { total, smallest: count, largest: count };
        let expected = Season {
            bones: of_one(101, 1),
            morphs: of_one(202, 2),
            cameras: of_one(303, 3),
            lights: of_one(404, 4),
            self_shadows: of_one(505, 5),
            properties: of_one(606, 6),
            records: 21,
            bone_names: 1,
            morph_names: 1,
            accepted: 1,
            refused: 1,
        };
        assert_eq!(season, expected);
    }
}

#[test]
fn means() {
    for (records, accepted, quotient, remainder) in [
        (0, 0, 0, 0),
        (7, 0, 0, 0),
        (u64::MAX, 0, 0, 0),
        (0, 3, 0, 0),
        (20, 3, 6, 2),
        (2, 3, 0, 2),
        (u64::MAX, 1, u64::MAX, 0),
        (u64::MAX, 2, u64::MAX / 2, 1),
        (u64::MAX, u64::MAX, 1, 0),
        (u64::MAX - 1, u64::MAX, 0, u64::MAX - 1),
    ] {
        let junk = Figures { total: 5, smallest: 6, largest: 7 };
        let season = Season { records, accepted, bones: junk, bone_names: 8, refused: 9, ..Season::new() };
        assert_eq!(season.mean(), Mean { quotient, remainder }, "{records} by {accepted}");
    }
}

#[test]
fn every_refusal_has_a_sentence_of_its_own() {
    let sentences: std::collections::BTreeSet<_> = Refusal::ALL.iter().map(Refusal::to_string).collect();
    assert_eq!(sentences.len(), Refusal::ALL.len());
    assert_eq!(Error::from(Refusal::EndsEarly).to_string(), "refused 1: the file ends early");
}
