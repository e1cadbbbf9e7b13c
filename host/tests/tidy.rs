//! Tidying, against takes that are made record by record: what a tidied take is follows from the request's words alone.
mod common;

use std::collections::{BTreeMap, HashMap, HashSet};
use std::thread;

use common::records::{Record, Records, Seed, padded, random_take};
use common::{Random, as_older, bones, counts, examples, start};
use vmd::{Error, Manner, Refusal, Take, Tidied, TidiedSection, TidiedSections};

// ---- the definition

impl Records {
    fn tidied(&self) -> Tidied {
        let sections = self.sections.each_ref().map(|section| tidied(section).into_iter().cloned().collect::<Vec<_>>());
        let numbers = |k: usize| TidiedSection { kept: sections[k].len() as u32, dropped: dropped(&self.sections[k]) };
        let [bones, morphs, cameras, lights, self_shadows, properties] = std::array::from_fn(numbers);
        let sections_of = TidiedSections { bones, morphs, cameras, lights, self_shadows, properties };
        Tidied { file: Records { model_name: self.model_name.clone(), sections }.saved(), sections: sections_of }
    }
}

/// Tracks are the records whose names agree up to the line feed, one after another in order of first appearance. Each is sorted
/// by frame and holds only the last record in file order for each frame.
fn tidied(section: &[Record]) -> Vec<&Record> {
    let mut numbers = HashMap::new();
    let mut tracks: Vec<BTreeMap<u32, &Record>> = Vec::new();
    for record in section {
        let number = *numbers.entry(record.key()).or_insert(tracks.len());
        if number == tracks.len() {
            tracks.push(BTreeMap::new());
        }
        tracks[number].insert(record.frame, record);
    }
    tracks.into_iter().flat_map(BTreeMap::into_values).collect()
}

/// Dropped records are those with a later record of the same track and frame.
fn dropped(section: &[Record]) -> u32 {
    let mut later = HashSet::new();
    section.iter().rev().filter(|record| !later.insert((record.key(), record.frame))).count() as u32
}

// ---- what is to hold of every take

fn all(sections: &TidiedSections) -> [TidiedSection; 6] {
    let TidiedSections { bones, morphs, cameras, lights, self_shadows, properties } = *sections;
    [bones, morphs, cameras, lights, self_shadows, properties]
}

fn records_of(file: &[u8]) -> [u32; 6] {
    let take = Take::open(file).unwrap();
    [take.bones(), take.morphs(), take.cameras(), take.lights(), take.self_shadows(), take.properties()].map(|n| n as u32)
}

/// The numbers make up the records read and those written, and tidying again changes nothing.
fn expect_tidy(file: &[u8], tidied: &Tidied) {
    assert_eq!(all(&tidied.sections).map(|of| of.kept + of.dropped), records_of(file));
    assert_eq!(all(&tidied.sections).map(|of| of.kept), records_of(&tidied.file));
    let again = vmd::tidy(&tidied.file).unwrap();
    assert!(again.file == tidied.file, "tidying twice is not tidying once");
    assert_eq!(all(&again.sections), all(&tidied.sections).map(|of| TidiedSection { kept: of.kept, dropped: 0 }));
    assert!(vmd::export(&tidied.file).unwrap() == tidied.file, "a tidied file is not canonical");
    assert_eq!(Take::open(&tidied.file).unwrap().model_name(), Take::open(file).unwrap().model_name());
}

/// Tidying a join equals tidying the join of the tidied takes.
fn expect_join_law(first: &[u8], second: &[u8]) {
    let tidied = |file: &[u8]| vmd::tidy(file).unwrap().file;
    let joined = vmd::join(first, second).unwrap();
    let of_tidied = vmd::join(&tidied(first), &tidied(second)).unwrap();
    assert!(tidied(&joined) == tidied(&of_tidied), "the join's tidied take is another");
}

/// With a scratch of as many places as are needed and with more, in an output that is just long enough and in a longer one:
/// the places hold zeros, and all after them and after the file is as it was.
fn expect_lent(manner: Manner, file: &[u8], places: usize, tidied: &Tidied) {
    let len = tidied.file.len();
    for more in [0, 3] {
        let after = [vec![0; places], vec![7; more]].concat();
        let mut scratch = vec![7; places + more];
        assert_eq!(manner.tidy_size(file, &mut scratch), Ok((len as u64, tidied.sections)));
        assert!(scratch == after, "the scratch of the size call");
        let mut scratch = vec![7; places + more];
        let mut out = vec![0xA5; len + more];
        assert_eq!(manner.tidy_into(file, &mut scratch, &mut out), Ok((len, tidied.sections)));
        assert!(scratch == after, "the scratch");
        assert!(out[..len] == tidied.file && out[len..] == [0xA5; 3][..more], "the output");
    }
}

/// The number of the refusal, with so many places and an output of so many bytes, all of which stay as they were.
fn refused(file: &[u8], places: usize, room: usize) -> u32 {
    let (mut scratch, mut out) = (vec![7; places], vec![0xA5; room]);
    let refusal = vmd::tidy_into(file, &mut scratch, &mut out).unwrap_err();
    assert!(scratch == vec![7; places] && out == vec![0xA5; room], "a refused call has written");
    refusal.number()
}

/// The same of the size call.
fn refused_size(file: &[u8], places: usize) -> u32 {
    let mut scratch = vec![7; places];
    let refusal = vmd::tidy_size(file, &mut scratch).unwrap_err();
    assert!(scratch == vec![7; places], "a refused call has written");
    refusal.number()
}

/// 3 for a place too few, before 13 for a byte too few; both with nothing written.
fn expect_refusals(file: &[u8], places: usize, tidied: &Tidied) {
    let len = tidied.file.len();
    assert_eq!(refused(file, places, len - 1), 13);
    assert_eq!(refused(file, places + 3, 0), 13);
    if places > 0 {
        assert_eq!(refused_size(file, places - 1), 3);
        assert_eq!(refused(file, places - 1, len), 3);
        assert_eq!(refused(file, places - 1, len - 1), 3);
        assert_eq!(refused(file, 0, 0), 3);
    }
}

/// The bytes and the numbers are those of the definition, and all else holds.
fn expect_as_defined(take: &Records) -> Tidied {
    let (file, expected) = (take.file(), take.tidied());
    let tidied = vmd::tidy(&file).unwrap();
    assert_eq!(tidied.sections, expected.sections);
    assert!(tidied.file == expected.file, "the bytes are others");
    expect_tidy(&file, &tidied);
    expect_lent(Manner::Strict, &file, take.largest_section(), &tidied);
    expect_refusals(&file, take.largest_section(), &tidied);
    tidied
}

// ---- takes that are made at random

/// Of each the tidied take is that of the definition, from a file of either edition, and the law of joins holds of it and the
/// one before.
#[test]
fn takes_made_at_random() {
    const TAKES: u32 = 3000;
    let mut before = counts(&[0]);
    let (mut kept, mut dropped, mut moved) = ([0; 6], [0; 6], 0);
    for seed in 1..=TAKES {
        let _told = Seed(seed);
        let take = random_take(&mut Random::new(seed));
        let file = take.file();
        let tidied = expect_as_defined(&take);
        let older = vmd::tidy(&as_older(&file)).unwrap();
        assert!(older.sections == tidied.sections && older.file[50..] == tidied.file[50..], "the older edition");
        expect_join_law(&before, &file);
        expect_join_law(&file, &file);
        for (k, of) in all(&tidied.sections).into_iter().enumerate() {
            kept[k] += of.kept;
            dropped[k] += of.dropped;
        }
        moved += u32::from(tidied.file.len() == file.len() && vmd::export(&file).unwrap() != tidied.file);
        before = file;
    }
    // They are takes of all sorts: in each section much is kept and much is dropped, and some are only sorted.
    assert!(kept.iter().chain(&dropped).all(|n| *n > TAKES / 2) && moved > TAKES / 100, "{kept:?}, {dropped:?}, {moved}");
}

// ---- takes that are made by hand

/// Names, frames and weights.
fn morphs(file: &[u8]) -> Vec<(Vec<u8>, u32, f32)> {
    let take = Take::open(file).unwrap();
    take.morph_frames().map(|morph| (morph.name.to_vec(), morph.frame, morph.weight)).collect()
}

/// What tidying leaves of these morphs: fields of names, frames and weights.
fn tidied_morphs(records: &[(&[u8], u32, f32)]) -> Vec<(Vec<u8>, u32, f32)> {
    let take = Records::of(1, records.iter().map(|(field, frame, weight)| Record::morph(field, *frame, *weight)).collect());
    morphs(&expect_as_defined(&take).file)
}

#[test]
fn the_last_in_file_order_stays() {
    let found = tidied_morphs(&[(b"smile", 5, 0.1), (b"smile", 3, 0.2), (b"smile", 5, 0.9), (b"smile", 5, 0.3)]);
    assert_eq!(found, [(b"smile".to_vec(), 3, 0.2), (b"smile".to_vec(), 5, 0.3)]);
    // a record that is the same again is one too many as well
    assert_eq!(tidied_morphs(&[(&b"smile"[..], 5, 0.1); 3]), [(b"smile".to_vec(), 5, 0.1)]);
    let frames = |frames: [u32; 4]| frames.map(|frame| Record::self_shadow(frame, 0.5)).to_vec();
    let tidied = expect_as_defined(&Records::of(4, frames([u32::MAX, 0, 0x8000_0000, 0])));
    assert_eq!(tidied.sections.self_shadows, TidiedSection { kept: 3, dropped: 1 });
    let take = Take::open(&tidied.file).unwrap();
    assert!(take.self_shadow_frames().map(|record| record.frame).eq([0, 0x8000_0000, u32::MAX]));
}

#[test]
fn tracks_in_order_of_first_appearance() {
    let found = tidied_morphs(&[(b"z", 9, 0.1), (b"a", 1, 0.2), (b"m", 5, 0.3), (b"a", 0, 0.4), (b"z", 2, 0.5)]);
    let expected: [(&[u8], u32, f32); 5] = [(b"z", 2, 0.5), (b"z", 9, 0.1), (b"a", 0, 0.4), (b"a", 1, 0.2), (b"m", 5, 0.3)];
    assert_eq!(found, expected.map(|(name, frame, weight)| (name.to_vec(), frame, weight)));
    // where a track's first record is dropped its place is still there
    let found = tidied_morphs(&[(b"b", 1, 0.1), (b"a", 1, 0.2), (b"b", 1, 0.3)]);
    assert_eq!(found, [(b"b".to_vec(), 1, 0.3), (b"a".to_vec(), 1, 0.2)]);
}

/// A bone and a morph of the same name, and records without names, have nothing to do with each other.
#[test]
fn sections_are_apart() {
    let mut take = Records::of(0, vec![Record::bone(b"same", 7, 1)]);
    take.sections[1] = vec![Record::morph(b"same", 7, 0.5)];
    take.sections[4] = vec![Record::self_shadow(7, 0.5)];
    take.sections[5] = vec![Record::property(7, 1, &[])];
    let tidied = expect_as_defined(&take);
    assert_eq!(all(&tidied.sections).map(|of| (of.kept, of.dropped)), [(1, 0), (1, 0), (0, 0), (0, 0), (1, 0), (1, 0)]);
    assert!(tidied.file == vmd::export(&take.file()).unwrap());
}

/// The bytes before the first zero: what stands after it makes no difference, and is not written.
#[test]
fn names_end_before_their_first_zero() {
    let found = tidied_morphs(&[(b"smile\0left", 5, 0.1), (b"smile\0\0\0right", 5, 0.2), (b"smile", 5, 0.3)]);
    assert_eq!(found, [(b"smile".to_vec(), 5, 0.3)]);
    let found = tidied_morphs(&[(b"\0", 5, 0.1), (b"\0smile", 5, 0.2), (b"smil", 5, 0.3), (b"smile", 5, 0.4)]);
    assert_eq!(found, [(vec![], 5, 0.2), (b"smil".to_vec(), 5, 0.3), (b"smile".to_vec(), 5, 0.4)]);
    let full: [&[u8]; 3] = [b"fifteen letters", b"fifteen letter\0", b"fifteen letterS"];
    assert_eq!(tidied_morphs(&full.map(|field| (field, 5, 0.1))).len(), 3);
    let take = Records::of(0, vec![Record::bone(b"arm\0x", 5, 1), Record::bone(b"arm\0y", 5, 2)]);
    let tidied = expect_as_defined(&take);
    assert_eq!(tidied.sections.bones, TidiedSection { kept: 1, dropped: 1 });
    assert_eq!(tidied.file[54..69], padded(b"arm", 15, 0));
}

/// Names that agree up to the first line feed are one track, whose records keep their own.
#[test]
fn remarks_after_a_line_feed() {
    let expect = |records: &[(&[u8], u32, f32)], kept: &[(&[u8], u32, f32)]| {
        let kept: Vec<_> = kept.iter().map(|(name, frame, weight)| (name.to_vec(), *frame, *weight)).collect();
        assert_eq!(tidied_morphs(records), kept);
    };
    expect(&[(b"A", 5, 0.1), (b"A\nx", 5, 0.2), (b"A\ny", 5, 0.3)], &[(b"A\ny", 5, 0.3)]);
    expect(&[(b"A\nx", 5, 0.1), (b"A\ny", 5, 0.2), (b"A", 5, 0.3)], &[(b"A", 5, 0.3)]);
    expect(
        &[(b"A", 5, 0.1), (b"A\nx", 7, 0.2), (b"A\ny", 5, 0.3), (b"A\nx", 3, 0.4)],
        &[(b"A\nx", 3, 0.4), (b"A\ny", 5, 0.3), (b"A\nx", 7, 0.2)],
    );
    // where the name with which a track first appears is not kept its place is still there, also when it is tidied again
    expect(
        &[(b"B\nx", 1, 0.1), (b"A", 1, 0.2), (b"B", 1, 0.3), (b"B\ny", 0, 0.4)],
        &[(b"B\ny", 0, 0.4), (b"B", 1, 0.3), (b"A", 1, 0.2)],
    );
    // the first of several; what begins with one is no name
    expect(&[(b"A\nx", 5, 0.1), (b"A\n\nx", 5, 0.2), (b"A\nx\n", 5, 0.3)], &[(b"A\nx\n", 5, 0.3)]);
    expect(&[(b"", 5, 0.1), (b"\nA", 5, 0.2), (b"\n", 5, 0.3), (b"A", 5, 0.4)], &[(b"\n", 5, 0.3), (b"A", 5, 0.4)]);
    // none after the zero, and no other byte
    expect(&[(b"A\0\nx", 5, 0.1), (b"A\0x\n", 5, 0.2), (b"Ax", 5, 0.3)], &[(b"A", 5, 0.2), (b"Ax", 5, 0.3)]);
    let others: [&[u8]; 6] = [b"A", b"A\rx", b"A\x0Bx", b"A\x8Ax", b"A\tx", b"A x"];
    let apart = others.map(|name| (name, 5, 0.1));
    expect(&apart, &apart);
}

#[test]
fn a_line_feed_at_each_place_of_a_name() {
    let letters = b"fifteen letters";
    for place in 0..15 {
        let spelled = |after: &[u8]| [&letters[..place], after, &[b'!'; 15]].concat()[..15].to_vec();
        let names = [spelled(b"\n"), spelled(b"\n?\n"), spelled(b"\0\n"), spelled(b"?")];
        for section in [0, 1] {
            let record = |field: &Vec<u8>| match section {
                0 => Record::bone(field, 5, 7),
                _ => Record::morph(field, 5, 0.5),
            };
            let tidied = expect_as_defined(&Records::of(section, names.iter().map(record).collect()));
            assert_eq!(all(&tidied.sections)[section], TidiedSection { kept: 2, dropped: 2 }, "place {place}");
        }
    }
}

/// What the second half says of a frame is kept, in its own spelling.
#[test]
fn a_join_whose_halves_spell_the_remark_differently() {
    let half = |remark: &str, byte: u8| {
        let bone = |name: &str, frame| Record::bone(format!("{name}\n{remark}").as_bytes(), frame, byte);
        Records::of(0, vec![bone("arm", 9), bone("leg", 5), bone("arm", byte.into()), bone("arm", 9)])
    };
    let (first, second) = (half("left", 1), half("right", 2));
    let joined = vmd::join(&first.file(), &second.file()).unwrap();
    expect_join_law(&first.file(), &second.file());
    expect_join_law(&second.file(), &as_older(&first.file()));
    let tidied = expect_as_defined(&Records::of(0, [&first.sections[0][..], &second.sections[0]].concat()));
    assert_eq!(vmd::tidy(&joined).unwrap(), tidied);
    let take = Take::open(&tidied.file).unwrap();
    let expected: [(&[u8], u32); 4] = [(b"arm\nleft", 1), (b"arm\nright", 2), (b"arm\nright", 9), (b"leg\nright", 5)];
    assert!(take.bone_frames().map(|bone| (bone.name, bone.frame)).eq(expected));
}

/// As it is read: what stands after its zero is not written. A name that fills its field ends with it.
#[test]
fn the_model_name_is_kept() {
    for (field, name) in
        [(&b""[..], &b""[..]), (b"dancer", b"dancer"), (b"dancer\0second", b"dancer"), (&[b'n'; 20], &[b'n'; 20])]
    {
        let take =
            Records { model_name: field.to_vec(), sections: Records::of(1, vec![Record::morph(b"a", 1, 0.5)]).sections };
        let tidied = expect_as_defined(&take);
        assert_eq!(Take::open(&tidied.file).unwrap().model_name(), name);
        assert_eq!(tidied.file[30..50], padded(name, 20, 0));
    }
}

/// They stay with their property frame, in their order, also where two have the same name; frames of all lengths change places.
#[test]
fn ik_states_stay_with_their_property_frame() {
    let state = |name: &[u8], enabled: u8| (padded(&[name, b"\0"].concat(), 20, 0xC5), enabled);
    let (left, right) = (b"left leg", b"right leg");
    let take = Records::of(
        5,
        vec![
            Record::property(30, 9, &[state(left, 7), state(right, 0), state(left, 0)]),
            Record::property(20, 0, &[]),
            Record::property(10, 1, &[state(right, 1)]),
            Record::property(20, 1, &[state(b"twenty bytes of nam", 0), state(right, 1)]),
            Record::property(30, 0, &[state(left, 0)]),
            Record::property(0, 1, &[]),
        ],
    );
    let tidied = expect_as_defined(&take);
    assert_eq!(tidied.sections.properties, TidiedSection { kept: 4, dropped: 2 });
    let tidied = Take::open(&tidied.file).unwrap();
    let found: Vec<_> = tidied
        .property_frames_with_ik_states()
        .map(|(frame, states)| {
            (frame.frame, frame.visible, states.map(|state| (state.name, state.enabled)).collect::<Vec<_>>())
        })
        .collect();
    let expected = [
        (0, true, vec![]),
        (10, true, vec![(&right[..], true)]),
        (20, true, vec![(&b"twenty bytes of nam"[..], false), (&right[..], true)]),
        (30, false, vec![(&left[..], false)]),
    ];
    assert_eq!(found, expected);
}

/// What is written is of the newer edition.
#[test]
fn a_take_of_the_older_edition() {
    let mut take = Records { model_name: b"ten bytes!".to_vec(), ..Records::default() };
    take.sections[1] = vec![Record::morph(b"a", 2, 0.1), Record::morph(b"a\0?", 1, 0.2), Record::morph(b"a", 2, 0.3)];
    let expected = expect_as_defined(&take);
    let older = as_older(&take.file());
    assert_eq!(vmd::tidy(&older).unwrap(), expected);
    expect_lent(Manner::Strict, &older, 3, &expected);
    expect_refusals(&older, 3, &expected);
    assert!(expected.file.starts_with(b"Vocaloid Motion Data 0002\0\0\0\0\0ten bytes!\0"));
    assert_eq!(vmd::export_older_size(&older), Ok(expected.file.len() as u64 + 23 - 10));
    expect_join_law(&older, &take.file());
    expect_join_law(&take.file(), &older);
}

#[test]
fn the_examples_and_their_joins() {
    let files = examples();
    for first in &files {
        expect_tidy(first, &vmd::tidy(first).unwrap());
        for second in &files {
            let joined = vmd::join(first, second).unwrap();
            expect_tidy(&joined, &vmd::tidy(&joined).unwrap());
            expect_join_law(first, second);
        }
    }
}

/// A section that is missing, or that the lenient manner empties, has no records; those before it are tidied.
#[test]
fn sections_that_were_emptied() {
    let none = vmd::tidy(&counts(&[0])).unwrap();
    assert_eq!(none, Tidied { file: counts(&[0; 6]), sections: TidiedSections::default() });
    expect_lent(Manner::Strict, &counts(&[0]), 0, &none);
    expect_refusals(&counts(&[0]), 0, &none);
    let mut file = [counts(&[2]), Record::bone(b"arm", 9, 1).in_file(), Record::bone(b"arm", 9, 2).in_file()].concat();
    file.extend([0; 4]); // morphs
    file.extend(9u32.to_le_bytes()); // cameras that are not there
    file.extend([1; 60]);
    let tidied = Manner::Lenient.tidy(&file).unwrap();
    let bones = TidiedSection { kept: 1, dropped: 1 };
    assert_eq!(tidied.sections, TidiedSections { bones, ..Default::default() });
    assert!(tidied.file == [counts(&[1]), Record::bone(b"arm", 9, 2).in_file(), vec![0; 20]].concat());
    expect_lent(Manner::Lenient, &file, 2, &tidied);
}

#[test]
fn refused_files() {
    let good = random_take(&mut Random::new(5)).file();
    let mut other = good.clone();
    other[25] = b'?';
    assert_eq!(vmd::tidy(&[]), Err(Error::Refused(Refusal::EndsEarly)));
    assert_eq!(vmd::tidy(&start()), Err(Error::Refused(Refusal::EndsEarly)));
    assert_eq!(vmd::tidy(&good[..good.len() - 1]), Err(Error::Refused(Refusal::EndsEarly)));
    assert_eq!(vmd::tidy(&other), Err(Error::Refused(Refusal::MagicDiffers)));
    // whatever scratch and output there are
    for (places, room) in [(0, 0), (0, 9000), (1, 0), (1000, 0), (1000, 9000)] {
        assert_eq!((refused(&good[..good.len() - 1], places, room), refused_size(&good[..60], places)), (1, 1));
        assert_eq!((refused(&other, places, room), refused_size(&other, places)), (2, 2));
    }
    let sentence = Error::from(Refusal::ScratchTooShort).to_string();
    assert!(
        sentence.starts_with("refused 3: ") && sentence.contains("opening") && sentence.contains("tidying"),
        "{sentence}"
    );
}

// ---- many records

/// The numbers below a limit: rising, falling, in no order, and all of them 0.
fn orders(n: u32) -> [Vec<u32>; 4] {
    let mut shuffled: Vec<u32> = (0..n).collect();
    let mut random = Random::new(n);
    (1..n).rev().for_each(|i| shuffled.swap(i as usize, random.below(i + 1)));
    [(0..n).collect(), (0..n).rev().collect(), shuffled, vec![0; n as usize]]
}

/// One track of many frames.
#[test]
fn thousands_of_frames() {
    for frames in orders(20_000) {
        let twice = || frames.iter().chain(&frames[..7000]).zip(0..);
        let bone = |(frame, i): (&u32, u32)| Record::bone(b"arm", *frame, i as u8);
        expect_as_defined(&Records::of(0, twice().map(bone).collect()));
        let self_shadow = |(frame, i): (&u32, u32)| Record::self_shadow(*frame, i as f32);
        expect_as_defined(&Records::of(4, twice().map(self_shadow).collect()));
        let states = |i: u32| vec![(padded(&i.to_le_bytes(), 20, 0), 1); i as usize % 3];
        let property = |(frame, i): (&u32, u32)| Record::property(*frame, 1, &states(i));
        expect_as_defined(&Records::of(5, twice().map(property).collect()));
    }
}

/// Tracks of few records each, more of them than a table of 16,384 or 32,768 places holds.
#[test]
fn thousands_of_names() {
    for names in orders(40_000) {
        let record = |(name, i): (&u32, u32)| Record::morph(format!("{name:x}").as_bytes(), i % 3, i as f32);
        let records: Vec<_> = names.iter().chain(&names[..7000]).zip(0..).map(record).collect();
        expect_as_defined(&Records::of(1, records));
    }
}

/// As many names and frames as shows have.
#[test]
fn hundreds_of_names_and_frames() {
    let [rising, falling, shuffled, _] = orders(40_000);
    for order in [rising, falling, shuffled] {
        let bone = |name: String, i: u32| Record::bone(name.as_bytes(), i / 200 * 2 / 3, i as u8);
        expect_as_defined(&Records::of(0, order.iter().map(|&i| bone(format!("bone {}", i % 200), i)).collect()));
        let spelled = |i: u32| format!("bone {}{}", i % 200, ["", "\n1", "\n22"][i as usize % 3]);
        expect_as_defined(&Records::of(0, order.iter().map(|&i| bone(spelled(i), i)).collect()));
    }
}

/// The calls take up to 512 KiB of stack, says include/vmd.h; a thread needs some of its own.
#[test]
fn tidied_in_a_thread_of_little_stack() {
    let morph = |i: u32| Record::morph((i % 4000).to_string().as_bytes(), i / 7, i as f32);
    let shadow = |i: u32| Record::self_shadow(i.wrapping_mul(2_654_435_761) >> 12, i as f32);
    let takes = [Records::of(1, (0..50_000).map(morph).collect()), Records::of(4, (0..50_000).map(shadow).collect())];
    for (file, places) in takes.map(|take| (take.file(), take.largest_section())) {
        let calls = move || {
            let tidied = vmd::tidy(&file).unwrap();
            expect_lent(Manner::Strict, &file, places, &tidied);
            expect_refusals(&file, places, &tidied);
        };
        thread::Builder::new().stack_size((512 + 64) << 10).spawn(calls).unwrap().join().unwrap();
    }
}

/// A take that is tidy already is its export, and is written whole.
#[test]
fn a_tidy_take() {
    let take = bones(3000, 1);
    let tidied = vmd::tidy(&take).unwrap();
    assert_eq!(tidied.sections.bones, TidiedSection { kept: 3000, dropped: 0 });
    assert!(tidied.file == take);
}
