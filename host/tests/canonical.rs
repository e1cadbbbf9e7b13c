//! Whether saving would touch a file, and what first: against the export and a comparison byte by byte, and against files that
//! are made of pieces, each with what saving would touch in it.
mod common;

use std::collections::BTreeMap;

use common::records::{Record, Records, Seed, bytes, name, padded, random_take};
use common::{BOTH, Random, as_older, at_frames, bones, counts, examples, first_difference, number, older_start, start};
use vmd::{Change, Manner, Parts, Refusal, Section, Take, Touched};

// ---- what is to hold of every file

/// What the calls give in a manner that accepts the file, by its export: which place is touched first, and what stands there in
/// both.
fn change(manner: Manner, file: &[u8]) -> Option<Change> {
    let export = manner.export(file).unwrap();
    let place = first_difference(file, &export);
    assert_eq!((manner.is_canonical(file), manner.first_change(file)), (Ok(place.is_none()), Ok(place)));
    let change = manner.open(file).unwrap().first_change();
    let bytes = |change: Change| (change.place, change.found, change.saved);
    assert_eq!(change.map(bytes), place.map(|place| (place, file.get(place).copied(), export.get(place).copied())));
    change
}

/// In each manner as above, or refused as the export is. Gives the strict one's number, 0 where it accepts the file.
fn expect_as_compared(file: &[u8]) -> u32 {
    for manner in BOTH {
        match manner.export_size(file) {
            Ok(_) => drop(change(manner, file)),
            Err(refusal) => {
                assert_eq!((manner.is_canonical(file), manner.first_change(file)), (Err(refusal), Err(refusal)))
            }
        }
    }
    number(Manner::Strict.export_size(file))
}

/// A file that both manners accept: this is touched first, and so it is told.
fn expect_touched(file: &[u8], touched: Touched, words: &str) {
    for manner in BOTH {
        expect_told(change(manner, file), touched, words);
    }
    assert_eq!(vmd::is_canonical(file), Ok(false));
}

/// The same of one that the lenient manner alone accepts; the strict one refuses it with this number.
fn expect_touched_in_lenient(file: &[u8], refused: u32, touched: Touched, words: &str) {
    expect_told(change(Manner::Lenient, file), touched, words);
    assert_eq!((number(vmd::is_canonical(file)), number(vmd::first_change(file))), (refused, refused));
}

fn expect_told(change: Option<Change>, touched: Touched, words: &str) {
    let change = change.expect("saving touches it");
    assert_eq!((change.touched, change.to_string()), (touched, words.to_string()));
}

/// Saving leaves it as it is, in both manners.
fn expect_canonical(file: &[u8]) {
    BOTH.iter().for_each(|&manner| assert_eq!(change(manner, file), None));
    assert_eq!((vmd::is_canonical(file), vmd::first_change(file)), (Ok(true), Ok(None)));
}

// ---- a canonical take, and what stands at its places

/// Where the counts of [`whole`] stand, and its property frames.
const MORPHS: usize = 276;
const CAMERAS: usize = 326;
const LIGHTS: usize = 452;
const SELF_SHADOWS: usize = 484;
const PROPERTIES: usize = 497;
const FRAMES: [usize; 2] = [501, 531];

/// Two bones, morphs and cameras, a light, a self-shadow, and two property frames with one and two IK states. The last name of
/// each kind fills its field, but for a morph's, which is empty.
fn whole() -> Vec<u8> {
    let state = |name: &[u8], enabled| (padded(name, 20, 0), enabled);
    let camera = |frame, perspective| Record::new(frame, [vec![0xC5; 56], vec![perspective]].concat());
    let sections = [
        vec![Record::bone(b"arm", 3, 0xC5), Record::bone(b"fifteen letters", 4, 0xC5)],
        vec![Record::morph(b"smile", 5, 0.5), Record::morph(b"", 6, 0.5)],
        vec![camera(7, 0), camera(8, 1)],
        vec![Record::new(9, vec![0xC5; 24])],
        vec![Record::new(10, vec![0xC5; 5])],
        vec![
            Record::property(11, 1, &[state(b"leg", 0)]),
            Record::property(12, 0, &[state(b"left leg", 1), state(b"twenty bytes of name", 1)]),
        ],
    ];
    let file = Records { model_name: b"dancer".to_vec(), sections }.saved();
    assert_eq!(file.len(), 582);
    file
}

/// The same with another byte.
fn with_byte(place: usize, byte: u8) -> Vec<u8> {
    let mut file = whole();
    assert_ne!(file[place], byte);
    file[place] = byte;
    file
}

/// The same with another count.
fn with_count(at: usize, count: u32) -> Vec<u8> {
    let mut file = whole();
    file[at..at + 4].copy_from_slice(&count.to_le_bytes());
    file
}

#[test]
fn a_canonical_take() {
    expect_canonical(&whole());
    expect_canonical(&counts(&[0; 6]));
    expect_canonical(&bones(3, 1));
    expect_canonical(&at_frames([(); 6].map(|()| vec![3, 1, u32::MAX])));
}

#[test]
fn the_older_edition() {
    let words = "byte 21 is 102 and would be 48: the file is of the older edition";
    let with_name = [&older_start()[..30], b"ten bytes!\0\0\0\0"].concat();
    for older in [as_older(&whole()), as_older(&counts(&[0])), as_older(&bones(3, 1)), with_name] {
        expect_touched(&older, Touched::Edition, words);
    }
    // whatever else is not canonical
    let mut older = as_older(&whole());
    [26, 36, 55].iter().for_each(|&place| older[place] = 7);
    expect_touched(&older, Touched::Edition, words);
    expect_touched_in_lenient(&[&older[..], &[0]].concat(), 16, Touched::Edition, words);
    expect_touched_in_lenient(&as_older(&counts(&[0, 0, 1])), 17, Touched::Edition, words);
    for file in [whole(), with_byte(27, 7)] {
        expect_touched(&vmd::export_older(&file).unwrap(), Touched::Edition, words);
    }
}

#[test]
fn bytes_after_names() {
    let cases = [
        ("after the magic", Touched::AfterMagic, vec![26, 27, 28, 29]),
        ("after the model name", Touched::AfterModelName, vec![37, 38, 48, 49]),
        ("after the name of bone 0", Touched::AfterBoneName(0), vec![58, 59, 68]),
        ("after the name of morph 0", Touched::AfterMorphName(0), vec![286, 290, 294]),
        ("after the name of morph 1", Touched::AfterMorphName(1), vec![304, 317]),
        (
            "after the name of IK state 0 of property frame 0",
            Touched::AfterIkName { property: 0, state: 0 },
            vec![FRAMES[0] + 9 + 4, FRAMES[0] + 9 + 19],
        ),
        (
            "after the name of IK state 0 of property frame 1",
            Touched::AfterIkName { property: 1, state: 0 },
            vec![FRAMES[1] + 9 + 9, FRAMES[1] + 9 + 19],
        ),
    ];
    for (words, touched, places) in cases {
        for place in places {
            for byte in [1, 7, 255] {
                let words = format!("byte {place} is {byte} and would be 0: {words}");
                expect_touched(&with_byte(place, byte), touched, &words);
            }
        }
    }
    // the zero after a name: the name is longer by a byte, or by all that follows
    for place in [36, 57, 285, 303, FRAMES[0] + 9 + 3, FRAMES[1] + 9 + 8] {
        expect_canonical(&with_byte(place, b'x'));
    }
    // a zero in a name that fills its field: what follows it is after the name
    let ends = [
        (165, 15, Touched::AfterBoneName(1), "bone 1"),
        (FRAMES[1] + 30, 20, Touched::AfterIkName { property: 1, state: 1 }, "IK state 1 of property frame 1"),
    ];
    for (field, width, touched, of) in ends {
        for place in field..field + width - 1 {
            let words = format!("byte {} is {} and would be 0: after the name of {of}", place + 1, whole()[place + 1]);
            expect_touched(&with_byte(place, 0), touched, &words);
        }
        expect_canonical(&with_byte(field + width - 1, 0));
    }
}

#[test]
fn flags() {
    let cases = [
        ("the perspective flag of camera 0", Touched::Perspective(0), 390),
        ("the perspective flag of camera 1", Touched::Perspective(1), 451),
        ("the visible flag of property frame 0", Touched::Visible(0), FRAMES[0] + 4),
        ("the visible flag of property frame 1", Touched::Visible(1), FRAMES[1] + 4),
        (
            "the enabled flag of IK state 0 of property frame 0",
            Touched::Enabled { property: 0, state: 0 },
            FRAMES[0] + 9 + 20,
        ),
        (
            "the enabled flag of IK state 0 of property frame 1",
            Touched::Enabled { property: 1, state: 0 },
            FRAMES[1] + 9 + 20,
        ),
        (
            "the enabled flag of IK state 1 of property frame 1",
            Touched::Enabled { property: 1, state: 1 },
            FRAMES[1] + 30 + 20,
        ),
    ];
    for (words, touched, place) in cases {
        for byte in [2, 7, 255] {
            expect_touched(&with_byte(place, byte), touched, &format!("byte {place} is {byte} and would be 1: {words}"));
        }
        expect_canonical(&with_byte(place, 1 - whole()[place]));
    }
}

/// What is no name and no flag is saved as it is: numbers, floats, interpolation bytes, and a self-shadow's mode.
#[test]
fn bytes_that_are_saved_as_they_are() {
    for place in [69, 72, 73, 101, 164, 295, 302, 330, 334, 389, 456, 460, 483, 488, 492, 496, 501, 504, 531, 534] {
        for byte in [0x7F, 0xFF, 2] {
            expect_canonical(&with_byte(place, byte));
        }
    }
}

#[test]
fn missing_counts() {
    let cases = [
        (MORPHS, Section::Morphs, "morph"),
        (CAMERAS, Section::Cameras, "camera"),
        (LIGHTS, Section::Lights, "light"),
        (SELF_SHADOWS, Section::SelfShadows, "self-shadow"),
        (PROPERTIES, Section::Properties, "property"),
    ];
    for (i, (at, section, word)) in cases.into_iter().enumerate() {
        let words = |at: usize| format!("byte {at} is missing and would be 0: the file ends before the {word} count");
        expect_touched(&whole()[..at], Touched::MissingCount(section), &words(at));
        // without records: every count before it is 0
        let none = counts(&vec![0; i + 1]);
        expect_touched(&none, Touched::MissingCount(section), &words(54 + 4 * i));
    }
}

#[test]
fn oversized_counts() {
    let cases = [
        (CAMERAS, Section::Cameras, "camera"),
        (LIGHTS, Section::Lights, "light"),
        (SELF_SHADOWS, Section::SelfShadows, "self-shadow"),
    ];
    for (i, (at, section, word)) in cases.into_iter().enumerate() {
        let expect = |file: &[u8], place: usize, byte: u8| {
            let words =
                format!("byte {place} is {byte} and would be 0: the {word} count is too large for the bytes after it");
            expect_touched_in_lenient(file, 17, Touched::OversizedCount(section), &words);
        };
        // the first of its bytes that is not 0
        expect(&with_count(at, 1000), at, 232);
        expect(&with_count(at, u32::MAX), at, 255);
        expect(&with_count(at, 0x0000_AB00), at + 1, 0xAB);
        expect(&with_count(at, 0xFF01_0000), at + 2, 1);
        expect(&with_count(at, 0x7F00_0000), at + 3, 0x7F);
        // without records, and with one that is short by a byte
        let (none, at) = (counts(&vec![0; i + 2]), 58 + 4 * i);
        expect(&[&none[..], &[1, 0, 0, 0]].concat(), at, 1);
        expect(&[&none[..], &[0, 0, 0, 1]].concat(), at + 3, 1);
        expect(&[&none[..], &[1, 0, 0, 0], &vec![0; [61, 28, 9][i] - 1]].concat(), at, 1);
    }
}

#[test]
fn bytes_over() {
    for (over, byte) in [(&[0][..], 0), (&[0; 4], 0), (&[7, 8], 7), (&whole(), b'V')] {
        let words = format!("byte 582 is {byte} and would be left out: the file goes on after the last property frame");
        expect_touched_in_lenient(&[&whole()[..], over].concat(), 16, Touched::BytesOver(2), &words);
        let none = counts(&[0; 6]);
        let words = format!("byte 74 is {byte} and would be left out: the file goes on after a property count of 0");
        expect_touched_in_lenient(&[&none[..], over].concat(), 16, Touched::BytesOver(0), &words);
    }
}

/// Of several the first is told, whichever stand after it.
#[test]
fn the_first_of_several() {
    let places = [
        29,
        37,
        68,
        286,
        317,
        390,
        451,
        FRAMES[0] + 4,
        FRAMES[0] + 28,
        FRAMES[0] + 29,
        FRAMES[1] + 4,
        FRAMES[1] + 28,
        FRAMES[1] + 29,
        FRAMES[1] + 50,
    ];
    for (i, &first) in places.iter().enumerate() {
        let alone = change(Manner::Strict, &with_byte(first, 7)).unwrap();
        let mut file = whole();
        places[i..].iter().for_each(|&place| file[place] = 7);
        assert_eq!((change(Manner::Strict, &file), alone.place), (Some(alone), first));
        file.push(7);
        assert_eq!(change(Manner::Lenient, &file), Some(alone));
        file.truncate(CAMERAS);
        if first < CAMERAS {
            assert_eq!(change(Manner::Strict, &file), Some(alone));
            file.extend([9, 0, 0, 0]);
            assert_eq!(change(Manner::Lenient, &file), Some(alone));
        }
    }
}

// ---- many files

/// Each byte of a take, cut anywhere.
#[test]
fn every_byte_and_every_length() {
    let mut found = BTreeMap::new();
    let file = whole();
    for place in 0..file.len() {
        for byte in [0, 1, 2, 10, 128, 255, file[place] ^ 1, file[place].wrapping_add(1)] {
            let mut other = file.clone();
            other[place] = byte;
            *found.entry(expect_as_compared(&other)).or_insert(0) += 1;
        }
        *found.entry(expect_as_compared(&file[..place])).or_insert(0) += 1;
        *found.entry(expect_as_compared(&as_older(&with_byte(place, !file[place])))).or_insert(0) += 1;
    }
    assert_eq!(found.keys().copied().collect::<Vec<_>>(), [0, 1, 2, 16, 17], "{found:?}");
}

/// A piece of a file as it stands there and as it is saved, and what saving touches in it where the two differ.
#[derive(Clone)]
struct Piece {
    found: Vec<u8>,
    saved: Vec<u8>,
    touched: Option<Touched>,
}

impl Piece {
    fn new(found: &[u8], saved: &[u8], touched: Touched) -> Piece {
        Piece { found: found.to_vec(), saved: saved.to_vec(), touched: Some(touched) }
    }

    fn kept(bytes: &[u8]) -> Piece {
        Piece { found: bytes.to_vec(), saved: bytes.to_vec(), touched: None }
    }

    fn field(field: &[u8], touched: Touched) -> Piece {
        Piece::new(field, &padded(name(field), field.len(), 0), touched)
    }

    fn flag(byte: u8, touched: Touched) -> Piece {
        Piece::new(&[byte], &[(byte != 0).into()], touched)
    }
}

const SECTIONS: [Section; 6] =
    [Section::Bones, Section::Morphs, Section::Cameras, Section::Lights, Section::SelfShadows, Section::Properties];

fn record_pieces(section: usize, i: usize, record: &Record) -> Vec<Piece> {
    let (field, rest) = (&record.field, &record.rest);
    let frame = Piece::kept(&record.frame.to_le_bytes());
    match SECTIONS[section] {
        Section::Bones => vec![Piece::field(field, Touched::AfterBoneName(i)), frame, Piece::kept(rest)],
        Section::Morphs => vec![Piece::field(field, Touched::AfterMorphName(i)), frame, Piece::kept(rest)],
        Section::Cameras => vec![frame, Piece::kept(&rest[..56]), Piece::flag(rest[56], Touched::Perspective(i))],
        Section::Lights | Section::SelfShadows => vec![frame, Piece::kept(rest)],
        Section::Properties => {
            let states = rest[5..].chunks(21).enumerate().flat_map(|(state, bytes)| {
                [
                    Piece::field(&bytes[..20], Touched::AfterIkName { property: i, state }),
                    Piece::flag(bytes[20], Touched::Enabled { property: i, state }),
                ]
            });
            [frame, Piece::flag(rest[0], Touched::Visible(i)), Piece::kept(&rest[1..5])].into_iter().chain(states).collect()
        }
    }
}

/// A section's count, and its records.
fn section_pieces(section: usize, records: &[Record]) -> Vec<Piece> {
    let count = Piece::kept(&(records.len() as u32).to_le_bytes());
    let records = records.iter().enumerate().flat_map(|(i, record)| record_pieces(section, i, record));
    [count].into_iter().chain(records).collect()
}

fn concat(pieces: &[Piece], of: fn(&Piece) -> &Vec<u8>) -> Vec<u8> {
    pieces.iter().flat_map(of).copied().collect()
}

/// What comes after the sections before this one, whose count is too large for it: the strict manner refuses it.
fn with_oversized_count(random: &mut Random, section: usize, after: &[u8]) -> Piece {
    let needed = after.len() as u32 / [61, 28, 9][section - 2] + 1;
    let count = [needed, needed.next_multiple_of(256), 1 << 16, 1 << 24, u32::MAX][random.below(5)];
    let saved = vec![0; 4 * (6 - section)];
    Piece::new(&[&count.to_le_bytes(), after].concat(), &saved, Touched::OversizedCount(SECTIONS[section]))
}

/// A file of the newer edition in pieces, and the number with which the strict manner refuses it, or 0: up to some piece it is
/// canonical, and it may end in damage or before a count.
fn made_up(random: &mut Random) -> (Vec<Piece>, u32) {
    let take = random_take(random);
    let magic = [Piece::kept(&start()[..26]), Piece::new(&bytes(random, 4), &[0; 4], Touched::AfterMagic)];
    let header = [&magic[..], &[Piece::field(&padded(&take.model_name, 20, 0), Touched::AfterModelName)]].concat();
    let mut sections: Vec<_> = (0..6).map(|section| section_pieces(section, &take.sections[section])).collect();
    let (end, refused) = match random.below(5) {
        0 => {
            let section = 1 + random.below(5);
            sections.truncate(section);
            (Some(Piece::new(&[], &vec![0; 4 * (6 - section)], Touched::MissingCount(SECTIONS[section]))), 0)
        }
        1 => {
            let section = 2 + random.below(3);
            let after = concat(&sections.split_off(section).concat()[1..], |piece| &piece.found);
            (Some(with_oversized_count(random, section, &after)), 17)
        }
        2 => {
            let over = 1 + random.below(30);
            let over = [vec![0; over], bytes(random, over)][random.below(2)].clone();
            (Some(Piece::new(&over, &[], Touched::BytesOver(take.sections[5].len()))), 16)
        }
        _ => (None, 0),
    };
    let mut pieces = [header, sections.concat()].concat();
    let canonical = random.below(pieces.len() as u32 * 3 / 2).min(pieces.len());
    pieces[..canonical].iter_mut().for_each(|piece| piece.found = piece.saved.clone());
    pieces.extend(end);
    (pieces, refused)
}

/// The first piece that differs from what is saved, and where.
fn touched_first(pieces: &[Piece]) -> Option<(usize, Touched)> {
    let mut at = 0;
    pieces.iter().find_map(|piece| {
        let place = first_difference(&piece.found, &piece.saved).map(|place| (at + place, piece.touched.unwrap()));
        at += piece.found.len();
        place
    })
}

/// The words of each kind come, and canonical files do.
#[test]
fn files_made_at_random() {
    const FILES: u32 = 12_000;
    let mut found = BTreeMap::new();
    for seed in 1..=FILES {
        let _told = Seed(seed);
        let mut random = Random::new(seed);
        let (pieces, refused) = made_up(&mut random);
        let (file, saved) = (concat(&pieces, |piece| &piece.found), concat(&pieces, |piece| &piece.saved));
        assert_eq!(expect_as_compared(&file), refused);
        assert!(Manner::Lenient.export(&file).unwrap() == saved, "the export is another");
        let change = change(Manner::Lenient, &file);
        assert_eq!(change.map(|change| (change.place, change.touched)), touched_first(&pieces));
        let kind: String = change.map_or("canonical".into(), |change| change.touched.to_string());
        *found.entry(kind.replace(|digit: char| digit.is_ascii_digit(), "")).or_insert(0) += 1;

        let older = as_older(&file);
        assert_eq!(expect_as_compared(&older), refused);
        let of_older = Manner::Lenient.open(&older).unwrap().first_change();
        let edition = Change { place: 21, found: Some(b'f'), saved: Some(b'0'), touched: Touched::Edition };
        assert_eq!(of_older, Some(edition));
    }
    let kinds = 1 + 2 + 2 + 3 + 1 + 5 + 3 + 2; // canonical, header, names, flags, an IK state's name, counts, and bytes over
    assert!(found.len() == kinds && found.values().all(|n| *n > FILES / 500), "{found:?}");
}

// ---- property frames

/// Each flag and each name of takes with more frames than a place of the scratch serves: frame `i` has `i % 4` IK states.
#[test]
fn each_of_many_property_frames() {
    let state = (padded(b"leg", 20, 0), 1);
    let record = |i: u32| Record::property(i, 1, &vec![state.clone(); i as usize % 4]);
    let file = Records::of(5, (0..50).map(record).collect()).saved();
    expect_canonical(&file);
    let touched = |place: usize| {
        let mut other = file.clone();
        other[place] = 9;
        change(Manner::Strict, &other).unwrap().touched
    };
    let mut frame = 74;
    for property in 0..50 {
        assert_eq!(touched(frame + 4), Touched::Visible(property));
        for state in 0..property % 4 {
            let at = frame + 9 + 21 * state;
            assert_eq!(touched(at + 4), Touched::AfterIkName { property, state });
            assert_eq!(touched(at + 19), Touched::AfterIkName { property, state });
            assert_eq!(touched(at + 20), Touched::Enabled { property, state });
        }
        frame += 9 + 21 * (property % 4);
    }
    assert_eq!(frame, file.len());
}

/// They are read once, one after another: by number, each from the front, these would not end.
#[test]
fn the_last_of_very_many_property_frames() {
    const FRAMES: u32 = 300_000;
    let mut file = counts(&[0, 0, 0, 0, 0, FRAMES]);
    (0..FRAMES).for_each(|_| file.extend([0, 0, 0, 0, 1, 0, 0, 0, 0]));
    expect_canonical(&file);
    let last = file.len() - 9;
    file[last + 4] = 2;
    let words = format!("byte {} is 2 and would be 1: the visible flag of property frame 299999", last + 4);
    expect_touched(&file, Touched::Visible(299_999), &words);
    file[last + 4] = 1;
    file.push(0);
    let words = format!("byte {} is 0 and would be left out: the file goes on after the last property frame", last + 9);
    expect_touched_in_lenient(&file, 16, Touched::BytesOver(300_000), &words);
}

#[test]
fn the_last_of_very_many_ik_states() {
    const STATES: u32 = 100_000;
    let mut file = counts(&[0, 0, 0, 0, 0, 1, 30]);
    file.push(1);
    file.extend(STATES.to_le_bytes());
    file.resize(file.len() + 21 * STATES as usize, 0);
    expect_canonical(&file);
    let last = file.len() - 1;
    file[last] = 2;
    let touched = Touched::Enabled { property: 0, state: 99_999 };
    let words = format!("byte {last} is 2 and would be 1: the enabled flag of IK state 99999 of property frame 0");
    expect_touched(&file, touched, &words);
}

// ---- what the calls write

/// Whatever the takes are, and in which edition; but for what is written in the older one.
fn expect_written_canonical(manner: Manner, one: &[u8], other: &[u8]) {
    expect_canonical(&manner.export(one).unwrap());
    expect_canonical(&manner.join(one, other).unwrap());
    expect_canonical(&manner.tidy(one).unwrap().file);
    for [first, last] in [[0, u32::MAX], [0, 0], [1, 256], [2, u32::MAX]] {
        expect_canonical(&manner.excerpt(one, first, last).unwrap());
    }
    if let Ok(older) = manner.export_older(one) {
        assert_eq!(change(manner, &older).unwrap().touched, Touched::Edition);
    }
}

#[test]
fn what_is_written_at_random() {
    let mut before = counts(&[0, 0, 1]);
    for seed in 1..=600 {
        let _told = Seed(seed);
        let file = concat(&made_up(&mut Random::new(seed)).0, |piece| &piece.found);
        expect_written_canonical(Manner::Lenient, &file, &before);
        expect_written_canonical(Manner::Lenient, &as_older(&file), &before);
        before = file;
    }
}

/// Also from records as a file may have them: flags that are neither 0 nor 1, and bytes after a name.
#[test]
fn what_is_built() {
    expect_canonical(&Parts::default().build().unwrap());
    let state = [&padded(b"leg\0", 20, 0xC5)[..], &[5]].concat();
    let property_frames = [&[9, 0, 0, 0, 7, 1, 0, 0, 0], &state[..]].concat();
    let camera_frames = [&[0; 60][..], &[2]].concat();
    let model_name = b"twenty bytes of name";
    let parts = Parts { model_name, camera_frames: &camera_frames, property_frames: &property_frames, ..Default::default() };
    expect_canonical(&parts.build().unwrap());
}

/// The repository's: all but the encore, which is of the older edition.
#[test]
fn the_examples() {
    let older: Vec<_> = examples().into_iter().filter(|file| !vmd::is_canonical(file).unwrap()).collect();
    assert!(older.len() == 1 && older[0].starts_with(b"Vocaloid Motion Data file"));
    for one in &examples() {
        expect_canonical(&Take::open(one).unwrap().parts().unwrap().build().unwrap());
        examples().iter().for_each(|other| expect_written_canonical(Manner::Strict, one, other));
    }
}

/// Files that are canonical and have the same model name and records are equal.
#[test]
fn one_canonical_file_for_each_take() {
    for seed in 1..=300 {
        let _told = Seed(seed);
        let take = random_take(&mut Random::new(seed));
        let (file, saved) = (take.file(), take.saved());
        assert_eq!(vmd::is_canonical(&saved), Ok(true));
        assert!(vmd::export(&file).unwrap() == saved, "another file of the same records is canonical");
        assert_eq!(vmd::is_canonical(&file), Ok(false), "its magic is followed by other bytes");
    }
}

// ---- refusals

/// Before any other answer: a byte that saving would touch stands before what the file is refused for.
#[test]
fn refused_files() {
    let touched = with_byte(27, 7);
    for manner in BOTH {
        for early in [&[][..], &[0x41; 29], &start(), &touched[..53], &touched[..touched.len() - 1], &older_start()] {
            assert_eq!(number(manner.is_canonical(early)), 1);
            assert_eq!(number(manner.first_change(early)), 1);
        }
        for other in [&[0x41; 30][..], &[0; 99]] {
            assert_eq!((number(manner.is_canonical(other)), number(manner.first_change(other))), (2, 2));
        }
    }
    let mut damaged = [&touched[..], &[0]].concat();
    assert_eq!(vmd::first_change(&damaged), Err(Refusal::BytesOver));
    assert_eq!(Manner::Lenient.first_change(&damaged), Ok(Some(27)));
    damaged[CAMERAS + 3] = 1;
    assert_eq!(vmd::is_canonical(&damaged), Err(Refusal::CountOversized));
    assert_eq!(Manner::Lenient.is_canonical(&damaged), Ok(false));
}
