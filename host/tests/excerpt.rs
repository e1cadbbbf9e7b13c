//! Excerpts, against takes that are made record by record: what an excerpt is follows from the request's words alone.
mod common;

use common::records::{FRAMES, Record, Records, Seed, padded, random_record, random_take};
use common::{BOTH, Random, as_older, at_frames, counts, examples, number, start};
use vmd::{Error, Manner, Refusal, Take};

const LARGEST: u32 = u32::MAX;

// ---- the definition

impl Records {
    /// The records whose frame lies between the first and the last, both included, with the first subtracted from each frame.
    /// Order and model name are kept.
    fn excerpt(&self, first: u32, last: u32) -> Vec<u8> {
        let piece = |section: &Vec<Record>| {
            let stay = section.iter().filter(|record| (first..=last).contains(&record.frame));
            stay.map(|record| Record { frame: record.frame - first, ..record.clone() }).collect()
        };
        Records { model_name: self.model_name.clone(), sections: self.sections.each_ref().map(piece) }.saved()
    }
}

// ---- what is to hold of every take

/// Every call gives this file, in outputs that are just long enough, longer, and as long as the export or longer; what follows
/// the file is as it was. An output that is a byte too short is refused with 13 and is as it was.
fn expect_given(manner: Manner, file: &[u8], first: u32, last: u32, expected: &[u8]) {
    assert!(manner.excerpt(file, first, last).unwrap() == expected, "the bytes are others");
    assert_eq!(manner.excerpt_size(file, first, last), Ok(expected.len() as u64));
    let (len, whole) = (expected.len(), manner.export_size(file).unwrap() as usize);
    assert!(len <= whole, "longer than the export");
    for room in [len, len + 1, whole, whole + 3] {
        let mut out = vec![0xA5; room];
        assert_eq!(manner.excerpt_into(file, first, last, &mut out), Ok(len));
        assert!(out[..len] == *expected, "the bytes in an output of {room} are others");
        assert!(out[len..].iter().all(|byte| *byte == 0xA5), "after the file in an output of {room}");
    }
    for room in [0, len - 1] {
        let mut out = vec![0xA5; room];
        assert_eq!(manner.excerpt_into(file, first, last, &mut out), Err(Refusal::OutputTooShort));
        assert!(out == vec![0xA5; room], "a refused call has written");
    }
}

/// As the definition has it, in both manners and both editions; and the excerpt is canonical.
fn expect_as_defined(take: &Records, first: u32, last: u32) -> Vec<u8> {
    let (file, expected) = (take.file(), take.excerpt(first, last));
    for manner in BOTH {
        expect_given(manner, &file, first, last, &expected);
        let older = manner.excerpt(&as_older(&file), first, last).unwrap();
        assert!(older[..30] == expected[..30] && older[50..] == expected[50..], "the older edition");
    }
    assert!(vmd::export(&expected).unwrap() == expected, "an excerpt is not canonical");
    expected
}

/// The excerpt of a join equals the join of the excerpts.
fn expect_join_law(one: &[u8], other: &[u8], first: u32, last: u32) {
    let piece = |file: &[u8]| vmd::excerpt(file, first, last).unwrap();
    let joined = vmd::join(one, other).unwrap();
    assert!(piece(&joined) == vmd::join(&piece(one), &piece(other)).unwrap(), "the join's excerpt is another");
}

/// An excerpt of an excerpt is that of the frames which both have; the take with its model name alone where there are none.
fn expect_excerpt_of_excerpt(file: &[u8], [first, last]: [u32; 2], [from, to]: [u32; 2]) {
    let again = vmd::excerpt(&vmd::excerpt(file, first, last).unwrap(), from, to).unwrap();
    let at_once = first.checked_add(from).map(|from| (from, last.min(first.saturating_add(to))));
    match at_once.filter(|(from, to)| from <= to) {
        Some((from, to)) => assert!(again == vmd::excerpt(file, from, to).unwrap(), "the excerpt of the excerpt"),
        None => assert_eq!((again.len(), &again[50..]), (74, &[0; 24][..])),
    }
}

// ---- takes that are made at random

/// Frames that records have, and those just before and after.
fn bound(random: &mut Random) -> u32 {
    let frame = FRAMES[random.below(FRAMES.len() as u32)];
    [frame, frame.saturating_sub(1), frame.saturating_add(1), random.next()][random.below(4)]
}

/// Two of them, in order.
fn bounds(random: &mut Random) -> [u32; 2] {
    let mut bounds = [bound(random), bound(random)];
    bounds.sort();
    bounds
}

#[test]
fn takes_made_at_random() {
    const TAKES: u32 = 1500;
    let mut before = counts(&[0]);
    let mut found = [0; 3];
    for seed in 1..=TAKES {
        let _told = Seed(seed);
        let mut random = Random::new(seed);
        let take = random_take(&mut random);
        let file = take.file();
        for _ in 0..3 {
            let [first, last] = bounds(&mut random);
            let len = expect_as_defined(&take, first, last).len();
            found[if len == take.saved().len() { 0 } else { 1 + usize::from(len == 74) }] += 1;
            expect_join_law(&before, &file, first, last);
            expect_join_law(&file, &file, first, last);
            expect_excerpt_of_excerpt(&file, [first, last], bounds(&mut random));
        }
        assert!(expect_as_defined(&take, 0, LARGEST) == vmd::export(&file).unwrap(), "the whole is not the export");
        before = file;
    }
    assert!(found.iter().all(|n| *n > TAKES / 5), "takes of which all, a part and nothing stays: {found:?}");
}

/// Ten records of a section, of which any may stay.
#[test]
fn every_pattern_of_what_stays() {
    for section in 0..6 {
        let mut random = Random::new(section as u32 + 1);
        let records: Vec<_> = (0..10).map(|_| random_record(&mut random, section, 12, 0)).collect();
        for stay in 0..1 << records.len() {
            let frame = |i: usize| if stay >> i & 1 == 1 { 7 + i as u32 } else { [6, 17, 0, LARGEST][i % 4] };
            let records = records.iter().enumerate().map(|(i, record)| Record { frame: frame(i), ..record.clone() });
            let take = Records::of(section, records.collect());
            expect_given(Manner::Strict, &take.file(), 7, 16, &take.excerpt(7, 16));
        }
    }
}

// ---- takes that are made by hand

/// The frames of each section.
fn frames(file: &[u8]) -> [Vec<u32>; 6] {
    let take = Take::open(file).unwrap();
    [
        take.bone_frames().map(|record| record.frame).collect(),
        take.morph_frames().map(|record| record.frame).collect(),
        take.camera_frames().map(|record| record.frame).collect(),
        take.light_frames().map(|record| record.frame).collect(),
        take.self_shadow_frames().map(|record| record.frame).collect(),
        take.property_frames().map(|record| record.frame).collect(),
    ]
}

/// What stays of records at these frames, which every section has.
fn of_frames(all: &[u32], first: u32, last: u32) -> Vec<u32> {
    let file = at_frames([(); 6].map(|()| all.to_vec()));
    let piece = vmd::excerpt(&file, first, last).unwrap();
    let found = frames(&piece);
    assert_eq!(found, [(); 6].map(|()| found[0].clone()));
    assert_eq!(piece, at_frames(found.clone()));
    expect_given(Manner::Strict, &file, first, last, &piece);
    found[0].clone()
}

#[test]
fn both_ends_are_included() {
    assert_eq!(of_frames(&[8, 9, 10, 11, 19, 20, 21, 22], 10, 20), [0, 1, 9, 10]);
    assert_eq!(of_frames(&[9, 21], 10, 20), []);
    assert_eq!(of_frames(&[10, 20], 10, 20), [0, 10]);
}

/// In no order of frames, and with several of one.
#[test]
fn the_order_is_kept() {
    assert_eq!(of_frames(&[30, 10, 20, 10, 5, 30, 40, 29], 10, 30), [20, 0, 10, 0, 20, 19]);
    let morph = |frame, weight| Record::morph(b"smile", frame, weight);
    let take = Records::of(1, vec![morph(5, 0.1), morph(3, 0.2), morph(5, 0.3), morph(5, 0.1), morph(4, 0.4)]);
    let piece = expect_as_defined(&take, 4, 5);
    let weights = Take::open(&piece).unwrap().morph_frames().map(|morph| (morph.frame, morph.weight)).collect::<Vec<_>>();
    assert_eq!(weights, [(1, 0.1), (1, 0.3), (1, 0.1), (0, 0.4)]);
}

#[test]
fn one_frame() {
    assert_eq!(of_frames(&[6, 7, 8, 7, 6], 7, 7), [0, 0]);
    assert_eq!(of_frames(&[6, 8], 7, 7), []);
    assert_eq!(of_frames(&[7], 7, 7), [0]);
}

#[test]
fn frames_at_0_and_at_the_largest() {
    let all = [0, 1, 0x7FFF_FFFF, 0x8000_0000, LARGEST - 1, LARGEST];
    assert_eq!(of_frames(&all, 0, 0), [0]);
    assert_eq!(of_frames(&all, LARGEST, LARGEST), [0]);
    assert_eq!(of_frames(&all, 1, LARGEST), [0, 0x7FFF_FFFE, 0x7FFF_FFFF, LARGEST - 2, LARGEST - 1]);
    assert_eq!(of_frames(&all, 0, LARGEST - 1), all[..5]);
    assert_eq!(of_frames(&all, 0x8000_0000, LARGEST), [0, 0x7FFF_FFFE, 0x7FFF_FFFF]);
    assert_eq!(of_frames(&all, 0x7FFF_FFFF, 0x8000_0000), [0, 1]);
    assert_eq!(of_frames(&all, 0, LARGEST), all);
}

/// 74 bytes, with the model name as it is read: what stands after its zero is not written.
#[test]
fn an_empty_excerpt() {
    for (field, name) in
        [(&b""[..], &b""[..]), (b"dancer", b"dancer"), (b"dancer\0second", b"dancer"), (&[b'n'; 20], &[b'n'; 20])]
    {
        let records = Records::of(4, vec![Record::self_shadow(5, 0.5), Record::self_shadow(9, 0.5)]);
        let take = Records { model_name: field.to_vec(), ..records };
        for [first, last] in [[0, 4], [6, 8], [10, LARGEST], [7, 7]] {
            let piece = expect_as_defined(&take, first, last);
            assert_eq!((piece.len(), &piece[30..50], &piece[50..]), (74, &padded(name, 20, 0)[..], &[0; 24][..]));
            assert_eq!(Take::open(&piece).unwrap().model_name(), name);
        }
    }
    // a take without records, and one whose counts end with the first
    for file in [counts(&[0; 6]), counts(&[0])] {
        expect_given(Manner::Strict, &file, 0, LARGEST, &counts(&[0; 6]));
        expect_given(Manner::Strict, &file, 3, 3, &counts(&[0; 6]));
    }
}

/// Those of the frames that stay, in their order; where frames of any length are dropped before and after.
#[test]
fn ik_states_stay_with_their_property_frame() {
    let state = |name: &[u8], enabled: u8| (padded(&[name, b"\0"].concat(), 20, 0xC5), enabled);
    let (left, right) = (b"left leg", b"right leg");
    let take = Records::of(
        5,
        vec![
            Record::property(5, 1, &[state(b"dropped", 1), state(b"dropped", 0)]),
            Record::property(30, 9, &[state(left, 7), state(right, 0), state(left, 0)]),
            Record::property(31, 1, &[state(b"dropped", 1)]),
            Record::property(10, 0, &[]),
            Record::property(9, 1, &[]),
            Record::property(20, 1, &[state(b"twenty bytes of nam", 0), state(right, 1)]),
            Record::property(LARGEST, 1, &vec![state(b"dropped", 1); 9]),
        ],
    );
    let piece = expect_as_defined(&take, 10, 30);
    assert_eq!(piece.len(), 74 + 3 * 9 + 5 * 21);
    let take = Take::open(&piece).unwrap();
    assert_eq!(take.ik_states(), 5);
    let found: Vec<_> = take
        .property_frames_with_ik_states()
        .map(|(frame, states)| {
            (frame.frame, frame.visible, states.map(|state| (state.name, state.enabled)).collect::<Vec<_>>())
        })
        .collect();
    let expected = [
        (20, true, vec![(&left[..], true), (right, false), (left, false)]),
        (0, false, vec![]),
        (10, true, vec![(&b"twenty bytes of nam"[..], false), (right, true)]),
    ];
    assert_eq!(found, expected);
}

/// What stays is written as it is saved: zeros after each name, flags 0 or 1.
#[test]
fn what_stays_is_canonical() {
    let mut take = Records::of(0, vec![Record::bone(b"arm\0x", 5, 7), Record::bone(b"leg\0y", 6, 8)]);
    take.sections[1] = vec![Record::morph(b"smile\0left", 6, 0.5), Record::morph(b"fifteen letters", 7, 0.5)];
    let mut random = Random::new(3);
    take.sections[2] = (0..9).map(|frame| random_record(&mut random, 2, 1, frame)).collect();
    let piece = expect_as_defined(&take, 6, 7);
    assert_eq!(piece[54..73], *b"leg\0\0\0\0\0\0\0\0\0\0\0\0\0\0\0\0");
    assert_eq!(frames(&piece), [vec![0], vec![0, 1], vec![0, 1], vec![], vec![], vec![]]);
}

/// What is written is of the newer edition.
#[test]
fn a_take_of_the_older_edition() {
    let morphs = vec![Record::morph(b"a", 2, 0.1), Record::morph(b"b\0?", 1, 0.2), Record::morph(b"c", 4, 0.3)];
    let take = Records { model_name: b"ten bytes!".to_vec(), ..Records::of(1, morphs) };
    let older = as_older(&take.file());
    let expected = take.excerpt(1, 3);
    assert!(expected.starts_with(b"Vocaloid Motion Data 0002\0\0\0\0\0ten bytes!\0") && expected.len() == 74 + 2 * 23);
    BOTH.iter().for_each(|&manner| expect_given(manner, &older, 1, 3, &expected));
    expect_given(Manner::Strict, &older, 9, 9, &take.excerpt(9, 9));
    expect_given(Manner::Strict, &older, 0, LARGEST, &vmd::export(&older).unwrap());
    expect_join_law(&older, &take.file(), 1, 3);
    expect_join_law(&take.file(), &older, 1, 3);
}

/// The first model name that is not empty is the join's, whichever records stay.
#[test]
fn excerpts_of_joins() {
    let named = |name: &[u8], frames: &[u32]| {
        let records = frames.iter().map(|frame| Record::bone(b"arm", *frame, 1)).collect();
        Records { model_name: name.to_vec(), ..Records::of(0, records) }.file()
    };
    for (one, other, name) in [(&b"one"[..], &b"other"[..], &b"one"[..]), (b"", b"other", b"other"), (b"", b"", b"")] {
        let (one, other) = (named(one, &[1, 9]), named(other, &[9, 5, 1]));
        for [first, last] in [[0, 0], [1, 1], [2, 8], [5, 9], [9, LARGEST], [0, LARGEST]] {
            expect_join_law(&one, &other, first, last);
            let piece = vmd::excerpt(&vmd::join(&one, &other).unwrap(), first, last).unwrap();
            assert_eq!(Take::open(&piece).unwrap().model_name(), name);
        }
        let piece = vmd::excerpt(&vmd::join(&one, &other).unwrap(), 5, 9).unwrap();
        assert_eq!(frames(&piece)[0], [4, 4, 0]);
    }
}

#[test]
fn excerpts_of_excerpts() {
    let file = at_frames([(); 6].map(|()| vec![0, 10, 15, 20, 30, 40, LARGEST - 5, LARGEST]));
    let frames_of = |[first, last]: [u32; 2], [from, to]: [u32; 2]| {
        expect_excerpt_of_excerpt(&file, [first, last], [from, to]);
        let again = vmd::excerpt(&vmd::excerpt(&file, first, last).unwrap(), from, to).unwrap();
        frames(&again)[0].clone()
    };
    assert_eq!(frames_of([10, 40], [5, 20]), [0, 5, 15]);
    assert_eq!(frames_of([10, 40], [0, LARGEST]), [0, 5, 10, 20, 30]);
    assert_eq!(frames_of([10, 20], [5, 30]), [0, 5]);
    assert_eq!(frames_of([10, 20], [11, 30]), []);
    assert_eq!(frames_of([10, LARGEST], [LARGEST - 15, LARGEST]), [0, 5]);
    assert_eq!(frames_of([10, LARGEST], [LARGEST - 9, LARGEST]), []);
    assert_eq!(frames_of([LARGEST, LARGEST], [0, 0]), [0]);
    assert_eq!(frames_of([LARGEST, LARGEST], [1, 1]), []);
}

#[test]
fn the_examples_and_their_joins() {
    let files = examples();
    for one in &files {
        let take = Take::open(one).unwrap();
        assert!(vmd::excerpt(one, 0, LARGEST).unwrap() == vmd::export(one).unwrap());
        assert!(vmd::excerpt(one, 0, take.largest_frame()).unwrap() == vmd::export(one).unwrap());
        for [first, last] in [[0, 0], [1, 30], [20, 55], [30, LARGEST]] {
            for other in &files {
                expect_join_law(one, other, first, last);
            }
            expect_excerpt_of_excerpt(one, [first, last], [2, 20]);
        }
    }
}

/// From the take's smallest frame on all stays, and the smallest frame is 0.
#[test]
fn from_the_smallest_frame() {
    let file = at_frames([vec![70, 65], vec![], vec![61], vec![900], vec![], vec![62, 62]]);
    let smallest = Take::open(&file).unwrap().smallest_frame();
    let piece = vmd::excerpt(&file, smallest, LARGEST).unwrap();
    assert_eq!(frames(&piece), [vec![9, 4], vec![], vec![0], vec![839], vec![], vec![1, 1]]);
    assert_eq!(piece.len(), file.len());
}

// ---- refusals

/// The number that every call gives, with outputs of any length, which stay as they were.
fn refused(manner: Manner, file: &[u8], first: u32, last: u32) -> u32 {
    let mut numbers = vec![number(manner.excerpt(file, first, last)), number(manner.excerpt_size(file, first, last))];
    for room in [0, 73, 74, file.len() + 100] {
        let mut out = vec![0xA5; room];
        numbers.push(number(manner.excerpt_into(file, first, last, &mut out)));
        assert!(out == vec![0xA5; room], "a refused call has written");
    }
    assert!(numbers[0] != 0 && numbers.iter().all(|number| *number == numbers[0]), "{numbers:?}");
    numbers[0]
}

/// A take with records in every section, and the same with each damage: a byte over, and a light that is not there.
fn damaged() -> [(Vec<u8>, u32, Vec<u8>); 2] {
    let whole = at_frames([vec![3, 7], vec![4], vec![8, 5], vec![6], vec![5], vec![7, 5]]);
    let lights = 50 + 4 + 2 * 111 + 4 + 23 + 4 + 2 * 61;
    let mut oversized = whole.clone();
    oversized[lights..lights + 4].copy_from_slice(&1000u32.to_le_bytes());
    [([&whole[..], &[0]].concat(), 16, whole.clone()), (oversized, 17, whole[..lights].to_vec())]
}

/// Before everything that a file is refused for, and of a good file too.
#[test]
fn the_first_frame_above_the_last() {
    let [(over, ..), (oversized, ..)] = damaged();
    let good = at_frames([(); 6].map(|()| vec![4, 5]));
    let mut files =
        vec![vec![], vec![0x41; 29], vec![0x41; 60], start(), good[..good.len() - 1].to_vec(), good, over, oversized];
    files.extend(files.clone().iter().filter(|file| file.len() > 50).map(|file| as_older(file)));
    for file in &files {
        for manner in BOTH {
            for [first, last] in
                [[1, 0], [5, 4], [LARGEST, 0], [LARGEST, LARGEST - 1], [0x8000_0000, 0x7FFF_FFFF], [256, 255]]
            {
                assert_eq!(refused(manner, file, first, last), 18);
            }
        }
    }
    // of the same frame twice there is no such refusal
    assert_eq!(refused(Manner::Strict, &[], 5, 5), 1);
    assert_eq!(number(vmd::excerpt(&files[5], 5, 5)), 0);
    assert_eq!(Error::from(Refusal::FirstAboveLast).to_string(), "refused 18: the first frame is above the last");
}

/// Whichever records stay: the whole file is read.
#[test]
fn refused_files() {
    let good = random_take(&mut Random::new(5)).file();
    let mut other = good.clone();
    other[25] = b'?';
    for [first, last] in [[0, 0], [0, LARGEST], [3, 3], [LARGEST, LARGEST]] {
        for manner in BOTH {
            for early in [&[][..], &[0x41; 29], &start(), &good[..53], &good[..good.len() - 1], &as_older(&start())] {
                assert_eq!(refused(manner, early, first, last), 1);
            }
            assert_eq!(refused(manner, &other, first, last), 2);
        }
    }
    // a property frame whose IK states are not all there, after those that stay
    let cut =
        [&at_frames([vec![], vec![], vec![], vec![], vec![], vec![1, 2]])[..74 + 9 + 5], &[1, 0, 0, 0], &[0; 20]].concat();
    assert_eq!(refused(Manner::Lenient, &cut, 1, 1), 1);
}

/// Refused in the strict manner, whichever records stay; in the lenient one the excerpt is that of what is read.
#[test]
fn damaged_takes() {
    for (file, expected, left) in damaged() {
        for (file, left) in [(file.clone(), left.clone()), (as_older(&file), as_older(&left))] {
            for [first, last] in [[0, LARGEST], [4, 6], [5, 5], [9, 9]] {
                assert_eq!(refused(Manner::Strict, &file, first, last), expected);
                expect_given(Manner::Lenient, &file, first, last, &vmd::excerpt(&left, first, last).unwrap());
            }
            assert!(Manner::Lenient.excerpt(&file, 0, LARGEST).unwrap() == Manner::Lenient.export(&file).unwrap());
        }
    }
    let [_, (oversized, ..)] = damaged();
    let piece = Manner::Lenient.excerpt(&oversized, 4, 7).unwrap();
    assert_eq!(frames(&piece), [vec![3], vec![0], vec![1], vec![], vec![], vec![]]);
}

// ---- many records

/// In every section: the front, the back, the middle, every other record, and hardly any stay.
#[test]
fn thousands_of_records() {
    const RECORDS: u32 = 3001;
    let mut random = Random::new(7);
    let rising = |i: u32| 100 + i;
    let in_turn = |i: u32| if i % 2 == 1 { 3_000_000 + i } else { 100 + i };
    let scattered = |i: u32| i.wrapping_mul(2_654_435_761);
    for section in 0..6 {
        let record = random_record(&mut random, section, 12, 0);
        for frame in [&rising as &dyn Fn(u32) -> u32, &in_turn, &scattered] {
            let take = Records::of(section, (0..RECORDS).map(|i| Record { frame: frame(i), ..record.clone() }).collect());
            let file = take.file();
            for [first, last] in [[0, 1600], [1600, LARGEST], [900, 2300], [0, 99], [500, 502], [0x8000_0000, 0x9000_0000]] {
                let expected = take.excerpt(first, last);
                expect_given(Manner::Strict, &file, first, last, &expected);
                // what was lent for the export is given back
                let piece = vmd::excerpt(&file, first, last).unwrap();
                assert!(piece.capacity() < expected.len() + 100, "{} bytes of {}", expected.len(), piece.capacity());
            }
        }
    }
}
