//! The manners of reading a whole take, call by call: what the strict one refuses, and what the lenient one makes of it.
mod common;

use common::{BOTH, as_older, at_frames, counts, examples, first_difference, number, refused_by_all, start};
use vmd::{Error, Manner, OwnedParts, Refusal, Season, TableSizes, Take, TidiedSections};

// ---- what every call gives

/// All that the calls which read a whole take give for a file.
#[derive(Debug, PartialEq)]
struct Answers {
    counts: [usize; 6],
    ik_states: u64,
    frames: [u32; 2],
    parts: OwnedParts,
    exported: Vec<u8>,
    older: Vec<u8>,
    /// With [`other`]: as the first file, and as the second.
    joined: [Vec<u8>; 2],
    tidied: Vec<u8>,
    sections: TidiedSections,
    excerpt: Vec<u8>,
}

/// The first and the last frame of an excerpt: of the records of [`whole`] some are before it, and some after.
const FRAMES: [u32; 2] = [21, 25];

/// A take to join with.
fn other() -> Vec<u8> {
    at_frames([vec![1], vec![2], vec![3], vec![4], vec![5], vec![6]])
}

/// The answers of every call in a manner that accepts the file: those that write into lent memory, and those that give a
/// length alone, agree with those that give a file.
fn answers(manner: Manner, file: &[u8]) -> Answers {
    let take = manner.open(file).unwrap();
    assert_eq!((take.manner(), take.file()), (manner, file));
    let (exported, older) = (manner.export(file).unwrap(), manner.export_older(file).unwrap());
    expect_written(&exported, manner.export_size(file), |out| manner.export_into(file, out));
    expect_written(&older, manner.export_older_size(file), |out| manner.export_older_into(file, out));
    let other = other();
    let joined = [[file, &other], [&other, file]].map(|[first, second]| {
        let joined = manner.join(first, second).unwrap();
        expect_written(&joined, manner.join_size(first, second), |out| manner.join_into(first, second, out));
        joined
    });
    let tidied = manner.tidy(file).unwrap();
    let mut scratch = vec![7; file.len()];
    let size = manner.tidy_size(file, &mut scratch).map(|(size, _)| size);
    expect_written(&tidied.file, size, |out| {
        let (len, sections) = manner.tidy_into(file, &mut scratch, out)?;
        assert_eq!(sections, tidied.sections);
        Ok(len)
    });
    let excerpt = manner.excerpt(file, FRAMES[0], FRAMES[1]).unwrap();
    expect_written(&excerpt, manner.excerpt_size(file, FRAMES[0], FRAMES[1]), |out| {
        manner.excerpt_into(file, FRAMES[0], FRAMES[1], out)
    });
    expect_first_change(manner, file, first_difference(file, &exported));
    for written in [&exported, &joined[0], &joined[1], &tidied.file, &excerpt] {
        BOTH.iter().for_each(|&manner| expect_first_change(manner, written, None));
    }
    expect_first_change(manner, &older, Some(21));
    Answers {
        counts: [take.bones(), take.morphs(), take.cameras(), take.lights(), take.self_shadows(), take.properties()],
        ik_states: take.ik_states(),
        frames: [take.smallest_frame(), take.largest_frame()],
        parts: split(manner, file, &take),
        exported,
        older,
        joined,
        tidied: tidied.file,
        sections: tidied.sections,
        excerpt,
    }
}

/// A file that is written has the length that was told, and nothing after it is touched.
fn expect_written(file: &[u8], size: Result<u64, Refusal>, write: impl FnOnce(&mut [u8]) -> Result<usize, Refusal>) {
    let mut out = vec![0xA5; file.len() + 9];
    assert_eq!((size, write(&mut out)), (Ok(file.len() as u64), Ok(file.len())));
    assert!(out[..file.len()] == *file && out[file.len()..] == [0xA5; 9]);
}

/// What saving a file that is accepted would touch first.
fn expect_first_change(manner: Manner, file: &[u8], place: Option<usize>) {
    assert_eq!((manner.is_canonical(file), manner.first_change(file)), (Ok(place.is_none()), Ok(place)));
    assert_eq!(manner.open(file).unwrap().first_change().map(|change| change.place), place);
}

/// The parts of a take, which the calls that split its file give too.
fn split(manner: Manner, file: &[u8], take: &Take) -> OwnedParts {
    let parts = take.parts().unwrap();
    let [bone_names, bone_name_bytes, morph_names, morph_name_bytes] =
        [parts.bone_name_ends.len(), parts.bone_name_bytes.len(), parts.morph_name_ends.len(), parts.morph_name_bytes.len()]
            .map(|len| len as u64);
    let sizes = TableSizes { bone_names, bone_name_bytes, morph_names, morph_name_bytes };
    let mut lent = parts.clone();
    lent.bone_frames.fill(7);
    lent.property_frames.fill(7);
    assert_eq!((manner.split_sizes(file), manner.split_into(file, lent.as_parts_mut())), (Ok(sizes), Ok(sizes)));
    assert_eq!(lent, parts);
    parts
}

// ---- what is to hold of a file

/// What is wrong with a file.
#[derive(Clone, Copy, Debug, PartialEq)]
enum Damage {
    None,
    /// Both manners refuse it, with this number.
    Refused(u32),
    /// The strict manner refuses it with this number, and the lenient one reads so many bytes of it.
    Lost(u32, usize),
}

/// Where nothing is wrong both manners give the same. What the lenient one gives of a damaged file is what both give of the
/// bytes that it reads; and what it writes is accepted in both.
fn expect(file: &[u8], damage: Damage) {
    match damage {
        Damage::None => {
            let strict = answers(Manner::Strict, file);
            assert_eq!(strict, answers(Manner::Lenient, file));
            assert_eq!(Manner::Strict.export(&strict.exported).unwrap(), strict.exported);
            assert_eq!(Manner::Strict.first_change(file), Manner::Lenient.first_change(file));
        }
        Damage::Refused(expected) => {
            assert_eq!(BOTH.map(|manner| refused_by_all(manner, file)), [expected; 2]);
            assert!(!Season::new().add(file));
        }
        Damage::Lost(expected, left) => {
            assert_eq!(refused_by_all(Manner::Strict, file), expected);
            let lenient = answers(Manner::Lenient, file);
            assert_eq!(lenient, answers(Manner::Strict, &file[..left]));
            assert_eq!(Manner::Lenient.is_canonical(file), Ok(false));
            let Answers { exported, older, joined: [first, second], tidied, excerpt, .. } = &lenient;
            for written in [exported, older, first, second, tidied, excerpt] {
                assert_eq!(Manner::Strict.export(written), Manner::Lenient.export(written));
                assert!(Manner::Strict.open(written).is_ok());
            }
            assert_eq!(season_of(file), season_of(&file[..left]));
        }
    }
}

/// The figures of one take, which is accepted.
fn season_of(file: &[u8]) -> Season {
    let mut season = Season::new();
    assert!(season.add(file));
    season
}

/// The same of the file in the older edition.
fn expect_in_both_editions(file: &[u8], damage: Damage) {
    expect(file, damage);
    let in_older = match damage {
        Damage::Lost(number, left) => Damage::Lost(number, left - 10),
        other => other,
    };
    expect(&as_older(file), in_older);
}

// ---- files

/// Where the counts of [`whole`] stand.
const BONES: usize = 50;
const MORPHS: usize = 276;
const CAMERAS: usize = 303;
const LIGHTS: usize = 368;
const SELF_SHADOWS: usize = 400;
const PROPERTIES: usize = 413;

/// A take with records in every section, two bones and of every other kind one: its property frame has two IK states.
fn whole() -> Vec<u8> {
    let mut file = at_frames([vec![20, 21], vec![22], vec![23], vec![24], vec![25], vec![26]]);
    file.truncate(file.len() - 4);
    file.extend([2, 0, 0, 0]);
    file.extend(b"left leg\0\0\0\0\0\0\0\0\0\0\0\0\x01right leg\0\0\0\0\0\0\0\0\0\0\0\0");
    file
}

/// The same with another count.
fn with_count(at: usize, count: u32) -> Vec<u8> {
    let mut file = whole();
    file[at..at + 4].copy_from_slice(&count.to_le_bytes());
    file
}

/// A file, and these bytes after it.
fn followed(file: &[u8], by: &[u8]) -> Vec<u8> {
    [file, by].concat()
}

#[test]
fn a_take_with_all_its_sections() {
    expect_in_both_editions(&whole(), Damage::None);
    for manner in BOTH {
        let answers = answers(manner, &whole());
        assert_eq!((answers.counts, answers.ik_states, answers.frames), ([2, 1, 1, 1, 1, 1], 2, [20, 26]));
        assert_eq!(answers.excerpt, at_frames([vec![0], vec![1], vec![2], vec![3], vec![4], vec![]]));
    }
}

/// The case start,0,0,1: a camera that is not there.
#[test]
fn a_camera_that_is_not_there() {
    let file = counts(&[0, 0, 1]);
    assert_eq!(file.len(), 62);
    expect_in_both_editions(&file, Damage::Lost(17, 58));
    let lenient = answers(Manner::Lenient, &file);
    assert_eq!((lenient.counts, lenient.exported, lenient.joined[0].clone()), ([0; 6], counts(&[0; 6]), other()));
    assert_eq!(Take::open(&file).unwrap_err(), Error::Refused(Refusal::CountOversized));
}

/// Whatever they are: zeros, others, and what a larger count would have read as property frames.
#[test]
fn bytes_over() {
    let none = counts(&[0; 6]);
    for over in [&[0][..], &[1], &[0; 4], &[0; 9], &[0xC5; 30], &[0; 400], &whole()] {
        expect_in_both_editions(&followed(&none, over), Damage::Lost(16, none.len()));
        expect_in_both_editions(&followed(&whole(), over), Damage::Lost(16, whole().len()));
        expect_in_both_editions(&followed(&with_count(PROPERTIES, 0), over), Damage::Lost(16, PROPERTIES + 4));
    }
    assert_eq!(answers(Manner::Lenient, &followed(&whole(), &[0; 9])).exported, whole());
}

/// More property frames than an opening lends places for at first.
#[test]
fn bytes_over_after_many_property_frames() {
    let many = at_frames([vec![], vec![], vec![], vec![], vec![], (0..20_000).collect()]);
    expect(&many, Damage::None);
    expect(&followed(&many, &[0]), Damage::Lost(16, many.len()));
}

/// Each is followed by sections that are lost, its own among them: those of the sections before it stay.
#[test]
fn oversized_counts() {
    let cases = [(CAMERAS, 61, [2, 1, 0, 0, 0, 0]), (LIGHTS, 28, [2, 1, 1, 0, 0, 0]), (SELF_SHADOWS, 9, [2, 1, 1, 1, 0, 0])];
    for (at, size, left) in cases {
        let most = (whole().len() - at - 4) / size;
        for count in [most as u32 + 1, 1000, 0x8000_0000, u32::MAX / size as u32 + 1, u32::MAX] {
            let file = with_count(at, count);
            expect_in_both_editions(&file, Damage::Lost(17, at));
            let lenient = answers(Manner::Lenient, &file);
            assert_eq!((lenient.counts, lenient.ik_states), (left, 0), "a count of {count} at {at}");
            let saved = answers(Manner::Strict, &lenient.exported);
            assert_eq!((saved.counts, saved.ik_states), (left, 0));
            // with bytes over too: the count is met first
            expect_in_both_editions(&followed(&file, &[0xC5; 7]), Damage::Lost(17, at));
        }
        // its own record, short by a byte, with nothing after it
        expect_in_both_editions(&whole()[..at + 4 + size - 1], Damage::Lost(17, at));
        // just as many as the bytes are
        expect_in_both_editions(&whole()[..at + 4 + size], Damage::None);
    }
}

/// Where nothing before it is touched, saving touches the damage first: the bytes over, and of a count its first byte that is
/// not 0.
#[test]
fn damage_is_touched_first() {
    let first_change = |file: &[u8]| Manner::Lenient.first_change(file).unwrap();
    assert_eq!(first_change(&followed(&whole(), &[0])), Some(whole().len()));
    assert_eq!(first_change(&followed(&counts(&[0; 6]), &[7; 3])), Some(74));
    for at in [CAMERAS, LIGHTS, SELF_SHADOWS] {
        for (count, byte) in [(1000, 0), (u32::MAX, 0), (0xAB00, 1), (0x0003_0000, 2), (0x8000_0000, 3)] {
            assert_eq!(first_change(&with_count(at, count)), Some(at + byte), "a count of {count} at {at}");
        }
        let mut file = with_count(at, 1000);
        file[29] = 1;
        assert_eq!(first_change(&file), Some(29));
        assert_eq!(first_change(&as_older(&with_count(at, 1000))), Some(21));
    }
}

/// A file may end before the count of any section but the first.
#[test]
fn missing_sections() {
    for (at, sections) in [(MORPHS, 1), (CAMERAS, 2), (LIGHTS, 3), (SELF_SHADOWS, 4), (PROPERTIES, 5)] {
        let file = &whole()[..at];
        expect_in_both_editions(file, Damage::None);
        let counts = answers(Manner::Strict, file).counts;
        assert_eq!((&counts[..sections], &counts[sections..]), (&[2, 1, 1, 1, 1][..sections], &vec![0; 6 - sections][..]));
    }
    (1..=6).for_each(|n| expect_in_both_editions(&counts(&vec![0; n]), Damage::None));
    expect_in_both_editions(&start(), Damage::Refused(1));
}

/// 1 and 2 where they are met before what the strict manner refuses.
#[test]
fn refusals_of_both_manners_come_first() {
    for at in [BONES, MORPHS] {
        expect_in_both_editions(&with_count(at, 1000), Damage::Refused(1));
    }
    // the camera count is oversized too, and is not met
    let mut file = with_count(CAMERAS, 1000);
    file[MORPHS..MORPHS + 4].copy_from_slice(&1000u32.to_le_bytes());
    expect_in_both_editions(&file, Damage::Refused(1));
    // a count that is cut: there is none to be oversized
    for at in [MORPHS, CAMERAS, LIGHTS, SELF_SHADOWS, PROPERTIES] {
        (1..4).for_each(|len| expect_in_both_editions(&whole()[..at + len], Damage::Refused(1)));
    }
    // a property frame that is cut, or too many of them: there is no last one for bytes to follow
    (PROPERTIES + 4..whole().len()).for_each(|len| expect_in_both_editions(&whole()[..len], Damage::Refused(1)));
    expect_in_both_editions(&with_count(PROPERTIES, 2), Damage::Refused(1));
    expect_in_both_editions(&followed(&with_count(PROPERTIES, 2), &[0; 8]), Damage::Refused(1));
    for damaged in [with_count(CAMERAS, 1000), followed(&whole(), &[0])] {
        let mut none = damaged;
        none[25] = b'?';
        expect(&none, Damage::Refused(2));
    }
}

/// 17 where it is met before the file ends in a later section; without it that is 1.
#[test]
fn an_oversized_count_before_the_file_ends_early() {
    for at in [CAMERAS, LIGHTS, SELF_SHADOWS] {
        for cut in [PROPERTIES + 2, PROPERTIES + 4, whole().len() - 1] {
            expect_in_both_editions(&whole()[..cut], Damage::Refused(1));
            expect_in_both_editions(&with_count(at, 1000)[..cut], Damage::Lost(17, at));
        }
    }
}

// ---- every length and every count

/// What is wrong with a file of the newer edition that has its header, by the words of the format.
fn damage(file: &[u8]) -> Damage {
    let number = |at: usize| file.get(at..at + 4).map(|bytes| u32::from_le_bytes(bytes.try_into().unwrap()) as usize);
    let without_count = |at: usize| if at == file.len() { Damage::None } else { Damage::Refused(1) };
    let Some(bones) = number(50).filter(|bones| 54 + 111 * bones <= file.len()) else { return Damage::Refused(1) };
    let mut at = 54 + 111 * bones;
    for (size, oversized) in [(23, None), (61, Some(17)), (28, Some(17)), (9, Some(17))] {
        let Some(count) = number(at) else { return without_count(at) };
        if at + 4 + size * count > file.len() {
            return oversized.map_or(Damage::Refused(1), |number| Damage::Lost(number, at));
        }
        at += 4 + size * count;
    }
    let Some(frames) = number(at) else { return without_count(at) };
    at += 4;
    for _ in 0..frames {
        let Some(states) = number(at + 5) else { return Damage::Refused(1) };
        at += 9 + 21 * states;
        if at > file.len() {
            return Damage::Refused(1);
        }
    }
    if at == file.len() { Damage::None } else { Damage::Lost(16, at) }
}

/// Cut anywhere, with each count in turn another.
#[test]
fn every_length_of_a_take() {
    let mut found = [0; 4];
    for at in [BONES, MORPHS, CAMERAS, LIGHTS, SELF_SHADOWS, PROPERTIES] {
        for count in [0, 1, 2, 3, 5, 12] {
            let file = followed(&with_count(at, count), &[0; 3]);
            for len in (50..=file.len()).step_by(if count == 1 { 1 } else { 3 }) {
                let damage = damage(&file[..len]);
                expect_in_both_editions(&file[..len], damage);
                found[match damage {
                    Damage::None => 0,
                    Damage::Refused(_) => 1,
                    Damage::Lost(16, _) => 2,
                    Damage::Lost(..) => 3,
                }] += 1;
            }
        }
    }
    assert!(found.iter().all(|n| *n > 20), "files of all kinds: {found:?}");
}

/// The repository's, which their maker wrote: none is damaged.
#[test]
fn the_examples() {
    for file in examples() {
        expect(&file, Damage::None);
        expect(&followed(&file, &[0]), Damage::Lost(16, file.len()));
    }
}

// ---- several refusals

/// A file with its numbers in the strict manner and in the lenient one, and how many bytes this reads.
struct Sample {
    file: Vec<u8>,
    strict: u32,
    lenient: u32,
    left: usize,
}

/// A good file, one that ends early, one without the magic, and one with each damage; the others in both editions.
fn samples() -> Vec<Sample> {
    let newer = [
        (whole(), 0, 0, whole().len()),
        (whole()[..PROPERTIES + 2].to_vec(), 1, 1, 0),
        (followed(&whole(), &[0xC5; 5]), 16, 0, whole().len()),
        (with_count(LIGHTS, 1000), 17, 0, LIGHTS),
    ];
    let mut samples = vec![Sample { file: vec![0x41; 99], strict: 2, lenient: 2, left: 0 }];
    for (file, strict, lenient, left) in newer {
        samples.push(Sample { file: as_older(&file), strict, lenient, left: left.saturating_sub(10) });
        samples.push(Sample { file, strict, lenient, left });
    }
    samples
}

/// The number of every call that joins, in a manner; what a refused one is lent stays as it was.
fn joining(manner: Manner, first: &[u8], second: &[u8]) -> u32 {
    let refused = number(manner.join(first, second));
    assert_eq!(number(manner.join_size(first, second)), refused);
    for (room, expected) in [(0, if refused == 0 { 13 } else { refused }), (first.len() + second.len() + 100, refused)] {
        let mut out = vec![0xA5; room];
        assert_eq!(number(manner.join_into(first, second, &mut out)), expected);
        assert!(expected == 0 || out == vec![0xA5; room], "a refused call has written");
    }
    refused
}

/// The first file's refusal comes first, whatever the second's is. In the lenient manner a join is that of what is read.
#[test]
fn joins_of_damaged_takes() {
    let met_first = |first: u32, second: u32| if first == 0 { second } else { first };
    for first in &samples() {
        for second in &samples() {
            let strict = joining(Manner::Strict, &first.file, &second.file);
            assert_eq!(strict, met_first(first.strict, second.strict));
            let lenient = joining(Manner::Lenient, &first.file, &second.file);
            assert_eq!(lenient, met_first(first.lenient, second.lenient));
            if lenient == 0 {
                let joined = Manner::Lenient.join(&first.file, &second.file);
                assert_eq!(joined, Manner::Strict.join(&first.file[..first.left], &second.file[..second.left]));
            }
        }
    }
}

/// 16 and 17 come before 15, which is of what is read.
#[test]
fn damaged_takes_with_a_long_model_name() {
    for (mut file, expected) in [(followed(&whole(), &[0]), 16), (with_count(CAMERAS, 1000), 17)] {
        file[30..41].fill(b'n');
        let [strict, lenient] = BOTH.map(|manner| {
            let mut out = vec![0xA5; 600];
            let numbers = [
                number(manner.export_older(&file)),
                number(manner.export_older_size(&file)),
                number(manner.export_older_into(&file, &mut out)),
                number(manner.export_older_into(&file, &mut [])),
            ];
            assert!(out == vec![0xA5; 600], "a refused call has written");
            numbers
        });
        assert_eq!((strict, lenient), ([expected; 4], [15; 4]));
    }
}

// ---- calls without a named manner

/// What a call gives that is lent an output, and what that holds.
fn lent<T>(call: impl FnOnce(&mut [u8]) -> T) -> (T, Vec<u8>) {
    let mut out = vec![0xA5; 2000];
    (call(&mut out), out)
}

/// They are strict.
#[test]
fn calls_without_a_named_manner() {
    let strict = Manner::Strict;
    assert_eq!(Manner::default(), strict);
    for Sample { file, strict: expected, .. } in &samples() {
        let opened = |take: Take| (take.manner(), take.parts());
        assert_eq!(number(Take::open(file)), *expected);
        assert_eq!(Take::open(file).map(opened), strict.open(file).map(opened));
        assert_eq!(vmd::export(file), strict.export(file));
        assert_eq!(vmd::export_size(file), strict.export_size(file));
        assert_eq!(lent(|out| vmd::export_into(file, out)), lent(|out| strict.export_into(file, out)));
        assert_eq!(vmd::export_older(file), strict.export_older(file));
        assert_eq!(vmd::export_older_size(file), strict.export_older_size(file));
        assert_eq!(lent(|out| vmd::export_older_into(file, out)), lent(|out| strict.export_older_into(file, out)));
        for [first, second] in [[file, &other()], [&other(), file]] {
            assert_eq!(vmd::join(first, second), strict.join(first, second));
            assert_eq!(vmd::join_size(first, second), strict.join_size(first, second));
            assert_eq!(lent(|out| vmd::join_into(first, second, out)), lent(|out| strict.join_into(first, second, out)));
        }
        assert_eq!(vmd::tidy(file), strict.tidy(file));
        assert_eq!(vmd::tidy_size(file, &mut [7; 99]), strict.tidy_size(file, &mut [7; 99]));
        assert_eq!(
            lent(|out| vmd::tidy_into(file, &mut [7; 99], out)),
            lent(|out| strict.tidy_into(file, &mut [7; 99], out))
        );
        let [first, last] = FRAMES;
        assert_eq!(vmd::excerpt(file, first, last), strict.excerpt(file, first, last));
        assert_eq!(vmd::excerpt_size(file, first, last), strict.excerpt_size(file, first, last));
        assert_eq!(
            lent(|out| vmd::excerpt_into(file, first, last, out)),
            lent(|out| strict.excerpt_into(file, first, last, out))
        );
        assert_eq!(vmd::is_canonical(file), strict.is_canonical(file));
        assert_eq!(vmd::first_change(file), strict.first_change(file));
        assert_eq!(vmd::split_sizes(file), strict.split_sizes(file));
        let mut memory = [(); 2].map(|()| Take::open(whole()).unwrap().parts().unwrap());
        let [of_plain, of_strict] = &mut memory;
        of_plain.bone_frames.fill(7);
        of_strict.bone_frames.fill(7);
        assert_eq!(vmd::split_into(file, of_plain.as_parts_mut()), strict.split_into(file, of_strict.as_parts_mut()));
        assert_eq!(of_plain, of_strict);
    }
}

/// A season has the lenient manner alone.
#[test]
fn seasons_of_damaged_takes() {
    let mut season = Season::new();
    for Sample { file, lenient, .. } in &samples() {
        assert_eq!(season.add(file), *lenient == 0);
    }
    assert!(season.add(&counts(&[0, 0, 1])));
    assert_eq!((season.accepted, season.refused), (7, 3));
    assert_eq!((season.bones.total, season.cameras.total, season.lights.total, season.properties.total), (12, 6, 4, 4));
}
