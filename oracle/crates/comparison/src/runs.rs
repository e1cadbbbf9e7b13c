//! The runs: fixed inputs first, then N random ones from a seed.

use crate::excerpt::ExcerptCheck;
use crate::files::FileCheck;
use crate::joins::JoinCheck;
use crate::name_test::NameTally;
use crate::parts::PartsCheck;
use crate::tally::{Answers, Tally};
use crate::tidy::TidyCheck;
use oracle::crowded;
use oracle::files::{self, file_kind, file_of, FileKind, FILE_KINDS};
use oracle::named::{self, FEW_NAMES};
use oracle::names::{self, is_lead, pair_of, BYTE_ORDER_MARKS, POINTERS};
use oracle::older::{self, narrowed, of_either_edition};
use oracle::original;
use oracle::part_sets::{self, set_kind, set_of, SetKind, FAULTS, PLACES, SET_KINDS};
use oracle::parts::Parts;
use oracle::properties::{self, UP_TO_70};
use oracle::random::Random;
use oracle::remarks::{self, OLDER_REMARKS, REMARKS, SPELLED_OTHERWISE};
use oracle::spans;
use oracle::turned_down::{self, turned_down};

/// Random inputs of each run come from streams of their own.
const FILES: u64 = 1 << 60;
const JOINS: u64 = 2 << 60;
const PARTS: u64 = 3 << 60;
const NAMES: u64 = 4 << 60;
const FIXED: u64 = 5 << 60;
const NAMED: u64 = 6 << 60;
const OLDER: u64 = 7 << 60;
const OLDER_JOINS: u64 = 8 << 60;
const PROPERTIES: u64 = 9 << 60;
const OLDER_PROPERTIES: u64 = 10 << 60;
const CROWDED: u64 = 11 << 60;
const TURNED_DOWN: u64 = 12 << 60;
const OLDER_TURNED_DOWN: u64 = 13 << 60;
const TURNED_DOWN_JOINS: u64 = 14 << 60;
const EXCERPTS: u64 = 15 << 60;
const WITH_REMARKS: u64 = 31 << 59;

fn hex(bytes: &[u8]) -> String {
    bytes.iter().map(|byte| format!("{byte:02x}")).collect()
}

// ---- files

const DOCUMENT_01: &str = "document 01's takes";
const EVERY_PREFIX: &str = "every prefix of a take of six sections";
const EVERY_CHANGE: &str = "every change of one byte of a take";
const LARGE_COUNTS: &str = "counts that do not fit";
const MANY_NAMES: &str = "thousands of names";
const FRAME_NUMBERS: &str = "0 to 70 property frames each, and thousands";
const OVER_OR_OVERSIZED: &str = "bytes over and oversized counts, every cut";

/// A file in a report; a long one by its length alone.
fn shown_file(file: &[u8]) -> String {
    if file.len() < 10_000 {
        hex(file)
    } else {
        format!("{} bytes", file.len())
    }
}

pub fn files(cases: u64, seed: u64) -> (Tally, FileCheck) {
    let fixed = [DOCUMENT_01, EVERY_PREFIX, EVERY_CHANGE, LARGE_COUNTS, MANY_NAMES, FRAME_NUMBERS, OVER_OR_OVERSIZED];
    let drawn = FILE_KINDS.map(FileKind::label).into_iter().chain([FEW_NAMES, UP_TO_70]).chain(turned_down::KINDS);
    let labels: Vec<&str> = fixed.into_iter().chain(drawn).collect();
    let title = "Files: opening, records, names, export, parts, season figures, tidying, excerpts";
    let (mut tally, mut check) = (Tally::new(title, &labels), FileCheck::new(seed));
    for (label, file) in fixed_files(seed) {
        tally.count(label, check.check(&file), || shown_file(&file));
    }
    for case in 0..cases {
        let mut random = Random::for_case(seed, FILES + case);
        let kind = file_kind(&mut random);
        let file = file_of(kind, &mut random);
        tally.count(kind.label(), check.check(&file), || format!("random file {case}: {}", shown_file(&file)));
    }
    for case in 0..cases / 10 {
        let file = named::few_names(&mut Random::for_case(seed, NAMED + case));
        tally.count(FEW_NAMES, check.check(&file), || format!("random names {case}: {}", hex(&file)));
    }
    for case in 0..cases / 20 {
        let file = properties::up_to_70(&mut Random::for_case(seed, PROPERTIES + case));
        tally.count(UP_TO_70, check.check(&file), || format!("random properties {case}: {}", shown_file(&file)));
    }
    for case in 0..cases / 20 {
        let (label, file) = turned_down(&mut Random::for_case(seed, TURNED_DOWN + case));
        tally.count(label, check.check(&file), || format!("random file {case} to turn down: {}", hex(&file)));
    }
    (tally, check)
}

fn fixed_files(seed: u64) -> impl Iterator<Item = (&'static str, Vec<u8>)> {
    let mut random = Random::for_case(seed, FIXED);
    let whole = files::full_pieces(2, &mut random).file();
    let small = files::full_pieces(1, &mut random).file();
    let labelled = |label: &'static str, files: Vec<Vec<u8>>| files.into_iter().map(move |file| (label, file));
    labelled(DOCUMENT_01, files::takes_of_document_01())
        .chain(labelled(EVERY_PREFIX, files::prefixes(&whole).collect()))
        .chain(labelled(EVERY_CHANGE, files::single_byte_changes(&small).collect()))
        .chain(labelled(LARGE_COUNTS, files::large_counts()))
        .chain(labelled(MANY_NAMES, named::many_names(&mut random)))
        .chain(labelled(FRAME_NUMBERS, properties::every_number(&mut random)))
        .chain(labelled(OVER_OR_OVERSIZED, turned_down::fixed(&mut Random::for_case(seed, FIXED + 4))))
}

// ---- older files

const BARE_LENGTHS: &str = "the older magic and zeros, of every length";
const EVERY_OLDER_PREFIX: &str = "every prefix of an older take";
const EVERY_HEADER_CHANGE: &str = "every change of one byte of the header";
const MIXED_MAGICS: &str = "mixtures of both magics";

/// Bytes of an older header and the bone count after it.
const OLDER_HEAD: usize = 44;

pub fn older_files(cases: u64, seed: u64) -> (Tally, FileCheck) {
    let fixed = [
        BARE_LENGTHS,
        DOCUMENT_01,
        EVERY_OLDER_PREFIX,
        EVERY_HEADER_CHANGE,
        MIXED_MAGICS,
        LARGE_COUNTS,
        FRAME_NUMBERS,
        OVER_OR_OVERSIZED,
    ];
    let of_header = [older::HEADER_CUT, older::HEADER_OTHER, FEW_NAMES, UP_TO_70];
    let drawn = FILE_KINDS.map(FileKind::label).into_iter().chain(of_header).chain(turned_down::KINDS);
    let labels: Vec<&str> = fixed.into_iter().chain(drawn).collect();
    let title =
        "Older files, widened for the original: opening, records, names, export, parts, season figures, tidying, excerpts";
    let (mut tally, mut check) = (Tally::new(title, &labels), FileCheck::new(seed));
    for (label, file) in fixed_older_files(seed) {
        tally.count(label, check.check(&file), || shown_file(&file));
    }
    for case in 0..cases {
        let (label, file) = older::older_file(&mut Random::for_case(seed, OLDER + case));
        tally.count(label, check.check(&file), || format!("random older file {case}: {}", shown_file(&file)));
    }
    for case in 0..cases / 20 {
        let file = narrowed(&properties::up_to_70(&mut Random::for_case(seed, OLDER_PROPERTIES + case)));
        tally.count(UP_TO_70, check.check(&file), || format!("random older properties {case}: {}", shown_file(&file)));
    }
    for case in 0..cases / 20 {
        let (label, file) = turned_down(&mut Random::for_case(seed, OLDER_TURNED_DOWN + case));
        let file = narrowed(&file);
        tally.count(label, check.check(&file), || format!("random older file {case} to turn down: {}", hex(&file)));
    }
    (tally, check)
}

fn fixed_older_files(seed: u64) -> impl Iterator<Item = (&'static str, Vec<u8>)> {
    let mut random = Random::for_case(seed, FIXED + 2);
    let whole = narrowed(&files::full_pieces(2, &mut random).file());
    let small = narrowed(&files::full_pieces(1, &mut random).file());
    let narrow = |files: Vec<Vec<u8>>| files.iter().map(|file| narrowed(file)).collect::<Vec<_>>();
    let changes = files::single_byte_changes(&small[..OLDER_HEAD]).map(|head| [&head, &small[OLDER_HEAD..]].concat());
    let labelled = |label: &'static str, files: Vec<Vec<u8>>| files.into_iter().map(move |file| (label, file));
    labelled(BARE_LENGTHS, older::bare_lengths())
        .chain(labelled(DOCUMENT_01, narrow(files::takes_of_document_01())))
        .chain(labelled(EVERY_OLDER_PREFIX, files::prefixes(&whole).collect()))
        .chain(labelled(EVERY_HEADER_CHANGE, changes.collect()))
        .chain(labelled(MIXED_MAGICS, older::mixed_magics(&small)))
        .chain(labelled(LARGE_COUNTS, narrow(files::large_counts())))
        .chain(labelled(FRAME_NUMBERS, narrow(properties::every_number(&mut random))))
        .chain(labelled(OVER_OR_OVERSIZED, narrow(turned_down::fixed(&mut Random::for_case(seed, FIXED + 5)))))
}

// ---- joins

const EACH_WITH_EACH: &str = "document 01's takes, each with each";
const TWO_WHOLE: &str = "two whole takes";
const WITH_ITSELF: &str = "a take with itself";
const WITH_EMPTY: &str = "a take with the empty take";
const ANY_TWO: &str = "any two files";

pub fn joins(cases: u64, seed: u64) -> (Tally, JoinCheck) {
    let labels = [EACH_WITH_EACH, TWO_WHOLE, WITH_ITSELF, WITH_EMPTY, ANY_TWO];
    let title = "Joins: expected from the original's export of the concatenated records";
    let (mut tally, mut check) = (Tally::new(title, &labels), JoinCheck::default());
    for (first, second) in each_with_each(&files::takes_of_document_01()) {
        tally.count(EACH_WITH_EACH, check.check(first, second), || format!("{} and {}", hex(first), hex(second)));
    }
    for case in 0..cases {
        let mut random = Random::for_case(seed, JOINS + case);
        let (label, first, second) = pair(&mut random);
        tally.count(label, check.check(&first, &second), || format!("random join {case}: {} and {}", hex(&first), hex(&second)));
    }
    (tally, check)
}

fn each_with_each(files: &[Vec<u8>]) -> impl Iterator<Item = (&Vec<u8>, &Vec<u8>)> {
    files.iter().flat_map(move |first| files.iter().map(move |second| (first, second)))
}

/// Which of the two is older.
const MIXTURES: [(&str, [bool; 2]); 3] = [
    ("an older file and a newer one", [true, false]),
    ("a newer file and an older one", [false, true]),
    ("two older files", [true, true]),
];

pub fn older_joins(cases: u64, seed: u64) -> (Tally, JoinCheck) {
    let title = "Joins with older files, widened for the original";
    let (mut tally, mut check) = (Tally::new(title, &MIXTURES.map(|(label, _)| label)), JoinCheck::default());
    let mut count = |(label, older): (&str, [bool; 2]), first: &[u8], second: &[u8], case: &str| {
        let edition = |older: bool, file: &[u8]| if older { narrowed(file) } else { file.to_vec() };
        let (first, second) = (edition(older[0], first), edition(older[1], second));
        tally.count(label, check.check(&first, &second), || format!("{case}{} and {}", hex(&first), hex(&second)));
    };
    let mut fixed = files::takes_of_document_01();
    fixed.push(files::Pieces::empty().header[..35].to_vec()); // a header that is cut, in both editions
    for mixture in MIXTURES {
        for (first, second) in each_with_each(&fixed) {
            count(mixture, first, second, "");
        }
    }
    for case in 0..cases {
        let mut random = Random::for_case(seed, OLDER_JOINS + case);
        let (_, first, second) = pair(&mut random);
        count(random.pick(&MIXTURES), &first, &second, &format!("random join {case} with an older file: "));
    }
    (tally, check)
}

type Draw = fn(&mut Random) -> Vec<u8>;

/// What the two files are drawn from.
const TURNED_DOWN_PAIRS: [(&str, [Draw; 2]); 5] = [
    ("one to turn down, and a whole take", [to_turn_down, whole]),
    ("a whole take, and one to turn down", [whole, to_turn_down]),
    ("two to turn down", [to_turn_down, to_turn_down]),
    ("one to turn down, and one that is cut", [to_turn_down, cut]),
    ("one that is cut, and one to turn down", [cut, to_turn_down]),
];

fn to_turn_down(random: &mut Random) -> Vec<u8> {
    turned_down(random).1
}

fn whole(random: &mut Random) -> Vec<u8> {
    file_of(FileKind::Whole, random)
}

fn cut(random: &mut Random) -> Vec<u8> {
    file_of(FileKind::Cut, random)
}

/// Of either edition each.
pub fn turned_down_joins(cases: u64, seed: u64) -> (Tally, JoinCheck) {
    const EACH: &str = "a small file of each answer, each with each";
    let labels: Vec<&str> = [EACH].into_iter().chain(TURNED_DOWN_PAIRS.map(|(label, _)| label)).collect();
    let title = "Joins of files that the strict manner turns down, of both editions";
    let (mut tally, mut check) = (Tally::new(title, &labels), JoinCheck::default());
    for (first, second) in each_with_each(&turned_down::each_answer()) {
        tally.count(EACH, check.check(first, second), || format!("{} and {}", hex(first), hex(second)));
    }
    for case in 0..cases {
        let mut random = Random::for_case(seed, TURNED_DOWN_JOINS + case);
        let (label, draws) = random.pick(&TURNED_DOWN_PAIRS);
        let [first, second] = draws.map(|draw| of_either_edition(draw(&mut random), &mut random));
        let shown = || format!("random join {case} to turn down: {} and {}", hex(&first), hex(&second));
        tally.count(label, check.check(&first, &second), shown);
    }
    (tally, check)
}

fn pair(random: &mut Random) -> (&'static str, Vec<u8>, Vec<u8>) {
    match random.below(4) {
        0 => {
            let kind = file_kind(random);
            (ANY_TWO, file_of(kind, random), file_of(file_kind(random), random))
        }
        1 => {
            let file = files::pieces(2, random).file();
            (WITH_ITSELF, file.clone(), file)
        }
        2 => {
            let (empty, file) = (files::Pieces::empty().first_sections(1), files::pieces(2, random).file());
            if random.one_in(2) {
                (WITH_EMPTY, file, empty)
            } else {
                (WITH_EMPTY, empty, file)
            }
        }
        _ => (TWO_WHOLE, files::pieces(3, random).file(), files::pieces(3, random).file()),
    }
}

// ---- tidying

const MANY_RECORDS: &str = "thousands of records";

pub fn tidying(cases: u64, seed: u64) -> (Tally, TidyCheck) {
    let labels = [MANY_RECORDS, crowded::CROWDED, crowded::OLDER_CROWDED, crowded::JOINED, crowded::DAMAGED];
    let title = "Tidying: expected from the original's last keys per frame, track by track";
    let (mut tally, mut check) = (Tally::new(title, &labels), TidyCheck::default());
    for file in crowded::many_records(&mut Random::for_case(seed, FIXED + 3)) {
        tally.count(MANY_RECORDS, check.check_file(&file), || shown_file(&file));
    }
    for case in 0..cases {
        let (label, file) = crowded::crowded_file(&mut Random::for_case(seed, CROWDED + case));
        tally.count(label, check.check_file(&file), || format!("random take {case} to tidy: {}", shown_file(&file)));
    }
    (tally, check)
}

// ---- remarks

const EACH_PLACE: &str = "each place of a line feed and of lookalikes";
const MANY_REMARKS: &str = "thousands of records with remarks";

/// Files through every call, and each tidied with every scratch and output.
pub struct RemarkCheck {
    pub files: FileCheck,
    pub tidying: TidyCheck,
}

impl RemarkCheck {
    fn check(&mut self, file: &[u8]) -> Result<Answers, String> {
        self.files.check(file)?;
        self.tidying.check_file(file)
    }

    /// Two takes, and their join.
    fn check_joined(&mut self, takes: [&[u8]; 2]) -> Result<Answers, String> {
        let joined = original::join_files(takes[0], takes[1]).expect("whole takes are joined");
        for file in [takes[0], takes[1], &joined] {
            self.files.check(file)?;
        }
        self.tidying.check_joined(takes)
    }
}

pub fn with_remarks(cases: u64, seed: u64) -> (Tally, RemarkCheck) {
    let labels = [EACH_PLACE, MANY_REMARKS, REMARKS, OLDER_REMARKS, SPELLED_OTHERWISE];
    let title = "Takes with remarks: tracks told by what the original registers of a name, parts by the whole name";
    let mut tally = Tally::new(title, &labels);
    let mut check = RemarkCheck { files: FileCheck::new(seed), tidying: TidyCheck::default() };
    let mut random = Random::for_case(seed, FIXED + 7);
    let places = remarks::each_place(&mut random).into_iter().map(|file| (EACH_PLACE, file));
    let many = remarks::many_with_remarks(&mut random).into_iter().map(|file| (MANY_REMARKS, file));
    for (label, file) in places.chain(many) {
        tally.count(label, check.check(&file), || shown_file(&file));
    }
    for case in 0..cases {
        let (label, take, joined_with) = remarks::with_remarks(&mut Random::for_case(seed, WITH_REMARKS + case));
        let checked = match &joined_with {
            Some(second) => check.check_joined([&take, second]),
            None => check.check(&take),
        };
        let second = || joined_with.iter().map(|second| format!(" and {}", hex(second))).collect::<String>();
        tally.count(label, checked, || format!("random take {case} with remarks: {}{}", hex(&take), second()));
    }
    (tally, check)
}

// ---- excerpts

const EACH_EDGE: &str = "from each edge to each, both editions";
const EACH_ANSWER: &str = "the same of a small file of each answer";
const OF_JOINS: &str = "of a join, and the join of excerpts";

pub fn excerpts(cases: u64, seed: u64) -> (Tally, ExcerptCheck) {
    let crowded = [crowded::CROWDED, crowded::OLDER_CROWDED, crowded::JOINED, crowded::DAMAGED];
    let labels: Vec<&str> = [EACH_EDGE, EACH_ANSWER].into_iter().chain(crowded).chain([spans::TO_TURN_DOWN, OF_JOINS]).collect();
    let title = "Excerpts: expected from the original's export of the records between the two frames";
    let (mut tally, mut check) = (Tally::new(title, &labels), ExcerptCheck::default());
    let edges = spans::takes_with_edges(&mut Random::for_case(seed, FIXED + 6)).map(|file| (EACH_EDGE, file));
    for (label, file) in edges.into_iter().chain(turned_down::each_answer().into_iter().map(|file| (EACH_ANSWER, file))) {
        for span in spans::spans_of_edges() {
            tally.count(label, check.check_file(&file, |_| span), || hex(&file));
        }
    }
    for case in 0..cases {
        let mut random = Random::for_case(seed, EXCERPTS + case);
        if random.one_in(8) {
            let [first, second] = [0; 2].map(|_| of_either_edition(whole(&mut random), &mut random));
            let checked = check.check_joined([&first, &second], |frames| spans::span(frames, &mut random));
            tally.count(OF_JOINS, checked, || format!("random excerpt {case}: {} and {}", hex(&first), hex(&second)));
        } else {
            let (label, file) = spans::file_to_excerpt(&mut random);
            let checked = check.check_file(&file, |frames| spans::span(frames, &mut random));
            tally.count(label, checked, || format!("random excerpt {case}: {}", hex(&file)));
        }
    }
    (tally, check)
}

// ---- parts

const NO_PARTS: &str = "no parts";
const EACH_FAULT: &str = "each fault alone";
const EACH_WITH_ANOTHER: &str = "each fault with each";
const NO_CHARACTER: &str = "each fault with a pair without a character";
const EACH_PAIR: &str = "each lead and trail, as a name";

pub fn parts(cases: u64, seed: u64) -> (Tally, PartsCheck) {
    let fixed = [NO_PARTS, EACH_FAULT, EACH_WITH_ANOTHER, NO_CHARACTER, EACH_PAIR];
    let labels: Vec<&str> = fixed.into_iter().chain(SET_KINDS.map(SetKind::label)).collect();
    let (mut tally, mut check) = (Tally::new("Parts: building", &labels), PartsCheck::default());
    for (label, set) in fixed_sets(seed) {
        tally.count(label, check.check(&set), || shown(&set));
    }
    for case in 0..cases {
        let mut random = Random::for_case(seed, PARTS + case);
        let kind = set_kind(&mut random);
        let set = set_of(kind, &mut random);
        tally.count(kind.label(), check.check(&set), || format!("random set {case}: {}", shown(&set)));
    }
    (tally, check)
}

fn fixed_sets(seed: u64) -> impl Iterator<Item = (&'static str, Parts)> {
    let mut random = Random::for_case(seed, FIXED + 1);
    let mut sets = vec![(NO_PARTS, Parts::default())];
    for fault in FAULTS {
        sets.extend((0..8).map(|_| (EACH_FAULT, part_sets::with(&[fault], &mut random))));
    }
    for first in FAULTS {
        for second in FAULTS {
            sets.extend((0..4).map(|_| (EACH_WITH_ANOTHER, part_sets::with(&[first, second], &mut random))));
        }
    }
    for (fault, place) in FAULTS.into_iter().flat_map(|fault| PLACES.map(|place| (fault, place))) {
        let name = names::name_without_character(place.width(), &mut random);
        let mut set = part_sets::with(&[fault], &mut random);
        part_sets::add_name(&mut set, place, &name, &mut random);
        sets.push((NO_CHARACTER, set));
    }
    for (pointer, place) in (0..POINTERS).flat_map(|pointer| PLACES.map(|place| (pointer, place))) {
        let mut set = Parts::default();
        part_sets::add_name(&mut set, place, &pair_of(pointer), &mut random);
        sets.push((EACH_PAIR, set));
    }
    sets.into_iter()
}

fn shown(p: &Parts) -> String {
    let floats = |column: &[f32]| column.iter().map(|value| format!("{:08x} ", value.to_bits())).collect::<String>();
    format!(
        "model {} bone names {} {:?} morph names {} {:?} cameras {} lights {} self-shadows {} properties {} bones {:?} {:?} {}/ {}/ {} morphs {:?} {:?} {}",
        hex(&p.model_name), hex(&p.bone_name_bytes), p.bone_name_ends, hex(&p.morph_name_bytes), p.morph_name_ends,
        hex(&p.camera_frames), hex(&p.light_frames), hex(&p.self_shadow_frames), hex(&p.property_frames),
        p.bone_name_indices, p.bone_frames, floats(&p.bone_translations_xyz), floats(&p.bone_rotations_xyzw), hex(&p.bone_interpolations),
        p.morph_name_indices, p.morph_frames, floats(&p.morph_weights),
    )
}

// ---- names

const SHORT: &str = "every name of up to two bytes";
const MARKED: &str = "byte order marks and one byte more";
const RANDOM: &str = "random names of up to 20 bytes";
const TRIPLES: &str = "every three bytes with a lead in the middle";

/// What was found among the names of each label.
pub type NameTallies = Vec<(&'static str, NameTally)>;

fn count_names(tally: &mut Tally, label: &'static str, names: impl Iterator<Item = Vec<u8>>) -> (&'static str, NameTally) {
    let mut found = NameTally::default();
    for name in names {
        tally.count(label, found.check(&name), || hex(&name));
    }
    (label, found)
}

pub fn names(cases: u64, seed: u64) -> (Tally, NameTallies) {
    let mut tally = Tally::new("Names: the test of a name's bytes", &[]);
    let random = (0..cases).map(|case| random_name(&mut Random::for_case(seed, NAMES + case)));
    let tallies = vec![
        count_names(&mut tally, SHORT, short_names()),
        count_names(&mut tally, MARKED, marked_names()),
        count_names(&mut tally, RANDOM, random),
    ];
    (tally, tallies)
}

/// Apart from the others, since there are 3,932,160.
pub fn triples() -> (Tally, NameTallies) {
    let mut tally = Tally::new("Names of three bytes", &[]);
    let leads = || bytes().filter(|&b| is_lead(b));
    let triples = bytes().flat_map(move |a| leads().flat_map(move |b| bytes().map(move |c| vec![a, b, c])));
    let tallies = vec![count_names(&mut tally, TRIPLES, triples)];
    (tally, tallies)
}

fn bytes() -> impl Iterator<Item = u8> {
    0..=255
}

fn short_names() -> impl Iterator<Item = Vec<u8>> {
    let two = bytes().flat_map(|a| bytes().map(move |b| vec![a, b]));
    std::iter::once(Vec::new()).chain(bytes().map(|a| vec![a])).chain(two)
}

/// The marks, and with one byte more of every value; the first also with 0xBD and one byte more.
fn marked_names() -> impl Iterator<Item = Vec<u8>> {
    let marks = || BYTE_ORDER_MARKS.into_iter().map(<[u8]>::to_vec);
    let heads = marks().chain([vec![0xef, 0xbb, 0xbf, 0xbd]]);
    marks().chain(heads.flat_map(|head| bytes().map(move |b| [&head[..], &[b]].concat())))
}

fn random_name(random: &mut Random) -> Vec<u8> {
    match random.below(4) {
        0 => names::good_name(random.below(21), random),
        1 => names::bad_name(20, random),
        2 => names::marked_or_without_character(20, random),
        _ => (0..random.below(8)).map(|_| 1 + random.below(255) as u8).collect(),
    }
}
