//! Name bytes: the test of document 01 and request h), where the original's decoding library stops, and names to try.

use crate::random::Random;
use encoding_rs::{DecoderResult, SHIFT_JIS};
use std::ops::RangeInclusive;
use std::sync::OnceLock;

// ---- the test, which asks no decoder

/// "its pointer .. is in the jis0208 index": the index's pointers, the first and the last of each run.
pub const RUNS: [(usize, usize); 24] = [
    (0, 107),
    (119, 126),
    (135, 141),
    (153, 167),
    (175, 182),
    (187, 187),
    (203, 212),
    (220, 245),
    (252, 277),
    (282, 364),
    (376, 461),
    (470, 493),
    (502, 525),
    (564, 596),
    (612, 644),
    (658, 689),
    (1128, 1157),
    (1159, 1181),
    (1190, 1219),
    (1410, 4374),
    (4418, 7807),
    (8272, 8631),
    (8634, 8647),
    (10716, 11103),
];

/// "or lies in 8836 to 10715".
pub const BESIDE_THE_INDEX: RangeInclusive<usize> = 8836..=10715;

/// One for each pair of a lead and a trail.
pub const POINTERS: usize = 11_280;

pub fn is_lead(byte: u8) -> bool {
    matches!(byte, 0x81..=0x9f | 0xe0..=0xfc)
}

pub fn is_trail(byte: u8) -> bool {
    matches!(byte, 0x40..=0x7e | 0x80..=0xfc)
}

fn is_single(byte: u8) -> bool {
    matches!(byte, 0x00..=0x80 | 0xa1..=0xdf)
}

/// "as WHATWG computes it", of a lead and a trail.
pub fn pointer(lead: u8, trail: u8) -> usize {
    let lead = usize::from(lead) - if lead < 0xe0 { 0x81 } else { 0xc1 };
    let trail = usize::from(trail) - if trail < 0x80 { 0x40 } else { 0x41 };
    188 * lead + trail
}

/// The pair with this pointer.
pub fn pair_of(pointer: usize) -> [u8; 2] {
    let (lead, trail) = ((pointer / 188) as u8, (pointer % 188) as u8);
    [lead + if lead < 0x1f { 0x81 } else { 0xc1 }, trail + if trail < 0x3f { 0x40 } else { 0x41 }]
}

/// "A pair now needs one", a character.
pub fn has_character(pointer: usize) -> bool {
    RUNS.iter().any(|&(first, last)| (first..=last).contains(&pointer)) || BESIDE_THE_INDEX.contains(&pointer)
}

/// How many bytes the good single byte or the good pair at the front has, 0 where there is neither.
fn unit(name: &[u8], is_good_pair: impl Fn(usize) -> bool) -> usize {
    match name {
        [a, ..] if is_single(*a) => 1,
        [a, b, ..] if is_lead(*a) && is_trail(*b) && is_good_pair(pointer(*a, *b)) => 2,
        _ => 0,
    }
}

/// The place of the first byte that starts neither a good single byte nor a good pair, or the length.
pub fn first_fault(name: &[u8]) -> usize {
    first_fault_with(name, has_character)
}

/// The same for another choice of good pairs, by their pointers.
pub fn first_fault_with(name: &[u8], is_good_pair: impl Fn(usize) -> bool) -> usize {
    let mut at = 0;
    loop {
        match unit(&name[at..], &is_good_pair) {
            0 => return at,
            n => at += n,
        }
    }
}

// ---- the original's decoding library

/// Where it stops, asked without its look for a byte order mark: where the first sequence that it finds malformed begins, or the
/// length.
pub fn decoder_stops(name: &[u8]) -> usize {
    let mut decoder = SHIFT_JIS.new_decoder_without_bom_handling();
    let mut text = vec![0; decoder.max_utf8_buffer_length_without_replacement(name.len()).expect("a short name")];
    let (result, read, _) = decoder.decode_to_utf8_without_replacement(name, &mut text, true);
    match result {
        DecoderResult::InputEmpty => name.len(),
        DecoderResult::Malformed(bytes, after) => read - usize::from(bytes) - usize::from(after),
        DecoderResult::OutputFull => unreachable!("the buffer is as long as the decoder asks"),
    }
}

// ---- byte order marks

/// A name that starts with one lies outside the domain: the decoding library reads it by the mark.
pub const BYTE_ORDER_MARKS: [&[u8]; 3] = [&[0xef, 0xbb, 0xbf], &[0xfe, 0xff], &[0xff, 0xfe]];

pub fn mark_of(name: &[u8]) -> Option<&'static [u8]> {
    BYTE_ORDER_MARKS.into_iter().find(|mark| name.starts_with(mark))
}

/// For a name that starts with a mark, none of which is good: one of the same length, with the same zero bytes, that is not good
/// to the original either.
pub fn like_inside(name: &[u8]) -> Vec<u8> {
    assert_eq!(first_fault(name), 0, "a byte order mark is not good");
    name.iter().map(|&b| if b == 0 { 0 } else { 0xa0 }).collect()
}

// ---- names to try

struct Pairs {
    with_character: Vec<[u8; 2]>,
    without_character: Vec<[u8; 2]>,
}

fn pairs() -> &'static Pairs {
    static PAIRS: OnceLock<Pairs> = OnceLock::new();
    PAIRS.get_or_init(|| {
        let (with, without): (Vec<_>, Vec<_>) = (0..POINTERS).partition(|&pointer| has_character(pointer));
        let pairs_of = |pointers: Vec<usize>| pointers.into_iter().map(pair_of).collect();
        Pairs { with_character: pairs_of(with), without_character: pairs_of(without) }
    })
}

fn push_good_unit(name: &mut Vec<u8>, room: usize, random: &mut Random) {
    match random.below(4) {
        0 | 1 if room >= 2 => name.extend_from_slice(&random.pick(&pairs().with_character)),
        2 => name.push(0xa1 + random.below(0x3f) as u8),
        3 => name.push(1 + random.below(0x80) as u8),
        _ => name.push(b'A' + random.below(26) as u8),
    }
}

/// Bytes that fail document 01's test wherever they stand last.
const FAULTS: [&[u8]; 9] = [&[0x83], &[0xfc], &[0x81], &[0xa0], &[0xfd], &[0xff], &[0x83, 0x7f], &[0x81, 0x3f], &[0xe0, 0xfd]];

/// A good name, with no zero byte, of this many bytes.
pub fn good_name(len: usize, random: &mut Random) -> Vec<u8> {
    let mut name = Vec::with_capacity(len);
    while name.len() < len {
        let room = len - name.len();
        push_good_unit(&mut name, room, random);
    }
    name
}

/// A name with bytes that are no pair, of at most this many bytes, which are at least 2.
pub fn bad_name(most: usize, random: &mut Random) -> Vec<u8> {
    let fault = random.pick(&FAULTS);
    let mut name = good_name(random.below(most - fault.len() + 1), random);
    name.extend_from_slice(fault);
    name
}

/// A name with a pair that has no character, which is its one fault, of at most this many bytes, which are at least 2.
pub fn name_without_character(most: usize, random: &mut Random) -> Vec<u8> {
    let mut name = good_name(random.below(most - 1), random);
    name.extend_from_slice(&random.pick(&pairs().without_character));
    let rest = random.below(most - name.len() + 1);
    name.extend(good_name(rest, random));
    name
}

/// A name that starts with a byte order mark, of at most this many bytes, which are at least 3.
pub fn marked_name(most: usize, random: &mut Random) -> Vec<u8> {
    let mark = random.pick(&BYTE_ORDER_MARKS);
    let mut name = mark.to_vec();
    name.extend(good_name(random.below(most - mark.len() + 1), random));
    name
}

/// One of the last two.
pub fn marked_or_without_character(most: usize, random: &mut Random) -> Vec<u8> {
    if random.one_in(3) {
        marked_name(most, random)
    } else {
        name_without_character(most, random)
    }
}
