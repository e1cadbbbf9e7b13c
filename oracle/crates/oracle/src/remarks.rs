//! Takes whose names have remarks after a line feed (02 k), and names that look so: as they are, of the older edition, and
//! joined with a take that spells them otherwise.

use crate::crowded::record_at;
use crate::files::{frame, Pieces, Section, IK_STATE_SIZE, SIZES};
use crate::named::make_buildable;
use crate::names;
use crate::older::{narrowed, of_either_edition};
use crate::random::Random;

pub const REMARKS: &str = "takes with remarks";
pub const OLDER_REMARKS: &str = "takes with remarks, older edition";
pub const SPELLED_OTHERWISE: &str = "joined halves that spell them otherwise";

/// Bytes of a name's field.
const WIDTH: usize = 15;

/// What may stand between a name and its remark: line feeds, what else an editor might take for one, and bytes that differ from
/// it by one, by a bit, or in every bit, also just beside it. The last ones are not good in a name that is to be built.
const BREAKS: [&[u8]; 14] =
    [b"\n", b"\n", b"\n", b"\n\n", b"\r\n", b"\n\r", b"\x0b\n", b"\n\x0b", b"\r", b"\x0b", b"\t", b"\x8a\n", b"\x8a", b"\xf5"];
const GOOD_BREAKS: usize = 11;

/// Lengths that are drawn more often than others: none, around the end of a word of 64 bits, and up to the field's last byte.
const LENGTHS: [usize; 7] = [0, 6, 7, 8, 13, 14, 15];

/// What a take's names are made of: few, so that tracks have several spellings. In half of the takes everything is as the
/// builder wants it.
struct Wording {
    buildable: bool,
    stems: Vec<Vec<u8>>,
    remarks: Vec<Vec<u8>>,
    frames: Vec<u32>,
}

impl Wording {
    fn new(random: &mut Random) -> Self {
        let buildable = random.one_in(2);
        let mut wording = Wording {
            buildable,
            stems: (0..1 + random.below(4)).map(|_| stem(buildable, random)).collect(),
            remarks: Vec::new(),
            frames: (0..1 + random.below(4)).map(|_| frame(random)).collect(),
        };
        wording.reword(random);
        wording
    }

    /// Other remarks under the same names.
    fn reword(&mut self, random: &mut Random) {
        self.remarks = (0..1 + random.below(4)).map(|_| remark(self.buildable, random)).collect();
    }

    /// A name's field, anything after its zero, line feeds too.
    fn put_name(&self, field: &mut [u8], random: &mut Random) {
        match random.below(3) {
            0 => field.fill(0),
            1 => field.fill(b'\n'),
            _ => random.fill(field),
        }
        let mut name = self.stems[random.below(self.stems.len())].clone();
        for _ in 0..random.pick(&[0, 1, 1, 1, 2]) {
            name.extend(random.pick(if self.buildable { &BREAKS[..GOOD_BREAKS] } else { &BREAKS }));
            name.extend(&self.remarks[random.below(self.remarks.len())]);
        }
        name.push(0);
        let len = name.len().min(field.len());
        field[..len].copy_from_slice(&name[..len]);
    }

    fn pieces(&self, random: &mut Random) -> Pieces {
        let most = random.pick(&[4, 8, 20]);
        let mut pieces = Pieces::empty();
        self.put_name(&mut pieces.header[30..], random);
        for (i, section) in pieces.sections.iter_mut().enumerate() {
            section.count = random.below(if i < 2 { most + 1 } else { 3 }) as u32;
            for _ in 0..section.count {
                let mut record = record_at(i, random.pick(&self.frames), random);
                if i < 2 {
                    self.put_name(&mut record[..WIDTH], random);
                }
                if i == 5 {
                    record[SIZES[5]..].chunks_mut(IK_STATE_SIZE).for_each(|state| self.put_name(&mut state[..20], random));
                }
                if self.buildable {
                    make_buildable(i, &mut record);
                }
                section.bytes.extend(record);
            }
        }
        pieces
    }
}

/// Of any length that a name has; half of them the beginning of one name.
fn stem(good: bool, random: &mut Random) -> Vec<u8> {
    let len = if random.one_in(2) { random.pick(&LENGTHS) } else { random.below(WIDTH + 1) };
    match random.below(4) {
        0 if !good => (0..len).map(|_| 1 + random.below(255) as u8).collect(),
        0 | 1 => names::good_name(len, random),
        _ => b"left leg of two"[..len].to_vec(),
    }
}

fn remark(good: bool, random: &mut Random) -> Vec<u8> {
    let bytes: &[u8] = if good { b"12ab\n" } else { b"12ab\n\x8a\xff" };
    (0..random.pick(&[0, 1, 1, 2, 3, 8])).map(|_| random.pick(bytes)).collect()
}

/// A take's label, its file, and another that it is to be joined with.
pub fn with_remarks(random: &mut Random) -> (&'static str, Vec<u8>, Option<Vec<u8>>) {
    let mut wording = Wording::new(random);
    let take = wording.pieces(random).file();
    match random.below(6) {
        0 => (OLDER_REMARKS, narrowed(&take), None),
        1 | 2 => {
            wording.reword(random);
            (SPELLED_OTHERWISE, take, Some(of_either_edition(wording.pieces(random).file(), random)))
        }
        _ => (REMARKS, take, None),
    }
}

// ---- fixed

/// For each place of a name and each byte there, bones and morphs at one frame: the name up to the place, it with the byte and
/// one remark or another, and with a zero before them. In both editions.
pub fn each_place(random: &mut Random) -> Vec<Vec<u8>> {
    let mut files = Vec::new();
    for place in 0..WIDTH {
        for byte in *b"\n\r\x0b\x8a" {
            let name = &b"left leg of two"[..place];
            let mut pieces = Pieces::empty();
            for (i, section) in pieces.sections[..2].iter_mut().enumerate() {
                for after in [&[][..], &[byte], &[byte, b'1'], &[byte, b'2', b'\n'], &[0, byte, b'3']] {
                    let mut record = record_at(i, 7, random);
                    record[..WIDTH].fill(0);
                    let field = [name, after].concat();
                    let len = field.len().min(WIDTH);
                    record[..len].copy_from_slice(&field[..len]);
                    section.bytes.extend(record);
                    section.count += 1;
                }
            }
            files.extend([narrowed(&pieces.file()), pieces.file()]);
        }
    }
    files
}

/// Thousands of bones or morphs, more than the library counts in one pass, each name spelled in three ways and more: few names
/// and frames; each name some times, at one frame; and each spelling once.
pub fn many_with_remarks(random: &mut Random) -> Vec<Vec<u8>> {
    let mut files = Vec::new();
    for (section, count) in [(0, 3_000), (1, 16_385), (1, 41_000)] {
        for order in 0..3 {
            let mut bytes = Vec::new();
            for i in 0..count {
                let (name, remark, frame) = match order {
                    0 => (random.below(200), random.below(3), random.below(100)),
                    1 => (random.below(count / 3), random.below(3), 7),
                    _ => (i * 48_271 % 65_537 % 9_000, i, i % 3), // of each frame the last spelling
                };
                let mut record = record_at(section, frame as u32, random);
                record[..WIDTH].copy_from_slice(format!("{name:06}\n{remark:05}\0\n\n").as_bytes());
                bytes.extend(record);
            }
            let mut pieces = Pieces::empty();
            pieces.sections[section] = Section { count: count as u32, bytes };
            files.push(pieces.file());
        }
    }
    files
}
