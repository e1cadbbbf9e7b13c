//! Files whose names repeat, for name tables; and files that can be built from their parts.

use crate::files::{put_record, Pieces, Section, IK_STATE_SIZE, SIZES};
use crate::names;
use crate::random::Random;

/// Where the floats of a record begin, and how many there are.
const FLOATS: [(usize, usize); 6] = [(19, 7), (19, 1), (4, 7), (4, 6), (5, 1), (0, 0)];

pub const FEW_NAMES: &str = "names that repeat";

/// A take whose bones, morphs and IK states have few names. In half of them everything is as the builder wants it.
pub fn few_names(random: &mut Random) -> Vec<u8> {
    let buildable = random.one_in(2);
    let names = some_names(buildable, random);
    let mut pieces = Pieces::empty();
    if random.one_in(2) {
        put_name(&mut pieces.header[30..], &names, random);
    }
    for (i, section) in pieces.sections.iter_mut().enumerate() {
        section.count = random.below(if i < 2 { 14 } else { 3 }) as u32;
        for _ in 0..section.count {
            let mut record = Vec::new();
            put_record(i, &mut record, random);
            if i < 2 {
                put_name(&mut record[..15], &names, random);
            }
            if i == 5 {
                record[SIZES[5]..].chunks_mut(IK_STATE_SIZE).for_each(|state| put_name(&mut state[..20], &names, random));
            }
            if buildable {
                make_buildable(i, &mut record);
            }
            section.bytes.extend(record);
        }
    }
    pieces.file()
}

/// Good ones where the builder is to take them; else any, many of them the beginning of another.
pub(crate) fn some_names(good: bool, random: &mut Random) -> Vec<Vec<u8>> {
    let mut some: Vec<Vec<u8>> = Vec::new();
    for _ in 0..1 + random.below(6) {
        let mut name = match some.last() {
            Some(last) if !good && random.one_in(2) => last.clone(),
            _ => names::good_name(random.below(16), random),
        };
        if !good && random.one_in(2) {
            name.truncate(random.below(name.len() + 1));
        }
        if !good && name.len() < 15 && random.one_in(2) {
            name.push(1 + random.below(255) as u8);
        }
        some.push(name);
    }
    some
}

/// One of the names in a field, with zeros or any bytes after its own zero.
pub(crate) fn put_name(field: &mut [u8], names: &[Vec<u8>], random: &mut Random) {
    let name = &names[random.below(names.len())];
    if random.one_in(2) {
        random.fill(field);
    } else {
        field.fill(0);
    }
    field[..name.len()].copy_from_slice(name);
    if let Some(end) = field.get_mut(name.len()) {
        *end = 0;
    }
}

/// Finite floats, and a self-shadow mode up to 2.
pub(crate) fn make_buildable(section: usize, record: &mut [u8]) {
    let (at, count) = FLOATS[section];
    for float in record[at..at + 4 * count].chunks_mut(4) {
        float[2] &= 0x7f; // the exponent's lowest bit: not all of them are set
    }
    if section == 4 {
        record[4] %= 3;
    }
}

/// Takes of thousands of bones and of morphs with a name of their own for most, in three orders. The last has more names than
/// the library counts in one pass.
pub fn many_names(random: &mut Random) -> Vec<Vec<u8>> {
    let mut files = Vec::new();
    for (section, counts) in [(0, [3000u32; 3]), (1, [20_000, 20_000, 40_000])] {
        for (order, count) in counts.into_iter().enumerate() {
            let mut pieces = Pieces::empty();
            let mut bytes = Vec::new();
            for i in 0..count + count / 4 {
                let number = match order {
                    _ if i >= count => random.below(count as usize) as u32,
                    0 => i,
                    1 => count - 1 - i,
                    _ => (i as u64 * 48_271 % 65_537) as u32, // none twice: the divisor is prime
                };
                let mut record = Vec::new();
                put_record(section, &mut record, random);
                record[..15].fill(0);
                let name = format!("{number:06}{}", &"tracktrack"[..number as usize % 10]);
                record[..name.len().min(15)].copy_from_slice(&name.as_bytes()[..name.len().min(15)]);
                bytes.extend(record);
            }
            pieces.sections[section] = Section { count: count + count / 4, bytes };
            files.push(pieces.file());
        }
    }
    files
}
