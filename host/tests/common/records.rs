//! Takes as lists of records, each as a file may have it and as it is saved, made by hand and at random.
use std::thread;

use super::{Random, start};

/// A record as a file may have it, and as it is saved.
#[derive(Clone)]
pub struct Record {
    /// The field of its name; empty where a section has no names.
    pub field: Vec<u8>,
    pub frame: u32,
    /// What follows its frame.
    pub rest: Vec<u8>,
    /// The same in canonical form.
    pub saved_rest: Vec<u8>,
}

impl Record {
    /// Of a section without names.
    pub fn new(frame: u32, rest: Vec<u8>) -> Record {
        Record { field: vec![], frame, saved_rest: rest.clone(), rest }
    }

    /// A morph with these bytes at the front of its name's field.
    pub fn morph(field: &[u8], frame: u32, weight: f32) -> Record {
        Record { field: padded(field, 15, 0), ..Record::new(frame, weight.to_le_bytes().to_vec()) }
    }

    /// A bone, all bytes of which after its frame are alike.
    pub fn bone(field: &[u8], frame: u32, byte: u8) -> Record {
        Record { field: padded(field, 15, 0), ..Record::new(frame, vec![byte; 92]) }
    }

    /// A self-shadow.
    pub fn self_shadow(frame: u32, distance: f32) -> Record {
        Record::new(frame, [&[1][..], &distance.to_le_bytes()].concat())
    }

    /// A property frame with the fields of its IK states' names, and a byte for each.
    pub fn property(frame: u32, visible: u8, states: &[(Vec<u8>, u8)]) -> Record {
        let count = (states.len() as u32).to_le_bytes();
        let mut record = Record::new(frame, [&[visible][..], &count].concat());
        record.saved_rest[0] = (visible != 0).into();
        for (field, enabled) in states {
            record.rest.extend(field);
            record.rest.push(*enabled);
            record.saved_rest.extend(padded(name(field), 20, 0));
            record.saved_rest.push((*enabled != 0).into());
        }
        record
    }

    pub fn name(&self) -> &[u8] {
        name(&self.field)
    }

    /// What of its name tells its track.
    pub fn key(&self) -> &[u8] {
        key(self.name())
    }

    pub fn in_file(&self) -> Vec<u8> {
        [&self.field, &self.frame.to_le_bytes()[..], &self.rest].concat()
    }

    pub fn saved(&self) -> Vec<u8> {
        [&padded(self.name(), self.field.len(), 0), &self.frame.to_le_bytes()[..], &self.saved_rest].concat()
    }
}

/// The bytes of a field before its first zero.
pub fn name(field: &[u8]) -> &[u8] {
    field.split(|byte| *byte == 0).next().unwrap()
}

/// The bytes of a name before its first line feed.
pub fn key(name: &[u8]) -> &[u8] {
    name.split(|byte| *byte == b'\n').next().unwrap()
}

/// Bytes, and others up to a length.
pub fn padded(bytes: &[u8], len: usize, with: u8) -> Vec<u8> {
    let mut field = bytes.to_vec();
    field.resize(len, with);
    field
}

/// A take of the newer edition.
#[derive(Clone, Default)]
pub struct Records {
    /// At the front of the model name's field; zeros follow.
    pub model_name: Vec<u8>,
    pub sections: [Vec<Record>; 6],
}

impl Records {
    /// Those of one section.
    pub fn of(section: usize, records: Vec<Record>) -> Records {
        let mut all = Records::default();
        all.sections[section] = records;
        all
    }

    pub fn file(&self) -> Vec<u8> {
        self.after([&start()[..26], b"junk", &padded(&self.model_name, 20, 0)].concat(), Record::in_file)
    }

    /// The canonical file.
    pub fn saved(&self) -> Vec<u8> {
        self.after([&start()[..30], &padded(name(&self.model_name), 20, 0)].concat(), Record::saved)
    }

    /// The sections after a header.
    fn after(&self, header: Vec<u8>, bytes: fn(&Record) -> Vec<u8>) -> Vec<u8> {
        self.sections.iter().fold(header, |file, section| {
            let records: Vec<_> = section.iter().flat_map(bytes).collect();
            [&file, &(section.len() as u32).to_le_bytes()[..], &records].concat()
        })
    }

    pub fn largest_section(&self) -> usize {
        self.sections.iter().map(Vec::len).max().unwrap()
    }
}

// ---- at random

/// Few, among them some that differ in one byte, by a remark after a line feed, by a byte that is none, or in length alone.
pub const NAMES: [&[u8]; 18] = [
    b"arm",
    b"",
    b"arm\nleft",
    b"arm\nright\n",
    b"\n",
    b"ar",
    b"arm\n",
    b"arm\r",
    b"arm\x0Bleft",
    b"\nleft",
    b"fifteen letters",
    b"fifteen letter",
    b"fifteen letter\n",
    b"fifteen \nletter",
    b"fifteen \n",
    b"\xFF\x80\xFF",
    b"\x8D\xB6\x98r",
    b"arN",
];

/// Few, among them some that differ in one of their bytes alone, or are the largest.
pub const FRAMES: [u32; 8] = [0, 1, 2, 256, 0x0001_0000, 0x0100_0000, 0x8000_0000, u32::MAX];

pub fn bytes(random: &mut Random, len: usize) -> Vec<u8> {
    (0..len).map(|_| random.next() as u8).collect()
}

pub fn flag(random: &mut Random) -> u8 {
    [0, 1, 2, 255][random.below(4)]
}

/// A field of so many bytes with one of the first so many names, and zeros or anything after its zero.
pub fn field(random: &mut Random, width: usize, names: u32) -> Vec<u8> {
    let name = NAMES[random.below(names)];
    let after = if random.below(2) == 0 { vec![0; width] } else { bytes(random, width) };
    [name, &[0], &after].concat()[..width].to_vec()
}

pub fn random_record(random: &mut Random, section: usize, names: u32, frame: u32) -> Record {
    let mut of_size = |size: usize| Record::new(frame, bytes(random, size - 4));
    match section {
        0 => Record { field: field(random, 15, names), ..Record::new(frame, bytes(random, 92)) },
        1 => Record { field: field(random, 15, names), ..Record::new(frame, bytes(random, 4)) },
        2 => {
            let mut camera = of_size(61);
            camera.rest[56] = flag(random);
            camera.saved_rest[56] = (camera.rest[56] != 0).into();
            camera
        }
        3 => of_size(28),
        4 => of_size(9),
        _ => {
            let states: Vec<_> = (0..random.below(4)).map(|_| (field(random, 20, names), flag(random))).collect();
            Record::property(frame, flag(random), &states)
        }
    }
}

/// Up to 12 records of a section, or none, with few names and frames.
pub fn random_section(random: &mut Random, section: usize) -> Vec<Record> {
    let (names, frames) = (1 + random.below(NAMES.len() as u32) as u32, 1 + random.below(FRAMES.len() as u32) as u32);
    let records = [0, random.below(13), random.below(13)][random.below(3)];
    let mut record = || {
        let frame = FRAMES[random.below(frames)];
        random_record(random, section, names, frame)
    };
    (0..records).map(|_| record()).collect()
}

pub fn random_take(random: &mut Random) -> Records {
    let model_name = field(random, 20, NAMES.len() as u32);
    Records { model_name, sections: std::array::from_fn(|section| random_section(random, section)) }
}

/// Tells with which seed a test fails.
pub struct Seed(pub u32);

impl Drop for Seed {
    fn drop(&mut self) {
        if thread::panicking() {
            println!("seed {}", self.0);
        }
    }
}
