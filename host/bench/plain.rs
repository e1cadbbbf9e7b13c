//! Tidying in plain Rust, as a program would do it that may allocate: what the library's call is measured beside. It takes
//! whole files of the newer edition.
use std::collections::HashMap;

pub fn tidy(file: &[u8]) -> Vec<u8> {
    let mut out = Vec::with_capacity(file.len());
    out.extend(&file[..30]);
    write_name(&mut out, &file[30..50]);
    let mut rest = &file[50..];
    for (size, write) in
        [(111, write_named as Write), (23, write_named), (61, write_camera), (28, write_as_is), (9, write_as_is)]
    {
        let count = number(rest) as usize;
        let (records, after) = rest[4..].split_at(size * count);
        rest = after;
        let has_names = size == 111 || size == 23;
        write_section(&mut out, count, has_names, |i| &records[size * i as usize..][..size], write);
    }
    let places = property_places(&rest[4..], number(rest));
    write_section(&mut out, places.len(), false, |i| &rest[4 + places[i as usize]..], write_property);
    out
}

fn number(bytes: &[u8]) -> u32 {
    u32::from_le_bytes(bytes[..4].try_into().unwrap())
}

fn name(field: &[u8]) -> &[u8] {
    &field[..field.iter().position(|byte| *byte == 0).unwrap_or(field.len())]
}

/// What of a field tells its track: the name up to its line feed.
fn key(field: &[u8]) -> &[u8] {
    let name = name(field);
    &name[..name.iter().position(|byte| *byte == b'\n').unwrap_or(name.len())]
}

/// Where each property frame begins.
fn property_places(frames: &[u8], count: u32) -> Vec<usize> {
    let mut next = 0;
    let mut place = || {
        let place = next;
        next += 9 + 21 * number(&frames[place + 5..]) as usize;
        place
    };
    (0..count).map(|_| place()).collect()
}

/// Tracks one after another in order of first appearance, each sorted by frame, with the last record of each frame alone.
fn write_section<'f>(out: &mut Vec<u8>, count: usize, has_names: bool, record: impl Fn(u32) -> &'f [u8], write: Write) {
    let numbers = 0..count as u32;
    let tracks = if has_names { by_key(numbers, &record) } else { vec![numbers.collect()] };
    let frame = |i: u32| number(&record(i)[if has_names { 15 } else { 0 }..]);
    let count_at = out.len();
    out.extend([0; 4]);
    let mut kept = 0u32;
    for mut track in tracks {
        track.sort_by_cached_key(|&i| frame(i)); // stable; of one long track twice as fast as without the cache
        for (k, &i) in track.iter().enumerate() {
            if track.get(k + 1).is_none_or(|&next| frame(next) != frame(i)) {
                write(out, record(i));
                kept += 1;
            }
        }
    }
    out[count_at..count_at + 4].copy_from_slice(&kept.to_le_bytes());
}

fn by_key<'f>(numbers: std::ops::Range<u32>, record: &impl Fn(u32) -> &'f [u8]) -> Vec<Vec<u32>> {
    let mut indices = HashMap::new();
    let mut tracks: Vec<Vec<u32>> = Vec::new();
    for i in numbers {
        let index = *indices.entry(key(&record(i)[..15])).or_insert(tracks.len());
        if index == tracks.len() {
            tracks.push(Vec::new());
        }
        tracks[index].push(i);
    }
    tracks
}

// ---- records in canonical form

type Write = fn(&mut Vec<u8>, &[u8]);

fn write_name(out: &mut Vec<u8>, field: &[u8]) {
    let name = name(field);
    out.extend(name);
    out.resize(out.len() + field.len() - name.len(), 0);
}

fn write_named(out: &mut Vec<u8>, record: &[u8]) {
    write_name(out, &record[..15]);
    out.extend(&record[15..]);
}

fn write_camera(out: &mut Vec<u8>, record: &[u8]) {
    out.extend(&record[..60]);
    out.push((record[60] != 0).into());
}

fn write_as_is(out: &mut Vec<u8>, record: &[u8]) {
    out.extend(record);
}

/// A property frame, whatever follows it.
fn write_property(out: &mut Vec<u8>, record: &[u8]) {
    out.extend(&record[..4]);
    out.push((record[4] != 0).into());
    out.extend(&record[5..9]);
    for state in record[9..].chunks_exact(21).take(number(&record[5..]) as usize) {
        write_name(out, &state[..20]);
        out.push((state[20] != 0).into());
    }
}
