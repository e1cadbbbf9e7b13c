//! A large name table that is turned down: all ends are tested first, then the names in turn, and nothing after a bad one.
use std::hint::black_box;

use vmd::Parts;

use crate::measure::{after, median};
use crate::takes::{Kind, Material, Names};
use crate::{head, row, shown};

const NAME: usize = 15;

/// What is wrong with the parts, and the refusal's number; 0 where nothing is.
struct Wrong {
    what: &'static str,
    number: u32,
    /// A name of the table, and a byte that is put into it.
    name: Option<(usize, u8)>,
    model_name: &'static [u8],
    /// Bytes without an end, which is found after all ends of the bone names.
    morph_name_bytes: &'static [u8],
}

const NOTHING: Wrong = Wrong { what: "nothing", number: 0, name: None, model_name: b"dancer", morph_name_bytes: b"" };

fn all(names: usize) -> [Wrong; 7] {
    [
        Wrong { what: "the ends of the other table", number: 5, morph_name_bytes: b"A", ..NOTHING },
        Wrong { what: "the model name", number: 7, model_name: b"\xA0", ..NOTHING },
        Wrong { what: "the first name, not good", number: 7, name: Some((0, 0xA0)), ..NOTHING },
        Wrong { what: "the first name, a zero byte", number: 6, name: Some((0, 0)), ..NOTHING },
        Wrong { what: "the name in the middle, not good", number: 7, name: Some((names / 2, 0xA0)), ..NOTHING },
        Wrong { what: "the last name, not good", number: 7, name: Some((names - 1, 0xA0)), ..NOTHING },
        NOTHING,
    ]
}

struct Table {
    bytes: Vec<u8>,
    ends: Vec<u32>,
}

impl Table {
    fn new(names: usize) -> Table {
        let bytes: Vec<u8> = (0..names).flat_map(|n| Names::Full.bytes(n)).collect();
        Table { ends: (1..=names).map(|n| (NAME * n) as u32).collect(), bytes }
    }

    /// Seconds for the builder's answer with these records.
    fn time(&mut self, records: Parts, wrong: &Wrong) -> f64 {
        let kept = wrong.name.map(|(i, byte)| std::mem::replace(&mut self.bytes[NAME * i], byte));
        let parts = Parts {
            model_name: wrong.model_name,
            bone_name_bytes: &self.bytes,
            bone_name_ends: &self.ends,
            morph_name_bytes: wrong.morph_name_bytes,
            ..records
        };
        let time = after(4, 4, || {
            let number = black_box(parts).size().map_or_else(|refusal| refusal.number(), |_| 0);
            assert_eq!(number, wrong.number, "{}", wrong.what);
        });
        if let (Some((i, _)), Some(byte)) = (wrong.name, kept) {
            self.bytes[NAME * i] = byte;
        }
        time
    }
}

pub fn table(names: usize, size: usize) {
    const ROUNDS: usize = 25;
    println!("\n## A large name table\n");
    println!(
        "{names} bone names of {NAME} bytes, warm; medians of {ROUNDS} rounds. The records are those of a take of {}, without its \
         morphs. The target is the first name turned down in at most 1.05 times what the ends alone take.",
        shown(size)
    );
    head(["wrong", "answer", "no records, ms", "by the ends", "with records, ms", "by the ends"]);
    let mut table = Table::new(names);
    let material = Material::new(Kind::Mixed, Names::Full, size);
    // no morphs: their names' table is the one whose ends are wrong
    let with_records =
        Parts { morph_name_ends: &[], morph_name_indices: &[], morph_frames: &[], morph_weights: &[], ..material.parts() };
    let rows = all(names);
    let mut times = vec![[const { Vec::new() }; 2]; rows.len()];
    for _ in 0..ROUNDS {
        for (wrong, times) in rows.iter().zip(&mut times) {
            for (records, times) in [Parts::default(), with_records].into_iter().zip(times) {
                times.push(table.time(records, wrong));
            }
        }
    }
    for (wrong, of) in rows.iter().zip(&times) {
        let cells = of.iter().zip(&times[0]).flat_map(|(times, ends)| {
            let ratios = times.iter().zip(ends).map(|(time, ends)| time / ends).collect();
            [format!("{:.3}", 1e3 * median(times.clone())), format!("{:.2}", median(ratios))]
        });
        let answer = if wrong.number == 0 { "a size".into() } else { wrong.number.to_string() };
        row([wrong.what.into(), answer].into_iter().chain(cells));
    }
}
