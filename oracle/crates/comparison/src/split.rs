//! A file split into parts. Expected are the parts of the original's reading of it; where the original builds from them, its
//! export of what it built has to be its export of what it read.

use crate::check::{same, Checked, SLOT};
use crate::lent::Output;
use crate::library::{self, Lent};
use crate::manner::{Expected, Manner, Read, MANNERS};
use crate::parts::marked_name;
use oracle::original::{self, NOT_GOOD, PARTS_DO_NOT_FIT};
use oracle::parts::Parts;

/// A column as the call writes it: floats are their bits.
trait Stored {
    type Element;
    fn stored(&self) -> Vec<Self::Element>;
}

impl Stored for Vec<u8> {
    type Element = u8;
    fn stored(&self) -> Vec<u8> {
        self.clone()
    }
}

impl Stored for Vec<u32> {
    type Element = u32;
    fn stored(&self) -> Vec<u32> {
        self.clone()
    }
}

impl Stored for Vec<f32> {
    type Element = u32;
    fn stored(&self) -> Vec<u32> {
        self.iter().map(|value| value.to_bits()).collect()
    }
}

macro_rules! buffers {
    ($($part:ident: $element:ty,)*) => {
        /// The sixteen buffers, in the call's order.
        #[derive(Default)]
        struct Buffers {
            $($part: Output<$element>,)*
        }

        impl Buffers {
            fn lend(&mut self, lengths: [usize; 16]) -> Lent<'_> {
                let [$($part),*] = lengths;
                Lent { $($part: self.$part.lend($part)),* }
            }

            /// Each has its part at the front, and nothing else was written.
            fn hold(&self, parts: &Parts) -> Checked {
                $({
                    let held = self.$part.holds(&parts.$part.stored());
                    held.map_err(|difference| format!("{}: {difference}", stringify!($part)))?;
                })*
                Ok(())
            }
        }

        fn lengths_of(parts: &Parts) -> [usize; 16] {
            [$(parts.$part.len()),*]
        }
    };
}

buffers! {
    bone_name_bytes: u8,
    bone_name_ends: u32,
    morph_name_bytes: u8,
    morph_name_ends: u32,
    camera_frames: u8,
    light_frames: u8,
    self_shadow_frames: u8,
    property_frames: u8,
    bone_name_indices: u32,
    bone_frames: u32,
    bone_translations_xyz: u32,
    bone_rotations_xyzw: u32,
    bone_interpolations: u8,
    morph_name_indices: u32,
    morph_frames: u32,
    morph_weights: u32,
}

#[derive(Default)]
pub struct SplitCheck {
    buffers: Buffers,
    output: Output,
    turn: usize,
    /// Sets of parts that the original builds from.
    pub built: u64,
    /// Those among them without a byte order mark at a name's start: the library builds from them too, and refuses the others.
    pub built_here: u64,
    /// Those that it refuses, by its refusal; without a byte order mark the library refuses them likewise.
    pub not_built: [u64; 14],
}

impl SplitCheck {
    pub fn check(&mut self, file: &[u8], read: &Expected<Read>) -> Checked {
        let parts = read.map(|read| original::parts_of(&read.take, &read.exported));
        let lengths = self.lengths(&parts.lenient);
        for manner in MANNERS {
            let parts = parts.in_manner(manner);
            check_sizes(manner, file, parts)?;
            for (lengths, long_enough) in &lengths {
                let expected = if *long_enough { parts } else { parts.and(Err(PARTS_DO_NOT_FIT)) };
                self.check_call(manner, file, *lengths, expected)?;
            }
        }
        match (&parts.lenient, &read.lenient) {
            (Ok(parts), Ok(read)) => self.check_built(parts, &read.exported),
            _ => Ok(()),
        }
    }

    /// Lengths of the buffers to lend, and whether the parts fit: those of the lenient manner, where it has some.
    fn lengths(&mut self, parts: &Result<Parts, u32>) -> Vec<([usize; 16], bool)> {
        let Ok(parts) = parts else { return vec![([0; 16], true), ([7; 16], true)] };
        let exact = lengths_of(parts);
        // tables for any names, and every other buffer longer
        let (bones, morphs) = (parts.bone_frames.len(), parts.morph_frames.len());
        let mut longer = exact.map(|len| len + 3);
        longer[..4].copy_from_slice(&[15 * bones, bones, 15 * morphs, morphs]);
        let mut lengths = vec![(exact, true), (longer, true)];
        // one buffer too short, another one for each file
        let some: Vec<usize> = (0..16).filter(|&k| exact[k] > 0).collect();
        if !some.is_empty() {
            self.turn += 1;
            let mut short = if self.turn % 2 == 0 { exact } else { longer };
            let k = some[self.turn / 2 % some.len()];
            short[k] = exact[k] - 1;
            lengths.push((short, false));
        }
        lengths
    }

    fn check_call(&mut self, manner: Manner, file: &[u8], lengths: [usize; 16], expected: Result<&Parts, u32>) -> Checked {
        let mut sizes = [SLOT; 4];
        let answer = library::split_animation_into_parts(manner, file, self.buffers.lend(lengths), &mut sizes);
        let shown = |part: &str| format!("{manner} split into {lengths:?}: {part}");
        same(&shown("answer"), answer, expected.err().unwrap_or(0))?;
        same(&shown("sizes"), sizes, expected.map_or([SLOT; 4], sizes_of))?;
        self.buffers.hold(expected.unwrap_or(&Parts::default())).map_err(|difference| shown(&difference))
    }

    /// Building from the parts, which are those that the library gave.
    fn check_built(&mut self, parts: &Parts, exported: &[u8]) -> Checked {
        match original::build(parts) {
            Err(refusal) => {
                self.not_built[refusal as usize] += 1;
                if marked_name(parts).is_none() {
                    let mut size = SLOT;
                    let answer = library::build_size(parts, parts.columns(), &mut size);
                    same("building from the parts: refusal", answer, refusal)?;
                }
            }
            Ok(built) => {
                self.built += 1;
                same("the original's export of what it builds from the parts", &built[..], exported)?;
                let (mut written, out) = (SLOT, self.output.lend(exported.len()));
                let answer = library::build_animation_from_parts(parts, parts.columns(), out, &mut written);
                if marked_name(parts).is_some() {
                    return same("building from parts with a byte order mark: answer", answer, NOT_GOOD);
                }
                self.built_here += 1;
                same("building from the parts: answer", answer, 0)?;
                same("building from the parts: length", written, exported.len() as u64)?;
                self.output.holds(exported).map_err(|difference| format!("building from the parts: {difference}"))?;
            }
        }
        Ok(())
    }
}

fn check_sizes(manner: Manner, file: &[u8], expected: Result<&Parts, u32>) -> Checked {
    let mut sizes = [SLOT; 4];
    let answer = library::split_sizes(manner, file, &mut sizes);
    same(&format!("{manner} split sizes: answer"), answer, expected.err().unwrap_or(0))?;
    same(&format!("{manner} split sizes"), sizes, expected.map_or([SLOT; 4], sizes_of))
}

fn sizes_of(parts: &Parts) -> [u64; 4] {
    [
        parts.bone_name_ends.len() as u64,
        parts.bone_name_bytes.len() as u64,
        parts.morph_name_ends.len() as u64,
        parts.morph_name_bytes.len() as u64,
    ]
}
