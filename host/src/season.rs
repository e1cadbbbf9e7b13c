use crate::c::{self, SeasonArrays};
use crate::header::indices::*;

/// Figures over takes that are added one after another.
///
/// Takes are read in the lenient manner alone ([`Manner::Lenient`](crate::Manner::Lenient)).
///
/// A take that is refused counts in `refused` and adds nothing else. So does one with which any other of the 64-bit figures
/// would pass its largest value; `refused` stops at its own. Any numbers may stand in the fields. Interpolation bytes, the
/// bytes after a name's zero, and a remark after its first line feed (byte 0x0A) make no difference: names are told apart as
/// [`tidy`](crate::tidy) does.
///
/// ```
/// # let names = vmd::NameTable::new([&b"smile"[..], b"blink", b"blink\nfast"]);
/// # let morphs = |indices: &[u32]| {
/// #     vmd::Parts {
/// #         morph_name_bytes: &names.bytes,
/// #         morph_name_ends: &names.ends,
/// #         morph_name_indices: indices,
/// #         morph_frames: &vec![0; indices.len()],
/// #         morph_weights: &vec![0.5; indices.len()],
/// #         ..Default::default()
/// #     }
/// #     .build()
/// # };
/// # let (first, second) = (morphs(&[0, 1, 2])?, morphs(&[1, 1])?);
/// let mut season = vmd::Season::new();
/// assert!(season.add(&first)); // morphs: smile, blink, and blink with a remark
/// assert!(season.add(&second)); // morphs: blink, blink
/// assert!(!season.add(b"no take"));
/// assert_eq!((season.accepted, season.refused), (2, 1));
/// assert_eq!(season.morphs, vmd::Figures { total: 5, smallest: 2, largest: 3 });
/// assert_eq!(season.morph_names, 2 + 1);
/// assert_eq!(season.mean(), vmd::Mean { quotient: 2, remainder: 1 });
/// # Ok::<(), vmd::Error>(())
/// ```
#[derive(Clone, Copy, Debug, Default, PartialEq, Eq)]
pub struct Season {
    /// The bone frames.
    pub bones: Figures,
    /// The morph frames.
    pub morphs: Figures,
    /// The camera frames.
    pub cameras: Figures,
    /// The light frames.
    pub lights: Figures,
    /// The self-shadow frames.
    pub self_shadows: Figures,
    /// The property frames.
    pub properties: Figures,
    /// The records of all six sections over all takes.
    pub records: u64,
    /// Each take's distinct bone names, added up over the takes.
    pub bone_names: u64,
    /// Each take's distinct morph names, added up over the takes.
    pub morph_names: u64,
    /// How many takes were accepted: those that the other figures are over.
    pub accepted: u64,
    /// How many takes were refused.
    pub refused: u64,
}

/// A section's figures over the accepted takes.
#[derive(Clone, Copy, Debug, Default, PartialEq, Eq)]
pub struct Figures {
    /// Its records over all takes.
    pub total: u64,
    /// The smallest number of its records in a take; 0 without takes.
    pub smallest: u32,
    /// The largest number of its records in a take; 0 without takes.
    pub largest: u32,
}

/// A mean in whole numbers.
#[derive(Clone, Copy, Debug, Default, PartialEq, Eq)]
#[allow(missing_docs)]
pub struct Mean {
    pub quotient: u64,
    pub remainder: u64,
}

impl Season {
    /// The figures of no takes: zeros, as the default is.
    pub fn new() -> Self {
        Season::of(&c::season_none())
    }

    /// Adds a take, which is read in the lenient manner. True where it was accepted and counted, false where it counts as
    /// refused.
    ///
    /// While `accepted` is 0 the first take that is accepted sets the smallest and the largest numbers.
    ///
    /// ```
    /// let mut file = b"Vocaloid Motion Data 0002".to_vec();
    /// file.resize(58, 0); // a model name of no bytes, no bones and no morphs
    /// file.extend(1u32.to_le_bytes()); // a camera, which is not there
    /// assert_eq!(vmd::export_size(&file), Err(vmd::Refusal::CountOversized));
    /// let mut season = vmd::Season::new();
    /// assert!(season.add(&file));
    /// assert_eq!((season.accepted, season.cameras.total), (1, 0));
    /// ```
    pub fn add(&mut self, file: &[u8]) -> bool {
        let accepted = self.accepted;
        let mut arrays = self.arrays();
        c::season_add(file, &mut arrays);
        *self = Season::of(&arrays);
        self.accepted != accepted
    }

    /// The records of all six sections divided by the accepted takes; 0 and 0 without any.
    pub fn mean(&self) -> Mean {
        let [quotient, remainder] = c::season_mean(&self.arrays());
        Mean { quotient, remainder }
    }

    fn of(SeasonArrays { counts, figures }: &SeasonArrays) -> Self {
        let section = |at: usize| Figures {
            total: figures[VMD_SEASON_TOTAL + at],
            smallest: counts[VMD_SEASON_SMALLEST + at],
            largest: counts[VMD_SEASON_LARGEST + at],
        };
        Season {
            bones: section(VMD_BONES),
            morphs: section(VMD_MORPHS),
            cameras: section(VMD_CAMERAS),
            lights: section(VMD_LIGHTS),
            self_shadows: section(VMD_SELF_SHADOWS),
            properties: section(VMD_PROPERTIES),
            records: figures[VMD_SEASON_RECORDS],
            bone_names: figures[VMD_SEASON_BONE_NAMES],
            morph_names: figures[VMD_SEASON_MORPH_NAMES],
            accepted: figures[VMD_SEASON_ACCEPTED],
            refused: figures[VMD_SEASON_REFUSED],
        }
    }

    fn arrays(&self) -> SeasonArrays {
        let mut arrays = SeasonArrays::default();
        let SeasonArrays { counts, figures } = &mut arrays;
        for (at, section) in [
            (VMD_BONES, self.bones),
            (VMD_MORPHS, self.morphs),
            (VMD_CAMERAS, self.cameras),
            (VMD_LIGHTS, self.lights),
            (VMD_SELF_SHADOWS, self.self_shadows),
            (VMD_PROPERTIES, self.properties),
        ] {
            figures[VMD_SEASON_TOTAL + at] = section.total;
            counts[VMD_SEASON_SMALLEST + at] = section.smallest;
            counts[VMD_SEASON_LARGEST + at] = section.largest;
        }
        figures[VMD_SEASON_RECORDS] = self.records;
        figures[VMD_SEASON_BONE_NAMES] = self.bone_names;
        figures[VMD_SEASON_MORPH_NAMES] = self.morph_names;
        figures[VMD_SEASON_ACCEPTED] = self.accepted;
        figures[VMD_SEASON_REFUSED] = self.refused;
        arrays
    }
}
