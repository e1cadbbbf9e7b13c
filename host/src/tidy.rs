use crate::c;
use crate::header::indices::*;
use crate::manner::Manner;
use crate::properties;
use crate::refusal::{Error, Refusal};

/// What [`tidy`] gives: the tidied file, and how many records of each section it kept and dropped.
#[derive(Clone, Debug, PartialEq, Eq)]
#[allow(missing_docs)]
pub struct Tidied {
    pub file: Vec<u8>,
    pub sections: TidiedSections,
}

/// How many records of each section tidying keeps and drops.
#[derive(Clone, Copy, Debug, Default, PartialEq, Eq)]
pub struct TidiedSections {
    /// The bone frames.
    pub bones: TidiedSection,
    /// The morph frames.
    pub morphs: TidiedSection,
    /// The camera frames.
    pub cameras: TidiedSection,
    /// The light frames.
    pub lights: TidiedSection,
    /// The self-shadow frames.
    pub self_shadows: TidiedSection,
    /// The property frames.
    pub properties: TidiedSection,
}

/// How many records of a section tidying keeps and drops: together all that were read.
#[derive(Clone, Copy, Debug, Default, PartialEq, Eq)]
#[allow(missing_docs)]
pub struct TidiedSection {
    pub kept: u32,
    pub dropped: u32,
}

impl TidiedSections {
    pub(crate) fn of(kept: [u32; 6], dropped: [u32; 6]) -> Self {
        let section = |at: usize| TidiedSection { kept: kept[at], dropped: dropped[at] };
        TidiedSections {
            bones: section(VMD_BONES),
            morphs: section(VMD_MORPHS),
            cameras: section(VMD_CAMERAS),
            lights: section(VMD_LIGHTS),
            self_shadows: section(VMD_SELF_SHADOWS),
            properties: section(VMD_PROPERTIES),
        }
    }
}

/// The canonical file of a take without the records that never show: of those of a track that have the same frame only the
/// last in the file's order stays, and each track is sorted by frame.
///
/// The bone frames of one name are a track, and the morph frames of one name; the tracks of a section come one after another,
/// in order of first appearance. Names are the bytes before the first zero; those that agree up to their first line feed (byte
/// 0x0A), after which some editors add a remark, are one name here, and a record that stays keeps its own with the remark. Each
/// other section is one track. The model name is kept. Tidying a tidied take changes nothing.
///
/// ```
/// # let names = vmd::NameTable::new([&b"smile"[..], b"blink", b"blink\nfast"]);
/// # let file = vmd::Parts {
/// #     morph_name_bytes: &names.bytes,
/// #     morph_name_ends: &names.ends,
/// #     morph_name_indices: &[1, 0, 1, 2],
/// #     morph_frames: &[60, 30, 0, 60],
/// #     morph_weights: &[0.25, 0.5, 0.75, 1.0],
/// #     ..Default::default()
/// # }
/// # .build()?;
/// // morphs: blink 0.25 at frame 60, smile 0.5 at 30, blink 0.75 at 0, and with a remark 1.0 at 60
/// let tidied = vmd::tidy(&file)?;
/// assert_eq!(tidied.sections.morphs, vmd::TidiedSection { kept: 3, dropped: 1 });
/// let take = vmd::Take::open(&tidied.file)?;
/// let morphs = take.morph_frames().map(|morph| (morph.name, morph.frame, morph.weight));
/// assert!(morphs.eq([(&b"blink"[..], 0, 0.75), (b"blink\nfast", 60, 1.0), (b"smile", 30, 0.5)]));
/// assert_eq!(vmd::tidy(&tidied.file)?.file, tidied.file);
/// # Ok::<(), vmd::Error>(())
/// ```
pub fn tidy(file: &[u8]) -> Result<Tidied, Error> {
    Manner::Strict.tidy(file)
}

/// How many bytes [`tidy`] gives, and how many records of each section it keeps and drops. The scratch is lent as to
/// [`tidy_into`].
pub fn tidy_size(file: &[u8], scratch: &mut [u64]) -> Result<(u64, TidiedSections), Refusal> {
    Manner::Strict.tidy_size(file, scratch)
}

/// [`tidy`] at the front of a lent output, the rest of which stays as it is. Gives how many bytes it wrote, and how many
/// records of each section it kept and dropped.
///
/// The scratch has a place for each record of the largest section, whatever stands there; `file.len() / 9` places are enough
/// for any file. These places hold zeros after it, and further ones what they held.
///
/// An output as long as [`export_size`](crate::export_size) says is long enough. With a shorter one the records that are kept
/// are counted first, without the scratch, which can take seconds: [`tidy_size`] counts them with it.
pub fn tidy_into(file: &[u8], scratch: &mut [u64], out: &mut [u8]) -> Result<(usize, TidiedSections), Refusal> {
    Manner::Strict.tidy_into(file, scratch, out)
}

/// A take tidied with a scratch of its own, which has as many places as are needed.
pub(crate) fn with_own_scratch(manner: Manner, file: &[u8]) -> Result<Tidied, Error> {
    let largest_section = properties::open(manner, file)?.0.counts.into_iter().max().unwrap_or(0);
    c::tidy(manner, file, &mut properties::zeros(largest_section as usize)?)
}
