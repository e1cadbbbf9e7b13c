use crate::manner::Manner;
use crate::refusal::{Error, Refusal};

/// The canonical file of a take's records from a first frame to a last one, both included, with the first subtracted from
/// each frame. Their order and the model name are kept. From 0 to [`u32::MAX`] it is the [`export`](crate::export).
///
/// Refused with [`FirstAboveLast`](Refusal::FirstAboveLast) where the first frame is above the last, whatever the file is.
///
/// ```
/// # let names = vmd::NameTable::new([&b"smile"[..], b"blink"]);
/// # let file = vmd::Parts {
/// #     morph_name_bytes: &names.bytes,
/// #     morph_name_ends: &names.ends,
/// #     morph_name_indices: &[0, 1, 0, 1],
/// #     morph_frames: &[90, 60, 30, 91],
/// #     morph_weights: &[0.25, 0.5, 0.75, 1.0],
/// #     ..Default::default()
/// # }
/// # .build()?;
/// // morphs: smile 0.25 at frame 90, blink 0.5 at 60, smile 0.75 at 30, blink 1.0 at 91
/// let piece = vmd::excerpt(&file, 60, 90)?;
/// let take = vmd::Take::open(&piece)?;
/// let morphs = take.morph_frames().map(|morph| (morph.name, morph.frame, morph.weight));
/// assert!(morphs.eq([(&b"smile"[..], 30, 0.25), (b"blink", 0, 0.5)]));
/// assert_eq!(vmd::excerpt(&file, 0, u32::MAX)?, vmd::export(&file)?);
/// assert_eq!(vmd::excerpt(&file, 90, 60), Err(vmd::Refusal::FirstAboveLast.into()));
/// # Ok::<(), vmd::Error>(())
/// ```
pub fn excerpt(file: &[u8], first: u32, last: u32) -> Result<Vec<u8>, Error> {
    Manner::Strict.excerpt(file, first, last)
}

/// How many bytes [`excerpt`] gives.
pub fn excerpt_size(file: &[u8], first: u32, last: u32) -> Result<u64, Refusal> {
    Manner::Strict.excerpt_size(file, first, last)
}

/// [`excerpt`] at the front of a lent output, the rest of which stays as it is. Gives how many bytes it wrote.
///
/// An output as long as [`export_size`](crate::export_size) says is long enough. With a shorter one the records that stay are
/// counted first, as [`excerpt_size`] does.
pub fn excerpt_into(file: &[u8], first: u32, last: u32, out: &mut [u8]) -> Result<usize, Refusal> {
    Manner::Strict.excerpt_into(file, first, last, out)
}
