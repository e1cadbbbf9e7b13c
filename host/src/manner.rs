use std::borrow::Cow;

use crate::c;
use crate::parts::{PartsMut, TableSizes};
use crate::refusal::{Error, Refusal};
use crate::take::Take;
use crate::tidy::{self, Tidied, TidiedSections};

/// The manner in which a whole take is read, and the calls that read one with their manner named. Calls without a named
/// manner, as [`Take::open`] and [`export`](crate::export), are strict; a [`Season`](crate::Season) is lenient.
///
/// The manners differ in two kinds of damage alone: bytes after the last property frame, or after a property count of 0, and
/// a camera, light or self-shadow count whose records exceed the bytes left. A file that is accepted in the strict manner
/// gives the same in both. One that ends before the count of its morphs or of a later section has no such records, in both.
///
/// ```
/// use vmd::{Manner, Refusal, Take};
///
/// let mut file = b"Vocaloid Motion Data 0002".to_vec();
/// file.resize(58, 0); // a model name of no bytes, no bones and no morphs
/// file.extend(1u32.to_le_bytes()); // a camera, which is not there
/// assert_eq!(Take::open(&file).unwrap_err(), Refusal::CountOversized.into());
/// assert_eq!(Manner::Lenient.open(&file)?.cameras(), 0);
/// # Ok::<(), vmd::Error>(())
/// ```
///
/// What is saved in the lenient manner has lost what was not read:
///
/// ```
/// # use vmd::{Manner, Parts, Refusal, Take};
/// let frame = [90, 0, 0, 0, 1, 0, 0, 0, 0]; // a property frame without IK states
/// let mut file = Parts { property_frames: &frame, ..Default::default() }.build()?;
/// file[58] = 1; // the camera count, which was 0
/// assert_eq!(vmd::export(&file), Err(Refusal::CountOversized.into()));
/// let saved = Manner::Lenient.export(&file)?;
/// assert_eq!(Take::open(&saved)?.properties(), 0);
/// # Ok::<(), vmd::Error>(())
/// ```
#[derive(Clone, Copy, Debug, Default, PartialEq, Eq, Hash)]
pub enum Manner {
    /// Such bytes are refused with [`BytesOver`](Refusal::BytesOver), and such a count with
    /// [`CountOversized`](Refusal::CountOversized), whatever follows it.
    #[default]
    Strict,
    /// Such bytes are ignored, and such a section and all after it are taken for empty.
    Lenient,
}

// Each is inlined, as what it calls in c.rs; why is told there.
impl Manner {
    /// Checks a whole file. It may be lent (`&[u8]`, `&Vec<u8>`) or given (`Vec<u8>`). The take remembers the manner.
    #[inline]
    pub fn open<'a>(self, file: impl Into<Cow<'a, [u8]>>) -> Result<Take<'a>, Error> {
        Take::open_in(self, file.into())
    }

    /// [`export`](crate::export) in this manner.
    #[inline]
    pub fn export(self, file: &[u8]) -> Result<Vec<u8>, Error> {
        c::export(self, file)
    }

    /// [`export_size`](crate::export_size) in this manner.
    #[inline]
    pub fn export_size(self, file: &[u8]) -> Result<u64, Refusal> {
        c::export_size(self, file)
    }

    /// [`export_into`](crate::export_into) in this manner.
    #[inline]
    pub fn export_into(self, file: &[u8], out: &mut [u8]) -> Result<usize, Refusal> {
        c::export_into(self, file, out)
    }

    /// [`export_older`](crate::export_older) in this manner.
    #[inline]
    pub fn export_older(self, file: &[u8]) -> Result<Vec<u8>, Error> {
        c::export_older(self, file)
    }

    /// [`export_older_size`](crate::export_older_size) in this manner.
    #[inline]
    pub fn export_older_size(self, file: &[u8]) -> Result<u64, Refusal> {
        c::export_older_size(self, file)
    }

    /// [`export_older_into`](crate::export_older_into) in this manner.
    #[inline]
    pub fn export_older_into(self, file: &[u8], out: &mut [u8]) -> Result<usize, Refusal> {
        c::export_older_into(self, file, out)
    }

    /// [`join`](crate::join) with both takes read in this manner. The first one's refusal comes first.
    #[inline]
    pub fn join(self, first: &[u8], second: &[u8]) -> Result<Vec<u8>, Error> {
        c::join(self, first, second)
    }

    /// [`join_size`](crate::join_size) with both takes read in this manner.
    #[inline]
    pub fn join_size(self, first: &[u8], second: &[u8]) -> Result<u64, Refusal> {
        c::join_size(self, first, second)
    }

    /// [`join_into`](crate::join_into) with both takes read in this manner.
    #[inline]
    pub fn join_into(self, first: &[u8], second: &[u8], out: &mut [u8]) -> Result<usize, Refusal> {
        c::join_into(self, first, second, out)
    }

    /// [`tidy`](crate::tidy) in this manner.
    #[inline]
    pub fn tidy(self, file: &[u8]) -> Result<Tidied, Error> {
        tidy::with_own_scratch(self, file)
    }

    /// [`tidy_size`](crate::tidy_size) in this manner.
    #[inline]
    pub fn tidy_size(self, file: &[u8], scratch: &mut [u64]) -> Result<(u64, TidiedSections), Refusal> {
        c::tidy_size(self, file, scratch)
    }

    /// [`tidy_into`](crate::tidy_into) in this manner.
    #[inline]
    pub fn tidy_into(self, file: &[u8], scratch: &mut [u64], out: &mut [u8]) -> Result<(usize, TidiedSections), Refusal> {
        c::tidy_into(self, file, scratch, out)
    }

    /// [`excerpt`](crate::excerpt) in this manner.
    #[inline]
    pub fn excerpt(self, file: &[u8], first: u32, last: u32) -> Result<Vec<u8>, Error> {
        c::excerpt(self, file, first, last)
    }

    /// [`excerpt_size`](crate::excerpt_size) in this manner.
    #[inline]
    pub fn excerpt_size(self, file: &[u8], first: u32, last: u32) -> Result<u64, Refusal> {
        c::excerpt_size(self, file, first, last)
    }

    /// [`excerpt_into`](crate::excerpt_into) in this manner.
    #[inline]
    pub fn excerpt_into(self, file: &[u8], first: u32, last: u32, out: &mut [u8]) -> Result<usize, Refusal> {
        c::excerpt_into(self, file, first, last, out)
    }

    /// [`is_canonical`](crate::is_canonical) in this manner. A file that is read in the lenient manner alone is not canonical.
    #[inline]
    pub fn is_canonical(self, file: &[u8]) -> Result<bool, Refusal> {
        c::is_canonical(self, file)
    }

    /// [`first_change`](crate::first_change) in this manner.
    #[inline]
    pub fn first_change(self, file: &[u8]) -> Result<Option<usize>, Refusal> {
        c::first_change(self, file)
    }

    /// [`split_sizes`](crate::split_sizes) in this manner.
    #[inline]
    pub fn split_sizes(self, file: &[u8]) -> Result<TableSizes, Refusal> {
        c::split_sizes(self, file)
    }

    /// [`split_into`](crate::split_into) in this manner.
    #[inline]
    pub fn split_into(self, file: &[u8], lent: PartsMut) -> Result<TableSizes, Refusal> {
        c::split_into(self, file, lent)
    }
}
