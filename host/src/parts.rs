use crate::c;
use crate::manner::Manner;
use crate::refusal::{Error, Refusal};
use crate::take::Bits;

/// What a take is built from. Parts that are left out are empty.
///
/// A name table is bytes, and the end of each name in them ([`NameTable`] lays one out). Cameras, lights, self-shadows and
/// properties are back-to-back records as a file has them. Bones and morphs are columns: a name's index in its table, a
/// frame, and for a bone three, four and 64 values, for a morph one. [`Take::parts`](crate::Take::parts) gives those of a take.
///
/// ```
/// let names = vmd::NameTable::new([&b"center"[..]]);
/// let file = vmd::Parts {
///     model_name: b"dancer",
///     bone_name_bytes: &names.bytes,
///     bone_name_ends: &names.ends,
///     bone_name_indices: &[0],
///     bone_frames: &[30],
///     bone_translations_xyz: &[0.0, 1.5, 0.0],
///     bone_rotations_xyzw: &[0.0, 0.0, 0.0, 1.0],
///     bone_interpolations: &[20; 64],
///     ..Default::default()
/// }
/// .build()?;
/// assert_eq!(file.len(), 74 + 111);
/// assert_eq!(vmd::Take::open(&file)?.bone(0).unwrap().translation, [0.0, 1.5, 0.0]);
/// # Ok::<(), vmd::Error>(())
/// ```
#[derive(Clone, Copy, Debug, Default)]
#[allow(missing_docs)]
pub struct Parts<'a> {
    pub model_name: &'a [u8],
    pub bone_name_bytes: &'a [u8],
    pub bone_name_ends: &'a [u32],
    pub morph_name_bytes: &'a [u8],
    pub morph_name_ends: &'a [u32],
    pub camera_frames: &'a [u8],
    pub light_frames: &'a [u8],
    pub self_shadow_frames: &'a [u8],
    pub property_frames: &'a [u8],
    pub bone_name_indices: &'a [u32],
    pub bone_frames: &'a [u32],
    pub bone_translations_xyz: &'a [f32],
    pub bone_rotations_xyzw: &'a [f32],
    pub bone_interpolations: &'a [u8],
    pub morph_name_indices: &'a [u32],
    pub morph_frames: &'a [u32],
    pub morph_weights: &'a [f32],
}

/// What [`Take::parts`](crate::Take::parts) gives: the parts of a take, each in memory of its own, to be changed and built
/// again.
///
/// A name table has the distinct names of its records, in order of first appearance. These are whole names: two that differ
/// after a line feed alone, which are one track to [`tidy`](crate::tidy), are both there. Camera, light, self-shadow and
/// property records are in canonical form.
///
/// ```
/// # let names = vmd::NameTable::new([&b"smile"[..], b"blink"]);
/// # let file = vmd::Parts {
/// #     morph_name_bytes: &names.bytes,
/// #     morph_name_ends: &names.ends,
/// #     morph_name_indices: &[1, 0, 1],
/// #     morph_frames: &[0, 30, 60],
/// #     morph_weights: &[0.0, 0.5, 1.0],
/// #     ..Default::default()
/// # }
/// # .build()?;
/// let take = vmd::Take::open(&file)?; // morphs: blink at frame 0, smile at 30, blink at 60
/// let mut parts = take.parts()?;
/// assert_eq!((&parts.morph_name_bytes[..], &parts.morph_name_ends[..]), (&b"blinksmile"[..], &[5, 10][..]));
/// assert_eq!(parts.morph_name_indices, [0, 1, 0]);
/// assert_eq!(parts.build()?, vmd::export(&file)?);
///
/// parts.morph_frames.iter_mut().for_each(|frame| *frame += 15); // half a second later
/// let later = vmd::Take::open(parts.build()?)?;
/// assert_eq!((later.smallest_frame(), later.largest_frame()), (15, 75));
/// # Ok::<(), vmd::Error>(())
/// ```
///
/// Parts are equal where they have the same elements, floats by their bits.
#[derive(Clone, Debug, Default)]
#[allow(missing_docs)]
pub struct OwnedParts {
    pub model_name: Vec<u8>,
    pub bone_name_bytes: Vec<u8>,
    pub bone_name_ends: Vec<u32>,
    pub morph_name_bytes: Vec<u8>,
    pub morph_name_ends: Vec<u32>,
    pub camera_frames: Vec<u8>,
    pub light_frames: Vec<u8>,
    pub self_shadow_frames: Vec<u8>,
    pub property_frames: Vec<u8>,
    pub bone_name_indices: Vec<u32>,
    pub bone_frames: Vec<u32>,
    pub bone_translations_xyz: Vec<f32>,
    pub bone_rotations_xyzw: Vec<f32>,
    pub bone_interpolations: Vec<u8>,
    pub morph_name_indices: Vec<u32>,
    pub morph_frames: Vec<u32>,
    pub morph_weights: Vec<f32>,
}

/// Memory that [`split_into`](crate::split_into) is lent for the parts of a take. The model name is none of them.
#[derive(Debug, Default)]
#[allow(missing_docs)]
pub struct PartsMut<'a> {
    pub bone_name_bytes: &'a mut [u8],
    pub bone_name_ends: &'a mut [u32],
    pub morph_name_bytes: &'a mut [u8],
    pub morph_name_ends: &'a mut [u32],
    pub camera_frames: &'a mut [u8],
    pub light_frames: &'a mut [u8],
    pub self_shadow_frames: &'a mut [u8],
    pub property_frames: &'a mut [u8],
    pub bone_name_indices: &'a mut [u32],
    pub bone_frames: &'a mut [u32],
    pub bone_translations_xyz: &'a mut [f32],
    pub bone_rotations_xyzw: &'a mut [f32],
    pub bone_interpolations: &'a mut [u8],
    pub morph_name_indices: &'a mut [u32],
    pub morph_frames: &'a mut [u32],
    pub morph_weights: &'a mut [f32],
}

/// How long the two name tables of a take are.
#[derive(Clone, Copy, Debug, Default, PartialEq, Eq)]
pub struct TableSizes {
    /// The number of distinct bone names.
    pub bone_names: u64,
    /// How many bytes they have together.
    pub bone_name_bytes: u64,
    /// The number of distinct morph names.
    pub morph_names: u64,
    /// How many bytes they have together.
    pub morph_name_bytes: u64,
}

/// How long the name tables are that [`split_into`] writes.
pub fn split_sizes(file: &[u8]) -> Result<TableSizes, Refusal> {
    Manner::Strict.split_sizes(file)
}

/// The parts of a take at the fronts of lent memory, the rest of which stays as it is. Gives how long the two name tables are;
/// how long every other part is follows from the numbers of records and of IK states.
///
/// Lent are, for b bones, m morphs, c cameras, l lights, s self-shadows and p properties with k IK states, at least 61c, 28l,
/// 9s and 9p + 21k bytes of records, columns of b, b, 3b, 4b and 64b and of m, m and m elements, and tables as long as
/// [`split_sizes`] says, for which the names are counted again. Tables of 15 bytes and one end for each record are long enough
/// for any names of up to 286,331,153 records, which are then not counted first.
pub fn split_into(file: &[u8], lent: PartsMut) -> Result<TableSizes, Refusal> {
    Manner::Strict.split_into(file, lent)
}

/// What goes over all parts but the model name. A part that is left out is an error.
macro_rules! over_all {
    ($($part:ident)*) => {
        impl OwnedParts {
            /// The parts as the builder takes them.
            pub fn as_parts(&self) -> Parts<'_> {
                Parts { model_name: &self.model_name, $($part: &self.$part),* }
            }

            /// The memory of the parts, to be lent as it is.
            pub fn as_parts_mut(&mut self) -> PartsMut<'_> {
                PartsMut { $($part: &mut self.$part),* }
            }
        }

        impl PartialEq for Parts<'_> {
            fn eq(&self, other: &Self) -> bool {
                let Self { model_name, $($part),* } = self;
                $(same($part, other.$part) &&)* model_name == &other.model_name
            }
        }
    };
}

impl Eq for Parts<'_> {}

impl PartialEq for OwnedParts {
    fn eq(&self, other: &Self) -> bool {
        self.as_parts() == other.as_parts()
    }
}

impl Eq for OwnedParts {}

fn same<T: Bits + Copy>(a: &[T], b: &[T]) -> bool {
    a.iter().map(|value| value.bits()).eq(b.iter().map(|value| value.bits()))
}

impl OwnedParts {
    /// The canonical file of the parts.
    pub fn build(&self) -> Result<Vec<u8>, Error> {
        self.as_parts().build()
    }
}

over_all! {
    bone_name_bytes bone_name_ends morph_name_bytes morph_name_ends
    camera_frames light_frames self_shadow_frames property_frames
    bone_name_indices bone_frames bone_translations_xyz bone_rotations_xyzw bone_interpolations
    morph_name_indices morph_frames morph_weights
}

impl Parts<'_> {
    /// The canonical file of the parts.
    pub fn build(&self) -> Result<Vec<u8>, Error> {
        c::build(self)
    }

    /// The same at the front of a lent output, the rest of which stays as it is. Gives how many bytes it wrote.
    pub fn build_into(&self, out: &mut [u8]) -> Result<usize, Refusal> {
        c::build_into(self, out)
    }

    /// How many bytes [`build`](Parts::build) gives.
    pub fn size(&self) -> Result<u64, Refusal> {
        c::build_size(self)
    }
}

/// Names one after another, and where each ends: what [`Parts`] takes as a name table.
#[derive(Clone, Debug, Default)]
pub struct NameTable {
    /// The names' bytes, one after another.
    pub bytes: Vec<u8>,
    /// The end of each name in the bytes.
    pub ends: Vec<u32>,
}

impl NameTable {
    /// The table of these names, in this order.
    ///
    /// # Panics
    /// Where the names have more than 4,294,967,295 bytes together.
    pub fn new<'n>(names: impl IntoIterator<Item = &'n [u8]>) -> Self {
        let mut table = NameTable::default();
        for name in names {
            table.bytes.extend_from_slice(name);
            table.ends.push(u32::try_from(table.bytes.len()).expect("a name table has at most 4,294,967,295 bytes"));
        }
        table
    }
}
