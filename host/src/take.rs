use std::borrow::Cow;

use crate::c;
use crate::canonical::Change;
use crate::header::indices::{VMD_TOTAL_IK_STATES, VMD_TOTAL_LARGEST_FRAME, VMD_TOTAL_SMALLEST_FRAME};
use crate::manner::Manner;
use crate::parts::OwnedParts;
use crate::properties::{self, PropertyWalk};
use crate::refusal::{Error, Refusal};

/// An accepted take: the file's bytes, owned or borrowed, the manner in which they were read, and what opening found in them.
///
/// Records are fetched by number, `None` at and above the count, or come one after another. Names are the bytes before the
/// first zero, and lie in the file; floats have the file's 32 bits.
///
/// Property frames have no fixed size. A take keeps the place of every 16th, and a fetch by number walks on from there, over
/// 15 others at most; one after another they are read without such walks.
///
/// ```
/// let mut file = b"Vocaloid Motion Data 0002".to_vec();
/// file.resize(54, 0); // a model name of no bytes, and no bones
/// file.extend(2u32.to_le_bytes()); // morphs
/// for frame in [30u32, 60] {
///     file.extend(b"smile\0\0\0\0\0\0\0\0\0\0");
///     file.extend(frame.to_le_bytes());
///     file.extend((frame as f32 / 60.0).to_le_bytes());
/// }
/// let take = vmd::Take::open(&file)?;
/// let smiles: Vec<_> = take.morph_frames().filter(|morph| morph.name == b"smile").collect();
/// assert_eq!(smiles[0].weight, 0.5);
/// assert_eq!(smiles[1], take.morph(1).unwrap());
/// # Ok::<(), vmd::Error>(())
/// ```
///
/// Records are equal where what a file holds for them is, so floats by their bits: 0.0 and -0.0 differ, NaNs with other
/// payloads too, and a NaN is equal to itself.
#[derive(Clone, Debug)]
pub struct Take<'a> {
    manner: Manner,
    file: Cow<'a, [u8]>,
    opening: c::Opening,
    /// Where every 16th property frame stands.
    scratch: Vec<u64>,
}

/// A bone's position and turn at a frame.
#[derive(Clone, Copy, Debug)]
#[allow(missing_docs)]
pub struct BoneFrame<'t> {
    pub name: &'t [u8],
    pub frame: u32,
    pub translation: [f32; 3],
    pub rotation: [f32; 4],
    pub interpolation: &'t [u8; 64],
}

/// A face morph's weight at a frame.
#[derive(Clone, Copy, Debug)]
#[allow(missing_docs)]
pub struct MorphFrame<'t> {
    pub name: &'t [u8],
    pub frame: u32,
    pub weight: f32,
}

/// The camera at a frame.
#[derive(Clone, Copy, Debug)]
#[allow(missing_docs)]
pub struct CameraFrame<'t> {
    pub frame: u32,
    pub distance: f32,
    pub position: [f32; 3],
    pub rotation: [f32; 3],
    pub interpolation: &'t [u8; 24],
    pub field_of_view: u32,
    /// True where the file's byte is 0.
    pub perspective: bool,
}

/// The light at a frame.
#[derive(Clone, Copy, Debug)]
#[allow(missing_docs)]
pub struct LightFrame {
    pub frame: u32,
    pub color: [f32; 3],
    pub direction: [f32; 3],
}

/// The self-shadow at a frame.
#[derive(Clone, Copy, Debug)]
#[allow(missing_docs)]
pub struct SelfShadowFrame {
    pub frame: u32,
    pub mode: u8,
    pub distance: f32,
}

/// A property frame. Its IK states are fetched by its number ([`Take::ik_states_of`], [`Take::ik_state`]), or come with it
/// ([`Take::property_frames_with_ik_states`]).
#[derive(Clone, Copy, Debug, PartialEq, Eq)]
#[allow(missing_docs)]
pub struct PropertyFrame {
    pub frame: u32,
    pub visible: bool,
    /// How many IK states it has.
    pub ik_states: u32,
}

impl PropertyFrame {
    pub(crate) fn of([frame, visible, ik_states]: [u32; 3]) -> Self {
        PropertyFrame { frame, visible: visible != 0, ik_states }
    }
}

/// Whether a chain's inverse kinematics is on.
#[derive(Clone, Copy, Debug, PartialEq, Eq)]
#[allow(missing_docs)]
pub struct IkState<'t> {
    pub name: &'t [u8],
    pub enabled: bool,
}

/// A field as it is compared: a float is its bits.
pub(crate) trait Bits {
    type Of: Eq;
    fn bits(self) -> Self::Of;
}

impl Bits for f32 {
    type Of = u32;
    fn bits(self) -> u32 {
        self.to_bits()
    }
}

impl Bits for u8 {
    type Of = u8;
    fn bits(self) -> u8 {
        self
    }
}

impl Bits for u32 {
    type Of = u32;
    fn bits(self) -> u32 {
        self
    }
}

impl<const N: usize> Bits for [f32; N] {
    type Of = [u32; N];
    fn bits(self) -> [u32; N] {
        self.map(f32::to_bits)
    }
}

fn same<T: Eq>(a: T, b: T) -> bool {
    a == b
}

/// Equality of records with floats. A field that is left out, or a float that is not among the floats, is an error.
macro_rules! equal_by_bits {
    ($($record:ty { $($field:ident),*; floats $($float:ident),* })*) => {
        $(impl PartialEq for $record {
            fn eq(&self, other: &Self) -> bool {
                let Self { $($field,)* $($float),* } = *self;
                $(same($field, other.$field) &&)* $(same($float.bits(), other.$float.bits()) &&)* true
            }
        }
        impl Eq for $record {})*
    };
}

equal_by_bits! {
    BoneFrame<'_> { name, frame, interpolation; floats translation, rotation }
    MorphFrame<'_> { name, frame; floats weight }
    CameraFrame<'_> { frame, interpolation, field_of_view, perspective; floats distance, position, rotation }
    LightFrame { frame; floats color, direction }
    SelfShadowFrame { frame, mode; floats distance }
}

/// Floats by their bits, in the order that a record has them.
fn floats<const N: usize>(bits: &[u32]) -> [f32; N] {
    std::array::from_fn(|k| f32::from_bits(bits[k]))
}

/// The interpolation bytes of a record that is there: always as many as its layout has.
fn curves<const N: usize>(part: &[u8]) -> &[u8; N] {
    part.try_into().expect("a record has all of its interpolation bytes")
}

/// The records by all numbers below a count.
fn records<R>(count: usize, fetch: impl Fn(usize) -> Option<R>) -> impl ExactSizeIterator<Item = R> + DoubleEndedIterator {
    (0..count).map(move |i| fetch(i).expect("there is a record for each number below the count"))
}

impl<'a> Take<'a> {
    /// Checks a whole file, in the strict manner; [`Manner::open`] names another. The file may be lent (`&[u8]`, `&Vec<u8>`)
    /// or given (`Vec<u8>`).
    pub fn open(file: impl Into<Cow<'a, [u8]>>) -> Result<Self, Error> {
        Manner::Strict.open(file)
    }

    pub(crate) fn open_in(manner: Manner, file: Cow<'a, [u8]>) -> Result<Self, Error> {
        let (opening, scratch) = properties::open(manner, &file)?;
        Ok(Take { manner, file, opening, scratch })
    }

    /// The manner in which it was opened. What reads the whole file again, as [`parts`](Take::parts), reads it so too.
    pub fn manner(&self) -> Manner {
        self.manner
    }

    /// The file's bytes.
    pub fn file(&self) -> &[u8] {
        &self.file
    }

    /// What opening this very file in this manner gave.
    pub(crate) fn opening(&self) -> &c::Opening {
        &self.opening
    }

    /// The number of bone frames.
    pub fn bones(&self) -> usize {
        self.opening.counts[0] as usize
    }

    /// The number of morph frames.
    pub fn morphs(&self) -> usize {
        self.opening.counts[1] as usize
    }

    /// The number of camera frames.
    pub fn cameras(&self) -> usize {
        self.opening.counts[2] as usize
    }

    /// The number of light frames.
    pub fn lights(&self) -> usize {
        self.opening.counts[3] as usize
    }

    /// The number of self-shadow frames.
    pub fn self_shadows(&self) -> usize {
        self.opening.counts[4] as usize
    }

    /// The number of property frames.
    pub fn properties(&self) -> usize {
        self.opening.counts[5] as usize
    }

    /// The number of IK states, over all property frames.
    pub fn ik_states(&self) -> u64 {
        self.opening.totals[VMD_TOTAL_IK_STATES]
    }

    /// The smallest frame over all six sections, 0 with no records.
    pub fn smallest_frame(&self) -> u32 {
        self.opening.totals[VMD_TOTAL_SMALLEST_FRAME] as u32
    }

    /// The largest frame over all six sections, 0 with no records.
    pub fn largest_frame(&self) -> u32 {
        self.opening.totals[VMD_TOTAL_LARGEST_FRAME] as u32
    }

    /// The model name.
    pub fn model_name(&self) -> &[u8] {
        c::model_name(&self.file)
    }

    /// Bone frame `i`.
    pub fn bone(&self, i: usize) -> Option<BoneFrame<'_>> {
        let r = c::bone_frame(&self.file, &self.opening, i)?;
        Some(BoneFrame {
            name: c::bone_name(&self.file, &self.opening, i),
            frame: r[0],
            translation: floats(&r[1..]),
            rotation: floats(&r[4..]),
            interpolation: curves(c::bone_interpolation(&self.file, &self.opening, i)),
        })
    }

    /// Morph frame `i`.
    pub fn morph(&self, i: usize) -> Option<MorphFrame<'_>> {
        let r = c::morph_frame(&self.file, &self.opening, i)?;
        let name = c::morph_name(&self.file, &self.opening, i);
        Some(MorphFrame { name, frame: r[0], weight: f32::from_bits(r[1]) })
    }

    /// Camera frame `i`.
    pub fn camera(&self, i: usize) -> Option<CameraFrame<'_>> {
        let r = c::camera_frame(&self.file, &self.opening, i)?;
        Some(CameraFrame {
            frame: r[0],
            distance: f32::from_bits(r[1]),
            position: floats(&r[2..]),
            rotation: floats(&r[5..]),
            interpolation: curves(c::camera_interpolation(&self.file, &self.opening, i)),
            field_of_view: r[8],
            perspective: r[9] != 0,
        })
    }

    /// Light frame `i`.
    pub fn light(&self, i: usize) -> Option<LightFrame> {
        let r = c::light_frame(&self.file, &self.opening, i)?;
        Some(LightFrame { frame: r[0], color: floats(&r[1..]), direction: floats(&r[4..]) })
    }

    /// Self-shadow frame `i`.
    pub fn self_shadow(&self, i: usize) -> Option<SelfShadowFrame> {
        let r = c::self_shadow_frame(&self.file, &self.opening, i)?;
        Some(SelfShadowFrame { frame: r[0], mode: r[1] as u8, distance: f32::from_bits(r[2]) })
    }

    /// Property frame `i`.
    pub fn property(&self, i: usize) -> Option<PropertyFrame> {
        c::property_frame(&self.file, &self.opening, &self.scratch, i).map(PropertyFrame::of)
    }

    /// IK state `j` of property frame `i`.
    pub fn ik_state(&self, i: usize, j: usize) -> Option<IkState<'_>> {
        let enabled = c::ik_state(&self.file, &self.opening, &self.scratch, i, j)?;
        Some(IkState { name: c::ik_name(&self.file, &self.opening, &self.scratch, i, j), enabled })
    }

    /// The bone frames, in the file's order.
    pub fn bone_frames(&self) -> impl ExactSizeIterator<Item = BoneFrame<'_>> + DoubleEndedIterator {
        records(self.bones(), |i| self.bone(i))
    }

    /// The morph frames, in the file's order.
    pub fn morph_frames(&self) -> impl ExactSizeIterator<Item = MorphFrame<'_>> + DoubleEndedIterator {
        records(self.morphs(), |i| self.morph(i))
    }

    /// The camera frames, in the file's order.
    pub fn camera_frames(&self) -> impl ExactSizeIterator<Item = CameraFrame<'_>> + DoubleEndedIterator {
        records(self.cameras(), |i| self.camera(i))
    }

    /// The light frames, in the file's order.
    pub fn light_frames(&self) -> impl ExactSizeIterator<Item = LightFrame> + DoubleEndedIterator {
        records(self.lights(), |i| self.light(i))
    }

    /// The self-shadow frames, in the file's order.
    pub fn self_shadow_frames(&self) -> impl ExactSizeIterator<Item = SelfShadowFrame> + DoubleEndedIterator {
        records(self.self_shadows(), |i| self.self_shadow(i))
    }

    /// The property frames, in the file's order. Each is read where the one before it ends; from the back each is reached by
    /// a walk, as by number.
    pub fn property_frames(&self) -> impl ExactSizeIterator<Item = PropertyFrame> + DoubleEndedIterator {
        self.property_walk(|_, frame| frame)
    }

    /// The property frames in the same way, each with its IK states, in the file's order.
    ///
    /// ```
    /// # let state = |name: &[u8], enabled| [name, &vec![0; 20 - name.len()], &[enabled]].concat();
    /// # let states = [state(b"left leg", 1), state(b"right leg", 0)].concat();
    /// # let frames = [&[0, 0, 0, 0, 1, 0, 0, 0, 0, 30, 0, 0, 0, 1, 2, 0, 0, 0], &states[..]].concat();
    /// # let file = vmd::Parts { property_frames: &frames, ..Default::default() }.build()?;
    /// let take = vmd::Take::open(&file)?;
    /// let mut off = Vec::new();
    /// for (property, states) in take.property_frames_with_ik_states() {
    ///     off.extend(states.filter(|state| !state.enabled).map(|state| (property.frame, state.name)));
    /// }
    /// assert_eq!(off, [(30, &b"right leg"[..])]);
    /// # Ok::<(), vmd::Error>(())
    /// ```
    pub fn property_frames_with_ik_states(
        &self,
    ) -> impl ExactSizeIterator<Item = (PropertyFrame, impl ExactSizeIterator<Item = IkState<'_>> + DoubleEndedIterator)>
    + DoubleEndedIterator {
        self.property_walk(move |place, frame| (frame, self.ik_states_at(place, frame.ik_states)))
    }

    /// The IK states of property frame `i`, in the file's order; none where there is no such frame. The frame is looked for
    /// once, not for each of its states.
    pub fn ik_states_of(&self, i: usize) -> impl ExactSizeIterator<Item = IkState<'_>> + DoubleEndedIterator {
        let found = self.property_walk(|place, frame| (place, frame.ik_states)).nth(i);
        let (place, count) = found.unwrap_or_default();
        self.ik_states_at(place, count)
    }

    fn property_walk<R, F: Fn(u64, PropertyFrame) -> R>(&self, make: F) -> PropertyWalk<'_, F> {
        PropertyWalk::new(&self.file, &self.opening, &self.scratch, make)
    }

    /// So many IK states, of the property frame at a place.
    fn ik_states_at(&self, place: u64, count: u32) -> impl ExactSizeIterator<Item = IkState<'_>> + DoubleEndedIterator {
        records(count as usize, move |j| {
            let enabled = c::ik_state_at(&self.file, place, j)?;
            Some(IkState { name: c::ik_name_at(&self.file, place, j), enabled })
        })
    }

    /// What saving would touch first, in the manner in which it was opened; None where the file is
    /// [canonical](Manner::is_canonical).
    pub fn first_change(&self) -> Option<Change> {
        let place = c::first_change(self.manner, &self.file).expect("a take is accepted")?;
        Some(Change::at(place, self))
    }

    /// What the take would be built from. Where the builder takes these parts, the file it gives is the take's
    /// [`export`](Manner::export) in the manner in which it was opened; it does not take names that are not good Shift_JIS
    /// ([`first_fault`](crate::first_fault)), floats that are not finite, and self-shadow modes above 2, which a file may
    /// have.
    ///
    /// Refused with [`PartsDoNotFit`](crate::Refusal::PartsDoNotFit) where the names of a table pass 4,294,967,295 bytes.
    pub fn parts(&self) -> Result<OwnedParts, Error> {
        Ok(OwnedParts { model_name: self.model_name().to_vec(), ..c::split(self)? })
    }
}

/// The canonical file with a take's records and model name.
///
/// ```
/// let mut file = *b"Vocaloid Motion Data 0002\0????dancer\0?????????????\0\0\0\0"; // a model name, and no bones
/// let saved = vmd::export(&file)?;
/// assert_eq!(saved.len(), 74);
/// assert_eq!(vmd::export(&saved)?, saved);
/// file[0] = b'v';
/// assert_eq!(vmd::export(&file), Err(vmd::Refusal::MagicDiffers.into()));
/// # Ok::<(), vmd::Error>(())
/// ```
pub fn export(file: &[u8]) -> Result<Vec<u8>, Error> {
    Manner::Strict.export(file)
}

/// How many bytes [`export`] gives.
pub fn export_size(file: &[u8]) -> Result<u64, Refusal> {
    Manner::Strict.export_size(file)
}

/// [`export`] at the front of a lent output, the rest of which stays as it is. Gives how many bytes it wrote.
pub fn export_into(file: &[u8], out: &mut [u8]) -> Result<usize, Refusal> {
    Manner::Strict.export_into(file, out)
}

/// The file of the older edition with a take's records and model name: 10 bytes shorter than [`export`], with zeros after the
/// magic and the name, and the same bytes from the bone count on.
///
/// Refused with [`ModelNameTooLong`](crate::Refusal::ModelNameTooLong) where the model name has more than 10 bytes, for
/// which the older edition has no room; a file of the older edition never is.
///
/// ```
/// let file = vmd::Parts { model_name: b"dancer", ..Default::default() }.build()?;
/// let older = vmd::export_older(&file)?;
/// assert_eq!(older[..40], *b"Vocaloid Motion Data file\0\0\0\0\0dancer\0\0\0\0");
/// assert_eq!(older[40..], file[50..]);
/// assert_eq!(vmd::export(&older)?, file);
///
/// let file = vmd::Parts { model_name: b"first dancer", ..Default::default() }.build()?;
/// assert_eq!(vmd::export_older(&file), Err(vmd::Refusal::ModelNameTooLong.into()));
/// # Ok::<(), vmd::Error>(())
/// ```
pub fn export_older(file: &[u8]) -> Result<Vec<u8>, Error> {
    Manner::Strict.export_older(file)
}

/// How many bytes [`export_older`] gives: 10 fewer than [`export`].
pub fn export_older_size(file: &[u8]) -> Result<u64, Refusal> {
    Manner::Strict.export_older_size(file)
}

/// [`export_older`] at the front of a lent output, the rest of which stays as it is. Gives how many bytes it wrote.
pub fn export_older_into(file: &[u8], out: &mut [u8]) -> Result<usize, Refusal> {
    Manner::Strict.export_older_into(file, out)
}

/// The canonical file whose every section has the first take's records, then the second's. Its model name is the first's,
/// or the second's where that is empty.
pub fn join(first: &[u8], second: &[u8]) -> Result<Vec<u8>, Error> {
    Manner::Strict.join(first, second)
}

/// How many bytes [`join`] gives.
pub fn join_size(first: &[u8], second: &[u8]) -> Result<u64, Refusal> {
    Manner::Strict.join_size(first, second)
}

/// [`join`] at the front of a lent output, the rest of which stays as it is. Gives how many bytes it wrote.
pub fn join_into(first: &[u8], second: &[u8], out: &mut [u8]) -> Result<usize, Refusal> {
    Manner::Strict.join_into(first, second, out)
}

/// The model name of the join of two files.
pub fn joined_model<'f>(first: &'f [u8], second: &'f [u8]) -> &'f [u8] {
    c::joined_model(first, second)
}
