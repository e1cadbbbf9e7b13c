use std::fmt;

/// The refusals, told once: each one's name, number, and sentence. The names and numbers are those of the header's
/// `enum vmd_refusal`.
macro_rules! refusals {
    ($($(#[$doc:meta])* $name:ident = $number:literal, $sentence:literal;)*) => {
        /// Why a call was turned down: the rows of the format's table, each with its number.
        #[derive(Clone, Copy, Debug, PartialEq, Eq, Hash)]
        #[non_exhaustive]
        pub enum Refusal {
            $($(#[$doc])* $name,)*
            /// A number that this crate has no name for: the library is newer than the crate. It is matched as
            /// `Refusal::Other { .. }`, and [`Refusal::number`] gives the number.
            #[non_exhaustive]
            Other(u32),
        }

        impl Refusal {
            /// All that have names, in the order of their numbers.
            pub const ALL: &'static [Refusal] = &[$(Refusal::$name),*];

            /// The number of the refusal, as the C interface has it.
            pub fn number(self) -> u32 {
                match self {
                    $(Refusal::$name => $number,)*
                    Refusal::Other(number) => number,
                }
            }

            pub(crate) fn of(number: u32) -> Refusal {
                match number {
                    $($number => Refusal::$name,)*
                    _ => Refusal::Other(number),
                }
            }
        }

        impl fmt::Display for Refusal {
            fn fmt(&self, f: &mut fmt::Formatter<'_>) -> fmt::Result {
                match self {
                    $(Refusal::$name => f.write_str($sentence),)*
                    Refusal::Other(number) => {
                        write!(f, "the library's refusal {number}, which this crate has no name for")
                    }
                }
            }
        }
    };
}

refusals! {
    /// The file ends early.
    EndsEarly = 1, "the file ends early";
    /// The first 26 bytes are neither edition's magic.
    MagicDiffers = 2, "the file is not a VMD take";
    /// The scratch has too few places. Opening needs a sixteenth of the property frames, rounded up: [`Take`](crate::Take)
    /// lends enough. Tidying needs as many as the largest section has records: [`tidy`](crate::tidy) lends enough.
    ScratchTooShort = 3, "the scratch is too short: opening needs a place for every 16 property frames of the file, tidying \
                          one for each record of its largest section";
    /// A record or IK number at or above the count, or its place outside the file. [`Take`](crate::Take) gives `None`.
    Outside = 4, "the file has no such record";
    /// A name table's ends are wrong, record bytes are no whole records, or property frames are cut or have bytes over.
    PartsNotWhole = 5, "a name table, the record bytes or the property frames are not whole";
    /// A model name over 20 bytes, a table name over 15, or a zero byte in one.
    NameUnfit = 6, "a name is too long or has a zero byte";
    /// Name bytes that are not good Shift_JIS: a byte that starts nothing, or a pair without a character.
    NameNotGood = 7, "a name's bytes are not good Shift_JIS";
    /// A camera, light, bone or morph float that is not finite.
    NotFinite = 8, "a float of a camera, light, bone or morph is not finite";
    /// A self-shadow distance that is not finite, or a mode above 2.
    SelfShadowUnfit = 9, "a self-shadow's distance is not finite, or its mode is above 2";
    /// Bone or morph column lengths that disagree.
    ColumnsDisagree = 10, "the lengths of the bone or morph columns disagree";
    /// A section count above 4,294,967,295.
    CountTooLarge = 11, "a section would have more than 4,294,967,295 records";
    /// A name index at or above the table's length.
    NameIndex = 12, "a name index is not below the length of its table";
    /// An output shorter than the file to be written. The calls that give a `Vec` lend enough.
    OutputTooShort = 13, "the output is shorter than the file to be written";
    /// A buffer for the parts of a take is too short, or a name table passes 4,294,967,295 bytes.
    PartsDoNotFit = 14, "a buffer for the parts is too short, or a name table passes 4,294,967,295 bytes";
    /// A model name over 10 bytes, which the older edition cannot hold.
    ModelNameTooLong = 15, "the model name takes more than 10 bytes, and the older edition has no room for it";
    /// Bytes after the last property frame, or after a property count of 0. The strict manner alone gives it
    /// ([`Manner`](crate::Manner)).
    BytesOver = 16, "there are bytes after the last property frame, or after a property count of 0";
    /// A camera, light or self-shadow count whose records exceed the bytes left. The strict manner alone gives it
    /// ([`Manner`](crate::Manner)).
    CountOversized = 17, "a camera, light or self-shadow count is too large for the bytes after it";
    /// The first frame of an excerpt is above the last. It comes before anything that the file is refused for.
    FirstAboveLast = 18, "the first frame is above the last";
}

impl std::error::Error for Refusal {}

/// Why there is no answer: a refusal, or too little memory for it.
#[derive(Clone, Copy, Debug, PartialEq, Eq)]
pub enum Error {
    /// The call was turned down.
    Refused(Refusal),
    /// There is no memory for so many bytes.
    NoMemory(u64),
}

impl From<Refusal> for Error {
    fn from(refusal: Refusal) -> Self {
        Error::Refused(refusal)
    }
}

impl fmt::Display for Error {
    fn fmt(&self, f: &mut fmt::Formatter<'_>) -> fmt::Result {
        match self {
            Error::Refused(refusal) => write!(f, "refused {}: {refusal}", refusal.number()),
            Error::NoMemory(bytes) => write!(f, "there is no memory for {bytes} bytes"),
        }
    }
}

impl std::error::Error for Error {}
