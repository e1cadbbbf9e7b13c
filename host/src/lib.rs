//! VMD takes, the motion files of MikuMikuDance: read, saved, joined, tidied, cut to excerpts, built from parts and split into
//! them, and figures over many of them.
//!
//! Files of both editions are read: the newer begin with `Vocaloid Motion Data 0002`, the older with `Vocaloid Motion Data
//! file`. What is written is of the newer edition, but for [`export_older`].
//!
//! A whole take is read in the strict manner: a damaged file is refused, of which a part would be lost without a word.
//! [`Manner::Lenient`] has the same calls for such files; a [`Season`] is lenient.
//!
//! A thin layer over the C interface of the proved library (`include/vmd.h`). What the calls answer is its doing; this crate
//! adds the types of Rust, memory for what is written, words for a [`Change`], and [`save`], which puts a take in the place
//! of another and loses neither on the way. The calls keep no state and can be made from any thread; [`Take::parts`],
//! [`split_into`], [`split_sizes`] and [`Season::add`] take up to 256 KiB of its stack, [`tidy`], [`tidy_into`] and
//! [`tidy_size`] up to 512 KiB.
//!
//! ```
//! // a take of one property frame that switches a leg's inverse kinematics off
//! let mut frames = Vec::new();
//! frames.extend(90u32.to_le_bytes()); // frame
//! frames.push(1); // visible
//! frames.extend(1u32.to_le_bytes()); // IK states
//! frames.extend(b"leg\0\0\0\0\0\0\0\0\0\0\0\0\0\0\0\0\0");
//! frames.push(0); // off
//! let file = vmd::Parts { model_name: b"dancer", property_frames: &frames, ..Default::default() }.build()?;
//!
//! let take = vmd::Take::open(&file)?;
//! assert_eq!(take.model_name(), b"dancer");
//! assert_eq!((take.smallest_frame(), take.largest_frame()), (90, 90));
//! let leg = take.ik_state(0, 0).unwrap();
//! assert_eq!((leg.name, leg.enabled), (&b"leg"[..], false));
//!
//! // twice the take: both property frames are there
//! let twice = vmd::join(&file, &file)?;
//! assert_eq!(vmd::Take::open(&twice)?.ik_states(), 2);
//!
//! // of two at one frame the later one shows: tidying keeps that alone
//! let tidied = vmd::tidy(&twice)?;
//! assert_eq!((tidied.sections.properties.kept, tidied.sections.properties.dropped), (1, 1));
//! assert_eq!(tidied.file, file);
//!
//! // from frame 60 on, which becomes frame 0: what was at frame 90 is at frame 30
//! let piece = vmd::excerpt(&file, 60, u32::MAX)?;
//! assert_eq!(vmd::Take::open(&piece)?.largest_frame(), 30);
//!
//! // saving would touch none of these files
//! assert!(vmd::is_canonical(&file)? && vmd::is_canonical(&tidied.file)? && vmd::is_canonical(&piece)?);
//!
//! // columns and records to edit, and the take that they make
//! let parts = take.parts()?;
//! assert_eq!(parts.property_frames, frames);
//! assert_eq!(parts.build()?, vmd::export(&file)?);
//! # Ok::<(), vmd::Error>(())
//! ```
#![deny(unsafe_code)]
#![warn(missing_docs, clippy::undocumented_unsafe_blocks)]

#[allow(unsafe_code)]
mod c;
mod canonical;
mod excerpt;
#[allow(unsafe_code)]
mod header;
mod manner;
mod parts;
mod properties;
mod refusal;
mod rights;
mod save;
mod season;
mod shown;
#[allow(unsafe_code)]
mod system;
mod take;
mod tidy;

pub use c::first_fault;
pub use canonical::{Change, Section, Touched, first_change, is_canonical};
pub use excerpt::{excerpt, excerpt_into, excerpt_size};
pub use manner::Manner;
pub use parts::{NameTable, OwnedParts, Parts, PartsMut, TableSizes, split_into, split_sizes};
pub use refusal::{Error, Refusal};
pub use save::{FileId, SaveError, save, save_and_clear};
pub use season::{Figures, Mean, Season};
pub use shown::shown;
pub use take::{
    BoneFrame, CameraFrame, IkState, LightFrame, MorphFrame, PropertyFrame, SelfShadowFrame, Take, export, export_into,
    export_older, export_older_into, export_older_size, export_size, join, join_into, join_size, joined_model,
};
pub use tidy::{Tidied, TidiedSection, TidiedSections, tidy, tidy_into, tidy_size};
