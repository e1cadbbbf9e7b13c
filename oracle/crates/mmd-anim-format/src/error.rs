//! Stand-in: the variants are forced by their uses. They carry values and decide nothing.

use thiserror::Error;

#[derive(Debug, Error, Clone, PartialEq, Eq)]
pub enum ImportError {
    #[error("unexpected end of file: {0} bytes missing")]
    UnexpectedEof(usize),
    #[error("invalid VMD magic")]
    InvalidVmdMagic,
    #[error("invalid VMD model name")]
    InvalidVmdModelName,
    #[error("section overflow")]
    SectionOverflow,
    #[error("unsupported {format}: {detail}")]
    UnsupportedFormat { format: &'static str, detail: &'static str },
}
