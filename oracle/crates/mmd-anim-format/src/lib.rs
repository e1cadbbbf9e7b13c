//! The original binary.rs, sjis.rs and vmd/mod.rs, with stand-ins for the modules that they name.
#![allow(dead_code)]

mod binary;
pub mod error;
mod normalize;
mod sjis;
pub mod vmd;
