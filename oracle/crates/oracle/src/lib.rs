//! What the original Rust answers, the inputs that it is asked about, and what a strict reader meets in them.

pub mod crowded;
pub mod files;
pub mod index;
pub mod named;
pub mod names;
pub mod older;
pub mod original;
pub mod part_sets;
pub mod parts;
pub mod properties;
pub mod random;
pub mod remarks;
pub mod spans;
pub mod strict;
pub mod turned_down;
