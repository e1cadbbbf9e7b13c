//! Stand-in: only raw mode normalizes names.

pub(crate) fn normalize_vmd_name(_name: &[u8]) -> Vec<u8> {
    panic!("raw mode is not compared")
}
