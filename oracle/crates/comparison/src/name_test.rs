//! The test of a name's bytes: the library, the rule of document 01 and request h), and the original with its decoding library.

use crate::check::same;
use crate::library;
use mmd_anim_format::vmd::VmdPoseExport;
use oracle::names::{decoder_stops, first_fault, mark_of};
use oracle::original::NOT_GOOD;
use std::collections::BTreeMap;

#[derive(Default)]
pub struct NameTally {
    /// By both, of names that do not start with a byte order mark.
    pub accepted: u64,
    pub refused: u64,
    /// Names with a zero byte, which the original's other test refuses: the place alone is compared.
    pub with_zero: u64,
    /// Places before the name's end.
    pub faults: u64,
    pub marks: BTreeMap<&'static [u8], MarkTally>,
}

/// Names that start with a byte order mark.
#[derive(Default)]
pub struct MarkTally {
    pub alike: u64,
    /// Those that the original answers otherwise, and the first of the shortest among them.
    pub other: u64,
    pub shortest: Option<Vec<u8>>,
}

fn original_accepts(name: &[u8]) -> bool {
    VmdPoseExport::validate_vmd_parts_name(name, name.len(), "name").is_ok()
}

impl NameTally {
    /// The answer is 0, or 7 where the name is not good.
    pub fn check(&mut self, name: &[u8]) -> Result<u32, String> {
        let place = library::first_fault(name);
        same("first fault", place, first_fault(name))?;
        same("where the decoder stops", place, decoder_stops(name))?;
        let good = place == name.len();
        self.faults += u64::from(!good);
        if name.contains(&0) {
            self.with_zero += 1;
        } else if let Some(mark) = mark_of(name) {
            self.marks.entry(mark).or_default().count(name, good == original_accepts(name));
        } else {
            same("name accepted", good, original_accepts(name))?;
            *(if good { &mut self.accepted } else { &mut self.refused }) += 1;
        }
        Ok(if good { 0 } else { NOT_GOOD })
    }
}

impl MarkTally {
    fn count(&mut self, name: &[u8], alike: bool) {
        if alike {
            self.alike += 1;
            return;
        }
        self.other += 1;
        if self.shortest.as_ref().map_or(true, |shortest| name.len() < shortest.len()) {
            self.shortest = Some(name.to_vec());
        }
    }
}
