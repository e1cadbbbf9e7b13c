//! The two manners of reading (02 i): what each has to give, and the files by what the strict one meets in them.

use crate::check::Checked;
use crate::tally::Answers;
use oracle::older::{is_older, NARROWER};
use oracle::original::{self, VmdParsedAnimation};
use oracle::strict::{self, Met, EMPTIED};
use std::fmt;

#[derive(Clone, Copy, PartialEq, Eq, Debug)]
pub enum Manner {
    Lenient,
    Strict,
}

pub const MANNERS: [Manner; 2] = [Manner::Lenient, Manner::Strict];

impl fmt::Display for Manner {
    fn fmt(&self, f: &mut fmt::Formatter) -> fmt::Result {
        f.write_str(match self {
            Manner::Lenient => "lenient",
            Manner::Strict => "strict",
        })
    }
}

/// What a call has to give: in the lenient manner what the original's reading comes to, in the strict one the same, but for
/// the refusal that the walk says, 0 with none.
pub struct Expected<T> {
    pub lenient: Result<T, u32>,
    pub strict: u32,
}

impl<T> Expected<T> {
    pub fn in_manner(&self, manner: Manner) -> Result<&T, u32> {
        match manner {
            Manner::Strict if self.strict != 0 => Err(self.strict),
            _ => self.lenient.as_ref().map_err(|&refusal| refusal),
        }
    }

    pub fn and_then<'a, U>(&'a self, give: impl FnOnce(&'a T) -> Result<U, u32>) -> Expected<U> {
        Expected { lenient: self.lenient.as_ref().map_err(|&refusal| refusal).and_then(give), strict: self.strict }
    }

    pub fn map<'a, U>(&'a self, give: impl FnOnce(&'a T) -> U) -> Expected<U> {
        self.and_then(|given| Ok(give(given)))
    }

    pub fn answers(&self) -> Answers {
        let [lenient, strict] = MANNERS.map(|manner| self.in_manner(manner).err().unwrap_or(0));
        Answers { lenient, strict }
    }
}

/// A file as the original reads it, and its export of that.
pub struct Read {
    pub take: VmdParsedAnimation,
    pub exported: Vec<u8>,
}

/// Both manners' reading of a file; a difference where the walk and the original disagree.
pub fn read(file: &[u8], met: Met) -> Result<Expected<Read>, String> {
    let lenient = original::read(file).map(|take| Read { exported: original::export(&take), take });
    check_walk(file, met, lenient.as_ref().map(|read| read.exported.len()).map_err(|&refusal| refusal))?;
    Ok(Expected { lenient, strict: met.answer() })
}

/// The walk refuses what the original refuses. In any other file it goes over as many bytes as the original's export has,
/// without the counts that the file does not have or that are not looked at.
fn check_walk(file: &[u8], met: Met, exported: Result<usize, u32>) -> Checked {
    let narrower = if is_older(file) { NARROWER } else { 0 };
    let walked = match met {
        Met::Refused { number, .. } => Err(number),
        Met::End { counts } => Ok(narrower + file.len() + 4 * (6 - counts)),
        Met::BytesOver { over, .. } => Ok(narrower + file.len() - over),
        Met::Oversized { section, left, .. } => Ok(narrower + file.len() - left + 4 * (5 - section)),
    };
    if walked == exported {
        Ok(())
    } else {
        Err(format!("the walk over the counts comes to {walked:?}, the original's export to {exported:?}"))
    }
}

/// All of the first file's refusals stand before any of the second's.
pub fn met_in_join(first: &[u8], second: &[u8]) -> u32 {
    match strict::met(first).answer() {
        0 => strict::met(second).answer(),
        refusal => refusal,
    }
}

// ---- tallies

/// Files by what the strict manner meets.
#[derive(Default, PartialEq, Eq)]
pub struct MetTally {
    accepted: u64,
    /// 1 or 2, as in the lenient manner.
    refused: u64,
    over_after_frames: u64,
    over_after_none: u64,
    oversized: [u64; 3],
}

impl MetTally {
    pub fn add(&mut self, met: Met) {
        *match met {
            Met::End { .. } => &mut self.accepted,
            Met::Refused { .. } => &mut self.refused,
            Met::BytesOver { frames: 0, .. } => &mut self.over_after_none,
            Met::BytesOver { .. } => &mut self.over_after_frames,
            Met::Oversized { section, .. } => &mut self.oversized[section - EMPTIED.start()],
        } += 1;
    }

    fn any(&self) -> bool {
        *self != MetTally::default()
    }

    fn turned_down(&self) -> String {
        let [cameras, lights, self_shadows] = self.oversized;
        let (frames, none) = (self.over_after_frames, self.over_after_none);
        format!(
            "16: {frames} after frames, {none} after a count of 0; 17: {cameras} cameras, {lights} lights, \
             {self_shadows} self-shadows"
        )
    }
}

/// Files by their edition.
#[derive(Default)]
pub struct FilesMet {
    newer: MetTally,
    older: MetTally,
}

impl FilesMet {
    pub fn add(&mut self, file: &[u8], met: Met) {
        (if is_older(file) { &mut self.older } else { &mut self.newer }).add(met);
    }

    pub fn print(&self) {
        for (edition, tally) in [("newer", &self.newer), ("older", &self.older)].into_iter().filter(|(_, tally)| tally.any()) {
            println!("  {edition} edition: {} accepted and {} refused in both manners", tally.accepted, tally.refused);
            println!("    strictly {}", tally.turned_down());
        }
    }
}

/// Joins by the file that decides, the second where nothing is met in the first.
#[derive(Default)]
pub struct JoinsMet {
    first: MetTally,
    second: MetTally,
    /// 16 or 17 of the first file, where the lenient manner goes on to a 1 or 2 of the second.
    before_the_second: u64,
}

impl JoinsMet {
    pub fn add(&mut self, first: &[u8], second: &[u8]) {
        match (strict::met(first), strict::met(second)) {
            (Met::End { .. }, met) => self.second.add(met),
            (met @ Met::Refused { .. }, _) => self.first.add(met),
            (met, second) => {
                self.first.add(met);
                self.before_the_second += matches!(second, Met::Refused { .. }) as u64;
            }
        }
    }

    pub fn print(&self) {
        let refused = self.first.refused + self.second.refused;
        println!("  {} accepted and {refused} refused in both manners", self.second.accepted);
        println!("    strictly in the first file {}", self.first.turned_down());
        println!("    strictly in the second {}", self.second.turned_down());
        println!("    {} turned down in the first file have a 1 or 2 in the second", self.before_the_second);
    }
}
