//! Season figures over lists of files. The original has none: expected are those of its readings, by the rules of requests b)
//! and k), names told apart as it registers them.

use crate::check::{same, Checked, SLOT};
use crate::library::{self, Season};
use oracle::original::{self, VmdParsedAnimation};

/// Files of the longest list.
pub const LONGEST: u64 = 40;

pub struct SeasonCheck {
    season: Season,
    /// Files that the list has yet to come.
    left: u64,
    pub lists: u64,
    pub accepted: u64,
    pub refused: u64,
    /// Takes that the original reads, and with which a figure would pass 64 bits.
    pub passed: u64,
}

impl Default for SeasonCheck {
    fn default() -> Self {
        SeasonCheck { season: unset(), left: 0, lists: 0, accepted: 0, refused: 0, passed: 0 }
    }
}

fn unset() -> Season {
    Season { counts: [SLOT as u32; 12], figures: [SLOT; 11] }
}

impl SeasonCheck {
    /// The file is the next of a list; every slot is looked at after it.
    pub fn check(&mut self, file: &[u8], take: Option<&VmdParsedAnimation>) -> Checked {
        if self.left == 0 {
            self.begin()?;
        }
        self.left -= 1;
        let mut ours = self.season.clone();
        library::season_add(file, &mut ours);
        let counted = take.and_then(|take| counted(&self.season, take));
        match (take.is_some(), counted.is_some()) {
            (true, true) => self.accepted += 1,
            (true, false) => self.passed += 1,
            _ => self.refused += 1,
        }
        let expected = counted.unwrap_or_else(|| refused(&self.season));
        let before = std::mem::replace(&mut self.season, expected);
        same("season figures", &ours, &self.season).map_err(|difference| format!("{difference}, after {before:?}"))?;
        check_mean(&self.season.figures)
    }

    /// Another list, of no takes yet. Every fourth goes on from other numbers, with little room in one figure, another each time.
    fn begin(&mut self) -> Checked {
        let n = self.lists;
        self.lists += 1;
        self.left = 1 + n % LONGEST;
        self.season = unset();
        library::season_none(&mut self.season);
        let none = Season { counts: [0; 12], figures: [0; 11] };
        let ours = std::mem::replace(&mut self.season, none);
        same("season figures of no takes", &ours, &self.season)?;
        if n % 4 == 3 {
            self.season = unset();
            self.season.figures[9] = n / 4 % 2; // with no takes what stands in counts is nothing
            self.season.figures[n as usize / 4 % 11] = u64::MAX - n % 23;
        }
        check_mean(&self.season.figures)
    }
}

/// The figures with the take, where none of them passes 64 bits.
fn counted(season: &Season, take: &VmdParsedAnimation) -> Option<Season> {
    let counts = original::counts_of(take);
    let [bone_names, morph_names] = original::distinct_names(take, original::registration_name);
    let added = counts.into_iter().chain([counts.iter().sum(), bone_names, morph_names, 1]);
    let mut with = season.clone();
    for (figure, added) in with.figures.iter_mut().zip(added) {
        *figure = figure.checked_add(added as u64)?;
    }
    let first = season.figures[9] == 0;
    for (i, count) in counts.into_iter().enumerate() {
        let count = count as u32;
        with.counts[i] = if first { count } else { season.counts[i].min(count) };
        with.counts[6 + i] = if first { count } else { season.counts[6 + i].max(count) };
    }
    Some(with)
}

fn refused(season: &Season) -> Season {
    let mut with = season.clone();
    with.figures[10] = season.figures[10].saturating_add(1);
    with
}

fn check_mean(figures: &[u64; 11]) -> Checked {
    let (records, accepted) = (figures[6], figures[9]);
    let mean = [records.checked_div(accepted).unwrap_or(0), records.checked_rem(accepted).unwrap_or(0)];
    same("season mean", library::season_mean(figures), mean)
        .map_err(|difference| format!("{difference}, of {records} records and {accepted} takes"))
}
