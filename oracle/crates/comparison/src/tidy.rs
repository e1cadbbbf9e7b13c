//! A file tidied. Expected are the records that the original's `last_vmd_keys_per_frame` keeps of each track of its reading, as
//! its exporter writes them; bones and morphs are of one track where its `vmd_registration_name` leaves the same of their names.

use crate::check::{same, Checked, SLOT};
use crate::lent::{Input, Output, Scratch};
use crate::library::{self, Figures};
use crate::manner::{self, Expected, FilesMet, Manner, Read, MANNERS};
use crate::tally::Answers;
use oracle::original::{self, VmdParsedAnimation, OUTPUT_TOO_SHORT, SCRATCH_TOO_SHORT};
use oracle::strict;

#[derive(Default)]
pub struct TidyCheck {
    input: Input,
    scratch: Scratch,
    output: Output,
    turn: usize,
    pub tally: TidyTally,
    /// Of the takes that were made to be tidied.
    pub met: FilesMet,
}

/// Takes whose tidied file was compared: all, those of which records were dropped, and those that were put in another order.
#[derive(Default)]
pub struct TidyTally {
    pub takes: u64,
    pub dropped_from: u64,
    pub reordered: u64,
    /// Bone and morph tracks, and those of the other sections.
    pub tracks: u64,
    pub kept: u64,
    pub dropped: u64,
    /// Takes with a line feed in the name of a bone or morph, tracks whose names are not all the same, and records that are
    /// dropped where whole names would tell the tracks and keep them.
    pub with_line_feeds: u64,
    pub several_spellings: u64,
    pub dropped_by_key: u64,
}

/// What tidying has to give.
struct Tidied {
    bytes: Vec<u8>,
    figures: Figures,
    /// Records of the largest section.
    places: usize,
    exported_len: usize,
}

const UNSET: Figures = Figures { kept: [SLOT as u32; 6], dropped: [SLOT as u32 + 1; 6] };

/// Places of the scratch and bytes of the output.
#[derive(Clone, Copy, Debug)]
struct Lengths {
    places: usize,
    out: usize,
}

impl TidyCheck {
    /// Every trial; of a long file three. The answer in each manner; or a difference.
    pub fn check_file(&mut self, file: &[u8]) -> Result<Answers, String> {
        let mut input = std::mem::take(&mut self.input);
        let checked = self.check_held(input.hold(file));
        self.input = input;
        checked
    }

    fn check_held(&mut self, file: &[u8]) -> Result<Answers, String> {
        let met = strict::met(file);
        let read = manner::read(file, met)?;
        let tidied = self.tidied(&read)?;
        for trial in (0..TRIALS).filter(|trial| file.len() < LONG || LONG_TRIALS.contains(trial)) {
            self.check_trial(file, &tidied, trial)?;
        }
        self.met.add(file, met);
        Ok(read.answers())
    }

    /// "Tidying a join equals tidying the join of the two tidied takes": both by the original, and the library tidies both.
    pub fn check_joined(&mut self, takes: [&[u8]; 2]) -> Result<Answers, String> {
        let joined = original::join_files(takes[0], takes[1]).expect("whole takes are joined");
        let [first, second] = takes.map(original_tidied);
        let of_tidied = original::join_files(&first, &second).expect("tidied takes are joined");
        same("the tidied join, by the original", &original_tidied(&joined)[..], &original_tidied(&of_tidied))?;
        self.check_file(&of_tidied)?;
        self.check_file(&joined)
    }

    /// One trial, another one for each file.
    pub fn check(&mut self, file: &[u8], read: &Expected<Read>) -> Checked {
        let tidied = self.tidied(read)?;
        self.turn += 1;
        self.check_trial(file, &tidied, self.turn % TRIALS)
    }

    fn tidied(&mut self, read: &Expected<Read>) -> Result<Expected<Tidied>, String> {
        let tidied = read.map(tidied_of);
        if let (Ok(read), Ok((tidied, take))) = (&read.lenient, &tidied.lenient) {
            check_read_back(&tidied.bytes, take)?;
            self.tally.add(read, tidied);
        }
        Ok(Expected { lenient: tidied.lenient.map(|(tidied, _)| tidied), strict: tidied.strict })
    }

    /// The strict manner is lent what the lenient one needs.
    fn check_trial(&mut self, file: &[u8], tidied: &Expected<Tidied>, trial: usize) -> Checked {
        let lengths = match &tidied.lenient {
            Err(_) => Lengths { places: [0, 3][trial % 2], out: [0, 90][trial / 2 % 2] },
            Ok(tidied) => lengths_of(tidied, trial),
        };
        for manner in MANNERS {
            if trial < SIZE_TRIALS {
                self.check_size(manner, file, lengths.places, tidied.in_manner(manner))?;
            } else {
                self.check_written(manner, file, lengths, tidied.in_manner(manner))?;
            }
        }
        Ok(())
    }

    fn check_size(&mut self, manner: Manner, file: &[u8], places: usize, tidied: Result<&Tidied, u32>) -> Checked {
        let (mut size, mut figures) = (SLOT, UNSET);
        let answer = library::tidy_size(manner, file, self.scratch.lend(places), &mut size, &mut figures);
        let expected = expected_of(tidied, Lengths { places, out: usize::MAX });
        let shown = |part: &str| format!("{manner} tidied size with {places} places: {part}");
        same(&shown("answer"), answer, expected.err().unwrap_or(0))?;
        same(&shown("size"), size, expected.map_or(SLOT, |tidied| tidied.bytes.len() as u64))?;
        self.check_left(figures, expected).map_err(|difference| shown(&difference))
    }

    fn check_written(&mut self, manner: Manner, file: &[u8], lengths: Lengths, tidied: Result<&Tidied, u32>) -> Checked {
        let (mut written, mut figures) = (SLOT, UNSET);
        let (scratch, out) = (self.scratch.lend(lengths.places), self.output.lend(lengths.out));
        let answer = library::tidy_animation(manner, file, scratch, out, &mut written, &mut figures);
        let expected = expected_of(tidied, lengths);
        let shown = |part: &str| format!("{manner} tidied with {lengths:?}: {part}");
        same(&shown("answer"), answer, expected.err().unwrap_or(0))?;
        same(&shown("length written"), written, expected.map_or(SLOT, |tidied| tidied.bytes.len() as u64))?;
        self.output.holds(expected.map_or(&[], |tidied| &tidied.bytes)).map_err(|difference| shown(&difference))?;
        self.check_left(figures, expected).map_err(|difference| shown(&difference))
    }

    /// The two numbers for each section, and zeros in the scratch; all as it was after a refusal.
    fn check_left(&self, figures: Figures, expected: Result<&Tidied, u32>) -> Checked {
        same("kept and dropped", &figures, expected.map_or(&UNSET, |tidied| &tidied.figures))?;
        self.scratch.holds(&vec![0; expected.map_or(0, |tidied| tidied.places)])
    }
}

/// What tidying has to give, and the take that it keeps.
fn tidied_of(read: &Read) -> (Tidied, VmdParsedAnimation) {
    let take = original::tidied(&read.take);
    let (counts, kept) = (original::counts_of(&read.take), original::counts_of(&take));
    let dropped = std::array::from_fn(|i| (counts[i] - kept[i]) as u32);
    let figures = Figures { kept: kept.map(|count| count as u32), dropped };
    let places = *counts.iter().max().unwrap();
    (Tidied { bytes: original::export(&take), figures, places, exported_len: read.exported.len() }, take)
}

fn original_tidied(file: &[u8]) -> Vec<u8> {
    original::export(&original::tidied(&original::read(file).expect("a whole take")))
}

/// Refusals 3 and 13 by request g).
fn expected_of(tidied: Result<&Tidied, u32>, lengths: Lengths) -> Result<&Tidied, u32> {
    match tidied {
        Ok(tidied) if lengths.places < tidied.places => Err(SCRATCH_TOO_SHORT),
        Ok(tidied) if lengths.out < tidied.bytes.len() => Err(OUTPUT_TOO_SHORT),
        _ => tidied,
    }
}

const TRIALS: usize = 12;

/// The first of them ask for the size alone.
const SIZE_TRIALS: usize = 3;

/// Bytes of a file that takes its time, and what is tried with it: the size, the exact output, and one byte less, for which the
/// kept records have to be counted.
const LONG: usize = 100_000;
const LONG_TRIALS: [usize; 3] = [0, 3, 5];

fn lengths_of(tidied: &Tidied, trial: usize) -> Lengths {
    let (places, len, exported) = (tidied.places, tidied.bytes.len(), tidied.exported_len);
    let fewer = places.saturating_sub(1);
    let (places, out) = match trial {
        0 => (places, 0),
        1 => (places + 3, 0),
        2 => (fewer, 0),
        3 => (places, len),
        4 => (places + 3, len - 1),
        5 => (places, len - 1),
        6 => (places + 3, len + 1),
        7 => (places, exported),
        8 => (places + 1, exported + 29),
        9 => (places, 0),
        10 => (fewer, len),
        _ => (fewer, 0),
    };
    Lengths { places, out }
}

/// The original reads the file to which the library's is held: it has the records that were kept, and would keep all of them.
fn check_read_back(bytes: &[u8], tidied: &VmdParsedAnimation) -> Checked {
    let read = original::read(bytes).map_err(|refusal| format!("the original refuses the tidied file with {refusal}"))?;
    same("records of the tidied file", original::counts_of(&read), original::counts_of(tidied))?;
    same("the tidied file, tidied by the original", &original::export(&original::tidied(&read))[..], bytes)
}

impl TidyTally {
    fn add(&mut self, Read { take, exported }: &Read, Tidied { bytes, figures, .. }: &Tidied) {
        let sum = |numbers: &[u32; 6]| numbers.iter().map(|&number| number as u64).sum::<u64>();
        let [bones, morphs] = original::distinct_names(take, original::registration_name);
        let others = original::counts_of(take)[2..].iter().filter(|&&count| count > 0).count();
        let dropped = sum(&figures.dropped);
        self.takes += 1;
        self.dropped_from += (dropped > 0) as u64;
        self.reordered += (dropped == 0 && bytes != exported) as u64;
        self.tracks += (bones + morphs + others) as u64;
        self.kept += sum(&figures.kept);
        self.dropped += dropped;
        self.add_remarks(take, figures);
    }

    fn add_remarks(&mut self, take: &VmdParsedAnimation, figures: &Figures) {
        let mut names = original::names(take);
        if !names.any(|name| name.contains(&b'\n')) {
            return;
        }
        let raw = original::counts_of(&original::tidied_by(take, original::raw_name));
        self.with_line_feeds += 1;
        self.several_spellings += original::tracks_of_several_names(take) as u64;
        self.dropped_by_key += (0..2).map(|i| raw[i] as u64 - figures.kept[i] as u64).sum::<u64>();
    }
}
