//! Excerpts of a file. The original makes none: what is expected is its export of the records that it read, those between the
//! two frames alone and with the first subtracted.

use crate::check::{check_in_both, check_in_both_into, same, Checked};
use crate::lent::{Input, Output};
use crate::library;
use crate::manner::{self, Expected, FilesMet, Read};
use crate::tally::Answers;
use oracle::original::{self, FIRST_ABOVE_LAST};
use oracle::random::Random;
use oracle::spans::{self, Span, WHOLE};
use oracle::strict::{self, BYTES_OVER};

#[derive(Default)]
pub struct ExcerptCheck {
    input: Input,
    output: Output,
    seed: u64,
    turn: u64,
    pub tally: ExcerptTally,
    /// Of the files that were made for excerpts.
    pub met: FilesMet,
}

/// Excerpts by what came of them in the lenient manner, and those that the strict one turns down.
#[derive(Default)]
pub struct ExcerptTally {
    /// Of takes with records: all of them stay, some, or none.
    pub all: u64,
    pub some: u64,
    pub none: u64,
    /// Of takes without records.
    pub empty: u64,
    /// From 0 to 4,294,967,295, which are among these.
    pub whole: u64,
    pub kept: u64,
    pub left_out: u64,
    /// 1 or 2.
    pub refused: u64,
    /// Strictly 16, and 17.
    pub turned_down: [u64; 2],
    /// 18 for a file that is otherwise accepted, 1 or 2, and strictly 16 or 17.
    pub above: [u64; 3],
}

impl ExcerptCheck {
    /// Spans of files that are not drawn with one come from this seed.
    pub fn new(seed: u64) -> Self {
        ExcerptCheck { seed, ..ExcerptCheck::default() }
    }

    /// One excerpt, with another span for each file.
    pub fn check(&mut self, file: &[u8], read: &Expected<Read>) -> Checked {
        self.turn += 1;
        let span = spans::span(&frames_of(read), &mut Random::for_case(self.seed, self.turn));
        self.check_span(file, read, span).map(|_| ())
    }

    /// The excerpt with the span that is chosen for the file's frames. The answer in each manner; or a difference.
    pub fn check_file(&mut self, file: &[u8], choose: impl FnOnce(&[u32]) -> Span) -> Result<Answers, String> {
        let mut input = std::mem::take(&mut self.input);
        let checked = self.check_held(input.hold(file), choose);
        self.input = input;
        checked
    }

    fn check_held(&mut self, file: &[u8], choose: impl FnOnce(&[u32]) -> Span) -> Result<Answers, String> {
        let met = strict::met(file);
        let read = manner::read(file, met)?;
        let answers = self.check_span(file, &read, choose(&frames_of(&read)))?;
        self.met.add(file, met);
        Ok(answers)
    }

    /// "The excerpt of a join equals the join of the excerpts": both by the library, of whole takes.
    pub fn check_joined(&mut self, takes: [&[u8]; 2], choose: impl FnOnce(&[u32]) -> Span) -> Result<Answers, String> {
        let joined = original::join_files(takes[0], takes[1]).expect("whole takes are joined");
        let frames = frames_of(&manner::read(&joined, strict::met(&joined))?);
        let span = choose(&frames);
        let answers = self.check_file(&joined, |_| span)?;
        if span.first_is_above() {
            return Ok(answers);
        }
        let excerpt = |file: &[u8]| original::excerpt_file(file, span).expect("whole takes have excerpts");
        let [first, second] = takes.map(excerpt);
        check_in_both(
            &format!("join of {}", shown(span)),
            &Expected { lenient: Ok(excerpt(&joined)), strict: 0 },
            &mut self.output,
            |manner, size| library::join_size(manner, &first, &second, size),
            |manner, out, written| library::join_animations(manner, &first, &second, out, written),
        )?;
        Ok(answers)
    }

    fn check_span(&mut self, file: &[u8], read: &Expected<Read>, span: Span) -> Result<Answers, String> {
        let excerpt = excerpt_of(read, span);
        if let (Ok(read), Ok(excerpt)) = (&read.lenient, &excerpt.lenient) {
            check_expected(read, excerpt, span)?;
        }
        check_in_both_into(
            &lengths(read, &excerpt),
            &shown(span),
            &excerpt.map(|excerpt| &excerpt.exported[..]),
            &mut self.output,
            |manner, size| library::excerpt_size(manner, file, span, size),
            |manner, out, written| library::excerpt_animation(manner, file, span, out, written),
        )?;
        self.tally.add(read, &excerpt, span);
        Ok(excerpt.answers())
    }
}

fn shown(span: Span) -> String {
    format!("excerpt from {} to {}", span.first, span.last)
}

fn frames_of(read: &Expected<Read>) -> Vec<u32> {
    read.lenient.as_ref().map_or(Vec::new(), |read| original::frames(&read.take).collect())
}

/// The take that stays and its export. 18 stands before all that reading refuses, in both manners.
fn excerpt_of(read: &Expected<Read>, span: Span) -> Expected<Read> {
    if span.first_is_above() {
        return Expected { lenient: Err(FIRST_ABOVE_LAST), strict: FIRST_ABOVE_LAST };
    }
    read.map(|read| {
        let take = original::excerpt(&read.take, span);
        Read { exported: original::export(&take), take }
    })
}

/// Outputs around the excerpt's length, and around the export's, below which the library counts first what stays. Where the
/// excerpt is refused, one that could hold it.
fn lengths(read: &Expected<Read>, excerpt: &Expected<Read>) -> Vec<usize> {
    let Ok(exported) = read.lenient.as_ref().map(|read| read.exported.len()) else { return vec![0, 90] };
    let Ok(len) = excerpt.lenient.as_ref().map(|excerpt| excerpt.exported.len()) else { return vec![0, exported + 29] };
    let mut lengths = vec![0, len - 1, len, len + 1, exported - 1, exported, exported + 29];
    lengths.sort_unstable();
    lengths.dedup();
    lengths
}

/// The original reads the file to which the library's is held, finds these records in it and exports it as it is. That of every
/// frame is the export.
fn check_expected(read: &Read, excerpt: &Read, span: Span) -> Checked {
    let back = original::read(&excerpt.exported).map_err(|refusal| format!("the original refuses the excerpt with {refusal}"))?;
    same("records of the excerpt", original::counts_of(&back), original::counts_of(&excerpt.take))?;
    same("the excerpt, exported by the original", &original::export(&back)[..], &excerpt.exported)?;
    if span == WHOLE {
        same("the excerpt of every frame", &excerpt.exported[..], &read.exported)?;
    }
    Ok(())
}

impl ExcerptTally {
    fn add(&mut self, read: &Expected<Read>, excerpt: &Expected<Read>, span: Span) {
        let Answers { lenient, strict } = read.answers();
        if span.first_is_above() {
            let otherwise = match (lenient, strict) {
                (0, 0) => 0,
                (0, _) => 2,
                _ => 1,
            };
            self.above[otherwise] += 1;
            return;
        }
        let (Ok(read), Ok(excerpt)) = (&read.lenient, &excerpt.lenient) else {
            self.refused += 1;
            return;
        };
        if strict > 0 {
            self.turned_down[(strict - BYTES_OVER) as usize] += 1;
        }
        let records = |read: &Read| original::counts_of(&read.take).iter().sum::<usize>() as u64;
        let (of_file, kept) = (records(read), records(excerpt));
        *match kept {
            _ if of_file == 0 => &mut self.empty,
            0 => &mut self.none,
            _ if kept == of_file => &mut self.all,
            _ => &mut self.some,
        } += 1;
        self.whole += (span == WHOLE) as u64;
        self.kept += kept;
        self.left_out += of_file - kept;
    }
}
