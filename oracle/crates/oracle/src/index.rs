//! Where request h)'s table comes from: every pair alone through the original's decoding library, held against the runs that the
//! definitions have and against the words that the library is built with.

use crate::names::{pair_of, BESIDE_THE_INDEX, POINTERS, RUNS};
use encoding_rs::SHIFT_JIS;
use std::path::Path;

/// Beside the repository's root.
const DEFINITIONS: &str = "crates/vmd_format/specs/Characters.antt";
const TABLE: &str = "crates/vmd_presence/src/lib.rt";

const WORDS: usize = 353;
const WORD_BITS: usize = 32;
const BITS: usize = WORDS * WORD_BITS;

type Run = (usize, usize);

const SHOWN: usize = 5;

pub struct Report {
    pub lines: Vec<String>,
    pub differences: Vec<String>,
}

impl Report {
    pub fn print(&self) {
        self.lines.iter().for_each(|line| println!("{line}"));
        self.differences.iter().take(SHOWN).for_each(|difference| println!("  DIFFERENCE {difference}"));
    }
}

/// The definitions and the table of the repository with this root.
pub fn check(root: &Path) -> Report {
    let decoded = decoded_bits();
    let runs = runs_of(&decoded);
    let mut report = Report { lines: Vec::new(), differences: Vec::new() };
    report.lines.push("Index: which pairs have a character, each of them decoded alone".to_owned());
    report.lines.push(format!(
        "  {} bits in {} runs, {} to {} left out; of the {} pairs of these, {} decode, to U+E000 and on",
        set_in(&decoded),
        runs.len(),
        BESIDE_THE_INDEX.start(),
        BESIDE_THE_INDEX.end(),
        BESIDE_THE_INDEX.count(),
        BESIDE_THE_INDEX.filter(|&pointer| decodes_beside(pointer)).count(),
    ));
    report.differences.extend(beside_differences());
    report.hold("the comparison's runs", Ok((shown_runs(&RUNS), runs_differ(&RUNS, &decoded))));
    let definitions = read(root, DEFINITIONS).and_then(|text| runs_in(&text));
    report.hold(DEFINITIONS, definitions.map(|runs| (shown_runs(&runs), runs_differ(&runs, &decoded))));
    let table = read(root, TABLE).and_then(|text| words_in(&text));
    report.hold(TABLE, table.map(|words| (shown_words(&words), words_differ(&words, &decoded))));
    report
}

impl Report {
    /// What was found, and its differences; or why there was nothing to compare.
    fn hold(&mut self, from: &str, found: Result<(String, Vec<String>), String>) {
        let differences = found.map_or_else(
            |reason| vec![reason],
            |(shown, differences)| {
                self.lines.push(format!("  {from}: {shown}, {} differences", differences.len()));
                differences
            },
        );
        self.differences.extend(differences.into_iter().map(|difference| format!("{from}: {difference}")));
    }
}

fn read(root: &Path, path: &str) -> Result<String, String> {
    std::fs::read_to_string(root.join(path)).map_err(|error| error.to_string())
}

// ---- what the decoding library has

fn decoded(pointer: usize) -> Option<char> {
    let text = SHIFT_JIS.decode_without_bom_handling_and_without_replacement(&pair_of(pointer))?.into_owned();
    let mut characters = text.chars();
    let first = characters.next();
    assert!(first.is_some() && characters.next().is_none(), "one character for a pair");
    first
}

/// A bit for each of the words' bits: those of the pointers that lie beside the index and those past the last pointer are not set.
fn decoded_bits() -> Vec<bool> {
    let in_index = |bit: usize| bit < POINTERS && !BESIDE_THE_INDEX.contains(&bit) && decoded(bit).is_some();
    (0..BITS).map(in_index).collect()
}

fn decodes_beside(pointer: usize) -> bool {
    decoded(pointer) == char::from_u32(0xe000 + (pointer - BESIDE_THE_INDEX.start()) as u32)
}

fn beside_differences() -> impl Iterator<Item = String> {
    let other = BESIDE_THE_INDEX.filter(|&pointer| !decodes_beside(pointer));
    other.map(|pointer| format!("pointer {pointer} decodes to {:?}", decoded(pointer)))
}

fn set_in(bits: &[bool]) -> usize {
    bits.iter().filter(|&&bit| bit).count()
}

fn runs_of(bits: &[bool]) -> Vec<Run> {
    let mut runs: Vec<Run> = Vec::new();
    for at in (0..bits.len()).filter(|&at| bits[at]) {
        match runs.last_mut() {
            Some((_, last)) if *last + 1 == at => *last = at,
            _ => runs.push((at, at)),
        }
    }
    runs
}

// ---- what is held against it

fn shown_runs(runs: &[Run]) -> String {
    let pointers: usize = runs.iter().map(|&(first, last)| (last + 1).saturating_sub(first)).sum();
    format!("{} runs of {pointers} pointers", runs.len())
}

/// They have to be the shortest ascending list, which there is one of.
fn runs_differ(runs: &[Run], decoded: &[bool]) -> Vec<String> {
    let bits: Vec<bool> = (0..BITS).map(|bit| runs.iter().any(|&(first, last)| (first..=last).contains(&bit))).collect();
    let mut differences = bits_differ(&bits, decoded);
    if differences.is_empty() && runs != runs_of(decoded) {
        differences.push("the same pointers, in other runs".to_owned());
    }
    differences
}

fn shown_words(words: &[u32]) -> String {
    let bits: u32 = words.iter().map(|word| word.count_ones()).sum();
    format!("{} words with {bits} bits set", words.len())
}

fn words_differ(words: &[u32], decoded: &[bool]) -> Vec<String> {
    let bits: Vec<bool> = words.iter().flat_map(|word| (0..WORD_BITS).map(move |bit| word >> bit & 1 == 1)).collect();
    bits_differ(&bits, decoded)
}

fn bits_differ(bits: &[bool], decoded: &[bool]) -> Vec<String> {
    if bits.len() != decoded.len() {
        return vec![format!("{} bits, expected {}", bits.len(), decoded.len())];
    }
    let other = (0..bits.len()).filter(|&bit| bits[bit] != decoded[bit]);
    other.map(|bit| format!("bit {bit} is {}, expected {}", bits[bit] as u8, decoded[bit] as u8)).collect()
}

// ---- the two files

fn without_comments(text: &str, comment: &str) -> String {
    text.lines().map(|line| line.split(comment).next().unwrap_or("").to_owned() + "\n").collect()
}

/// `runs = (0, 107) ∷ .. ∷ []`, over any number of lines.
fn runs_in(text: &str) -> Result<Vec<Run>, String> {
    let text = without_comments(text, "--");
    let (_, list) = text.split_once("\nruns =").ok_or("no definition of runs")?;
    let (list, _) = list.split_once("[]").ok_or("the list of runs has no end")?;
    let list = list.trim_end().strip_suffix('∷').ok_or("the list of runs has no end")?;
    list.split('∷').map(|run| run_in(run.trim()).ok_or(format!("no run: {run}"))).collect()
}

fn run_in(text: &str) -> Option<Run> {
    let (first, last) = text.strip_prefix('(')?.strip_suffix(')')?.split_once(',')?;
    Some((first.trim().parse().ok()?, last.trim().parse().ok()?))
}

/// `const PRESENCE: [u32; ..] = [ .. ];`, decimal words.
fn words_in(text: &str) -> Result<Vec<u32>, String> {
    let text = without_comments(text, "//");
    let (_, table) = text.split_once("const PRESENCE:").ok_or("no constant PRESENCE")?;
    let (_, words) = table.split_once('=').ok_or("PRESENCE has no value")?;
    let words = words.trim_start().strip_prefix('[').ok_or("PRESENCE is no array")?;
    let (words, _) = words.split_once(']').ok_or("the array has no end")?;
    let words = words.trim_end();
    let words = words.strip_suffix(',').unwrap_or(words);
    words.split(',').map(|word| word.trim().parse().map_err(|_| format!("no word: {word}"))).collect()
}

// ---- self-test

/// Runs and words with one mistake each, by what it is and whether it is reported.
pub fn self_test() -> Vec<(&'static str, bool)> {
    let decoded = decoded_bits();
    let (right_runs, right_words) = (runs_of(&decoded), words_of(&decoded));
    let runs = |change: fn(&mut Vec<Run>)| {
        let mut runs = right_runs.clone();
        change(&mut runs);
        !runs_differ(&runs, &decoded).is_empty()
    };
    let words = |change: fn(&mut Vec<u32>)| {
        let mut words = right_words.clone();
        change(&mut words);
        !words_differ(&words, &decoded).is_empty()
    };
    assert!(!runs(|_| ()) && !words(|_| ()), "without a mistake there is no difference");
    vec![
        ("a run that ends too early", runs(|runs| runs[0].1 -= 1)),
        ("a run that begins too early", runs(|runs| runs[19].0 -= 1)),
        ("a run of one pointer left out", runs(|runs| runs.retain(|&(first, last)| first != last))),
        ("the last run left out", runs(|runs| runs.truncate(23))),
        ("the range beside the index among the runs", runs(|runs| runs[23].0 = *BESIDE_THE_INDEX.start())),
        ("a run in two", runs(|runs| runs.splice(0..1, [(0, 50), (51, 107)]).for_each(drop))),
        ("runs in another order", runs(|runs| runs.swap(3, 4))),
        ("a bit not set", words(|words| words[0] &= !1)),
        ("the highest bit of a word lowest", words(|words| words[3] = words[3].reverse_bits())),
        ("words in another order", words(|words| words.swap(3, 4))),
        ("the first bit beside the index set", words(|words| words[8836 / WORD_BITS] |= 1 << (8836 % WORD_BITS))),
        ("the last bit beside the index set", words(|words| words[10715 / WORD_BITS] |= 1 << (10715 % WORD_BITS))),
        ("the bit past the last pointer set", words(|words| words[WORDS - 1] |= 1 << (POINTERS % WORD_BITS))),
        ("the last bit set", words(|words| words[WORDS - 1] |= 1 << (WORD_BITS - 1))),
        ("a word too few", words(|words| words.truncate(WORDS - 1))),
        ("a word too many", words(|words| words.push(0))),
    ]
}

fn words_of(bits: &[bool]) -> Vec<u32> {
    let word = |bits: &[bool]| bits.iter().rev().fold(0, |word, &bit| word << 1 | u32::from(bit));
    bits.chunks(WORD_BITS).map(word).collect()
}
