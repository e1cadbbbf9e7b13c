//! The command `vmd`: lists, checks, saves, joins, tidies and cuts takes, and gives the figures of a season.
#![deny(unsafe_code)]

#[allow(unsafe_code)]
mod memory;
mod progress;
#[allow(unsafe_code)]
mod streams;
mod tree;
mod words;

use std::env;
use std::ffi::{OsStr, OsString};
use std::fmt::{self, Write as _};
use std::fs::File;
use std::io::{self, ErrorKind, Read, Write};
use std::process::ExitCode;

use progress::Progress;
use tree::Tree;
use vmd::{Error, FileId, Manner, Refusal, Season, TidiedSections, shown};
use words::Words;

const HELP: &str = "\
vmd: VMD takes (MikuMikuDance motion files)

  vmd list FILE..                 a line for each take: bones, morphs, cameras, lights, self-shadows, properties, IK states,
                                  smallest frame, largest frame, export length; or 'refused' and the number of the refusal.
                                  With several files each line has the file's name and ': ' before it
  vmd check FILE..                a line for each take, with its name as in 'list': 'canonical' where 'export' would save just
                                  the same bytes; else what that would touch first, as 'byte 60 is 7 and would be 0: after
                                  the name of bone 0'; or 'refused' and the number. Bytes are counted from 0, and so are the
                                  records of a section and the IK states of a property frame
  vmd export IN -o OUT            saves a take in canonical form: all six sections, zeros after each name, flags 0 or 1, and
                                  no bytes after the last record
  vmd export --older IN -o OUT    the same in the older edition, which has room for a model name of 10 bytes: a take with a
                                  longer one is refused
  vmd join FIRST SECOND.. -o OUT  joins takes from left to right: in every section the records of each, one after another,
                                  under the first model name that is not empty
  vmd tidy IN -o OUT              saves a take without the keys that never show: of the records of one bone, of one morph or
                                  of another section that have the same frame the last is kept. The records of each bone
                                  and morph stand together, in order of first appearance, and all are sorted by frame. Once
                                  OUT is saved standard error has a line for each section: how many records were kept and
                                  dropped
  vmd excerpt FIRST LAST IN -o OUT
                                  saves a piece of a take: the records from frame FIRST to frame LAST, both included, in
                                  their order and under the model name. FIRST is subtracted from each frame and so becomes
                                  frame 0. FIRST and LAST are whole numbers from 0 to 4294967295; FIRST above LAST is
                                  refused with 18, before IN is read
  vmd season FILE..               figures over all takes together, one figure a line: the figure's name, ': ' and the
                                  number. They are how many takes were accepted and refused; for each section its records
                                  in all takes, and the smallest and the largest number of them in a take; the distinct
                                  bone and morph names of each take, added up; the records of all sections, and these
                                  divided by the accepted takes, with the remainder
  --lenient                       an option of 'export', 'join', 'tidy' and 'excerpt': they read a damaged take too, and OUT
                                  has lost a part of it (see below); and of 'check', which saves nothing
  vmd --help, vmd --version

A damaged take is refused by the four commands that save: with 16 where there are bytes after its last property frame, or
after a property count of 0, and with 17 where a camera, light or self-shadow count is too large for the bytes after it. With
the option --lenient they read it, and OUT has lost a part of it: with 16 those bytes, with 17 that section's records and
every section after it, IK frames among them. 'list' and 'season' save nothing and always read so; 'check' refuses such a
take too, unless it has the option.

Takes of both editions are read: the newer begin with 'Vocaloid Motion Data 0002', the older with 'Vocaloid Motion Data
file'. What is written is of the newer edition, but for 'vmd export --older'.

IN, FILE and the takes of a join may be '-' for standard input, one of them at most, and OUT for standard output. No file and
no frame follows -o OUT, unless after '--': there no word is an option, so that a file's name may begin with '-', as in 'vmd
join -o OUT -- FIRST SECOND..'. In a name that is shown, control characters and '\\' are written as in a string of Rust.

OUT may be one of the takes that are read, and a link: then the file it leads to is replaced. It is replaced whole or, where
anything fails, not at all. It keeps its mode, access list and user's attributes, and its owner and group where the system
allows it. A take that is read-only is not replaced, by root neither. A file .vmd-save-N.tmp was left by a command that was
killed; the next one that saves in its folder removes it, unless it is OUT, was read, or something came through a pipe.
Where there is no room for a save, such files may be removed by hand.

To 'tidy' and 'season' two names are one bone, or one morph, where they agree up to the first line feed: some editors add one
and a remark to a name. The records that 'tidy' keeps have their whole names.

In the figures of a season a take that is refused counts as refused and nowhere else. A file that cannot be read counts
nowhere, not as refused either: the figures are those of the other files. With several files a terminal shows how far the
command is.

Exit status: 0; 1 where a take is refused, or FIRST is above LAST, or 'check' finds a take that is not canonical; 2 for bad
usage, or where a file cannot be read or written: a file OUT is as it was; 3 where OUT is the new file, and only its folder
could not be flushed: after a loss of power the old one may be back. With status 3 a join into one of its own takes, or an
excerpt saved over its take, is not to be repeated. Of several the largest is given.
";

/// Bytes enough to see whether a file is a take: those before the first section, of which the older edition has fewer.
const HEADER: u64 = 50;

/// The option that has a take saved in the older edition.
const OLDER: &str = "--older";

/// The option that has takes read in the lenient manner.
const LENIENT: &str = "--lenient";

/// Why the command did not do what it was asked.
enum Failure {
    /// A take that is refused, or the frames of an excerpt: its name or these, why, and what is told of an option that helps.
    Refused(String, Refusal, &'static str),
    /// A take that counts as refused only because a figure of the season has no room for it: its name.
    NoRoom(String),
    /// A file that cannot be read or written, or too little memory.
    Io(String),
    /// The output is the new file, and its folder could not be flushed.
    Unflushed(String),
    Usage(String),
}

impl Failure {
    fn status(&self) -> u8 {
        match self {
            Failure::Refused(..) | Failure::NoRoom(_) => 1,
            Failure::Io(_) | Failure::Usage(_) => 2,
            Failure::Unflushed(_) => 3,
        }
    }

    fn of(name: &OsStr, error: Error) -> Self {
        match error {
            Error::Refused(refusal) => Failure::Refused(shown_input(name), refusal, ""),
            Error::NoMemory(_) => Failure::Io(format!("{}: {error}", shown_input(name))),
        }
    }

    /// With the command's name before what is wrong with its words, and with what its options can do about a refusal.
    fn in_command(self, command: &OsStr, options: &[&str]) -> Self {
        match self {
            Failure::Usage(text) => Failure::Usage(format!("{}: {text}", shown(command))),
            other if options.contains(&LENIENT) => other.with_lenient(),
            other => other,
        }
    }

    /// With what --lenient can do about a refusal.
    fn with_lenient(self) -> Self {
        match self {
            Failure::Refused(name, refusal, _) => Failure::Refused(name, refusal, lost_by_lenient(refusal)),
            other => other,
        }
    }

    /// What is listed of a take that is refused.
    fn line(&self) -> Option<String> {
        match self {
            Failure::Refused(_, refusal, _) => Some(format!("refused {}", refusal.number())),
            _ => None,
        }
    }
}

/// That --lenient reads a take which is refused for this, and what is lost by saving it then; nothing of a refusal that both
/// manners give.
fn lost_by_lenient(refusal: Refusal) -> &'static str {
    match refusal {
        Refusal::BytesOver => "; --lenient reads such a file, and what is saved then has lost these bytes",
        Refusal::CountOversized => {
            "; --lenient reads such a file, and what is saved then has lost that section's records and every section after \
             it, IK frames among them"
        }
        _ => "",
    }
}

/// What is wrong with a command's words.
impl From<String> for Failure {
    fn from(wrong: String) -> Self {
        Failure::Usage(wrong)
    }
}

impl fmt::Display for Failure {
    fn fmt(&self, f: &mut fmt::Formatter<'_>) -> fmt::Result {
        match self {
            Failure::Refused(name, refusal, help) => write!(f, "{name}: {}{help}", Error::Refused(*refusal)),
            Failure::NoRoom(name) => write!(f, "{name}: counts as refused: with it a figure would pass {}", u64::MAX),
            Failure::Io(text) | Failure::Unflushed(text) => f.write_str(text),
            Failure::Usage(text) => write!(f, "{text}; 'vmd --help' tells more"),
        }
    }
}

fn main() -> ExitCode {
    streams::let_writes_past_the_limit_fail();
    let words: Vec<OsString> = env::args_os().skip(1).collect();
    match run(&words) {
        Ok(status) => ExitCode::from(status),
        Err(failure) => ExitCode::from(told(&failure)),
    }
}

/// Tells a failure on standard error, where that can be written to, and gives its exit status.
fn told(failure: &Failure) -> u8 {
    let _ = writeln!(io::stderr(), "vmd: {failure}");
    failure.status()
}

/// What a command does with its words, and the exit status it ends with.
type Run = fn(&Words) -> Result<u8, Failure>;

fn run(words: &[OsString]) -> Result<u8, Failure> {
    let Some((command, words)) = words.split_first() else {
        return Err(Failure::Usage("no command is given".into()));
    };
    let (run, options, frames): (Run, &[&str], usize) = match command.to_str() {
        Some("--help" | "-h" | "help") => return print(HELP),
        Some("--version") => return print(concat!("vmd ", env!("CARGO_PKG_VERSION"), "\n")),
        Some("list") => (list, &[], 0),
        Some("check") => (check, &[LENIENT], 0),
        Some("export") => (export, &[OLDER, LENIENT], 0),
        Some("join") => (join, &[LENIENT], 0),
        Some("tidy") => (tidy, &[LENIENT], 0),
        Some("excerpt") => (excerpt, &[LENIENT], 2),
        Some("season") => (season, &[], 0),
        _ => return Err(Failure::Usage(format!("there is no command '{}'", shown(command)))),
    };
    match Words::of(words, options, frames) {
        Ok(Some(words)) => run(&words),
        Ok(None) => print(HELP),
        Err(wrong) => Err(wrong.into()),
    }
    .map_err(|failure| failure.in_command(command, options))
}

/// The files of a command that writes none.
fn files_alone<'w>(words: &'w Words) -> Result<&'w [&'w OsStr], Failure> {
    words.no_output()?;
    match &words.files[..] {
        [] => Err(Failure::Usage("no file is given".into())),
        names => Ok(names),
    }
}

/// A take's line on standard output, and the exit status that it stands for.
type Line = (String, u8);

fn list(words: &Words) -> Result<u8, Failure> {
    lines(words, |name, file| Ok((line(file).map_err(|error| Failure::of(name, error))?, 0)))
}

fn check(words: &Words) -> Result<u8, Failure> {
    lines(words, |name, file| checked(manner(words), file).map_err(|error| Failure::of(name, error).with_lenient()))
}

/// Prints a line for each take, one after another, each freed before the next is read; what fails is told.
fn lines(words: &Words, line: impl Fn(&OsStr, &[u8]) -> Result<Line, Failure>) -> Result<u8, Failure> {
    let names = files_alone(words)?;
    let mut status = 0;
    for name in names {
        let (line, failure) = match Sources::default().read(name).and_then(|file| line(name, &file)) {
            Ok((line, of_take)) => {
                status = status.max(of_take);
                (Some(line), None)
            }
            Err(failure) => (failure.line(), Some(failure)),
        };
        if let Some(line) = line {
            match names {
                [_] => print(&format!("{line}\n"))?,
                _ => print(&format!("{}: {line}\n", shown_input(name)))?,
            };
        }
        if let Some(failure) = failure {
            status = status.max(told(&failure));
        }
    }
    Ok(status)
}

/// What is listed of a take, which is read in the lenient manner.
fn line(file: &[u8]) -> Result<String, Error> {
    let take = Manner::Lenient.open(file)?;
    Ok(format!(
        "{} {} {} {} {} {} {} {} {} {}",
        take.bones(),
        take.morphs(),
        take.cameras(),
        take.lights(),
        take.self_shadows(),
        take.properties(),
        take.ik_states(),
        take.smallest_frame(),
        take.largest_frame(),
        Manner::Lenient.export_size(file)?
    ))
}

/// What is told of a take that is checked.
fn checked(manner: Manner, file: &[u8]) -> Result<Line, Error> {
    Ok(match manner.open(file)?.first_change() {
        None => ("canonical".into(), 0),
        Some(change) => (change.to_string(), 1),
    })
}

/// The manner in which a command that has the option --lenient reads its takes.
fn manner(words: &Words) -> Manner {
    if words.has(LENIENT) { Manner::Lenient } else { Manner::Strict }
}

/// The files of a command that makes one of another.
fn in_and_out<'w>(words: &Words<'w>) -> Result<[&'w OsStr; 2], Failure> {
    let to = words.output()?;
    match words.files[..] {
        [from] => Ok([from, to]),
        _ => Err(Failure::Usage("one file is needed, IN".into())),
    }
}

fn export(words: &Words) -> Result<u8, Failure> {
    let [from, to] = in_and_out(words)?;
    let export = if words.has(OLDER) { Manner::export_older } else { Manner::export };
    let mut sources = Sources::default();
    let saved = export(manner(words), &sources.read(from)?).map_err(|error| Failure::of(from, error))?;
    sources.write(to, &saved)
}

fn join(words: &Words) -> Result<u8, Failure> {
    let to = words.output()?;
    let [_, .., last] = words.files[..] else {
        return Err(Failure::Usage("two files at least are needed, FIRST and SECOND".into()));
    };
    let manner = manner(words);
    // Both are freed with the join. One that fails is told with the last take that is in it.
    let join =
        |last| move |first: Vec<u8>, second: Vec<u8>| manner.join(&first, &second).map_err(|error| Failure::of(last, error));
    memory::give_back_what_is_freed();
    let mut sources = Sources::default();
    let mut tree = Tree::new();
    for name in &words.files {
        tree.add(sources.read_accepted(name, manner)?, join(name))?;
    }
    let joined = tree.all(join(last))?.expect("there are two takes at least");
    sources.write(to, &joined)
}

fn tidy(words: &Words) -> Result<u8, Failure> {
    let [from, to] = in_and_out(words)?;
    let mut sources = Sources::default();
    let tidied = manner(words).tidy(&sources.read(from)?).map_err(|error| Failure::of(from, error))?;
    let saved = sources.write(to, &tidied.file);
    // Told of a take that was saved: of one that is as it was they would not be true.
    if matches!(saved, Ok(_) | Err(Failure::Unflushed(_))) {
        let _ = io::stderr().write_all(kept_and_dropped(&tidied.sections).as_bytes());
    }
    saved
}

/// What is told of a take that was tidied: a line for each section, also for one without records.
fn kept_and_dropped(sections: &TidiedSections) -> String {
    [
        ("bones", sections.bones),
        ("morphs", sections.morphs),
        ("cameras", sections.cameras),
        ("lights", sections.lights),
        ("self-shadows", sections.self_shadows),
        ("properties", sections.properties),
    ]
    .map(|(section, of)| format!("{section}: {} kept, {} dropped\n", of.kept, of.dropped))
    .concat()
}

fn excerpt(words: &Words) -> Result<u8, Failure> {
    let to = words.output()?;
    let ([first, last], [from]) = (&words.frames[..], &words.files[..]) else {
        return Err(Failure::Usage("two frames and one file are needed, FIRST, LAST and IN".into()));
    };
    let (first, last) = (words::frame(first)?, words::frame(last)?);
    // Told before the file is read, which may be missing.
    if first > last {
        return Err(Failure::Refused(format!("frames {first} to {last}"), Refusal::FirstAboveLast, ""));
    }
    let mut sources = Sources::default();
    let piece = manner(words).excerpt(&sources.read(from)?, first, last).map_err(|error| Failure::of(from, error))?;
    sources.write(to, &piece)
}

/// One take after another, each freed before the next is read.
fn season(words: &Words) -> Result<u8, Failure> {
    let names = files_alone(words)?;
    let progress = Progress::new(names.len());
    let mut season = Season::new();
    let mut status = 0;
    for (i, name) in names.iter().enumerate() {
        progress.at(i + 1);
        if let Err(failure) = Sources::default().read(name).and_then(|file| add(&mut season, name, &file)) {
            progress.clear();
            status = status.max(told(&failure));
        }
    }
    progress.clear();
    print(&figures(&season))?;
    Ok(status)
}

/// Adds a take, or says why it counts as refused: a season reads in the lenient manner.
fn add(season: &mut Season, name: &OsStr, file: &[u8]) -> Result<(), Failure> {
    if season.add(file) {
        return Ok(());
    }
    Err(match Manner::Lenient.export_size(file) {
        Err(refusal) => Failure::of(name, refusal.into()),
        Ok(_) => Failure::NoRoom(shown_input(name)),
    })
}

/// What is printed of a season.
fn figures(season: &Season) -> String {
    let mut text = String::new();
    let mut line = |name: &str, number: u64| writeln!(text, "{name}: {number}").expect("a string takes all");
    line("accepted takes", season.accepted);
    line("refused takes", season.refused);
    for (section, of) in [
        ("bones", season.bones),
        ("morphs", season.morphs),
        ("cameras", season.cameras),
        ("lights", season.lights),
        ("self-shadows", season.self_shadows),
        ("properties", season.properties),
    ] {
        line(&format!("{section}, total"), of.total);
        line(&format!("{section}, smallest"), of.smallest.into());
        line(&format!("{section}, largest"), of.largest.into());
    }
    let mean = season.mean();
    line("distinct bone names, added up over the takes", season.bone_names);
    line("distinct morph names, added up over the takes", season.morph_names);
    line("records of all sections", season.records);
    line("records per accepted take", mean.quotient);
    line("records per accepted take, remainder", mean.remainder);
    text
}

// ---- files

fn shown_input(name: &OsStr) -> String {
    if name == "-" { "standard input".into() } else { shown(name) }
}

/// The files that were read, none of which is removed when another is written.
#[derive(Default)]
struct Sources {
    files: Vec<FileId>,
    /// Something was read that is no file, as a pipe: what came through it may have been any file.
    unknown: bool,
}

impl Sources {
    fn read(&mut self, name: &OsStr) -> Result<Vec<u8>, Failure> {
        let said = |text| Failure::Io(format!("{}: {text}", shown_input(name)));
        self.read_whole(name).map_err(|error| match error.kind() {
            ErrorKind::OutOfMemory => said("there is no memory to read it".into()),
            _ => said(format!("cannot read the file: {error}")),
        })
    }

    /// A whole file, or the header of one that is refused for it: the answer is the same, in either manner. Memory for a file
    /// whose length is known is asked for at once.
    fn read_whole(&mut self, name: &OsStr) -> io::Result<Vec<u8>> {
        let mut file = if name == "-" { streams::standard_input() } else { File::open(name) }?;
        let found = file.metadata()?;
        if found.is_dir() {
            return Err(io::Error::other("it is a folder"));
        }
        self.files.push(FileId::of(&found));
        self.unknown |= !found.is_file();
        let mut bytes = Vec::new();
        Read::by_ref(&mut file).take(HEADER).read_to_end(&mut bytes)?;
        if vmd::export_size(&bytes) == Err(Refusal::MagicDiffers) {
            return Ok(bytes);
        }
        let len = usize::try_from(found.len()).map_err(|_| ErrorKind::OutOfMemory)?;
        bytes.try_reserve_exact(len.saturating_sub(bytes.len())).map_err(|_| ErrorKind::OutOfMemory)?;
        file.read_to_end(&mut bytes)?;
        Ok(bytes)
    }

    /// A file that is accepted in a manner, so that a refusal names the file it is of.
    fn read_accepted(&mut self, name: &OsStr, manner: Manner) -> Result<Vec<u8>, Failure> {
        let file = self.read(name)?;
        manner.export_size(&file).map_err(|refusal| Failure::of(name, refusal.into()))?;
        Ok(file)
    }

    fn write(&self, name: &OsStr, bytes: &[u8]) -> Result<u8, Failure> {
        if name == "-" || name == "/dev/stdout" {
            return to_standard_output(bytes);
        }
        let saved = if self.unknown { vmd::save(name, bytes) } else { vmd::save_and_clear(name, bytes, &self.files) };
        match saved {
            Ok(()) => Ok(0),
            Err(error) if error.replaced() => Err(Failure::Unflushed(error.to_string())),
            Err(error) => Err(Failure::Io(error.to_string())),
        }
    }
}

fn print(text: &str) -> Result<u8, Failure> {
    to_standard_output(text.as_bytes())
}

fn to_standard_output(bytes: &[u8]) -> Result<u8, Failure> {
    streams::standard_output()
        .and_then(|mut out| out.write_all(bytes))
        .map_err(|error| Failure::Io(format!("cannot write to standard output: {error}")))?;
    Ok(0)
}

#[cfg(test)]
mod tests {
    use super::*;

    /// No list of files is so long: the season is set by hand.
    #[test]
    fn a_take_that_a_season_has_no_room_for() {
        let mut take = b"Vocaloid Motion Data 0002".to_vec();
        take.resize(54, 0);
        let damaged = [&take[..], &[0, 0, 0, 0, 1, 0, 0, 0]].concat(); // a camera, which is not there
        let mut season = Season { accepted: u64::MAX, ..Season::new() };
        for (take, refused) in [(&take, 1), (&damaged, 2)] {
            let failure = add(&mut season, "take".as_ref(), take).unwrap_err();
            assert_eq!(failure.to_string(), "take: counts as refused: with it a figure would pass 18446744073709551615");
            assert_eq!((failure.status(), season.refused), (1, refused));
        }
        let failure = add(&mut season, "take".as_ref(), &take[..53]).unwrap_err();
        assert_eq!(failure.to_string(), "take: refused 1: the file ends early");
        assert_eq!((failure.status(), season.refused), (1, 3));
    }
}
