//! The words after a command's name, read in one place for all commands: frames, files, `-o OUT`, options, `--help` and `--`.
use std::ffi::{OsStr, OsString};

use vmd::shown;

/// What a command was given.
#[derive(Debug, Default)]
pub struct Words<'w> {
    /// The words that stand where the command takes frames, before the files; [`frame`] reads them.
    pub frames: Vec<&'w OsStr>,
    /// The files to read, in their order; `-` is standard input.
    pub files: Vec<&'w OsStr>,
    out: Option<&'w OsStr>,
    options: Vec<&'w str>,
}

impl<'w> Words<'w> {
    /// None where help is asked for; else the words, or what is wrong with them. The options are those that the command has
    /// besides `-o` and `--help`; each stands anywhere before `--`. So many frames stand before the files.
    pub fn of(words: &'w [OsString], options: &[&str], frames: usize) -> Result<Option<Self>, String> {
        let mut given = Words::default();
        let mut words = words.iter().map(OsString::as_os_str);
        while let Some(word) = words.next() {
            match word.to_str() {
                Some("--help" | "-h") => return Ok(None),
                Some("-o") => given.name_output(words.next())?,
                Some("--") => words.by_ref().for_each(|word| given.add(word, frames)),
                Some(option) if options.contains(&option) => given.add_option(option)?,
                // In a frame's place a number below 0 is told as a frame that is wrong.
                _ if is_option(word) && !(is_negative(word) && given.frames.len() < frames) => {
                    return Err(format!("there is no option '{}'", shown(word)));
                }
                // A list of takes where OUT was forgotten, as in 'join -o *.vmd', would lose the first of them.
                _ if given.out.is_some() => return Err(format!("'{}' follows -o OUT, which stands last", shown(word))),
                _ => given.add(word, frames),
            }
        }
        given.checked().map(Some)
    }

    /// A frame, while the command takes more of them; else a file.
    fn add(&mut self, word: &'w OsStr, frames: usize) {
        let words = if self.frames.len() < frames { &mut self.frames } else { &mut self.files };
        words.push(word);
    }

    fn name_output(&mut self, word: Option<&'w OsStr>) -> Result<(), String> {
        let word = word.ok_or("no file is named by -o OUT")?;
        if is_option(word) {
            let shown = shown(word);
            return Err(format!("no file is named by -o OUT: '{shown}' reads as an option, './{shown}' names a file"));
        }
        match self.out.replace(word) {
            None => Ok(()),
            Some(_) => Err("-o OUT is given twice".into()),
        }
    }

    fn add_option(&mut self, option: &'w str) -> Result<(), String> {
        if self.has(option) {
            return Err(format!("{option} is given twice"));
        }
        self.options.push(option);
        Ok(())
    }

    fn checked(self) -> Result<Self, String> {
        if self.files.iter().chain(&self.out).any(|name| name.is_empty()) {
            return Err("a file's name is empty".into());
        }
        if self.files.iter().filter(|name| **name == "-").count() > 1 {
            return Err("standard input can be read once only".into());
        }
        Ok(self)
    }

    /// Whether an option was given.
    pub fn has(&self, option: &str) -> bool {
        self.options.contains(&option)
    }

    /// The file that a command writes.
    pub fn output(&self) -> Result<&'w OsStr, String> {
        self.out.ok_or_else(|| "no output is named: -o OUT names it".into())
    }

    /// For a command that writes no file.
    pub fn no_output(&self) -> Result<(), String> {
        match self.out {
            None => Ok(()),
            Some(_) => Err("it writes no file, and has no -o".into()),
        }
    }
}

fn is_option(word: &OsStr) -> bool {
    word.as_encoded_bytes().starts_with(b"-") && word != "-"
}

/// A number below 0, among the words that read as options.
fn is_negative(word: &OsStr) -> bool {
    word.to_str().and_then(|text| text.strip_prefix('-')).is_some_and(has_digits_alone)
}

fn has_digits_alone(text: &str) -> bool {
    text.bytes().all(|byte| byte.is_ascii_digit())
}

/// The frame that a word names, in decimal digits alone: Rust's own would take a sign too.
pub fn frame(word: &OsStr) -> Result<u32, String> {
    let number = word.to_str().filter(|text| has_digits_alone(text)).and_then(|digits| digits.parse().ok());
    number.ok_or_else(|| format!("'{}' is no frame: frames are whole numbers from 0 to {}", shown(word), u32::MAX))
}
