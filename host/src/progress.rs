//! How far a command over several files is.
use std::io::{self, IsTerminal, Write};

/// A line of standard error that is written over with each file. There is none where standard error is no terminal: a file
/// or a pipe would keep every one.
pub struct Progress {
    files: usize,
    shown: bool,
}

impl Progress {
    /// For one file there is nothing to show.
    pub fn new(files: usize) -> Self {
        Progress { files, shown: files > 1 && io::stderr().is_terminal() }
    }

    /// The command is at this file, of which the first is 1.
    pub fn at(&self, file: usize) {
        self.write(&self.line(file));
    }

    /// Nothing of the line stays: what is written next begins where it began.
    pub fn clear(&self) {
        let longest = self.line(self.files).len() - 1; // without its return
        self.write(&format!("\r{:longest$}\r", ""));
    }

    fn line(&self, file: usize) -> String {
        format!("\rvmd: {file} of {}", self.files)
    }

    fn write(&self, text: &str) {
        if self.shown {
            let _ = io::stderr().write_all(text.as_bytes()); // what is asked for does not depend on it
        }
    }
}
