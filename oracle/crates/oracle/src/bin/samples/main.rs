//! A sample of the original's answers, as data for programs that have no Rust at hand.
//!
//!     samples REPLAY EXAMPLES
//!
//! writes the cases of a program that replays them into the file REPLAY, and examples for the checker to compute into the
//! folder EXAMPLES. There is no choice in it: the same sources give the same files.

mod antt;
mod base;
mod cases;
mod examples;
mod replay;

use std::path::Path;

fn main() {
    let arguments: Vec<String> = std::env::args().skip(1).collect();
    let [replay_file, example_folder] = arguments.as_slice() else {
        eprintln!("usage: samples REPLAY EXAMPLES");
        std::process::exit(2);
    };
    replay::write(Path::new(replay_file));
    examples::write(Path::new(example_folder));
}
