//! Request h)'s table and runs, in the repository that is the working directory, against the original's decoding library.

use std::path::Path;
use std::process::ExitCode;

fn main() -> ExitCode {
    let report = oracle::index::check(Path::new("."));
    report.print();
    println!("{} differences", report.differences.len());
    if report.differences.is_empty() {
        ExitCode::SUCCESS
    } else {
        ExitCode::FAILURE
    }
}
