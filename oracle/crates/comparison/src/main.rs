//! The proved library and the original Rust on the same inputs, every result compared.
//!
//!     compare N SEED          N files, N part sets, N / 5 older files, N / 10 files whose names repeat, joins, joins with
//!                             older files and names, N / 5 takes to tidy, N / 5 excerpts, N / 20 takes with remarks, N / 20
//!                             files of up to 70 property frames and N / 100 older ones, as many of each made for the strict
//!                             manner to turn down and N / 20 joins of them, beside the fixed inputs
//!     compare self-test       alters one result after another: each has to be reported
//!
//! The working directory is the repository, whose table of request h) is compared too.

mod alter;
mod check;
mod excerpt;
mod files;
mod header;
mod huge;
mod joins;
mod lent;
mod library;
mod manner;
mod name_test;
mod parts;
mod runs;
mod season;
mod split;
mod tally;
mod tidy;

use alter::{alter, alterations, Alter};
use std::path::Path;
use std::process::ExitCode;
use std::time::Instant;
use tally::Tally;

fn main() -> ExitCode {
    let arguments: Vec<String> = std::env::args().skip(1).collect();
    let numbers: Vec<Option<u64>> = arguments.iter().map(|argument| argument.replace('_', "").parse().ok()).collect();
    match (arguments.first().map(String::as_str), numbers.as_slice()) {
        (Some("self-test"), [_]) => self_test(),
        (_, [Some(cases), Some(seed)]) => compare(*cases, *seed),
        _ => {
            eprintln!("usage: compare N SEED, or compare self-test");
            ExitCode::from(2)
        }
    }
}

fn timed<T>(what: &str, run: impl FnOnce() -> T) -> T {
    let begun = Instant::now();
    let result = run();
    eprintln!("{what}: {:.1} s", begun.elapsed().as_secs_f64());
    result
}

fn compare(cases: u64, seed: u64) -> ExitCode {
    println!("seed {seed}");
    let index = oracle::index::check(Path::new("."));
    index.print();
    let (names, found) = timed("names", || runs::names(cases / 10, seed));
    names.print();
    print_names(&found);
    let (triples, found) = timed("names of three bytes", runs::triples);
    triples.print();
    print_names(&found);
    let (files, file_check) = timed("files", || runs::files(cases, seed));
    files.print();
    print_files(&file_check);
    let (older, older_check) = timed("older files", || runs::older_files(cases / 5, seed));
    older.print();
    print_older(&older_check.editions);
    print_files(&older_check);
    let (joins, join_check) = timed("joins", || runs::joins(cases / 10, seed));
    joins.print();
    join_check.met.print();
    let (older_joins, join_check) = timed("joins with older files", || runs::older_joins(cases / 10, seed));
    older_joins.print();
    join_check.met.print();
    let (strict_joins, join_check) = timed("joins to turn down", || runs::turned_down_joins(cases / 20, seed));
    strict_joins.print();
    join_check.met.print();
    let (parts, parts_check) = timed("parts", || runs::parts(cases, seed));
    parts.print();
    print_marked(&parts_check.marked);
    let huge = timed("counts at 32 bits", huge::run);
    huge.print();
    let (tidying, tidy_check) = timed("tidying", || runs::tidying(cases / 5, seed));
    tidying.print();
    tidy_check.met.print();
    print_tidied(&tidy_check.tally);
    let (excerpts, excerpt_check) = timed("excerpts", || runs::excerpts(cases / 5, seed));
    excerpts.print();
    excerpt_check.met.print();
    print_excerpts(&excerpt_check.tally);
    let (remarks, remark_check) = timed("takes with remarks", || runs::with_remarks(cases / 20, seed));
    remarks.print();
    remark_check.tidying.met.print();
    print_splits(&remark_check.files.split);
    print_seasons(&remark_check.files.season);
    print_tidied(&remark_check.tidying.tally);
    let tallies =
        [&names, &triples, &files, &older, &joins, &older_joins, &strict_joins, &parts, &huge, &tidying, &excerpts, &remarks];
    let cases: u64 = tallies.iter().map(|tally| tally.cases()).sum();
    let differences: usize = tallies.iter().map(|tally| tally.differences.len()).sum::<usize>() + index.differences.len();
    println!("{cases} cases, {} of them older files, {differences} differences", older_check.editions.older);
    if differences == 0 {
        ExitCode::SUCCESS
    } else {
        ExitCode::FAILURE
    }
}

fn print_names(tallies: &runs::NameTallies) {
    for (label, tally) in tallies {
        println!("  {label}: {} accepted and {} refused by both", tally.accepted, tally.refused);
        println!("    {} places before the end; {} names with a zero byte, by the place alone", tally.faults, tally.with_zero);
        for (mark, found) in &tally.marks {
            let shortest = found.shortest.iter().map(|name| format!("; the shortest {name:02x?}")).collect::<String>();
            println!(
                "    {mark:02x?} first: the original answers otherwise for {}, alike for {}{shortest}",
                found.other, found.alike
            );
        }
    }
}

fn print_files(check: &files::FileCheck) {
    check.met.print();
    print_lights(check);
    println!("  converted to the older edition: {}, refused with 15: {}", check.editions.converted, check.editions.too_long);
    print_splits(&check.split);
    print_seasons(&check.season);
    print_tidied(&check.tidy.tally);
    print_excerpts(&check.excerpt.tally);
}

fn print_older(editions: &files::EditionTally) {
    println!(
        "  {} begin with the older magic: the original by itself refuses each with 2, {} are accepted",
        editions.older, editions.older_accepted
    );
}

fn print_lights(check: &files::FileCheck) {
    let (records, several_places) = (check.records, check.several_places);
    println!("  {records} records and IK states compared, {several_places} accepted files with more than 16 property frames");
    let nans = &check.lights;
    println!("  NaNs of lights through the call with f32 fields: {}, of these {} with other bits", nans.seen, nans.other_bits);
    if let Some((ours, theirs)) = nans.first {
        println!("    the first: {ours:#010x} for {theirs:#010x}");
    }
}

fn print_splits(check: &split::SplitCheck) {
    let (built, here) = (check.built, check.built_here);
    println!("  parts of files: from {built} the original builds the file's export, from {here} without a byte order mark");
    println!("    the library too, which refuses the others with 7");
    let refused = (1..14).filter(|&number| check.not_built[number] > 0);
    let refused: Vec<String> = refused.map(|number| format!("{} with {number}", check.not_built[number])).collect();
    println!("    the original refuses {}", if refused.is_empty() { "none".to_owned() } else { refused.join(", ") });
}

fn print_seasons(check: &season::SeasonCheck) {
    let (lists, longest, accepted, refused) = (check.lists, season::LONGEST, check.accepted, check.refused);
    println!("  season figures of {lists} lists of up to {longest} files: {accepted} accepted and {refused} refused,");
    println!("    and {} with which a figure would pass 64 bits", check.passed);
}

fn print_tidied(tally: &tidy::TidyTally) {
    println!(
        "  tidied: {} takes, of {} records are dropped, {} others come in another order",
        tally.takes, tally.dropped_from, tally.reordered
    );
    println!("    {} tracks with {} records kept and {} dropped", tally.tracks, tally.kept, tally.dropped);
    println!(
        "    {} takes with a line feed in a name: {} tracks of more than one spelling, {} records dropped that whole names keep",
        tally.with_line_feeds, tally.several_spellings, tally.dropped_by_key
    );
}

fn print_excerpts(tally: &excerpt::ExcerptTally) {
    let excerpt::ExcerptTally { all, some, none, empty, whole, kept, left_out, refused, .. } = tally;
    println!("  excerpts: {all} with all records, {some} with some, {none} with none, {empty} of takes without records;");
    println!("    {whole} from 0 to 4294967295; {kept} records kept and {left_out} left out");
    let ([over, oversized], [accepted, cut, turned_down]) = (tally.turned_down, tally.above);
    println!("    refused with 1 or 2: {refused}; of the others strictly 16: {over}, 17: {oversized}");
    println!("    18: {accepted} of files that are accepted, {cut} of 1 or 2, {turned_down} of strictly 16 or 17");
}

fn print_marked(tally: &parts::MarkedTally) {
    println!(
        "  {} of the sets have a name with a byte order mark; the original gives the same answer for {}",
        tally.sets, tally.same_answer
    );
    for ((mark, ours, theirs), (sets, name)) in &tally.other_answer {
        println!("    {sets}: {mark:02x?} first, {ours} here and {theirs} by the original; the shortest name {name:02x?}");
    }
}

// ---- self-test

const SELF_TEST_CASES: u64 = 3000;

/// The short runs first, of them those that report the most.
const RUNS: [fn() -> Tally; 10] = [
    || runs::joins(SELF_TEST_CASES, 1).0,
    || runs::older_joins(SELF_TEST_CASES, 1).0,
    || runs::turned_down_joins(SELF_TEST_CASES, 1).0,
    || runs::excerpts(SELF_TEST_CASES, 1).0,
    || runs::older_files(SELF_TEST_CASES, 1).0,
    || runs::with_remarks(SELF_TEST_CASES, 1).0,
    || runs::names(SELF_TEST_CASES, 1).0,
    || runs::parts(SELF_TEST_CASES, 1).0,
    || runs::tidying(SELF_TEST_CASES, 1).0,
    || runs::files(SELF_TEST_CASES, 1).0,
];

/// The differences of the first run that has some.
fn reported() -> Vec<String> {
    RUNS.into_iter().map(|run| run().differences).find(|differences| !differences.is_empty()).unwrap_or_default()
}

fn self_test() -> ExitCode {
    let mut unreported = 0;
    let of_index = oracle::index::self_test();
    for (what, reported) in &of_index {
        println!("the index, {what}: {}", if *reported { "reported" } else { "NOT REPORTED" });
        unreported += !reported as usize;
    }
    for (what, only_in) in alterations() {
        alter(what, only_in);
        let differences = reported();
        let first = differences.first().and_then(|text| text.lines().next()).unwrap_or("");
        let confined = only_in.map(|manner| format!(" in the {manner} manner alone")).unwrap_or_default();
        println!("{what:?}{confined}: {} differences; {first}", differences.len());
        unreported += differences.is_empty() as usize;
    }
    alter(Alter::Nothing, None);
    let unaltered = reported().len();
    let alterations = alterations().count() + of_index.len();
    println!("{alterations} alterations, {unreported} not reported; {unaltered} differences without one");
    if unreported + unaltered == 0 {
        ExitCode::SUCCESS
    } else {
        ExitCode::FAILURE
    }
}
