//! The C header, the Rust and the Rattle say the same: the refusals and their numbers, the records' sizes, the indices, and
//! the functions' parameters.
use std::collections::BTreeMap;
use std::fs;
use std::path::{Path, PathBuf};

use vmd::Refusal;

fn repository() -> PathBuf {
    Path::new(env!("CARGO_MANIFEST_DIR")).join("..")
}

fn read(path: impl AsRef<Path>) -> String {
    fs::read_to_string(&path).unwrap_or_else(|error| panic!("{}: {error}", path.as_ref().display()))
}

/// The header without its comments.
fn header() -> String {
    let text = read(repository().join("include/vmd.h"));
    let mut pieces = text.split("/*");
    let code = pieces.next().unwrap().to_owned();
    pieces.fold(code, |code, piece| code + " " + piece.split_once("*/").unwrap().1)
}

/// What stands between a beginning and the next end.
fn between<'t>(text: &'t str, begin: &str, end: &str) -> &'t str {
    let (_, rest) = text.split_once(begin).unwrap_or_else(|| panic!("no '{begin}'"));
    rest.split_once(end).unwrap_or_else(|| panic!("no '{end}' after '{begin}'")).0
}

fn one_line(text: &str) -> String {
    text.split_whitespace().collect::<Vec<_>>().join(" ")
}

// ---- refusals

/// Names by their numbers. No number has two names.
fn by_number(names: impl IntoIterator<Item = (u32, String)>) -> BTreeMap<u32, String> {
    let mut table = BTreeMap::new();
    for (number, name) in names {
        assert_eq!(table.insert(number, name), None, "{number} twice");
    }
    table
}

/// `NameUnfit` and `name-unfit` as the header has them: `NAME_UNFIT`.
fn as_in_c(name: &str) -> String {
    let mut words = String::new();
    for letter in name.chars() {
        if letter.is_uppercase() && !words.is_empty() {
            words.push('_');
        }
        words.push(if letter == '-' { '_' } else { letter.to_ascii_uppercase() });
    }
    words
}

/// Lines of a name, a sign and a number.
fn numbered<'t>(lines: impl IntoIterator<Item = &'t str>, sign: &str) -> BTreeMap<u32, String> {
    by_number(lines.into_iter().filter(|line| !line.trim().is_empty()).map(|line| {
        let (name, number) = line.split_once(sign).unwrap_or_else(|| panic!("no '{sign}' in '{line}'"));
        (number.trim().parse().unwrap_or_else(|_| panic!("no number in '{line}'")), name.trim().to_owned())
    }))
}

fn refusals_of_the_header() -> BTreeMap<u32, String> {
    let header = header();
    let mut table = numbered(between(&header, "enum vmd_refusal {", "}").split(','), "=");
    assert_eq!(table.remove(&0).as_deref(), Some("VMD_OK"));
    by_number(table.into_iter().map(|(number, name)| (number, name.strip_prefix("VMD_").unwrap().to_owned())))
}

fn refusals_of_the_crate() -> BTreeMap<u32, String> {
    by_number(Refusal::ALL.iter().map(|refusal| (refusal.number(), as_in_c(&format!("{refusal:?}")))))
}

/// The file below crates/ that has this text, in whichever crate it stands, without its comments.
fn rattle_file(folder: &str, has: &str, comment: &str) -> String {
    let crates = fs::read_dir(repository().join("crates")).unwrap().map(|entry| entry.unwrap().path().join(folder));
    let files = crates.filter_map(|folder| fs::read_dir(folder).ok()).flatten().map(|entry| entry.unwrap().path());
    let mut found: Vec<_> = files.filter(|path| path.is_file()).map(read).filter(|text| text.contains(has)).collect();
    assert_eq!(found.len(), 1, "files of crates/*/{folder} with '{has}'");
    found.remove(0).lines().map(|line| line.split(comment).next().unwrap().to_owned() + "\n").collect()
}

fn refusals_of_the_rattle() -> BTreeMap<u32, String> {
    let source = rattle_file("src", "enum VmdRefusal {", "//");
    let variants = between(&source, "enum VmdRefusal {", "}");
    let table = numbered(variants.split(','), "=");
    let names = variants.split(',').filter_map(|variant| variant.split_once('=')).map(|(name, _)| name.trim());
    assert!(table.values().eq(names), "the variants are not in the order of their numbers");
    by_number(table.into_iter().map(|(number, name)| (number, as_in_c(&name))))
}

fn refusals_of_the_definition() -> BTreeMap<u32, String> {
    let source = rattle_file("specs", "data Refusal :", "--");
    let equations = source.lines().filter_map(|line| line.strip_prefix("number "));
    by_number(numbered(equations, "=").into_iter().map(|(number, name)| (number, as_in_c(&name))))
}

/// Each number has the same name in all four, and none is missing. The Rattle may say more of a name (`FileEndsEarly` for
/// `VMD_ENDS_EARLY`); it and the definition have the same.
#[test]
fn refusals_have_the_same_names_and_numbers() {
    let header = refusals_of_the_header();
    let rattle = refusals_of_the_rattle();
    assert!(header.keys().copied().eq(1..=header.len() as u32), "{header:?}");
    assert_eq!(refusals_of_the_crate(), header);
    assert_eq!(refusals_of_the_definition(), rattle);
    assert!(rattle.keys().eq(header.keys()), "the header has {header:?}, the Rattle {rattle:?}");
    for (number, name) in &header {
        let says = |other: &str| format!("_{other}_").contains(&format!("_{name}_"));
        assert!(says(&rattle[number]), "{number} is {name} in the header and {} in the Rattle", rattle[number]);
        let others: Vec<_> = rattle.iter().filter(|(other, name)| *other != number && says(name)).collect();
        assert!(others.is_empty(), "{name} of the header could be another of the Rattle: {others:?}");
    }
}

// ---- sizes and indices

/// Every size of a record, every index and the frames to a place, which the header's enums without a name have, has the same
/// name and number in header.rs.
#[test]
fn sizes_and_indices_are_those_of_the_header() {
    let header = header();
    let enums = header.split("enum {").skip(1).map(|rest| rest.split_once('}').unwrap().0);
    let named = enums.flat_map(|entries| entries.split(',')).map(|entry| entry.split_once('=').unwrap());
    let named: Vec<_> = named.map(|(name, number)| (name.trim(), number.trim())).collect();
    let constants = include_str!("../src/header.rs").lines().filter_map(|line| line.trim().strip_prefix("pub const "));
    let declared = constants.map(|constant| {
        let (name, number) = constant.split(';').next().unwrap().split_once(" = ").unwrap();
        (name.split_once(':').unwrap().0, number)
    });
    assert_eq!(declared.collect::<Vec<_>>(), named);
    assert_eq!(named.len(), 7 + 1 + 6 + 3 + 2 + 6);
}

// ---- functions

/// A type of C as Rust writes it.
fn as_in_rust(of: &str) -> &'static str {
    match of {
        "uint8_t" => "u8",
        "uint32_t" => "u32",
        "uint64_t" => "u64",
        "float" => "f32",
        "size_t" => "usize",
        _ => panic!("no type '{of}' is known"),
    }
}

/// A parameter as Rust writes it: an array is a pointer to as many.
fn parameter(text: &str) -> String {
    let text = text.trim();
    let (constant, text) = text.strip_prefix("const ").map_or((false, text), |text| (true, text));
    let (of, name) = text.split_once(' ').unwrap();
    let of = as_in_rust(of);
    let pointer = if constant { "*const" } else { "*mut" };
    match (name.strip_prefix('*'), name.strip_suffix(']')) {
        (Some(name), None) => format!("{name}: {pointer} {of}"),
        (None, Some(array)) => {
            let (name, length) = array.split_once('[').unwrap();
            format!("{name}: {pointer} [{of}; {length}]")
        }
        (None, None) if !constant => format!("{name}: {of}"),
        _ => panic!("no such parameter is known: '{text}'"),
    }
}

/// The functions of the header, as Rust declares them.
fn functions_of_the_header() -> Vec<String> {
    let header = one_line(&header());
    let statements = header.split(';').filter(|statement| statement.contains('('));
    statements
        .map(|statement| {
            let (before, parameters) = statement.trim().strip_suffix(')').unwrap().split_once('(').unwrap();
            let [.., answer, name] = before.split(' ').collect::<Vec<_>>()[..] else { panic!("'{statement}'") };
            let parameters: Vec<_> = parameters.split(',').map(parameter).collect();
            let answer = if answer == "void" { String::new() } else { format!(" -> {}", as_in_rust(answer)) };
            format!("{name}({}){answer}", parameters.join(", "))
        })
        .collect()
}

/// The functions of header.rs.
fn functions_of_the_crate() -> Vec<String> {
    let source = one_line(include_str!("../src/header.rs"));
    let functions = between(&source, "unsafe extern \"C\" {", "}").split("pub fn ").skip(1);
    functions.map(|function| function.trim().trim_end_matches(';').replace("( ", "(").replace(", )", ")")).collect()
}

/// Every function, the names, types and lengths of its parameters, and what it returns.
#[test]
fn functions_are_declared_as_the_header_has_them() {
    let (header, declared) = (functions_of_the_header(), functions_of_the_crate());
    for (header, declared) in header.iter().zip(&declared) {
        assert_eq!(declared, header);
    }
    assert_eq!(declared.len(), header.len());
}
