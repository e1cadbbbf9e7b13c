//! The command: what it prints, where it writes, and its exit statuses.
mod common;

use std::ffi::OsStr;
use std::fs;
use std::io::Write;
use std::os::unix::ffi::OsStrExt;
use std::os::unix::process::CommandExt;
use std::process::{Command, Output, Stdio};

use common::records::{Record, Records, padded};
use common::{
    Folder, as_older, at_frames, bones, counts, err, first_difference, older_start, out, start, status, vmd, vmd_under,
    vmd_with,
};
use vmd::Manner;

/// The output of a command that reads these bytes on its standard input.
fn given(command: &mut Command, input: &[u8]) -> Output {
    let mut child = command.stdin(Stdio::piped()).stdout(Stdio::piped()).stderr(Stdio::piped()).spawn().unwrap();
    let mut pipe = child.stdin.take().unwrap();
    let input = input.to_vec();
    let writer = std::thread::spawn(move || pipe.write_all(&input));
    let output = child.wait_with_output().unwrap();
    let _ = writer.join().unwrap(); // the command may end before it has read all
    output
}

/// One property frame at frame 300 with two IK states.
fn property() -> Vec<u8> {
    let mut file = counts(&[0, 0, 0, 0, 0, 1, 300]);
    file.push(1);
    file.extend(2u32.to_le_bytes());
    file.extend([b'l'; 21]);
    file.extend([b'r'; 21]);
    file
}

/// A take of [`at_frames`] with the largest count there is for a section, whose records it has not.
fn oversized(take: &[u8], section: usize) -> Vec<u8> {
    let mut file = take.to_vec();
    let number = |at: usize| u32::from_le_bytes(take[at..at + 4].try_into().unwrap()) as usize;
    let count_at = [111, 23, 61, 28].iter().take(section).fold(50, |at, size| at + 4 + size * number(at));
    file[count_at..count_at + 4].fill(0xFF);
    file
}

#[test]
fn lists_a_take_in_one_line() {
    let folder = Folder::new("list");
    let sections = at_frames([1, 3, 4, 5, 6, 7].map(|n| (20..20 + n).rev().collect()));
    for (file, line, expected) in [
        (counts(&[0]), "0 0 0 0 0 0 0 0 0 74", 0),
        (vec![], "refused 1", 1),
        (vec![0x41; 29], "refused 1", 1),
        (vec![0x41; 30], "refused 2", 1),
        (start(), "refused 1", 1),
        (counts(&[0, 1]), "refused 1", 1),
        (counts(&[0, 0, 1]), "0 0 0 0 0 0 0 0 0 74", 0),
        (bones(1, 1), "1 0 0 0 0 0 0 0 0 185", 0),
        (property(), "0 0 0 0 0 1 2 300 300 125", 0),
        (bones(2000, 1), "2000 0 0 0 0 0 0 0 1999 222074", 0),
        (at_frames([vec![], vec![u32::MAX], vec![], vec![], vec![], vec![]]), "0 1 0 0 0 0 0 4294967295 4294967295 97", 0),
        (vmd::join(&property(), &sections).unwrap(), "1 3 4 5 6 8 2 20 300 806", 0),
        // read in the lenient manner: bytes over, and sections that are emptied
        ([counts(&[0; 6]), vec![1]].concat(), "0 0 0 0 0 0 0 0 0 74", 0),
        ([property(), vec![0; 9]].concat(), "0 0 0 0 0 1 2 300 300 125", 0),
        (oversized(&sections, 2), "1 3 0 0 0 0 0 20 22 254", 0),
        (oversized(&sections, 3), "1 3 4 0 0 0 0 20 23 498", 0),
        (oversized(&sections, 4), "1 3 4 5 0 0 0 20 24 638", 0),
        (as_older(&counts(&[0, 0, 1])), "0 0 0 0 0 0 0 0 0 74", 0),
        (as_older(&oversized(&sections, 3)), "1 3 4 0 0 0 0 20 23 498", 0),
        (older_start()[..29].to_vec(), "refused 1", 1),
        (older_start()[..30].to_vec(), "refused 1", 1),
        (older_start()[..39].to_vec(), "refused 1", 1),
        (older_start(), "refused 1", 1),
        (as_older(&counts(&[0]))[..43].to_vec(), "refused 1", 1),
        (as_older(&counts(&[0])), "0 0 0 0 0 0 0 0 0 74", 0),
        (as_older(&property()), "0 0 0 0 0 1 2 300 300 125", 0),
        (as_older(&bones(2000, 1)), "2000 0 0 0 0 0 0 0 1999 222074", 0),
    ] {
        let path = folder.file("take", &file);
        let listed = vmd().arg("list").arg(&path).output().unwrap();
        assert_eq!((out(&listed), status(&listed)), (format!("{line}\n"), expected));
        assert_eq!(err(&listed).is_empty(), expected == 0);
        let piped = given(vmd().args(["list", "-"]), &file);
        assert_eq!((out(&piped), status(&piped)), (format!("{line}\n"), expected));
    }
}

#[test]
fn lists_several_with_their_names() {
    let folder = Folder::new("several");
    let (good, bad) = (folder.file("good", &bones(1, 1)), folder.file("bad", &start()));
    let listed = vmd().arg("list").args([&good, &bad, &good]).output().unwrap();
    let line = format!("{}: 1 0 0 0 0 0 0 0 0 185\n", good.display());
    assert_eq!(out(&listed), format!("{line}{}: refused 1\n{line}", bad.display()));
    assert_eq!(err(&listed), format!("vmd: {}: refused 1: the file ends early\n", bad.display()));
    assert_eq!(status(&listed), 1);

    // one that cannot be read does not keep the others from being listed
    let listed = vmd().arg("list").args([&folder.join("none"), &bad, &good]).output().unwrap();
    assert_eq!(out(&listed), format!("{}: refused 1\n{line}", bad.display()));
    assert_eq!(status(&listed), 2);
}

// ---- checks

/// A canonical take with two records of every section; each property frame has two IK states.
fn canonical() -> Vec<u8> {
    let camera = |frame| Record::new(frame, vec![0; 57]);
    let legs = [(padded(b"left leg", 20, 0), 0), (padded(b"right leg", 20, 0), 1)];
    let sections = [
        vec![Record::bone(b"arm", 3, 1), Record::bone(b"leg", 4, 1)],
        vec![Record::morph(b"smile", 5, 0.5), Record::morph(b"blink", 6, 0.5)],
        vec![camera(7), camera(8)],
        vec![Record::new(9, vec![1; 24]), Record::new(10, vec![1; 24])],
        vec![Record::self_shadow(11, 0.5), Record::self_shadow(12, 0.5)],
        vec![Record::property(13, 1, &legs), Record::property(14, 0, &legs)],
    ];
    Records { model_name: b"dancer".to_vec(), sections }.saved()
}

/// Takes that both manners accept and that saving would touch, and what is told of each.
fn touched() -> Vec<(Vec<u8>, &'static str)> {
    let with = |place: usize, byte| {
        let mut file = canonical();
        file[place] = byte;
        file
    };
    let cut = |len: usize| canonical()[..len].to_vec();
    vec![
        (as_older(&canonical()), "byte 21 is 102 and would be 48: the file is of the older edition"),
        (as_older(&counts(&[0])), "byte 21 is 102 and would be 48: the file is of the older edition"),
        (with(26, 1), "byte 26 is 1 and would be 0: after the magic"),
        (with(29, 255), "byte 29 is 255 and would be 0: after the magic"),
        (with(37, 10), "byte 37 is 10 and would be 0: after the model name"),
        (with(49, 10), "byte 49 is 10 and would be 0: after the model name"),
        (with(58, 7), "byte 58 is 7 and would be 0: after the name of bone 0"),
        (with(179, 7), "byte 179 is 7 and would be 0: after the name of bone 1"),
        (with(290, 7), "byte 290 is 7 and would be 0: after the name of morph 0"),
        (with(309, 7), "byte 309 is 7 and would be 0: after the name of morph 1"),
        (with(390, 2), "byte 390 is 2 and would be 1: the perspective flag of camera 0"),
        (with(451, 128), "byte 451 is 128 and would be 1: the perspective flag of camera 1"),
        (with(542, 2), "byte 542 is 2 and would be 1: the visible flag of property frame 0"),
        (with(593, 9), "byte 593 is 9 and would be 1: the visible flag of property frame 1"),
        (with(578, 7), "byte 578 is 7 and would be 0: after the name of IK state 1 of property frame 0"),
        (with(629, 7), "byte 629 is 7 and would be 0: after the name of IK state 1 of property frame 1"),
        (with(588, 3), "byte 588 is 3 and would be 1: the enabled flag of IK state 1 of property frame 0"),
        (with(618, 3), "byte 618 is 3 and would be 1: the enabled flag of IK state 0 of property frame 1"),
        (cut(276), "byte 276 is missing and would be 0: the file ends before the morph count"),
        (cut(326), "byte 326 is missing and would be 0: the file ends before the camera count"),
        (cut(452), "byte 452 is missing and would be 0: the file ends before the light count"),
        (cut(512), "byte 512 is missing and would be 0: the file ends before the self-shadow count"),
        (cut(534), "byte 534 is missing and would be 0: the file ends before the property count"),
        (counts(&[0]), "byte 54 is missing and would be 0: the file ends before the morph count"),
    ]
}

/// Damaged takes: with which number the strict manner refuses each, and what is told of it in the lenient one.
fn touched_in_lenient() -> Vec<(Vec<u8>, u32, &'static str)> {
    let over = |take: &[u8], byte| [take, &[byte, 5]].concat();
    let mut both = oversized(&canonical(), 3);
    both[27] = 9;
    vec![
        (
            oversized(&canonical(), 2),
            17,
            "byte 326 is 255 and would be 0: the camera count is too large for the bytes after it",
        ),
        (
            oversized(&canonical(), 3),
            17,
            "byte 452 is 255 and would be 0: the light count is too large for the bytes after it",
        ),
        (
            oversized(&canonical(), 4),
            17,
            "byte 512 is 255 and would be 0: the self-shadow count is too large for the bytes after it",
        ),
        (counts(&[0, 0, 256]), 17, "byte 59 is 1 and would be 0: the camera count is too large for the bytes after it"),
        (over(&canonical(), 0), 16, "byte 640 is 0 and would be left out: the file goes on after the last property frame"),
        (over(&counts(&[0; 6]), 7), 16, "byte 74 is 7 and would be left out: the file goes on after a property count of 0"),
        // what stands before the damage is touched first
        (both, 17, "byte 27 is 9 and would be 0: after the magic"),
        (as_older(&counts(&[0, 0, 1])), 17, "byte 21 is 102 and would be 48: the file is of the older edition"),
    ]
}

/// What is told of a file and of the same on standard input, with these words after 'check'. Where that is 'canonical' the
/// command exports the same bytes, and where it is a place these differ there first; a refused take is not exported.
fn expect_checked(folder: &Folder, words: &[&str], take: &[u8], line: &str) {
    folder.file("take", take);
    let run = |command: &str, rest: &[&str]| given(vmd().current_dir(&folder.0).arg(command).args(words).args(rest), take);
    let expected = if line == "canonical" { 0 } else { 1 };
    let accepted = !line.starts_with("refused");
    for name in ["take", "-"] {
        let done = run("check", &[name]);
        assert_eq!((out(&done), status(&done)), (format!("{line}\n"), expected), "{}", err(&done));
        assert_eq!(err(&done).is_empty(), accepted, "{line}: {}", err(&done));
    }
    let exported = run("export", &["-", "-o", "-"]);
    assert_eq!(status(&exported) == 0, accepted);
    if accepted {
        let place = first_difference(take, &exported.stdout);
        let told = place.map_or("canonical".into(), |place| format!("byte {place} "));
        assert!(line.starts_with(&told), "{line}: {told}");
    }
    assert_eq!((folder.names(), fs::read(folder.join("take")).unwrap()), (vec!["take".into()], take.to_vec()));
}

#[test]
fn checks_a_take_in_one_line() {
    let folder = Folder::new("check");
    let manners: [&[&str]; 2] = [&[], &["--lenient"]];
    for words in manners {
        for take in [canonical(), counts(&[0; 6]), bones(2000, 1), at_frames([(); 6].map(|()| vec![3, 1, 3]))] {
            expect_checked(&folder, words, &take, "canonical");
        }
        for (take, line) in touched() {
            expect_checked(&folder, words, &take, line);
        }
        for (take, number) in [
            (vec![], 1),
            (start(), 1),
            (canonical()[..639].to_vec(), 1),
            (older_start(), 1),
            (vec![0x41; 30], 2),
            (vec![0; 640], 2),
        ] {
            expect_checked(&folder, words, &take, &format!("refused {number}"));
        }
    }
    for (take, number, line) in touched_in_lenient() {
        expect_checked(&folder, &[], &take, &format!("refused {number}"));
        expect_checked(&folder, &["--lenient"], &take, line);
    }
}

/// A line for each, under its name as 'list' has it, and the largest status: what fails is told and keeps no other from being
/// checked.
#[test]
fn checks_several_with_their_names() {
    let folder = Folder::new("check-several");
    folder.file("good", &canonical());
    folder.file("cut", &canonical()[..276]);
    folder.file("early", &canonical()[..277]);
    folder.file("over", &[&canonical()[..], &[0]].concat());
    folder.file("other", &[0x41; 60]);
    fs::create_dir(folder.join("folder")).unwrap();
    let good = "good: canonical\n";
    let cut = "cut: byte 276 is missing and would be 0: the file ends before the morph count\n";
    let early = "vmd: early: refused 1: the file ends early\n";
    let over = format!("vmd: over: {OVER}\n");
    let no_file = "vmd: none: cannot read the file: No such file or directory (os error 2)\n";
    let no_take = "vmd: folder: cannot read the file: it is a folder\n";
    for (words, expected, lines, told) in [
        (&["good", "good"][..], 0, [good, good].concat(), String::new()),
        (&["good", "cut", "good"], 1, [good, cut, good].concat(), String::new()),
        (&["cut", "good"], 1, [cut, good].concat(), String::new()),
        (&["early", "good"], 1, ["early: refused 1\n", good].concat(), early.into()),
        (&["over", "cut", "good"], 1, ["over: refused 16\n", cut, good].concat(), over.clone()),
        (
            &["--lenient", "over", "good"],
            1,
            "over: byte 640 is 0 and would be left out: the file goes on after the last property frame\n".to_owned() + good,
            String::new(),
        ),
        (&["none", "good"], 2, good.into(), no_file.into()),
        (&["good", "none", "cut"], 2, [good, cut].concat(), no_file.into()),
        (&["folder", "early", "cut"], 2, ["early: refused 1\n", cut].concat(), [no_take, early].concat()),
        (&["good", "folder"], 2, good.into(), no_take.into()),
        (&["none"], 2, String::new(), no_file.into()),
        (&["folder"], 2, String::new(), no_take.into()),
        (&["over"], 1, "refused 16\n".into(), over.clone()),
        (&["other"], 1, "refused 2\n".into(), "vmd: other: refused 2: the file is not a VMD take\n".into()),
    ] {
        let done = vmd().current_dir(&folder.0).arg("check").args(words).output().unwrap();
        assert_eq!((status(&done), out(&done), err(&done)), (expected, lines, told), "{words:?}");
    }
    let done = given(vmd().current_dir(&folder.0).args(["check", "good", "-"]), &canonical()[..276]);
    assert_eq!((status(&done), out(&done)), (1, good.to_owned() + &cut.replace("cut", "standard input")));
    let done = given(vmd().current_dir(&folder.0).args(["check", "-"]), &start());
    assert_eq!((status(&done), out(&done)), (1, "refused 1\n".into()));
    assert_eq!(err(&done), "vmd: standard input: refused 1: the file ends early\n");
    assert_eq!(folder.names(), ["cut", "early", "folder", "good", "other", "over"]);
}

/// Wherever the option stands. Without it a damaged take is refused in the words of the commands that save.
#[test]
fn checks_damaged_takes() {
    let folder = Folder::new("check-damaged");
    for (take, message, _) in damaged() {
        folder.file("damaged", &take);
        let run = |words: &[&str]| vmd().current_dir(&folder.0).arg("check").args(words).output().unwrap();
        let done = run(&["damaged"]);
        assert_eq!((status(&done), err(&done)), (1, format!("vmd: damaged: {message}\n")));
        assert_eq!(out(&done), format!("{}\n", message.split(':').next().unwrap()));
        let expected = Manner::Lenient.open(&take).unwrap().first_change().unwrap().to_string();
        for words in [&["--lenient", "damaged"][..], &["damaged", "--lenient"], &["--lenient", "--", "damaged"]] {
            let done = run(words);
            assert_eq!((status(&done), out(&done), err(&done)), (1, format!("{expected}\n"), String::new()), "{words:?}");
        }
        assert_eq!(fs::read(folder.join("damaged")).unwrap(), take);
    }
    assert_eq!(folder.names(), ["damaged"]);
}

#[test]
fn checks_the_examples() {
    let examples = concat!(env!("CARGO_MANIFEST_DIR"), "/../examples");
    let takes = ["encore.vmd", "leap.vmd", "show.vmd", "stage.vmd", "step.vmd"];
    let done = vmd().current_dir(examples).arg("check").args(takes).output().unwrap();
    let expected = "\
encore.vmd: byte 21 is 102 and would be 48: the file is of the older edition
leap.vmd: canonical
show.vmd: canonical
stage.vmd: canonical
step.vmd: canonical
";
    assert_eq!((status(&done), out(&done), err(&done)), (1, expected.into(), String::new()));
    let done = vmd().current_dir(examples).arg("check").args(&takes[1..]).output().unwrap();
    assert_eq!((status(&done), err(&done)), (0, String::new()));
}

/// What a command has saved is canonical, whatever was read; but for what is saved in the older edition.
#[test]
fn checks_what_was_saved() {
    let folder = Folder::new("check-saved");
    for (take, _, _) in damaged() {
        folder.file("damaged", &take);
        folder.file("good", &bones(2, 1)[..276]);
        for words in SAVING {
            let done = vmd().current_dir(&folder.0).args(words).args(["--lenient", "-o", "out"]).output().unwrap();
            assert_eq!(status(&done), 0, "{words:?}: {}", err(&done));
            let done = vmd().current_dir(&folder.0).args(["check", "out"]).output().unwrap();
            let expected = if words.contains(&"--older") {
                (1, "byte 21 is 102 and would be 48: the file is of the older edition\n")
            } else {
                (0, "canonical\n")
            };
            assert_eq!((status(&done), &*out(&done)), expected, "{words:?}");
        }
    }
}

// ---- saves

#[test]
fn exports_and_joins() {
    let folder = Folder::new("export");
    let (one, two, three) = (bones(1, 1), bones(2, 2), bones(3, 3));
    let paths = [folder.file("one", &one[..165]), folder.file("two", &two), folder.file("three", &three)];
    let to = folder.join("out");
    let done = vmd().arg("export").arg(&paths[0]).arg("-o").arg(&to).output().unwrap();
    assert_eq!((status(&done), out(&done), err(&done)), (0, String::new(), String::new()));
    assert_eq!(fs::read(&to).unwrap(), one);

    let done = vmd().arg("join").args(&paths[..2]).arg("-o").arg(&to).output().unwrap();
    assert_eq!((status(&done), err(&done)), (0, String::new()));
    assert_eq!(fs::read(&to).unwrap(), vmd::join(&one, &two).unwrap());

    let done = vmd().arg("join").args(&paths).arg("-o").arg(&to).output().unwrap();
    assert_eq!((status(&done), err(&done)), (0, String::new()));
    let all = vmd::join(&vmd::join(&one, &two).unwrap(), &three).unwrap();
    assert_eq!(fs::read(&to).unwrap(), all);
    assert_eq!(folder.names(), ["one", "out", "three", "two"]);

    // standard input and output
    let done = given(vmd().args(["export", "-", "-o", "-"]), &one[..165]);
    assert_eq!((status(&done), done.stdout), (0, one.clone()));
    let done = given(vmd().arg("join").arg(&paths[0]).arg("-").arg(&paths[2]).args(["-o", "-"]), &two);
    assert_eq!((status(&done), done.stdout), (0, all));
}

/// Many are joined in a tree, and the bytes are those of a join from left to right.
#[test]
fn joins_many() {
    let folder = Folder::new("many");
    let takes: Vec<_> = (0..11).map(|n| bones(n + 1, n)).collect();
    let paths: Vec<_> = takes.iter().enumerate().map(|(n, take)| folder.file(&n.to_string(), take)).collect();
    let to = folder.join("out");
    let mut joined = takes[0].clone();
    for n in 2..=takes.len() {
        joined = vmd::join(&joined, &takes[n - 1]).unwrap();
        let done = vmd().arg("join").args(&paths[..n]).arg("-o").arg(&to).output().unwrap();
        assert_eq!((status(&done), err(&done)), (0, String::new()));
        assert!(fs::read(&to).unwrap() == joined, "{n} takes");
    }
    // The first that is refused is named, wherever it stands, and nothing is written.
    let (early, none) = (folder.file("early", &start()), folder.file("none", &[0x41; 60]));
    for place in 0..paths.len() {
        let mut paths = paths.clone();
        paths.splice(place..place, [early.clone(), none.clone()]);
        let done = vmd().arg("join").args(&paths).arg("-o").arg(&to).output().unwrap();
        assert_eq!(err(&done), format!("vmd: {}: refused 1: the file ends early\n", early.display()));
        assert!(status(&done) == 1 && fs::read(&to).unwrap() == joined);
    }
}

/// Every command but 'check' does with a take of the older edition what it does with the same take of the newer.
#[test]
fn takes_of_both_editions() {
    let folder = Folder::new("editions");
    let (newer, other) = (bones(5, 1), bones(3, 2));
    folder.file("newer", &newer);
    folder.file("older", &as_older(&newer));
    folder.file("other", &other);
    let run = |words: &[&str]| {
        let done = vmd().current_dir(&folder.0).args(words).output().unwrap();
        assert_eq!((status(&done), err(&done)), (0, String::new()), "{words:?}");
        done.stdout
    };
    assert_eq!(run(&["list", "older"]), run(&["list", "newer"]));
    assert_eq!(run(&["export", "older", "-o", "-"]), newer);
    let joined = [vmd::join(&newer, &other), vmd::join(&other, &newer), vmd::join(&newer, &newer)].map(Result::unwrap);
    assert_eq!(run(&["join", "older", "other", "-o", "-"]), joined[0]);
    assert_eq!(run(&["join", "other", "older", "-o", "-"]), joined[1]);
    assert_eq!(run(&["join", "older", "newer", "-o", "-"]), joined[2]);
    assert_eq!(run(&["join", "newer", "older", "-o", "-"]), joined[2]);
    assert_eq!(run(&["season", "older", "other", "older"]), run(&["season", "newer", "other", "newer"]));
    assert_eq!(run(&["excerpt", "1", "3", "older", "-o", "-"]), vmd::excerpt(&newer, 1, 3).unwrap());
    let done = vmd().current_dir(&folder.0).args(["tidy", "older", "-o", "-"]).output().unwrap();
    assert_eq!((status(&done), done.stdout), (0, newer));
}

/// Wherever the option stands, to a file and to standard output, from a take of either edition.
#[test]
fn exports_in_the_older_edition() {
    let folder = Folder::new("older");
    let take = bones(3, 1);
    let older = as_older(&take);
    folder.file("newer", &take[..take.len() - 20]);
    folder.file("older", &older[..older.len() - 20]);
    for words in [
        &["export", "--older", "newer", "-o", "out"][..],
        &["export", "newer", "--older", "-o", "out"],
        &["export", "newer", "-o", "out", "--older"],
        &["export", "-o", "out", "--older", "--", "newer"],
        &["export", "--older", "older", "-o", "out"],
    ] {
        let done = vmd().current_dir(&folder.0).args(words).output().unwrap();
        assert_eq!((status(&done), out(&done), err(&done)), (0, String::new(), String::new()), "{words:?}");
        assert_eq!(fs::read(folder.join("out")).unwrap(), older, "{words:?}");
        fs::remove_file(folder.join("out")).unwrap();
    }
    let done = given(vmd().args(["export", "--older", "-", "-o", "-"]), &take);
    assert_eq!((status(&done), done.stdout), (0, older.clone()));
    // over the take itself, and back
    let saved_over = |words: &[&str]| {
        let done = vmd().current_dir(&folder.0).args(words).args(["newer", "-o", "newer"]).output().unwrap();
        assert_eq!((status(&done), err(&done)), (0, String::new()), "{words:?}");
        fs::read(folder.join("newer")).unwrap()
    };
    assert_eq!(saved_over(&["export", "--older"]), older);
    assert_eq!(saved_over(&["export"]), take);
    assert_eq!(folder.names(), ["newer", "older"]);
}

/// The example of the older edition is what the command makes of another.
#[test]
fn exports_the_encore() {
    let examples = concat!(env!("CARGO_MANIFEST_DIR"), "/../examples");
    for (words, name) in [(&["export", "--older", "show.vmd"][..], "encore.vmd"), (&["export", "encore.vmd"], "show.vmd")] {
        let done = vmd().current_dir(examples).args(words).args(["-o", "-"]).output().unwrap();
        assert_eq!((status(&done), err(&done)), (0, String::new()));
        assert!(done.stdout == fs::read(format!("{examples}/{name}")).unwrap(), "{name}");
    }
}

/// A take that the older edition has no room for is named, and nothing is written.
#[test]
fn a_model_name_that_is_too_long_for_the_older_edition() {
    let folder = Folder::new("long");
    let mut take = bones(2, 1);
    take[30..41].copy_from_slice(b"eleven byte");
    folder.file("take", &take);
    folder.file("out", b"old");
    let sentence = "refused 15: the model name takes more than 10 bytes, and the older edition has no room for it";
    for to in ["out", "none", "take", "-"] {
        let done = vmd().current_dir(&folder.0).args(["export", "--older", "take", "-o", to]).output().unwrap();
        assert_eq!((status(&done), out(&done)), (1, String::new()), "{to}");
        assert_eq!(err(&done), format!("vmd: take: {sentence}\n"));
    }
    let piped = given(vmd().current_dir(&folder.0).args(["export", "--older", "-", "-o", "out"]), &take);
    assert_eq!((status(&piped), err(&piped)), (1, format!("vmd: standard input: {sentence}\n")));
    assert_eq!(fs::read(folder.join("out")).unwrap(), b"old");
    assert_eq!(fs::read(folder.join("take")).unwrap(), take);
    assert_eq!(folder.names(), ["out", "take"]);

    // the newer edition has room for it, and the older for a byte less
    let done = vmd().current_dir(&folder.0).args(["export", "take", "-o", "-"]).output().unwrap();
    assert_eq!((status(&done), &done.stdout), (0, &take));
    take[40] = 0;
    folder.file("take", &take);
    let done = vmd().current_dir(&folder.0).args(["export", "--older", "take", "-o", "out"]).output().unwrap();
    assert_eq!((status(&done), err(&done)), (0, String::new()));
    assert_eq!(fs::read(folder.join("out")).unwrap(), as_older(&take));
}

/// What is told of a take that was tidied: of each section how many records were kept and how many dropped.
fn told(sections: [[u32; 2]; 6]) -> String {
    let names = ["bones", "morphs", "cameras", "lights", "self-shadows", "properties"];
    names.iter().zip(sections).map(|(name, [kept, dropped])| format!("{name}: {kept} kept, {dropped} dropped\n")).collect()
}

/// Records in no order, some of them at the same frame, and what is told of them once they are tidied.
fn untidy() -> (Vec<u8>, String) {
    let take = at_frames([vec![3, 1, 3, 2, 3], vec![], vec![7, 7], vec![5], vec![9, 8, 9, 8], vec![0, 4]]);
    (take, told([[3, 2], [0, 0], [1, 1], [1, 0], [2, 2], [2, 0]]))
}

/// From and to files and standard input and output. Standard error has a line for each section, in the file's order, also for
/// one without records.
#[test]
fn tidies_a_take() {
    let folder = Folder::new("tidy");
    let (take, lines) = untidy();
    let tidied = at_frames([vec![1, 2, 3], vec![], vec![7], vec![5], vec![8, 9], vec![0, 4]]);
    folder.file("take", &take);
    for words in [&["tidy", "take", "-o", "out"][..], &["tidy", "-o", "out", "--", "take"]] {
        let done = vmd().current_dir(&folder.0).args(words).output().unwrap();
        assert_eq!((status(&done), out(&done), err(&done)), (0, String::new(), lines.clone()), "{words:?}");
        assert_eq!(fs::read(folder.join("out")).unwrap(), tidied);
        fs::remove_file(folder.join("out")).unwrap();
    }
    let done = given(vmd().args(["tidy", "-", "-o", "-"]), &take);
    assert_eq!((status(&done), err(&done), done.stdout), (0, lines.clone(), tidied.clone()));
    let done = given(vmd().current_dir(&folder.0).args(["tidy", "-", "-o", "out"]), &as_older(&take));
    assert_eq!((status(&done), out(&done), err(&done)), (0, String::new(), lines.clone()));
    assert_eq!(fs::read(folder.join("out")).unwrap(), tidied);
    let done = vmd().current_dir(&folder.0).args(["tidy", "take", "-o", "/dev/stdout"]).output().unwrap();
    assert_eq!((status(&done), err(&done), done.stdout), (0, lines.clone(), tidied.clone()));
    let done = given(vmd().args(["tidy", "-", "-o", "-"]), &counts(&[0]));
    assert_eq!((status(&done), err(&done), done.stdout), (0, told([[0; 2]; 6]), counts(&[0; 6])));

    // over the take itself, and again, which changes nothing
    for lines in [lines, told([[3, 0], [0, 0], [1, 0], [1, 0], [2, 0], [2, 0]])] {
        let done = vmd().current_dir(&folder.0).args(["tidy", "take", "-o", "take"]).output().unwrap();
        assert_eq!((status(&done), out(&done), err(&done)), (0, String::new(), lines));
        assert_eq!(fs::read(folder.join("take")).unwrap(), tidied);
    }
    assert_eq!(folder.names(), ["out", "take"]);
}

/// Names that agree up to the line feed are one bone: of those at one frame the last stays, under its whole name.
#[test]
fn tidies_a_take_with_remarks() {
    let bones = |records: &[(&[u8], u32)]| {
        Records::of(0, records.iter().map(|(name, frame)| Record::bone(name, *frame, *frame as u8)).collect()).saved()
    };
    let take = bones(&[(b"arm\nleft", 5), (b"leg", 5), (b"arm", 3), (b"arm\nright", 5), (b"arm\rleft", 5)]);
    let tidied = bones(&[(b"arm", 3), (b"arm\nright", 5), (b"leg", 5), (b"arm\rleft", 5)]);
    let done = given(vmd().args(["tidy", "-", "-o", "-"]), &take);
    let lines = told([[4, 1], [0, 0], [0, 0], [0, 0], [0, 0], [0, 0]]);
    assert_eq!((status(&done), err(&done), done.stdout), (0, lines, tidied));
    let done = given(vmd().args(["season", "-"]), &take);
    assert_eq!((status(&done), err(&done)), (0, String::new()));
    assert!(out(&done).contains("\ndistinct bone names, added up over the takes: 3\n"), "{}", out(&done));
}

/// A take that was joined with itself has each key twice.
#[test]
fn tidies_a_join() {
    let examples = concat!(env!("CARGO_MANIFEST_DIR"), "/../examples");
    let run = |words: &[&str], input: &[u8]| given(vmd().current_dir(examples).args(words).args(["-o", "-"]), input);
    let once = run(&["tidy", "show.vmd"], b"");
    assert_eq!(err(&once), told([[9, 2], [4, 0], [3, 0], [2, 0], [3, 0], [4, 0]]));
    let twice = run(&["tidy", "-"], &run(&["join", "show.vmd", "encore.vmd"], b"").stdout);
    assert_eq!(err(&twice), told([[9, 13], [4, 4], [3, 3], [2, 2], [3, 3], [4, 4]]));
    assert_eq!((status(&once), status(&twice)), (0, 0));
    assert!(once.stdout == twice.stdout);
}

/// A command of one take, by the words before it: what the take is refused for, and what cannot be read or written, is told and
/// nothing else; "out" in the folder stays as it was.
fn expect_not_saved(folder: &Folder, command: &[&str], take: &[u8]) {
    folder.file("take", take);
    folder.file("early", &take[..take.len() - 1]);
    folder.file("other", &[0x41; 60]);
    folder.file("out", b"old");
    fs::create_dir(folder.join("folder")).unwrap();
    let command = || {
        let mut vmd = vmd();
        vmd.current_dir(&folder.0).args(command);
        vmd
    };
    for (words, expected, sentence) in [
        (["early", "out"], 1, "early: refused 1: the file ends early"),
        (["other", "out"], 1, "other: refused 2: the file is not a VMD take"),
        (["early", "-"], 1, "early: refused 1: the file ends early"),
        (["none", "out"], 2, "none: cannot read the file: No such file or directory (os error 2)"),
        (["folder", "out"], 2, "folder: cannot read the file: it is a folder"),
        (["take", "folder"], 2, "folder: cannot replace the file: it is a folder"),
    ] {
        let done = command().args([words[0], "-o", words[1]]).output().unwrap();
        assert_eq!((status(&done), out(&done), err(&done)), (expected, String::new(), format!("vmd: {sentence}\n")));
        assert_eq!(fs::read(folder.join("out")).unwrap(), b"old");
    }
    let piped = given(command().args(["-", "-o", "out"]), &start());
    assert_eq!((status(&piped), err(&piped)), (1, "vmd: standard input: refused 1: the file ends early\n".into()));
    assert_eq!(fs::read(folder.join("out")).unwrap(), b"old");
}

/// Nothing is told of what was kept where the take was not saved: what is told then is why.
#[test]
fn a_tidied_take_that_is_not_saved() {
    let folder = Folder::new("tidy-fails");
    let (take, _) = untidy();
    expect_not_saved(&folder, &["tidy"], &take);
    // standard error that cannot be written to does not keep the take from being saved
    let done = vmd_under("exec 2>&-").current_dir(&folder.0).args(["tidy", "take", "-o", "out"]).output().unwrap();
    assert_eq!((status(&done), out(&done)), (0, String::new()));
    assert_eq!(fs::read(folder.join("out")).unwrap(), vmd::tidy(&take).unwrap().file);
}

// ---- excerpts

/// Records in every section at frames around 10 and 20, and those of an excerpt from 10 to 20.
fn around() -> [Vec<u8>; 2] {
    let take = at_frames([vec![25, 9, 10], vec![20, 21], vec![15], vec![0, 4_294_967_295], vec![], vec![20, 10, 30]]);
    [take, at_frames([vec![0], vec![10], vec![5], vec![], vec![], vec![10, 0]])]
}

/// From and to files and standard input and output, wherever the words may stand. As of an export nothing is told.
#[test]
fn cuts_an_excerpt() {
    let folder = Folder::new("excerpt");
    let [take, piece] = around();
    folder.file("take", &take);
    folder.file("-take", &take);
    for words in [
        &["excerpt", "10", "20", "take", "-o", "out"][..],
        &["excerpt", "10", "20", "-o", "out", "--", "take"],
        &["excerpt", "10", "20", "-o", "out", "--", "-take"],
        &["excerpt", "-o", "out", "--", "10", "20", "take"],
        &["excerpt", "0010", "00000000000020", "take", "-o", "out"],
        &["excerpt", "--lenient", "10", "20", "take", "-o", "out"],
        &["excerpt", "10", "--lenient", "20", "take", "-o", "out"],
        &["excerpt", "10", "20", "take", "-o", "out", "--lenient"],
    ] {
        let done = vmd().current_dir(&folder.0).args(words).output().unwrap();
        assert_eq!((status(&done), out(&done), err(&done)), (0, String::new(), String::new()), "{words:?}");
        assert_eq!(fs::read(folder.join("out")).unwrap(), piece, "{words:?}");
        fs::remove_file(folder.join("out")).unwrap();
    }
    let done = given(vmd().args(["excerpt", "10", "20", "-", "-o", "-"]), &take);
    assert_eq!((status(&done), err(&done), &done.stdout), (0, String::new(), &piece));
    let done = given(vmd().current_dir(&folder.0).args(["excerpt", "10", "20", "-", "-o", "out"]), &as_older(&take));
    assert_eq!((status(&done), out(&done), err(&done)), (0, String::new(), String::new()));
    assert_eq!(fs::read(folder.join("out")).unwrap(), piece);
    let done = vmd().current_dir(&folder.0).args(["excerpt", "10", "20", "take", "-o", "/dev/stdout"]).output().unwrap();
    assert_eq!((status(&done), err(&done), &done.stdout), (0, String::new(), &piece));
    // over the take itself, and a piece of that again
    for [first, last] in [[10, 20], [5, 10]] {
        let expected = vmd::excerpt(&fs::read(folder.join("take")).unwrap(), first, last).unwrap();
        let words = ["excerpt", &first.to_string(), &last.to_string(), "take", "-o", "take"];
        let done = vmd().current_dir(&folder.0).args(words).output().unwrap();
        assert_eq!((status(&done), out(&done), err(&done)), (0, String::new(), String::new()));
        assert_eq!(fs::read(folder.join("take")).unwrap(), expected);
    }
    assert_eq!(folder.names(), ["-take", "out", "take"]);
}

/// All of a take is its export, and nothing of it its model name alone.
#[test]
fn excerpts_of_all_and_of_nothing() {
    let [mut take, _] = around();
    take[30..36].copy_from_slice(b"dancer");
    let run = |words: [&str; 2]| given(vmd().arg("excerpt").args(words).args(["-", "-o", "-"]), &as_older(&take));
    for words in [["0", "4294967295"], ["0", "04294967295"]] {
        let done = run(words);
        assert_eq!((status(&done), err(&done), &done.stdout), (0, String::new(), &take));
    }
    let done = run(["11", "14"]);
    assert_eq!((status(&done), err(&done)), (0, String::new()));
    assert_eq!(done.stdout, [&take[..50], &[0; 24]].concat());
    let largest = run(["4294967295", "4294967295"]);
    assert_eq!(largest.stdout[50..], at_frames([vec![], vec![], vec![], vec![0], vec![], vec![]])[50..]);
}

/// 18, before the file is read: whatever IN is, also where there is none, and with nothing written.
#[test]
fn an_excerpt_whose_first_frame_is_above_the_last() {
    let folder = Folder::new("above");
    let [take, _] = around();
    folder.file("take", &take);
    folder.file("empty", &[]);
    folder.file("other", &[0x41; 60]);
    folder.file("damaged", &counts(&[0, 0, 1]));
    folder.file("out", b"old");
    fs::create_dir(folder.join("folder")).unwrap();
    for (from, [first, last]) in [
        ("take", ["20", "10"]),
        ("empty", ["1", "0"]),
        ("other", ["4294967295", "4294967294"]),
        ("damaged", ["3", "2"]),
        ("none", ["3", "2"]),
        ("folder", ["3", "2"]),
        ("-", ["3", "2"]),
    ] {
        for to in ["out", "new", "take", "folder", "-"] {
            for lenient in [&[][..], &["--lenient"]] {
                let words = ["excerpt", first, last, from, "-o", to];
                // a standard input that gives nothing: it is not read
                let done = vmd_under("exec <&-").current_dir(&folder.0).args(words).args(lenient).output().unwrap();
                let sentence = format!("vmd: frames {first} to {last}: refused 18: the first frame is above the last\n");
                assert_eq!((status(&done), out(&done), err(&done)), (1, String::new(), sentence), "{words:?}");
            }
        }
    }
    assert_eq!(fs::read(folder.join("out")).unwrap(), b"old");
    assert_eq!(fs::read(folder.join("take")).unwrap(), take);
    assert_eq!(folder.names(), ["damaged", "empty", "folder", "other", "out", "take"]);
}

/// Whatever is no whole number of 32 bits in decimal digits is told in FIRST's place and in LAST's: also what is above the
/// other frame, and where the file is none.
#[test]
fn words_that_are_no_frame() {
    let folder = Folder::new("no-frame");
    folder.file("out", b"old");
    for word in [
        "-1",
        "-0",
        "-4294967296",
        "4294967296",
        "18446744073709551616",
        "99999999999999999999999",
        "+5",
        "5.0",
        "1e3",
        "0x10",
        "1,000",
        "1_000",
        " 5",
        "5 ",
        "",
        "-",
        "first",
        "٣",
        "5\n",
    ] {
        for frames in [[word, "10"], ["0", word], [word, word]] {
            for from in ["none", "-"] {
                let words = ["excerpt", frames[0], frames[1], from, "-o", "out"];
                let done = vmd_under("exec <&-").current_dir(&folder.0).args(words).output().unwrap();
                let shown = word.replace('\n', "\\n");
                let sentence = format!("'{shown}' is no frame: frames are whole numbers from 0 to 4294967295");
                assert_eq!((status(&done), out(&done)), (2, String::new()), "{words:?}");
                assert_eq!(err(&done), format!("vmd: excerpt: {sentence}; 'vmd --help' tells more\n"));
            }
        }
    }
    let done = vmd().arg("excerpt").arg(OsStr::from_bytes(b"\xff1")).args(["9", "take", "-o", "out"]).output().unwrap();
    assert!(err(&done).starts_with(r"vmd: excerpt: '\xff1' is no frame: "), "{}", err(&done));
    assert_eq!((status(&done), fs::read(folder.join("out")).unwrap()), (2, b"old".to_vec()));
}

/// What the file is refused for, and what cannot be read or written; nothing is written.
#[test]
fn an_excerpt_that_is_not_saved() {
    let folder = Folder::new("excerpt-fails");
    let [take, _] = around();
    expect_not_saved(&folder, &["excerpt", "5", "5"], &take);
}

// ---- seasons

/// The figures of a season as they are printed: each section's total, smallest and largest, and the rest in their order.
fn figures(takes: [u64; 2], sections: [[u64; 3]; 6], rest: [u64; 5]) -> String {
    let names = ["bones", "morphs", "cameras", "lights", "self-shadows", "properties"];
    let mut text = format!("accepted takes: {}\nrefused takes: {}\n", takes[0], takes[1]);
    for (name, [total, smallest, largest]) in names.into_iter().zip(sections) {
        text += &format!("{name}, total: {total}\n{name}, smallest: {smallest}\n{name}, largest: {largest}\n");
    }
    let names = [
        "distinct bone names, added up over the takes",
        "distinct morph names, added up over the takes",
        "records of all sections",
        "records per accepted take",
        "records per accepted take, remainder",
    ];
    names.into_iter().zip(rest).for_each(|(name, number)| text += &format!("{name}: {number}\n"));
    text
}

#[test]
fn figures_of_the_examples() {
    let examples = concat!(env!("CARGO_MANIFEST_DIR"), "/../examples");
    let takes = ["encore.vmd", "leap.vmd", "show.vmd", "stage.vmd", "step.vmd"];
    let done = vmd().current_dir(examples).arg("season").args(takes).output().unwrap();
    assert_eq!((status(&done), err(&done)), (0, String::new()));
    let expected = "\
accepted takes: 5
refused takes: 0
bones, total: 33
bones, smallest: 0
bones, largest: 11
morphs, total: 12
morphs, smallest: 0
morphs, largest: 4
cameras, total: 9
cameras, smallest: 0
cameras, largest: 3
lights, total: 6
lights, smallest: 0
lights, largest: 2
self-shadows, total: 9
self-shadows, smallest: 0
self-shadows, largest: 3
properties, total: 12
properties, smallest: 0
properties, largest: 4
distinct bone names, added up over the takes: 10
distinct morph names, added up over the takes: 6
records of all sections: 81
records per accepted take: 16
records per accepted take, remainder: 1
";
    assert_eq!(out(&done), expected);
}

/// A take that is refused counts as refused, one that cannot be read nowhere.
#[test]
fn figures_over_takes_that_fail() {
    let folder = Folder::new("season");
    folder.file("one", &bones(1, 1));
    folder.file("six", &bones(6, 1));
    folder.file("early", &start());
    folder.file("other", &[0x41; 60]);
    let season = |words: &[&str]| vmd().current_dir(&folder.0).arg("season").args(words).output().unwrap();
    let with = |takes, bones, rest| figures(takes, [bones, [0; 3], [0; 3], [0; 3], [0; 3], [0; 3]], rest);
    let early = "vmd: early: refused 1: the file ends early\n";
    let other = "vmd: other: refused 2: the file is not a VMD take\n";
    let none = "vmd: none: cannot read the file: No such file or directory (os error 2)\n";

    let done = season(&["six", "one"]);
    assert_eq!((status(&done), err(&done)), (0, String::new()));
    assert_eq!(out(&done), with([2, 0], [7, 1, 6], [2, 0, 7, 3, 1]));
    let done = season(&["early", "six", "other", "one"]);
    assert_eq!((status(&done), err(&done)), (1, format!("{early}{other}")));
    assert_eq!(out(&done), with([2, 2], [7, 1, 6], [2, 0, 7, 3, 1]));
    let done = season(&["six", "none", "one"]);
    assert_eq!((status(&done), err(&done)), (2, none.into()));
    assert_eq!(out(&done), with([2, 0], [7, 1, 6], [2, 0, 7, 3, 1]));
    let done = season(&["none", "early", "six"]);
    assert_eq!((status(&done), err(&done)), (2, format!("{none}{early}")));
    assert_eq!(out(&done), with([1, 1], [6, 6, 6], [1, 0, 6, 6, 0]));
    let done = season(&["other"]);
    assert_eq!((status(&done), err(&done)), (1, other.into()));
    assert_eq!(out(&done), with([0, 1], [0; 3], [0; 5]));
    let done = season(&["none"]);
    assert_eq!((status(&done), err(&done)), (2, none.into()));
    assert_eq!(out(&done), with([0, 0], [0; 3], [0; 5]));

    let piped = given(vmd().current_dir(&folder.0).args(["season", "one", "-"]), &bones(6, 1));
    assert_eq!((status(&piped), out(&piped)), (0, with([2, 0], [7, 1, 6], [2, 0, 7, 3, 1])));
    let piped = given(vmd().args(["season", "-"]), &start());
    assert_eq!((status(&piped), out(&piped)), (1, with([0, 1], [0; 3], [0; 5])));
    assert_eq!(err(&piped), "vmd: standard input: refused 1: the file ends early\n");
}

/// On a terminal, how far it is: written over with each file, and away before anything else is written.
#[test]
fn a_season_on_a_terminal() {
    let folder = Folder::new("terminal");
    let take = bones(1, 1);
    ["1", "2", "3", "4", "5", "6", "7", "8", "10"].iter().for_each(|name| drop(folder.file(name, &take)));
    let shown = |words: &str| {
        let line = format!("'{}' season {words} > out", env!("CARGO_BIN_EXE_vmd"));
        let mut script = Command::new("script");
        script.current_dir(&folder.0).args(["-qec", &line, "/dev/null"]).stdin(Stdio::null());
        script.output().ok().map(|done| (status(&done), out(&done)))
    };
    let Some(alone) = shown("1") else { return println!("not tried: a terminal: there is no 'script' here") };
    assert_eq!(alone, (0, String::new()), "one file has no progress");
    let two = "\rvmd: 1 of 2\rvmd: 2 of 2\r           \r";
    assert_eq!(shown("1 2"), Some((0, two.into())));
    let failed = "vmd: none: cannot read the file: No such file or directory (os error 2)\r\n";
    let at = |n: u32| format!("\rvmd: {n} of 10");
    let clear = format!("\r{}\r", " ".repeat("vmd: 10 of 10".len()));
    let ten = [(1..=9).map(at).collect(), clear.clone(), failed.into(), at(10), clear].concat();
    assert_eq!(shown("1 2 3 4 5 6 7 8 none 10"), Some((2, ten)));
    assert!(fs::read_to_string(folder.join("out")).unwrap().starts_with("accepted takes: 9\n"));
}

// ---- damaged takes

const OVER: &str = "refused 16: there are bytes after the last property frame, or after a property count of 0; --lenient \
                    reads such a file, and what is saved then has lost these bytes";
const OVERSIZED: &str = "refused 17: a camera, light or self-shadow count is too large for the bytes after it; --lenient \
                         reads such a file, and what is saved then has lost that section's records and every section after \
                         it, IK frames among them";

/// Damaged takes, the message for each, and what is left of it in the lenient manner.
fn damaged() -> Vec<(Vec<u8>, &'static str, Vec<u8>)> {
    let take = at_frames([vec![3, 1, 3], vec![5], vec![9, 7], vec![2], vec![4, 4], vec![8]]);
    let cut = |[cameras, lights, self_shadows]: [&[u8]; 3]| {
        let frames = |frames: &[u8]| frames.iter().map(|frame| u32::from(*frame)).collect();
        at_frames([vec![3, 1, 3], vec![5], frames(cameras), frames(lights), frames(self_shadows), vec![]])
    };
    vec![
        (counts(&[0, 0, 1]), OVERSIZED, counts(&[0; 6])),
        (oversized(&take, 2), OVERSIZED, cut([&[], &[], &[]])),
        (oversized(&take, 3), OVERSIZED, cut([&[9, 7], &[], &[]])),
        (oversized(&take, 4), OVERSIZED, cut([&[9, 7], &[2], &[]])),
        ([counts(&[0; 6]), vec![0; 4]].concat(), OVER, counts(&[0; 6])),
        ([&take[..], &[0xC5; 9]].concat(), OVER, take),
    ]
}

/// Every command that saves, with the files `damaged` and `good`.
const SAVING: [&[&str]; 7] = [
    &["export", "damaged"],
    &["export", "--older", "damaged"],
    &["join", "damaged", "good"],
    &["join", "good", "damaged"],
    &["tidy", "damaged"],
    &["excerpt", "0", "4294967295", "damaged"],
    &["excerpt", "2", "7", "damaged"],
];

/// Each is named, with what is wrong, what reads it and what that loses; nothing is written.
#[test]
fn damaged_takes_are_refused() {
    let folder = Folder::new("damaged");
    folder.file("good", &bones(2, 1));
    folder.file("out", b"old");
    for (take, message, _) in damaged() {
        for take in [as_older(&take), take] {
            folder.file("damaged", &take);
            for words in SAVING {
                for to in ["out", "none", "damaged", "-"] {
                    let done = vmd().current_dir(&folder.0).args(words).args(["-o", to]).output().unwrap();
                    assert_eq!((status(&done), out(&done)), (1, String::new()), "{words:?}");
                    assert_eq!(err(&done), format!("vmd: damaged: {message}\n"), "{words:?}");
                }
                assert_eq!(fs::read(folder.join("out")).unwrap(), b"old");
                assert_eq!(fs::read(folder.join("damaged")).unwrap(), take);
            }
            let piped = given(vmd().current_dir(&folder.0).args(["tidy", "-", "-o", "out"]), &take);
            assert_eq!((status(&piped), err(&piped)), (1, format!("vmd: standard input: {message}\n")));
        }
    }
    assert_eq!(folder.names(), ["damaged", "good", "out"]);
}

/// With --lenient, wherever it stands, what is saved is the same command's answer for what is left.
#[test]
fn damaged_takes_are_read_with_lenient() {
    let folder = Folder::new("lenient");
    folder.file("good", &bones(2, 1));
    for (take, _, left) in damaged() {
        for take in [as_older(&take), take] {
            for words in SAVING {
                folder.file("damaged", &left);
                let expected = vmd().current_dir(&folder.0).args(words).args(["-o", "-"]).output().unwrap();
                assert_eq!(status(&expected), 0, "{words:?}");
                folder.file("damaged", &take);
                let run = |before: &[&str], after: &[&str]| {
                    vmd().current_dir(&folder.0).arg(words[0]).args(before).args(&words[1..]).args(after).output().unwrap()
                };
                for done in [
                    run(&["--lenient"], &["-o", "-"]),
                    run(&[], &["--lenient", "-o", "-"]),
                    run(&[], &["-o", "-", "--lenient"]),
                ] {
                    assert_eq!((status(&done), err(&done)), (0, err(&expected)), "{words:?}");
                    assert!(done.stdout == expected.stdout, "{words:?}");
                }
                // over the take itself, whose damage is gone then
                let done = run(&["--lenient"], &["-o", "damaged"]);
                assert_eq!((status(&done), out(&done), err(&done)), (0, String::new(), err(&expected)), "{words:?}");
                assert!(fs::read(folder.join("damaged")).unwrap() == expected.stdout, "{words:?}");
                assert_eq!(status(&run(&[], &["-o", "-"])), 0);
            }
        }
    }
    let (over, ..) = damaged().pop().unwrap();
    let piped = given(vmd().args(["export", "--lenient", "-", "-o", "-"]), &over);
    assert_eq!((status(&piped), piped.stdout), (0, over[..over.len() - 9].to_vec()));
}

/// What both manners refuse is told as it is without the option, and without a word of it.
#[test]
fn lenient_with_takes_that_both_manners_refuse() {
    let folder = Folder::new("lenient-refused");
    folder.file("good", &bones(2, 1));
    folder.file("out", b"old");
    let mut long = counts(&[0, 0, 1]);
    long[30..41].fill(b'n');
    let cases = [
        (start(), "refused 1: the file ends early", &SAVING[..]),
        (vec![0x41; 60], "refused 2: the file is not a VMD take", &SAVING),
        (
            long,
            "refused 15: the model name takes more than 10 bytes, and the older edition has no room for it",
            &SAVING[1..2],
        ),
    ];
    for (take, sentence, commands) in cases {
        folder.file("damaged", &take);
        for words in commands {
            let done = vmd().current_dir(&folder.0).args(*words).args(["--lenient", "-o", "out"]).output().unwrap();
            assert_eq!((status(&done), out(&done)), (1, String::new()), "{words:?}");
            assert_eq!(err(&done), format!("vmd: damaged: {sentence}\n"), "{words:?}");
            assert_eq!(fs::read(folder.join("out")).unwrap(), b"old");
        }
    }
}

/// The first damaged take of a join is named, wherever it stands.
#[test]
fn joins_of_several_damaged_takes() {
    let folder = Folder::new("damaged-joins");
    let good = at_frames([vec![3], vec![], vec![6], vec![], vec![], vec![4]]);
    folder.file("good", &good);
    folder.file("over", &[&good[..], &[0]].concat());
    folder.file("oversized", &oversized(&good, 2));
    folder.file("early", &good[..60]);
    let run = |words: &[&str]| vmd().current_dir(&folder.0).arg("join").args(words).args(["-o", "-"]).output().unwrap();
    for (words, message) in [
        (&["over", "oversized", "early"][..], format!("over: {OVER}")),
        (&["oversized", "over", "early"], format!("oversized: {OVERSIZED}")),
        (&["good", "good", "good", "over", "oversized"], format!("over: {OVER}")),
        (&["early", "over", "oversized"], "early: refused 1: the file ends early".into()),
        (&["--lenient", "over", "oversized", "early"], "early: refused 1: the file ends early".into()),
    ] {
        let done = run(words);
        assert_eq!((status(&done), out(&done), err(&done)), (1, String::new(), format!("vmd: {message}\n")), "{words:?}");
    }
    let done = run(&["--lenient", "over", "oversized", "good"]);
    assert_eq!((status(&done), err(&done)), (0, String::new()));
    assert_eq!(done.stdout, at_frames([vec![3, 3, 3], vec![], vec![6, 6], vec![], vec![], vec![4, 4]]));
}

/// They read such takes always, and tell of nothing.
#[test]
fn damaged_takes_in_a_list_and_in_a_season() {
    let folder = Folder::new("damaged-season");
    let mut names = Vec::new();
    for (i, (take, _, left)) in damaged().into_iter().enumerate() {
        let name = format!("{i}");
        let listed = |take: &[u8]| {
            folder.file(&name, take);
            vmd().current_dir(&folder.0).args(["list", &name]).output().unwrap()
        };
        let (expected, done) = (listed(&left), listed(&take));
        assert_eq!((status(&done), out(&done), err(&done)), (0, out(&expected), String::new()));
        names.push(name);
    }
    let done = vmd().current_dir(&folder.0).arg("season").args(&names).output().unwrap();
    assert_eq!((status(&done), err(&done)), (0, String::new()));
    let sections = [[12, 0, 3], [4, 0, 1], [6, 0, 2], [2, 0, 1], [2, 0, 2], [1, 0, 1]];
    assert_eq!(out(&done), figures([6, 0], sections, [4, 4, 27, 4, 3]));
}

/// OUT may be one of the takes that are read.
#[test]
fn saves_over_what_it_read() {
    let folder = Folder::new("over");
    let take = bones(40, 5);
    let path = folder.file("take", &take[..take.len() - 20]);
    assert_eq!(status(&vmd().arg("export").arg(&path).arg("-o").arg(&path).output().unwrap()), 0);
    assert_eq!(fs::read(&path).unwrap(), take);
    assert_eq!(status(&vmd().arg("join").args([&path, &path]).arg("-o").arg(&path).output().unwrap()), 0);
    assert_eq!(fs::read(&path).unwrap(), vmd::join(&take, &take).unwrap());
}

#[test]
fn refused_takes_are_named_and_nothing_is_written() {
    let folder = Folder::new("refused");
    let (good, bad) = (folder.file("good", &bones(1, 1)), folder.file("bad", &[0x41; 60]));
    let to = folder.file("out", b"old");
    for words in [
        &["export", "bad"][..],
        &["export", "--older", "bad"],
        &["join", "good", "bad"],
        &["join", "bad", "good"],
        &["tidy", "bad"],
        &["excerpt", "3", "30", "bad"],
    ] {
        let done = vmd().current_dir(&folder.0).args(words).args(["-o", "out"]).output().unwrap();
        assert_eq!(err(&done), "vmd: bad: refused 2: the file is not a VMD take\n", "{words:?}");
        assert_eq!((status(&done), out(&done)), (1, String::new()));
        assert_eq!(fs::read(&to).unwrap(), b"old");
    }
    let done = given(vmd().arg("join").arg(&good).args(["-", "-o", "-"]), &start());
    assert_eq!((status(&done), out(&done)), (1, String::new()));
    assert_eq!(err(&done), "vmd: standard input: refused 1: the file ends early\n");
    assert_eq!(fs::read(&bad).unwrap(), [0x41; 60]);
}

#[test]
fn usage() {
    for words in [
        &[][..],
        &["no-such-command"],
        &["list"],
        &["list", "--all"],
        &["list", "-", "-"],
        &["list", ""],
        &["list", "a", "-o", "b"],
        &["check"],
        &["check", "--lenient"],
        &["check", "--all", "a"],
        &["check", "-", "-"],
        &["check", ""],
        &["check", "a", "-o", "b"],
        &["check", "a", "-o"],
        &["export"],
        &["export", "a"],
        &["export", "a", "b"],
        &["export", "-o", "b"],
        &["export", "a", "b", "-o", "c"],
        &["export", "-x", "-o", "b"],
        &["export", "a", "-o"],
        &["export", "a", "-o", ""],
        &["export", "", "-o", "b"],
        &["export", "a", "-o", "b", "-o", "c"],
        &["export", "a", "-o", "--", "b"],
        &["export", "a", "-o", "-x"],
        &["export", "-o", "b", "a"],
        &["export", "--older", "a"],
        &["export", "--older", "-o", "b"],
        &["export", "--older", "a", "b", "-o", "c"],
        &["export", "a", "-o", "--older"],
        &["export", "-o", "b", "--older", "a"],
        &["--older", "a", "-o", "b"],
        &["--lenient", "a", "-o", "b"],
        &["export", "--lenient", "a"],
        &["export", "a", "-o", "--lenient"],
        &["export", "-o", "b", "--lenient", "a"],
        &["join", "a", "-o", "b"],
        &["join", "a", "b"],
        &["join", "a", "b", "--", "-o", "c"],
        &["join", "-o", "a", "b", "c"],
        &["join", "-", "-", "-o", "b"],
        &["tidy"],
        &["tidy", "a"],
        &["tidy", "-o", "b"],
        &["tidy", "a", "b", "-o", "c"],
        &["tidy", "a", "-o"],
        &["tidy", "-o", "b", "a"],
        &["tidy", "", "-o", "b"],
        &["tidy", "a", "-o", "b", "-o", "c"],
        &["excerpt"],
        &["excerpt", "1"],
        &["excerpt", "1", "2"],
        &["excerpt", "1", "2", "a"],
        &["excerpt", "1", "2", "-o", "b"],
        &["excerpt", "a", "-o", "b"],
        &["excerpt", "a", "1", "2", "-o", "b"],
        &["excerpt", "1", "a", "2", "-o", "b"],
        &["excerpt", "1", "2", "a", "c", "-o", "b"],
        &["excerpt", "1", "2", "a", "-o"],
        &["excerpt", "-o", "b", "1", "2", "a"],
        &["excerpt", "1", "-o", "b", "2", "a"],
        &["excerpt", "1", "2", "-o", "b", "a"],
        &["excerpt", "1", "2", "", "-o", "b"],
        &["excerpt", "1", "2", "a", "-o", "b", "-o", "c"],
        &["excerpt", "1", "2", "-3", "-o", "b"],
        &["excerpt", "2", "1", "-", "-", "-o", "b"],
        &["excerpt", "2", "1", "a"],
        &["season"],
        &["season", "--all"],
        &["season", "-", "-"],
        &["season", ""],
        &["season", "a", "-o", "b"],
    ] {
        let done = vmd().args(words).output().unwrap();
        assert_eq!((status(&done), out(&done)), (2, String::new()), "{words:?}");
        assert!(err(&done).starts_with("vmd: ") && err(&done).lines().count() == 1, "{words:?}: {}", err(&done));
    }
    for (words, sentence) in [
        (&["export", "--older", "a", "--older", "-o", "b"][..], "export: --older is given twice"),
        (&["export", "--oldest", "a", "-o", "b"], "export: there is no option '--oldest'"),
        (&["export", "-older", "a", "-o", "b"], "export: there is no option '-older'"),
        (&["list", "--older", "a"], "list: there is no option '--older'"),
        (&["join", "--older", "a", "b", "-o", "c"], "join: there is no option '--older'"),
        (&["season", "a", "--older"], "season: there is no option '--older'"),
        (&["tidy", "--older", "a", "-o", "b"], "tidy: there is no option '--older'"),
        (&["list", "--lenient", "a"], "list: there is no option '--lenient'"),
        (&["check"], "check: no file is given"),
        (&["check", "--lenient"], "check: no file is given"),
        (&["check", "a", "-o", "b"], "check: it writes no file, and has no -o"),
        (&["check", "--lenient", "a", "-o", "-"], "check: it writes no file, and has no -o"),
        (&["check", "--older", "a"], "check: there is no option '--older'"),
        (&["check", "--lenient", "a", "--lenient"], "check: --lenient is given twice"),
        (&["check", "-", "a", "-"], "check: standard input can be read once only"),
        (&["check", "a", ""], "check: a file's name is empty"),
        (&["season", "a", "--lenient"], "season: there is no option '--lenient'"),
        (&["tidy", "--strict", "a", "-o", "b"], "tidy: there is no option '--strict'"),
        (&["join", "--lenient", "a", "b", "--lenient", "-o", "c"], "join: --lenient is given twice"),
        (&["export", "a", "-o"], "export: no file is named by -o OUT"),
        (&["export", "a", "-o", "-x"], "export: no file is named by -o OUT: '-x' reads as an option, './-x' names a file"),
        (&["tidy", "a"], "tidy: no output is named: -o OUT names it"),
        (&["tidy", "-o", "b"], "tidy: one file is needed, IN"),
        (&["tidy", "a", "b", "-o", "c"], "tidy: one file is needed, IN"),
        (&["excerpt", "-o", "b"], "excerpt: two frames and one file are needed, FIRST, LAST and IN"),
        (&["excerpt", "1", "2", "-o", "b"], "excerpt: two frames and one file are needed, FIRST, LAST and IN"),
        (&["excerpt", "a", "1", "-o", "b"], "excerpt: two frames and one file are needed, FIRST, LAST and IN"),
        (&["excerpt", "1", "2", "a", "c", "-o", "b"], "excerpt: two frames and one file are needed, FIRST, LAST and IN"),
        (&["excerpt", "2", "1", "a"], "excerpt: no output is named: -o OUT names it"),
        (&["excerpt", "1", "-o", "b", "2", "a"], "excerpt: '2' follows -o OUT, which stands last"),
        (&["excerpt", "-o", "b", "-1", "2", "a"], "excerpt: '-1' follows -o OUT, which stands last"),
        (&["excerpt", "1", "2", "-3", "-o", "b"], "excerpt: there is no option '-3'"),
        (&["excerpt", "-1x", "2", "a", "-o", "b"], "excerpt: there is no option '-1x'"),
        (
            &["excerpt", "1", "2", "a", "-o", "-3"],
            "excerpt: no file is named by -o OUT: '-3' reads as an option, './-3' names a file",
        ),
        (&["excerpt", "--older", "1", "2", "a", "-o", "b"], "excerpt: there is no option '--older'"),
        (&["excerpt", "-x", "1", "2", "a", "-o", "b"], "excerpt: there is no option '-x'"),
        (&["tidy", "-3", "-o", "b"], "tidy: there is no option '-3'"),
    ] {
        let done = vmd().args(words).output().unwrap();
        assert_eq!((status(&done), out(&done)), (2, String::new()), "{words:?}");
        assert_eq!(err(&done), format!("vmd: {sentence}; 'vmd --help' tells more\n"));
    }
    let help = vmd().arg("--help").output().unwrap();
    assert_eq!((status(&help), err(&help)), (0, String::new()));
    for word in [
        "vmd list FILE..",
        "smallest frame, largest frame, export length",
        "vmd check FILE..",
        "'canonical' where 'export' would save just",
        "Bytes are counted from 0, and so are the",
        "vmd export IN -o OUT",
        "vmd export --older IN -o OUT",
        "vmd join FIRST SECOND.. -o OUT",
        "vmd tidy IN -o OUT",
        "how many records were kept",
        "vmd excerpt FIRST LAST IN -o OUT",
        "both included",
        "from 0 to 4294967295",
        "the first model name that is not empty",
        "vmd season FILE..",
        "agree up to the first line feed",
        "--lenient                       an option of 'export', 'join', 'tidy' and 'excerpt'",
        "and of 'check', which saves nothing",
        "every section after it, IK frames among them",
        "'list' and 'season' save nothing and always read so; 'check' refuses such a",
        "Exit status",
        "1 where a take is refused, or FIRST is above LAST, or 'check' finds a take that is not canonical",
        "3 where OUT is the new file",
    ] {
        assert!(out(&help).contains(word));
    }
    let version = vmd().arg("--version").output().unwrap();
    assert_eq!((status(&version), out(&version)), (0, format!("vmd {}\n", env!("CARGO_PKG_VERSION"))));
}

/// `vmd join *.vmd`, where the last take was once taken for OUT.
#[test]
fn a_forgotten_output_touches_nothing() {
    let folder = Folder::new("forgotten");
    let takes = [1, 2, 3].map(|n| bones(n, n));
    let names = ["1.vmd", "2.vmd", "3.vmd"];
    names.iter().zip(&takes).for_each(|(name, take)| drop(folder.file(name, take)));
    // the last: the shell's list stands where OUT was forgotten, and its first take must not be OUT
    for words in [
        &["export"][..],
        &["export", "--older"],
        &["join"],
        &["join", "-o"],
        &["tidy"],
        &["tidy", "-o"],
        &["excerpt", "0", "9"],
        &["excerpt", "0", "9", "-o"],
        &["excerpt", "-o"],
    ] {
        let takes = if words[0] == "join" { &names } else { &names[..2] };
        let done = vmd().current_dir(&folder.0).args(words).args(takes).output().unwrap();
        assert_eq!((status(&done), out(&done)), (2, String::new()), "{words:?}");
        assert!(err(&done).contains("-o OUT") && err(&done).lines().count() == 1, "{words:?}: {}", err(&done));
    }
    assert_eq!(folder.names(), names);
    assert!(names.iter().zip(&takes).all(|(name, take)| fs::read(folder.join(name)).unwrap() == *take));
}

#[test]
fn help_after_a_command() {
    let help = out(&vmd().arg("--help").output().unwrap());
    for words in [
        &["list", "--help"][..],
        &["list", "-h"],
        &["check", "--help"],
        &["check", "--lenient", "a", "-h"],
        &["export", "a", "--help"],
        &["export", "--older", "--help"],
        &["tidy", "--lenient", "--help"],
        &["join", "--help", "-o", "a"],
        &["tidy", "--help"],
        &["tidy", "a", "-o", "b", "-h"],
        &["excerpt", "--help"],
        &["excerpt", "first", "-1", "--help"],
        &["season", "a", "--help"],
    ] {
        let done = vmd().args(words).output().unwrap();
        assert_eq!((status(&done), out(&done), err(&done)), (0, help.clone(), String::new()), "{words:?}");
    }
}

/// After `--` every word is a file; `-` is standard input there too.
#[test]
fn files_that_look_like_options() {
    let folder = Folder::new("dashes");
    let (one, two) = (bones(1, 1), bones(2, 2));
    folder.file("-o", &one);
    folder.file("--help", &two);
    folder.file("--older", &one);
    folder.file("--lenient", &counts(&[0, 0, 1]));
    let run = |words: &[&str]| given(vmd().current_dir(&folder.0).args(words), &two);
    let listed = run(&["list", "--", "-o", "--help", "-"]);
    let lines = "-o: 1 0 0 0 0 0 0 0 0 185\n--help: 2 0 0 0 0 0 0 0 1 296\nstandard input: 2 0 0 0 0 0 0 0 1 296\n";
    assert_eq!((status(&listed), out(&listed)), (0, lines.into()));
    let checked = run(&["check", "--", "-o", "--lenient", "-"]);
    let lines = "-o: canonical\n--lenient: refused 17\nstandard input: canonical\n";
    assert_eq!((status(&checked), out(&checked)), (1, lines.into()));
    let done = run(&["join", "-o", "out", "--", "-o", "--help"]);
    assert_eq!((status(&done), err(&done)), (0, String::new()));
    assert_eq!(fs::read(folder.join("out")).unwrap(), vmd::join(&one, &two).unwrap());
    let done = run(&["export", "-o", "out", "--", "--older"]);
    assert_eq!((status(&done), err(&done)), (0, String::new()));
    assert_eq!(fs::read(folder.join("out")).unwrap(), one);
    let done = run(&["export", "-o", "out", "--", "--lenient"]);
    assert_eq!((status(&done), err(&done)), (1, format!("vmd: --lenient: {OVERSIZED}\n")));
    let done = run(&["export", "./-o", "-o", "./--help"]);
    assert_eq!((status(&done), err(&done)), (0, String::new()));
    assert_eq!(fs::read(folder.join("--help")).unwrap(), one);
}

/// A name is shown in one line, and no two names alike.
#[test]
fn names_that_are_no_line() {
    let folder = Folder::new("names");
    let take = bones(1, 1);
    let line = "1 0 0 0 0 0 0 0 0 185";
    let names: [(&[u8], &str); 5] = [
        (b"a\nb", r"a\nb"),
        (br"a\nb", r"a\\nb"),
        (b"\x1b[2J", r"\u{1b}[2J"),
        (b"\x83_\xff", r"\x83_\xff"),
        ("右足".as_bytes(), "右足"),
    ];
    for (name, shown) in names {
        let name = OsStr::from_bytes(name);
        fs::write(folder.0.join(name), &take).unwrap();
        let listed = vmd().current_dir(&folder.0).arg("list").args([name, name]).output().unwrap();
        assert_eq!((status(&listed), out(&listed)), (0, format!("{shown}: {line}\n{shown}: {line}\n")));
        let checked = vmd().current_dir(&folder.0).arg("check").args([name, name]).output().unwrap();
        assert_eq!((status(&checked), out(&checked)), (0, format!("{shown}: canonical\n{shown}: canonical\n")));
        fs::write(folder.0.join(name), &take[..60]).unwrap();
        for command in ["list", "check"] {
            let told = vmd().current_dir(&folder.0).arg(command).arg(name).output().unwrap();
            assert_eq!(err(&told), format!("vmd: {shown}: refused 1: the file ends early\n"));
        }
        fs::remove_file(folder.0.join(name)).unwrap();
        fs::create_dir(folder.0.join(name)).unwrap();
        let from = folder.file("take", &take);
        let done = vmd().current_dir(&folder.0).arg("export").arg(&from).arg("-o").arg(name).output().unwrap();
        assert_eq!(err(&done), format!("vmd: {shown}: cannot replace the file: it is a folder\n"));
        let done = vmd().current_dir(&folder.0).arg("list").arg(name).output().unwrap();
        assert_eq!(err(&done), format!("vmd: {shown}: cannot read the file: it is a folder\n"));
    }
    let done = vmd().args(["a\nb"]).output().unwrap();
    assert!(err(&done).starts_with(r"vmd: there is no command 'a\nb'"), "{}", err(&done));
    let done = vmd().args(["list", "-a\nb"]).output().unwrap();
    assert!(err(&done).starts_with(r"vmd: list: there is no option '-a\nb'"), "{}", err(&done));
}

/// What cannot be read: one sentence, and status 2.
#[test]
fn inputs_that_cannot_be_read() {
    let folder = Folder::new("unreadable");
    let huge = |name: &str, start: &[u8]| {
        let path = folder.file(name, start);
        fs::File::options().write(true).open(&path).unwrap().set_len(1 << 40).unwrap();
        path
    };
    let endless = format!("ulimit -v 300000; {{ cat '{}'; cat /dev/zero; }} |", folder.file("start", &start()).display());
    for command in ["list", "check"] {
        let cases = [
            (vmd(), folder.join("none"), "No such file"),
            (vmd(), folder.0.clone(), "it is a folder"),
            (vmd(), folder.join("none/none"), "No such file"),
            (vmd_under("ulimit -v 300000"), huge("huge", &start()), "no memory"),
            (vmd_under("ulimit -v 300000"), huge("huge-older", &older_start()), "no memory"),
            (vmd_with(&endless), "-".into(), "no memory"),
        ];
        for (mut vmd, path, sentence) in cases {
            let done = vmd.arg(command).arg(&path).output().unwrap();
            assert_eq!((status(&done), out(&done)), (2, String::new()), "{path:?}: {done:?}");
            assert!(err(&done).contains(sentence) && err(&done).lines().count() == 1, "{}", err(&done));
        }
    }
}

/// A file that is no take is not read to its end: its first 50 bytes have the answer.
#[test]
fn no_take_by_its_first_bytes() {
    let folder = Folder::new("first");
    let none = folder.join("none");
    fs::File::create(&none).unwrap().set_len(1 << 40).unwrap();
    let good = folder.file("good", &bones(1, 1));
    let to = folder.file("out", b"old");
    for (from, shown) in
        [(none.to_str().unwrap(), none.to_str().unwrap()), ("-", "standard input"), ("/dev/zero", "/dev/zero")]
    {
        let run = |words: &[&OsStr]| vmd_under("ulimit -v 300000; exec < /dev/zero").args(words).output().unwrap();
        let listed = run(&["list".as_ref(), from.as_ref()]);
        assert_eq!((status(&listed), out(&listed)), (1, "refused 2\n".into()), "{from}: {}", err(&listed));
        let sentence = format!("vmd: {shown}: refused 2: the file is not a VMD take\n");
        assert_eq!(err(&listed), sentence);
        let checked = run(&["check".as_ref(), from.as_ref()]);
        assert_eq!((status(&checked), out(&checked), err(&checked)), (1, "refused 2\n".into(), sentence.clone()));
        let season = run(&["season".as_ref(), from.as_ref()]);
        assert_eq!((status(&season), err(&season)), (1, sentence.clone()));
        assert!(out(&season).starts_with("accepted takes: 0\nrefused takes: 1\n"), "{}", out(&season));
        let named: [&OsStr; 2] = ["-o".as_ref(), to.as_ref()];
        for words in [
            &["export".as_ref(), from.as_ref()][..],
            &["join".as_ref(), good.as_ref(), from.as_ref()],
            &["tidy".as_ref(), from.as_ref()],
            &["excerpt".as_ref(), "0".as_ref(), "9".as_ref(), from.as_ref()],
        ] {
            let done = run(&[words, &named].concat());
            assert_eq!((status(&done), err(&done)), (1, sentence.clone()));
        }
    }
    assert_eq!(fs::read(&to).unwrap(), b"old");
}

/// No memory for what is to be written: the take itself can be read.
#[test]
fn an_output_that_does_not_fit_memory() {
    let folder = Folder::new("memory");
    let path = folder.file("take", &bones(100_000, 1));
    let to = folder.file("out", b"old");
    for (limit, words) in [
        (45_000, vec!["join".as_ref(), path.as_os_str(), path.as_os_str()]),
        (20_000, vec!["tidy".as_ref(), path.as_os_str()]),
        (20_000, vec!["excerpt".as_ref(), "0".as_ref(), "4294967295".as_ref(), path.as_os_str()]),
    ] {
        let done = vmd_under(&format!("ulimit -v {limit}")).args(words).arg("-o").arg(&to).output().unwrap();
        assert_eq!(status(&done), 2, "{done:?}");
        assert!(err(&done).contains("no memory for "), "{}", err(&done));
        assert_eq!(fs::read(&to).unwrap(), b"old");
    }
}

/// A join of many takes no more memory than one from left to right, which at its end has all that was read and the output:
/// nothing that was freed on the way is held.
#[test]
fn a_join_of_many_fits_twice_its_length() {
    let folder = Folder::new("peak");
    let record = &bones(1, 1)[54..165];
    let take = [counts(&[66_000]), record.repeat(66_000), vec![0; 20]].concat(); // 7 MiB
    let takes = [(); 7].map(|()| folder.file("take", &take));
    let settings = format!("ulimit -v {}", (2 * takes.len() * take.len() + (16 << 20)) >> 10);
    let done = vmd_under(&settings).arg("join").args(&takes).args(["-o", "-"]).stdout(Stdio::null()).output().unwrap();
    assert_eq!((status(&done), err(&done)), (0, String::new()));
}

/// The output of a command over seven takes of 16 MiB, in memory for one of them and as much for all else.
fn in_memory_for_one(folder: &Folder, command: &str) -> Output {
    let record = &bones(1, 1)[54..165];
    folder.file("take", &[counts(&[150_000]), record.repeat(150_000), vec![0; 20]].concat());
    let mut vmd = vmd_under(&format!("ulimit -v {}", (16 + 16) << 10));
    vmd.current_dir(&folder.0).arg(command).args(["take"; 7]).output().unwrap()
}

/// Of the takes of a season one at a time is in memory.
#[test]
fn a_season_fits_the_length_of_a_take() {
    let done = in_memory_for_one(&Folder::new("season-peak"), "season");
    assert_eq!((status(&done), err(&done)), (0, String::new()));
    assert!(out(&done).contains("bones, total: 1050000\n"), "{}", out(&done));
}

/// So of the takes that are checked, and there is no output to compare with.
#[test]
fn a_check_fits_the_length_of_a_take() {
    let done = in_memory_for_one(&Folder::new("check-peak"), "check");
    assert_eq!((status(&done), err(&done)), (0, String::new()));
    assert_eq!(out(&done), "take: canonical\n".repeat(7));
}

#[test]
fn a_file_without_permission_to_read() {
    use std::os::unix::fs::PermissionsExt;
    let folder = Folder::new("permission");
    let path = folder.file("take", &bones(1, 1));
    fs::set_permissions(&path, fs::Permissions::from_mode(0o000)).unwrap();
    let mut command = vmd();
    if fs::read(&path).is_ok() {
        command.uid(65534).gid(65534); // root may read everything
    }
    match command.arg("list").arg(&path).output() {
        Err(error) => println!("not tried: {error}"),
        Ok(done) => {
            assert_eq!((status(&done), out(&done)), (2, String::new()));
            assert!(err(&done).contains("cannot read the file: Permission denied"), "{}", err(&done));
        }
    }
}

#[test]
fn an_output_that_cannot_be_written() {
    let folder = Folder::new("unwritable");
    let path = folder.file("take", &bones(5000, 1));
    let full = fs::File::create("/dev/full").unwrap();
    let done = vmd().arg("export").arg(&path).args(["-o", "-"]).stdout(full).output().unwrap();
    assert_eq!(status(&done), 2);
    assert!(err(&done).starts_with("vmd: cannot write to standard output: No space left"), "{}", err(&done));

    // a reader that goes away
    let mut child =
        vmd().arg("export").arg(&path).args(["-o", "-"]).stdout(Stdio::piped()).stderr(Stdio::piped()).spawn().unwrap();
    drop(child.stdout.take());
    let done = child.wait_with_output().unwrap();
    assert_eq!(status(&done), 2);
    assert!(err(&done).contains("Broken pipe"), "{}", err(&done));
}

/// A standard output that is closed, or open for reading only: nothing is written, and that is told. Rust's own takes both for
/// outputs that take everything.
#[test]
fn a_standard_output_that_takes_nothing() {
    let folder = Folder::new("closed");
    folder.file("take", &bones(3, 1));
    for words in [
        &["export", "take", "-o", "-"][..],
        &["export", "take", "-o", "/dev/stdout"],
        &["export", "--older", "take", "-o", "-"],
        &["join", "take", "take", "-o", "-"],
        &["tidy", "take", "-o", "-"],
        &["excerpt", "0", "9", "take", "-o", "-"],
        &["list", "take"],
        &["check", "take"],
        &["season", "take", "take"],
        &["list", "--help"],
        &["--help"],
        &["--version"],
    ] {
        for settings in ["exec >&-", "exec 1< /dev/null", "exec 1< take"] {
            let done = vmd_under(settings).current_dir(&folder.0).args(words).output().unwrap();
            assert_eq!(status(&done), 2, "{settings}: {words:?}");
            assert!(err(&done).starts_with("vmd: cannot write to standard output: "), "{}", err(&done));
            assert_eq!(err(&done).lines().count(), 1);
        }
        // /dev/null takes everything, however it was opened
        let lines = if words[0] == "tidy" { told([[3, 0], [0; 2], [0; 2], [0; 2], [0; 2], [0; 2]]) } else { String::new() };
        for settings in ["exec > /dev/null", "exec 1<> /dev/null"] {
            let done = vmd_under(settings).current_dir(&folder.0).args(words).output().unwrap();
            assert_eq!((status(&done), err(&done)), (0, lines.clone()), "{settings}: {words:?}");
        }
    }
    // OUT is a file: standard output is not needed
    let done = vmd_under("exec >&-").current_dir(&folder.0).args(["export", "take", "-o", "out"]).output().unwrap();
    assert_eq!((status(&done), err(&done)), (0, String::new()));
    assert_eq!(fs::read(folder.join("out")).unwrap(), bones(3, 1));
}

/// A standard input that is closed, or open for writing only, is no empty file.
#[test]
fn a_standard_input_that_gives_nothing() {
    for settings in ["exec <&-", "exec 0> /dev/null"] {
        for command in ["list", "check"] {
            let done = vmd_under(settings).args([command, "-"]).output().unwrap();
            assert_eq!((status(&done), out(&done)), (2, String::new()), "{settings}");
            assert!(err(&done).starts_with("vmd: standard input: cannot read the file: "), "{}", err(&done));
        }
    }
    for command in ["list", "check"] {
        let done = vmd_under("exec < /dev/null").args([command, "-"]).output().unwrap();
        assert_eq!((status(&done), out(&done)), (1, "refused 1\n".into()));
    }
}

/// The names that the system has for standard output and other descriptors.
#[test]
fn outputs_that_are_descriptors() {
    let folder = Folder::new("descriptors");
    let take = bones(3, 1);
    folder.file("take", &take[..take.len() - 20]);
    let run = |settings: &str, to: &str| {
        vmd_under(settings).current_dir(&folder.0).args(["export", "take", "-o", to]).output().unwrap()
    };
    let done = run(":", "/dev/stdout");
    assert_eq!((status(&done), err(&done), done.stdout), (0, String::new(), take.clone()));
    assert_eq!(status(&run("exec > out", "/dev/stdout")), 0);
    assert_eq!(fs::read(folder.join("out")).unwrap(), take);
    // A log that is appended to is no take, whatever it is called.
    folder.file("log", b"first line\n");
    for (settings, to) in [
        (":", "/dev/fd/1"),
        ("exec 3> gone; rm gone", "/dev/fd/3"),
        ("exec 3>> log", "/dev/fd/3"),
        ("exec 3>> log", "/proc/self/fd/3"),
    ] {
        let done = run(settings, to);
        assert_eq!((status(&done), out(&done)), (2, String::new()));
        assert_eq!(err(&done), format!("vmd: {to}: cannot replace the file: it is a descriptor; '-' is standard output\n"));
    }
    assert_eq!(fs::read(folder.join("log")).unwrap(), b"first line\n");
    assert_eq!(folder.names(), ["log", "out", "take"]);
}
