//! The scripts `vmd` and `vmd-list`: what they show while they prove and build, and when they do it again. A toolchain that
//! only says what the real one does stands in for it.
mod common;

use std::fs::{self, File, Permissions};
use std::io::{BufRead, BufReader, Read};
use std::os::unix::fs::{PermissionsExt, symlink};
use std::path::Path;
use std::process::{Command, Output, Stdio};
use std::time::{Duration, SystemTime};

use common::{Folder, err, out, status};

/// Proves two crates, and between them waits, for a minute at most, for a file `go`; then builds the second, and runs a program.
const RT: &str = r#"#!/bin/sh
crate=${PWD##*/}
echo "$* $crate" >> "$ROOT/calls"
echo 'crate vmd_format: modules loaded=0 checked=15'
echo 'logic=proved functions=0'
for i in $(seq 6000); do [ -e "$ROOT/go" ] && break; sleep 0.01; done
echo 'a term that does not fit' >&2
echo "crate $crate: modules loaded=15 checked=5"
[ ! -e "$ROOT/fail" ] || { echo 'logic=not-proved'; exit 1; }
echo 'axioms std: none reached of the 2 declared'
echo 'logic=proved functions=1'
touch "$ROOT/ended"
mkdir -p out
case "$* $crate" in
    'lib vmd_c') [ -e out/libvmd_c.a ] || touch out/libvmd_c.a ;;
    'run vmd_list')
        [ -e out/vmd_list ] || { printf '#!/bin/sh\necho listed\n' > out/vmd_list && chmod +x out/vmd_list; }
        out/vmd_list
        ;;
    *) exit 2 ;;
esac
"#;

const CARGO: &str = r#"#!/bin/sh
echo "cargo $*" >> "$ROOT/calls"
echo '   Compiling vmd' >&2
[ ! -e "$ROOT/fail-cargo" ] || { echo 'error: it does not compile' >&2; exit 101; }
into=${CARGO_TARGET_DIR:-../target/host}
while [ $# -gt 0 ]; do [ "$1" != --target-dir ] || into=$2; shift; done
mkdir -p "$into/release"
printf '#!/bin/sh\necho "ran $*"\n' > "$into/release/vmd" && chmod +x "$into/release/vmd"
"#;

const SOURCE: &str = "crates/vmd_c/src/lib.rt";

/// A repository with the scripts, two crates' sources, and the toolchain that stands in.
fn repository(name: &str) -> Folder {
    let folder = Folder::new(name);
    let here = Path::new(env!("CARGO_MANIFEST_DIR")).join("..");
    for name in ["crates/vmd_c/src", "crates/vmd_list/src", "host", "tools"] {
        fs::create_dir_all(folder.join(name)).unwrap();
    }
    for name in ["crates.txt", SOURCE, "crates/vmd_list/src/main.rt"] {
        folder.file(name, b"");
    }
    for script in ["vmd", "vmd-list", "host/built", "host/library", "host/prove"] {
        fs::copy(here.join(script), folder.join(script)).unwrap();
    }
    for (tool, text) in [("tools/rt", RT), ("tools/cargo", CARGO)] {
        fs::set_permissions(folder.file(tool, text.as_bytes()), Permissions::from_mode(0o755)).unwrap();
    }
    // older than what is built from them, whatever the clock's steps are
    for name in ["crates.txt", "host", "host/built", "host/library", "host/prove"] {
        age(&folder, name, 10);
    }
    for name in ["crates/vmd_c/src", SOURCE, "crates/vmd_list/src", "crates/vmd_list/src/main.rt"] {
        age(&folder, name, 10);
    }
    folder
}

fn age(folder: &Folder, name: &str, seconds: u64) {
    File::open(folder.join(name)).unwrap().set_modified(SystemTime::now() - Duration::from_secs(seconds)).unwrap();
}

fn script(folder: &Folder, words: &[&str]) -> Command {
    let mut command = Command::new(folder.join(words[0]));
    let path = format!("{}:{}", folder.join("tools").display(), std::env::var("PATH").unwrap());
    command.args(&words[1..]).env("PATH", path).env("ROOT", &folder.0).env_remove("VMD_LIB").env_remove("CARGO_TARGET_DIR");
    command.stdin(Stdio::null()).stdout(Stdio::piped()).stderr(Stdio::piped());
    command
}

fn run(folder: &Folder, words: &[&str]) -> Output {
    script(folder, words).output().unwrap()
}

/// How often the toolchain was called so far.
fn calls(folder: &Folder) -> usize {
    fs::read_to_string(folder.join("calls")).unwrap_or_default().lines().count()
}

/// The line of the first crate is there while the second, the one that is built, is still to be proved.
fn expect_shown_as_it_comes(folder: &Folder, words: &[&str], built: &str, printed: &str) -> String {
    let mut child = script(folder, words).spawn().unwrap();
    let mut said = BufReader::new(child.stderr.take().unwrap());
    let mut text = String::new();
    while !text.contains("vmd_format proved\n") {
        assert!(said.read_line(&mut text).unwrap() > 0, "it ended with: {text}");
    }
    assert!(!folder.join("ended").exists(), "it was shown after all was proved");
    folder.file("go", b"");
    said.read_to_string(&mut text).unwrap();
    let done = child.wait_with_output().unwrap();
    assert_eq!((status(&done), out(&done)), (0, printed.into()), "{text}");
    assert!(text.contains(&format!("{built} proved\n")) && !text.contains("logic=") && !text.contains("a term"), "{text}");
    text
}

#[test]
fn vmd_shows_what_it_is_doing() {
    let folder = repository("first-use");
    let text = expect_shown_as_it_comes(&folder, &["vmd", "list", "a b"], "vmd_c", "ran list a b\n");
    assert!(text.ends_with("vmd: building the command\n"), "{text}");
    // built: not a word
    let done = run(&folder, &["vmd", "list"]);
    assert_eq!((status(&done), out(&done), err(&done)), (0, "ran list\n".into(), String::new()));
    assert_eq!(calls(&folder), 2);
    // a source that is newer: all again, and then not a word
    ["crates/vmd_c/out/libvmd_c.a", "target/host/release/vmd"].iter().for_each(|name| age(&folder, name, 5));
    age(&folder, SOURCE, 2);
    let done = run(&folder, &["vmd", "list"]);
    assert_eq!((status(&done), out(&done)), (0, "ran list\n".into()));
    assert!(err(&done).contains("vmd_c proved\n"), "{}", err(&done));
    assert_eq!(calls(&folder), 4);
    assert_eq!(err(&run(&folder, &["vmd", "list"])), "");
    assert_eq!(calls(&folder), 4);
}

/// Where the caller has cargo build elsewhere, what is run is still what was built, and not an older program.
#[test]
fn vmd_is_built_where_it_is_run() {
    let folder = repository("elsewhere");
    folder.file("go", b"");
    let old = folder.join("target/host/release/vmd");
    fs::create_dir_all(old.parent().unwrap()).unwrap();
    fs::write(&old, "#!/bin/sh\necho old\n").unwrap();
    fs::set_permissions(&old, Permissions::from_mode(0o755)).unwrap();
    age(&folder, "target/host/release/vmd", 20);
    let done = script(&folder, &["vmd", "list"]).env("CARGO_TARGET_DIR", folder.join("elsewhere")).output().unwrap();
    assert_eq!((status(&done), out(&done)), (0, "ran list\n".into()), "{}", err(&done));
}

#[test]
fn vmd_list_shows_what_it_is_doing_and_is_built_again() {
    let folder = repository("vmd-list");
    expect_shown_as_it_comes(&folder, &["vmd-list"], "vmd_list", "listed\n");
    let done = run(&folder, &["vmd-list"]);
    assert_eq!((status(&done), out(&done), err(&done)), (0, "listed\n".into(), String::new()));
    assert_eq!(calls(&folder), 1);
    for (expected, source) in [(2, SOURCE), (3, "crates.txt")] {
        age(&folder, "crates/vmd_list/out/vmd_list", 5);
        age(&folder, source, 2);
        let done = run(&folder, &["vmd-list"]);
        assert_eq!((status(&done), out(&done)), (0, "listed\n".into()));
        assert_eq!(calls(&folder), expected, "{source} is newer, and it was not built again");
        run(&folder, &["vmd-list"]);
        assert_eq!(calls(&folder), expected, "nothing is newer, and it was built again");
    }
    // what the toolchain leaves beside is no source
    age(&folder, "crates/vmd_list/out/vmd_list", 1);
    fs::create_dir(folder.join("crates/vmd_c/out")).unwrap();
    folder.file("crates/vmd_c/out/libvmd_c.a", b"");
    run(&folder, &["vmd-list"]);
    assert_eq!(calls(&folder), 3, "another crate was built, and it was built again");
}

/// A file that is named would be waited for on standard input.
#[test]
fn vmd_list_takes_no_words() {
    let folder = repository("words");
    let done = run(&folder, &["vmd-list", "take.vmd"]);
    let sentence = "vmd-list: the take comes on standard input: vmd-list < FILE\n";
    assert_eq!((status(&done), out(&done), err(&done)), (2, String::new(), sentence.into()));
    assert_eq!(calls(&folder), 0);
}

/// A link to the script in another folder, as one of the PATH, runs the repository's program.
#[test]
fn scripts_run_through_links() {
    let folder = repository("links");
    folder.file("go", b"");
    fs::create_dir(folder.join("bin")).unwrap();
    for (link, to) in [("bin/vmd", "../vmd"), ("bin/take", "vmd"), ("bin/vmd-list", "../vmd-list")] {
        symlink(to, folder.join(link)).unwrap();
    }
    for (words, printed) in
        [(&["bin/vmd", "list"][..], "ran list\n"), (&["bin/take", "tidy"], "ran tidy\n"), (&["bin/vmd-list"], "listed\n")]
    {
        let done = run(&folder, words);
        assert_eq!((status(&done), out(&done)), (0, printed.into()), "{words:?}: {}", err(&done));
    }
}

/// All that the toolchain said, and status 2.
#[test]
fn a_proof_or_a_build_that_fails() {
    let folder = repository("fails");
    for name in ["go", "fail"] {
        folder.file(name, b"");
    }
    for words in [&["vmd", "list"][..], &["vmd-list"]] {
        let done = run(&folder, words);
        assert_eq!((status(&done), out(&done)), (2, String::new()), "{words:?}");
        for line in ["logic=proved functions=0", "a term that does not fit", "logic=not-proved"] {
            assert!(err(&done).lines().any(|said| said == line), "{words:?}: {}", err(&done));
        }
    }
    fs::remove_file(folder.join("fail")).unwrap();
    folder.file("fail-cargo", b"");
    let done = run(&folder, &["vmd", "list"]);
    assert_eq!((status(&done), out(&done)), (2, String::new()));
    assert!(err(&done).contains("error: it does not compile\n"), "{}", err(&done));
}
