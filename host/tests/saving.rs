//! Saving over a take loses nothing: the file is the old one or the new one, whole, whatever happens.
mod common;

use std::collections::HashMap;
use std::fs::{self, File, Permissions};
use std::io;
use std::os::unix::fs::{FileTypeExt, MetadataExt, PermissionsExt, symlink};
use std::os::unix::process::CommandExt;
use std::path::{Path, PathBuf};
use std::process::{Command, Output, Stdio};
use std::thread;
use std::time::{Duration, Instant, SystemTime};

use common::{Folder, as_older, attributes, bones, err, status, vmd, vmd_under, vmd_with};
use vmd::FileId;

/// A folder with the canonical takes `new` and `old`, and `take`, which is the old one and is to be saved over.
struct Saving {
    folder: Folder,
    old: Vec<u8>,
    /// What the take is once it is saved.
    new: Vec<u8>,
    /// The command, and its options.
    command: &'static [&'static str],
}

impl Saving {
    fn of(name: &str, bones_each: u32) -> Saving {
        let (old, new) = (bones(bones_each, 1), bones(bones_each + 1, 2));
        let saving = Saving { folder: Folder::new(name), old, new, command: &["export"] };
        saving.folder.file("new", &saving.new);
        saving.put_back();
        saving
    }

    /// The new take is saved as it is, and in the older edition.
    fn in_both_editions(name: &str, bones_each: u32) -> [Saving; 2] {
        let [newer, older] = [Saving::of(name, bones_each), Saving::of(name, bones_each)];
        [newer, Saving { new: as_older(&older.new), command: &["export", "--older"], ..older }]
    }

    fn put_back(&self) {
        fs::write(self.take(), &self.old).unwrap();
    }

    fn take(&self) -> PathBuf {
        self.folder.join("take")
    }

    /// Saves the new take over the old one.
    fn run(&self, command: &mut Command) -> Output {
        self.words(command).output().unwrap()
    }

    fn words<'c>(&self, command: &'c mut Command) -> &'c mut Command {
        command
            .args(self.command)
            .arg(self.folder.join("new"))
            .arg("-o")
            .arg(self.take())
            .stdout(Stdio::null())
            .stderr(Stdio::piped())
    }

    /// How long a whole save takes.
    fn timed(&self) -> Duration {
        let begun = Instant::now();
        assert_eq!(status(&self.run(&mut vmd())), 0);
        begun.elapsed()
    }

    /// Whether the take is the new one; it is the old one else.
    fn is_new(&self) -> bool {
        let found = fs::read(self.take()).unwrap();
        assert!(found == self.old || found == self.new, "the take is neither the old one nor the new one");
        found == self.new
    }

    fn litter(&self) -> usize {
        self.folder.names().iter().filter(|name| name.starts_with(".vmd-save-")).count()
    }

    /// The next save is not kept from its work by what an ended one has left, and leaves nothing itself.
    fn expect_next_save_works(&self) {
        let done = self.run(&mut vmd());
        assert_eq!((status(&done), err(&done)), (0, String::new()));
        assert!(self.is_new());
        assert_eq!(self.folder.names(), ["new", "take"]);
    }
}

/// The command is killed at random moments while it saves over a take of some MiB.
#[test]
fn killed_at_any_moment() {
    let saving = Saving::of("killed", 40_000);
    let whole = (0..3).map(|_| saving.timed()).min().unwrap();
    let seed = SystemTime::now().duration_since(SystemTime::UNIX_EPOCH).unwrap().as_nanos() as u64 | 1;
    println!("seed {seed}, a whole save takes {whole:?}");
    let mut random = seed;
    let (mut kills, mut new, mut left) = (0, 0, 0);
    // On a machine whose speed changes the moments may lie badly: then some more.
    while kills < 300 || (kills < 3000 && (left == 0 || new == 0)) {
        saving.put_back();
        random ^= random << 13;
        random ^= random >> 7;
        random ^= random << 17;
        let mut child = saving.words(&mut vmd()).spawn().unwrap();
        thread::sleep(whole.mul_f64((random % 1000) as f64 / 900.0));
        child.kill().unwrap();
        child.wait().unwrap();
        kills += 1;
        new += u32::from(saving.is_new());
        left += u32::from(saving.litter() > 0);
    }
    println!("{kills} killed: the new take {new} times, a file left {left} times");
    assert!(left > 0 && new > 0 && new < kills, "the moments were badly chosen");
    saving.expect_next_save_works();
}

/// The system calls of a save from the first that names a take on, as strace has them: each with how often it was made so
/// far. None without strace.
fn system_calls(saving: &Saving) -> Option<Vec<(String, u32)>> {
    let log = saving.folder.join("log");
    let mut strace = Command::new("strace");
    let traced = saving.words(strace.arg("-o").arg(&log).arg(env!("CARGO_BIN_EXE_vmd"))).output();
    if !traced.is_ok_and(|output| output.status.success()) {
        println!("not tried: there is no strace here, or it may not trace");
        return None;
    }
    let text = fs::read_to_string(&log).unwrap();
    fs::remove_file(&log).unwrap();
    let (mut so_far, mut calls, mut begun) = (HashMap::new(), Vec::new(), false);
    for line in text.lines() {
        let Some((name, arguments)) = line.split_once('(') else { continue };
        let n = so_far.entry(name).or_insert(0);
        *n += 1;
        begun |= name == "openat" && arguments.contains("/new\"");
        if begun && name != "exit_group" {
            calls.push((name.to_owned(), *n));
        }
    }
    Some(calls)
}

/// Those that are not for memory.
fn without_memory(mut calls: Vec<(String, u32)>) -> Vec<(String, u32)> {
    calls.retain(|(name, _)| !["brk", "mmap", "munmap", "mremap"].contains(&name.as_str()));
    calls
}

/// The command with something done to it at one of its system calls.
fn injected((call, n): &(String, u32), what: &str) -> Command {
    let mut strace = Command::new("strace");
    strace.args(["-qq", "-o", "/dev/null", "-e", &format!("inject={call}:{what}:when={n}")]).arg(env!("CARGO_BIN_EXE_vmd"));
    strace
}

/// The command is killed before each of its system calls in turn.
#[test]
fn killed_before_each_system_call() {
    Saving::in_both_editions("calls", 1000).iter().for_each(expect_whole_where_killed);
}

fn expect_whole_where_killed(saving: &Saving) {
    let Some(calls) = system_calls(saving) else { return };
    let (mut new, mut left) = (0, 0);
    for call in &calls {
        saving.put_back();
        let done = saving.run(&mut injected(call, "signal=SIGKILL"));
        assert!(!done.status.success(), "{call:?} was not met");
        new += u32::from(saving.is_new());
        left += u32::from(saving.litter() > 0);
    }
    println!("killed before each of {} system calls: the new take {new} times, a file left {left} times", calls.len());
    assert!(left > 5 && new > 2);
    saving.expect_next_save_works();
}

/// Each system call fails in turn: the old take stays, or the new one is there. Where the command says that it is done it is.
#[test]
fn each_system_call_fails() {
    Saving::in_both_editions("fails", 1000).iter().for_each(expect_failures_told);
}

fn expect_failures_told(saving: &Saving) {
    let Some(mut calls) = system_calls(saving) else { return };
    // Rust's library stops the program where a folder that it has listed cannot be closed, which no system refuses.
    let listed = calls.iter().rposition(|(name, _)| name == "getdents64").unwrap();
    let closed = listed + calls[listed..].iter().position(|(name, _)| name == "close").unwrap();
    calls.remove(closed);
    let calls = without_memory(calls); // too little memory is not this
    let (mut told, mut unflushed) = (0, 0);
    for error in ["EIO", "ENOSPC"] {
        for call in &calls {
            saving.put_back();
            let done = saving.run(&mut injected(call, &format!("error={error}")));
            let new = saving.is_new();
            match done.status.code() {
                Some(0) => {
                    assert!(new, "{call:?} failed, and the old take is there without a word");
                    assert!(
                        !["write", "flistxattr", "fchmod", "fsync", "read", "rename"].contains(&call.0.as_str()),
                        "{call:?} failed unseen"
                    );
                }
                Some(code @ (2 | 3)) => {
                    told += 1;
                    unflushed += u32::from(code == 3);
                    assert_eq!(
                        (new, err(&done).contains("it is the new file")),
                        (code == 3, code == 3),
                        "{call:?}: {}",
                        err(&done)
                    );
                    assert_eq!(saving.litter(), 0, "{call:?}: {}", err(&done));
                    assert_eq!(err(&done).lines().count(), 1);
                }
                _ => panic!("{call:?} ended the command: {:?}", done.status),
            }
        }
    }
    println!("{} system calls failed, twice each; {told} times it was told", calls.len());
    assert!(told > 10);
    assert_eq!(unflushed, 2, "the flush of the folder, and nothing else");
    saving.expect_next_save_works();
}

/// The take is the tidied one by then: what was kept and dropped is told, and then what failed.
#[test]
fn a_tidied_take_whose_folder_is_not_flushed() {
    let saving = Saving { command: &["tidy"], ..Saving::of("tidied", 1000) };
    let Some(calls) = system_calls(&saving) else { return };
    for (call, expected) in [("rename", 2), ("fsync", 3)] {
        saving.put_back();
        let call = calls.iter().rfind(|(name, _)| name == call).unwrap();
        let done = saving.run(&mut injected(call, "error=EIO"));
        assert_eq!((status(&done), saving.is_new()), (expected, expected == 3), "{call:?}");
        let said = err(&done);
        let lines: Vec<_> = said.lines().collect();
        assert_eq!(lines.len(), if expected == 3 { 7 } else { 1 }, "{said}");
        assert_eq!(lines[0] == "bones: 1001 kept, 0 dropped", expected == 3, "{said}");
        assert_eq!(lines.last().unwrap().contains("it is the new file already"), expected == 3, "{said}");
    }
}

/// By the same calls of the system, but for those for memory; and where it is killed the take is the old one or the excerpt.
#[test]
fn an_excerpt_is_saved_as_an_export() {
    let all = Saving { command: &["excerpt", "0", "4294967295"], ..Saving::of("all", 1000) };
    let [export, all] = [Saving::of("exported", 1000), all].map(|saving| system_calls(&saving).map(without_memory));
    assert_eq!(export, all);
    let excerpt = Saving { command: &["excerpt", "200", "700"], ..Saving::of("excerpt", 1000) };
    let new = vmd::excerpt(&excerpt.new, 200, 700).unwrap();
    expect_whole_where_killed(&Saving { new, ..excerpt });
}

/// The new file is flushed, and dropped from memory, before it takes the name, and the folder is flushed after.
#[test]
fn flushed_before_and_after() {
    let saving = Saving::of("flushed", 1000);
    let Some(calls) = system_calls(&saving) else { return };
    let kinds = ["write", "fsync", "fadvise64", "rename"];
    let order: Vec<_> = calls.iter().map(|(name, _)| name.as_str()).filter(|n| kinds.contains(n)).collect();
    assert_eq!(order, ["write", "fsync", "fadvise64", "rename", "fsync"]);
}

/// A take is saved in the older edition as in the newer: by the same calls of the system, but for those for memory.
#[test]
fn the_same_system_calls_in_both_editions() {
    let [newer, older] = Saving::in_both_editions("same", 1000).map(|saving| system_calls(&saving).map(without_memory));
    assert_eq!(newer, older);
}

/// The system says that it has taken the bytes, and has not.
#[test]
fn a_write_that_was_not_made() {
    let saving = Saving::of("unmade", 1000);
    let Some(calls) = system_calls(&saving) else { return };
    let call = calls.iter().find(|(name, _)| name == "write").unwrap();
    saving.put_back();
    let done = saving.run(&mut injected(call, &format!("retval={}", saving.new.len())));
    assert_eq!(status(&done), 2);
    assert!(err(&done).contains("cannot read the new file back: it is not what was written"), "{}", err(&done));
    assert!(!saving.is_new());
    assert_eq!(saving.folder.names(), ["new", "take"]);
}

/// A disk that has lost a byte of what it said it has flushed: what is read back comes from the disk, and not from what the
/// system still has of it in memory. The disk is a file that the test writes to while the command is stopped after its flush,
/// where root may mount one.
#[test]
fn a_byte_that_the_disk_lost() {
    let mut saving = Saving::of("lost", 1000);
    let byte = b"this byte of the disk";
    saving.new[30..50].copy_from_slice(&byte[..20]); // the model name
    saving.folder.file("new", &saving.new);
    let script = r#"
        cd "$1" || exit 99
        truncate -s 8M image && mkfs.ext4 -q -O ^has_journal image && mkdir disk && mount -o loop image disk || exit 99
        cp take disk/take && sync disk/take || exit 99
        strace -o log -e inject=fsync:signal=SIGSTOP:when=1 "$2" export new -o disk/take &
        until grep -q 'stopped by SIGSTOP' log; do
            kill -0 $! || exit 99
            sleep 0.01
        done
        place=$(grep -abo 'this byte of the dis' image | cut -d: -f1) || exit 98
        [ -n "$place" ] && printf T | dd of=image bs=1 seek="$place" conv=notrunc 2> dd || exit 97
        kill -CONT $(cat /proc/$!/task/$!/children)
        wait $!
        echo "$?" > status
        ls -A disk | grep -v lost+found > names
        cp disk/take take
    "#;
    let mut shell = Command::new("unshare");
    shell.args(["-m", "sh", "-c", script, "sh"]).arg(&saving.folder.0).arg(env!("CARGO_BIN_EXE_vmd"));
    let done = match shell.output() {
        Ok(done) if [0, 97, 98].contains(&status(&done)) => done,
        _ => return println!("not tried: no file system can be mounted here, or there is no strace"),
    };
    assert_eq!(status(&done), 0, "{done:?}");
    assert_eq!(fs::read_to_string(saving.folder.join("status")).unwrap(), "2\n", "{done:?}");
    assert!(err(&done).contains("cannot read the new file back: it is not what was written"), "{}", err(&done));
    assert_eq!(fs::read_to_string(saving.folder.join("names")).unwrap(), "take\n");
    assert!(!saving.is_new());
}

/// A disk that is full, by a limit on the length of files: the write fails, whether or not its signal would end the process.
#[test]
fn no_room_by_a_limit() {
    let saving = Saving::of("limit", 1000);
    for setting in ["ulimit -f 8", "trap '' XFSZ; ulimit -f 8"] {
        let done = saving.run(&mut vmd_under(setting));
        assert_eq!(status(&done), 2, "{setting}");
        assert!(err(&done).contains("cannot write the new file: File too large"), "{}", err(&done));
        assert!(!saving.is_new());
        assert_eq!(saving.folder.names(), ["new", "take"]);
    }
    saving.expect_next_save_works();
}

/// A disk that is full, by a small file system of the test's own, where root may mount one. What killed saves left there is
/// told, and stays.
#[test]
fn no_room_on_the_disk() {
    let saving = Saving::of("disk", 9000); // 1 MB
    let script = r#"
        mkdir "$1/disk" && mount -t tmpfs -o size=1500k tmpfs "$1/disk" || exit 99
        cp "$1/take" "$1/disk/take" || exit 98
        "$2" export "$1/new" -o "$1/disk/take"
        echo "$?" > "$1/status"
        ls -A "$1/disk" > "$1/names"
        for n in 0 7; do head -c 1000 "$1/take" > "$1/disk/.vmd-save-$n.tmp"; done
        "$2" export "$1/new" -o "$1/disk/take"
        echo "$?" >> "$1/status"
        ls -A "$1/disk" >> "$1/names"
        cp "$1/disk/take" "$1/take"
    "#;
    let mut shell = Command::new("unshare");
    shell.args(["-m", "sh", "-c", script, "sh"]).arg(&saving.folder.0).arg(env!("CARGO_BIN_EXE_vmd"));
    match shell.output() {
        Ok(done) if done.status.success() => {
            assert_eq!(fs::read_to_string(saving.folder.join("status")).unwrap(), "2\n2\n");
            let full = "cannot write the new file: No space left on device (os error 28)";
            let left = "; files .vmd-save-N.tmp that killed saves left there take 2000 bytes and may be removed";
            let said: Vec<_> = err(&done).lines().map(|line| line.split_once(full).unwrap().1.to_owned()).collect();
            assert_eq!(said, ["", left]);
            let names = fs::read_to_string(saving.folder.join("names")).unwrap();
            assert_eq!(names, "take\n.vmd-save-0.tmp\n.vmd-save-7.tmp\ntake\n");
            assert!(!saving.is_new());
        }
        _ => println!("not tried: no file system can be mounted here"),
    }
}

#[test]
fn the_mode_stays() {
    for saving in Saving::in_both_editions("mode", 10) {
        for mode in [0o600, 0o640, 0o664, 0o755] {
            saving.put_back();
            fs::set_permissions(saving.take(), Permissions::from_mode(mode)).unwrap();
            saving.expect_next_save_works();
            assert_eq!(fs::metadata(saving.take()).unwrap().mode() & 0o7777, mode);
        }
    }
}

/// Root saves a file that is another's.
#[test]
fn the_owner_stays() {
    let saving = Saving::of("owner", 10);
    if let Err(error) = std::os::unix::fs::chown(saving.take(), Some(65534), Some(65534)) {
        return println!("not tried: {error}");
    }
    saving.expect_next_save_works();
    let found = fs::metadata(saving.take()).unwrap();
    assert_eq!((found.uid(), found.gid()), (65534, 65534));
}

/// A save by another user, of these groups, where root may be one.
fn run_as_another(saving: &Saving, groups: &str) -> io::Result<Output> {
    let mut setpriv = Command::new("setpriv");
    setpriv.args(["--reuid=65534", "--regid=65534"]);
    setpriv.arg(if groups.is_empty() { "--clear-groups".into() } else { format!("--groups={groups}") });
    let done = saving.words(setpriv.arg(env!("CARGO_BIN_EXE_vmd"))).output()?;
    if done.status.code() == Some(127) { Err(io::Error::other(err(&done))) } else { Ok(done) }
}

/// Another user saves over a take of this owner, group and mode: the owner, group and mode that it has then. None where that
/// cannot be tried.
fn saved_by_another(groups: &str, owner: u32, group: u32, mode: u32) -> Option<(u32, u32, u32)> {
    let saving = Saving::of("another", 10);
    fs::set_permissions(&saving.folder.0, Permissions::from_mode(0o777)).unwrap();
    let found = std::os::unix::fs::chown(saving.take(), Some(owner), Some(group)).and_then(|()| {
        fs::set_permissions(saving.take(), Permissions::from_mode(mode)).unwrap();
        run_as_another(&saving, groups)
    });
    match found {
        Ok(done) => {
            assert_eq!((status(&done), err(&done)), (0, String::new()));
            assert!(saving.is_new());
            let found = fs::metadata(saving.take()).unwrap();
            Some((found.uid(), found.gid(), found.mode() & 0o7777))
        }
        Err(error) => {
            println!("not tried: saving as another user: {error}");
            None
        }
    }
}

/// One of a crew saves over a take of another's: it is the crew's still.
#[test]
fn the_group_stays_where_the_owner_cannot() {
    if let Some(found) = saved_by_another("12345", 1000, 12345, 0o664) {
        assert_eq!(found, (65534, 12345, 0o664));
    }
}

/// Neither the caller's group gets what the lost one was allowed, nor the members of the lost one, now among all others,
/// what it was denied.
#[test]
fn a_lost_group_widens_no_rights() {
    for (old, new) in [(0o664, 0o644), (0o660, 0o600), (0o640, 0o600), (0o604, 0o600), (0o646, 0o644), (0o666, 0o666)] {
        if let Some(found) = saved_by_another("", 65534, 12345, old) {
            assert_eq!(found, (65534, 65534, new), "{old:o}");
        }
    }
}

#[test]
fn set_id_bits_are_carried_to_no_other_owner() {
    for (owner, group, old, new) in
        [(1000, 65534, 0o4666, 0o666), (65534, 12345, 0o4666, 0o666), (65534, 65534, 0o4644, 0o4644)]
    {
        if let Some(found) = saved_by_another("", owner, group, old) {
            assert_eq!(found, (65534, 65534, new), "{owner} {group} {old:o}");
        }
    }
}

/// What a crew sets on a take that is to stay, for root too.
#[test]
fn a_read_only_take_is_not_replaced() {
    let saving = Saving::of("readonly", 10);
    fs::set_permissions(saving.take(), Permissions::from_mode(0o444)).unwrap();
    let done = saving.run(&mut vmd());
    assert_eq!(status(&done), 2);
    assert!(err(&done).contains("cannot write to the file: it is read-only"), "{}", err(&done));
    assert!(!saving.is_new());
    assert_eq!(saving.folder.names(), ["new", "take"]);
}

const ACCESS_LIST: &str = "system.posix_acl_access";

/// Owner, user 1234, group, mask and others with these rights.
fn access_list(owner: u16, user: u16, group: u16, mask: u16, others: u16) -> Vec<u8> {
    let none = u32::MAX;
    let entries = [(1, owner, none), (2, user, 1234), (4, group, none), (0x10, mask, none), (0x20, others, none)];
    let mut list = 2u32.to_le_bytes().to_vec();
    for (tag, rights, id) in entries {
        list.extend([u16::to_le_bytes(tag), rights.to_le_bytes()].concat());
        list.extend(id.to_le_bytes());
    }
    list
}

#[test]
fn access_lists_and_the_users_attributes_stay() {
    let saving = Saving::of("attributes", 10);
    // The mode has the mask in the group's place: without the list the group could write.
    let list = access_list(6, 6, 4, 6, 0);
    let set = attributes::set(&saving.take(), ACCESS_LIST, &list)
        .and_then(|()| attributes::set(&saving.take(), "user.dancer", b"\0leap"))
        .and_then(|()| attributes::set(&saving.take(), "user.empty", b""));
    if let Err(error) = set {
        return println!("not tried: access lists and attributes: {error}");
    }
    assert_eq!(fs::metadata(saving.take()).unwrap().mode() & 0o7777, 0o660);
    saving.expect_next_save_works();
    let found = |name| attributes::get(&saving.take(), name);
    assert_eq!(found(ACCESS_LIST), Some(list));
    assert_eq!((found("user.dancer"), found("user.empty")), (Some(b"\0leap".to_vec()), Some(vec![])));
    assert_eq!(fs::metadata(saving.take()).unwrap().mode() & 0o7777, 0o660);
}

/// A folder gives each new file an access list. A take without one has none after a save, and its mode.
#[test]
fn no_access_list_comes_from_the_folder() {
    let saving = Saving::of("default", 10);
    fs::set_permissions(saving.take(), Permissions::from_mode(0o664)).unwrap();
    if let Err(error) = attributes::set(&saving.folder.0, "system.posix_acl_default", &access_list(7, 6, 6, 7, 0)) {
        return println!("not tried: access lists: {error}");
    }
    saving.expect_next_save_works();
    assert_eq!(attributes::get(&saving.take(), ACCESS_LIST), None);
    assert_eq!(fs::metadata(saving.take()).unwrap().mode() & 0o7777, 0o664);
    // a file that was not there is as any new file is
    fs::remove_file(saving.take()).unwrap();
    saving.expect_next_save_works();
    assert_eq!(attributes::get(&saving.take(), ACCESS_LIST), Some(access_list(6, 6, 6, 6, 0)));
}

/// Where a list or an attribute cannot be read or set, the take is not replaced.
#[test]
fn attributes_that_cannot_be_kept() {
    let saving = Saving::of("unkept", 10);
    let set = attributes::set(&saving.take(), ACCESS_LIST, &access_list(6, 6, 4, 6, 0))
        .and_then(|()| attributes::set(&saving.take(), "user.dancer", b"leap"));
    if let Err(error) = set {
        return println!("not tried: access lists and attributes: {error}");
    }
    let Some(mut calls) = system_calls(&saving) else { return };
    calls.retain(|(name, _)| name.ends_with("xattr"));
    for call in &calls {
        saving.put_back();
        let done = saving.run(&mut injected(call, "error=EPERM"));
        assert_eq!(status(&done), 2, "{call:?}");
        let (told, cause) = (err(&done), ": Operation not permitted (os error 1)\n");
        assert!(
            ["cannot keep its access list", "cannot keep its attributes"]
                .iter()
                .any(|what| told.ends_with(&format!("{what}{cause}"))),
            "{told}"
        );
        assert!(!saving.is_new());
        assert_eq!(saving.folder.names(), ["new", "take"]);
    }
    let set = calls.iter().filter(|(name, _)| name == "fsetxattr").count();
    assert_eq!(set, 2, "{calls:?}");
}

/// The group's entry in an access list would be another group's.
#[test]
fn an_access_list_whose_group_is_lost() {
    let saving = Saving::of("list", 10);
    fs::set_permissions(&saving.folder.0, Permissions::from_mode(0o777)).unwrap();
    let list = access_list(6, 6, 6, 6, 4);
    let prepared = std::os::unix::fs::chown(saving.take(), Some(65534), Some(12345))
        .and_then(|()| attributes::set(&saving.take(), ACCESS_LIST, &list))
        .and_then(|()| run_as_another(&saving, ""));
    match prepared {
        Err(error) => println!("not tried: an access list whose group is lost: {error}"),
        Ok(done) => {
            assert_eq!(status(&done), 2);
            assert!(err(&done).contains("cannot keep its access list: its group cannot be kept"), "{}", err(&done));
            assert!(!saving.is_new());
            assert_eq!(attributes::get(&saving.take(), ACCESS_LIST), Some(list));
            assert_eq!(saving.folder.names(), ["new", "take"]);
        }
    }
}

/// A new file gets the mode that any new file gets.
#[test]
fn a_file_that_was_not_there() {
    let saving = Saving::of("fresh", 10);
    fs::remove_file(saving.take()).unwrap();
    let done = saving.run(&mut vmd_under("umask 027"));
    assert_eq!((status(&done), err(&done)), (0, String::new()));
    assert!(saving.is_new());
    assert_eq!(fs::metadata(saving.take()).unwrap().mode() & 0o7777, 0o640);
}

#[test]
fn a_link_is_followed_and_stays() {
    let saving = Saving::of("link", 10);
    let there = saving.folder.join("there");
    fs::create_dir(&there).unwrap();
    fs::rename(saving.take(), there.join("take")).unwrap();
    symlink("there/second", saving.take()).unwrap();
    symlink("take", there.join("second")).unwrap();
    assert_eq!(status(&saving.run(&mut vmd())), 0);
    assert_eq!(fs::read_link(saving.take()).unwrap(), Path::new("there/second"));
    assert_eq!(fs::read_link(there.join("second")).unwrap(), Path::new("take"));
    assert!(saving.is_new() && fs::symlink_metadata(there.join("take")).unwrap().is_file());
    assert_eq!(fs::read_dir(&there).unwrap().count(), 2);
    assert_eq!(saving.folder.names(), ["new", "take", "there"]);

    // a link to a file that is not there makes it
    fs::remove_file(there.join("take")).unwrap();
    assert_eq!(status(&saving.run(&mut vmd())), 0);
    assert!(saving.is_new() && fs::symlink_metadata(there.join("take")).unwrap().is_file());

    // links in a circle
    fs::remove_file(there.join("second")).unwrap();
    symlink("../take", there.join("second")).unwrap();
    let done = saving.run(&mut vmd());
    assert_eq!(status(&done), 2);
    assert!(err(&done).contains("too many symbolic links"), "{}", err(&done));
}

/// In a sticky folder, where all may make links, one of another's is not followed, whatever the system is set to.
#[test]
fn a_link_of_anothers_in_a_folder_of_all() {
    let saving = Saving::of("sticky", 10);
    let all = saving.folder.join("all");
    fs::create_dir(&all).unwrap();
    let link = all.join("link");
    symlink("../take", &link).unwrap();
    let save = || vmd().arg("export").arg(saving.folder.join("new")).arg("-o").arg(&link).output().unwrap();
    let expect_followed = || {
        saving.put_back();
        let done = save();
        assert_eq!((status(&done), err(&done), saving.is_new()), (0, String::new(), true));
    };
    fs::set_permissions(&all, Permissions::from_mode(0o1777)).unwrap();
    expect_followed(); // the caller's own
    if let Err(error) = std::os::unix::fs::lchown(&link, Some(65533), None) {
        return println!("not tried: a link of another's: {error}");
    }
    saving.put_back();
    let done = save();
    assert_eq!(status(&done), 2);
    assert!(err(&done).contains("cannot follow the link: it is another's"), "{}", err(&done));
    assert!(!saving.is_new());
    for mode in [0o777, 0o1775] {
        fs::set_permissions(&all, Permissions::from_mode(mode)).unwrap();
        expect_followed();
    }
    fs::set_permissions(&all, Permissions::from_mode(0o1777)).unwrap();
    std::os::unix::fs::chown(&all, Some(65533), None).unwrap();
    expect_followed(); // the folder's owner's
}

/// Folders, pipes and devices are not replaced.
#[test]
fn no_file_to_replace() {
    let saving = Saving::of("kinds", 10);
    fs::remove_file(saving.take()).unwrap();
    let expect = |sentence: &str| {
        let done = saving.run(&mut vmd());
        assert_eq!(status(&done), 2);
        assert!(err(&done).contains(sentence) && err(&done).lines().count() == 1, "{}", err(&done));
        assert_eq!(saving.folder.names(), ["new", "take"]);
    };
    fs::create_dir(saving.take()).unwrap();
    expect("it is a folder");
    fs::remove_dir(saving.take()).unwrap();
    assert!(Command::new("mkfifo").arg(saving.take()).status().unwrap().success());
    expect("it is no regular file");
    assert!(fs::metadata(saving.take()).unwrap().file_type().is_fifo());
    fs::remove_file(saving.take()).unwrap();
    symlink("/dev/full", saving.take()).unwrap();
    expect("it is no regular file");
    fs::remove_file(saving.take()).unwrap();
    symlink("no-such-folder/take", saving.take()).unwrap();
    expect("No such file or directory");
}

/// Neither a take that may not be written to is replaced, nor one in a folder where no file can be made.
#[test]
fn without_permission() {
    let saving = Saving::of("permission", 10);
    let attempt = || {
        let mut command = vmd();
        if fs::metadata(saving.take()).unwrap().uid() == 0 {
            command.uid(65534).gid(65534); // root may write to everything
        }
        saving.words(&mut command).output()
    };
    let expect = |sentence: &str| match attempt() {
        Err(error) => println!("not tried: {error}"),
        Ok(done) => {
            assert_eq!(status(&done), 2);
            assert!(err(&done).contains(sentence), "{}", err(&done));
            assert!(!saving.is_new());
            assert_eq!(saving.folder.names(), ["new", "take"]);
        }
    };
    fs::set_permissions(&saving.folder.0, Permissions::from_mode(0o777)).unwrap();
    fs::set_permissions(saving.take(), Permissions::from_mode(0o444)).unwrap();
    expect("cannot write to the file: it is read-only");
    fs::set_permissions(saving.take(), Permissions::from_mode(0o644)).unwrap();
    if fs::metadata(saving.take()).unwrap().uid() == 0 {
        expect("cannot write to the file: Permission denied");
    }
    fs::set_permissions(saving.take(), Permissions::from_mode(0o666)).unwrap();
    fs::set_permissions(&saving.folder.0, Permissions::from_mode(0o555)).unwrap();
    expect("cannot make a new file in the folder: Permission denied");
    fs::set_permissions(&saving.folder.0, Permissions::from_mode(0o777)).unwrap();
    // and with both permissions it is done
    match attempt() {
        Err(error) => println!("not tried: {error}"),
        Ok(done) => assert_eq!((status(&done), saving.is_new()), (0, true)),
    }
}

/// What an ended save left is removed. What is no such file, or is in use, is left alone, and the next number is taken.
#[test]
fn names_that_are_taken() {
    let saving = Saving::of("names", 10);
    let zero = saving.folder.join(".vmd-save-0.tmp");
    fs::write(&zero, b"left").unwrap();
    saving.folder.file(".vmd-save-7.tmp", b"left");
    saving.expect_next_save_works();

    saving.put_back();
    let lock = File::create(&zero).unwrap();
    lock.lock().unwrap();
    assert_eq!(status(&saving.run(&mut vmd())), 0);
    assert!(saving.is_new());
    assert_eq!(saving.folder.names(), [".vmd-save-0.tmp", "new", "take"]);
    // Not by closing it: a process that another test is starting may hold a copy of it for a moment.
    lock.unlock().unwrap();
    saving.expect_next_save_works();

    saving.put_back();
    fs::create_dir(&zero).unwrap();
    symlink("new", saving.folder.join(".vmd-save-1.tmp")).unwrap();
    assert!(Command::new("mkfifo").arg(saving.folder.join(".vmd-save-2.tmp")).status().unwrap().success());
    assert_eq!(status(&saving.run(&mut vmd())), 0);
    assert!(saving.is_new());
    assert_eq!(saving.folder.names(), [".vmd-save-0.tmp", ".vmd-save-1.tmp", ".vmd-save-2.tmp", "new", "take"]);
    assert!(fs::read(saving.folder.join("new")).unwrap() == saving.new);
}

/// Whatever the number is. Where a save fails nothing is removed.
#[test]
fn what_saves_have_left_is_removed_after_one_that_is_done() {
    let saving = Saving::of("left", 1000);
    let left = [".vmd-save-0.tmp", ".vmd-save-16.tmp", ".vmd-save-4294967296.tmp"];
    let others = [".vmd-save-.tmp", ".vmd-save-1x.tmp", "x.vmd-save-1.tmp"];
    left.iter().chain(&others).for_each(|name| drop(saving.folder.file(name, b"left")));
    let names = saving.folder.names();
    assert_eq!(status(&saving.run(&mut vmd_under("ulimit -f 8"))), 2);
    assert_eq!(saving.folder.names(), names);
    assert_eq!(status(&saving.run(&mut vmd())), 0);
    assert!(saving.is_new());
    let mut expected = [&others[..], &["new", "take"]].concat();
    expected.sort();
    assert_eq!(saving.folder.names(), expected);
}

/// What a killed save left is rescued: it is the take that is read, by whatever name or way.
#[test]
fn a_take_that_was_read_is_not_removed() {
    let saving = Saving::of("rescue", 1000);
    let name = ".vmd-save-0.tmp";
    let left = saving.folder.file(name, &saving.new);
    fs::hard_link(&left, saving.folder.join("link")).unwrap();
    symlink(name, saving.folder.join("symlink")).unwrap();
    let in_folder = |settings: &str| {
        let mut command = vmd_under(settings);
        command.current_dir(&saving.folder.0);
        command
    };
    let full = "trap '' XFSZ; ulimit -f 8";
    for (settings, words) in [
        (":", vec!["export", name]),
        (":", vec!["export", "link"]),
        (":", vec!["export", "symlink"]),
        (":", vec!["join", "new", name, "new"]),
        ("exec < .vmd-save-0.tmp", vec!["export", "-"]),
        ("exec < .vmd-save-0.tmp", vec!["export", "/dev/stdin"]),
    ] {
        for (settings, expected) in [(settings.to_owned(), 0), (format!("{full}; {settings}"), 2)] {
            let done = in_folder(&settings).args(&words).args(["-o", "take"]).output().unwrap();
            assert_eq!(status(&done), expected, "{words:?}: {}", err(&done));
            assert!(fs::read(&left).is_ok_and(|found| found == saving.new), "{settings}: {words:?}");
        }
    }
    // What comes through a pipe may have been any file.
    let mut piped = vmd_with("cat .vmd-save-0.tmp |");
    let done = piped.current_dir(&saving.folder.0).args(["export", "-", "-o", "take"]).output().unwrap();
    assert_eq!((status(&done), err(&done)), (0, String::new()));
    assert!(saving.is_new() && fs::read(&left).unwrap() == saving.new);
    // A take that was not read in its place: the one that was left is removed.
    fs::remove_file(saving.folder.join("link")).unwrap();
    fs::remove_file(saving.folder.join("symlink")).unwrap();
    saving.expect_next_save_works();
}

/// A target whose name is one that new files have.
#[test]
fn a_target_that_is_named_as_new_files_are() {
    let saving = Saving::of("target", 1000);
    let target = saving.folder.join(".vmd-save-0.tmp");
    let saved_by = |vmd: &mut Command| vmd.arg("export").arg(saving.folder.join("new")).arg("-o").arg(&target).output();
    let saved_under = |settings: &str| saved_by(&mut vmd_under(settings)).unwrap();
    // not there yet: it is there whole or not at all
    if saved_by(&mut injected(&("fsync".into(), 1), "signal=SIGKILL")).is_err() {
        println!("not tried: there is no strace here");
    }
    assert!(!target.exists());
    assert_eq!(status(&saved_under("ulimit -f 8")), 2);
    assert!(!target.exists());
    let done = saved_under(":");
    assert_eq!((status(&done), err(&done)), (0, String::new()));
    assert!(fs::read(&target).unwrap() == saving.new);
    // saved over
    fs::write(&target, &saving.old).unwrap();
    assert_eq!(status(&saved_under("ulimit -f 8")), 2);
    assert!(fs::read(&target).unwrap() == saving.old);
    assert_eq!(status(&saved_under(":")), 0);
    assert!(fs::read(&target).unwrap() == saving.new);
    assert_eq!(saving.folder.names(), [".vmd-save-0.tmp", "new", "take"]);
}

/// A program that saves may have read any file, and `save` does not know which: it removes nothing but its own new file.
#[test]
fn the_crate_removes_what_it_is_told_was_not_read() {
    let saving = Saving::of("crate", 10);
    let left = saving.folder.file(".vmd-save-0.tmp", b"left");
    let read = saving.folder.file(".vmd-save-1.tmp", b"read");
    let take = saving.take().into_os_string().into_string().unwrap();
    vmd::save(&take, &saving.new).unwrap();
    assert!(saving.is_new());
    assert_eq!(saving.folder.names(), [".vmd-save-0.tmp", ".vmd-save-1.tmp", "new", "take"]);
    let kept = FileId::of(&fs::metadata(&read).unwrap());
    vmd::save_and_clear(&take, &saving.old, &[kept]).unwrap();
    assert_eq!(saving.folder.names(), [".vmd-save-1.tmp", "new", "take"]);
    assert!(!left.exists() && !saving.is_new());

    let error = vmd::save(&saving.folder.0, &saving.new).unwrap_err();
    assert!(!error.replaced(), "{error}");
}

/// Many at once, over one take and over others in the same folder.
#[test]
fn saves_at_the_same_time() {
    let saving = Saving::of("many", 300);
    saving.folder.file(".vmd-save-0.tmp", b"left");
    let takes: Vec<_> = (0..4).map(|n| saving.folder.file(&format!("other-{n}"), &bones(300, 10 + n))).collect();
    thread::scope(|scope| {
        for n in 0..8 {
            let (saving, takes) = (&saving, &takes);
            scope.spawn(move || {
                for round in 0..6 {
                    let done =
                        vmd().arg("export").arg(&takes[(n + round) % 4]).arg("-o").arg(saving.take()).output().unwrap();
                    assert_eq!((status(&done), err(&done)), (0, String::new()));
                    let own = saving.folder.join(&format!("own-{n}"));
                    let done = vmd().arg("export").arg(&takes[n % 4]).arg("-o").arg(&own).output().unwrap();
                    assert_eq!((status(&done), err(&done)), (0, String::new()));
                }
            });
        }
    });
    let found = fs::read(saving.take()).unwrap();
    assert!(takes.iter().any(|take| fs::read(take).unwrap() == found));
    assert!((0..8).all(|n| fs::read(saving.folder.join(&format!("own-{n}"))).unwrap() == fs::read(&takes[n % 4]).unwrap()));
    assert_eq!(saving.litter(), 0);
}

/// By its name and through a link: what is found of the take is another file from one look to the next.
#[test]
fn saves_through_a_link_at_the_same_time() {
    let saving = Saving::of("looks", 3);
    let link = saving.folder.join("link");
    symlink("take", &link).unwrap();
    thread::scope(|scope| {
        for n in 0..4 {
            let path = if n % 2 == 0 { saving.take() } else { link.clone() };
            let bytes = &saving.new;
            scope.spawn(move || (0..200).for_each(|_| vmd::save(&path, bytes).unwrap()));
        }
    });
    assert!(saving.is_new());
    assert_eq!(saving.litter(), 0);
}

/// Names of every length that the system allows.
#[test]
fn long_names() {
    let saving = Saving::of("long", 10);
    let to = saving.folder.join(&"n".repeat(255));
    assert_eq!(status(&vmd().arg("export").arg(saving.folder.join("new")).arg("-o").arg(&to).output().unwrap()), 0);
    assert!(fs::read(&to).unwrap() == saving.new);
}
