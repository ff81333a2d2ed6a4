//! What goes wrong around the files: a full disk, files that may not be read or written, other
//! owners, and something else in a file's place.

use crate::bench::{data, ended, Bench, Ended};
use std::fs::{self, Permissions};
use std::os::unix::fs::{MetadataExt, PermissionsExt};
use std::os::unix::process::CommandExt;
use std::process::Command;

/// A user and group that own nothing.
const NOBODY: u32 = 65_534;

const REPAIR: &str = "repair c --lost 4 --helpers 0,2,3";

/// A cabinet (4, 3, 8, 3) of 2,000 stripes.
fn cabinet() -> Bench {
    let bench = Bench::new();
    bench.write("data", &data(256_000));
    bench.done("store 4 3 8 3 --volume 7 data c");
    bench
}

fn allow(bench: &Bench, name: &str, mode: u32) {
    let permissions = Permissions::from_mode(mode);
    fs::set_permissions(bench.path(name), permissions).expect("the mode can be set");
}

fn is_root(bench: &Bench) -> bool {
    fs::metadata(bench.path("data")).expect("it is there").uid() == 0
}

/// The command, copied to where anyone can run it, as a user for whom modes count.
fn user_command(bench: &Bench, line: &str) -> Command {
    let copy = bench.path("command");
    if !copy.exists() {
        fs::copy(env!("CARGO_BIN_EXE_cabinet"), &copy).expect("the command can be copied");
        allow(bench, "command", 0o755);
    }
    let mut command = Command::new(copy);
    command
        .args(line.split_whitespace())
        .current_dir(bench.path("."));
    if is_root(bench) {
        command.uid(NOBODY).gid(NOBODY);
    }
    command
}

/// Whether such a user can run it: not where temporary folders are closed to others.
fn can_be_user(bench: &Bench) -> bool {
    allow(bench, ".", 0o777);
    match user_command(bench, "--version").output() {
        Ok(_) => true,
        Err(error) => {
            println!("not run: no other user can run the command here: {error}");
            false
        }
    }
}

fn as_user(bench: &Bench, line: &str) -> Ended {
    ended(&mut user_command(bench, line))
}

/// Such a run must end with this status and these words.
fn fails_as_user(bench: &Bench, line: &str, words: &str) {
    let ended = as_user(bench, line);
    assert_eq!(ended.status, 74, "{line}: {}{}", ended.out, ended.err);
    assert!(ended.err.contains(words), "{line}: {}", ended.err);
}

/// Lines that write, each of which must fail for want of room and leave all files as they were.
const WRITING: [&str; 6] = [
    "store 4 3 8 3 --volume 7 data d",
    "store 4 3 8 3 --volume 9 --replace data c",
    "repair c --lost 4 --helpers 0,2,3",
    "recover c",
    "get c back --replace",
    "share c --host 0 --helper 2 share",
];

/// A limit on the size of files stands for a full disk, wherever it may be set.
#[test]
fn no_file_may_grow() {
    let bench = cabinet();
    bench.remove("c/tray-04.img");
    let before = bench.snapshot(".");
    for line in WRITING {
        let limit = "trap '' XFSZ; ulimit -f 20";
        let ended = bench.shell(&format!("{limit}; exec $cabinet {line}"));
        assert_eq!(ended.status, 74, "{line}: {}{}", ended.out, ended.err);
        assert!(ended.err.contains("too large"), "{line}: {}", ended.err);
        assert!(before == bench.snapshot("."), "{line}: a file has changed");
    }
    WRITING.iter().for_each(|line| drop(bench.done(line)));
}

/// A disk in memory that is too small; where none may be had, the limit above must do.
#[test]
fn the_disk_is_full() {
    let bench = cabinet();
    fs::create_dir(bench.path("disk")).expect("a folder can be made");
    let mount = "mount -t tmpfs -o size=632k tmpfs disk";
    let within = |line: &str| {
        let script = format!("{mount} && cp -r c data disk && cd disk && {line}");
        let mut command = Command::new("unshare");
        command
            .args(["-m", "sh", "-c", &script])
            .env("cabinet", env!("CARGO_BIN_EXE_cabinet"))
            .current_dir(bench.path("."));
        ended(&mut command)
    };
    bench.remove("c/tray-04.img");
    let can_mount = bench.shell(&format!("unshare -m sh -c '{mount}'"));
    if can_mount.status != 0 {
        println!("not run: no disk in memory can be had: {}", can_mount.err);
        return;
    }
    for line in WRITING {
        let script = format!("ls -A . c >../before; $cabinet {line}; echo $? >../status; ");
        let ended = within(&(script + "ls -A . c >../after; for f in c/*; do cmp $f ../$f; done"));
        let status = String::from_utf8(bench.read("status")).expect("text");
        assert_eq!(
            (ended.status, ended.out.contains("differ")),
            (0, false),
            "{line}"
        );
        match status.trim() {
            "0" => assert!(line.starts_with("share"), "{line}: there is no room for it"),
            "74" => {
                assert!(ended.err.contains("No space left"), "{line}: {}", ended.err);
                assert_eq!(bench.read("before"), bench.read("after"), "{line}");
            }
            other => panic!("{line}: {other}: {}", ended.err),
        }
    }
}

#[test]
fn files_that_may_not_be_read() {
    let bench = cabinet();
    let before = bench.snapshot("c");
    if !can_be_user(&bench) {
        return;
    }
    allow(&bench, "c", 0o777);
    allow(&bench, "c/tray-04.img", 0);
    let ended = as_user(&bench, "test c");
    assert_eq!(ended.status, 16, "{}", ended.err);
    let words = "tray  4 is not used: cannot be read here: Permission denied";
    assert!(ended.out.contains(words), "{}", ended.out);
    let ended = as_user(&bench, "get c back --replace");
    assert_eq!(ended.status, 0, "{}", ended.err);
    assert_eq!(bench.read("back"), data(256_000));
    // It is not taken for damage, and is written anew only where a person says so.
    fails_as_user(&bench, "recover c", "this is not taken for damage");
    let ended = as_user(&bench, "recover c --erase 4");
    assert_eq!(ended.status, 0, "{}", ended.err);
    assert!(before == bench.snapshot("c"), "a new file is in its place");
    allow(&bench, "c/tray-04.img", 0o644);
    allow(&bench, "c/cabinet.txt", 0);
    let ended = as_user(&bench, "test c");
    assert_eq!(ended.status, 0, "the labels say it all: {}", ended.err);
    allow(&bench, "c/cabinet.txt", 0o644);
    allow(&bench, "data", 0);
    fails_as_user(
        &bench,
        "store 4 3 8 3 --volume 7 data d",
        "data: Permission denied",
    );
    allow(&bench, "data", 0o644);
}

/// Files that may only be read are replaced, as their folder allows it; a folder that may only be
/// read stays as it is. So it is with files and folders of another owner.
#[test]
fn files_and_folders_that_may_only_be_read() {
    let bench = cabinet();
    if !can_be_user(&bench) {
        return;
    }
    allow(&bench, "c", 0o777);
    allow(&bench, "c/tray-04.img", 0o444);
    let before = bench.snapshot("c");
    bench.poke("c/tray-04.img", 512 + 3, 2);
    assert_eq!(as_user(&bench, REPAIR).status, 0);
    assert!(before == bench.snapshot("c"));
    allow(&bench, "c", 0o555);
    fs::create_dir(bench.path("closed")).expect("a folder can be made");
    allow(&bench, "closed", 0o555);
    let before = bench.snapshot("c");
    for line in [
        "store 4 3 8 3 --volume 9 --replace data c",
        REPAIR,
        "recover c --erase 4",
        "scrub c --budget 5",
        "share c --host 0 --helper 2 c/share",
        "get c closed/back",
    ] {
        fails_as_user(&bench, line, "Permission denied");
        assert!(before == bench.snapshot("c"), "{line}: a file has changed");
    }
    for line in [
        "test c",
        "margin c",
        "scrub c",
        "get c back --replace",
        "recover c",
    ] {
        let ended = as_user(&bench, line);
        assert_eq!(ended.status, 0, "{line}: {}", ended.err);
    }
    assert_eq!(bench.read("back"), data(256_000));
    allow(&bench, "c", 0o777);
}

#[test]
fn something_else_in_a_files_place() {
    let bench = cabinet();
    bench.remove("c/tray-04.img");
    fs::create_dir(bench.path("c/tray-04.img")).expect("a folder can be made");
    bench.ends(16, "test c");
    for line in [
        "recover c",
        REPAIR,
        "store 4 3 8 3 --volume 7 --replace data c",
        "get c c",
        "share c --host 0 --helper 2 c",
    ] {
        assert!(
            bench.fails(74, line).contains("not a regular file"),
            "{line}"
        );
    }
    bench.done("get c back --replace");
    assert_eq!(bench.read("back"), data(256_000));
    fs::remove_dir(bench.path("c/tray-04.img")).expect("it can be removed");
    // A link is not followed, neither in the file's place nor under the work name.
    bench.write("kept", b"kept");
    for name in ["c/tray-04.img", "c/.tray-04.img.repair"] {
        std::os::unix::fs::symlink("../kept", bench.path(name)).expect("a link can be made");
        assert!(
            bench.fails(74, REPAIR).contains("not a regular file"),
            "{name}"
        );
        bench.remove(name);
    }
    assert_eq!(bench.read("kept"), b"kept");
    bench.done(REPAIR);
    for missing in [
        "store 4 3 8 3 --volume 7 none d",
        "store 4 3 8 3 --volume 7 c d",
    ] {
        bench.fails(74, missing);
    }
    assert!(!bench.exists("d"));
}

/// A second command on the same trays is told so, and does no harm.
#[test]
fn two_commands_at_once() {
    let bench = cabinet();
    bench.remove("c/tray-04.img");
    bench.done(&format!("{REPAIR} --budget 9"));
    let work = fs::File::open(bench.path("c/.tray-04.img.repair")).expect("it is there");
    work.lock().expect("it can be locked");
    let before = bench.snapshot("c");
    assert!(bench
        .fails(74, REPAIR)
        .contains("another command is writing it"));
    assert!(before == bench.snapshot("c"));
    drop(work);
    bench.done(REPAIR);
    bench.done("test c");
}
