//! Files that are missing, unreadable, links or no files, pipes that are closed, and what a change
//! keeps.

mod common;

use common::{is_root, Folder, Ran, NOBODY};
use std::ffi::OsStr;
use std::fs::{self, File, Permissions};
use std::io::Read;
use std::os::unix::ffi::OsStrExt;
use std::os::unix::fs::{chown, symlink, MetadataExt, PermissionsExt};
use std::process::{Command, Stdio};

/// A line of each command that takes a file which is there.
const LINES: [&[&str]; 9] = [
    &["list", "FILE"],
    &["append", "FILE", "a:", "P9"],
    &["assign", "FILE", "7", "a:"],
    &["remove", "FILE", "7"],
    &["erase", "FILE", "123"],
    &["wipe", "FILE", "123"],
    &["check", "FILE"],
    &["show", "FILE"],
    &["shift", "FILE", "--to", "2017", "--motion", "0,0,0"],
];

/// Runs each line with a file's name in it, and holds all to one answer.
fn all_are_wrong(folder: &Folder, name: &str, trouble: &str) {
    for line in LINES {
        let words: Vec<_> = line
            .iter()
            .map(|word| if *word == "FILE" { name } else { word })
            .collect();
        folder.run(&words).wrong(&format!("{name}: {trouble}"));
    }
}

fn mode(folder: &Folder, name: &str) -> u32 {
    let found = fs::metadata(folder.path(name)).expect("a file");
    found.permissions().mode() & 0o7777
}

fn set_mode(folder: &Folder, name: &str, mode: u32) {
    let permissions = Permissions::from_mode(mode);
    fs::set_permissions(folder.path(name), permissions).expect("the owner may");
}

#[test]
fn no_such_file() {
    let folder = Folder::new("no_such_file");
    let missing = "No such file or directory (os error 2)";
    all_are_wrong(&folder, "none.loz", missing);
    all_are_wrong(&folder, "none/none.loz", missing);
    all_are_wrong(&folder, "", missing);
    for name in ["none/a.loz", ""] {
        folder
            .run(&["new", name])
            .wrong(&format!("{name}: {missing}"));
    }
    symlink("none.loz", folder.path("link.loz")).expect("a link");
    all_are_wrong(&folder, "link.loz", missing);
    folder
        .run(&["new", "link.loz"])
        .wrong("link.loz: it is there already");
    assert_eq!(folder.names(), ["link.loz"]);
}

#[test]
fn a_folder_and_a_pipe() {
    let folder = Folder::with_morning("a_folder_and_a_pipe");
    fs::create_dir(folder.path("inner")).expect("a folder");
    all_are_wrong(&folder, "inner", "Is a directory (os error 21)");
    all_are_wrong(&folder, ".", "Is a directory (os error 21)");
    folder
        .run(&["new", "inner"])
        .wrong("inner: it is there already");
    let behind_file = "morning.loz/a.loz: Not a directory (os error 20)";
    folder
        .run(&["check", "morning.loz/a.loz"])
        .wrong(behind_file);
    folder.run(&["new", "morning.loz/a.loz"]).wrong(behind_file);

    let made = Command::new("mkfifo").arg(folder.path("fifo")).status();
    assert!(made.expect("mkfifo runs").success());
    for line in [&["append", "fifo", "a:"][..], &["erase", "fifo", "0"]] {
        folder.run(line).wrong("fifo: not a regular file");
    }
    assert_eq!(folder.names(), ["fifo", "inner", "morning.loz"]);
}

#[test]
fn no_permission() {
    let folder = Folder::with_morning("no_permission");
    let denied = "morning.loz: Permission denied (os error 13)";
    let before = folder.read("morning.loz");
    let append = ["append", "morning.loz", "a:"];
    if is_root() {
        chown(folder.path(""), Some(NOBODY), None).expect("root may");
    }
    set_mode(&folder, "morning.loz", 0o000);
    folder.run_as_nobody(&["list", "morning.loz"]).wrong(denied);
    folder.run_as_nobody(&append).wrong(denied);
    // Who may read but not write the file may not replace it either, whatever the folder allows.
    set_mode(&folder, "morning.loz", 0o444);
    assert_eq!(folder.run_as_nobody(&["list", "morning.loz"]).status, 0);
    folder.run_as_nobody(&append).wrong(denied);
    // Where the folder takes no new file, the old one stays.
    set_mode(&folder, "morning.loz", 0o666);
    set_mode(&folder, "", 0o555);
    folder.run_as_nobody(&append).wrong(denied);
    folder
        .run_as_nobody(&["new", "a.loz"])
        .wrong("a.loz: Permission denied (os error 13)");
    set_mode(&folder, "", 0o755);
    assert_eq!(folder.read("morning.loz"), before);
    assert_eq!(folder.names(), ["morning.loz"]);
}

#[test]
fn permissions_and_owner_stay() {
    let folder = Folder::with_morning("permissions_and_owner_stay");
    let file = folder.path("morning.loz");
    if is_root() {
        chown(&file, Some(NOBODY), Some(NOBODY)).expect("root may");
    }
    let before = fs::metadata(&file).expect("a file");
    for wanted in [0o600, 0o664, 0o777] {
        set_mode(&folder, "morning.loz", wanted);
        assert_eq!(folder.run(&["append", "morning.loz", "a:"]).status, 0);
        assert_eq!(mode(&folder, "morning.loz"), wanted);
    }
    let after = fs::metadata(&file).expect("a file");
    assert_eq!((after.uid(), after.gid()), (before.uid(), before.gid()));
    assert_eq!(folder.names(), ["morning.loz"]);
}

#[test]
fn a_link_stays_a_link() {
    let folder = Folder::with_morning("a_link_stays_a_link");
    fs::create_dir(folder.path("inner")).expect("a folder");
    symlink("../morning.loz", folder.path("inner/first")).expect("a link");
    symlink("inner/first", folder.path("second")).expect("a link");
    folder
        .run(&["append", "second", "urn:ep:2017", "P9"])
        .done("appended\t145\t149\n");
    assert_eq!(folder.read("morning.loz").len(), 149);
    for link in ["second", "inner/first"] {
        let found = fs::symlink_metadata(folder.path(link)).expect("a link");
        assert!(found.is_symlink());
    }
    assert_eq!(folder.names(), ["inner", "morning.loz", "second"]);
}

#[test]
fn any_name() {
    let folder = Folder::new("any_name");
    let longest = "x".repeat(255);
    let names: [&[u8]; 6] = [
        b"\xFF\xFE.loz",
        b" ",
        b"a\nb\tc",
        b"*",
        longest.as_bytes(),
        "Übung.loz".as_bytes(),
    ];
    for name in names.map(OsStr::from_bytes) {
        let words = |line: &[&'static str]| -> Vec<&OsStr> {
            let named = |word: &&'static str| {
                if *word == "FILE" {
                    name
                } else {
                    OsStr::new(*word)
                }
            };
            line.iter().map(named).collect()
        };
        assert_eq!(folder.run(&words(&["new", "FILE"])).status, 0);
        folder
            .run(&words(&["append", "FILE", "a:", "P9"]))
            .done("appended\t114\t118\n");
        assert_eq!(folder.run(&words(&["check", "FILE"])).status, 0);
    }
    for line in [
        &["new", "--", "--free"][..],
        &["append", "--", "--free", "a:"],
    ] {
        assert_eq!(folder.run(line).status, 0);
    }
    assert_eq!(folder.names().len(), 7);
}

/// Runs the tool with its output closed after the first bytes.
fn run_until_closed(folder: &Folder, line: &[&str]) -> Ran {
    let mut command = folder.tool(line);
    command.stdout(Stdio::piped()).stderr(Stdio::piped());
    let mut child = command.spawn().expect("the tool runs");
    let mut output = child.stdout.take().expect("its standard output");
    output.read_exact(&mut [0; 10]).expect("ten bytes");
    drop(output);
    Ran::from(child.wait_with_output().expect("the tool ends"))
}

#[test]
fn a_closed_pipe() {
    let folder = Folder::with_morning("a_closed_pipe");
    let mut bytes = folder.read("morning.loz");
    for _ in 0..30_000 {
        bytes.extend_from_slice(b"\x01\x02");
    }
    folder.write("morning.loz", &bytes);
    for line in [
        &["list", "morning.loz"][..],
        &["show", "morning.loz"],
        &["shift", "morning.loz", "--to", "2017", "--motion", "0,0,0"],
    ] {
        run_until_closed(&folder, line).done("");
    }
}

#[test]
fn a_full_device() {
    let folder = Folder::with_morning("a_full_device");
    let full = || {
        File::options()
            .write(true)
            .open("/dev/full")
            .expect("a device")
    };
    for line in [
        &["list", "morning.loz"][..],
        &["append", "morning.loz", "a:"],
        &["shift", "morning.loz", "--to", "2017", "--motion", "0,0,0"],
        &["--help"],
    ] {
        let ended = folder
            .tool(line)
            .stdout(full())
            .output()
            .expect("the tool runs");
        let expected = "logbook: standard output: No space left on device (os error 28)\n";
        assert_eq!(String::from_utf8_lossy(&ended.stderr), expected);
        assert_eq!(ended.status.code(), Some(2));
    }
    // Where standard error can't be written either, the status is all that is left.
    let mut command = folder.tool(&["erase", "morning.loz", "0"]);
    let ended = command.stdout(full()).stderr(full()).status();
    assert_eq!(ended.expect("the tool runs").code(), Some(1));
}

#[test]
fn endless_files() {
    let folder = Folder::with_morning("endless_files");
    folder
        .run(&["list", "/dev/zero"])
        .is(1, "refused\t1\t0\n", "");
    folder
        .run(&["check", "/dev/zero"])
        .refused("refusal 1: the used length is over the buffer's length or over 16,777,216 bytes");
    folder
        .run(&["append", "/dev/zero", "a:"])
        .wrong("/dev/zero: not a regular file");
    let input = File::open("/dev/zero").expect("a device");
    let mut command = folder.tool(&["append", "morning.loz", "a:", "-"]);
    let ran = Ran::of(command.stdin(input));
    assert!(ran.status == 1 && ran.err.starts_with("logbook: refusal 10: "));
}
