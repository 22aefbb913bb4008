//! Calls of the system that fail: the file stays whole and nothing is left beside it.

mod common;

use common::{Folder, Ran, UUID};
use std::path::Path;
use std::process::Command;

const EPERM: i32 = 1;
const EIO: i32 = 5;
const ENOSPC: i32 = 28;

/// Builds what makes calls fail, in a folder beside the test's own.
fn failing_calls(folder: &Folder) -> String {
    let source = Path::new(env!("CARGO_MANIFEST_DIR")).join("tests/failing/calls.c");
    let library = folder.path("calls.so");
    let mut compiler = Command::new("cc");
    compiler.args(["-shared", "-fPIC", "-O1", "-o"]);
    let built = compiler.arg(&library).arg(source).status();
    assert!(built.expect("a C compiler").success());
    library.to_string_lossy().into_owned()
}

/// Runs the tool with a call that fails once `after` of its kind have succeeded.
fn run(folder: &Folder, calls: &str, failing: (&str, i32, u32), line: &[&str]) -> Ran {
    let (call, errno, after) = failing;
    let mut command = folder.tool(line);
    command.env("LD_PRELOAD", calls).env("FAILING", call);
    command.env("FAILING_ERRNO", errno.to_string());
    command.env("FAILING_AFTER", after.to_string());
    Ran::of(&mut command)
}

#[test]
fn a_failed_change_leaves_the_old_file_alone() {
    let built = Folder::new("a_failed_change_built");
    let calls = failing_calls(&built);
    let folder = Folder::with_morning("a_failed_change_leaves_the_old_file_alone");
    let before = folder.read("morning.loz");
    let append = ["append", "morning.loz", "urn:ep:2017", "P9"];
    for (call, errno, error) in [
        ("flock", ENOSPC, "No space left on device (os error 28)"),
        ("write", ENOSPC, "No space left on device (os error 28)"),
        ("fchmod", EPERM, "Operation not permitted (os error 1)"),
        ("fsync", EIO, "Input/output error (os error 5)"),
        ("rename", EIO, "Input/output error (os error 5)"),
    ] {
        run(&folder, &calls, (call, errno, 0), &append).wrong(&format!("morning.loz: {error}"));
        assert_eq!(folder.read("morning.loz"), before, "{call}");
        assert_eq!(folder.names(), ["morning.loz"], "{call}");
    }
    // The folder's own fsync comes when the new file has its name.
    run(&folder, &calls, ("fsync", EIO, 1), &append)
        .wrong("morning.loz: Input/output error (os error 5)");
    assert_eq!(folder.read("morning.loz").len(), before.len() + 4);
    assert_eq!(folder.names(), ["morning.loz"]);
}

#[test]
fn a_failed_start_leaves_nothing() {
    let built = Folder::new("a_failed_start_built");
    let calls = failing_calls(&built);
    let folder = Folder::new("a_failed_start_leaves_nothing");
    for call in ["write", "fsync", "linkat"] {
        let ran = run(&folder, &calls, (call, EIO, 0), &["new", "a.loz"]);
        ran.wrong("a.loz: Input/output error (os error 5)");
        assert_eq!(folder.names(), [""; 0], "{call}");
    }
}

#[test]
fn a_file_system_without_links() {
    let built = Folder::new("a_file_system_without_links_built");
    let calls = failing_calls(&built);
    let folder = Folder::new("a_file_system_without_links");
    let line = ["new", "a.loz", "--uuid", UUID];
    run(&folder, &calls, ("linkat", EPERM, 0), &line).done(&format!("started\t{UUID}\t109\n"));
    assert_eq!(folder.run(&["check", "a.loz"]).status, 0);
    run(&folder, &calls, ("linkat", EPERM, 0), &line).wrong("a.loz: it is there already");
    assert_eq!(folder.names(), ["a.loz"]);
}
