//! What the tests share: a folder of its own for each test, and runs of the tool in it.
#![allow(dead_code)] // no test uses all of it

use std::ffi::OsStr;
use std::fs;
use std::os::unix::fs::MetadataExt;
use std::os::unix::process::CommandExt;
use std::path::{Path, PathBuf};
use std::process::{self, Command, Output, Stdio};

/// A user that may read and write nothing of its own.
pub const NOBODY: u32 = 65_534;

pub const UUID: &str = "5b0c7f1e-93d2-4a68-8e17-c64f20a9d3b5";

/// A folder that is empty at first, and goes with this value.
pub struct Folder(PathBuf);

impl Folder {
    pub fn new(name: &str) -> Folder {
        let name = format!("{name}-{}", process::id());
        let path = Path::new(env!("CARGO_TARGET_TMPDIR")).join(name);
        let _ = fs::remove_dir_all(&path);
        fs::create_dir_all(&path).expect("a folder for the test");
        Folder(path)
    }

    /// A folder with the morning's file in it, `morning.loz`, made by the tool itself.
    pub fn with_morning(name: &str) -> Folder {
        let folder = Folder::new(name);
        for line in [
            &["new", "morning.loz", "--uuid", UUID][..],
            &["append", "morning.loz", "urn:ep:2010", "P7"],
            &["assign", "morning.loz", "2", "urn:ep:2017"],
            &["append", "morning.loz", "urn:ep:2017", "P8"],
        ] {
            assert_eq!(folder.run(line).status, 0);
        }
        folder
    }

    pub fn path(&self, name: impl AsRef<Path>) -> PathBuf {
        self.0.join(name)
    }

    pub fn read(&self, name: impl AsRef<Path>) -> Vec<u8> {
        fs::read(self.path(name)).expect("a file that can be read")
    }

    pub fn write(&self, name: impl AsRef<Path>, bytes: &[u8]) {
        fs::write(self.path(name), bytes).expect("a file that can be written");
    }

    /// The names of all that is in the folder.
    pub fn names(&self) -> Vec<String> {
        let entries = fs::read_dir(&self.0).expect("the test's folder");
        let names = entries.map(|entry| entry.expect("an entry of it").file_name());
        let mut names: Vec<_> = names
            .map(|name| name.to_string_lossy().into_owned())
            .collect();
        names.sort();
        names
    }

    /// The tool, to be run in the folder.
    pub fn tool<S: AsRef<OsStr>>(&self, arguments: &[S]) -> Command {
        let mut command = Command::new(env!("CARGO_BIN_EXE_logbook"));
        command.args(arguments).current_dir(&self.0);
        command.stdin(Stdio::null());
        command
    }

    pub fn run<S: AsRef<OsStr>>(&self, arguments: &[S]) -> Ran {
        Ran::of(&mut self.tool(arguments))
    }

    /// Runs the tool as a user who isn't root.
    pub fn run_as_nobody(&self, arguments: &[&str]) -> Ran {
        let mut command = self.tool(arguments);
        if is_root() {
            command.uid(NOBODY).gid(NOBODY);
        }
        Ran::of(&mut command)
    }
}

impl Drop for Folder {
    fn drop(&mut self) {
        let _ = fs::remove_dir_all(&self.0);
    }
}

pub fn is_root() -> bool {
    fs::metadata("/proc/self").is_ok_and(|process| process.uid() == 0)
}

/// What a run left.
#[derive(PartialEq, Eq, Debug)]
pub struct Ran {
    pub status: i32,
    pub out: String,
    pub err: String,
}

impl Ran {
    pub fn of(command: &mut Command) -> Ran {
        command.stdout(Stdio::piped()).stderr(Stdio::piped());
        Ran::from(command.output().expect("the tool runs"))
    }

    #[track_caller]
    pub fn done(&self, out: &str) {
        self.is(0, out, "");
    }

    /// Refused with nothing on standard output.
    #[track_caller]
    pub fn refused(&self, sentence: &str) {
        self.is(1, "", &format!("logbook: {sentence}\n"));
    }

    #[track_caller]
    pub fn wrong(&self, sentence: &str) {
        self.is(2, "", &format!("logbook: {sentence}\n"));
    }

    #[track_caller]
    pub fn is(&self, status: i32, out: &str, err: &str) {
        let expected = Ran {
            status,
            out: out.into(),
            err: err.into(),
        };
        assert_eq!(*self, expected);
    }
}

impl From<Output> for Ran {
    fn from(output: Output) -> Ran {
        Ran {
            status: output.status.code().unwrap_or(-1),
            out: String::from_utf8_lossy(&output.stdout).into_owned(),
            err: String::from_utf8_lossy(&output.stderr).into_owned(),
        }
    }
}
