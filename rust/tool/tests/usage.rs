//! Help, versions, and arguments that aren't a command's.

mod common;

use common::{Folder, Ran};
use std::ffi::OsStr;
use std::os::unix::ffi::OsStrExt;

const COMMANDS: [&str; 10] = [
    "new", "list", "append", "assign", "remove", "erase", "wipe", "check", "show", "shift",
];

/// Runs a line of words in a folder.
fn run(folder: &Folder, line: &str) -> Ran {
    folder.run(&line.split_whitespace().collect::<Vec<_>>())
}

#[test]
fn help_and_version() {
    let folder = Folder::new("help_and_version");
    let help = run(&folder, "--help");
    assert_eq!((help.status, &*help.err), (0, ""));
    assert_eq!(run(&folder, "-h"), help);
    for command in COMMANDS {
        assert!(help.out.contains(&format!("\n  logbook {command} FILE")));
        let own = run(&folder, &format!("{command} --help"));
        assert_eq!((own.status, &*own.err), (0, ""));
        assert!(own
            .out
            .starts_with(&format!("usage: logbook {command} FILE")));
        assert!(own.out.contains("Exit status: 0 done; 1 refused"));
        assert_eq!(run(&folder, &format!("{command} -h")), own);
        assert_eq!(run(&folder, &format!("{command} a b c d e -h")), own);
    }
    run(&folder, "--version").done("logbook 0.1.0\n");
    assert_eq!(folder.names(), [""; 0]);
}

#[test]
fn no_command() {
    let folder = Folder::new("no_command");
    run(&folder, "").wrong("no command is given; try `logbook --help`");
    for name in ["lists", "LIST", "--list", "-x", "-", "é"] {
        run(&folder, name).wrong(&format!("{name} isn't a command; try `logbook --help`"));
    }
    let name = OsStr::from_bytes(b"li\xFFst");
    folder
        .run(&[name])
        .wrong("li\u{FFFD}st isn't a command; try `logbook --help`");
}

#[test]
fn too_few_and_too_many() {
    let folder = Folder::new("too_few_and_too_many");
    for command in COMMANDS {
        let few = run(&folder, command);
        assert_eq!((few.status, &*few.out), (2, ""));
        let advice = format!("logbook: an argument is missing; usage: logbook {command} FILE");
        assert!(few.err.starts_with(&advice), "{}", few.err);
        let many = run(&folder, &format!("{command} a b c d"));
        assert_eq!((many.status, &*many.out), (2, ""));
        let advice = "logbook: there is an argument too many; usage: logbook";
        assert!(many.err.starts_with(advice), "{}", many.err);
    }
    assert_eq!(folder.names(), [""; 0]);
}

#[test]
fn options_that_are_not() {
    let folder = Folder::with_morning("options_that_are_not");
    let usage = "usage: logbook wipe FILE PLACE [--limit N]";
    for (rest, advice) in [
        ("--what", "--what isn't an option here"),
        ("-l 3", "-l isn't an option here"),
        ("--hex 00", "--hex isn't an option here"),
        ("--lim=3", "--lim=3 isn't an option here"),
        ("--limit", "--limit takes a value"),
        ("--limit 1 --limit=2", "--limit is given twice"),
        ("--limit=", "--limit takes a decimal number"),
        ("--limit=-1", "--limit takes a decimal number"),
        ("--limit 1e3", "--limit takes a decimal number"),
    ] {
        run(&folder, &format!("wipe morning.loz 123 {rest}")).wrong(&format!("{advice}; {usage}"));
    }
    let name = OsStr::from_bytes(b"--\xFF");
    let ran = folder.run(&[OsStr::new("check"), name]);
    ran.wrong("--\u{FFFD} isn't an option here; usage: logbook check FILE");
}

#[test]
fn numbers_that_are_not() {
    let folder = Folder::with_morning("numbers_that_are_not");
    let before = folder.read("morning.loz");
    for given in ["", "x", "+1", "0x10", "1 ", "1.0", "١"] {
        folder
            .run(&["erase", "morning.loz", given])
            .wrong("PLACE takes a decimal number; usage: logbook erase FILE PLACE");
        folder
            .run(&["remove", "morning.loz", given])
            .wrong("NUMBER takes a decimal number; usage: logbook remove FILE NUMBER");
    }
    folder
        .run(&["erase", "morning.loz", "--", "-1"])
        .wrong("PLACE takes a decimal number; usage: logbook erase FILE PLACE");
    folder
        .run(&["erase", "morning.loz", "18446744073709551616"])
        .wrong("PLACE is at most 18446744073709551615; usage: logbook erase FILE PLACE");
    assert_eq!(folder.read("morning.loz"), before);
    folder
        .run(&["erase", "morning.loz", "000123"])
        .done("erased\t124\n");
}

#[test]
fn bytes_that_are_no_text() {
    let folder = Folder::with_morning("bytes_that_are_no_text");
    let append = |uri: &[u8], data: &[u8]| {
        let words: [&[u8]; 4] = [b"append", b"morning.loz", uri, data];
        folder.run(&words.map(OsStr::from_bytes))
    };
    let refused = append(b"urn:\xFF\xFE", b"P9");
    assert_eq!((refused.status, &*refused.out), (1, ""));
    assert!(refused.err.starts_with("logbook: refusal 10: "));
    let long = "a:".to_owned() + &"b".repeat(100_000);
    assert_eq!(append(long.as_bytes(), b"P9").status, 1);
    assert_eq!(append(b"urn:ep:2017", &[b'x'; 65_536]).status, 1);
    append(b"urn:ep:2017", b"\xFF\xC0\x80").done("appended\t145\t150\n");
    assert_eq!(
        &folder.read("morning.loz")[145..],
        b"\x04\x02\xFF\xC0\x80".as_slice()
    );
}
