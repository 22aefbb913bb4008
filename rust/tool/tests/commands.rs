//! Each command, word for word.

mod common;

use common::{Folder, Ran, UUID};
use std::io::Write;
use std::process::Stdio;

const REFUSAL_10: &str = "refusal 10: the request asks for data over 65,535 bytes, a URI that \
                          isn't allowed, a number that is 0 or over \
                          9,223,372,036,854,775,807, or a UUID or free part of another length";

#[test]
fn new() {
    let folder = Folder::new("new");
    let given = ["new", "a.loz", "--uuid", UUID, "--free", "class rover"];
    let ran = folder.run(&given);
    ran.done(&format!("started\t{UUID}\t109\n"));
    let mut expected = format!("lozizol 0.5 {UUID} class rover").into_bytes();
    expected.resize(109, 0);
    assert_eq!(folder.read("a.loz"), expected);
    folder
        .run(&["new", "a.loz"])
        .wrong("a.loz: it is there already");
    assert_eq!(folder.read("a.loz"), expected);
    assert_eq!(folder.names(), ["a.loz"]);
}

#[test]
fn new_with_a_random_uuid() {
    let folder = Folder::new("new_with_a_random_uuid");
    let uuids = ["a.loz", "b.loz"].map(|name| {
        let ran = folder.run(&["new", name]);
        let fields: Vec<_> = ran.out.trim_end().split('\t').collect();
        assert_eq!(
            (ran.status, fields[0], fields[2], &*ran.err),
            (0, "started", "109", "")
        );
        let text = fields[1].to_owned();
        assert_eq!(&folder.read(name)[12..48], text.as_bytes());
        assert_eq!(&text[14..15], "4");
        assert!("89ab".contains(&text[19..20]));
        text
    });
    assert_ne!(uuids[0], uuids[1]);
}

#[test]
fn new_with_bad_options() {
    let folder = Folder::new("new_with_bad_options");
    let usage = "usage: logbook new FILE [--uuid UUID] [--free TEXT]";
    for uuid in ["", "5b0c7f1e", &UUID[1..], &UUID.replace('5', "g")] {
        folder
            .run(&["new", "a.loz", "--uuid", uuid])
            .wrong(&format!(
                "--uuid takes 8-4-4-4-12 hexadecimal digits; {usage}"
            ));
    }
    let long = "x".repeat(61);
    folder
        .run(&["new", "a.loz", "--free", &long])
        .wrong(&format!("--free takes at most 60 bytes; {usage}"));
    assert_eq!(folder.names(), [""; 0]);
    let free = format!("--free={}", &long[..60]);
    let uuid = UUID.to_uppercase();
    folder
        .run(&["new", "a.loz", &free, "--uuid", &uuid])
        .done(&format!("started\t{UUID}\t109\n"));
    assert!(folder.read("a.loz").ends_with(&long.as_bytes()[..60]));
}

#[test]
fn list() {
    let folder = Folder::with_morning("list");
    folder.run(&["list", "morning.loz"]).done(
        "0\t1\turn:lozizol:header\t107\n\
         109\t2\turn:lozizol:type\t12\n\
         123\t3\turn:ep:2010\t2\n\
         127\t4\turn:lozizol:type\t12\n\
         141\t5\turn:ep:2017\t2\n\
         end\t145\n",
    );
    let bytes = folder.read("morning.loz");
    folder.write("torn.loz", &bytes[..126]);
    folder.run(&["list", "torn.loz"]).is(
        1,
        "0\t1\turn:lozizol:header\t107\n109\t2\turn:lozizol:type\t12\nrefused\t2\t123\n",
        "",
    );
    let mut long = bytes;
    long.resize(65_536, 0);
    folder.write("long.loz", &long);
    let ran = folder.run(&["list", "long.loz"]);
    assert!(ran.status == 0 && ran.out.ends_with("end\t65536\n"));
    long.push(0);
    folder.write("long.loz", &long);
    let ran = folder.run(&["list", "long.loz"]);
    ran.is(1, "refused\t1\t0\n", "");
}

/// Two columns more: the assignment that declared the number, 0 and 0 where a header implies it.
#[test]
fn list_declared() {
    let folder = Folder::with_morning("list_declared");
    folder.run(&["list", "--declared", "morning.loz"]).done(
        "0\t1\turn:lozizol:header\t107\t0\t0\n\
         109\t2\turn:lozizol:type\t12\t0\t0\n\
         123\t3\turn:ep:2010\t2\t109\t2\n\
         127\t4\turn:lozizol:type\t12\t0\t0\n\
         141\t5\turn:ep:2017\t2\t127\t4\n\
         end\t145\n",
    );
    folder
        .run(&["erase", "morning.loz", "123"])
        .done("erased\t124\n");
    let ran = folder.run(&["list", "morning.loz", "--declared"]);
    assert!(ran
        .out
        .ends_with("141\t4\turn:ep:2017\t2\t127\t3\nend\t145\n"));
    let mut bytes = folder.read("morning.loz");
    folder.write("torn.loz", &bytes[..142]);
    let ran = folder.run(&["list", "torn.loz", "--declared"]);
    assert!(ran.status == 1 && ran.err.is_empty());
    assert!(ran
        .out
        .ends_with("127\t3\turn:lozizol:type\t12\t0\t0\nrefused\t2\t141\n"));
    folder
        .run(&["list", "torn.loz", "--declared=yes"])
        .wrong("--declared takes no value; usage: logbook list FILE [--declared]");
    bytes.resize(65_537, 0);
    folder.write("long.loz", &bytes);
    let ran = folder.run(&["list", "long.loz", "--declared"]);
    ran.is(1, "refused\t1\t0\n", "");
}

#[test]
fn append() {
    let folder = Folder::with_morning("append");
    let append = |rest: &[&str]| {
        let mut arguments = vec!["append", "morning.loz"];
        arguments.extend(rest);
        folder.run(&arguments)
    };
    append(&["urn:ep:2017"]).done("appended\t145\t147\n");
    append(&["urn:ep:2017", ""]).done("appended\t147\t149\n");
    append(&["urn:ep:2017", "--hex", "00fF2d"]).done("appended\t149\t154\n");
    append(&["urn:ep:2017", "--", "--hex"]).done("appended\t154\t161\n");
    append(&["a:", "P9"]).done("appended\t166\t170\n");
    let bytes = folder.read("morning.loz");
    assert_eq!(
        &bytes[145..],
        b"\x01\x02\x01\x02\x04\x02\x00\xFF\x2D\x06\x02--hex\x04\x01\x03a:\x03\x03P9"
    );
    append(&["no URI", "P9"]).refused(REFUSAL_10);
    append(&["urn:lozizol:type"]).refused(REFUSAL_10);
    assert_eq!(folder.read("morning.loz"), bytes);
    let usage = "usage: logbook append FILE URI [DATA | --hex HEX | -]";
    for hex in ["0", "0g", "00 11", "é"] {
        append(&["a:", "--hex", hex]).wrong(&format!(
            "--hex takes two hexadecimal digits a byte; {usage}"
        ));
    }
    append(&["a:", "P9", "--hex", "00"]).wrong(&format!("the data is given twice; {usage}"));
}

/// Appends what is written to standard input.
fn append_input(folder: &Folder, data: &[u8]) -> Ran {
    let mut command = folder.tool(&["append", "morning.loz", "urn:ep:2017", "-"]);
    command.stdin(Stdio::piped());
    command.stdout(Stdio::piped()).stderr(Stdio::piped());
    let mut child = command.spawn().expect("the tool runs");
    let mut input = child.stdin.take().expect("its standard input");
    // It stops reading where the data is too long.
    let _ = input.write_all(data);
    drop(input);
    Ran::from(child.wait_with_output().expect("the tool ends"))
}

#[test]
fn append_from_standard_input() {
    let folder = Folder::with_morning("append_from_standard_input");
    append_input(&folder, b"\x00\xFFP9\n").done("appended\t145\t152\n");
    assert_eq!(&folder.read("morning.loz")[145..], b"\x06\x02\x00\xFFP9\n");
    append_input(&folder, b"").done("appended\t152\t154\n");
    append_input(&folder, &[7; 65_535]).done("appended\t154\t65693\n");
    append_input(&folder, &[7; 65_536]).refused(REFUSAL_10);
    append_input(&folder, &[7; 1_000_000]).refused(REFUSAL_10);
}

#[test]
fn assign_and_remove() {
    let folder = Folder::with_morning("assign_and_remove");
    let number = "9223372036854775807";
    folder
        .run(&["assign", "morning.loz", number, "a:"])
        .done("assigned\t145\t158\n");
    folder
        .run(&["append", "morning.loz", "a:"])
        .done("appended\t158\t168\n");
    folder
        .run(&["remove", "morning.loz", number])
        .done("removed\t168\t179\n");
    folder
        .run(&["assign", "morning.loz", "4294967298", "a:"])
        .done("assigned\t179\t188\n");
    folder
        .run(&["assign", "morning.loz", "1", ""])
        .done("assigned\t188\t191\n");
    folder
        .run(&["append", "morning.loz", "b:"])
        .refused("refusal 11: an assignment is needed, and no type number holds urn:lozizol:type");
    assert_eq!(
        &folder.read("morning.loz")[145..],
        b"\x0C\x01\xFF\xFF\xFF\xFF\xFF\xFF\xFF\xFF\x7Fa:\
          \x09\xFF\xFF\xFF\xFF\xFF\xFF\xFF\xFF\x7F\
          \x0A\x01\xFF\xFF\xFF\xFF\xFF\xFF\xFF\xFF\x7F\
          \x08\x01\x90\x80\x80\x80\x02a:\x02\x01\x01"
    );
}

#[test]
fn numbers_out_of_bounds() {
    let folder = Folder::with_morning("numbers_out_of_bounds");
    let before = folder.read("morning.loz");
    for number in [
        "0",
        "9223372036854775808",
        "18446744073709551615",
        // Cut to 64 bits, these two would be 0 and 2.
        "18446744073709551616",
        "018446744073709551618",
    ] {
        folder
            .run(&["assign", "morning.loz", number, "a:"])
            .refused(REFUSAL_10);
        folder
            .run(&["remove", "morning.loz", number])
            .refused(REFUSAL_10);
    }
    assert_eq!(folder.read("morning.loz"), before);
}

#[test]
fn erase_and_wipe() {
    let folder = Folder::with_morning("erase_and_wipe");
    let nothing = "no live entry starts there that could be erased, \
                   or no deleted record that could be wiped";
    let fixed = "a header or an assignment starts there, and neither is ever erased";
    let run = |line: &str| folder.run(&line.split(' ').collect::<Vec<_>>());
    run("wipe morning.loz 123").refused(&format!("refusal 8 at place 123: {nothing}"));
    run("erase morning.loz 123").done("erased\t124\n");
    run("erase morning.loz 123").refused(&format!("refusal 8 at place 123: {nothing}"));
    run("erase morning.loz 109").refused(&format!("refusal 9 at place 109: {fixed}"));
    run("erase morning.loz 0").refused(&format!("refusal 9 at place 0: {fixed}"));
    let place = usize::MAX;
    run(&format!("erase morning.loz {place}"))
        .refused(&format!("refusal 8 at place {place}: {nothing}"));
    run("wipe morning.loz 123 --limit 0").done("wiped\t0\n");
    run("wipe morning.loz 123 --limit 1").done("wiped\t1\n");
    assert_eq!(&folder.read("morning.loz")[123..127], b"\x03\x00\x007");
    run("wipe morning.loz 123 --limit 99999999999999999999").done("wiped\t2\n");
    assert_eq!(&folder.read("morning.loz")[123..127], b"\0\0\0\0");
    let ran = run("list morning.loz");
    assert!(ran.out.ends_with("\n141\t4\turn:ep:2017\t2\nend\t145\n"));
}

#[test]
fn check() {
    let folder = Folder::with_morning("check");
    let check = |name| folder.run(&["check", name]);
    check("morning.loz").done("entries\t5\npadding\t0\ndeleted\t0\nend\t145\n");
    folder.run(&["erase", "morning.loz", "141"]);
    check("morning.loz").done("entries\t4\npadding\t0\ndeleted\t1\nend\t145\n");
    folder.run(&["wipe", "morning.loz", "141"]);
    check("morning.loz").done("entries\t4\npadding\t4\ndeleted\t0\nend\t145\n");
    folder.write("empty.loz", b"");
    check("empty.loz").refused(
        "refusal 2 at place 0: the record that starts there isn't whole at the used length",
    );
}

#[test]
fn the_longest_file_and_one_byte_more() {
    let folder = Folder::with_morning("the_longest_file_and_one_byte_more");
    // One deleted record fills it up: 145 bytes are there, and its size has 4.
    let mut long = folder.read("morning.loz");
    let size: usize = 16_777_216 - 145 - 4;
    long.extend([21, 14, 7].map(|shift| (size >> shift) as u8 & 0x7F | 0x80));
    long.push(size as u8 & 0x7F);
    long.resize(16_777_216, 0);
    folder.write("long.loz", &long);
    folder
        .run(&["check", "long.loz"])
        .done("entries\t5\npadding\t0\ndeleted\t1\nend\t16777216\n");
    folder.run(&["append", "long.loz", "urn:ep:2017"]).refused(
        "refusal 12 at place 16777216: the records don't fit there: the buffer ends, \
         or the limit of 16,777,216 bytes is reached",
    );
    long.push(0);
    folder.write("long.loz", &long);
    let refusal = "refusal 1: the used length is over the buffer's length or over 16,777,216 bytes";
    for line in [
        &["check", "long.loz"][..],
        &["show", "long.loz"],
        &["append", "long.loz", "a:"],
        &["erase", "long.loz", "123"],
    ] {
        folder.run(line).refused(refusal);
    }
    assert_eq!(folder.read("long.loz"), long);
}
