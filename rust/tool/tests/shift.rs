//! `logbook shift`, word for word.

mod common;

use common::{Folder, Ran, UUID};

const NAMES: &str = "place,number,epoch,x,y,z,moved_x,moved_y,moved_z,refusal,uri\n";

/// A shot's data in hexadecimal.
fn shot(x: i64, y: i64, z: i64) -> String {
    [x, y, z].map(|number| format!("{number:016x}")).concat()
}

/// Appends an entry to `shots.loz`.
fn append(folder: &Folder, uri: &str, hex: &str) {
    let ran = folder.run(&["append", "shots.loz", uri, "--hex", hex]);
    assert_eq!(ran.status, 0, "{}", ran.err);
}

/// A folder with `shots.loz` in it: two shots of two epochs.
fn with_shots(name: &str) -> Folder {
    let folder = Folder::new(name);
    let ran = folder.run(&["new", "shots.loz", "--uuid", UUID]);
    assert_eq!(ran.status, 0);
    append(&folder, "urn:ep:2010", &shot(40_000_000_000, -12, 0));
    let ran = folder.run(&["assign", "shots.loz", "2", "urn:ep:2017.50"]);
    assert_eq!(ran.status, 0);
    append(&folder, "urn:ep:2017.50", &shot(-1, 100_000_000_000, 7));
    folder
}

/// Moves the shots of a file by a motion of 700, -700 and 1.
fn shift(folder: &Folder, name: &str, to: &str, more: &[&str]) -> Ran {
    let line = ["shift", name, "--to", to, "--motion", "700,-700,1"];
    folder.run(&[&line, more].concat())
}

#[test]
fn all_are_moved() {
    let folder = with_shots("all_are_moved");
    let before = folder.read("shots.loz");
    // 700 and 720 move a point 504,000; the second goes back by 30.
    shift(&folder, "shots.loz", "2017.20", &[]).done(
        "123\t3\t2010.00\t40000000000\t-12\t0\t4000000504000\t-505200\t720\n\
         166\t5\t2017.50\t-1\t100000000000\t7\t-21100\t10000000021000\t670\n\
         end\t192\n",
    );
    shift(&folder, "shots.loz", "2017.20", &["--csv"]).done(&format!(
        "{NAMES}\
         123,3,2010.00,40000000000,-12,0,4000000504000,-505200,720,,urn:ep:2010\n\
         166,5,2017.50,-1,100000000000,7,-21100,10000000021000,670,,urn:ep:2017.50\n",
    ));
    let given = [
        "shift",
        "--csv",
        "--motion=0,0,-0",
        "--to=2010",
        "shots.loz",
    ];
    folder.run(&given).done(&format!(
        "{NAMES}\
         123,3,2010.00,40000000000,-12,0,4000000000000,-1200,0,,urn:ep:2010\n\
         166,5,2017.50,-1,100000000000,7,-100,10000000000000,700,,urn:ep:2017.50\n",
    ));
    assert_eq!(folder.read("shots.loz"), before);
    assert_eq!(folder.names(), ["shots.loz"]);
}

#[test]
fn epochs_outside_the_usual() {
    let folder = Folder::new("epochs_outside_the_usual");
    folder.run(&["new", "shots.loz", "--uuid", UUID]);
    append(&folder, "urn:ep:0000.01", &shot(0, 0, 0));
    shift(&folder, "shots.loz", "-999.99", &[])
        .done("126\t3\t0000.01\t0\t0\t0\t-70000000\t70000000\t-100000\nend\t152\n");
    shift(&folder, "shots.loz", "01000.01", &[])
        .done("126\t3\t0000.01\t0\t0\t0\t70000000\t-70000000\t100000\nend\t152\n");
    for to in [
        "-1000",
        "1000.02",
        "92233720368547758.07",
        "-92233720368547758.08",
    ] {
        shift(&folder, "shots.loz", to, &[]).is(
            1,
            "126\t3\trefused\t26\turn:ep:0000.01\nend\t152\n",
            "logbook: 0 moved; not moved: 0 by 24, 0 by 25, 1 by 26; 2 headers and assignments\n",
        );
    }
}

/// An entry that names no epoch is none that a shift has missed.
#[test]
fn others_than_shots() {
    let folder = with_shots("others_than_shots");
    append(&folder, "urn:note:a,\"b\"", &shot(1, 2, 3));
    append(&folder, "urn:ep:2010.5", "");
    let erased = folder.run(&["erase", "shots.loz", "166"]);
    assert_eq!(erased.status, 0);
    let counts =
        "logbook: 1 moved; not moved: 2 by 24, 0 by 25, 0 by 26; 5 headers and assignments\n";
    shift(&folder, "shots.loz", "2010", &[]).is(
        0,
        "123\t3\t2010.00\t40000000000\t-12\t0\t4000000000000\t-1200\t0\n\
         209\t6\trefused\t24\turn:note:a,\"b\"\n\
         251\t8\trefused\t24\turn:ep:2010.5\n\
         end\t253\n",
        counts,
    );
    let lines = "123,3,2010.00,40000000000,-12,0,4000000000000,-1200,0,,urn:ep:2010\n\
                 209,6,,,,,,,,24,\"urn:note:a,\"\"b\"\"\"\n\
                 251,8,,,,,,,,24,urn:ep:2010.5\n";
    shift(&folder, "shots.loz", "2010", &["--csv"]).is(0, &format!("{NAMES}{lines}"), counts);
}

#[test]
fn shots_that_are_not_moved() {
    let folder = with_shots("shots_that_are_not_moved");
    append(&folder, "urn:ep:2017.50", "00");
    append(&folder, "urn:ep:2017.50", &shot(0, 0, -100_000_000_001));
    let moved = "123\t3\t2010.00\t40000000000\t-12\t0\t4000000504000\t-505200\t720\n\
                 166\t5\t2017.50\t-1\t100000000000\t7\t-21100\t10000000021000\t670\n";
    let counts =
        "logbook: 2 moved; not moved: 0 by 24, 1 by 25, 1 by 26; 3 headers and assignments\n";
    let refused = "192\t6\trefused\t25\turn:ep:2017.50\n195\t7\trefused\t26\turn:ep:2017.50\n";
    let ran = shift(&folder, "shots.loz", "2017.20", &[]);
    ran.is(1, &format!("{moved}{refused}end\t221\n"), counts);
    let ran = shift(&folder, "shots.loz", "2017.20", &["--csv"]);
    let refused = "192,6,,,,,,,,25,urn:ep:2017.50\n195,7,,,,,,,,26,urn:ep:2017.50\n";
    assert_eq!((ran.status, &*ran.err), (1, counts));
    assert!(ran.out.ends_with(refused));
}

#[test]
fn a_logbook_that_is_refused() {
    let folder = with_shots("a_logbook_that_is_refused");
    let bytes = folder.read("shots.loz");
    folder.write("torn.loz", &bytes[..191]);
    let moved = "123\t3\t2010.00\t40000000000\t-12\t0\t4000000504000\t-505200\t720\n";
    let reason = "the record that starts there isn't whole at the used length";
    let ran = shift(&folder, "torn.loz", "2017.20", &[]);
    ran.is(1, &format!("{moved}refused\t2\t166\n"), "");
    let ran = shift(&folder, "torn.loz", "2017.20", &["--csv"]);
    let moved = "123,3,2010.00,40000000000,-12,0,4000000504000,-505200,720,,urn:ep:2010\n";
    let said = format!("logbook: refusal 2 at place 166: {reason}\n");
    ran.is(1, &format!("{NAMES}{moved}"), &said);

    folder.write("empty.loz", b"");
    let ran = shift(&folder, "empty.loz", "2017.20", &[]);
    ran.is(1, "refused\t2\t0\n", "");
    let ran = shift(&folder, "empty.loz", "2017.20", &["--csv"]);
    ran.is(
        1,
        NAMES,
        &format!("logbook: refusal 2 at place 0: {reason}\n"),
    );
}

/// As `check` and unlike `list`, it takes a file of up to 16,777,216 bytes.
#[test]
fn a_long_logbook() {
    let folder = with_shots("a_long_logbook");
    let mut long = folder.read("shots.loz");
    long.resize(65_537, 0);
    folder.write("long.loz", &long);
    let ran = shift(&folder, "long.loz", "2017.20", &[]);
    assert!(ran.status == 0 && ran.out.ends_with("\nend\t65537\n"));
    long.resize(16_777_217, 0);
    folder.write("long.loz", &long);
    shift(&folder, "long.loz", "2017.20", &[]).is(1, "refused\t1\t0\n", "");
}

/// Where the logbook is refused behind an entry that isn't moved, both are said.
#[test]
fn counts_and_a_refusal() {
    let folder = Folder::with_morning("counts_and_a_refusal");
    let bytes = folder.read("morning.loz");
    folder.write("torn.loz", &bytes[..144]);
    let counts =
        "logbook: 0 moved; not moved: 0 by 24, 1 by 25, 0 by 26; 3 headers and assignments\n";
    let line = "123\t3\trefused\t25\turn:ep:2010\nrefused\t2\t141\n";
    shift(&folder, "torn.loz", "2017", &[]).is(1, line, counts);
    let ran = shift(&folder, "torn.loz", "2017", &["--csv"]);
    assert_eq!(ran.out, format!("{NAMES}123,3,,,,,,,,25,urn:ep:2010\n"));
    assert!(ran.err.starts_with(counts));
    assert!(ran.err[counts.len()..].starts_with("logbook: refusal 2 at place 141: "));
}

/// The shots of the demonstration, with a space for each TAB.
const DEMONSTRATION: [&str; 8] = [
    "123 3 2010.00 39805742470 -1020812345 49668245220 3980574118000 -102081064500 4966824621000",
    "149 4 2010.00 39805511906 -1020397718 49668431857 3980551061600 -102039601800 4966843284700",
    "193 6 refused 24 urn:photo:stone",
    "232 7 refused 25 urn:ep:2010",
    "243 8 2010.00 39806018264 -1020655031 49668027409 3980601697400 -102065333100 4966802839900",
    "286 10 2017.50 39805741503 -1020811071 49668245963 3980574118050 -102081064600 4966824621050",
    "312 11 2017.50 39805510938 -1020396446 49668432600 3980551061550 -102039602100 4966843284750",
    "end 338",
];

/// By the motion of the quarry, the shots of a stone before and after lunch are nearly one point.
#[test]
fn the_demonstration() {
    let folder = Folder::new("the_demonstration");
    let file = concat!(env!("CARGO_MANIFEST_DIR"), "/../../demo/shots.loz");
    let line = ["shift", file, "--to", "2020", "--motion", "-129,170,99"];
    let counts =
        "logbook: 5 moved; not moved: 1 by 24, 1 by 25, 0 by 26; 4 headers and assignments\n";
    let text = DEMONSTRATION
        .map(|line| line.replace(' ', "\t") + "\n")
        .concat();
    folder.run(&line).is(1, &text, counts);
}

/// A line that is wrong usage, and why.
#[track_caller]
fn is_wrong(folder: &Folder, rest: &[&str], advice: &str) {
    let usage = "usage: logbook shift FILE --to EPOCH --motion X,Y,Z [--csv]";
    let line = [&["shift", "shots.loz"], rest].concat();
    folder.run(&line).wrong(&format!("{advice}; {usage}"));
}

#[test]
fn options_that_are_missing_or_too_many() {
    let folder = with_shots("options_that_are_missing_or_too_many");
    let both = "--to and --motion are both needed";
    for (rest, advice) in [
        ("", both),
        ("--to 2017", both),
        ("--motion 0,0,0 --csv", both),
        ("--to 2017 --motion", "--motion takes a value"),
        ("--to 2017 --to 2017", "--to is given twice"),
        ("--csv=yes", "--csv takes no value"),
        ("--csv=", "--csv takes no value"),
        ("--csv --csv", "--csv is given twice"),
        ("--tsv", "--tsv isn't an option here"),
        ("--csv yes", "there is an argument too many"),
    ] {
        is_wrong(
            &folder,
            &rest.split_whitespace().collect::<Vec<_>>(),
            advice,
        );
    }
}

#[test]
fn epochs_and_motions_that_are_not() {
    let folder = with_shots("epochs_and_motions_that_are_not");
    let advice = "--to takes a whole number of years, or one, a point and two digits";
    for to in [
        "",
        "x",
        "2017.5",
        "2017.500",
        "2017,50",
        "+2017",
        ".50",
        "92233720368547758.08",
    ] {
        is_wrong(&folder, &["--to", to, "--motion", "0,0,0"], advice);
    }
    let advice = "--motion takes three whole numbers of 64 bits with commas between";
    for motion in [
        "",
        "700",
        "1,2",
        "1,2,3,4",
        "1,2,",
        "1,,3",
        "1, 2,3",
        "1,2,3.0",
        "1,+2,3",
        "1,2,9223372036854775808",
        "-9223372036854775809,2,3",
    ] {
        is_wrong(&folder, &["--to", "2017", "--motion", motion], advice);
    }
    // The ends of the type are numbers, over their bound.
    let motion = "0,9223372036854775807,-9223372036854775808";
    let ran = folder.run(&["shift", "shots.loz", "--to", "2017", "--motion", motion]);
    assert_eq!(ran.status, 1);
    assert!(ran.out.starts_with("123\t3\trefused\t26\turn:ep:2010\n"));
}
