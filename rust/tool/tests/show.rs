//! `show`, on sound and on damaged files.

mod common;

use common::Folder;

const MORNING: &str = "\
0: entry 1, urn:lozizol:header
         0  size    6c                                               108
         1  type    6f                                               111
         2  mark    7a 69 7a 6f 6c 20 30 2e 35 20                    |zizol 0.5 |
        12  uuid    35 62 30 63 37 66 31 65 2d 39 33 64 32 2d 34 61  |5b0c7f1e-93d2-4a|
        28          36 38 2d 38 65 31 37 2d 63 36 34 66 32 30 61 39  |68-8e17-c64f20a9|
        44          64 33 62 35                                      |d3b5|
        48  space   20                                               | |
        49  free    00 00 00 00 00 00 00 00 00 00 00 00 00 00 00 00  |................|
        65          00 00 00 00 00 00 00 00 00 00 00 00 00 00 00 00  |................|
        81          00 00 00 00 00 00 00 00 00 00 00 00 00 00 00 00  |................|
        97          00 00 00 00 00 00 00 00 00 00 00 00              |............|
109: entry 2, urn:lozizol:type, assigns urn:ep:2010 to 2
       109  size    0d                                               13
       110  type    01                                               1
       111  number  02                                               2
       112  uri     75 72 6e 3a 65 70 3a 32 30 31 30                 |urn:ep:2010|
123: entry 3, urn:ep:2010, declared by entry 2 at 109
       123  size    03                                               3
       124  type    02                                               2
       125  data    50 37                                            |P7|
127: entry 4, urn:lozizol:type, assigns urn:ep:2017 to 2
       127  size    0d                                               13
       128  type    01                                               1
       129  number  02                                               2
       130  uri     75 72 6e 3a 65 70 3a 32 30 31 37                 |urn:ep:2017|
141: entry 5, urn:ep:2017, declared by entry 4 at 127
       141  size    03                                               3
       142  type    02                                               2
       143  data    50 38                                            |P8|
145: end
";

/// What `show` writes from place 145 on, for these bytes behind the morning's file.
fn shown_behind(folder: &Folder, rest: &[u8]) -> (i32, String, String) {
    let mut bytes = folder.read("morning.loz");
    bytes.extend_from_slice(rest);
    folder.write("behind.loz", &bytes);
    let ran = folder.run(&["show", "behind.loz"]);
    let before = MORNING.trim_end_matches("145: end\n");
    let shown = ran.out.strip_prefix(before).expect("the same at the front");
    (ran.status, shown.to_owned(), ran.err)
}

#[test]
fn the_morning() {
    let folder = Folder::with_morning("the_morning");
    folder.run(&["show", "morning.loz"]).done(MORNING);
}

#[test]
fn padding_deleted_records_and_removals() {
    let folder = Folder::with_morning("padding_deleted_records_and_removals");
    let mut rest = b"\0\x81\x02\x00\x05\xFF".to_vec();
    rest.resize(133, b' ');
    rest.extend_from_slice(b"\0\0\x03\x01\x81\x00\x01\x02");
    let (status, shown, err) = shown_behind(&folder, &rest);
    assert_eq!((status, &*err), (0, ""));
    let row = "20 20 20 20 20 20 20 20 20 20 20 20 20 20 20 20  |                |";
    let rows =
        [164, 180, 196, 212, 228, 244, 260].map(|place| format!("{place:>10}          {row}\n"));
    let expected = format!(
        "\
145: padding, 1 byte
146: deleted record
       146  size    81 02                                            130
       148  body    00 05 ff 20 20 20 20 20 20 20 20 20 20 20 20 20  |...             |
{}       276          20 20                                            |  |
278: padding, 2 bytes
280: entry 6, urn:lozizol:type, removes 128
       280  size    03                                               3
       281  type    01                                               1
       282  number  81 00                                            128
284: entry 7, urn:ep:2017, declared by entry 4 at 127
       284  size    01                                               1
       285  type    02                                               2
286: end
",
        rows.concat()
    );
    assert_eq!(shown, expected);
}

#[test]
fn numbers_of_nine_bytes() {
    let folder = Folder::with_morning("numbers_of_nine_bytes");
    let nine = b"\xff\xff\xff\xff\xff\xff\xff\xff\x7f";
    let rest = [b"\x0c\x01", &nine[..], b"a:\x0b", nine, b"P9"].concat();
    let (status, shown, err) = shown_behind(&folder, &rest);
    assert_eq!((status, &*err), (0, ""));
    let expected = "\
145: entry 6, urn:lozizol:type, assigns a: to 9223372036854775807
       145  size    0c                                               12
       146  type    01                                               1
       147  number  ff ff ff ff ff ff ff ff 7f                       9223372036854775807
       156  uri     61 3a                                            |a:|
158: entry 7, a:, declared by entry 6 at 145
       158  size    0b                                               11
       159  type    ff ff ff ff ff ff ff ff 7f                       9223372036854775807
       168  data    50 39                                            |P9|
170: end
";
    assert_eq!(shown, expected);
}

#[test]
fn refusals_point_at_their_byte() {
    let folder = Folder::with_morning("refusals_point_at_their_byte");
    let shown = shown_behind(&folder, b"\0\x80\x11");
    let expected = "\
145: padding, 1 byte
146: refusal 14
       146          80 11                                            |..|
                    ^^
";
    let sentence = "logbook: refusal 14 at place 146: the byte there is 80 and begins a size or \
                    a type, and none begins with 80\n";
    assert_eq!(shown, (1, expected.into(), sentence.into()));

    let shown = shown_behind(&folder, b"\x02\x81\x82");
    let expected = "\
145: refusal 16 at place 147
       145          02 81 82                                         |...|
                          ^^
";
    let sentence = "logbook: refusal 16 at place 147: the byte there is the last one of its \
                    record, and it says that the record's type goes on\n";
    assert_eq!(shown, (1, expected.into(), sentence.into()));

    let (status, shown, _) = shown_behind(&folder, b"\x14\x63A refused record, longer than a row");
    let expected = "\
145: refusal 6
       145          14 63 41 20 72 65 66 75 73 65 64 20 72 65 63 6f  |.cA refused reco|
                    ^^
";
    assert_eq!((status, &*shown), (1, expected));
}

#[test]
fn a_byte_too_many_is_pointed_at() {
    let folder = Folder::with_morning("a_byte_too_many_is_pointed_at");
    let sentence = |place: usize| {
        format!(
            "logbook: refusal 15 at place {place}: the byte there is the fourth of a size or \
             the ninth of a type, the last one allowed, and it says that another follows\n"
        )
    };
    let shown = shown_behind(&folder, b"\xff\xff\xff\xffbehind");
    let expected = "\
145: refusal 15 at place 148
       145          ff ff ff ff 62 65 68 69 6e 64                    |....behind|
                             ^^
";
    assert_eq!(shown, (1, expected.into(), sentence(148)));
    let shown = shown_behind(&folder, b"\x09\xff\xff\xff\xff\xff\xff\xff\xff\xffbehind");
    let expected = "\
145: refusal 15 at place 154
       145          09 ff ff ff ff ff ff ff ff ff 62 65 68 69 6e 64  |..........behind|
                                               ^^
";
    assert_eq!(shown, (1, expected.into(), sentence(154)));
}

#[test]
fn a_file_without_a_header() {
    let folder = Folder::new("a_file_without_a_header");
    folder.write("empty.loz", b"");
    folder.run(&["show", "empty.loz"]).is(
        1,
        "0: refusal 2\n",
        "logbook: refusal 2 at place 0: the record that starts there isn't whole \
         at the used length\n",
    );
    folder.write("text.loz", "no logbook ".repeat(10).as_bytes());
    let expected = "\
0: refusal 3
         0          6e 6f 20 6c 6f 67 62 6f 6f 6b 20 6e 6f 20 6c 6f  |no logbook no lo|
                    ^^
";
    folder.run(&["show", "text.loz"]).is(
        1,
        expected,
        "logbook: refusal 3 at place 0: the header that starts there hasn't the header's form\n",
    );
}

#[test]
fn every_front_and_every_damaged_byte() {
    let folder = Folder::with_morning("every_front_and_every_damaged_byte");
    let bytes = folder.read("morning.loz");
    for length in (0..bytes.len()).step_by(3) {
        folder.write("damaged.loz", &bytes[..length]);
        let ends_between = matches!(length, 109 | 123 | 127 | 141);
        let ran = folder.run(&["show", "damaged.loz"]);
        assert_eq!(ran.status, i32::from(!ends_between), "{length}");
    }
    for place in (109..bytes.len()).step_by(2) {
        let mut damaged = bytes.clone();
        damaged[place] ^= 0xFF;
        folder.write("damaged.loz", &damaged);
        let ran = folder.run(&["show", "damaged.loz"]);
        let is_pointed_at = ran.out.ends_with("^^\n") && ran.err.starts_with("logbook: refusal ");
        let is_whole = ran.out.ends_with("145: end\n") && ran.err.is_empty();
        assert_eq!(
            (is_whole, is_pointed_at),
            (ran.status == 0, ran.status == 1)
        );
    }
}
