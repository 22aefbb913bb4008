//! The commands.

use crate::arguments::{self, hexadecimal, Arguments, Known};
use crate::trouble::Trouble;
use crate::{declared, file, help, shift, show, uuid};
use logbook::{raw, Logbook, Place, Refusal};
use std::borrow::Cow;
use std::ffi::OsString;
use std::io::{self, Write};
use std::ops::RangeInclusive;
use std::path::Path;

type Done = Result<(), Trouble>;

/// A command of the tool.
pub struct Command {
    name: &'static str,
    /// Its name and arguments.
    pub usage: &'static str,
    /// What it does, in a line.
    pub summary: &'static str,
    /// What else is to be known.
    pub details: &'static str,
    /// Whether it changes a file that is there.
    pub is_change: bool,
    /// Its options that take a value.
    options: &'static [&'static str],
    /// Its options that take none.
    switches: &'static [&'static str],
    /// How many arguments it takes, options aside.
    count: RangeInclusive<usize>,
    run: fn(&Arguments, &mut dyn Write) -> Done,
}

pub const COMMANDS: &[Command] = &[
    Command {
        name: "new",
        usage: "new FILE [--uuid UUID] [--free TEXT]",
        summary: "starts a logbook in a new file",
        details: "\
The header gets the UUID, or else a random one, and as its free part TEXT, at most 60 bytes, filled
up with zero bytes. A FILE that is there already is left alone.
Writes `started`, the UUID and the used length, with a TAB between.
",
        is_change: false,
        options: &["--uuid", "--free"],
        switches: &[],
        count: 1..=1,
        run: new,
    },
    Command {
        name: "list",
        usage: "list FILE [--declared]",
        summary: "lists the live entries of a logbook of at most 65,536 bytes",
        details: "\
Writes place, number, URI and data length of each, with a TAB between, then `end` and the used
length, or `refused`, number and place. A longer file gets `refused`, 1 and 0.
With --declared each entry's line goes on with place and number of the assignment that gave its type
number this URI, or 0 and 0 where a header implies it.
",
        is_change: false,
        options: &[],
        switches: &["--declared"],
        count: 1..=1,
        run: list,
    },
    Command {
        name: "append",
        usage: "append FILE URI [DATA | --hex HEX | -]",
        summary: "appends an entry by its URI",
        details: "\
The data is DATA as it is, the bytes that HEX gives by two digits each, standard input with `-`, or
else none; at most 65,535 bytes. Put `--` before a DATA that begins with a dash (and give a single
dash as --hex 2d). Where no type number holds URI, an assignment goes first.
Writes `appended`, the entry's place and the used length, with a TAB between.
",
        is_change: true,
        options: &["--hex"],
        switches: &[],
        count: 2..=3,
        run: append,
    },
    Command {
        name: "assign",
        usage: "assign FILE NUMBER URI",
        summary: "assigns a type number for the records behind",
        details: "\
NUMBER is 1 to 9,223,372,036,854,775,807. An empty URI removes it.
Writes `assigned`, the assignment's place and the used length, with a TAB between.
",
        is_change: true,
        options: &[],
        switches: &[],
        count: 3..=3,
        run: assign,
    },
    Command {
        name: "remove",
        usage: "remove FILE NUMBER",
        summary: "removes a type number for the records behind",
        details: "\
NUMBER is 1 to 9,223,372,036,854,775,807. It needn't be held.
Writes `removed`, the removal's place and the used length, with a TAB between.
",
        is_change: true,
        options: &[],
        switches: &[],
        count: 2..=2,
        run: remove,
    },
    Command {
        name: "erase",
        usage: "erase FILE PLACE",
        summary: "erases the live entry that starts at a place",
        details: "\
PLACE counts bytes, as the first column of `list` does. A header or an assignment is never erased.
Writes `erased` and the place of the byte that was set to 00, with a TAB between.
",
        is_change: true,
        options: &[],
        switches: &[],
        count: 2..=2,
        run: erase,
    },
    Command {
        name: "wipe",
        usage: "wipe FILE PLACE [--limit N]",
        summary: "sets a deleted record's bytes to 00",
        details: "\
At most N of them, or else all. The storage medium itself isn't scrubbed.
Writes `wiped` and how many bytes were changed, with a TAB between.
",
        is_change: true,
        options: &["--limit"],
        switches: &[],
        count: 2..=2,
        run: wipe,
    },
    Command {
        name: "check",
        usage: "check FILE",
        summary: "reads a logbook to its end and counts",
        details: "\
Writes `entries` and how many live ones there are, `padding` and its bytes, `deleted` and how many
such records, `end` and the used length: a line each, with a TAB between.
",
        is_change: false,
        options: &[],
        switches: &[],
        count: 1..=1,
        run: check,
    },
    Command {
        name: "show",
        usage: "show FILE",
        summary: "shows the bytes of a logbook, record by record",
        details: "\
Writes for each record its place, its number, the URI in force there and the entry that declared it
(none where a header implies it), and a row for each of its parts: the place, the part's name, up to 16 bytes in hexadecimal, and what they say. Of padding only
the number of bytes is written. Where the logbook is refused, the record's first bytes are shown with
^^ below the byte at the refusal's place, and nothing behind.
",
        is_change: false,
        options: &[],
        switches: &[],
        count: 1..=1,
        run: self::show,
    },
    Command {
        name: "shift",
        usage: "shift FILE --to EPOCH --motion X,Y,Z [--csv]",
        summary: "writes the shots of a logbook, moved to another epoch",
        details: "\
EPOCH is a whole number of years, or one, a point and two digits. X, Y and Z are the motion, whole
numbers of tenths of a millimetre a year. FILE stays as it is.
Writes place, number, epoch, own x, y and z in tenths of a millimetre, and moved x, y and z in
micrometres of each live entry that is neither header nor assignment, with a TAB between, then `end`
and the used length, or `refused`, number and place.
An entry that can't be moved gets place, number, `refused`, the refusal's number and its URI: 24
where the URI names no epoch, 25 where the data isn't 24 bytes, 26 where a figure is over its bound.
Then standard error has the counts, and with a 25 or 26 the exit status is 1.
With --csv commas are between, the fields' names come first, every line has the URI, and there is no
last line: where the logbook is refused, standard error says so.
",
        is_change: false,
        options: &["--to", "--motion"],
        switches: &["--csv"],
        count: 1..=1,
        run: self::shift,
    },
];

/// Runs the command that the arguments name.
pub fn run(mut given: impl Iterator<Item = OsString>, out: &mut dyn Write) -> Done {
    let first = given.next().unwrap_or_default();
    let name = first.to_string_lossy();
    match &*name {
        "-h" | "--help" => return help::tool(out).map_err(Trouble::Output),
        "--version" => return say(out, format_args!("logbook {}", env!("CARGO_PKG_VERSION"))),
        "" => {
            return Err(Trouble::Usage(
                "no command is given; try `logbook --help`".into(),
            ))
        }
        _ => {}
    }
    let Some(command) = COMMANDS.iter().find(|command| command.name == name) else {
        let advice = format!("{name} isn't a command; try `logbook --help`");
        return Err(Trouble::Usage(advice));
    };
    command.run(given, out).map_err(|trouble| match trouble {
        Trouble::Usage(advice) => {
            Trouble::Usage(format!("{advice}; usage: logbook {}", command.usage))
        }
        other => other,
    })
}

impl Command {
    fn run(&self, given: impl Iterator<Item = OsString>, out: &mut dyn Write) -> Done {
        let known = Known {
            options: self.options,
            switches: self.switches,
        };
        let arguments = Arguments::sort(given, known)?;
        if arguments.help {
            return help::command(self, out).map_err(Trouble::Output);
        }
        if arguments.count() < *self.count.start() {
            return Err(Trouble::Usage("an argument is missing".into()));
        }
        if arguments.count() > *self.count.end() {
            return Err(Trouble::Usage("there is an argument too many".into()));
        }
        (self.run)(&arguments, out)
    }
}

fn say(out: &mut dyn Write, line: std::fmt::Arguments<'_>) -> Done {
    writeln!(out, "{line}").map_err(Trouble::Output)
}

fn new(arguments: &Arguments, out: &mut dyn Write) -> Done {
    let uuid = match arguments.value("--uuid") {
        Some(text) => uuid::parse(text)
            .ok_or_else(|| Trouble::Usage("--uuid takes 8-4-4-4-12 hexadecimal digits".into()))?,
        None => uuid::random().map_err(|error| Trouble::file(Path::new(uuid::SOURCE), error))?,
    };
    let text = arguments.value("--free").unwrap_or_default();
    let mut free = [0; raw::FREE_LENGTH];
    match free.get_mut(..text.len()) {
        Some(front) => front.copy_from_slice(text),
        None => return Err(Trouble::Usage("--free takes at most 60 bytes".into())),
    }
    let mut buffer = [0; raw::HEADER_LENGTH];
    let log = Logbook::start(&mut buffer, &uuid, &free)?;
    file::create(arguments.file(), log.bytes())?;
    let uuid = String::from_utf8_lossy(&log.bytes()[12..48]);
    say(out, format_args!("started\t{uuid}\t{}", log.used()))
}

fn list(arguments: &Arguments, mut out: &mut dyn Write) -> Done {
    let bytes = file::read(arguments.file(), raw::FILE_LIMIT)?;
    if arguments.is_given("--declared") {
        return declared::list(&bytes, out);
    }
    match logbook::write_listing(&bytes, &mut out) {
        Ok(true) => Ok(()),
        Ok(false) => Err(Trouble::Listed),
        Err(error) => Err(Trouble::Output(error)),
    }
}

fn append(arguments: &Arguments, out: &mut dyn Write) -> Done {
    // Read before the file is locked: standard input may take its time.
    let data = data(arguments)?;
    add(arguments, out, "appended", |log| {
        log.append(arguments.bytes(1), &data)
    })
}

/// The data of an entry that is appended.
fn data(arguments: &Arguments) -> Result<Cow<'_, [u8]>, Trouble> {
    let hex = arguments.value("--hex");
    if hex.is_some() && arguments.count() > 2 {
        return Err(Trouble::Usage("the data is given twice".into()));
    }
    match (hex, arguments.bytes(2)) {
        (Some(hex), _) => hexadecimal(hex)
            .map(Cow::Owned)
            .ok_or_else(|| Trouble::Usage("--hex takes two hexadecimal digits a byte".into())),
        (None, b"-") => file::read_up_to(io::stdin().lock(), raw::DATA_LIMIT)
            .map(Cow::Owned)
            .map_err(|error| Trouble::file(Path::new("standard input"), error)),
        (None, data) => Ok(Cow::Borrowed(data)),
    }
}

fn assign(arguments: &Arguments, out: &mut dyn Write) -> Done {
    let number = arguments::type_number(arguments.bytes(1))?;
    add(arguments, out, "assigned", |log| {
        log.assign(number, arguments.bytes(2))
    })
}

fn remove(arguments: &Arguments, out: &mut dyn Write) -> Done {
    let number = arguments::type_number(arguments.bytes(1))?;
    add(arguments, out, "removed", |log| log.remove(number))
}

/// Adds records at the end, and says where.
fn add(
    arguments: &Arguments,
    out: &mut dyn Write,
    word: &str,
    call: impl FnOnce(&mut Logbook<'_>) -> Result<Place, Refusal>,
) -> Done {
    let call = |log: &mut Logbook<'_>| Ok((call(log)?, log.used()));
    let (place, used) = file::change(arguments.file(), call)?;
    say(out, format_args!("{word}\t{place}\t{used}"))
}

fn erase(arguments: &Arguments, out: &mut dyn Write) -> Done {
    let place = arguments::place(arguments.bytes(1))?;
    let stored = file::change(arguments.file(), |log| log.erase(place))?;
    say(out, format_args!("erased\t{stored}"))
}

fn wipe(arguments: &Arguments, out: &mut dyn Write) -> Done {
    let place = arguments::place(arguments.bytes(1))?;
    let limit = arguments
        .value("--limit")
        .map_or(Ok(usize::MAX), arguments::limit)?;
    let stores = file::change(arguments.file(), |log| log.wipe(place, limit))?;
    say(out, format_args!("wiped\t{stores}"))
}

fn check(arguments: &Arguments, out: &mut dyn Write) -> Done {
    let bytes = file::read(arguments.file(), raw::USED_LIMIT)?;
    let found = logbook::check(&bytes)?;
    say(out, format_args!("entries\t{}", found.entries))?;
    say(out, format_args!("padding\t{}", found.padding))?;
    say(out, format_args!("deleted\t{}", found.deleted))?;
    say(out, format_args!("end\t{}", found.used))
}

fn show(arguments: &Arguments, out: &mut dyn Write) -> Done {
    let bytes = file::read(arguments.file(), raw::USED_LIMIT)?;
    show::show(&bytes, out)
}

fn shift(arguments: &Arguments, out: &mut dyn Write) -> Done {
    let (Some(to), Some(motion)) = (arguments.value("--to"), arguments.value("--motion")) else {
        return Err(Trouble::Usage("--to and --motion are both needed".into()));
    };
    let wanted = shift::Wanted {
        to: arguments::epoch(to)?,
        motion: arguments::motion(motion)?,
        is_csv: arguments.is_given("--csv"),
    };
    let bytes = file::read(arguments.file(), raw::USED_LIMIT)?;
    shift::shift(&bytes, &wanted, out)
}
