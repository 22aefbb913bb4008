//! A command's arguments: those that count by their order, options with a value, and switches.

use crate::trouble::Trouble;
use std::ffi::{OsStr, OsString};
use std::os::unix::ffi::OsStrExt;
use std::path::Path;

/// The options that a command knows, each with its dashes.
#[derive(Clone, Copy)]
pub struct Known {
    /// Those that take a value.
    pub options: &'static [&'static str],
    /// Those that take none.
    pub switches: &'static [&'static str],
}

impl Known {
    /// An option of this name, and whether it is a switch.
    fn find(&self, name: &[u8]) -> Option<(&'static str, bool)> {
        let options = self.options.iter().map(|option| (*option, false));
        let switches = self.switches.iter().map(|switch| (*switch, true));
        let mut all = options.chain(switches);
        all.find(|(known, _)| known.as_bytes() == name)
    }
}

#[derive(Debug)]
pub struct Arguments {
    ordered: Vec<OsString>,
    options: Vec<(&'static str, OsString)>,
    pub help: bool,
}

impl Arguments {
    /// Sorts what is given. Behind `--` nothing is an option. `-` alone never is.
    pub fn sort(given: impl Iterator<Item = OsString>, known: Known) -> Result<Arguments, Trouble> {
        let mut sorted = Arguments {
            ordered: Vec::new(),
            options: Vec::new(),
            help: false,
        };
        let mut given = given;
        while let Some(argument) = given.next() {
            match argument.as_bytes() {
                b"--" => {
                    sorted.ordered.extend(given);
                    break;
                }
                b"-h" | b"--help" => sorted.help = true,
                b"-" => sorted.ordered.push(argument),
                [b'-', ..] => sorted.option(&argument, &mut given, known)?,
                _ => sorted.ordered.push(argument),
            }
        }
        Ok(sorted)
    }

    /// Takes up `--name VALUE` or `--name=VALUE`, or a switch, whose value is empty.
    fn option(
        &mut self,
        argument: &OsStr,
        rest: &mut impl Iterator<Item = OsString>,
        known: Known,
    ) -> Result<(), Trouble> {
        let bytes = argument.as_bytes();
        let equals = bytes.iter().position(|byte| *byte == b'=');
        let (name, joined) = match equals {
            Some(place) => (
                &bytes[..place],
                Some(OsStr::from_bytes(&bytes[place + 1..])),
            ),
            None => (bytes, None),
        };
        let Some((name, is_switch)) = known.find(name) else {
            return Err(Trouble::Usage(format!(
                "{} isn't an option here",
                argument.to_string_lossy()
            )));
        };
        let value = match (is_switch, joined) {
            (true, None) => Some(OsString::new()),
            (true, Some(_)) => return Err(Trouble::Usage(format!("{name} takes no value"))),
            (false, _) => joined.map(OsStr::to_os_string).or_else(|| rest.next()),
        };
        let value = value.ok_or_else(|| Trouble::Usage(format!("{name} takes a value")))?;
        if self.is_given(name) {
            return Err(Trouble::Usage(format!("{name} is given twice")));
        }
        self.options.push((name, value));
        Ok(())
    }

    /// How many there are, options aside.
    pub fn count(&self) -> usize {
        self.ordered.len()
    }

    /// The bytes of one, counted from 0; empty where it isn't given.
    pub fn bytes(&self, index: usize) -> &[u8] {
        self.ordered
            .get(index)
            .map_or(b"", |given| given.as_bytes())
    }

    /// The first: every command's file.
    pub fn file(&self) -> &Path {
        Path::new(OsStr::from_bytes(self.bytes(0)))
    }

    /// An option's value.
    pub fn value(&self, name: &str) -> Option<&[u8]> {
        let found = self.options.iter().find(|(option, _)| *option == name);
        found.map(|(_, value)| value.as_bytes())
    }

    /// Whether an option or a switch is given.
    pub fn is_given(&self, name: &str) -> bool {
        self.value(name).is_some()
    }
}

/// A type number. One that is too great for the library's argument stays too great.
pub fn type_number(given: &[u8]) -> Result<u64, Trouble> {
    Ok(digits(given, "NUMBER")?.parse().unwrap_or(u64::MAX))
}

/// A limit of stores. No record has more bytes than the greatest.
pub fn limit(given: &[u8]) -> Result<usize, Trouble> {
    Ok(digits(given, "--limit")?.parse().unwrap_or(usize::MAX))
}

/// A place.
pub fn place(given: &[u8]) -> Result<logbook::Place, Trouble> {
    let parsed = digits(given, "PLACE")?.parse();
    let place = parsed.map_err(|_| Trouble::Usage(format!("PLACE is at most {}", usize::MAX)))?;
    Ok(logbook::Place(place))
}

/// An epoch.
pub fn epoch(given: &[u8]) -> Result<logbook::Epoch, Trouble> {
    let text = std::str::from_utf8(given).ok();
    let epoch = text.and_then(|text| text.parse().ok());
    let advice = "--to takes a whole number of years, or one, a point and two digits";
    epoch.ok_or_else(|| Trouble::Usage(advice.into()))
}

/// A motion.
pub fn motion(given: &[u8]) -> Result<logbook::Triple, Trouble> {
    let numbers: Option<Vec<i64>> = given.split(|byte| *byte == b',').map(whole).collect();
    match numbers.as_deref() {
        Some(&[x, y, z]) => Ok(logbook::Triple { x, y, z }),
        _ => Err(Trouble::Usage(
            "--motion takes three whole numbers of 64 bits with commas between".into(),
        )),
    }
}

/// A whole number, with `-` or without a sign.
fn whole(given: &[u8]) -> Option<i64> {
    let text = std::str::from_utf8(given).ok()?;
    if text.starts_with('+') {
        return None;
    }
    text.parse().ok()
}

fn digits<'a>(given: &'a [u8], name: &str) -> Result<&'a str, Trouble> {
    let is_decimal = !given.is_empty() && given.iter().all(u8::is_ascii_digit);
    let text = std::str::from_utf8(given).ok().filter(|_| is_decimal);
    text.ok_or_else(|| Trouble::Usage(format!("{name} takes a decimal number")))
}

/// Bytes from hexadecimal digits, two for each.
pub fn hexadecimal(given: &[u8]) -> Option<Vec<u8>> {
    let pairs = given.chunks(2).map(|pair| match pair {
        [high, low] => Some(nibble(*high)? << 4 | nibble(*low)?),
        _ => None,
    });
    pairs.collect()
}

fn nibble(digit: u8) -> Option<u8> {
    let value = (digit as char).to_digit(16)?;
    u8::try_from(value).ok()
}
