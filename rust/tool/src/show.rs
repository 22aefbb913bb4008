//! The bytes of a logbook, record by record.

use crate::trouble::Trouble;
use logbook::{Declared, Entry, Item, Kind, Place, Refusal};
use std::fmt::Display;
use std::io::{self, Write};

/// Bytes in a row.
const ROW: usize = 16;

/// Shows a logbook up to its end or the refusal, which is answered.
pub fn show(bytes: &[u8], out: &mut dyn Write) -> Result<(), Trouble> {
    let mut dump = Dump {
        bytes,
        out,
        padding: None,
    };
    let refusal = dump.items().map_err(Trouble::Output)?;
    refusal.map_or(Ok(()), |refusal| Err(Trouble::Refused(refusal)))
}

struct Dump<'d> {
    bytes: &'d [u8],
    out: &'d mut dyn Write,
    /// Padding that hasn't been shown yet: where it starts and how many bytes it has.
    padding: Option<(Place, usize)>,
}

impl Dump<'_> {
    fn items(&mut self) -> io::Result<Option<Refusal>> {
        let mut items = logbook::items(self.bytes);
        while let Some(item) = items.next() {
            match item {
                Ok(Item::Padding { place }) => {
                    let (first, length) = self.padding.unwrap_or((place, 0));
                    self.padding = Some((first, length + 1));
                }
                Ok(Item::Deleted {
                    place,
                    body_place,
                    body,
                }) => self.deleted(place, body_place, body)?,
                Ok(Item::Entry(entry)) => self.entry(&entry)?,
                Err(refusal) => {
                    self.refusal(&refusal, items.reading().position())?;
                    return Ok(Some(refusal));
                }
            }
        }
        self.heading(Place(self.bytes.len()), "end")?;
        Ok(None)
    }

    /// Says what starts at a place, behind the padding before it.
    fn heading(&mut self, place: Place, text: &str) -> io::Result<()> {
        if let Some((first, length)) = self.padding.take() {
            let noun = if length == 1 { "byte" } else { "bytes" };
            writeln!(self.out, "{first}: padding, {length} {noun}")?;
        }
        writeln!(self.out, "{place}: {text}")
    }

    fn deleted(&mut self, place: Place, body_place: Place, body: &[u8]) -> io::Result<()> {
        self.heading(place, "deleted record")?;
        self.integer("size", place, body_place, body.len())?;
        self.part("body", body_place, body)
    }

    fn entry(&mut self, entry: &Entry<'_>) -> io::Result<()> {
        let end = entry.data_place.0 + entry.data.len();
        self.heading(entry.place, &description(entry))?;
        self.integer(
            "size",
            entry.place,
            entry.type_place,
            end - entry.type_place.0,
        )?;
        let number = entry.type_number;
        self.integer("type", entry.type_place, entry.data_place, number)?;
        match entry.kind {
            Kind::Plain => self.part("data", entry.data_place, entry.data),
            Kind::Header => self.header(entry),
            Kind::Assignment { number, uri } => {
                let uri_place = Place(end - uri.len());
                self.integer("number", entry.data_place, uri_place, number)?;
                self.part("uri", uri_place, uri)
            }
        }
    }

    /// The parts of a header's data.
    fn header(&mut self, entry: &Entry<'_>) -> io::Result<()> {
        let mut place = entry.data_place;
        let mut rest = entry.data;
        for (name, length) in [("mark", 10), ("uuid", 36), ("space", 1), ("free", 60)] {
            let (part, behind) = rest.split_at(length.min(rest.len()));
            self.part(name, place, part)?;
            place = Place(place.0 + part.len());
            rest = behind;
        }
        Ok(())
    }

    /// A row for a written integer, up to `end`.
    fn integer(
        &mut self,
        name: &str,
        place: Place,
        end: Place,
        value: impl Display,
    ) -> io::Result<()> {
        let bytes = self.bytes.get(place.0..end.0).unwrap_or_default();
        self.row(name, place, bytes, &value.to_string())
    }

    /// Rows for any bytes, with the characters that they are.
    fn part(&mut self, name: &str, place: Place, bytes: &[u8]) -> io::Result<()> {
        for (index, row) in bytes.chunks(ROW).enumerate() {
            let name = if index == 0 { name } else { "" };
            self.row(name, Place(place.0 + index * ROW), row, &characters(row))?;
        }
        Ok(())
    }

    fn row(&mut self, name: &str, place: Place, bytes: &[u8], text: &str) -> io::Result<()> {
        let mut hexadecimal = String::with_capacity(3 * ROW);
        for byte in bytes {
            hexadecimal += &format!("{byte:02x} ");
        }
        writeln!(self.out, "{place:>10}  {name:<6}  {hexadecimal:<48} {text}")
    }

    /// The front of the record at `start`, with a pointer at the byte at the refusal's place, where
    /// the refusal has one and a byte stands there.
    fn refusal(&mut self, refusal: &Refusal, start: Place) -> io::Result<()> {
        let Some(place) = refusal.place() else {
            return Ok(());
        };
        let mut named = format!("refusal {}", refusal.number());
        if place != start {
            named += &format!(" at place {place}");
        }
        self.heading(start, &named)?;
        let record = self.bytes.get(start.0..).unwrap_or_default();
        let row = &record[..ROW.min(record.len())];
        self.part("", start, row)?;
        match place.0.checked_sub(start.0) {
            Some(before) if before < row.len() => {
                writeln!(self.out, "{:>width$}", "^^", width = 22 + 3 * before)
            }
            _ => Ok(()),
        }
    }
}

/// A live entry's number, its URI, the entry that declared that, and what an assignment does.
fn description(entry: &Entry<'_>) -> String {
    let mut described = format!("entry {}, {}", entry.number, text(entry.uri));
    if let Some(Declared { place, number }) = entry.declared {
        described += &format!(", declared by entry {number} at {place}");
    }
    match entry.kind {
        Kind::Assignment { number, uri: b"" } => format!("{described}, removes {number}"),
        Kind::Assignment { number, uri } => {
            format!("{described}, assigns {} to {number}", text(uri))
        }
        Kind::Plain | Kind::Header => described,
    }
}

fn text(uri: &[u8]) -> String {
    String::from_utf8_lossy(uri).into_owned()
}

/// The characters of printable bytes, and a point for each other.
fn characters(bytes: &[u8]) -> String {
    let shown = bytes.iter().map(|byte| match byte {
        0x20..=0x7E => *byte as char,
        _ => '.',
    });
    format!("|{}|", shown.collect::<String>())
}
