//! The shots of a logbook, moved to another epoch.

use crate::trouble::{remark, Trouble};
use logbook::{Entry, Epoch, Kind, Refusal, Shifted, Triple};
use std::fmt;
use std::io::{self, Write};
use std::iter;

/// The fields' names.
const NAMES: &str = "place,number,epoch,x,y,z,moved_x,moved_y,moved_z,refusal,uri";
/// How many fields only a moved shot has: those from its epoch on.
const FIGURES: usize = 7;

/// Where the shots are to go, and in which form they are written.
pub struct Wanted {
    pub to: Epoch,
    pub motion: Triple,
    pub is_csv: bool,
}

/// Writes each entry that could be a shot, moved or with its refusal, and says the counts where one
/// wasn't moved.
pub fn shift(bytes: &[u8], wanted: &Wanted, out: &mut dyn Write) -> Result<(), Trouble> {
    let mut counts = Counts::default();
    let refusal = write(bytes, wanted, out, &mut counts).map_err(Trouble::Output)?;
    if counts.not_moved() > 0 {
        remark(&counts);
    }
    match refusal {
        Some(refusal) if wanted.is_csv => Err(Trouble::Refused(refusal)),
        Some(_) => Err(Trouble::Listed),
        None if counts.not_moved() > counts.not_epoch => Err(Trouble::Listed),
        None => Ok(()),
    }
}

/// Writes all lines, and answers the refusal that ended the logbook.
fn write(
    bytes: &[u8],
    wanted: &Wanted,
    out: &mut dyn Write,
    counts: &mut Counts,
) -> io::Result<Option<Refusal>> {
    if wanted.is_csv {
        writeln!(out, "{NAMES}")?;
    }
    let mut refused = None;
    for entry in logbook::entries(bytes) {
        match entry {
            Ok(entry) if entry.kind != Kind::Plain => counts.others += 1,
            Ok(entry) => {
                let shifted = entry.shift(wanted.to, wanted.motion);
                counts.count(&shifted);
                let form = if wanted.is_csv { row } else { line };
                writeln!(out, "{}", form(&entry, &shifted))?;
            }
            Err(refusal) => refused = Some(refusal),
        }
    }
    match refused {
        _ if wanted.is_csv => {}
        None => writeln!(out, "end\t{}", bytes.len())?,
        Some(refusal) => {
            let place = refusal.place().map_or(0, |place| place.0);
            writeln!(out, "refused\t{}\t{place}", refusal.number())?;
        }
    }
    // The counts are said behind the lines.
    out.flush()?;
    Ok(refused)
}

/// What became of the entries.
#[derive(Default)]
struct Counts {
    moved: usize,
    not_epoch: usize,
    not_shot: usize,
    over_bound: usize,
    /// Headers and assignments.
    others: usize,
}

impl Counts {
    fn count(&mut self, shifted: &Result<Shifted, Refusal>) {
        let count = match shifted {
            Ok(_) => &mut self.moved,
            Err(Refusal::NotEpoch) => &mut self.not_epoch,
            Err(Refusal::NotShot) => &mut self.not_shot,
            Err(_) => &mut self.over_bound,
        };
        *count += 1;
    }

    fn not_moved(&self) -> usize {
        self.not_epoch + self.not_shot + self.over_bound
    }
}

impl fmt::Display for Counts {
    fn fmt(&self, out: &mut fmt::Formatter<'_>) -> fmt::Result {
        write!(
            out,
            "{} moved; not moved: {} by 24, {} by 25, {} by 26; {} headers and assignments",
            self.moved, self.not_epoch, self.not_shot, self.over_bound, self.others
        )
    }
}

/// A line with TABs.
fn line(entry: &Entry<'_>, shifted: &Result<Shifted, Refusal>) -> String {
    let rest = match shifted {
        Ok(shifted) => figures(shifted).join("\t"),
        Err(refusal) => format!("refused\t{}\t{}", refusal.number(), text(entry.uri)),
    };
    format!("{}\t{}\t{rest}", entry.place, entry.number)
}

/// A line with commas, in which every field has its place.
fn row(entry: &Entry<'_>, shifted: &Result<Shifted, Refusal>) -> String {
    let (figures, refusal) = match shifted {
        Ok(shifted) => (figures(shifted), String::new()),
        Err(refusal) => (vec![String::new(); FIGURES], refusal.number().to_string()),
    };
    let (figures, uri) = (figures.join(","), quoted(&text(entry.uri)));
    format!("{},{},{figures},{refusal},{uri}", entry.place, entry.number)
}

/// A moved shot's epoch, its own coordinates and the moved ones.
fn figures(shifted: &Shifted) -> Vec<String> {
    let (own, moved) = (shifted.position, shifted.point);
    // Whole numbers far below 2^53: nothing is lost.
    let moved = [moved.x, moved.y, moved.z].map(|number| number as i64);
    let numbers = [own.x, own.y, own.z].into_iter().chain(moved);
    let texts = numbers.map(|number| number.to_string());
    iter::once(shifted.epoch.to_string()).chain(texts).collect()
}

fn text(uri: &[u8]) -> String {
    String::from_utf8_lossy(uri).into_owned()
}

/// A field as RFC 4180 has it.
fn quoted(field: &str) -> String {
    if field.contains([',', '"', '\r', '\n']) {
        return format!("\"{}\"", field.replace('"', "\"\""));
    }
    field.to_owned()
}
