//! Document 01's two programs, run on the Rust.

use std::io;
use std::io::Write;

use crate::calls;
use crate::calls::Shaper;
use crate::calls::TextState;
use crate::codes;
use crate::records;
use crate::records::Record;
use crate::refusals;
use crate::refusals::Refusal;
use crate::stream::Drawing;
use crate::stream::Options;
use crate::stream::Row;
use crate::stream::Text;

/// The code of the listing's renderer.
const ASCII: u8 = 0;
/// The code of the page's renderer.
const CURVED: u8 = 3;

/// The shaper that both programs begin with: height 1, no staggering, Persistent, Top.
fn first_shaper() -> Shaper {
    let options = Options {
        height: 1,
        ..Options::default()
    };
    calls::new_shaper(&options).expect("height 1 passes")
}

/// The listing program.
pub fn listing(records: &[u8], out: &mut impl Write) -> io::Result<()> {
    let mut shaper = first_shaper();
    each(records, out, |record| {
        let (after, lines) = listing_row(&shaper, &record)?;
        shaper = after;
        Ok(lines)
    })
}

/// One record's part of the listing.
fn listing_row(shaper: &Shaper, record: &Record) -> Result<(Shaper, Vec<u8>), Refusal> {
    refusals::mark(record.mark)?;
    let (after, shape) = calls::row(shaper, &row(record))?;
    let lines = calls::prefix_lines(&shape, ASCII);
    let text: String = lines
        .iter()
        .map(|line| {
            format!(
                "{}:{}$\n",
                codes::kind_letter(line.kind),
                calls::joined(line, record.mark)
            )
        })
        .collect();
    Ok((after, text.into_bytes()))
}

/// The page program.
pub fn page(records: &[u8], out: &mut impl Write) -> io::Result<()> {
    let mut shaper = first_shaper();
    let mut state = TextState::default();
    each(records, out, |record| {
        let written = calls::text(&shaper, &state, &page_call(&record))?;
        shaper = written.shaper;
        state = written.state;
        Ok(written.text)
    })
}

/// The text call for one record.
fn page_call(record: &Record) -> Text {
    Text {
        drawing: Drawing {
            renderer: CURVED,
            mark: record.mark,
            length: 0,
        },
        row: row(record),
        message: record.message.clone(),
    }
}

/// A record's node and entries.
fn row(record: &Record) -> Row {
    Row {
        node: record.id,
        entries: record.entries.clone(),
    }
}

/// Writes what `draw` gives for each record, up to the end of the records or a refusal.
fn each(
    mut left: &[u8],
    out: &mut impl Write,
    mut draw: impl FnMut(Record) -> Result<Vec<u8>, Refusal>,
) -> io::Result<()> {
    for number in 0.. {
        let drawn = match records::record(left) {
            Ok(Some(record)) => draw(record),
            Ok(None) => break,
            Err(refusal) => Err(refusal),
        };
        match drawn {
            Ok(text) => out.write_all(&text)?,
            Err(Refusal(refusal)) => return writeln!(out, "refused {refusal} at record {number}"),
        }
        left = &left[refusals::RECORD..];
    }
    Ok(())
}
