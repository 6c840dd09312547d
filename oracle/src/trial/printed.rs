//! The answers that a program prints (docs/REPLAY.md), read strictly: what is not as it stands there is an error.

use std::str::FromStr;

use crate::codes;
use crate::column::Column;
use crate::origins::Started;
use crate::pipeline::types::DashStyle;
use crate::pipeline::types::GraphRowShapeStyle;
use crate::pipeline::types::LinkLinePlacement;
use crate::refusals;
use crate::render::LinkLine;

use super::seen::Links;
use super::seen::View;

/// What was read, or words for what cannot be.
type Read<T> = Result<T, String>;

/// The names of node cells and of ancestry cells.
const NODE_CELLS: [&str; 4] = ["Blank", "Ancestor", "Parent", "Node"];
const ANCESTRY_CELLS: [&str; 3] = ["Blank", "Ancestor", "Parent"];

/// What is printed of a row call.
#[derive(Clone, Debug, PartialEq, Eq)]
pub struct RowAnswer {
    pub number: u8,
    /// The node's column, and how many cells the shape has.
    pub node: usize,
    pub width: usize,
    pub links: Links,
    pub shaper: View,
}

/// Answers on their way.
pub struct Printed<'a> {
    left: &'a [u8],
}

impl<'a> Printed<'a> {
    /// All that a program printed.
    pub fn new(printed: &'a [u8]) -> Self {
        Self { left: printed }
    }

    /// There is nothing left.
    pub fn end(&self) -> Read<()> {
        expect(self.left.is_empty(), || {
            format!("behind the last answer: {}", begin(self.left))
        })
    }

    /// The line of a list.
    pub fn list(&mut self, number: u32) -> Read<()> {
        let given: u32 = self.number_behind("list ")?;
        expect(given == number, || format!("list {given} for {number}"))
    }

    /// A new shaper call: its refusal number and the shaper.
    pub fn new_shaper(&mut self) -> Read<(u8, View)> {
        Ok((self.number_behind("new ")?, self.shaper()?))
    }

    /// A reserving call: its refusal number and the shaper.
    pub fn reserve(&mut self) -> Read<(u8, View)> {
        Ok((self.number_behind("reserve ")?, self.shaper()?))
    }

    /// A row call.
    pub fn row(&mut self) -> Read<RowAnswer> {
        let number = self.number_behind("row ")?;
        let (node, width, links) = self.shape()?;
        expect(number == 0 || (node, width) == (0, 0), || {
            format!("a row refused with {number} has a shape of width {width}")
        })?;
        Ok(RowAnswer {
            number,
            node,
            width,
            links,
            shaper: self.shaper()?,
        })
    }

    /// A text call with an output of so many bytes: its refusal number and the shaper.
    pub fn text(&mut self, output: usize) -> Read<(u8, View)> {
        let [number, length, measure] = numbers(self.line()?, "text ")?;
        self.output(output, number, length)?;
        expect(measure <= length, || {
            format!("measure {measure} of {length} bytes")
        })?;
        let shaper = self.shaper()?;
        self.state()?;
        Ok((refusal(number)?, shaper))
    }

    /// A query.
    pub fn origin(&mut self) -> Read<Started> {
        match behind(self.line()?, "origin ")? {
            "not waiting" => Ok(Started::NotWaiting),
            "none" => Ok(Started::Unnamed),
            node => number(node).map(Started::By),
        }
    }

    /// A renderer call with an output of so many bytes: its refusal number and what it wrote.
    pub fn renderer(&mut self, output: usize) -> Read<(u8, &'a [u8])> {
        let [number, length] = numbers(self.line()?, "renderer ")?;
        let written = self.output(output, number, length)?;
        Ok((refusal(number)?, written))
    }

    /// The next line, without its end.
    fn line(&mut self) -> Read<&'a str> {
        let end = self.left.iter().position(|byte| *byte == b'\n');
        let end = end.ok_or_else(|| format!("no line: {}", begin(self.left)))?;
        let line = std::str::from_utf8(&self.left[..end]);
        let line = line.map_err(|_| format!("no text: {}", begin(self.left)))?;
        self.left = &self.left[end + 1..];
        Ok(line)
    }

    /// The number in a line that has nothing but a word before it.
    fn number_behind<T: FromStr + ToString>(&mut self, word: &str) -> Read<T> {
        let line = self.line()?;
        number(behind(line, word)?)
    }

    /// These bytes.
    fn skip(&mut self, bytes: &str) -> Read<()> {
        let left = self.left.strip_prefix(bytes.as_bytes());
        self.left = left.ok_or_else(|| format!("no {bytes:?}: {}", begin(self.left)))?;
        Ok(())
    }

    /// Bytes after their count and a colon.
    fn counted(&mut self) -> Read<&'a [u8]> {
        let colon = self.left.iter().position(|byte| *byte == b':');
        let colon = colon.ok_or_else(|| format!("no count: {}", begin(self.left)))?;
        let count = std::str::from_utf8(&self.left[..colon]);
        let count: usize = number(count.map_err(|_| "no count".to_owned())?)?;
        let bytes = self.left[colon + 1..].split_at_checked(count);
        let (bytes, left) = bytes.ok_or_else(|| format!("fewer than {count} bytes are left"))?;
        self.left = left;
        Ok(bytes)
    }

    /// An output after a call, and what the call wrote of it; a refused one writes nothing.
    fn output(&mut self, whole: usize, number: usize, length: usize) -> Read<&'a [u8]> {
        self.skip("out ")?;
        let bytes = self.counted()?;
        self.skip("\n")?;
        let fits = bytes.len() == whole && length <= whole && (number == 0 || length == 0);
        expect(fits, || {
            format!(
                "refusal {number}, length {length} in {} bytes for {whole}",
                bytes.len()
            )
        })?;
        Ok(&bytes[..length])
    }

    /// The text state.
    fn state(&mut self) -> Read<()> {
        self.skip("state queued=")?;
        if self.skip("no").is_err() {
            self.counted()?;
        }
        self.number_behind::<u64>(" row_height=").map(|_| ())
    }

    /// The shaper.
    pub fn shaper(&mut self) -> Read<View> {
        let names = [
            "shaper height=",
            " stagger=",
            " dash=",
            " placement=",
            " previous=",
            " columns=",
        ];
        let [height, stagger, dash, placement, previous, columns] = fields(self.line()?, names)?;
        let columns: Vec<_> = items(columns).map(carrying).collect::<Read<_>>()?;
        let (columns, origins): (Vec<_>, Vec<_>) = columns.into_iter().unzip();
        expect(columns.len() <= refusals::COLUMNS, || {
            format!("{} columns", columns.len())
        })?;
        Ok(View {
            height: number(height)?,
            stagger: flag(stagger)?,
            style: style(dash, placement)?,
            previous: match previous {
                "none" => None,
                column => Some(number(column)?),
            },
            columns,
            origins,
        })
    }

    /// The six lines of a shape; gives the node's column, the width and the links.
    fn shape(&mut self) -> Read<(usize, usize, Links)> {
        let (node, width) = self.shape_head()?;
        self.cells("node ", width, |cell| one_of(&NODE_CELLS, cell))?;
        let links = Links {
            linked: self.optional_cells("link ", width, link)?.is_some(),
            marks: self
                .optional_cells("from ", width, link)?
                .unwrap_or_default(),
            terms: self
                .optional_cells("term ", width, flag)?
                .unwrap_or_default(),
        };
        self.cells("ancestry ", width, |cell| one_of(&ANCESTRY_CELLS, cell))?;
        Ok((node, width, links))
    }

    /// The first line of a shape; gives the node's column and the width.
    fn shape_head(&mut self) -> Read<(usize, usize)> {
        let names = [
            "shape node=",
            " merge=",
            " separator=",
            " dash=",
            " placement=",
            " head=",
            " root=",
            " column=",
            " width=",
            " parents=",
        ];
        let [node, merge, separator, dash, placement, head, root, column, width, parents] =
            fields(self.line()?, names)?;
        number::<u32>(node)?;
        for given in [merge, separator, head, root] {
            flag(given)?;
        }
        style(dash, placement)?;
        let width = number(width)?;
        for parent in items(parents) {
            let place: usize = number(parent)?;
            expect(place < width, || format!("parent {place} of {width}"))?;
        }
        Ok((number(column)?, width))
    }

    /// A line of cells, as many as the width says.
    fn cells<T>(
        &mut self,
        word: &str,
        width: usize,
        read: impl Fn(&str) -> Read<T>,
    ) -> Read<Vec<T>> {
        let line = self.line()?;
        let cells = items(behind(line, word)?).map(read);
        let cells: Vec<_> = cells.collect::<Read<_>>()?;
        expect(cells.len() == width.min(refusals::COLUMNS), || {
            format!("width {width}, line {line}")
        })?;
        Ok(cells)
    }

    /// A line of cells that may be absent.
    fn optional_cells<T>(
        &mut self,
        word: &str,
        width: usize,
        read: impl Fn(&str) -> Read<T>,
    ) -> Read<Option<Vec<T>>> {
        let absent = format!("{word}absent\n");
        if self.left.starts_with(absent.as_bytes()) {
            self.skip(&absent)?;
            return Ok(None);
        }
        self.cells(word, width, read).map(Some)
    }
}

/// Words for what is read, unless it is as it has to be.
fn expect(holds: bool, words: impl FnOnce() -> String) -> Read<()> {
    if holds {
        Ok(())
    } else {
        Err(words())
    }
}

/// The beginning of what is left, to be shown.
fn begin(left: &[u8]) -> String {
    left[..left.len().min(80)].escape_ascii().to_string()
}

/// What stands in a line behind a word.
fn behind<'a>(line: &'a str, word: &str) -> Read<&'a str> {
    let rest = line.strip_prefix(word);
    rest.ok_or_else(|| format!("no {word:?}: {line}"))
}

/// The values of a line's fields, each behind its name.
fn fields<'a, const COUNT: usize>(line: &'a str, names: [&str; COUNT]) -> Read<[&'a str; COUNT]> {
    let mut values = [""; COUNT];
    let mut left = behind(line, names[0])?;
    for place in 1..COUNT {
        let parts = left.split_once(names[place]);
        (values[place - 1], left) =
            parts.ok_or_else(|| format!("no {:?}: {line}", names[place]))?;
    }
    values[COUNT - 1] = left;
    Ok(values)
}

/// A decimal number, written as numbers are.
fn number<T: FromStr + ToString>(text: &str) -> Read<T> {
    let number = text.parse::<T>().ok();
    let number = number.filter(|number| number.to_string() == text);
    number.ok_or_else(|| format!("{text:?} is no number"))
}

/// The numbers of a line behind its word.
fn numbers<const COUNT: usize>(line: &str, word: &str) -> Read<[usize; COUNT]> {
    let given = behind(line, word)?.split(' ').map(number);
    let given: Vec<_> = given.collect::<Read<_>>()?;
    given.try_into().map_err(|_| format!("numbers in {line}"))
}

/// A refusal number.
fn refusal(number: usize) -> Read<u8> {
    u8::try_from(number).map_err(|_| format!("refusal {number}"))
}

/// A flag by its word.
fn flag(word: &str) -> Read<bool> {
    match word {
        "yes" => Ok(true),
        "no" => Ok(false),
        other => Err(format!("{other:?} is neither yes nor no")),
    }
}

/// A style by its two names.
fn style(dash: &str, placement: &str) -> Read<GraphRowShapeStyle> {
    Ok(GraphRowShapeStyle {
        dash_style: match dash {
            "Persistent" => DashStyle::Persistent,
            "Once" => DashStyle::Once,
            other => return Err(format!("{other:?} is no dash style")),
        },
        link_line_placement: match placement {
            "Top" => LinkLinePlacement::Top,
            "Bottom" => LinkLinePlacement::Bottom,
            other => return Err(format!("{other:?} is no placement")),
        },
    })
}

/// Items joined by commas; none where there is nothing.
fn items(text: &str) -> impl Iterator<Item = &str> {
    text.split(',').filter(move |_| !text.is_empty())
}

/// A column by name, and behind an Ancestor or Parent one the node that it carries.
fn carrying(text: &str) -> Read<(Column<u32>, Option<u32>)> {
    let (held, origin) = match text.split_once(" by ") {
        Some((held, node)) => (column(held)?, Some(number(node)?)),
        None => (column(text)?, None),
    };
    expect(codes::is_named(&held) == origin.is_some(), || {
        format!("{text:?} is no column with its origin")
    })?;
    Ok((held, origin))
}

/// A column by name.
fn column(text: &str) -> Read<Column<u32>> {
    match text.split_once(' ') {
        None if text == "Empty" => Ok(Column::Empty),
        None if text == "Blocked" => Ok(Column::Blocked),
        Some(("Reserved", id)) => number(id).map(Column::Reserved),
        Some(("Ancestor", id)) => number(id).map(Column::Ancestor),
        Some(("Parent", id)) => number(id).map(Column::Parent),
        _ => Err(format!("{text:?} is no column")),
    }
}

/// A cell by its name, one of these.
fn one_of(names: &[&str], cell: &str) -> Read<()> {
    expect(names.contains(&cell), || format!("{cell:?} is no cell"))
}

/// A link cell: a dash, or marks by name.
fn link(cell: &str) -> Read<LinkLine> {
    let mut marks = LinkLine::empty();
    for name in cell.split('+').filter(|_| cell != "-") {
        let mark = codes::marks().find(|(known, _)| *known == name);
        let (_, mark) = mark.ok_or_else(|| format!("{cell:?} is no link cell"))?;
        marks |= mark;
    }
    Ok(marks)
}
