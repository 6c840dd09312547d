//! Head and foot lines, decoded from the bytes that a renderer call writes.

use std::fmt;

use crate::column::Column;
use crate::pipeline::types::DashStyle;

/// How many renderers there are.
pub const RENDERERS: usize = 5;

/// What stands in a cell of a head or foot line; `Other` is a glyph that is neither an upright nor the space.
#[derive(Clone, Copy, Debug, PartialEq, Eq)]
pub enum Stroke {
    Blank,
    Dashed,
    Solid,
    Other,
}

impl Stroke {
    /// Whether an upright stands there, solid or dashed.
    pub fn is_stroke(self) -> bool {
        matches!(self, Stroke::Dashed | Stroke::Solid)
    }

    /// The cell over the node: a dashed stroke becomes solid.
    fn over_node(self) -> Stroke {
        match self {
            Stroke::Dashed => Stroke::Solid,
            stroke => stroke,
        }
    }
}

impl fmt::Display for Stroke {
    /// One character for a cell.
    fn fmt(&self, out: &mut fmt::Formatter<'_>) -> fmt::Result {
        out.write_str(match self {
            Stroke::Blank => "_",
            Stroke::Dashed => ":",
            Stroke::Solid => "|",
            Stroke::Other => "?",
        })
    }
}

/// A cell of a line; one that is missing is blank.
pub fn cell(line: &[Stroke], column: usize) -> Stroke {
    line.get(column).copied().unwrap_or(Stroke::Blank)
}

/// A line, one character for each cell.
pub fn shown(line: &[Stroke]) -> String {
    line.iter().map(Stroke::to_string).collect()
}

/// Whether two lines are equal cell by cell, missing cells being blank.
pub fn equal(left: &[Stroke], right: &[Stroke]) -> bool {
    (0..left.len().max(right.len())).all(|column| cell(left, column) == cell(right, column))
}

/// The head line that demand 3 has under a foot line: equal to it, except that a dashed stroke over the node becomes solid.
pub fn head_below(above: &[Stroke], node: usize) -> Vec<Stroke> {
    let mut head = above.to_vec();
    if let Some(cell) = head.get_mut(node) {
        *cell = cell.over_node();
    }
    head
}

/// A foot line as columns have it: Ancestor dashed, Parent solid, everything else blank.
pub fn drawn_from(columns: &[Column<u32>]) -> Vec<Stroke> {
    let stroke = |column: &Column<u32>| match column {
        Column::Empty | Column::Blocked | Column::Reserved(_) => Stroke::Blank,
        Column::Ancestor(_) => Stroke::Dashed,
        Column::Parent(_) => Stroke::Solid,
    };
    columns.iter().map(stroke).collect()
}

/// How a renderer writes uprights: solid, dashed for each dash style, and what stands between two cells.
struct Uprights {
    solid: &'static str,
    persistent: &'static str,
    once: &'static str,
    between: &'static str,
}

/// The blank cell of every renderer.
const BLANK: &str = "  ";
/// How many characters a cell has, what stands between two cells not counted.
const CHARACTERS: usize = 2;
/// What stands around the two characters of a DEC glyph.
const DEC: [&str; 2] = ["\x1b(0", "\x1b(B"];

/// The uprights of ASCII, large ASCII, square, curved and DEC.
const UPRIGHTS: [Uprights; RENDERERS] = [
    Uprights {
        solid: "| ",
        persistent: ". ",
        once: ": ",
        between: "",
    },
    Uprights {
        solid: "| ",
        persistent: ". ",
        once: ": ",
        between: " ",
    },
    Uprights {
        solid: "\u{2502} ",
        persistent: "\u{b7} ",
        once: "\u{2506} ",
        between: "",
    },
    Uprights {
        solid: "\u{2502} ",
        persistent: "\u{2577} ",
        once: "\u{2506} ",
        between: "",
    },
    Uprights {
        solid: "\x1b(0x \x1b(B",
        persistent: "\x1b(0~ \x1b(B",
        once: ": ",
        between: "",
    },
];

/// The head and foot lines of a row.
#[derive(Clone, Debug)]
pub struct Lines {
    pub head: Vec<Stroke>,
    pub foot: Vec<Stroke>,
}

/// The head and foot lines among the lines that a renderer call wrote, unless one is missing, doubled or not made of cells.
pub fn decode(written: &str, renderer: usize, dash: DashStyle) -> Option<Lines> {
    Some(Lines {
        head: strokes(only_line(written, 'P')?, renderer, dash)?,
        foot: strokes(only_line(written, 'Z')?, renderer, dash)?,
    })
}

/// The one line of this kind, without its letter.
fn only_line(written: &str, kind: char) -> Option<&str> {
    let lines = written.strip_suffix('\n')?.split('\n');
    let mut lines = lines.filter_map(|line| line.strip_prefix(kind));
    lines.next().filter(|_| lines.next().is_none())
}

/// The cells of a line.
fn strokes(line: &str, renderer: usize, dash: DashStyle) -> Option<Vec<Stroke>> {
    let uprights = &UPRIGHTS[renderer];
    let mut strokes = Vec::new();
    let mut left = line;
    while !left.is_empty() {
        let between = if strokes.is_empty() {
            ""
        } else {
            uprights.between
        };
        let (stroke, rest) =
            known_cell(left, between, uprights, dash).or_else(|| other_cell(left, between))?;
        strokes.push(stroke);
        left = rest;
    }
    Some(strokes)
}

/// The cell at the head of a line, if it is blank or an upright, and what is left of the line.
fn known_cell<'a>(
    line: &'a str,
    between: &str,
    uprights: &Uprights,
    dash: DashStyle,
) -> Option<(Stroke, &'a str)> {
    let dashed = match dash {
        DashStyle::Persistent => uprights.persistent,
        DashStyle::Once => uprights.once,
    };
    let cells = [
        (Stroke::Blank, BLANK),
        (Stroke::Dashed, dashed),
        (Stroke::Solid, uprights.solid),
    ];
    let line = line.strip_prefix(between)?;
    let found = cells.map(|(stroke, cell)| Some((stroke, line.strip_prefix(cell)?)));
    found.into_iter().flatten().next()
}

/// The cell at the head of a line with another glyph, which has as many characters as any, and what is left of the line.
fn other_cell<'a>(line: &'a str, between: &str) -> Option<(Stroke, &'a str)> {
    let [begin, end] = DEC;
    let rest = match line.strip_prefix(begin) {
        Some(line) => without_characters(line, CHARACTERS)?.strip_prefix(end)?,
        None => without_characters(line, between.len() + CHARACTERS)?,
    };
    Some((Stroke::Other, rest))
}

/// What is left of a line behind so many characters, none of them a control character.
fn without_characters(line: &str, count: usize) -> Option<&str> {
    let mut characters = line.chars();
    let all = (0..count).all(|_| characters.next().is_some_and(|next| !next.is_control()));
    all.then_some(characters.as_str())
}
