//! The line measure: the greatest count of cells over the lines that a text call writes. Cells are counted by bytes, whatever characters these are.

/// The box characters, each one cell.
pub const BOX_CHARACTERS: [&str; 18] = [
    "·", "─", "│", "┆", "┌", "┐", "└", "┘", "├", "┤", "┬", "┴", "┼", "╭", "╮", "╯", "╰", "╷",
];

/// The shift sequences, each no cell.
pub const SHIFT_SEQUENCES: [&str; 2] = ["\x1b(0", "\x1b(B"];

/// A line that a text call writes: its bytes without the line end, and its cells.
#[derive(Clone, Debug)]
pub struct Line {
    pub bytes: usize,
    pub cells: usize,
}

/// The lines of a text that have so many bytes each, with a line end behind each of them.
pub fn lines(text: &[u8], lengths: &[usize]) -> Vec<Line> {
    let mut left = text;
    let mut lines = Vec::new();
    for length in lengths {
        let (line, behind) = left.split_at(*length);
        lines.push(Line {
            bytes: *length,
            cells: cells(line),
        });
        left = &behind[1..];
    }
    lines
}

/// The measure of these lines, 0 of none.
pub fn measure(lines: &[Line]) -> usize {
    lines.iter().map(|line| line.cells).max().unwrap_or(0)
}

/// How many cells a line has, from the left of its bytes.
fn cells(line: &[u8]) -> usize {
    let mut left = line;
    let mut count = 0;
    while !left.is_empty() {
        let (bytes, cells) = first(left);
        left = &left[bytes..];
        count += cells;
    }
    count
}

/// How many bytes are counted next of what is left of a line, and how many cells they are.
fn first(left: &[u8]) -> (usize, usize) {
    if let Some(sequence) = begin(left, &SHIFT_SEQUENCES) {
        (sequence.len(), 0)
    } else if let Some(character) = begin(left, &BOX_CHARACTERS) {
        (character.len(), 1)
    } else {
        (1, 1)
    }
}

/// The one of these that the bytes begin with.
fn begin(bytes: &[u8], these: &[&'static str]) -> Option<&'static str> {
    let mut these = these.iter().copied();
    these.find(|one| bytes.starts_with(one.as_bytes()))
}
