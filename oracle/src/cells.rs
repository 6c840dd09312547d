//! Streams that try the renderers cell by cell: every set of marks where it can matter, then shapes of any content.

use std::io;
use std::io::Write;

use crate::calls;
use crate::compare::Task;
use crate::generator;
use crate::refusals;
use crate::stream::encode;
use crate::stream::Cell;
use crate::stream::Command;
use crate::stream::Drawing;
use crate::stream::HandShape;

/// How many sets of marks there are.
const SETS: u32 = 1 << 13;
/// Where the marks LEFT_FORK begin.
const LEFT_FORK_AT: u32 = 4;
/// Where the marks LEFT_MERGE begin.
const LEFT_MERGE_AT: u32 = 8;
/// The code of ASCII.
const ASCII: u8 = 0;
/// The code of large ASCII.
const LARGE: u8 = 1;
/// The codes of the square, curved and DEC sets.
const BOXES: [u8; 3] = [2, 3, 4];
/// The codes of both dash styles.
const DASHES: [u8; 2] = [0, 1];
/// The mark of the node, which these shapes do not have.
const MARK: u8 = b'o';

/// The most cells of a shape.
const CELLS: u32 = refusals::COLUMNS as u32;
/// How many box shapes hold every set of marks.
const BOX_SHAPES: u32 = SETS / CELLS;
/// How many sets of marks are without HORIZONTAL.
const LEVELS: u32 = SETS / 4;
/// How many cells a line holds if each has a next one of its own.
const PAIRS: u32 = CELLS / 2;
/// How many ASCII lists have no HORIZONTAL at all.
const WITHOUT: u32 = LEVELS / PAIRS;
/// How many ASCII lists have HORIZONTAL in the cell that is tried, and nowhere else.
const OWN: u32 = SETS - LEVELS;
/// How many ASCII lists have HORIZONTAL elsewhere, in a cell of its own.
const ELSEWHERE: u32 = SETS.div_ceil(PAIRS - 1);
/// How many cells after the first a shape has.
const LATER: u32 = CELLS - 1;
/// How many shapes are made by hand.
const BY_HAND: u32 = 4000;
/// The seed of the shapes made by hand.
const SEED: u64 = 1;

/// One part of the streams: its lists, each by its number.
pub struct Part {
    title: &'static str,
    pub lists: u32,
    commands: fn(u32) -> Vec<Command>,
}

/// The parts.
pub static PARTS: [Part; 4] = [
    Part {
        title: "box cells: marks x merge x dash style, three sets",
        lists: BOX_SHAPES * 4,
        commands: box_cells,
    },
    Part {
        title: "ASCII cells: marks x next cell x HORIZONTAL elsewhere x dash style",
        lists: WITHOUT + OWN + ELSEWHERE,
        commands: ascii_cells,
    },
    Part {
        title: "large ASCII cells: marks in the first cell and in later ones x dash style",
        lists: SETS.div_ceil(LATER),
        commands: large_cells,
    },
    Part {
        title: "shapes set by hand: five renderers, marks and outputs at their limits",
        lists: BY_HAND,
        commands: |number| generator::drawings(SEED, number),
    },
];

impl Part {
    /// The list with this number.
    pub fn list(&self, number: u32) -> Vec<Command> {
        let mut list = vec![Command::List(number)];
        list.extend((self.commands)(number));
        list
    }
}

/// Writes the streams of these parts.
pub fn write(parts: &[&Part], out: &mut impl Write) -> io::Result<()> {
    for part in parts {
        for number in 0..part.lists {
            out.write_all(&encode(&part.list(number)))?;
        }
    }
    out.flush()
}

/// Compares these parts, each with its task, prints what came out, and says whether there was no difference.
pub fn compare(parts: &[(&Part, Task)]) -> bool {
    let (mut shapes, mut drawings, mut cells) = (0, 0, 0);
    for (part, task) in parts {
        println!("{}", part.title);
        let Some(findings) = task.findings() else {
            return false;
        };
        let counts = findings.counts;
        let (tried, drawn) = (counts.of_letter(b'H'), counts.of_letter(b'P'));
        println!(
            "  shapes {tried}, renderer calls {drawn}, cells drawn {}",
            counts.cells
        );
        shapes += tried;
        drawings += drawn;
        cells += counts.cells;
    }
    println!("compared {shapes} shapes, {drawings} renderer calls, {cells} cells: no difference");
    true
}

/// 64 sets of marks in one shape, for the box-drawing renderers.
fn box_cells(number: u32) -> Vec<Command> {
    let first = number % BOX_SHAPES * CELLS;
    let style = number / BOX_SHAPES;
    let mut shape = shape((first..first + CELLS).map(|marks| marks as u16));
    shape.merge = (style & 1) as u8;
    shape.dash = (style >> 1) as u8;
    drawn(shape, &BOXES)
}

/// Some sets of marks, each with every next cell, for ASCII.
fn ascii_cells(number: u32) -> Vec<Command> {
    let (sets, elsewhere) = ascii_sets(number);
    let mut commands = Vec::new();
    for dash in DASHES {
        for next in 0..4 {
            let pairs = sets.iter().flat_map(|marks| [*marks, left(next, *marks)]);
            let mut cells: Vec<_> = pairs.collect();
            if elsewhere {
                let place = if number & 1 == 0 { cells.len() } else { 0 };
                cells.insert(place, kind_of(number));
            }
            let mut shape = shape(cells.into_iter());
            shape.dash = dash;
            commands.extend(drawn(shape, &[ASCII]));
        }
    }
    commands
}

/// The sets of marks that an ASCII list tries, and whether HORIZONTAL stands elsewhere too. A set with HORIZONTAL is alone in its line if not.
fn ascii_sets(number: u32) -> (Vec<u16>, bool) {
    if number < WITHOUT {
        let first = number * PAIRS;
        let sets = (first..first + PAIRS).map(|level| (level << 2) as u16);
        (sets.collect(), false)
    } else if number < WITHOUT + OWN {
        let place = number - WITHOUT;
        let set = ((place / 3) << 2) as u16 | kind_of(place);
        (vec![set], false)
    } else {
        let first = (number - WITHOUT - OWN) * (PAIRS - 1);
        let end = SETS.min(first + PAIRS - 1);
        ((first..end).map(|marks| marks as u16).collect(), true)
    }
}

/// A next cell with or without LEFT_FORK and LEFT_MERGE; whether these are _PARENT, _ANCESTOR or both changes with the cell before.
fn left(next: u32, before: u16) -> u16 {
    let kind = kind_of(u32::from(before));
    let fork = if next & 1 == 1 {
        kind << LEFT_FORK_AT
    } else {
        0
    };
    let merge = if next & 2 == 2 {
        kind << LEFT_MERGE_AT
    } else {
        0
    };
    fork | merge
}

/// The bits of a pair of marks, in turn: _PARENT, _ANCESTOR, both. HORIZONTAL is the pair at bit 0.
fn kind_of(number: u32) -> u16 {
    (number % 3) as u16 + 1
}

/// 63 sets of marks, each in the first cell with its mirror image after it, and all of them in later cells, for large ASCII.
fn large_cells(number: u32) -> Vec<Command> {
    let first = number * LATER;
    let sets: Vec<_> = (first..SETS.min(first + LATER))
        .map(|marks| marks as u16)
        .collect();
    let mut commands = Vec::new();
    for dash in DASHES {
        let alone = sets.iter().map(|marks| vec![*marks, mirrored(*marks)]);
        let later = [&[mirrored(sets[0])], sets.as_slice()].concat();
        for cells in alone.chain([later]) {
            let mut shape = shape(cells.into_iter());
            shape.dash = dash;
            commands.extend(drawn(shape, &[LARGE]));
        }
    }
    commands
}

/// The marks in reverse order.
fn mirrored(marks: u16) -> u16 {
    marks.reverse_bits() >> 3
}

/// A shape whose link line has these cells, blank otherwise.
fn shape(marks: impl Iterator<Item = u16>) -> HandShape {
    let cells: Vec<_> = marks
        .map(|link| Cell {
            link,
            ..Cell::default()
        })
        .collect();
    HandShape {
        width: cells.len() as u64,
        has_link: 1,
        cells,
        ..HandShape::default()
    }
}

/// The shape, and a call of each renderer with an output just long enough.
fn drawn(hand: HandShape, renderers: &[u8]) -> Vec<Command> {
    let shape = calls::hand_shape(&hand);
    let calls = renderers.iter().map(|renderer| {
        let lines = calls::renderer(&shape, *renderer, MARK);
        Command::Renderer(Drawing {
            renderer: *renderer,
            mark: MARK,
            length: lines.map_or(0, |lines| lines.len() as u32),
        })
    });
    let calls: Vec<_> = calls.collect();
    [vec![Command::Shape(hand)], calls].concat()
}
