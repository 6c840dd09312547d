//! The calls: the crate's own functions behind document 01's refusals. Each takes the state before and gives the state after, so that a refusal changes nothing.

use crate::codes;
use crate::column::Column;
use crate::column::ColumnsExt;
use crate::output::OutputRendererState;
use crate::pipeline::graph_text_renderer::GraphTextRenderer;
use crate::pipeline::graph_to_row_shape::GraphRowShaper;
use crate::pipeline::prefix_lines_to_text;
use crate::pipeline::prefix_lines_to_text::PrefixLinesToText;
use crate::pipeline::types::GraphRowShape;
use crate::pipeline::types::PrefixLine;
use crate::refusals;
use crate::refusals::Refusal;
use crate::stream::Entry;
use crate::stream::HandShape;
use crate::stream::HandShaper;
use crate::stream::HandState;
use crate::stream::Options;
use crate::stream::Row;
use crate::stream::Text;

/// The bytes of a queued line's array.
pub const QUEUE: usize = 512;

/// What stands in a queued line for a byte that the crate would not keep: it trims this one nowhere, and no call writes it by itself.
const STAND_IN: u8 = 0x01;

/// The crate's shaper over our ids.
pub type Shaper = GraphRowShaper<u32>;

/// The state between two text calls.
#[derive(Clone, Debug, Default)]
pub struct TextState {
    pub queued: Option<Vec<u8>>,
    pub row_height: usize,
}

impl TextState {
    /// A text that begins with the queued line: each of its bytes for which a stand-in was written is put back.
    fn put_back(&self, text: &mut [u8]) {
        let queued = self.queued.iter().flatten();
        for (written, byte) in text.iter_mut().zip(queued) {
            if *written == STAND_IN {
                *written = *byte;
            }
        }
    }

    /// The crate's state.
    fn to_crate(&self) -> OutputRendererState {
        let queued = self.queued.as_deref().map(stood_in);
        OutputRendererState::by_hand(queued, self.row_height)
    }

    /// The state out of the crate's.
    fn from_crate(state: OutputRendererState) -> Self {
        let (queued, row_height) = state.into_parts();
        Self {
            queued: queued.map(String::into_bytes),
            row_height,
        }
    }
}

/// A queued line as the crate is given it: with a stand-in for each byte that is no UTF-8, which its `String` cannot hold, and for white
/// space other than blanks, a line end too, which it would trim or count and ours takes for what it is: bytes of one line.
fn stood_in(line: &[u8]) -> String {
    let mut given = String::new();
    let stand_in = char::from(STAND_IN).to_string();
    for chunk in line.utf8_chunks() {
        for character in chunk.valid().chars() {
            if character.is_whitespace() && character != ' ' {
                given.push_str(&stand_in.repeat(character.len_utf8()));
            } else {
                given.push(character);
            }
        }
        given.push_str(&stand_in.repeat(chunk.invalid().len()));
    }
    given
}

/// A row's shape. Its lines have as many cells as the width says, but at most 64.
#[derive(Clone, Debug)]
pub struct Shape {
    pub row: GraphRowShape<u32>,
    pub width: u64,
}

/// What a preview tells of a row: the node's column, the cells of its node line, and the columns afterwards.
pub struct Previewed {
    pub column: usize,
    pub width: u64,
    pub columns: Vec<Column<u32>>,
}

/// What an accepted text call leaves behind.
pub struct Written {
    pub shaper: Shaper,
    pub state: TextState,
    pub text: Vec<u8>,
    pub line_lengths: Vec<usize>,
}

/// The shaper that a refused new shaper call gives.
pub fn blank_shaper() -> Shaper {
    Shaper::with_options(codes::options(&Options::default()))
}

/// The shape of a refused row.
pub fn blank_shape() -> Shape {
    hand_shape(&HandShape::default())
}

/// The new shaper call.
pub fn new_shaper(options: &Options) -> Result<Shaper, Refusal> {
    refusals::height(options.height)?;
    Ok(Shaper::with_options(codes::options(options)))
}

/// The reserving call.
pub fn reserve(shaper: &Shaper, id: u32) -> Result<Shaper, Refusal> {
    let columns = shaper.columns();
    refusals::no_column(
        columns.find(&id).is_some(),
        columns.first_empty().is_some(),
        columns.len(),
    )?;
    let mut after = shaper.clone();
    after.reserve(id);
    Ok(after)
}

/// The row call.
pub fn row(shaper: &Shaper, row: &Row) -> Result<(Shaper, Shape), Refusal> {
    refusals::entries(row.entries.len())?;
    let mut after = shaper.clone();
    let shape = after.next_row_shape(row.node, codes::ancestors(&row.entries));
    refusals::node_line(shape.node_line.len())?;
    let width = shape.node_line.len() as u64;
    Ok((after, Shape { row: shape, width }))
}

/// The preview call: the row call on a copy of the shaper.
pub fn preview(shaper: &Shaper, call: &Row) -> Result<Previewed, Refusal> {
    let (after, shape) = row(shaper, call)?;
    Ok(Previewed {
        column: shape.row.node_column,
        width: shape.width,
        columns: after.columns().clone(),
    })
}

/// What a refused preview gives: the columns as they are.
pub fn blank_preview(shaper: &Shaper) -> Previewed {
    Previewed {
        column: 0,
        width: 0,
        columns: shaper.columns().clone(),
    }
}

/// The width call; node and entries may be absent.
pub fn width(
    shaper: &Shaper,
    node: Option<u32>,
    entries: Option<&[Entry]>,
) -> Result<u64, Refusal> {
    refusals::entries(entries.map_or(0, <[Entry]>::len))?;
    let parents = entries.map(codes::ancestors);
    Ok(shaper.width_with_options(node.as_ref(), parents.as_ref(), *shaper.options()))
}

/// The lines that a renderer call writes, whatever the output's length.
pub fn renderer(shape: &Shape, code: u8, mark: u8) -> Result<String, Refusal> {
    refusals::mark(mark)?;
    refusals::shape_width(shape.width)?;
    let lines = prefix_lines(shape, code);
    Ok(lines
        .iter()
        .map(|line| format!("{}{}\n", codes::kind_letter(line.kind), joined(line, mark)))
        .collect())
}

/// A shape's prefix lines.
pub fn prefix_lines(shape: &Shape, code: u8) -> Vec<PrefixLine> {
    codes::renderer(code).next_prefix_lines(&shape.row)
}

/// A prefix line with the mark in place.
pub fn joined(line: &PrefixLine, mark: u8) -> String {
    prefix_lines_to_text::join(line, glyph(mark).as_str())
}

/// The lines that a text call writes, whatever the output's length, and the states after it.
pub fn text(shaper: &Shaper, state: &TextState, call: &Text) -> Result<Written, Refusal> {
    refusals::mark(call.drawing.mark)?;
    refusals::message_length(&call.message)?;
    refusals::message_bytes(&call.message)?;
    row(shaper, &call.row)?;
    let mut renderer = text_renderer(shaper, state, call.drawing.renderer);
    let mut out = String::new();
    renderer.write_next_text(
        &mut out,
        call.row.node,
        codes::ancestors(&call.row.entries),
        &glyph(call.drawing.mark),
        &String::from_utf8_lossy(&call.message),
    );
    let line_lengths = line_lengths(&out);
    let mut text = out.into_bytes();
    state.put_back(&mut text);
    let (shaper, stage) = renderer.into_parts();
    Ok(Written {
        shaper,
        state: TextState::from_crate(stage.into_state()),
        text,
        line_lengths,
    })
}

/// The crate's text renderer with this code, in these states.
fn text_renderer(shaper: &Shaper, state: &TextState, code: u8) -> GraphTextRenderer<u32> {
    GraphTextRenderer::by_hand(
        shaper.clone(),
        codes::renderer(code),
        PrefixLinesToText::by_hand(state.to_crate()),
    )
}

/// How many bytes each line has that the crate has ended. A line end of the queued line's own has a stand-in and ends none.
fn line_lengths(text: &str) -> Vec<usize> {
    text.split_terminator('\n').map(str::len).collect()
}

/// The shaper set by hand: a count above 64 is read as 64, slots not given are Empty.
pub fn hand_shaper(hand: &HandShaper) -> Shaper {
    let count = hand.count.min(refusals::COLUMNS as u64) as usize;
    let columns = padded(&hand.slots, count)
        .iter()
        .map(codes::column)
        .collect();
    let previous = codes::flag(hand.has_previous).then_some(hand.previous as usize);
    Shaper::by_hand(columns, codes::options(&hand.options), previous)
}

/// The text state set by hand: a queued length beyond the array is the array's, bytes not given are 0.
pub fn hand_state(hand: &HandState) -> TextState {
    let length = hand.length.min(QUEUE as u64) as usize;
    TextState {
        queued: codes::flag(hand.queued).then(|| padded(&hand.bytes, length)),
        row_height: hand.row_height as usize,
    }
}

/// The shape set by hand: cells not given are blank, those of absent lines are left out.
pub fn hand_shape(hand: &HandShape) -> Shape {
    let count = hand.width.min(refusals::COLUMNS as u64) as usize;
    let cells = padded(&hand.cells, count);
    let (link, term) = (codes::flag(hand.has_link), codes::flag(hand.has_term));
    let row = GraphRowShape {
        node: hand.node,
        merge: codes::flag(hand.merge),
        separator_line: codes::flag(hand.separator),
        style: codes::style(hand.dash, hand.placement),
        is_head: codes::flag(hand.head),
        is_root: codes::flag(hand.root),
        node_column: hand.column as usize,
        parent_columns: (0..count)
            .filter(|i| codes::flag(cells[*i].parent))
            .collect(),
        node_line: cells
            .iter()
            .map(|cell| codes::node_cell(cell.node))
            .collect(),
        link_line: link.then(|| {
            cells
                .iter()
                .map(|cell| codes::link_cell(cell.link))
                .collect()
        }),
        link_line_from_node: link.then(|| {
            cells
                .iter()
                .map(|cell| codes::link_cell(cell.from))
                .collect()
        }),
        term_line: term.then(|| cells.iter().map(|cell| codes::flag(cell.term)).collect()),
        ancestry_line: cells
            .iter()
            .map(|cell| codes::ancestry_cell(cell.ancestry))
            .collect(),
    };
    Shape {
        row,
        width: hand.width,
    }
}

/// The first `count` items, with blank ones for those not given.
fn padded<T: Clone + Default>(items: &[T], count: usize) -> Vec<T> {
    let mut padded = items.to_vec();
    padded.resize(count, T::default());
    padded
}

/// A mark as the crate takes it.
fn glyph(mark: u8) -> String {
    char::from(mark).to_string()
}
