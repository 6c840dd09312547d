//! The Rust side: the crate's own renderer and shaper on rows that were read from the records before.

use std::hint::black_box;

use crate::codes;
use crate::output::OutputRendererOptions;
use crate::pipeline::graph_text_renderer::GraphTextRenderer;
use crate::pipeline::graph_to_row_shape::GraphRowShaper;
use crate::pipeline::prefix_lines_to_text;
use crate::pipeline::types::GraphRowShape;
use crate::records;
use crate::refusals;
use crate::render::Ancestor;
use crate::render::LinkLine;
use crate::render::NodeLine;
use crate::render::PadLine;
use crate::stream::Entry;
use crate::stream::Options;

/// A row as the crate takes it.
pub struct Row {
    node: u32,
    entries: Vec<Entry>,
    mark: String,
}

impl Row {
    /// The parents as the crate's calls take them: a list of its own for each call.
    fn parents(&self) -> Vec<Ancestor<u32>> {
        codes::ancestors(&self.entries)
    }
}

/// The rows of some records.
pub fn rows(bytes: &[u8]) -> Vec<Row> {
    bytes
        .chunks(refusals::RECORD)
        .map(|bytes| {
            let record = records::record(bytes)
                .unwrap_or_else(|_| panic!("a record of the bench is refused"))
                .unwrap_or_default();
            Row {
                node: record.id,
                entries: record.entries,
                mark: char::from(record.mark).to_string(),
            }
        })
        .collect()
}

/// Height 1, no staggering, Persistent, Top, as ours begins.
fn options() -> OutputRendererOptions {
    codes::options(&Options {
        height: 1,
        ..Options::default()
    })
}

/// A new text renderer.
fn renderer(code: u8) -> GraphTextRenderer<u32> {
    GraphTextRenderer::with_prefix_lines(codes::renderer(code))
        .configure(|given| *given = options())
}

/// Every row's text into `out`, which is emptied before each unless the texts are kept.
#[inline(never)]
pub fn text(rows: &[Row], message: &str, code: u8, kept: bool, out: &mut String) {
    let mut renderer = renderer(code);
    for row in black_box(rows) {
        if !kept {
            out.clear();
        }
        renderer.write_next_text(out, row.node, row.parents(), &row.mark, message);
        black_box(&mut *out);
    }
}

/// Every row's prefix lines into `out`, which is emptied before each row unless they are kept: each line as its kind letter, the line with
/// the mark in place, and a line end.
#[inline(never)]
pub fn lines(rows: &[Row], code: u8, kept: bool, out: &mut String) {
    let mut shaper = GraphRowShaper::with_options(options());
    let mut renderer = codes::renderer(code);
    for row in black_box(rows) {
        if !kept {
            out.clear();
        }
        let shape = shaper.next_row_shape(row.node, row.parents());
        for line in renderer.next_prefix_lines(&shape) {
            out.push(codes::kind_letter(line.kind));
            out.push_str(&prefix_lines_to_text::join(&line, &row.mark));
            out.push('\n');
        }
        black_box(&mut *out);
    }
}

/// Every row's shape, each dropped before the next.
#[inline(never)]
pub fn shapes(rows: &[Row]) {
    let mut shaper = GraphRowShaper::with_options(options());
    for row in black_box(rows) {
        black_box(shaper.next_row_shape(row.node, row.parents()));
    }
}

/// Every row's preview, by the row call on a copy of the shaper, which then takes the shaper's place: node column, width and the count of
/// columns afterwards, a byte each, into `out`, which is emptied before each row unless they are kept.
#[inline(never)]
pub fn previews(rows: &[Row], kept: bool, out: &mut Vec<u8>) {
    let mut shaper = GraphRowShaper::with_options(options());
    for row in black_box(rows) {
        if !kept {
            out.clear();
        }
        let mut copy = shaper.clone();
        let shape = black_box(copy.next_row_shape(row.node, row.parents()));
        let columns = copy.columns().len();
        out.extend([shape.node_column, shape.node_line.len(), columns].map(|n| n as u8));
        black_box(&mut *out);
        shaper = copy;
    }
}

/// Every row's shape in the bytes that our side writes.
pub fn shape_bytes(rows: &[Row]) -> Vec<u8> {
    let mut shaper = GraphRowShaper::with_options(options());
    let mut bytes = Vec::new();
    for row in rows {
        write_shape(&mut bytes, &shaper.next_row_shape(row.node, row.parents()));
    }
    bytes
}

/// A shape: what is said of the row, then its cells.
fn write_shape(bytes: &mut Vec<u8>, shape: &GraphRowShape<u32>) {
    bytes.extend(shape.node.to_le_bytes());
    bytes.extend([shape.is_head, shape.is_root, shape.merge].map(u8::from));
    bytes.extend([shape.node_column as u8, shape.node_line.len() as u8]);
    bytes.push(u8::from(shape.separator_line));
    bytes.extend([shape.link_line.is_some(), shape.term_line.is_some()].map(u8::from));
    for cell in 0..shape.node_line.len() {
        write_cell(bytes, shape, cell);
    }
}

/// A cell: node, link, link from node, term, ancestry, parent. Those of lines that are not there are 0.
fn write_cell(bytes: &mut Vec<u8>, shape: &GraphRowShape<u32>, cell: usize) {
    let link = |line: &Option<Vec<_>>| {
        line.as_ref()
            .map_or(0, |line: &Vec<LinkLine>| line[cell].bits())
    };
    bytes.push(match shape.node_line[cell] {
        NodeLine::Blank => 0,
        NodeLine::Ancestor => 1,
        NodeLine::Parent => 2,
        NodeLine::Node => 3,
    });
    bytes.extend(link(&shape.link_line).to_le_bytes());
    bytes.extend(link(&shape.link_line_from_node).to_le_bytes());
    bytes.push(u8::from(
        shape.term_line.as_ref().is_some_and(|line| line[cell]),
    ));
    bytes.push(match shape.ancestry_line[cell] {
        PadLine::Blank => 0,
        PadLine::Ancestor => 1,
        PadLine::Parent => 2,
    });
    bytes.push(u8::from(shape.parent_columns.contains(&cell)));
}
