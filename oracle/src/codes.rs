//! What the codes of a stream mean in the crate's types.

use crate::column::Column;
use crate::output::OutputRendererOptions;
use crate::pipeline::row_shape_to_prefix_lines::ascii::AsciiPrefixLineRenderer;
use crate::pipeline::row_shape_to_prefix_lines::ascii_large::AsciiLargePrefixLineRenderer;
use crate::pipeline::row_shape_to_prefix_lines::box_drawing::BoxDrawingPrefixLineRenderer;
use crate::pipeline::row_shape_to_prefix_lines::box_drawing::Curved;
use crate::pipeline::row_shape_to_prefix_lines::box_drawing::DecGraphics;
use crate::pipeline::row_shape_to_prefix_lines::box_drawing::Square;
use crate::pipeline::types::DashStyle;
use crate::pipeline::types::GraphRowShapeStyle;
use crate::pipeline::types::LinkLinePlacement;
use crate::pipeline::types::PrefixLineKind;
use crate::pipeline::types::PrefixLineRenderer;
use crate::refusals;
use crate::render::Ancestor;
use crate::render::LinkLine;
use crate::render::NodeLine;
use crate::render::PadLine;
use crate::stream::Entry;
use crate::stream::Options;
use crate::stream::Slot;

/// A renderer chosen at run time.
pub type AnyRenderer = Box<dyn PrefixLineRenderer<u32> + Send + Sync + 'static>;

/// A flag: 0 is no, anything else yes.
pub fn flag(code: u8) -> bool {
    code != 0
}

/// The dash style with this code.
pub fn dash(code: u8) -> DashStyle {
    match code {
        0 => DashStyle::Persistent,
        _ => DashStyle::Once,
    }
}

/// The link placement with this code.
pub fn placement(code: u8) -> LinkLinePlacement {
    match code {
        0 => LinkLinePlacement::Top,
        _ => LinkLinePlacement::Bottom,
    }
}

/// The style with these codes.
pub fn style(dash_code: u8, placement_code: u8) -> GraphRowShapeStyle {
    GraphRowShapeStyle {
        dash_style: dash(dash_code),
        link_line_placement: placement(placement_code),
    }
}

/// The options; a height above 16 is read as 16.
pub fn options(options: &Options) -> OutputRendererOptions {
    OutputRendererOptions {
        min_row_height: options.height.min(refusals::HEIGHT) as usize,
        stagger_consecutive_disconnected_nodes: flag(options.stagger),
        graph_row_shape_style: style(options.dash, options.placement),
    }
}

/// The parent entry; a kind above 2 is Anonymous.
pub fn ancestor(entry: &Entry) -> Ancestor<u32> {
    match entry.kind {
        1 => Ancestor::Ancestor(entry.id),
        2 => Ancestor::Parent(entry.id),
        _ => Ancestor::Anonymous,
    }
}

/// The parent entries.
pub fn ancestors(entries: &[Entry]) -> Vec<Ancestor<u32>> {
    entries.iter().map(ancestor).collect()
}

/// The column; a kind above 4 is Empty.
pub fn column(slot: &Slot) -> Column<u32> {
    match slot.kind {
        1 => Column::Blocked,
        2 => Column::Reserved(slot.id),
        3 => Column::Ancestor(slot.id),
        4 => Column::Parent(slot.id),
        _ => Column::Empty,
    }
}

/// The id that a column holds.
pub fn held(column: &Column<u32>) -> Option<u32> {
    match column {
        Column::Empty | Column::Blocked => None,
        Column::Reserved(id) | Column::Ancestor(id) | Column::Parent(id) => Some(*id),
    }
}

/// Whether a column's id was named by a row: it is Ancestor or Parent.
pub fn is_named(column: &Column<u32>) -> bool {
    matches!(column, Column::Ancestor(_) | Column::Parent(_))
}

/// The node cell; a code above 3 is blank.
pub fn node_cell(code: u8) -> NodeLine {
    match code {
        1 => NodeLine::Ancestor,
        2 => NodeLine::Parent,
        3 => NodeLine::Node,
        _ => NodeLine::Blank,
    }
}

/// The ancestry cell; a code above 2 is blank.
pub fn ancestry_cell(code: u8) -> PadLine {
    match code {
        1 => PadLine::Ancestor,
        2 => PadLine::Parent,
        _ => PadLine::Blank,
    }
}

/// The single marks with their names, in the order of render.rs; its unions are left out.
pub fn marks() -> impl Iterator<Item = (&'static str, LinkLine)> {
    LinkLine::FLAGS
        .iter()
        .copied()
        .filter(|(_, flag)| flag.bits().is_power_of_two())
}

/// The link cell: bit k is the k-th mark, further bits are free.
pub fn link_cell(code: u16) -> LinkLine {
    marks()
        .enumerate()
        .filter(|(place, _)| code >> place & 1 == 1)
        .fold(LinkLine::empty(), |cell, (_, (_, mark))| cell | mark)
}

/// The renderer with this code; one above 4 is DEC.
pub fn renderer(code: u8) -> AnyRenderer {
    match code {
        0 => Box::new(AsciiPrefixLineRenderer::new()),
        1 => Box::new(AsciiLargePrefixLineRenderer::new()),
        2 => Box::new(BoxDrawingPrefixLineRenderer::<Square>::new()),
        3 => Box::new(BoxDrawingPrefixLineRenderer::<Curved>::new()),
        _ => Box::new(BoxDrawingPrefixLineRenderer::<DecGraphics>::new()),
    }
}

/// Document 01's letter for a kind of line; no renderer gives a separator.
pub fn kind_letter(kind: PrefixLineKind) -> char {
    match kind {
        PrefixLineKind::PreNode => 'P',
        PrefixLineKind::Node => 'N',
        PrefixLineKind::PostNode => 'Q',
        PrefixLineKind::Link => 'L',
        PrefixLineKind::Term => 'T',
        PrefixLineKind::Ancestry => 'A',
        PrefixLineKind::PostAncestry => 'Z',
        PrefixLineKind::Separator => unreachable!("a renderer gave a separator"),
    }
}
