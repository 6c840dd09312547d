//! What is seen of a machine: its answers to the calls of a list.

use std::collections::BTreeSet;
use std::iter;

use crate::calls::Shaper;
use crate::codes;
use crate::column::Column;
use crate::origins::Started;
use crate::pipeline::types::DashStyle;
use crate::pipeline::types::GraphRowShape;
use crate::pipeline::types::GraphRowShapeStyle;
use crate::render::LinkLine;
use crate::stream::Command;
use crate::stream::Row;
use crate::waiting;

use super::lines;
use super::lines::Lines;
use super::lines::RENDERERS;

/// The first mark that passes.
const FIRST_MARK: u8 = 0x21;
/// How many marks pass.
const MARKS: u64 = 0x7e - 0x21 + 1;

/// A machine's answers to one list, call after call.
pub trait Answers {
    /// What is seen of the command that the list begins with: a new shaper call, or a shaper set by hand.
    fn begin(&mut self, opening: &Command) -> Begun;

    /// What is seen of the next reserving, row or text call.
    fn call(&mut self, call: &Command) -> Seen;

    /// What the query gives for an id after that call; the id is one of those that are asked for.
    fn started(&self, id: u32) -> Started;
}

/// What is seen of the command that a list begins with.
pub struct Begun {
    /// The refusal number, 0 for none.
    pub number: u8,
    /// The columns of the shaper that it gives.
    pub columns: Vec<Column<u32>>,
}

/// What is seen of a reserving, row or text call.
pub struct Seen {
    /// The refusal number, 0 for none.
    pub number: u8,
    /// The columns after the call.
    pub columns: Vec<Column<u32>>,
    /// What each of them carries, if it is Ancestor or Parent.
    pub origins: Vec<Option<u32>>,
    /// Of an accepted row or text call.
    pub drawn: Option<Drawn>,
    /// How a text call differs from the row call with its node and entries, if it does.
    pub differs: Option<String>,
}

/// What is seen of an accepted row: the node's column, for each renderer the head and foot lines that its call writes, and the links.
pub struct Drawn {
    pub node: usize,
    pub lines: [Written; RENDERERS],
    pub links: Links,
}

/// What is seen of a row's links: whether there is a link line, the marks that come from the node, and the term cells. A line that is
/// absent has no cells.
#[derive(Clone, Debug, Default, PartialEq, Eq)]
pub struct Links {
    pub linked: bool,
    pub marks: Vec<LinkLine>,
    pub terms: Vec<bool>,
}

impl Links {
    /// The links of the Rust's shape.
    pub fn new(shape: &GraphRowShape<u32>) -> Self {
        Self {
            linked: shape.link_line.is_some(),
            marks: shape.link_line_from_node.clone().unwrap_or_default(),
            terms: shape.term_line.clone().unwrap_or_default(),
        }
    }
}

/// The lines that a renderer call writes, or words for what it does instead.
pub type Written = Result<Lines, String>;

/// All of a shaper that can be seen.
#[derive(Clone, Debug, PartialEq, Eq)]
pub struct View {
    pub height: usize,
    pub stagger: bool,
    pub style: GraphRowShapeStyle,
    pub previous: Option<usize>,
    pub columns: Vec<Column<u32>>,
    pub origins: Vec<Option<u32>>,
}

impl View {
    /// What can be seen of the Rust's shaper, whose columns carry nothing.
    pub fn new(shaper: &Shaper) -> Self {
        let options = shaper.options();
        Self {
            height: options.min_row_height,
            stagger: options.stagger_consecutive_disconnected_nodes,
            style: options.graph_row_shape_style,
            previous: shaper.previous_node_column(),
            columns: shaper.columns().clone(),
            origins: Vec::new(),
        }
    }
}

/// Words for the shaper after a text call, where it differs from the one after the row call.
pub fn difference(text: &View, row: &View) -> Option<String> {
    (text != row).then(|| format!("the text call leaves {text:?}, the row call {row:?}"))
}

/// The ids that are asked for after each call of a list: every one that its calls reserve, draw or name, and one that none of them does.
pub fn asked(list: &[Command]) -> Vec<u32> {
    let mut ids = BTreeSet::new();
    for call in list {
        match call {
            Command::Reserve(id) => ids.extend([*id]),
            call => ids.extend(waiting::row_of(call).into_iter().flat_map(ids_of)),
        }
    }
    let never = (0..=u32::MAX).rev().find(|id| !ids.contains(id));
    ids.extend(never);
    ids.into_iter().collect()
}

/// The node of a row, and the ids that it names.
fn ids_of(row: &Row) -> impl Iterator<Item = u32> + '_ {
    let named = row.entries.iter().filter_map(waiting::named);
    iter::once(row.node).chain(named)
}

/// The mark with which a row is drawn; they take turns.
pub fn mark(turn: u64) -> u8 {
    FIRST_MARK + (turn % MARKS) as u8
}

/// The dashes of the shaper that a list begins with; those of a refused new shaper call are Persistent.
pub fn dashes(opening: &Command, number: u8) -> DashStyle {
    codes::dash(match opening {
        Command::New(options) if number == 0 => options.dash,
        Command::Shaper(hand) => hand.options.dash,
        _ => 0,
    })
}

/// The columns of an id.
pub fn places(columns: &[Column<u32>], id: u32) -> impl Iterator<Item = usize> + '_ {
    let holds = move |place: &usize| codes::held(&columns[*place]) == Some(id);
    (0..columns.len()).filter(holds)
}

/// The column at a place; past the last one it is Empty.
pub fn column_at(columns: &[Column<u32>], place: usize) -> &Column<u32> {
    columns.get(place).unwrap_or(&Column::Empty)
}

/// The head and foot lines out of what a renderer call wrote, or gave instead.
pub fn written(given: Result<String, String>, renderer: usize, dashes: DashStyle) -> Written {
    let decoded = given
        .as_ref()
        .ok()
        .and_then(|lines| lines::decode(lines, renderer, dashes));
    decoded.ok_or_else(|| format!("renderer {renderer} gives {given:?}"))
}
