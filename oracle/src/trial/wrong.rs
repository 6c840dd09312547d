//! What a wrong machine does in the Rust's place.

use std::collections::BTreeMap;

use crate::calls::Shape;
use crate::calls::Shaper;
use crate::column::Column;
use crate::column::ColumnsExt;
use crate::origins::Started;
use crate::stream::Row;
use crate::waiting;

use super::lines;
use super::lines::Lines;
use super::lines::Stroke;
use super::lines::RENDERERS;
use super::seen::Drawn;

/// A node that is reported far right is reported in the column with the number of columns plus this.
const FAR: usize = 7;

/// What is wrong in a machine that otherwise is the Rust's; unless it says so, nothing. What it does with a row it does with the row of a
/// text call, too.
pub trait Wrong: Copy + PartialEq + 'static {
    /// The wrong machines by name.
    const NAMES: &'static [(&'static str, Self)];

    /// The fault with this name.
    fn new(name: &str) -> Result<Self, String> {
        let found = Self::NAMES.iter().find(|(known, _)| *known == name);
        found.map(|(_, fault)| *fault).ok_or_else(|| {
            let names: Vec<_> = Self::NAMES.iter().map(|(name, _)| *name).collect();
            format!("{name} is no mutant; these are: {}", names.join(" "))
        })
    }

    /// The fault's name.
    fn name(self) -> &'static str {
        let found = Self::NAMES.iter().find(|(_, fault)| *fault == self);
        found.expect("every fault has a name").0
    }

    /// The columns of a new shaper, in place of those that the Rust gives it.
    fn fresh(self, columns: Vec<Column<u32>>) -> Vec<Column<u32>> {
        columns
    }

    /// The columns after an accepted reservation, in place of those that the Rust leaves.
    fn reserved(
        self,
        _before: &Vec<Column<u32>>,
        _id: u32,
        columns: Vec<Column<u32>>,
    ) -> Vec<Column<u32>> {
        columns
    }

    /// The shaper after an accepted text call, in place of the one that the Rust leaves.
    fn written(self, _before: &Shaper, after: Shaper) -> Shaper {
        after
    }

    /// Does to an accepted row what the fault says.
    fn spoil(self, row: &TrueRow, outcome: &mut Outcome);

    /// Takes an accepted row into the nodes that the fault carries in place of the true ones, by the ids whose lines they start.
    fn take_names(self, _row: &TrueRow, _namers: &mut BTreeMap<u32, u32>) {}

    /// What a column carries, in place of this node.
    fn carried(self, node: u32) -> u32 {
        node
    }

    /// What the query gives for an id, in place of this.
    fn answer(self, _id: u32, started: Started) -> Started {
        started
    }
}

/// An accepted row as the Rust has it.
pub struct TrueRow<'a> {
    pub before: &'a Vec<Column<u32>>,
    /// What the node's column carried, 0 where nothing.
    pub carried: u32,
    pub row: &'a Row,
    pub shape: &'a Shape,
    /// Whether a row was accepted before.
    pub later: bool,
    /// The foot lines of the accepted row before.
    pub above: &'a [Vec<Stroke>; RENDERERS],
}

/// What an accepted row leaves and shows.
pub struct Outcome {
    pub columns: Vec<Column<u32>>,
    pub drawn: Drawn,
}

impl TrueRow<'_> {
    /// The node's column.
    pub fn node(&self) -> usize {
        self.shape.row.node_column
    }

    /// How many cells the row has.
    pub fn width(&self) -> usize {
        self.shape.row.node_line.len()
    }

    /// Whether a column holds the node's id.
    pub fn is_held(&self) -> bool {
        self.before.find(&self.row.node).is_some()
    }

    /// The column of the single entry that is swapped.
    pub fn swapped(&self) -> Option<usize> {
        let [entry] = self.row.entries.as_slice() else {
            return None;
        };
        let held = waiting::named(entry).and_then(|id| self.before.find(&id));
        held.filter(|held| *held > self.node())
    }

    /// The ids that the row names.
    pub fn named(&self) -> impl Iterator<Item = u32> + '_ {
        self.row.entries.iter().filter_map(waiting::named)
    }

    /// Undoes the swap, if there is one, and draws the foot line from the columns.
    pub fn unswap(&self, outcome: &mut Outcome) {
        if let Some(right) = self.swapped() {
            let mut columns = std::mem::take(&mut outcome.columns);
            columns.resize(columns.len().max(right + 1), Column::Empty);
            columns.swap(self.node(), right);
            outcome.columns = trimmed(columns);
        }
        outcome.draw_feet();
    }

    /// Reports the node far right of the columns, without a swap.
    pub fn far(&self, outcome: &mut Outcome) {
        self.unswap(outcome);
        outcome.drawn.node = self.before.len() + FAR;
    }
}

impl Outcome {
    /// Alters the lines of each renderer.
    pub fn alter(&mut self, change: impl Fn(usize, &mut Lines)) {
        for (renderer, lines) in self.drawn.lines.iter_mut().enumerate() {
            if let Ok(lines) = lines {
                change(renderer, lines);
            }
        }
    }

    /// Draws each foot line from the columns.
    pub fn draw_feet(&mut self) {
        let feet = lines::drawn_from(&self.columns);
        self.alter(|_, lines| lines.foot.clone_from(&feet));
    }
}

/// Columns without the Empty ones at their end.
pub fn trimmed(mut columns: Vec<Column<u32>>) -> Vec<Column<u32>> {
    let used = columns.iter().rposition(|it| *it != Column::Empty);
    columns.truncate(used.map_or(0, |last| last + 1));
    columns
}
