//! The marks of one row that come from its node, against the columns that are reached.

use std::collections::BTreeSet;

use crate::answers;
use crate::render::LinkLine;
use crate::trial::Failing;
use crate::trial::Links;

use super::clauses::Clause;

/// The forks and merges that face left.
const FACING_LEFT: [LinkLine; 4] = [
    LinkLine::LEFT_FORK_PARENT,
    LinkLine::LEFT_FORK_ANCESTOR,
    LinkLine::LEFT_MERGE_PARENT,
    LinkLine::LEFT_MERGE_ANCESTOR,
];

/// The forks and merges that face right.
const FACING_RIGHT: [LinkLine; 4] = [
    LinkLine::RIGHT_FORK_PARENT,
    LinkLine::RIGHT_FORK_ANCESTOR,
    LinkLine::RIGHT_MERGE_PARENT,
    LinkLine::RIGHT_MERGE_ANCESTOR,
];

/// How many cells are looked at past the last that can have anything.
const BEYOND: usize = 4;

/// An accepted row: the node's column, its links, the columns that are reached, and how many columns there are before or after the row.
pub struct Marked<'a> {
    pub node: usize,
    pub links: &'a Links,
    pub reached: BTreeSet<usize>,
    pub columns: usize,
}

impl Marked<'_> {
    /// Tries every clause about the marks.
    pub fn claim(&self, failing: &mut Failing<Clause>) {
        for cell in self.cells() {
            self.claim_across(cell, failing);
            self.claim_left(cell, failing);
            self.claim_right(cell, failing);
        }
        if !self.links.linked {
            self.claim_unlinked(failing);
        }
    }

    /// The cells that are looked at: those of the lines, of all columns, of the node and of every column that is reached, and some more.
    pub fn cells(&self) -> impl Iterator<Item = usize> {
        let lines = self.links.marks.len().max(self.links.terms.len());
        let furthest = self.reached.last().copied().unwrap_or(0).max(self.node);
        0..lines.max(self.columns).max(furthest) + BEYOND
    }

    /// The marks of a cell; a missing one has none.
    pub fn marks(&self, cell: usize) -> LinkLine {
        let marks = self.links.marks.get(cell);
        marks.copied().unwrap_or(LinkLine::empty())
    }

    /// A cell is HORIZONTAL exactly if it lies strictly between the node and a column that is reached.
    fn claim_across(&self, cell: usize, failing: &mut Failing<Clause>) {
        let between = |to: &usize| is_between(self.node, cell, *to);
        let due = self.reached.iter().any(between);
        let is = self.marks(cell).intersects(LinkLine::HORIZONTAL);
        failing.claim(Clause::Across, is == due, || self.found(cell));
    }

    /// One fork or merge faces left where a link leads there, and none where not.
    fn claim_left(&self, cell: usize, failing: &mut Failing<Clause>) {
        let count = count(self.marks(cell), FACING_LEFT);
        let leads = self.other_ends(cell).any(|end| end < cell);
        failing.claim(Clause::Left, !leads || count == 1, || self.found(cell));
        failing.claim(Clause::NoLeft, leads || count == 0, || self.found(cell));
    }

    /// One fork or merge faces right where a link leads there, and none where not.
    fn claim_right(&self, cell: usize, failing: &mut Failing<Clause>) {
        let count = count(self.marks(cell), FACING_RIGHT);
        let leads = self.other_ends(cell).any(|end| cell < end);
        failing.claim(Clause::Right, !leads || count == 1, || self.found(cell));
        failing.claim(Clause::NoRight, leads || count == 0, || self.found(cell));
    }

    /// A row without a link line has no marks, and no link leads beside the node's column.
    fn claim_unlinked(&self, failing: &mut Failing<Clause>) {
        for cell in self.cells() {
            let unmarked = self.marks(cell) == LinkLine::empty();
            failing.claim(Clause::Unmarked, unmarked, || self.found(cell));
        }
        for column in &self.reached {
            let straight = *column == self.node;
            failing.claim(Clause::Straight, straight, || self.found(*column));
        }
    }

    /// A link leads from the node's column to each that is reached; the other ends of those of which this cell is an end.
    fn other_ends(&self, cell: usize) -> impl Iterator<Item = usize> + '_ {
        let from_node = self.reached.contains(&cell).then_some(self.node);
        let reached = self.reached.iter().filter(move |_| cell == self.node);
        from_node.into_iter().chain(reached.copied())
    }

    /// Words for what stands in a cell.
    fn found(&self, cell: usize) -> String {
        let (node, reached) = (self.node, &self.reached);
        let marks = answers::marks(&self.marks(cell));
        format!("cell {cell} has {marks}; node in column {node}, reached {reached:?}")
    }
}

/// Whether a fork or merge of a cell faces right.
pub fn faces_right(marks: LinkLine) -> bool {
    count(marks, FACING_RIGHT) > 0
}

/// Whether a cell lies strictly between the node's column and another.
fn is_between(node: usize, cell: usize, other: usize) -> bool {
    (node < cell && cell < other) || (other < cell && cell < node)
}

/// How many of these marks a cell has.
fn count(marks: LinkLine, of: [LinkLine; 4]) -> usize {
    of.into_iter().filter(|mark| marks.contains(*mark)).count()
}
