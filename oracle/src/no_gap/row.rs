//! An accepted row, and the columns that are reached by the account of R-9's statement.

use std::collections::BTreeSet;

use crate::codes;
use crate::column::Column;
use crate::render::Ancestor;
use crate::stream::Command;
use crate::stream::Row;
use crate::trial::places;
use crate::trial::Drawn;
use crate::trial::Failing;
use crate::trial::Seen;
use crate::waiting;

use super::clauses::Clause;
use super::marks::Marked;

/// An accepted row, what is seen of it, and the columns before and after it.
pub struct Made<'a> {
    pub row: &'a Row,
    pub drawn: &'a Drawn,
    pub before: &'a [Column<u32>],
    pub after: &'a [Column<u32>],
}

impl<'a> Made<'a> {
    /// The row as which a call counts, if it is an accepted one. A text call has to count as its row call, of which there is a shape.
    pub fn new(
        call: &'a Command,
        before: &'a [Column<u32>],
        seen: &'a Seen,
        failing: &mut Failing<Clause>,
    ) -> Option<Self> {
        let found = || seen.differs.clone().unwrap_or_default();
        failing.claim(Clause::Counts, seen.differs.is_none(), found);
        let row = waiting::row_of(call).filter(|_| seen.number == 0)?;
        let found = || "there is no shape".to_owned();
        failing.claim(Clause::Counts, seen.drawn.is_some(), found);
        Some(Self {
            row,
            drawn: seen.drawn.as_ref()?,
            before,
            after: &seen.columns,
        })
    }

    /// The columns that are reached: those of the ids that the row names, right after it; the term cells; and the column given up in a
    /// swap.
    pub fn reached(&self) -> BTreeSet<usize> {
        let mut reached = self.term_cells();
        for id in self.named() {
            reached.extend(places(self.after, id));
            reached.extend(self.given_up(id));
        }
        reached
    }

    /// The row's marks, against the columns that are reached.
    pub fn marked(&self, reached: BTreeSet<usize>) -> Marked<'a> {
        Marked {
            node: self.drawn.node,
            links: &self.drawn.links,
            reached,
            columns: self.before.len().max(self.after.len()),
        }
    }

    /// The ids that the row names.
    pub fn named(&self) -> impl Iterator<Item = u32> + 'a {
        self.row.entries.iter().filter_map(waiting::named)
    }

    /// The columns right of the node that held the id before the row, if it is the row's one entry.
    pub fn given_up(&self, id: u32) -> impl Iterator<Item = usize> + 'a {
        let (single, node) = (waiting::is_one_entry(self.row, id), self.drawn.node);
        places(self.before, id).filter(move |column| single && node < *column)
    }

    /// The term cells that are set.
    pub fn term_cells(&self) -> BTreeSet<usize> {
        let terms = &self.drawn.links.terms;
        (0..terms.len()).filter(|cell| terms[*cell]).collect()
    }

    /// How many entries are Anonymous.
    pub fn anonymous(&self) -> usize {
        let entries = self.row.entries.iter().map(codes::ancestor);
        let anonymous = entries.filter(|entry| matches!(entry, Ancestor::Anonymous));
        anonymous.count()
    }

    /// There is one term cell for each Anonymous entry.
    pub fn claim_terms(&self, failing: &mut Failing<Clause>) {
        let (cells, entries) = (self.term_cells(), self.anonymous());
        let found = || format!("{entries} Anonymous entries, term cells {cells:?}");
        failing.claim(Clause::Terms, cells.len() == entries, found);
    }

    /// Words for the columns.
    pub fn found(&self) -> String {
        let (node, before, after) = (self.drawn.node, self.before, self.after);
        format!("node in column {node}, columns {before:?} before and {after:?} after the row")
    }
}
