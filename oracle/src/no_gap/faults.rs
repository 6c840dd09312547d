//! The wrong machines of R-9: each is the Rust's with one thing wrong, which acts on the links of a row, the node's column that is
//! reported, or the columns.

use std::cmp::Ordering;
use std::collections::BTreeSet;

use crate::calls::Shaper;
use crate::codes;
use crate::column::Column;
use crate::render::LinkLine;
use crate::trial::places;
use crate::trial::trimmed;
use crate::trial::Links;
use crate::trial::Outcome;
use crate::trial::TrueRow;
use crate::trial::Wrong;

use super::marks::faces_right;
use super::row::Made;

/// What a wrong machine does.
#[derive(Clone, Copy, Debug, PartialEq, Eq)]
pub enum Fault {
    /// The leftmost HORIZONTAL cell of a row loses these marks.
    Gapped,
    /// Where a row has a link line, the cell past its cells has a fork that faces left.
    StrayFork,
    /// Where a row has a link line, the cell past its cells has a merge that faces right.
    StrayMerge,
    /// Every row draws a link to a column that no entry has, two past its cells, and claims it as an Anonymous entry's.
    FalseTerm,
    /// A node that a column holds is reported far right; its row does not swap, and its links are drawn from there.
    Elsewhere,
    /// The columns that are reached have no forks and merges, but for the node's.
    Unforked,
    /// A row with a link line is shown without it, and without marks.
    DroppedLink,
    /// A row without a link line has the mark CHILD in the node's cell.
    MarkedUnlinked,
    /// After a row with two entries or more, the id that it names last is in no column, and no link leads there.
    LostParent,
    /// The id of a single entry to the right of the node stays where it is.
    Unmoved,
    /// An accepted text call leaves no previous node column.
    TextApart,
}

impl Wrong for Fault {
    const NAMES: &'static [(&'static str, Fault)] = &[
        ("gapped", Fault::Gapped),
        ("stray_fork", Fault::StrayFork),
        ("stray_merge", Fault::StrayMerge),
        ("false_term", Fault::FalseTerm),
        ("elsewhere", Fault::Elsewhere),
        ("unforked", Fault::Unforked),
        ("dropped_link", Fault::DroppedLink),
        ("marked_unlinked", Fault::MarkedUnlinked),
        ("lost_parent", Fault::LostParent),
        ("unmoved", Fault::Unmoved),
        ("text_apart", Fault::TextApart),
    ];

    fn written(self, _before: &Shaper, after: Shaper) -> Shaper {
        match self {
            Fault::TextApart => Shaper::by_hand(after.columns().clone(), *after.options(), None),
            _ => after,
        }
    }

    fn spoil(self, row: &TrueRow, outcome: &mut Outcome) {
        let linked = outcome.drawn.links.linked;
        match self {
            Fault::Gapped => gap(&mut outcome.drawn.links.marks),
            Fault::StrayFork if linked => stray(row, outcome, LinkLine::LEFT_FORK_PARENT),
            Fault::StrayMerge if linked => stray(row, outcome, LinkLine::RIGHT_MERGE_PARENT),
            Fault::FalseTerm => add_term(row, outcome),
            Fault::Elsewhere if row.is_held() => {
                row.far(outcome);
                draw_anew(row, outcome);
            }
            Fault::Unforked => unfork(row, outcome),
            Fault::DroppedLink => {
                outcome.drawn.links.linked = false;
                outcome.drawn.links.marks.clear();
            }
            Fault::MarkedUnlinked if !linked => {
                let node = outcome.drawn.node;
                add(&mut outcome.drawn.links, node, LinkLine::CHILD);
            }
            Fault::LostParent if row.row.entries.len() > 1 => {
                lose_last(row, outcome);
                draw_anew(row, outcome);
            }
            Fault::Unmoved => row.unswap(outcome),
            _ => {}
        }
    }
}

/// Takes the HORIZ marks off the leftmost cell that has one.
fn gap(marks: &mut [LinkLine]) {
    let mut cells = marks.iter_mut();
    if let Some(cell) = cells.find(|cell| cell.intersects(LinkLine::HORIZONTAL)) {
        *cell = without(*cell, LinkLine::HORIZONTAL);
    }
}

/// Puts a mark into the cell past those of the row.
fn stray(row: &TrueRow, outcome: &mut Outcome, mark: LinkLine) {
    add(&mut outcome.drawn.links, row.width(), mark);
}

/// Draws a link to the second cell past those of the row, and makes that a term cell.
fn add_term(row: &TrueRow, outcome: &mut Outcome) {
    let (node, to) = (row.node(), row.width() + 1);
    let links = &mut outcome.drawn.links;
    links.linked = true;
    links.terms.resize(to, false);
    links.terms.push(true);
    add(links, to, LinkLine::LEFT_FORK_PARENT);
    if !faces_right(links.marks[node]) {
        add(links, node, LinkLine::RIGHT_MERGE_PARENT);
    }
    for cell in node + 1..to {
        add(links, cell, LinkLine::HORIZ_PARENT);
    }
}

/// Takes the forks and merges off every column that is reached but the node's.
fn unfork(row: &TrueRow, outcome: &mut Outcome) {
    let node = row.node();
    for column in reached(row, outcome) {
        let cell = outcome.drawn.links.marks.get_mut(column);
        if let (Some(cell), false) = (cell, column == node) {
            *cell = without(*cell, LinkLine::ANY_FORK_OR_MERGE);
        }
    }
}

/// Empties the columns of the id that the row names last.
fn lose_last(row: &TrueRow, outcome: &mut Outcome) {
    let mut columns = std::mem::take(&mut outcome.columns);
    if let Some(id) = row.named().last() {
        let held: Vec<_> = places(&columns, id).collect();
        for place in held {
            columns[place] = Column::Empty;
        }
    }
    outcome.columns = trimmed(columns);
    outcome.draw_feet();
}

/// Draws the links from the node's column to those that are reached, and no others; the term cells stay.
fn draw_anew(row: &TrueRow, outcome: &mut Outcome) {
    let (node, reached) = (outcome.drawn.node, reached(row, outcome));
    let links = &mut outcome.drawn.links;
    links.linked = reached.iter().any(|column| *column != node);
    links.marks.clear();
    for column in reached {
        draw(links, node, column);
    }
}

/// Draws a link from the node's column to another.
fn draw(links: &mut Links, node: usize, column: usize) {
    let (at_node, at_end) = match column.cmp(&node) {
        Ordering::Less => (LinkLine::LEFT_MERGE_PARENT, LinkLine::RIGHT_FORK_PARENT),
        Ordering::Equal => return,
        Ordering::Greater => (LinkLine::RIGHT_MERGE_PARENT, LinkLine::LEFT_FORK_PARENT),
    };
    add(links, node, at_node);
    add(links, column, at_end);
    for cell in node.min(column) + 1..node.max(column) {
        add(links, cell, LinkLine::HORIZ_PARENT);
    }
}

/// The columns that are reached, of what the wrong machine leaves and shows.
fn reached(row: &TrueRow, outcome: &Outcome) -> BTreeSet<usize> {
    let made = Made {
        row: row.row,
        drawn: &outcome.drawn,
        before: row.before,
        after: &outcome.columns,
    };
    made.reached()
}

/// Adds a mark to a cell, which may be missing.
fn add(links: &mut Links, cell: usize, mark: LinkLine) {
    let marks = &mut links.marks;
    marks.resize(marks.len().max(cell + 1), LinkLine::empty());
    marks[cell] |= mark;
}

/// A cell without these marks.
fn without(cell: LinkLine, marks: LinkLine) -> LinkLine {
    let kept = codes::marks().filter(|(_, mark)| cell.contains(*mark) && !marks.contains(*mark));
    kept.fold(LinkLine::empty(), |cell, (_, mark)| cell | mark)
}
