//! R-9 of single rows on shapers made by hand, where an id may be in several columns. The columns that are reached are those of the
//! entries, found as document 01 says it ("How a row finds its columns"), and not as the crate's code does.

use std::collections::BTreeSet;
use std::iter;

use crate::codes;
use crate::column::Column;
use crate::stream::Command;
use crate::stream::Entry;
use crate::trial::column_at;
use crate::trial::Answers;
use crate::trial::Failing;
use crate::trial::Failure;
use crate::waiting;

use super::clauses::Clause;
use super::row::Made;

/// Tries R-9 on a list: a shaper made by hand, then rows, each judged for itself. It is left where a clause fails.
pub fn check(
    list: &[Command],
    answers: &mut dyn Answers,
    rows: &mut u64,
) -> Option<Failure<Clause>> {
    let (first, calls) = list.split_first().expect("a shaper made by hand");
    let mut columns = answers.begin(first).columns;
    for (call, place) in calls.iter().zip(1..) {
        let (seen, mut failing) = (answers.call(call), Failing::default());
        if let Some(made) = Made::new(call, &columns, &seen, &mut failing) {
            claim_row(&made, &mut failing);
            *rows += 1;
        }
        if let Some(failure) = Failure::after(place, failing) {
            return Some(failure);
        }
        columns = seen.columns;
    }
    None
}

/// The clauses of an accepted row.
fn claim_row(made: &Made, failing: &mut Failing<Clause>) {
    let placed = Placed::new(made);
    made.marked(placed.reached()).claim(failing);
    made.claim_terms(failing);
    let (cells, due) = (made.term_cells(), placed.anonymous());
    let found = || format!("term cells {cells:?}, Anonymous entries in {due:?}");
    failing.claim(Clause::Terms, cells == due, found);
    for (entry, column) in &placed.entries {
        let id = waiting::named(entry);
        let holds = id.is_none() || codes::held(column_at(made.after, *column)) == id;
        let found = || format!("{entry:?} in column {column}: {}", made.found());
        failing.claim(Clause::Waits, holds, found);
    }
}

/// Each entry of a row with its column, and the column given up in a swap.
struct Placed<'a> {
    entries: Vec<(&'a Entry, usize)>,
    given_up: Option<usize>,
}

impl<'a> Placed<'a> {
    /// "The node's column becomes Empty. Then entries go in order", each into its column; "a single entry whose column lies right of the
    /// node swaps columns with it".
    fn new(made: &Made<'a>) -> Self {
        let node = made.drawn.node;
        let mut columns = made.before.to_vec();
        columns.resize(columns.len().max(node + 1), Column::Empty);
        columns[node] = Column::Empty;
        let mut entries = Vec::new();
        for entry in &made.row.entries {
            let column = column_of(entry, &columns, node);
            columns.resize(columns.len().max(column + 1), Column::Empty);
            merge(&mut columns[column], entry);
            entries.push((entry, column));
        }
        let mut given_up = None;
        if let [(_, column)] = entries.as_mut_slice() {
            if *column > node {
                given_up = Some(std::mem::replace(column, node));
            }
        }
        Self { entries, given_up }
    }

    /// The columns that are reached.
    fn reached(&self) -> BTreeSet<usize> {
        let columns = self.entries.iter().map(|(_, column)| *column);
        columns.chain(self.given_up).collect()
    }

    /// The columns of the Anonymous entries.
    fn anonymous(&self) -> BTreeSet<usize> {
        let entries = self.entries.iter();
        let anonymous = entries.filter(|(entry, _)| waiting::named(entry).is_none());
        anonymous.map(|(_, column)| *column).collect()
    }
}

/// "A held id merges into its column; any other entry merges into `find_empty` of the node's column, else takes a new last column."
fn column_of(entry: &Entry, columns: &[Column<u32>], node: usize) -> usize {
    let held = |id| columns.iter().position(|it| codes::held(it) == Some(id));
    let empty = |place: &usize| columns[*place] == Column::Empty;
    let free = || iter::once(node).chain(0..columns.len()).find(empty);
    let found = waiting::named(entry).and_then(held).or_else(free);
    found.unwrap_or(columns.len())
}

/// "Merging replaces only by a higher rank", and an Anonymous entry "merges as Blocked".
fn merge(column: &mut Column<u32>, entry: &Entry) {
    let other = match (entry.kind, entry.id) {
        (1, id) => Column::Ancestor(id),
        (2, id) => Column::Parent(id),
        _ => Column::Blocked,
    };
    if rank(&other) > rank(column) {
        *column = other;
    }
}

/// "Empty, Blocked, Reserved, Ancestor or Parent, in rising rank 0 to 4".
fn rank(column: &Column<u32>) -> u8 {
    match column {
        Column::Empty => 0,
        Column::Blocked => 1,
        Column::Reserved(_) => 2,
        Column::Ancestor(_) => 3,
        Column::Parent(_) => 4,
    }
}
