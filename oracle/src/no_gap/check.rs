//! Every clause of R-9, tried after every call of a history.

use std::collections::BTreeSet;

use crate::codes;
use crate::column::Column;
use crate::stream::Command;
use crate::trial::column_at;
use crate::trial::places;
use crate::trial::Answers;
use crate::trial::Failing;
use crate::trial::Failure;
use crate::trial::Seen;

use super::clauses::Clause;
use super::counts::Counts;
use super::marks::Marked;
use super::row::Made;

/// Tries R-9 on a history: a new shaper, then reserving, row and text calls. It is left where a clause fails.
pub fn check(
    history: &[Command],
    answers: &mut dyn Answers,
    counts: &mut Counts,
) -> Option<Failure<Clause>> {
    let (first, calls) = history.split_first().expect("a new shaper");
    let mut check = Check {
        columns: answers.begin(first).columns,
        named: BTreeSet::new(),
        counts,
        failing: Failing::default(),
    };
    for (call, place) in calls.iter().zip(1..) {
        let failing = check.step(call, answers.call(call));
        if let Some(failure) = Failure::after(place, failing) {
            return Some(failure);
        }
    }
    check.counts.lists += 1;
    None
}

/// A history on its way, with what is kept of the calls before.
struct Check<'a> {
    columns: Vec<Column<u32>>,
    /// The ids that an accepted row has named, without an accepted row of their own since.
    named: BTreeSet<u32>,
    counts: &'a mut Counts,
    failing: Failing<Clause>,
}

impl Check<'_> {
    /// Takes what was seen of a call and gives the clauses that fail after it.
    fn step(&mut self, call: &Command, seen: Seen) -> Failing<Clause> {
        self.counts.calls += 1;
        let before = std::mem::take(&mut self.columns);
        if let Some(made) = Made::new(call, &before, &seen, &mut self.failing) {
            self.row(&made);
        }
        self.columns = seen.columns;
        std::mem::take(&mut self.failing)
    }

    /// The clauses of an accepted row.
    fn row(&mut self, made: &Made) {
        let marked = made.marked(made.reached());
        marked.claim(&mut self.failing);
        made.claim_terms(&mut self.failing);
        self.waits(made);
        self.arrives(made);
        self.count(made, &marked);
    }

    /// Each id that the row names is in a column right after it, the node's if it is pulled there.
    fn waits(&mut self, made: &Made) {
        for id in made.named() {
            let pulled = made.given_up(id).next().is_some();
            let mut columns = places(made.after, id);
            let waits = columns.any(|column| !pulled || column == made.drawn.node);
            let found = || format!("id {id}: {}", made.found());
            self.failing.claim(Clause::Waits, waits, found);
        }
    }

    /// An id that was named before has its node in a column that held it; then the row names its own.
    fn arrives(&mut self, made: &Made) {
        let id = made.row.node;
        if self.named.remove(&id) {
            let column = column_at(made.before, made.drawn.node);
            let own = codes::held(column) == Some(id);
            let found = || format!("id {id}: {}", made.found());
            self.failing.claim(Clause::Arrives, own, found);
            self.counts.arrivals += 1;
        }
        self.named.extend(made.named());
    }

    /// Counts an accepted row and its cells.
    fn count(&mut self, made: &Made, marked: &Marked) {
        let swaps = made.named().any(|id| made.given_up(id).next().is_some());
        self.counts.rows += 1;
        self.counts.swaps += u64::from(swaps);
        self.counts.anonymous += u64::from(made.anonymous() > 0);
        self.counts.unlinked += u64::from(!made.drawn.links.linked);
        for cell in marked.cells() {
            self.counts.cell(marked.marks(cell));
        }
    }
}
