//! Every clause of demand 3, tried after every call of a history.

use crate::codes;
use crate::column::Column;
use crate::stream::Command;
use crate::stream::Row;
use crate::trial;
use crate::trial::cell;
use crate::trial::column_at;
use crate::trial::places;
use crate::trial::shown;
use crate::trial::Answers;
use crate::trial::Drawn;
use crate::trial::Failing;
use crate::trial::Failure;
use crate::trial::Lines;
use crate::trial::Seen;
use crate::trial::Stroke;
use crate::trial::RENDERERS;
use crate::waiting;
use crate::waiting::Wait;
use crate::waiting::Waiting;

use super::clauses::Clause;
use super::counts::Counts;
use super::counts::NEARLY_FULL;

/// Tries demand 3 on a history: a new shaper, then reserving, row and text calls. It is left where a clause fails.
pub fn check(
    history: &[Command],
    answers: &mut dyn Answers,
    counts: &mut Counts,
) -> Option<Failure<Clause>> {
    let (first, calls) = history.split_first().expect("a new shaper");
    let mut check = Check::new(first, trial::asked(history), answers, counts);
    if let Some(failure) = Failure::after(0, check.fresh()) {
        return Some(failure);
    }
    for (call, place) in calls.iter().zip(1..) {
        if let Some(failure) = Failure::after(place, check.step(call)) {
            return Some(failure);
        }
    }
    check.end();
    None
}

/// A history on its way: the machine's answers, the account of the ids that wait, and what is kept of the calls before.
struct Check<'a> {
    answers: &'a mut dyn Answers,
    /// The ids that are asked for after each call.
    asked: Vec<u32>,
    waiting: Waiting,
    columns: Vec<Column<u32>>,
    /// The node's column of the accepted row before.
    node: Option<usize>,
    /// The node of the last accepted row.
    drawn: Option<u32>,
    /// The foot lines of the accepted row before.
    above: [Vec<Stroke>; RENDERERS],
    most_columns: usize,
    reservations: u64,
    counts: &'a mut Counts,
    failing: Failing<Clause>,
}

/// A call that was made: the row as which it counts where it is an accepted one, what was seen of it, and the ids that waited before it.
struct Made<'a> {
    row: Option<&'a Row>,
    seen: &'a Seen,
    waited: Waiting,
}

impl<'a> Check<'a> {
    /// Begins with what the new shaper call gives. The line above the first row is blank.
    fn new(
        first: &Command,
        asked: Vec<u32>,
        answers: &'a mut dyn Answers,
        counts: &'a mut Counts,
    ) -> Self {
        let begun = answers.begin(first);
        if begun.number != 0 {
            counts.refused(first, begun.number);
        }
        Self {
            answers,
            asked,
            waiting: Waiting::default(),
            columns: begun.columns,
            node: None,
            drawn: None,
            above: Default::default(),
            most_columns: 0,
            reservations: 0,
            counts,
            failing: Failing::default(),
        }
    }

    /// Gives the clause that fails of the new shaper, if it does.
    fn fresh(&mut self) -> Failing<Clause> {
        let columns = &self.columns;
        let found = || format!("the columns are {columns:?}");
        self.failing.claim(Clause::Fresh, columns.is_empty(), found);
        std::mem::take(&mut self.failing)
    }

    /// Makes a call and gives the clauses that fail after it.
    fn step(&mut self, call: &Command) -> Failing<Clause> {
        let seen = self.answers.call(call);
        let made = Made {
            row: waiting::row_of(call).filter(|_| seen.number == 0),
            seen: &seen,
            waited: self.waiting.clone(),
        };
        self.waiting.take(call, seen.number != 0);
        self.drawn = made.row.map(|row| row.node).or(self.drawn);
        self.count(call, &seen);
        self.ids(&seen.columns, &seen.origins);
        self.answers();
        self.tidy(&seen.columns);
        self.moves(&made);
        self.row(&made);
        self.failing
            .claim(Clause::Counts, seen.differs.is_none(), || {
                seen.differs.clone().unwrap_or_default()
            });
        self.columns = seen.columns;
        std::mem::take(&mut self.failing)
    }

    /// The ids in the columns are those that wait, each in one column.
    fn ids(&mut self, columns: &[Column<u32>], origins: &[Option<u32>]) {
        let mut ids: Vec<_> = columns.iter().filter_map(codes::held).collect();
        ids.sort_unstable();
        let once = ids.windows(2).all(|pair| pair[0] != pair[1]);
        let found = || format!("the columns hold {ids:?}");
        self.failing.claim(Clause::One, once, found);
        for id in self.waiting.ids() {
            let held = ids.binary_search(&id).is_ok();
            let found = || format!("id {id} waits, and the columns hold {ids:?}");
            self.failing.claim(Clause::Held, held, found);
        }
        for (column, origin) in columns.iter().zip(origins) {
            let wait = codes::held(column).and_then(|id| self.waiting.of(id));
            let found = || format!("{column:?} carries {origin:?}, and its id waits as {wait:?}");
            let said = waiting::said_by(column, *origin);
            self.failing.claim(Clause::Waits, wait == said, found);
        }
    }

    /// The query gives what the account says.
    fn answers(&mut self) {
        for id in &self.asked {
            let (given, due) = (self.answers.started(*id), self.waiting.started(*id));
            let found = || format!("id {id}: {given:?} for {due:?}");
            self.failing.claim(Clause::Answers, given == due, found);
            self.counts.query(given, self.drawn);
        }
    }

    /// No column is blocked, and the last isn't empty.
    fn tidy(&mut self, columns: &[Column<u32>]) {
        let found = || format!("the columns are {columns:?}");
        let unblocked = !columns.contains(&Column::Blocked);
        self.failing.claim(Clause::Unblocked, unblocked, found);
        let full = columns.last() != Some(&Column::Empty);
        self.failing.claim(Clause::Full, full, found);
    }

    /// The ids that wait before and after the call, but for an accepted row's own node.
    fn moves(&mut self, made: &Made) {
        let own = made.row.map(|row| row.node);
        for id in made.waited.ids() {
            if self.waiting.of(id).is_some() && own != Some(id) {
                self.moves_of(made, id);
            }
        }
    }

    /// Such an id changes column exactly when it has to, and then to the node's: every column before against every column after.
    fn moves_of(&mut self, made: &Made, id: u32) {
        let node = made.seen.drawn.as_ref().map(|drawn| drawn.node);
        let single = made.row.is_some_and(|row| waiting::is_one_entry(row, id));
        let mut swaps = false;
        for from in places(&self.columns, id) {
            let due = single && node.is_some_and(|node| node < from);
            swaps |= due;
            for to in places(&made.seen.columns, id) {
                let found = || format!("id {id} was in column {from}, is in {to}; node {node:?}");
                self.failing
                    .claim(Clause::Changes, (from != to) == due, found);
                self.failing
                    .claim(Clause::To, !due || Some(to) == node, found);
            }
        }
        self.counts.swaps += u64::from(swaps);
    }

    /// The clauses of an accepted row.
    fn row(&mut self, made: &Made) {
        let Some(row) = made.row else {
            return;
        };
        let Some(drawn) = &made.seen.drawn else {
            let found = || "there is no shape".to_owned();
            self.failing.claim(Clause::Written, false, found);
            return;
        };
        self.place(row, &made.waited, drawn.node);
        self.lines(&made.seen.columns, drawn);
        self.node = Some(drawn.node);
    }

    /// The node's column: that of its id, or the first Empty or new one.
    fn place(&mut self, row: &Row, waited: &Waiting, node: usize) {
        let columns = &self.columns;
        let column = column_at(columns, node);
        let found = || format!("node {} in column {node}, before {columns:?}", row.node);
        if waited.of(row.node).is_some() {
            let own = codes::held(column) == Some(row.node);
            self.failing.claim(Clause::Own, own, found);
            return;
        }
        let empty = *column == Column::Empty;
        self.failing.claim(Clause::Empty, empty, found);
        // Two places past the last column are enough: at most one may be skipped.
        let mut skipped = (0..node.min(columns.len() + 2))
            .filter(|place| *column_at(columns, *place) == Column::Empty)
            .peekable();
        self.counts.staggered += u64::from(skipped.peek().is_some());
        let first = skipped.all(|place| Some(place) == self.node);
        self.failing.claim(Clause::First, first, found);
    }

    /// The lines of an accepted row, in every renderer.
    fn lines(&mut self, columns: &[Column<u32>], drawn: &Drawn) {
        for (renderer, lines) in drawn.lines.iter().enumerate() {
            match lines {
                Ok(lines) => {
                    self.foot(columns, renderer, lines);
                    self.head(drawn.node, renderer, lines);
                    self.above[renderer].clone_from(&lines.foot);
                }
                Err(found) => self.failing.claim(Clause::Written, false, || found.clone()),
            }
        }
    }

    /// Foot line: a stroke exactly in the columns of the ids that wait as named, and no other glyph.
    fn foot(&mut self, columns: &[Column<u32>], renderer: usize, lines: &Lines) {
        let foot = &lines.foot;
        let named = |column: usize| {
            let id = codes::held(column_at(columns, column));
            let wait = id.and_then(|id| self.waiting.of(id));
            matches!(wait, Some(Wait::Named(_)))
        };
        let strokes = (0..foot.len().max(columns.len()))
            .all(|column| cell(foot, column).is_stroke() == named(column));
        let found = || {
            let foot = shown(foot);
            format!("renderer {renderer}: foot {foot}, columns {columns:?}")
        };
        self.failing.claim(Clause::Strokes, strokes, found);
        let kinds = !foot.contains(&Stroke::Other);
        self.failing.claim(Clause::Kinds, kinds, found);
    }

    /// Head line: equal to the line above, except that a dashed stroke over the node becomes solid.
    fn head(&mut self, node: usize, renderer: usize, lines: &Lines) {
        let above = &self.above[renderer];
        let due = trial::head_below(above, node);
        let found = || {
            let (above, head) = (shown(above), shown(&lines.head));
            format!("renderer {renderer}: above {above}, head {head}, node {node}")
        };
        self.failing
            .claim(Clause::Meets, trial::equal(&lines.head, &due), found);
        let turned = cell(above, node) == Stroke::Dashed;
        self.counts.dashed_to_solid += u64::from(turned && renderer == 0);
    }

    /// Counts a call.
    fn count(&mut self, call: &Command, seen: &Seen) {
        self.counts.calls += 1;
        self.most_columns = self.most_columns.max(seen.columns.len());
        match call {
            _ if seen.number != 0 => self.counts.refused(call, seen.number),
            Command::Reserve(_) => self.reservations += u64::from(self.node.is_some()),
            _ => self.count_row(call),
        }
    }

    /// Counts an accepted row, and the accepted reservations between it and the row before.
    fn count_row(&mut self, call: &Command) {
        self.counts.rows += 1;
        self.counts.texts += u64::from(matches!(call, Command::Text(_)));
        self.counts.reservations_between += self.reservations;
        self.reservations = 0;
    }

    /// Counts the list.
    fn end(self) {
        self.counts.lists += 1;
        self.counts.nearly_full += u64::from(self.most_columns >= NEARLY_FULL);
    }
}
