//! The wrong machines: each is the Rust's with one thing wrong, which acts on the columns, the node's column that is reported, the strokes of the lines, or who started a line. Unless it says otherwise, a column carries what the Rust's carries for its id, and the query is the Rust's.

use std::collections::BTreeMap;

use crate::calls::Shaper;
use crate::column::Column;
use crate::column::ColumnsExt;
use crate::origins::Started;
use crate::refusals;
use crate::trial;
use crate::trial::trimmed;
use crate::trial::Outcome;
use crate::trial::Stroke;
use crate::trial::TrueRow;
use crate::trial::Wrong;

/// The id that a stale shaper holds.
const STALE: u32 = 77;

/// What a wrong machine does.
#[derive(Clone, Copy, Debug, PartialEq, Eq)]
pub enum Fault {
    /// A new shaper holds an id.
    Stale,
    /// An accepted reservation of an id that no column holds stores nothing.
    Forgetting,
    /// After a row the node's id is kept as Reserved in the node's column, where that is Empty or past the end and no column holds the id.
    Keeping,
    /// An accepted reservation of an id that no column holds stores it in a further last column, too, if there is one left.
    Doubling,
    /// The columns of a row's Anonymous entries stay Blocked after it; Empty columns at the end go.
    Blocking,
    /// Blocked columns become Empty after a row; Empty columns at the end stay.
    Untrimmed,
    /// An accepted reservation of an id that no column holds puts the columns into reverse order; Empty columns at the end go.
    Reversing,
    /// The id of a single entry that is swapped goes to a new last column, if there is one left, and the node's column becomes Empty.
    Pulling,
    /// A node that a column holds is reported far right; its row does not swap, and its head line is the line above.
    FarFromOwn,
    /// A node that no column holds is reported in the last column, if there is one and no column is Empty.
    OnAnother,
    /// A node that no column holds is reported far right; its row does not swap.
    FarRight,
    /// The first row's foot line is drawn truly, later ones are blank.
    BlankFeet,
    /// Reserved ids are drawn solid in the foot line.
    ReservedDrawn,
    /// Every blank cell of a foot line is another glyph, and a head line repeats the line above.
    Garbling,
    /// Every head line is blank.
    BlankHeads,
    /// Every head line is the line above, a dashed stroke over the node too.
    DashedOverNode,
    /// The renderer calls write no lines.
    Unwritten,
    /// An accepted text call leaves no previous node column.
    PreviousLost,
    /// An accepted text call leaves the columns as they were.
    TextIgnored,
    /// A row leaves the columns untouched.
    Untouched,
    /// The first row is drawn truly, later head and foot lines are blank.
    BlankLater,
    /// The id of a single entry to the right of the node stays where it is.
    Unswapping,
    /// Each row that names an id makes its node the one that the id's column carries and the query gives.
    LatestNamer,
    /// An id named after, or in, its own row keeps the node of the row that named it first ever.
    KeptOverOwnRow,
    /// The id of a single entry that is swapped gets the node that the node's column carried before the row, 0 where that carried none.
    LeftBehind,
    /// The query gives none for an id that its own row named first.
    UnnamedByItself,
    /// Every column carries 0.
    Unkept,
}

impl Wrong for Fault {
    const NAMES: &'static [(&'static str, Fault)] = &[
        ("stale", Fault::Stale),
        ("forgetting", Fault::Forgetting),
        ("keeping", Fault::Keeping),
        ("doubling", Fault::Doubling),
        ("blocking", Fault::Blocking),
        ("untrimmed", Fault::Untrimmed),
        ("reversing", Fault::Reversing),
        ("pulling", Fault::Pulling),
        ("far_from_own", Fault::FarFromOwn),
        ("on_another", Fault::OnAnother),
        ("far_right", Fault::FarRight),
        ("blank_feet", Fault::BlankFeet),
        ("reserved_drawn", Fault::ReservedDrawn),
        ("garbling", Fault::Garbling),
        ("blank_heads", Fault::BlankHeads),
        ("dashed_over_node", Fault::DashedOverNode),
        ("unwritten", Fault::Unwritten),
        ("previous_lost", Fault::PreviousLost),
        ("text_ignored", Fault::TextIgnored),
        ("untouched", Fault::Untouched),
        ("blank_later", Fault::BlankLater),
        ("unswapping", Fault::Unswapping),
        ("latest_namer", Fault::LatestNamer),
        ("kept_over_own_row", Fault::KeptOverOwnRow),
        ("left_behind", Fault::LeftBehind),
        ("unnamed_by_itself", Fault::UnnamedByItself),
        ("unkept", Fault::Unkept),
    ];

    fn fresh(self, columns: Vec<Column<u32>>) -> Vec<Column<u32>> {
        match self {
            Fault::Stale => vec![Column::Parent(STALE)],
            _ => columns,
        }
    }

    fn reserved(
        self,
        before: &Vec<Column<u32>>,
        id: u32,
        mut columns: Vec<Column<u32>>,
    ) -> Vec<Column<u32>> {
        if before.find(&id).is_some() {
            return columns;
        }
        match self {
            Fault::Forgetting => before.clone(),
            Fault::Doubling if columns.len() < refusals::COLUMNS => {
                columns.push(Column::Reserved(id));
                columns
            }
            Fault::Reversing => {
                columns.reverse();
                trimmed(columns)
            }
            _ => columns,
        }
    }

    fn written(self, before: &Shaper, after: Shaper) -> Shaper {
        let (columns, options) = (after.columns().clone(), *after.options());
        match self {
            Fault::TextIgnored => {
                let previous = after.previous_node_column();
                Shaper::by_hand(before.columns().clone(), options, previous)
            }
            Fault::PreviousLost => Shaper::by_hand(columns, options, None),
            _ => after,
        }
    }

    fn spoil(self, row: &TrueRow, outcome: &mut Outcome) {
        match self {
            Fault::Keeping => row.keep(outcome),
            Fault::Blocking => row.block(outcome),
            Fault::Untrimmed => outcome.columns.resize(row.width(), Column::Empty),
            Fault::Pulling => row.pull(outcome),
            Fault::FarFromOwn if row.is_held() => row.far_with_line_above(outcome),
            Fault::OnAnother if row.is_beside() => row.on_last(outcome),
            Fault::FarRight if !row.is_held() => row.far(outcome),
            Fault::BlankFeet if row.later => outcome.alter(|_, lines| blank(&mut lines.foot)),
            Fault::ReservedDrawn => outcome.draw_reserved(),
            Fault::Garbling => row.garble(outcome),
            Fault::BlankHeads => outcome.alter(|_, lines| blank(&mut lines.head)),
            Fault::DashedOverNode => row.repeat_above(outcome),
            Fault::Unwritten => outcome.drawn.lines.fill(Err("no lines".to_owned())),
            Fault::Untouched => outcome.columns.clone_from(row.before),
            Fault::BlankLater if row.later => outcome.alter(|_, lines| {
                blank(&mut lines.head);
                blank(&mut lines.foot);
            }),
            Fault::Unswapping => row.unswap(outcome),
            _ => {}
        }
    }

    fn take_names(self, row: &TrueRow, namers: &mut BTreeMap<u32, u32>) {
        match self {
            Fault::LatestNamer => namers.extend(row.named().map(|id| (id, row.row.node))),
            Fault::KeptOverOwnRow => row.named().for_each(|id| {
                namers.entry(id).or_insert(row.row.node);
            }),
            Fault::LeftBehind => row.leave_behind(namers),
            _ => {}
        }
    }

    fn carried(self, node: u32) -> u32 {
        match self {
            Fault::Unkept => 0,
            _ => node,
        }
    }

    fn answer(self, id: u32, started: Started) -> Started {
        match self {
            Fault::UnnamedByItself if started == Started::By(id) => Started::Unnamed,
            _ => started,
        }
    }
}

impl TrueRow<'_> {
    /// Whether no column holds the node's id, there are columns, and none of them is Empty.
    fn is_beside(&self) -> bool {
        !self.is_held() && !self.before.is_empty() && self.before.first_empty().is_none()
    }

    /// The id that is swapped gets what the node's column carried; the node's own line ends.
    fn leave_behind(&self, namers: &mut BTreeMap<u32, u32>) {
        namers.remove(&self.row.node);
        if self.swapped().is_some() {
            namers.extend(self.named().map(|id| (id, self.carried)));
        }
    }

    /// Keeps the node's id as Reserved in the node's column.
    fn keep(&self, outcome: &mut Outcome) {
        let (columns, node) = (&mut outcome.columns, self.node());
        let free = columns.get(node).is_none_or(|it| *it == Column::Empty);
        if free && columns.find(&self.row.node).is_none() {
            columns.resize(columns.len().max(node + 1), Column::Empty);
            columns[node] = Column::Reserved(self.row.node);
        }
    }

    /// Leaves the columns of the row's Anonymous entries Blocked.
    fn block(&self, outcome: &mut Outcome) {
        let columns = &mut outcome.columns;
        let cells = self.shape.row.term_line.iter().flatten().enumerate();
        for (place, _) in cells.filter(|(_, ends)| **ends) {
            columns.resize(columns.len().max(place + 1), Column::Empty);
            columns[place] = Column::Blocked;
        }
    }

    /// Puts the id that is swapped into a new last column, behind all columns of the row.
    fn pull(&self, outcome: &mut Outcome) {
        let width = self.width();
        if self.swapped().is_none() || width >= refusals::COLUMNS {
            return;
        }
        let columns = &mut outcome.columns;
        columns.resize(width, Column::Empty);
        let pulled = std::mem::replace(&mut columns[self.node()], Column::Empty);
        columns.push(pulled);
        outcome.draw_feet();
    }

    /// Reports the node far right of the columns, without a swap; the head line is the line above.
    fn far_with_line_above(&self, outcome: &mut Outcome) {
        self.far(outcome);
        self.repeat_above(outcome);
    }

    /// Gives each head line the cells of the line above.
    fn repeat_above(&self, outcome: &mut Outcome) {
        outcome.alter(|renderer, lines| lines.head.clone_from(&self.above[renderer]));
    }

    /// Reports the node in the last column, with the head line that demand 3 then has.
    fn on_last(&self, outcome: &mut Outcome) {
        let last = self.before.len() - 1;
        outcome.drawn.node = last;
        self.meet(outcome, last);
    }

    /// Makes every blank cell of a foot line another glyph; a head line repeats the line above.
    fn garble(&self, outcome: &mut Outcome) {
        self.meet(outcome, self.node());
        outcome.alter(|_, lines| {
            let blank = |cell: &&mut Stroke| **cell == Stroke::Blank;
            let cells = lines.foot.iter_mut();
            cells.filter(blank).for_each(|cell| *cell = Stroke::Other);
        });
    }

    /// Gives each head line the cells that demand 3 has below the line above.
    fn meet(&self, outcome: &mut Outcome, node: usize) {
        outcome.alter(|renderer, lines| {
            lines.head = trial::head_below(&self.above[renderer], node);
        });
    }
}

impl Outcome {
    /// Draws a solid stroke below every reserved column.
    fn draw_reserved(&mut self) {
        let columns = self.columns.clone();
        self.alter(|_, lines| {
            lines
                .foot
                .resize(lines.foot.len().max(columns.len()), Stroke::Blank);
            for (cell, column) in lines.foot.iter_mut().zip(&columns) {
                if matches!(column, Column::Reserved(_)) {
                    *cell = Stroke::Solid;
                }
            }
        });
    }
}

/// Blanks a line.
fn blank(line: &mut [Stroke]) {
    line.fill(Stroke::Blank);
}
