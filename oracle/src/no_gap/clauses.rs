//! The clauses of R-9.

use crate::trial;

/// The clauses, in the order in which they are printed.
#[derive(Clone, Copy, Debug, PartialEq, Eq, PartialOrd, Ord)]
pub enum Clause {
    Across,
    Left,
    Right,
    NoLeft,
    NoRight,
    Unmarked,
    Straight,
    Terms,
    Waits,
    Arrives,
    Counts,
}

impl trial::Clause for Clause {
    /// The name of the clause's field in the statement; `counts` is no field.
    fn name(self) -> &'static str {
        match self {
            Clause::Across => "across",
            Clause::Left => "left",
            Clause::Right => "right",
            Clause::NoLeft => "no_left",
            Clause::NoRight => "no_right",
            Clause::Unmarked => "unmarked",
            Clause::Straight => "straight",
            Clause::Terms => "terms",
            Clause::Waits => "waits",
            Clause::Arrives => "arrives",
            Clause::Counts => "counts",
        }
    }

    fn words(self) -> &'static str {
        match self {
            Clause::Across => {
                "a cell is HORIZONTAL exactly if it lies strictly between the node and one of \
                its entries' columns, an Anonymous one's and the column given up in a swap \
                included"
            }
            Clause::Left => {
                "where a link leads from a cell to the left, the cell has one fork or merge \
                that faces left"
            }
            Clause::Right => {
                "where a link leads from a cell to the right, the cell has one fork or merge \
                that faces right"
            }
            Clause::NoLeft => {
                "where no link leads from a cell to the left, the cell has no fork or merge \
                that faces left"
            }
            Clause::NoRight => {
                "where no link leads from a cell to the right, the cell has no fork or merge \
                that faces right"
            }
            Clause::Unmarked => "a row without a link line has no marks",
            Clause::Straight => "a row without a link line has all its links in the node's column",
            Clause::Terms => {
                "the term cells are the columns of the Anonymous entries, one for each"
            }
            Clause::Waits => {
                "a named parent waits right after the row in its entry's column, the node's \
                after a swap"
            }
            Clause::Arrives => {
                "the next accepted row of a named id has its node in the column where the id \
                waited until then"
            }
            Clause::Counts => "a text call counts as the row call with its node and entries",
        }
    }
}
