//! The clauses of demand 3.

use crate::trial;

/// The clauses, in the order in which they are printed.
#[derive(Clone, Copy, Debug, PartialEq, Eq, PartialOrd, Ord)]
pub enum Clause {
    Fresh,
    Held,
    Waits,
    Answers,
    One,
    Unblocked,
    Full,
    Changes,
    To,
    Own,
    Empty,
    First,
    Written,
    Strokes,
    Kinds,
    Meets,
    Counts,
}

impl trial::Clause for Clause {
    /// The name of the clause's field in the statement; `written` and `counts` are no fields.
    fn name(self) -> &'static str {
        match self {
            Clause::Fresh => "fresh",
            Clause::Held => "held",
            Clause::Waits => "waits",
            Clause::Answers => "answers",
            Clause::One => "one",
            Clause::Unblocked => "unblocked",
            Clause::Full => "full",
            Clause::Changes => "changes",
            Clause::To => "to",
            Clause::Own => "own",
            Clause::Empty => "empty",
            Clause::First => "first",
            Clause::Written => "written",
            Clause::Strokes => "strokes",
            Clause::Kinds => "kinds",
            Clause::Meets => "meets",
            Clause::Counts => "counts",
        }
    }

    fn words(self) -> &'static str {
        match self {
            Clause::Fresh => "a new shaper has no columns",
            Clause::Held => "every id that waits is in a column",
            Clause::Waits => {
                "every id in a column waits, and as the column says: a Reserved one as \
                reserved, an Ancestor or Parent one as named, first by the node that the \
                column carries"
            }
            Clause::Answers => {
                "the query gives, for every id, the node that first named it, none if it was \
                only reserved, not waiting if it does not wait"
            }
            Clause::One => "no id is in two columns",
            Clause::Unblocked => "no column is blocked",
            Clause::Full => "the last column, if any, isn't empty",
            Clause::Changes => {
                "an id waiting before and after a call, other than an accepted row's own \
                node, changes column exactly when the call is an accepted row with that id as \
                its one parent entry and the id waited to the right of the node"
            }
            Clause::To => "an id that is to change column moves to the node's column",
            Clause::Own => "the node's column held its id, if the id waited",
            Clause::Empty => "the node's column was Empty or new, if the id did not wait",
            Clause::First => {
                "no column left of the node's was Empty or new, if the id did not wait, but \
                the node's column of the accepted row before"
            }
            Clause::Written => {
                "a renderer call accepts an accepted row's shape and writes one head line and \
                one foot line, made of its cells"
            }
            Clause::Strokes => {
                "the foot line has a stroke exactly in the columns of the ids that wait as \
                named right after the row"
            }
            Clause::Kinds => "every cell of a foot line is solid, dashed or blank",
            Clause::Meets => {
                "the foot line equals the next accepted row's head line, except that a dashed \
                stroke over the node becomes solid"
            }
            Clause::Counts => "a text call counts as the row call with its node and entries",
        }
    }
}
