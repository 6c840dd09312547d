//! Who started each line: the node that each column of a shaper carries. The crate has nothing of it, and it is read in two ways. By columns:
//! from the crate's columns before and after a call, the node's column and the row. By the account of the ids that wait: from the calls'
//! arguments and whether each was refused, and nothing out of the columns; a shaper set by hand has none. Where both are there, they have to
//! agree. Neither is told what our program answers.

use crate::codes;
use crate::column::Column;
use crate::column::ColumnsExt;
use crate::stream::Row;
use crate::stream::Slot;
use crate::waiting;
use crate::waiting::Wait;
use crate::waiting::Waiting;

/// Who started an id's line.
#[derive(Clone, Copy, Debug, PartialEq, Eq)]
pub enum Started {
    NotWaiting,
    /// The id was only reserved.
    Unnamed,
    /// The node of the row that first named the id.
    By(u32),
}

/// What the columns of a shaper carry.
#[derive(Clone, Debug)]
pub struct Origins {
    /// What each column carries, if it is Ancestor or Parent.
    carried: Vec<Option<u32>>,
    /// The account of the ids that wait, unless the shaper was set by hand.
    account: Option<Waiting>,
}

impl Origins {
    /// Those of a shaper without columns.
    pub fn fresh() -> Self {
        Self {
            carried: Vec::new(),
            account: Some(Waiting::default()),
        }
    }

    /// Those of a shaper set by hand, with these columns and slots: an origin counts in an Ancestor or Parent column only.
    pub fn by_hand(columns: &[Column<u32>], slots: &[Slot]) -> Self {
        let given = slots.iter().map(|slot| slot.origin);
        let given = given.chain(std::iter::repeat(0));
        let carried = columns.iter().zip(given);
        Self {
            carried: carried
                .map(|(column, origin)| codes::is_named(column).then_some(origin))
                .collect(),
            account: None,
        }
    }

    /// Those of a shaper without columns, read by columns alone.
    pub fn by_columns() -> Self {
        Self::by_hand(&[], &[])
    }

    /// Whether the shaper was set by hand.
    pub fn are_by_hand(&self) -> bool {
        self.account.is_none()
    }

    /// What each column carries.
    pub fn carried(&self) -> &[Option<u32>] {
        &self.carried
    }

    /// Takes an accepted reservation: it names no id.
    pub fn reserve(&mut self, id: u32, after: &[Column<u32>]) {
        self.carried.resize(after.len(), None);
        if let Some(account) = &mut self.account {
            account.reserve(id);
        }
        self.agree(after);
    }

    /// Takes an accepted row with its node in this column, and the columns before and after it.
    pub fn row(
        &mut self,
        before: &Vec<Column<u32>>,
        after: &[Column<u32>],
        node_column: usize,
        row: &Row,
    ) {
        self.carried = self.carried_after(before, after, node_column, row);
        if let Some(account) = &mut self.account {
            account.row(row);
        }
        self.agree(after);
    }

    /// What each column carries after a row. The node's column is emptied first, and the line that a swap moves into it brings along what
    /// it carried; an Ancestor or Parent column that carried nothing then carries the row's node.
    fn carried_after(
        &self,
        before: &Vec<Column<u32>>,
        after: &[Column<u32>],
        node_column: usize,
        row: &Row,
    ) -> Vec<Option<u32>> {
        let mut lines = self.carried.clone();
        lines.resize(lines.len().max(node_column + 1), None);
        lines[node_column] = None;
        if let Some(given_up) = moved_from(before, node_column, row) {
            lines.swap(node_column, given_up);
        }
        let lines = lines.into_iter().chain(std::iter::repeat(None));
        let columns = after.iter().zip(lines);
        columns
            .map(|(column, line)| codes::is_named(column).then(|| line.unwrap_or(row.node)))
            .collect()
    }

    /// Who started the line of this id, by the first column that holds it.
    pub fn started(&self, columns: &Vec<Column<u32>>, id: u32) -> Started {
        let place = columns.find(&id);
        let started = match place.map(|place| self.carried[place]) {
            None => Started::NotWaiting,
            Some(None) => Started::Unnamed,
            Some(Some(origin)) => Started::By(origin),
        };
        if let Some(account) = &self.account {
            let said = account.started(id);
            assert!(
                started == said,
                "the readings of the origins differ: id {id} is {started:?} by {columns:?} that carry {:?}, {said:?} by the account",
                self.carried
            );
        }
        started
    }

    /// Stops where both readings are there and differ.
    fn agree(&self, columns: &[Column<u32>]) {
        let Some(account) = &self.account else {
            return;
        };
        let held = columns.iter().zip(&self.carried);
        let mut held: Vec<(u32, Wait)> = held
            .filter_map(|(column, origin)| {
                Some((codes::held(column)?, waiting::said_by(column, *origin)?))
            })
            .collect();
        held.sort_unstable();
        assert!(
            held.iter().copied().eq(account.all()),
            "the readings of the origins differ: {columns:?} carry {:?}, and the account is {account:?}",
            self.carried
        );
    }
}

/// The column that gives up its line to the node's column: that of the single entry's id, once the node's column is emptied, if it lies to
/// the right of it.
pub fn moved_from(before: &Vec<Column<u32>>, node_column: usize, row: &Row) -> Option<usize> {
    let [entry] = row.entries.as_slice() else {
        return None;
    };
    let id = waiting::named(entry)?;
    let holds = |place: &usize| *place != node_column && before[*place].matches(&id);
    let place = (0..before.len()).find(holds)?;
    (place > node_column).then_some(place)
}
