//! Document 01's account of the ids that wait ("Which ids wait"), with the node that first named each (02, R-3). It is fed the calls' arguments and whether each was refused, and nothing out of the columns.

use std::collections::BTreeMap;

use crate::codes;
use crate::column::Column;
use crate::origins::Started;
use crate::render::Ancestor;
use crate::stream::Command;
use crate::stream::Entry;
use crate::stream::Row;

/// How an id waits.
#[derive(Clone, Copy, Debug, PartialEq, Eq, PartialOrd, Ord)]
pub enum Wait {
    Reserved,
    /// As named, first by the row of this node.
    Named(u32),
}

/// The ids that wait; at first none does.
#[derive(Clone, Debug, Default)]
pub struct Waiting {
    ids: BTreeMap<u32, Wait>,
}

impl Waiting {
    /// Takes a reserving, row or text call into account; a refused one changes nothing.
    pub fn take(&mut self, call: &Command, refused: bool) {
        match call {
            _ if refused => {}
            Command::Reserve(id) => self.reserve(*id),
            _ => self.row(row_of(call).expect("a reserving, row or text call")),
        }
    }

    /// The id waits as reserved, unless it waits already.
    pub fn reserve(&mut self, id: u32) {
        self.ids.entry(id).or_insert(Wait::Reserved);
    }

    /// The wait of the node's id ends; then each id in the entries waits as named: by the node that named it first, or by this row's where
    /// it did not wait or was only reserved.
    pub fn row(&mut self, row: &Row) {
        self.ids.remove(&row.node);
        for id in row.entries.iter().filter_map(named) {
            let first = match self.of(id) {
                Some(Wait::Named(first)) => first,
                Some(Wait::Reserved) | None => row.node,
            };
            self.ids.insert(id, Wait::Named(first));
        }
    }

    /// How the id waits, if it does.
    pub fn of(&self, id: u32) -> Option<Wait> {
        self.ids.get(&id).copied()
    }

    /// Who started the line of the id.
    pub fn started(&self, id: u32) -> Started {
        match self.of(id) {
            None => Started::NotWaiting,
            Some(Wait::Reserved) => Started::Unnamed,
            Some(Wait::Named(first)) => Started::By(first),
        }
    }

    /// The ids that wait, in rising order, and how each does.
    pub fn all(&self) -> impl Iterator<Item = (u32, Wait)> + '_ {
        self.ids.iter().map(|(id, wait)| (*id, *wait))
    }

    /// The ids that wait, in rising order.
    pub fn ids(&self) -> impl Iterator<Item = u32> + '_ {
        self.ids.keys().copied()
    }
}

/// The row as which a call counts: its own, and a text call's row with its node and entries.
pub fn row_of(call: &Command) -> Option<&Row> {
    match call {
        Command::Row(row) => Some(row),
        Command::Text(text) => Some(&text.row),
        _ => None,
    }
}

/// The id in an Ancestor or Parent entry.
pub fn named(entry: &Entry) -> Option<u32> {
    match codes::ancestor(entry) {
        Ancestor::Anonymous => None,
        Ancestor::Ancestor(id) | Ancestor::Parent(id) => Some(id),
    }
}

/// Whether the row has one entry, and that names the id.
pub fn is_one_entry(row: &Row, id: u32) -> bool {
    matches!(row.entries.as_slice(), [entry] if named(entry) == Some(id))
}

/// How the id that a column holds waits, as the column and what it carries say.
pub fn said_by(column: &Column<u32>, origin: Option<u32>) -> Option<Wait> {
    match column {
        Column::Empty | Column::Blocked => None,
        Column::Reserved(_) => Some(Wait::Reserved),
        Column::Ancestor(_) | Column::Parent(_) => origin.map(Wait::Named),
    }
}
