//! Queries, most of them right behind a call and of an id that it is about.

use super::Generator;
use crate::stream::Command;
use crate::stream::Row;

/// The query's letter.
pub const QUERY: u8 = b'O';

impl Generator<'_> {
    /// Adds a query behind a call, now and then, and seldom a second one.
    pub fn ask_behind(&mut self, command: &Command) {
        if !self.letters.know(QUERY) || !self.random.once_in(3) {
            return;
        }
        if let Some(id) = self.id_of(command) {
            self.push(Command::Origin(id));
        }
        if self.random.once_in(4) {
            let id = self.id();
            self.push(Command::Origin(id));
        }
    }

    /// An id that a reserving, row or text call is about, or one of a slot's.
    fn id_of(&mut self, command: &Command) -> Option<u32> {
        match command {
            Command::Reserve(id) => Some(*id),
            Command::Row(row) => Some(self.id_of_row(row)),
            Command::Text(text) => Some(self.id_of_row(&text.row)),
            Command::Shaper(hand) if !hand.slots.is_empty() => {
                Some(self.random.pick(&hand.slots).id)
            }
            _ => None,
        }
    }

    /// The row's node or, more often, an id of its entries, if it has any.
    fn id_of_row(&mut self, row: &Row) -> u32 {
        if row.entries.is_empty() || self.random.once_in(4) {
            row.node
        } else {
            self.random.pick(&row.entries).id
        }
    }
}
