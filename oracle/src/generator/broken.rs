//! Calls that several of document 01's conditions refuse at once.

use super::Generator;
use crate::refusals;
use crate::stream::Drawing;
use crate::stream::Entry;
use crate::stream::Row;
use crate::stream::Text;

/// The first id of entries that no column holds.
const FRESH: u32 = 3000;
/// How many bytes a message has that is too long.
const TOO_LONG: [u64; 3] = [513, 514, 600];

impl Generator<'_> {
    /// Gives a call that draws a wrong mark, an empty output, or both.
    pub fn break_drawing(&mut self, drawing: &mut Drawing) {
        if self.random.once_in(2) {
            drawing.mark = self.bad_mark();
        }
        if self.random.once_in(2) {
            drawing.length = 0;
        }
    }

    /// Gives a row new entries, as many as may be or one more, for which there may be no columns.
    pub fn break_row(&mut self, row: &mut Row) {
        let count = refusals::ENTRIES as u32 + self.random.below(2) as u32;
        let entry = |id| Entry { kind: 2, id };
        row.entries = (FRESH..FRESH + count).map(entry).collect();
    }

    /// Gives a text call some of what a call that draws may not have, a message that is too long or holds a wrong byte, and entries for
    /// which there may be no columns.
    pub fn break_text(&mut self, text: &mut Text) {
        self.break_drawing(&mut text.drawing);
        if self.random.once_in(2) {
            let length = self.random.pick(&TOO_LONG);
            text.message = self.characters(length, b"ab c\n");
        }
        if !text.message.is_empty() && self.random.once_in(2) {
            self.spoil(&mut text.message);
        }
        if self.random.once_in(2) {
            self.break_row(&mut text.row);
        }
    }
}
