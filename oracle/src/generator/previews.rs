//! Previews, and calls of the same row right behind them.

use super::Generator;
use crate::stream::Command;
use crate::stream::Row;
use crate::stream::Width;

impl Generator<'_> {
    /// The row of a preview; now and then one that several conditions may refuse.
    pub fn preview(&mut self) -> Row {
        let mut row = self.row();
        if self.random.once_in(20) {
            self.break_row(&mut row);
        }
        row
    }

    /// Adds a preview and, mostly, a call of the same row right behind it.
    pub fn preview_and_follow(&mut self) {
        let row = self.preview();
        self.push(Command::Preview(row.clone()));
        if !self.random.once_in(4) {
            let command = self.follower(row);
            self.push(command.clone());
            self.ask_behind(&command);
        }
    }

    /// A call of this row: by row or text call, its width, or its preview again.
    fn follower(&mut self, row: Row) -> Command {
        match self.random.weighted(&[6, 2, 3, 1]) {
            0 => Command::Row(row),
            1 => {
                let drawing = self.drawing();
                Command::Text(self.text_of(drawing, row))
            }
            2 => Command::Width(Width::of(row)),
            _ => Command::Preview(row),
        }
    }
}
