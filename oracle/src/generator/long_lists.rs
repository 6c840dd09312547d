//! Lists of thousands of calls: whole histories of version control, and calls on nearly full columns.

use super::growing;
use super::Generator;
use crate::codes;
use crate::refusals;
use crate::stream::Command;
use crate::stream::Drawing;
use crate::stream::Entry;
use crate::stream::Row;
use crate::stream::Text;
use crate::stream::Width;

/// How many rows such a list has, at least and at most.
const ROWS: (u64, u64) = (2100, 3000);
/// The fewest columns that are nearly full.
const NEARLY_FULL: u64 = 58;
/// The most entries that no column holds yet: one that is held may come to them.
const NEW_ENTRIES: u64 = refusals::ENTRIES as u64 - 1;
/// The first id that no column holds at the beginning.
const FRESH: u32 = 5000;
/// Kinds of entries: direct ones, and now and then an indirect one.
const KINDS: [u8; 10] = [2, 2, 2, 2, 2, 2, 2, 2, 2, 1];

impl Generator<'_> {
    /// Fills the list with a history of version control, from the newest row on.
    pub fn fill_long_history(&mut self) {
        let by_text = self.long_opening();
        let count = self.random.from(ROWS.0, ROWS.1) as usize;
        let commits = growing::commits(&mut self.random, count);
        let step = self.random.pick(&[1, 0x9e37_79b1]);
        let mask = self.random.next() as u32;
        let id = |place: usize| (place as u32).wrapping_mul(step) ^ mask;
        for (place, parents) in commits.iter().enumerate().rev() {
            let entries = self.entries_of(parents.iter().map(|parent| id(*parent)));
            let node = id(place);
            self.draw(Row { node, entries }, by_text);
        }
    }

    /// Fills the list with rows on 58 to 64 columns.
    pub fn fill_nearly_full(&mut self) {
        let by_text = self.long_opening();
        let mut fresh = FRESH..;
        for _ in 0..self.random.from(ROWS.0, ROWS.1) {
            let row = self.row_when_nearly_full(&mut fresh);
            self.draw(row, by_text);
        }
    }

    /// Opens with a new shaper of any options that pass; says whether rows are drawn by text calls.
    fn long_opening(&mut self) -> bool {
        let mut options = self.options();
        options.height = options.height.min(refusals::HEIGHT);
        self.push(Command::New(options));
        self.random.once_in(2)
    }

    /// Entries with these ids.
    fn entries_of(&mut self, ids: impl Iterator<Item = u32>) -> Vec<Entry> {
        ids.map(|id| Entry {
            kind: self.random.pick(&KINDS),
            id,
        })
        .collect()
    }

    /// A row after which 58 to 64 ids wait, or that is refused: its node waits mostly, often in the last column, and so does one of its
    /// entries now and then.
    fn row_when_nearly_full(&mut self, fresh: &mut impl Iterator<Item = u32>) -> Row {
        let columns = self.machine.shaper.columns();
        let held: Vec<_> = columns.iter().filter_map(codes::held).collect();
        let wanted = self.random.from(NEARLY_FULL, refusals::COLUMNS as u64);
        let new = (wanted + 1).saturating_sub(held.len() as u64);
        let mut ids: Vec<_> = fresh.take(new.min(NEW_ENTRIES) as usize).collect();
        if !held.is_empty() && self.random.once_in(2) {
            ids.push(self.random.pick(&held));
        }
        let node = match self.random.weighted(&[1, 5, 5]) {
            1 if !held.is_empty() => held[held.len() - 1],
            2 if !held.is_empty() => self.random.pick(&held),
            _ => ids.pop().unwrap_or_default(),
        };
        let entries = self.entries_of(ids.into_iter());
        Row { node, entries }
    }

    /// Draws a row by a text call, or by a row and a renderer call; a width call, a preview, a query and a call with too short an output
    /// come now and then.
    fn draw(&mut self, row: Row, by_text: bool) {
        if self.random.once_in(20) {
            self.push(Command::Width(Width::of(row.clone())));
        }
        if self.random.once_in(20) {
            self.push(Command::Preview(row.clone()));
        }
        let command = Command::Row(row.clone());
        if by_text {
            self.draw_by_text(row);
            self.ask_behind(&command);
        } else {
            self.push(command.clone());
            self.ask_behind(&command);
            let mut drawing = self.passing_drawing();
            drawing.length = self.machine.renderer_need(&drawing).unwrap_or(0) as u32;
            self.push(Command::Renderer(drawing));
        }
    }

    /// Draws a row by a text call.
    fn draw_by_text(&mut self, row: Row) {
        let mut text = Text {
            drawing: self.passing_drawing(),
            row,
            message: self.passing_message(),
        };
        let need = self.machine.text_need(&text).unwrap_or(0) as u32;
        if self.random.once_in(20) {
            text.drawing.length = need.saturating_sub(1);
            self.push(Command::Text(text.clone()));
        }
        text.drawing.length = need + self.random.pick(&[0, 0, 0, 1, 20]);
        self.push(Command::Text(text));
    }

    /// Any renderer and a mark that passes, without a length yet.
    fn passing_drawing(&mut self) -> Drawing {
        Drawing {
            renderer: self.random.below(5) as u8,
            mark: self.any_mark(),
            length: 0,
        }
    }

    /// A message that passes.
    fn passing_message(&mut self) -> Vec<u8> {
        match self.random.weighted(&[6, 12, 4, 1]) {
            0 => Vec::new(),
            1 => self.short(40, b"abc d"),
            2 => self.short(40, b"ab  \n"),
            _ => self.medium(),
        }
    }
}
