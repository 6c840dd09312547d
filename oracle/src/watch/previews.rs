//! Tells which kinds a preview is, and the call right behind it.

use crate::calls::Previewed;
use crate::kinds::Kind;
use crate::kinds::Kinds;
use crate::machine::Answer;
use crate::refusals;
use crate::stream::Command;
use crate::stream::Row;
use crate::stream::Width;

/// What of the list so far tells more about its next call.
#[derive(Default)]
pub struct Previews {
    /// Whether the shaper was just set by hand, with a count above the most columns.
    above: bool,
    /// The call before, if it is a preview.
    last: Option<Last>,
}

/// A preview that was made: of which row, its refusal number and its width.
struct Last {
    row: Row,
    number: u8,
    width: u64,
}

impl Previews {
    /// Looks at a call after it was made.
    pub fn watch(&mut self, kinds: &mut Kinds, command: &Command, answer: &Answer) {
        if let Some(last) = self.last.take() {
            last.behind(kinds, command, answer);
        }
        match (command, answer) {
            (Command::Preview(row), Answer::Preview(number, previewed, _)) => {
                self.preview(kinds, *number, previewed);
                self.last = Some(Last {
                    row: row.clone(),
                    number: *number,
                    width: previewed.width,
                });
            }
            (Command::Shaper(hand), Answer::Shaper) => {
                self.above = hand.count > refusals::COLUMNS as u64;
            }
            _ => self.above = false,
        }
    }

    /// A preview with this refusal number.
    fn preview(&self, kinds: &mut Kinds, number: u8, previewed: &Previewed) {
        if self.above {
            kinds.add(Kind::PreviewAbove, usize::from(number));
        }
        if number == 0 {
            kinds.add(Kind::PreviewColumn, previewed.column);
            kinds.add(Kind::PreviewWidth, previewed.width as usize);
        }
    }
}

impl Last {
    /// Looks at the call right behind the preview.
    fn behind(&self, kinds: &mut Kinds, command: &Command, answer: &Answer) {
        let number = usize::from(self.number);
        match (command, answer) {
            (Command::Row(row), Answer::Row(_)) if *row == self.row => {
                kinds.add(Kind::PreviewThenRow, number);
            }
            (Command::Preview(row), Answer::Preview(..)) if *row == self.row => {
                kinds.add(Kind::PreviewAgain, number);
            }
            (Command::Text(text), Answer::Text(0, ..)) if text.row == self.row => {
                kinds.add(Kind::PreviewThenText, 0);
            }
            (Command::Width(width), Answer::Width(0, figure)) if *width == self.width_call() => {
                self.width(kinds, *figure);
            }
            _ => {}
        }
    }

    /// The width call of the same row.
    fn width_call(&self) -> Width {
        Width::of(self.row.clone())
    }

    /// What the width call of the same row gives, where it is not the preview's width.
    fn width(&self, kinds: &mut Kinds, figure: u64) {
        if self.number == 0 && figure != self.width {
            kinds.add(Kind::OtherWidth, usize::from(figure > self.width));
        }
    }
}
