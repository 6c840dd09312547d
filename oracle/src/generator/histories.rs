//! Histories for demand 3 and R-9: one new shaper, then reserving, row and text calls of any content.

use std::ops::Range;

use super::queries::QUERY;
use super::values;
use super::Generator;
use super::Theme;
use crate::random::Random;
use crate::refusals;
use crate::stream::Command;
use crate::stream::Entry;
use crate::stream::Letters;
use crate::stream::Row;

/// A history's weights of the letters N R W B V O P T D S Q H X.
const THEME: Theme = [0, 2, 4, 0, 0, 0, 0, 3, 0, 0, 0, 0, 0];

/// The history with this number: a new shaper, refused or not, then calls, refused ones among them. Queries are no calls of a history.
pub fn history(seed: u64, number: u32) -> Vec<Command> {
    let mut random = Random::new(seed, u64::from(number));
    let ids = values::few_ids(&mut random);
    let letters = Letters::all().without(QUERY);
    let mut generator = Generator::new(random, &letters, ids, THEME);
    generator.fill_history();
    generator.commands
}

impl Generator<'_> {
    /// Fills a history; the columns of one in ten are nearly full from the start.
    fn fill_history(&mut self) {
        let options = self.options();
        self.push(Command::New(options));
        if self.random.once_in(10) {
            self.fill_columns();
        }
        let length = match self.random.weighted(&[24, 1]) {
            0 => self.random.from(4, 30),
            _ => self.random.from(80, 160),
        };
        for _ in 0..length {
            self.command();
        }
    }

    /// Makes 58 to 66 ids wait, some reserved and some named by wide rows, as far as there are columns.
    fn fill_columns(&mut self) {
        let first = self.random.pick(&[100, u32::MAX - 70]);
        let end = first + self.random.from(58, 66) as u32;
        let mut next = first;
        while next < end {
            let past =
                end.min(next.saturating_add(self.random.from(1, refusals::ENTRIES as u64) as u32));
            self.make_wait(next..past);
            next = past;
        }
    }

    /// Makes ids wait, by reserving calls or by a row that names them.
    fn make_wait(&mut self, ids: Range<u32>) {
        if self.random.once_in(2) {
            ids.for_each(|id| self.push(Command::Reserve(id)));
            return;
        }
        let node = self.node();
        let entries = ids
            .map(|id| Entry {
                kind: self.random.pick(&[1, 2, 2]),
                id,
            })
            .collect();
        self.push(Command::Row(Row { node, entries }));
    }
}
