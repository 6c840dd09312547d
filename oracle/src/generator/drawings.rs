//! Shapes set by hand with renderer calls on them: every renderer, marks and output lengths at their limits.

use super::values;
use super::Generator;
use super::Theme;
use crate::random::Random;
use crate::refusals;
use crate::stream::Command;
use crate::stream::Drawing;
use crate::stream::Letters;

/// A list of drawings follows no theme.
const THEME: Theme = [0; super::ALL_LETTERS.len()];
/// Marks: both limits from both sides, and one between.
const MARKS: [u8; 8] = [0x20, 0x21, 0x21, 0x7e, 0x7e, 0x7f, b'o', b'o'];
/// How many renderers there are.
const RENDERERS: u8 = 5;

/// The list with this number: a shape of any width up to one too wide, and each renderer on it.
pub fn drawings(seed: u64, number: u32) -> Vec<Command> {
    let mut random = Random::new(seed, u64::from(number));
    let ids = values::few_ids(&mut random);
    let letters = Letters::all();
    let mut generator = Generator::new(random, &letters, ids, THEME);
    generator.fill_drawings();
    generator.commands
}

impl Generator<'_> {
    /// Fills a list of drawings.
    fn fill_drawings(&mut self) {
        let width = self.random.below(refusals::COLUMNS as u64 + 2);
        let shape = self.hand_shape_of(width);
        self.push(Command::Shape(shape));
        for renderer in 0..RENDERERS {
            let drawing = self.drawing_at_limits(renderer);
            self.push(Command::Renderer(drawing));
        }
    }

    /// A renderer call with an output one byte short, exact, or longer.
    fn drawing_at_limits(&mut self, renderer: u8) -> Drawing {
        let mut drawing = Drawing {
            renderer,
            mark: self.random.pick(&MARKS),
            length: 0,
        };
        let need = self.machine.renderer_need(&drawing).unwrap_or(0) as u32;
        let longer = need + self.random.from(1, 70) as u32;
        drawing.length = self
            .random
            .pick(&[need.saturating_sub(1), need, need, longer]);
        drawing
    }
}
