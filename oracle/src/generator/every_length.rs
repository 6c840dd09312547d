//! The same call with every output length: from none to one byte more than it needs.

use super::Generator;
use crate::stream::Command;
use crate::stream::Drawing;
use crate::stream::Text;

/// The most bytes that such a call needs.
const NEED: usize = 1200;

impl Generator<'_> {
    /// Opens with a renderer or a text call in every output length; gives how many commands follow.
    pub fn every_length_opening(&mut self) -> u64 {
        if self.random.once_in(2) {
            self.every_length_of_renderer();
        } else {
            self.every_length_of_text();
        }
        self.random.from(1, 8)
    }

    /// A shape set by hand, and a renderer call on it in every output length.
    fn every_length_of_renderer(&mut self) {
        let width = self.random.from(1, 9);
        let shape = self.hand_shape_of(width);
        self.push(Command::Shape(shape));
        let drawing = self.drawing();
        let Some(need) = self.machine.renderer_need(&drawing) else {
            return;
        };
        for length in 0..=need as u32 + 1 {
            self.push(Command::Renderer(Drawing {
                length,
                ..drawing.clone()
            }));
        }
    }

    /// A shaper and a text state set by hand, and a text call on them in every output length. The first that passes changes the states,
    /// so that they are set once more.
    fn every_length_of_text(&mut self) {
        let states = [
            Command::Shaper(self.hand_shaper()),
            Command::State(self.hand_state()),
        ];
        states.iter().for_each(|state| self.push(state.clone()));
        let text = self.text();
        let need = self.machine.text_need(&text);
        let Some(need) = need.filter(|need| *need <= NEED) else {
            return;
        };
        for length in 0..=need as u32 {
            self.push(in_length(&text, length));
        }
        states.iter().for_each(|state| self.push(state.clone()));
        self.push(in_length(&text, need as u32 + 1));
    }
}

/// A text call with this output length.
fn in_length(text: &Text, length: u32) -> Command {
    let mut text = text.clone();
    text.drawing.length = length;
    Command::Text(text)
}
