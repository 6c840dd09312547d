//! Seeded lists of commands, made to collide: few ids, repeats, full columns, and every limit from both sides.

mod broken;
mod drawings;
mod every_length;
mod growing;
mod hand_made;
mod histories;
mod long_lists;
mod pieces;
mod previews;
mod queries;
mod record_calls;
mod rows_by_hand;
mod values;

use crate::machine::Machine;
use crate::random::Random;
use crate::stream::Command;
use crate::stream::Drawing;
use crate::stream::HandShaper;
use crate::stream::Letters;
use crate::stream::Options;
use crate::stream::Repeat;
use crate::stream::Row;
use crate::stream::Text;
use crate::stream::Width;
use crate::stream::ALL_LETTERS;

pub use drawings::drawings;
pub use histories::history;
pub use rows_by_hand::rows_by_hand;

/// What the commands of a list are mostly about, as weights of the letters in `ALL_LETTERS`.
type Theme = [u64; ALL_LETTERS.len()];

/// The themes, each with its own weight. The letters are N R W B V O P T D S Q H X.
const THEMES: [(u64, Theme); 5] = [
    (40, [3, 8, 24, 8, 8, 4, 10, 8, 0, 2, 1, 1, 2]),
    (30, [1, 4, 2, 2, 1, 2, 1, 30, 0, 1, 2, 0, 1]),
    (10, [0, 0, 1, 0, 0, 0, 12, 0, 0, 0, 0, 10, 0]),
    (5, [0, 0, 0, 0, 0, 0, 0, 1, 20, 0, 0, 0, 0]),
    (15, [1, 1, 1, 1, 1, 1, 1, 1, 1, 1, 1, 1, 1]),
];

/// How seldom a list of thousands of calls comes, and at which places of so many lists.
const LONG_EVERY: u32 = 500;
const LONG_HISTORY: u32 = 150;
const NEARLY_FULL: u32 = 400;

/// The theme of a list of lone rows, between which separators stand.
const LONE_THEME: Theme = [1, 1, 2, 2, 1, 1, 1, 24, 0, 1, 6, 0, 1];

/// A list in the making, with the machine that it has led to.
struct Generator<'a> {
    random: Random,
    letters: &'a Letters,
    machine: Machine,
    ids: Vec<u32>,
    theme: Theme,
    lone: bool,
    commands: Vec<Command>,
}

/// The list with this number, of commands that are built.
pub fn list(seed: u64, number: u32, letters: &Letters) -> Vec<Command> {
    let mut random = Random::new(seed, u64::from(number));
    let ids = values::few_ids(&mut random);
    let theme = theme(&mut random, letters);
    let mut generator = Generator::new(random, letters, ids, theme);
    generator.push(Command::List(number));
    match number % LONG_EVERY {
        LONG_HISTORY => generator.fill_long_history(),
        NEARLY_FULL => generator.fill_nearly_full(),
        _ => generator.fill(),
    }
    generator.commands
}

/// One of the themes with a letter that is built, without its other letters.
fn theme(random: &mut Random, letters: &Letters) -> Theme {
    let mut themes = THEMES;
    for (weight, theme) in &mut themes {
        *theme = built(*theme, letters);
        if theme.iter().sum::<u64>() == 0 {
            *weight = 0;
        }
    }
    let weights = themes.map(|(weight, _)| weight);
    if weights.iter().sum::<u64>() == 0 {
        return [0; ALL_LETTERS.len()];
    }
    themes[random.weighted(&weights)].1
}

/// A theme without the letters that are not built.
fn built(mut theme: Theme, letters: &Letters) -> Theme {
    for (place, letter) in ALL_LETTERS.iter().enumerate() {
        if !letters.know(*letter) {
            theme[place] = 0;
        }
    }
    theme
}

impl<'a> Generator<'a> {
    /// A list without commands yet.
    fn new(random: Random, letters: &'a Letters, ids: Vec<u32>, theme: Theme) -> Self {
        Self {
            random,
            letters,
            machine: Machine::new(letters),
            ids,
            theme,
            lone: false,
            commands: Vec::new(),
        }
    }

    /// Adds a command and runs it, if it is built.
    fn push(&mut self, command: Command) {
        if self.letters.know(command.letter()) {
            self.machine.run(&command);
            self.commands.push(command);
        }
    }

    /// Fills the list.
    fn fill(&mut self) {
        let length = match self.random.weighted(&[60, 12, 12, 2, 6, 4, 3, 1]) {
            0 => self.opening(4, 30),
            1 => self.hand_made_opening(4, 30),
            2 => self.wide_opening_by_hand(4, 24),
            3 => self.wide_opening_by_reserving(4, 20),
            4 => self.lone_opening(4, 30),
            5 => self.opening(80, 160),
            6 => self.queues_opening(10, 30),
            _ => self.every_length_opening(),
        };
        if self.theme.iter().sum::<u64>() > 0 {
            for _ in 0..length {
                self.command();
            }
        }
    }

    /// Opens with a new shaper; gives how many commands follow.
    fn opening(&mut self, least: u64, most: u64) -> u64 {
        if !self.random.once_in(12) {
            let options = self.options();
            self.push(Command::New(options));
        }
        self.random.from(least, most)
    }

    /// Opens with a new shaper whose lone rows have separators; gives how many commands follow, most of them such rows.
    fn lone_opening(&mut self, least: u64, most: u64) -> u64 {
        let options = Options {
            height: self.random.below(2),
            stagger: 0,
            ..self.options()
        };
        self.push(Command::New(options));
        self.theme = built(LONE_THEME, self.letters);
        self.lone = true;
        self.random.from(least, most)
    }

    /// Opens with a shaper, and perhaps a text state, set by hand; gives how many commands follow.
    fn hand_made_opening(&mut self, least: u64, most: u64) -> u64 {
        let shaper = self.hand_shaper();
        self.set_shaper(shaper);
        if self.random.once_in(2) {
            let state = self.hand_state();
            self.push(Command::State(state));
        }
        self.random.from(least, most)
    }

    /// Opens with text calls, each on a queued line of any length; gives how many commands follow.
    fn queues_opening(&mut self, least: u64, most: u64) -> u64 {
        let length = self.opening(1, 4);
        for _ in 0..self.random.from(least, most) {
            let state = self.any_queued();
            self.push(Command::State(state));
            let text = self.text();
            self.push(Command::Text(text));
        }
        length
    }

    /// Opens with 60 to 64 columns set by hand; gives how many commands follow.
    fn wide_opening_by_hand(&mut self, least: u64, most: u64) -> u64 {
        let shaper: HandShaper = self.wide_shaper();
        self.set_shaper(shaper);
        self.random.from(least, most)
    }

    /// Opens with 58 to 66 reservations; gives how many commands follow.
    fn wide_opening_by_reserving(&mut self, least: u64, most: u64) -> u64 {
        self.opening(least, most);
        let first = self.random.pick(&[100, u32::MAX - 70]);
        for step in 0..self.random.from(58, 66) as u32 {
            self.push(Command::Reserve(first + step));
        }
        self.random.from(least, most)
    }

    /// Adds a shaper set by hand, and now and then a preview or a query on it.
    fn set_shaper(&mut self, shaper: HandShaper) {
        let command = Command::Shaper(shaper);
        self.push(command.clone());
        if self.random.once_in(4) {
            self.preview_and_follow();
        } else {
            self.ask_behind(&command);
        }
    }

    /// Adds one command of the list's theme; a call of the same row may follow a preview, a query any other.
    fn command(&mut self) {
        let letter = ALL_LETTERS[self.random.weighted(&self.theme)];
        if letter == b'B' {
            return self.preview_and_follow();
        }
        let command = self.command_of(letter);
        self.push(command.clone());
        self.ask_behind(&command);
    }

    /// A command with this letter.
    fn command_of(&mut self, letter: u8) -> Command {
        match letter {
            b'N' => Command::New(self.options()),
            b'R' => Command::Reserve(self.id()),
            b'W' => Command::Row(self.row()),
            b'B' => Command::Preview(self.preview()),
            b'V' => Command::Width(self.width()),
            b'O' => Command::Origin(self.id()),
            b'P' => Command::Renderer(self.drawing_of_shape()),
            b'T' => Command::Text(self.text()),
            b'D' => Command::Record(self.record()),
            b'S' => Command::Shaper(self.hand_shaper()),
            b'Q' => Command::State(self.hand_state()),
            b'H' => Command::Shape(self.hand_shape()),
            b'X' => Command::Repeat(self.repeat()),
            _ => unreachable!("a letter of ALL_LETTERS"),
        }
    }

    /// A row call.
    fn row(&mut self) -> Row {
        if self.lone && !self.random.once_in(5) {
            let node = self.random.from(1000, 1200) as u32;
            return Row {
                node,
                entries: Vec::new(),
            };
        }
        let node = self.node();
        Row {
            node,
            entries: self.entries(node),
        }
    }

    /// A width call.
    fn width(&mut self) -> Width {
        let row = self.row();
        Width {
            has_node: self.random.pick(&[0, 1, 1, 1, 2]),
            node: row.node,
            has_entries: self.random.pick(&[0, 1, 1, 1, 255]),
            entries: row.entries,
        }
    }

    /// A renderer call.
    fn drawing_of_shape(&mut self) -> Drawing {
        let mut drawing = self.drawing();
        let need = self.machine.renderer_need(&drawing);
        drawing.length = self.length(need);
        if self.random.once_in(20) {
            self.break_drawing(&mut drawing);
        }
        drawing
    }

    /// A text call.
    fn text(&mut self) -> Text {
        let drawing = self.drawing();
        let row = self.row();
        self.text_of(drawing, row)
    }

    /// A text call of this row with this renderer and mark; the output's length is chosen here.
    fn text_of(&mut self, drawing: Drawing, row: Row) -> Text {
        let mut text = Text {
            drawing,
            row,
            message: self.message(),
        };
        let need = self.machine.text_need(&text);
        text.drawing.length = self.length(need);
        if self.random.once_in(20) {
            self.break_text(&mut text);
        }
        text
    }

    /// Renderer and mark, without a length yet.
    fn drawing(&mut self) -> Drawing {
        Drawing {
            renderer: self.random.pick(&[0, 0, 1, 1, 2, 2, 3, 3, 4, 4, 5]),
            mark: self.mark(),
            length: 0,
        }
    }

    /// A small quiet repeat; an `X` within it, to be skipped, is rare.
    fn repeat(&mut self) -> Repeat {
        let commands = (0..self.random.from(1, 4))
            .filter_map(|_| self.repeated())
            .collect();
        Repeat {
            times: self.random.pick(&[0, 1, 2, 2, 3, 3]),
            commands,
        }
    }

    /// A command within a repeat.
    fn repeated(&mut self) -> Option<Command> {
        if self.random.once_in(20) {
            let commands = vec![Command::Reserve(self.id())];
            return Some(Command::Repeat(Repeat { times: 2, commands }));
        }
        let letter = ALL_LETTERS[self.random.weighted(&self.theme)];
        (letter != b'X').then(|| self.command_of(letter))
    }
}
