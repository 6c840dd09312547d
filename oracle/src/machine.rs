//! One shaper, one text state and one shape, and what each command does with them.

use std::collections::BTreeMap;

use crate::calls;
use crate::calls::Previewed;
use crate::calls::Shape;
use crate::calls::Shaper;
use crate::calls::TextState;
use crate::codes;
use crate::kinds::Kinds;
use crate::lengths;
use crate::measure;
use crate::measure::Line;
use crate::origins::Origins;
use crate::origins::Started;
use crate::records;
use crate::records::Record;
use crate::refusals;
use crate::refusals::Refusal;
use crate::stream::Command;
use crate::stream::Drawing;
use crate::stream::Letters;
use crate::stream::Options;
use crate::stream::Repeat;
use crate::stream::Row;
use crate::stream::Text;
use crate::stream::Width;

/// The greatest output length.
pub const OUTPUT: u32 = 300_000;

/// What a command answers, beside the states that it leaves.
pub enum Answer {
    NotBuilt,
    List(u32),
    New(u8),
    Reserve(u8),
    Row(u8),
    Preview(u8, Previewed, Origins),
    Width(u8, u64),
    Origin(Started),
    Renderer(u8, Output),
    Text(u8, Output, Vec<Line>),
    Record(u8, Option<Record>),
    Shaper,
    State,
    Shape,
    Repeated(u32),
}

impl Answer {
    /// The refusal number of a call that can be refused.
    pub fn refusal(&self) -> Option<u8> {
        match self {
            Answer::New(number)
            | Answer::Reserve(number)
            | Answer::Row(number)
            | Answer::Preview(number, ..)
            | Answer::Width(number, _)
            | Answer::Renderer(number, _)
            | Answer::Text(number, ..)
            | Answer::Record(number, _) => Some(*number),
            _ => None,
        }
    }
}

/// An output after a call: all its bytes, and how many of them were written.
pub struct Output {
    pub bytes: Vec<u8>,
    pub length: usize,
}

impl Output {
    /// An output that no call has written to.
    fn new(length: u32) -> Self {
        let bytes = (0..length.min(OUTPUT))
            .map(|i| 0xa0 + (i % 61) as u8)
            .collect();
        Self { bytes, length: 0 }
    }

    /// Writes a text to the head of the output, if it fits.
    fn write(&mut self, text: &[u8]) -> Result<(), Refusal> {
        refusals::output(self.bytes.len(), text.len())?;
        self.bytes[..text.len()].copy_from_slice(text);
        self.length = text.len();
        Ok(())
    }
}

/// How often each call was made, by its letter and refusal number, row, preview, width and text calls also by how many entries they have,
/// how many cells renderer calls drew, and the kinds of input.
#[derive(Clone, Debug, Default)]
pub struct Counts {
    pub calls: BTreeMap<u8, u64>,
    pub refusals: BTreeMap<(u8, u8), u64>,
    pub entries: BTreeMap<(u8, usize), u64>,
    pub cells: u64,
    pub kinds: Kinds,
}

impl Counts {
    /// Counts one answered call.
    fn add(&mut self, command: &Command, answer: &Answer) {
        let letter = command.letter();
        *self.calls.entry(letter).or_default() += 1;
        if let Some(entries) = command.entries() {
            *self.entries.entry((letter, entries.len())).or_default() += 1;
        }
        if let Some(number) = answer.refusal() {
            *self.refusals.entry((letter, number)).or_default() += 1;
        }
    }

    /// Adds the counts of another.
    pub fn join(&mut self, other: &Counts) {
        for (letter, count) in &other.calls {
            *self.calls.entry(*letter).or_default() += count;
        }
        for (place, count) in &other.refusals {
            *self.refusals.entry(*place).or_default() += count;
        }
        for (place, count) in &other.entries {
            *self.entries.entry(*place).or_default() += count;
        }
        self.cells += other.cells;
        self.kinds.join(&other.kinds);
    }

    /// How often calls with this letter were made.
    pub fn of_letter(&self, letter: u8) -> u64 {
        self.calls.get(&letter).copied().unwrap_or(0)
    }

    /// How often calls with this letter had so many entries.
    pub fn of_length(&self, letter: u8, length: usize) -> u64 {
        self.entries.get(&(letter, length)).copied().unwrap_or(0)
    }

    /// The lengths of lists that no such call had: each its letter and length.
    pub fn lengths_missing(&self) -> Vec<(char, usize)> {
        let wanted = lengths::CALLS
            .into_iter()
            .flat_map(|letter| lengths::COUNTS.map(|length| (letter, length)));
        wanted
            .filter(|place| !self.entries.contains_key(place))
            .map(|(letter, length)| (char::from(letter), length))
            .collect()
    }

    /// The refusals that calls of these letters can give and none has given: each its letter and number.
    pub fn refusals_missing(&self) -> Vec<(char, u8)> {
        let possible = refusals::OF_CALLS
            .iter()
            .flat_map(|(letter, numbers)| numbers.iter().map(|number| (*letter, *number)));
        possible
            .filter(|place| !self.refusals.contains_key(place))
            .map(|(letter, number)| (char::from(letter), number))
            .collect()
    }

    /// How often this refusal number was given, 0 for a call that passed.
    pub fn of_refusal(&self, number: u8) -> u64 {
        self.refusals
            .iter()
            .filter(|((_, given), _)| *given == number)
            .map(|(_, count)| count)
            .sum()
    }
}

/// The states that commands work on.
pub struct Machine {
    pub shaper: Shaper,
    pub origins: Origins,
    pub state: TextState,
    pub shape: Shape,
    pub counts: Counts,
    built: Letters,
}

impl Machine {
    /// The machine at the beginning of a stream.
    pub fn new(built: &Letters) -> Self {
        Self {
            shaper: calls::blank_shaper(),
            origins: Origins::fresh(),
            state: TextState::default(),
            shape: calls::blank_shape(),
            counts: Counts::default(),
            built: built.clone(),
        }
    }

    /// Runs a command and counts it; one that is not built changes nothing.
    pub fn run(&mut self, command: &Command) -> Answer {
        if !self.built.know(command.letter()) {
            return Answer::NotBuilt;
        }
        let answer = self.call(command);
        self.counts.add(command, &answer);
        if let Answer::Renderer(0, _) = answer {
            self.counts.cells += self.shape.width;
        }
        answer
    }

    /// Runs a command.
    fn call(&mut self, command: &Command) -> Answer {
        match command {
            Command::List(number) => self.list(*number),
            Command::New(options) => self.new_shaper(options),
            Command::Reserve(id) => self.reserve(*id),
            Command::Row(row) => self.row(row),
            Command::Preview(row) => self.preview(row),
            Command::Width(width) => self.width(width),
            Command::Origin(id) => self.origin(*id),
            Command::Renderer(drawing) => self.renderer(drawing),
            Command::Text(text) => self.text(text),
            Command::Record(left) => record(left),
            Command::Shaper(hand) => {
                self.shaper = calls::hand_shaper(hand);
                self.origins = Origins::by_hand(self.shaper.columns(), &hand.slots);
                Answer::Shaper
            }
            Command::State(hand) => {
                self.state = calls::hand_state(hand);
                Answer::State
            }
            Command::Shape(hand) => {
                self.shape = calls::hand_shape(hand);
                Answer::Shape
            }
            Command::Repeat(repeat) => self.repeat(repeat),
            Command::Unknown(..) => Answer::NotBuilt,
        }
    }

    /// Begins a list.
    fn list(&mut self, number: u32) -> Answer {
        self.shaper = calls::blank_shaper();
        self.origins = Origins::fresh();
        self.state = TextState::default();
        self.shape = calls::blank_shape();
        Answer::List(number)
    }

    /// New shaper; a refused one takes the old one's place too.
    fn new_shaper(&mut self, options: &Options) -> Answer {
        let (number, shaper) = split(calls::new_shaper(options));
        self.shaper = shaper.unwrap_or_else(calls::blank_shaper);
        self.origins = Origins::fresh();
        Answer::New(number)
    }

    /// Reserve.
    fn reserve(&mut self, id: u32) -> Answer {
        let (number, after) = split(calls::reserve(&self.shaper, id));
        if let Some(shaper) = after {
            self.origins.reserve(id, shaper.columns());
            self.shaper = shaper;
        }
        Answer::Reserve(number)
    }

    /// Row; the shape of a refused one takes the old one's place too.
    fn row(&mut self, row: &Row) -> Answer {
        let (number, after) = split(calls::row(&self.shaper, row));
        self.shape = match after {
            Some((shaper, shape)) => {
                self.drawn(row, shaper);
                shape
            }
            None => calls::blank_shape(),
        };
        Answer::Row(number)
    }

    /// Takes the shaper that an accepted row leaves.
    fn drawn(&mut self, row: &Row, shaper: Shaper) {
        let node_column = shaper.previous_node_column().expect("the node's column");
        self.origins
            .row(self.shaper.columns(), shaper.columns(), node_column, row);
        self.shaper = shaper;
    }

    /// Preview; it changes nothing.
    fn preview(&self, row: &Row) -> Answer {
        let (number, previewed) = split(calls::preview(&self.shaper, row));
        let mut origins = self.origins.clone();
        if let Some(previewed) = &previewed {
            let before = self.shaper.columns();
            origins.row(before, &previewed.columns, previewed.column, row);
        }
        let previewed = previewed.unwrap_or_else(|| calls::blank_preview(&self.shaper));
        Answer::Preview(number, previewed, origins)
    }

    /// Width.
    fn width(&self, width: &Width) -> Answer {
        let node = codes::flag(width.has_node).then_some(width.node);
        let entries = codes::flag(width.has_entries).then_some(width.entries.as_slice());
        let (number, width) = split(calls::width(&self.shaper, node, entries));
        Answer::Width(number, width.unwrap_or(0))
    }

    /// Query; it changes nothing.
    fn origin(&self, id: u32) -> Answer {
        Answer::Origin(self.origins.started(self.shaper.columns(), id))
    }

    /// Renderer.
    fn renderer(&self, drawing: &Drawing) -> Answer {
        let mut output = Output::new(drawing.length);
        let lines = calls::renderer(&self.shape, drawing.renderer, drawing.mark);
        let (number, _) = split(lines.and_then(|lines| output.write(lines.as_bytes())));
        Answer::Renderer(number, output)
    }

    /// Text.
    fn text(&mut self, text: &Text) -> Answer {
        let mut output = Output::new(text.drawing.length);
        let written = calls::text(&self.shaper, &self.state, text);
        let (number, after) = split(written.and_then(|written| {
            output.write(&written.text)?;
            Ok(written)
        }));
        let mut lines = Vec::new();
        if let Some(written) = after {
            self.drawn(&text.row, written.shaper);
            self.state = written.state;
            lines = measure::lines(&written.text, &written.line_lengths);
        }
        Answer::Text(number, output, lines)
    }

    /// Quiet repeat; an `X` within it is skipped.
    fn repeat(&mut self, repeat: &Repeat) -> Answer {
        for _ in 0..repeat.times {
            for command in &repeat.commands {
                if command.letter() != b'X' {
                    self.run(command);
                }
            }
        }
        Answer::Repeated(repeat.times)
    }

    /// The bytes that a renderer call needs, if nothing else refuses it.
    pub fn renderer_need(&self, drawing: &Drawing) -> Option<usize> {
        let lines = calls::renderer(&self.shape, drawing.renderer, drawing.mark);
        lines.ok().map(|lines| lines.len())
    }

    /// The bytes that a text call needs, if nothing else refuses it.
    pub fn text_need(&self, text: &Text) -> Option<usize> {
        let written = calls::text(&self.shaper, &self.state, text);
        written.ok().map(|written| written.text.len())
    }
}

/// The record call.
fn record(left: &[u8]) -> Answer {
    let (number, record) = split(records::record(left));
    Answer::Record(number, record.flatten())
}

/// The refusal number, 0 for none, and what the call gave.
fn split<T>(result: Result<T, Refusal>) -> (u8, Option<T>) {
    match result {
        Ok(value) => (0, Some(value)),
        Err(Refusal(number)) => (number, None),
    }
}
