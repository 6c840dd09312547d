//! Tells which kinds of input the calls of a list are, from each call, the states before it and its answer.

mod origins;
mod previews;
mod queued_lines;
mod record_calls;

use std::collections::BTreeMap;
use std::ops::RangeInclusive;

use crate::codes;
use crate::kinds::Kind;
use crate::kinds::Kinds;
use crate::machine::Answer;
use crate::machine::Machine;
use crate::machine::Output;
use crate::measure::measure;
use crate::measure::Line;
use crate::records;
use crate::refusals;
use crate::refusals::Refusal;
use crate::stream::encode;
use crate::stream::Command;
use crate::stream::Repeat;
use crate::stream::Row;
use origins::Origins;
use previews::Previews;

/// A list with more calls is long.
const LONG: usize = 160;
/// A list with more rows, or more calls on nearly full columns, is very long.
const VERY_LONG: usize = 2000;
/// For how many rows an id waits that waits long.
const LONG_WAIT: usize = 1000;
/// The lengths of messages that are looked at.
const MESSAGES: RangeInclusive<usize> = 41..=510;
/// The numbers of entries of a merge of many.
const OCTOPUS: RangeInclusive<usize> = 3..=8;
/// The numbers of columns that are nearly full.
const NEARLY_FULL: RangeInclusive<usize> = 58..=64;
/// The greatest queued length that is looked at.
const QUEUED: u64 = 515;

/// What has been seen, and what of the list so far tells more about its next call.
#[derive(Default)]
pub struct Watch {
    pub kinds: Kinds,
    list: List,
}

/// The list so far.
#[derive(Default)]
struct List {
    calls: usize,
    rows: usize,
    nearly_full: usize,
    waiting: BTreeMap<u32, usize>,
    /// The length of a queued line set by hand, until it is written, and the line itself as a text call finds it.
    queued: Option<u64>,
    line: Vec<u8>,
    lengths: Option<Lengths>,
    previews: Previews,
    origins: Origins,
}

/// A call that was made with each output length from 0 on: its bytes with length 0, the next length, and what it wrote in the last one.
struct Lengths {
    call: Vec<u8>,
    next: u32,
    written: Option<Vec<u8>>,
}

impl Watch {
    /// Looks at a call before it is made.
    pub fn before(&mut self, machine: &Machine, command: &Command) {
        match command {
            Command::List(_) => self.list = List::default(),
            Command::State(state) => {
                self.list.queued = codes::flag(state.queued).then_some(state.length);
            }
            Command::Text(_) => self.list.line = machine.state.queued.clone().unwrap_or_default(),
            // What is repeated may write the line.
            Command::Repeat(_) => self.list.queued = None,
            _ => {}
        }
        self.columns(machine, command);
        self.list.origins.before(machine, command);
        self.near(machine, command);
        if let Some(kind) = broken_kind(command) {
            self.kinds.add_pairs(kind, &broken(machine, command));
        }
    }

    /// Looks at a call after it was made, and at the list with it.
    pub fn after(&mut self, machine: &Machine, command: &Command, answer: &Answer) {
        self.list.calls += 1;
        if self.list.calls == LONG + 1 {
            self.kinds.add(Kind::LongList, 0);
        }
        match (command, answer) {
            (Command::Row(row), Answer::Row(0)) => self.row(machine, row),
            (Command::Renderer(drawing), Answer::Renderer(0, _)) => {
                self.kinds
                    .add(Kind::RendererMark, usize::from(drawing.mark));
            }
            (Command::Text(text), Answer::Text(0, _, lines)) => {
                self.row(machine, &text.row);
                self.kinds
                    .add(Kind::TextMark, usize::from(text.drawing.mark));
                self.message(&text.message);
                self.lines(lines);
                self.queue();
            }
            (Command::Record(left), Answer::Record(number, record)) => {
                record_calls::watch(&mut self.kinds, left, *number, record.as_ref());
            }
            (Command::Repeat(repeat), _) => self.repeat(repeat),
            _ => {}
        }
        self.list.previews.watch(&mut self.kinds, command, answer);
        self.list
            .origins
            .after(&mut self.kinds, machine, command, answer);
        self.lengths(command, answer);
    }

    /// Whether the columns are nearly full.
    fn columns(&mut self, machine: &Machine, command: &Command) {
        let count = machine.shaper.columns().len();
        if !b"RWBVT".contains(&command.letter()) || !NEARLY_FULL.contains(&count) {
            return;
        }
        self.kinds.add(Kind::NearlyFull, count);
        self.list.nearly_full += 1;
        if self.list.nearly_full == VERY_LONG + 1 {
            self.kinds.add(Kind::NearlyFullList, 0);
        }
    }

    /// Ids that differ in one bit, or else in one byte, from one that a column holds.
    fn near(&mut self, machine: &Machine, command: &Command) {
        for id in ids(command) {
            for held in machine.shaper.columns().iter().filter_map(codes::held) {
                let differing = id ^ held;
                let byte = differing.trailing_zeros() / 8;
                if differing.is_power_of_two() {
                    let bit = differing.trailing_zeros();
                    self.kinds.add(Kind::OneBit, bit as usize);
                } else if differing != 0 && differing >> (8 * byte) < 0x100 {
                    self.kinds.add(Kind::OneByte, byte as usize);
                }
            }
        }
    }

    /// A row that was accepted.
    fn row(&mut self, machine: &Machine, row: &Row) {
        let list = &mut self.list;
        list.rows += 1;
        if list.rows == VERY_LONG + 1 {
            self.kinds.add(Kind::LongHistory, 0);
        }
        if list.calls > LONG && OCTOPUS.contains(&row.entries.len()) {
            self.kinds.add(Kind::Octopus, row.entries.len());
        }
        let held = machine.shaper.columns().iter().filter_map(codes::held);
        let since = |id| list.waiting.get(&id).copied().unwrap_or(list.rows);
        let waiting: BTreeMap<_, _> = held.map(|id| (id, since(id))).collect();
        for since in waiting.values() {
            if list.rows - since == LONG_WAIT {
                self.kinds.add(Kind::LongBranch, 0);
            }
        }
        list.waiting = waiting;
    }

    /// A message that was accepted.
    fn message(&mut self, message: &[u8]) {
        if !MESSAGES.contains(&message.len()) {
            return;
        }
        self.kinds.add(Kind::MessageLength, message.len());
        for (place, byte) in message.iter().enumerate() {
            if *byte == b'\n' {
                self.kinds.add(Kind::LineEnd, place);
            }
        }
    }

    /// The lines of a text call: whether none of the longest by bytes has the most cells.
    fn lines(&mut self, lines: &[Line]) {
        let bytes = lines.iter().map(|line| line.bytes).max();
        let mut longest = lines.iter().filter(|line| Some(line.bytes) == bytes);
        if longest.all(|line| line.cells < measure(lines)) {
            let by_hand = self.list.queued.is_some();
            self.kinds.add(Kind::OtherLongest, usize::from(by_hand));
        }
    }

    /// A queued line that was written, if it was set by hand.
    fn queue(&mut self) {
        let Some(length) = self.list.queued.take() else {
            return;
        };
        if length <= QUEUED {
            self.kinds.add(Kind::QueuedLength, length as usize);
        }
        for (kind, value) in queued_lines::kinds(&self.list.line) {
            self.kinds.add(kind, value);
        }
    }

    /// A quiet repeat: whether record calls, previews and queries are in it.
    fn repeat(&mut self, repeat: &Repeat) {
        for (letter, kind) in [
            (b'D', Kind::RecordRepeated),
            (b'B', Kind::PreviewRepeated),
            (b'O', Kind::QueryRepeated),
        ] {
            let has_letter = |command: &Command| command.letter() == letter;
            if repeat.times > 0 && repeat.commands.iter().any(has_letter) {
                self.kinds.add(kind, 0);
            }
        }
    }

    /// A call that draws: whether it was made with each output length up to here, and in the last two it wrote the same.
    fn lengths(&mut self, command: &Command, answer: &Answer) {
        let (kind, length, output) = match (command, answer) {
            (Command::Renderer(drawing), Answer::Renderer(number, output)) => {
                (Kind::RendererLengths, drawing.length, (*number, output))
            }
            (Command::Text(text), Answer::Text(number, output, _)) => {
                (Kind::TextLengths, text.drawing.length, (*number, output))
            }
            _ => return,
        };
        if length == 0 {
            self.list.lengths = Some(Lengths::new(command));
        }
        let Some(lengths) = &mut self.list.lengths else {
            return;
        };
        if length != lengths.next || without_length(command) != lengths.call {
            self.list.lengths = None;
        } else if lengths.is_complete(output) {
            self.kinds.add(kind, 0);
            self.list.lengths = None;
        }
    }
}

impl Lengths {
    /// A call that is made with length 0.
    fn new(command: &Command) -> Self {
        Self {
            call: without_length(command),
            next: 0,
            written: None,
        }
    }

    /// Takes the answer in the next length, and says whether it is the second that passes, with what the first wrote.
    fn is_complete(&mut self, (number, output): (u8, &Output)) -> bool {
        self.next += 1;
        if number != 0 {
            return false;
        }
        let written = output.bytes[..output.length].to_vec();
        let before = self.written.replace(written);
        before.is_some() && before == self.written
    }
}

/// A call that draws, in bytes, with an output of no length.
fn without_length(command: &Command) -> Vec<u8> {
    let mut command = command.clone();
    match &mut command {
        Command::Renderer(drawing) => drawing.length = 0,
        Command::Text(text) => text.drawing.length = 0,
        _ => {}
    }
    encode(&[command])
}

/// The ids that a call names.
fn ids(command: &Command) -> Vec<u32> {
    let node = match command {
        Command::Reserve(id) | Command::Origin(id) => Some(*id),
        Command::Row(row) | Command::Preview(row) => Some(row.node),
        Command::Text(text) => Some(text.row.node),
        Command::Width(width) => Some(width.node),
        _ => None,
    };
    let entries = command.entries().unwrap_or_default();
    let named = entries.iter().filter(|entry| entry.kind != 0);
    node.into_iter()
        .chain(named.map(|entry| entry.id))
        .collect()
}

/// The kind of calls of this sort with several conditions broken.
fn broken_kind(command: &Command) -> Option<Kind> {
    match command {
        Command::Row(_) => Some(Kind::BrokenRow),
        Command::Preview(_) => Some(Kind::BrokenPreview),
        Command::Renderer(_) => Some(Kind::BrokenRenderer),
        Command::Text(_) => Some(Kind::BrokenText),
        Command::Record(_) => Some(Kind::BrokenRecordCall),
        _ => None,
    }
}

/// The conditions of document 01's table that a call breaks, each taken by itself, in its order.
fn broken(machine: &Machine, command: &Command) -> Vec<u8> {
    let checks = match command {
        Command::Row(row) | Command::Preview(row) => vec![
            refusals::entries(row.entries.len()),
            node_line(machine, row),
        ],
        Command::Renderer(drawing) => vec![
            refusals::mark(drawing.mark),
            refusals::shape_width(machine.shape.width),
            some_output(drawing.length),
        ],
        Command::Text(text) => vec![
            refusals::mark(text.drawing.mark),
            refusals::message_length(&text.message),
            refusals::message_bytes(&text.message),
            refusals::entries(text.row.entries.len()),
            node_line(machine, &text.row),
            some_output(text.drawing.length),
        ],
        Command::Record(left) => records::checks(left),
        _ => Vec::new(),
    };
    refusals::broken(checks)
}

/// 4, of a row with any number of entries.
fn node_line(machine: &Machine, row: &Row) -> Result<(), Refusal> {
    let mut shaper = machine.shaper.clone();
    let shape = shaper.next_row_shape(row.node, codes::ancestors(&row.entries));
    refusals::node_line(shape.node_line.len())
}

/// 8, of lines that are not known: an empty output is shorter than any need.
fn some_output(length: u32) -> Result<(), Refusal> {
    refusals::output(length as usize, 1)
}
