//! A list of text calls on queued lines set by hand, of which it matters how their cells are counted.

use crate::calls;
use crate::machine::Machine;
use crate::measure::BOX_CHARACTERS;
use crate::measure::SHIFT_SEQUENCES;
use crate::stream::Command;
use crate::stream::Drawing;
use crate::stream::HandState;
use crate::stream::Letters;
use crate::stream::Options;
use crate::stream::Row;
use crate::stream::Text;

/// The node of each call.
const NODE: u32 = 1;

/// Characters that are no box characters; most of them begin like one.
const OTHER_CHARACTERS: [&str; 10] = ["é", "═", "━", "╌", "╬", "╱", "╵", "¶", "¸", "\u{a0}"];

/// Bytes that begin a box character or a shift sequence and do not complete it, or do so behind bytes that do not.
const BEGUN: [&[u8]; 22] = [
    b"a\xc2",
    b"a\xe2",
    b"\xe2\x94",
    b"\xe2\x95",
    b"\xe2\x95\x80",
    b"\xe2\x94\xad",
    b"\xe2\x80\x94",
    b"\xe2\x94  ",
    b"\xe2\x94\n",
    b"\xc2\xc2\xb7",
    b"\xe2\xe2\x94\x80",
    b"\xe2\x94\xe2\x94\x80",
    b"a\x1b",
    b"\x1b(",
    b"\x1b(C",
    b"\x1b(  ",
    b"\x1b\n(0",
    b"\x1b\x1b(0x",
    b"\x1b(\x1b(Bx",
    b"\x1b\xe2\x94\x80",
    b"\xe2\x94\x1b(0\x80",
    b"a(0b(B",
];

/// The list with this number.
pub fn list(number: u32) -> Vec<Command> {
    let lines = [boxes(), shifts(), others(), cut()].concat();
    let mut machine = Machine::new(&Letters::all());
    let mut commands = vec![Command::List(number), new()];
    for command in &commands {
        machine.run(command);
    }
    for line in lines {
        let state = Command::State(line);
        machine.run(&state);
        let text = text(&machine);
        machine.run(&text);
        commands.extend([state, text]);
    }
    commands
}

/// Each box character twice, all of them in one line, and one in front of blanks.
fn boxes() -> Vec<HandState> {
    let twice = BOX_CHARACTERS.iter().map(|character| character.repeat(2));
    let more = [BOX_CHARACTERS.concat(), "a│ ·  ".to_owned()];
    let lines = twice.chain(more);
    lines.map(|line| queued(line.as_bytes())).collect()
}

/// Each shift sequence between characters, both around one, and one in front of blanks.
fn shifts() -> Vec<HandState> {
    let between = SHIFT_SEQUENCES.iter().map(|shift| format!("a{shift}b"));
    let [to, back] = SHIFT_SEQUENCES;
    let around = [format!("{to}x {back}"), format!("a{back}{back}{to}b{to}  ")];
    let lines = between.chain(around);
    lines.map(|line| queued(line.as_bytes())).collect()
}

/// Other characters, and bytes that do not complete what they begin.
fn others() -> Vec<HandState> {
    let characters = OTHER_CHARACTERS
        .iter()
        .map(|character| character.as_bytes());
    characters.chain(BEGUN).map(queued).collect()
}

/// Box characters and shift sequences cut by the queued length, and by the end of the array.
fn cut() -> Vec<HandState> {
    let cut = |text: &str, length| HandState {
        length,
        ..queued(text.as_bytes())
    };
    vec![
        cut("a·", 2),
        cut("──", 4),
        cut("──", 5),
        cut("ab\x1b(0", 3),
        cut("ab\x1b(0", 4),
        cut(&"─".repeat(calls::QUEUE / 3 + 1), u64::MAX),
    ]
}

/// The text state with this queued line, after which no separator is written.
fn queued(line: &[u8]) -> HandState {
    HandState {
        queued: 1,
        length: line.len() as u64,
        row_height: 1,
        bytes: line.to_vec(),
    }
}

/// A new shaper of height 1.
fn new() -> Command {
    Command::New(Options {
        height: 1,
        ..Options::default()
    })
}

/// The text call of a lone row on the machine, drawn in ASCII with mark `o`, its output just long enough.
fn text(machine: &Machine) -> Command {
    let mut text = Text {
        drawing: Drawing {
            renderer: 0,
            mark: b'o',
            length: 0,
        },
        row: Row {
            node: NODE,
            entries: Vec::new(),
        },
        message: Vec::new(),
    };
    text.drawing.length = machine.text_need(&text).unwrap_or(0) as u32;
    Command::Text(text)
}
