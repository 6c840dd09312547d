//! What is timed: the row call, the preview, the renderer call and the text call, in three renderers, with 1, 3, 8 and 40 lines open and
//! three messages.

use crate::histories;
use crate::ours;
use crate::ours::Form;
use crate::refusals;
use crate::rust;
use crate::rust::Row;

/// How many lines are open; one is a linear history.
pub const LINES: [u32; 4] = [1, 3, 8, 40];
/// The renderers with their numbers.
const RENDERERS: [(&str, u8); 3] = [("ASCII", 0), ("curved", 3), ("DEC", 4)];
/// The bytes of our output, in which each row's text is written over the one before it.
pub const OUTPUT: usize = 64 * 1024;
/// What a byte that nothing was written to holds.
const UNWRITTEN: u8 = 0xa5;

/// The call that is timed: the row call or the preview alone, the row and the renderer call, or the text call.
#[derive(Clone)]
pub enum Call {
    Row { form: Form },
    Lines { renderer: u8 },
    Text { renderer: u8, message: String },
}

/// A call on a history.
pub struct Case {
    pub name: String,
    pub lines: u32,
    call: Call,
    records: Vec<u8>,
    rows: Vec<Row>,
    text: String,
    previews: Vec<u8>,
    output: Vec<u8>,
}

/// The messages with their names: of one short line, of one line of the greatest length, and of many lines.
fn messages() -> [(&'static str, String); 3] {
    let long = "a message of one line, ".repeat(refusals::MESSAGE / 23 + 1);
    let many = "one line of many\n".repeat(refusals::MESSAGE / 17);
    [
        ("short", "a short message".to_owned()),
        ("long", long[..refusals::MESSAGE].to_owned()),
        ("many lines", many.trim_end().to_owned()),
    ]
}

/// Every call with its name.
pub fn calls() -> Vec<(String, Call)> {
    let mut calls = Vec::new();
    let forms = [
        ("row", Form::Core),
        ("lent row", Form::Lent),
        ("preview", Form::Preview),
    ];
    for (name, form) in forms {
        calls.push((name.to_owned(), Call::Row { form }));
    }
    for (name, renderer) in RENDERERS {
        calls.push((format!("lines, {name}"), Call::Lines { renderer }));
    }
    for (name, renderer) in RENDERERS {
        for (kind, message) in messages() {
            calls.push((
                format!("text, {name}, {kind}"),
                Call::Text { renderer, message },
            ));
        }
    }
    calls
}

/// The call with every number of open lines that has this number, if there are so many.
pub fn numbered(number: usize, rows: usize) -> Option<Case> {
    let (name, call) = &calls().into_iter().nth(number / LINES.len())?;
    Some(Case::new(name, call, LINES[number % LINES.len()], rows))
}

/// Every call with every number of open lines.
pub fn all(rows: usize) -> impl Iterator<Item = Case> {
    (0..).map_while(move |number| numbered(number, rows))
}

impl Case {
    /// The call on a history with so many lines open and at least so many rows.
    pub fn new(name: &str, call: &Call, lines: u32, rows: usize) -> Self {
        let records = histories::records(lines, rows);
        Self {
            name: name.to_owned(),
            lines,
            call: call.clone(),
            rows: rust::rows(&records),
            records,
            text: String::new(),
            previews: Vec::new(),
            output: vec![UNWRITTEN; OUTPUT],
        }
    }

    /// How many rows the history has.
    pub fn len(&self) -> usize {
        self.rows.len()
    }

    /// Our calls, from a new shaper on.
    pub fn ours(&mut self) {
        let drawn = drawn(&self.call, &self.records, false, &mut self.output);
        assert_eq!(drawn, self.rows.len(), "a row was refused");
    }

    /// The Rust's calls, from a new shaper on.
    pub fn rust(&mut self) {
        match &self.call {
            Call::Row {
                form: Form::Preview,
            } => rust::previews(&self.rows, false, &mut self.previews),
            Call::Row { .. } => rust::shapes(&self.rows),
            Call::Lines { renderer } => {
                rust::lines(&self.rows, *renderer, false, &mut self.text);
            }
            Call::Text { renderer, message } => {
                rust::text(&self.rows, message, *renderer, false, &mut self.text);
            }
        }
    }

    /// Checks that both sides give the same for every row, with much room and with none to spare, and that ours writes nothing else.
    pub fn check(&mut self) {
        let (expected, last) = self.expected();
        for spare in [OUTPUT, 0] {
            let mut out = vec![UNWRITTEN; expected.len() + spare];
            let drawn = drawn(&self.call, &self.records, true, &mut out);
            let same = out[..expected.len()] == expected[..];
            let clean = out[expected.len()..].iter().all(|byte| *byte == UNWRITTEN);
            self.expect(drawn == self.rows.len() && same && clean);
        }
        self.ours();
        self.expect(self.output.starts_with(&last));
    }

    /// Ends the program where the two sides differ.
    fn expect(&self, same: bool) {
        let (name, lines) = (&self.name, self.lines);
        assert!(same, "{name}, {lines} lines open: the two sides differ");
    }

    /// What the Rust gives for all rows, and for the last one alone what ours leaves at the head of its output.
    fn expected(&mut self) -> (Vec<u8>, Vec<u8>) {
        let mut all = String::new();
        match &self.call {
            Call::Row {
                form: Form::Preview,
            } => {
                let mut all = Vec::new();
                rust::previews(&self.rows, true, &mut all);
                self.rust();
                return (all, self.previews.clone());
            }
            Call::Row { .. } => return (rust::shape_bytes(&self.rows), Vec::new()),
            Call::Lines { renderer } => rust::lines(&self.rows, *renderer, true, &mut all),
            Call::Text { renderer, message } => {
                rust::text(&self.rows, message, *renderer, true, &mut all);
            }
        }
        self.rust();
        (all.into_bytes(), self.text.clone().into_bytes())
    }
}

/// Makes our call on every record, what it writes behind what it wrote before if it is kept, and gives the count of the rows drawn.
fn drawn(call: &Call, records: &[u8], kept: bool, out: &mut [u8]) -> usize {
    match call {
        Call::Row { form } => ours::rows(*form, records, kept, out),
        Call::Lines { renderer } => ours::lines(records, *renderer, kept, out),
        Call::Text { renderer, message } => {
            ours::text(records, message.as_bytes(), *renderer, kept, out)
        }
    }
}
