//! Answers as docs/REPLAY.md prints them.

use std::fmt::Debug;

use crate::calls::Previewed;
use crate::calls::Shape;
use crate::calls::TextState;
use crate::codes;
use crate::column::Column;
use crate::machine::Answer;
use crate::machine::Machine;
use crate::machine::Output;
use crate::measure::measure;
use crate::origins::Origins;
use crate::origins::Started;
use crate::records::Record;
use crate::render::Ancestor;
use crate::render::LinkLine;
use crate::stream::Command;
use crate::stream::Entry;

/// Runs a command and appends its lines.
pub fn answer(machine: &mut Machine, command: &Command, out: &mut Vec<u8>) -> Answer {
    let answer = machine.run(command);
    lines(machine, &answer, out);
    answer
}

/// The lines of an answer.
fn lines(machine: &Machine, answer: &Answer, out: &mut Vec<u8>) {
    match answer {
        Answer::NotBuilt => line(out, "not built"),
        Answer::List(number) => line(out, &format!("list {number}")),
        Answer::New(number) => {
            line(out, &format!("new {number}"));
            shaper(out, machine);
        }
        Answer::Reserve(number) => {
            line(out, &format!("reserve {number}"));
            shaper(out, machine);
        }
        Answer::Row(number) => {
            line(out, &format!("row {number}"));
            shape(out, &machine.shape);
            shaper(out, machine);
        }
        Answer::Preview(number, previewed, origins) => {
            preview(out, *number, previewed, origins);
            shaper(out, machine);
        }
        Answer::Width(number, width) => line(out, &format!("width {number} {width}")),
        Answer::Origin(started) => line(out, &format!("origin {}", origin(*started))),
        Answer::Renderer(number, written) => {
            line(out, &format!("renderer {number} {}", written.length));
            output(out, written);
        }
        Answer::Text(number, written, lines) => {
            let (length, measure) = (written.length, measure(lines));
            line(out, &format!("text {number} {length} {measure}"));
            output(out, written);
            shaper(out, machine);
            state(out, &machine.state);
        }
        Answer::Record(number, outcome) => record(out, *number, outcome.clone()),
        Answer::Shaper => shaper(out, machine),
        Answer::State => state(out, &machine.state),
        Answer::Shape => shape(out, &machine.shape),
        Answer::Repeated(times) => {
            line(out, &format!("repeated {times}"));
            shaper(out, machine);
            state(out, &machine.state);
        }
    }
}

/// One line.
fn line(out: &mut Vec<u8>, text: &str) {
    out.extend_from_slice(text.as_bytes());
    out.push(b'\n');
}

/// A line that ends in bytes after their count.
fn line_with_bytes(out: &mut Vec<u8>, head: &str, bytes: &[u8]) {
    out.extend_from_slice(format!("{head}{}:", bytes.len()).as_bytes());
    out.extend_from_slice(bytes);
    out.push(b'\n');
}

/// A preview's line.
fn preview(out: &mut Vec<u8>, number: u8, previewed: &Previewed, origins: &Origins) {
    let text = format!(
        "preview {number} {} {}{}",
        previewed.column,
        previewed.width,
        columns(&previewed.columns, origins),
    );
    line(out, &text);
}

/// The shaper's line.
fn shaper(out: &mut Vec<u8>, machine: &Machine) {
    let shaper = &machine.shaper;
    let options = shaper.options();
    let style = options.graph_row_shape_style;
    let previous = shaper.previous_node_column();
    let text = format!(
        "shaper height={} stagger={} dash={:?} placement={:?} previous={}{}",
        options.min_row_height,
        yes(options.stagger_consecutive_disconnected_nodes),
        style.dash_style,
        style.link_line_placement,
        previous.map_or("none".to_owned(), |column| column.to_string()),
        columns(shaper.columns(), &machine.origins),
    );
    line(out, &text);
}

/// The live columns, as a line ends in them.
fn columns(live: &[Column<u32>], origins: &Origins) -> String {
    let live: Vec<_> = live.iter().zip(origins.carried()).collect();
    format!(" columns={}", joined(&live, column))
}

/// A column by name, and the node that it carries.
fn column((held, carried): &(&Column<u32>, &Option<u32>)) -> String {
    match carried {
        Some(node) => format!("{} by {node}", held_by_name(held)),
        None => held_by_name(held),
    }
}

/// A column by name.
fn held_by_name(column: &Column<u32>) -> String {
    match column {
        Column::Empty => "Empty".to_owned(),
        Column::Blocked => "Blocked".to_owned(),
        Column::Reserved(id) => format!("Reserved {id}"),
        Column::Ancestor(id) => format!("Ancestor {id}"),
        Column::Parent(id) => format!("Parent {id}"),
    }
}

/// What a query answers.
fn origin(started: Started) -> String {
    match started {
        Started::NotWaiting => "not waiting".to_owned(),
        Started::Unnamed => "none".to_owned(),
        Started::By(node) => node.to_string(),
    }
}

/// The text state's line.
fn state(out: &mut Vec<u8>, state: &TextState) {
    match &state.queued {
        None => out.extend_from_slice(b"state queued=no"),
        Some(bytes) => {
            out.extend_from_slice(format!("state queued={}:", bytes.len()).as_bytes());
            out.extend_from_slice(bytes);
        }
    }
    line(out, &format!(" row_height={}", state.row_height));
}

/// The six lines of a shape.
fn shape(out: &mut Vec<u8>, shape: &Shape) {
    let row = &shape.row;
    let text = format!(
        "shape node={} merge={} separator={} dash={:?} placement={:?} head={} root={} column={} width={} parents={}",
        row.node,
        yes(row.merge),
        yes(row.separator_line),
        row.style.dash_style,
        row.style.link_line_placement,
        yes(row.is_head),
        yes(row.is_root),
        row.node_column,
        shape.width,
        joined(&row.parent_columns, usize::to_string),
    );
    line(out, &text);
    line(out, &format!("node {}", joined(&row.node_line, name)));
    line(out, &format!("link {}", optional(&row.link_line, marks)));
    line(
        out,
        &format!("from {}", optional(&row.link_line_from_node, marks)),
    );
    line(
        out,
        &format!(
            "term {}",
            optional(&row.term_line, |term| yes(*term).to_owned())
        ),
    );
    line(
        out,
        &format!("ancestry {}", joined(&row.ancestry_line, name)),
    );
}

/// The names of a link cell's marks.
pub fn marks(cell: &LinkLine) -> String {
    let names: Vec<_> = codes::marks()
        .filter(|(_, mark)| cell.contains(*mark))
        .map(|(name, _)| name)
        .collect();
    if names.is_empty() {
        "-".to_owned()
    } else {
        names.join("+")
    }
}

/// The whole output after a call.
fn output(out: &mut Vec<u8>, output: &Output) {
    line_with_bytes(out, "out ", &output.bytes);
}

/// A record's line; records that have ended give what a refused one gives.
fn record(out: &mut Vec<u8>, number: u8, outcome: Option<Record>) {
    let word = match (number, &outcome) {
        (0, Some(_)) => "ready".to_owned(),
        (0, None) => "ended".to_owned(),
        _ => format!("refused {number}"),
    };
    let record = outcome.unwrap_or_default();
    let head = format!(
        "record {word} id={} mark={} entries={} message=",
        record.id,
        record.mark,
        joined(&record.entries, entry),
    );
    line_with_bytes(out, &head, &record.message);
}

/// An entry by name.
fn entry(entry: &Entry) -> String {
    match codes::ancestor(entry) {
        Ancestor::Anonymous => "Anonymous".to_owned(),
        Ancestor::Ancestor(id) => format!("Ancestor {id}"),
        Ancestor::Parent(id) => format!("Parent {id}"),
    }
}

/// The word for a flag.
fn yes(flag: bool) -> &'static str {
    if flag {
        "yes"
    } else {
        "no"
    }
}

/// The crate's own name of a value.
fn name<T: Debug>(value: &T) -> String {
    format!("{value:?}")
}

/// A line that may be absent.
fn optional<T>(items: &Option<Vec<T>>, show: impl Fn(&T) -> String) -> String {
    match items {
        Some(items) => joined(items, show),
        None => "absent".to_owned(),
    }
}

/// Items joined by commas.
fn joined<T>(items: &[T], show: impl Fn(&T) -> String) -> String {
    items.iter().map(show).collect::<Vec<_>>().join(",")
}
