//! The call stream of docs/REPLAY.md. Each command's fields are walked in one place, in the order of its payload; reading, writing, showing and shrinking are walks.

/// All letters but `L`, which is always known.
pub const ALL_LETTERS: &[u8] = b"NRWBVOPTDSQHX";

/// The command letters that are built.
#[derive(Clone, Debug)]
pub struct Letters(Vec<u8>);

impl Letters {
    /// The letters in `text`; anything else in it is ignored.
    pub fn new(text: &str) -> Self {
        Self(
            text.bytes()
                .filter(|letter| ALL_LETTERS.contains(letter))
                .collect(),
        )
    }

    /// Every letter.
    pub fn all() -> Self {
        Self(ALL_LETTERS.to_vec())
    }

    /// These letters but one.
    pub fn without(&self, letter: u8) -> Self {
        Self(
            self.0
                .iter()
                .copied()
                .filter(|one| *one != letter)
                .collect(),
        )
    }

    /// Whether commands with this letter are run.
    pub fn know(&self, letter: u8) -> bool {
        letter == b'L' || self.0.contains(&letter)
    }
}

/// What is done with each field of a command.
pub trait Walk {
    /// A number of `size` bytes; gives the value that the field is to have.
    fn number(&mut self, name: &'static str, size: usize, value: u64) -> u64;

    /// A list with its count, of `size` bytes, before it.
    fn list<T: Fields>(&mut self, name: &'static str, size: usize, items: &mut Vec<T>);

    /// Bytes with their count, of two bytes, before them.
    fn bytes(&mut self, name: &'static str, bytes: &mut Vec<u8>);

    /// The bytes up to the payload's end.
    fn rest(&mut self, name: &'static str, bytes: &mut Vec<u8>);

    /// The commands up to the payload's end.
    fn commands(&mut self, commands: &mut Vec<Command>);

    /// A number of one byte.
    fn u8(&mut self, name: &'static str, value: &mut u8) {
        *value = self.number(name, 1, u64::from(*value)) as u8;
    }

    /// A number of two bytes.
    fn u16(&mut self, name: &'static str, value: &mut u16) {
        *value = self.number(name, 2, u64::from(*value)) as u16;
    }

    /// A number of four bytes.
    fn u32(&mut self, name: &'static str, value: &mut u32) {
        *value = self.number(name, 4, u64::from(*value)) as u32;
    }

    /// A number of eight bytes.
    fn u64(&mut self, name: &'static str, value: &mut u64) {
        *value = self.number(name, 8, *value);
    }
}

/// Something that has fields in a payload.
pub trait Fields: Clone + Default {
    /// Walks over the fields in their order.
    fn walk<W: Walk>(&mut self, walk: &mut W);
}

/// A parent entry: the code of its kind, and its id.
#[derive(Clone, Debug, Default, PartialEq, Eq)]
pub struct Entry {
    pub kind: u8,
    pub id: u32,
}

impl Fields for Entry {
    fn walk<W: Walk>(&mut self, walk: &mut W) {
        walk.u8("kind", &mut self.kind);
        walk.u32("id", &mut self.id);
    }
}

/// A column: the code of its kind, its id, and its origin, which stands behind all slots.
#[derive(Clone, Debug, Default)]
pub struct Slot {
    pub kind: u8,
    pub id: u32,
    pub origin: u32,
}

impl Fields for Slot {
    fn walk<W: Walk>(&mut self, walk: &mut W) {
        walk.u8("kind", &mut self.kind);
        walk.u32("id", &mut self.id);
    }
}

/// The options of a shaper, as codes.
#[derive(Clone, Debug, Default)]
pub struct Options {
    pub height: u64,
    pub stagger: u8,
    pub dash: u8,
    pub placement: u8,
}

impl Fields for Options {
    fn walk<W: Walk>(&mut self, walk: &mut W) {
        walk.u64("height", &mut self.height);
        walk.u8("stagger", &mut self.stagger);
        walk.u8("dash", &mut self.dash);
        walk.u8("placement", &mut self.placement);
    }
}

/// A row call, or the preview of one.
#[derive(Clone, Debug, Default, PartialEq, Eq)]
pub struct Row {
    pub node: u32,
    pub entries: Vec<Entry>,
}

impl Fields for Row {
    fn walk<W: Walk>(&mut self, walk: &mut W) {
        walk.u32("node", &mut self.node);
        walk.list("entries", 2, &mut self.entries);
    }
}

/// A width call.
#[derive(Clone, Debug, Default, PartialEq, Eq)]
pub struct Width {
    pub has_node: u8,
    pub node: u32,
    pub has_entries: u8,
    pub entries: Vec<Entry>,
}

impl Width {
    /// The width call with this row's node and entries.
    pub fn of(row: Row) -> Self {
        Self {
            has_node: 1,
            node: row.node,
            has_entries: 1,
            entries: row.entries,
        }
    }
}

impl Fields for Width {
    fn walk<W: Walk>(&mut self, walk: &mut W) {
        walk.u8("has_node", &mut self.has_node);
        walk.u32("node", &mut self.node);
        walk.u8("has_entries", &mut self.has_entries);
        walk.list("entries", 2, &mut self.entries);
    }
}

/// What a call that draws is given: renderer, mark and output length.
#[derive(Clone, Debug, Default)]
pub struct Drawing {
    pub renderer: u8,
    pub mark: u8,
    pub length: u32,
}

impl Fields for Drawing {
    fn walk<W: Walk>(&mut self, walk: &mut W) {
        walk.u8("renderer", &mut self.renderer);
        walk.u8("mark", &mut self.mark);
        walk.u32("length", &mut self.length);
    }
}

/// A text call.
#[derive(Clone, Debug, Default)]
pub struct Text {
    pub drawing: Drawing,
    pub row: Row,
    pub message: Vec<u8>,
}

impl Fields for Text {
    fn walk<W: Walk>(&mut self, walk: &mut W) {
        self.drawing.walk(walk);
        self.row.walk(walk);
        walk.bytes("message", &mut self.message);
    }
}

/// A shaper set by hand.
#[derive(Clone, Debug, Default)]
pub struct HandShaper {
    pub count: u64,
    pub has_previous: u8,
    pub previous: u64,
    pub options: Options,
    pub slots: Vec<Slot>,
}

impl Fields for HandShaper {
    fn walk<W: Walk>(&mut self, walk: &mut W) {
        walk.u64("count", &mut self.count);
        walk.u8("has_previous", &mut self.has_previous);
        walk.u64("previous", &mut self.previous);
        self.options.walk(walk);
        walk.list("slots", 1, &mut self.slots);
        for slot in &mut self.slots {
            walk.u32("origin", &mut slot.origin);
        }
    }
}

/// A text state set by hand.
#[derive(Clone, Debug, Default)]
pub struct HandState {
    pub queued: u8,
    pub length: u64,
    pub row_height: u64,
    pub bytes: Vec<u8>,
}

impl Fields for HandState {
    fn walk<W: Walk>(&mut self, walk: &mut W) {
        walk.u8("queued", &mut self.queued);
        walk.u64("length", &mut self.length);
        walk.u64("row_height", &mut self.row_height);
        walk.bytes("bytes", &mut self.bytes);
    }
}

/// One cell of a shape set by hand, as codes.
#[derive(Clone, Debug, Default)]
pub struct Cell {
    pub node: u8,
    pub link: u16,
    pub from: u16,
    pub term: u8,
    pub ancestry: u8,
    pub parent: u8,
}

impl Fields for Cell {
    fn walk<W: Walk>(&mut self, walk: &mut W) {
        walk.u8("node", &mut self.node);
        walk.u16("link", &mut self.link);
        walk.u16("from", &mut self.from);
        walk.u8("term", &mut self.term);
        walk.u8("ancestry", &mut self.ancestry);
        walk.u8("parent", &mut self.parent);
    }
}

/// A shape set by hand.
#[derive(Clone, Debug, Default)]
pub struct HandShape {
    pub node: u32,
    pub merge: u8,
    pub separator: u8,
    pub dash: u8,
    pub placement: u8,
    pub head: u8,
    pub root: u8,
    pub column: u64,
    pub width: u64,
    pub has_link: u8,
    pub has_term: u8,
    pub cells: Vec<Cell>,
}

impl Fields for HandShape {
    fn walk<W: Walk>(&mut self, walk: &mut W) {
        walk.u32("node", &mut self.node);
        walk.u8("merge", &mut self.merge);
        walk.u8("separator", &mut self.separator);
        walk.u8("dash", &mut self.dash);
        walk.u8("placement", &mut self.placement);
        walk.u8("head", &mut self.head);
        walk.u8("root", &mut self.root);
        walk.u64("column", &mut self.column);
        walk.u64("width", &mut self.width);
        walk.u8("has_link", &mut self.has_link);
        walk.u8("has_term", &mut self.has_term);
        walk.list("cells", 1, &mut self.cells);
    }
}

/// A quiet repeat.
#[derive(Clone, Debug, Default)]
pub struct Repeat {
    pub times: u32,
    pub commands: Vec<Command>,
}

impl Fields for Repeat {
    fn walk<W: Walk>(&mut self, walk: &mut W) {
        walk.u32("times", &mut self.times);
        walk.commands(&mut self.commands);
    }
}

/// One command of a stream.
#[derive(Clone, Debug)]
pub enum Command {
    List(u32),
    New(Options),
    Reserve(u32),
    Row(Row),
    Preview(Row),
    Width(Width),
    Origin(u32),
    Renderer(Drawing),
    Text(Text),
    Record(Vec<u8>),
    Shaper(HandShaper),
    State(HandState),
    Shape(HandShape),
    Repeat(Repeat),
    Unknown(u8, Vec<u8>),
}

impl Command {
    /// The command's letter.
    pub fn letter(&self) -> u8 {
        match self {
            Command::List(_) => b'L',
            Command::New(_) => b'N',
            Command::Reserve(_) => b'R',
            Command::Row(_) => b'W',
            Command::Preview(_) => b'B',
            Command::Width(_) => b'V',
            Command::Origin(_) => b'O',
            Command::Renderer(_) => b'P',
            Command::Text(_) => b'T',
            Command::Record(_) => b'D',
            Command::Shaper(_) => b'S',
            Command::State(_) => b'Q',
            Command::Shape(_) => b'H',
            Command::Repeat(_) => b'X',
            Command::Unknown(letter, _) => *letter,
        }
    }

    /// The entries of a row, a preview, a width or a text call, unless they are absent.
    pub fn entries(&self) -> Option<&[Entry]> {
        match self {
            Command::Row(row) | Command::Preview(row) => Some(&row.entries),
            Command::Width(width) if width.has_entries != 0 => Some(&width.entries),
            Command::Text(text) => Some(&text.row.entries),
            _ => None,
        }
    }

    /// The command with this letter, its fields not yet read.
    fn blank(letter: u8) -> Command {
        match letter {
            b'L' => Command::List(0),
            b'N' => Command::New(Options::default()),
            b'R' => Command::Reserve(0),
            b'W' => Command::Row(Row::default()),
            b'B' => Command::Preview(Row::default()),
            b'V' => Command::Width(Width::default()),
            b'O' => Command::Origin(0),
            b'P' => Command::Renderer(Drawing::default()),
            b'T' => Command::Text(Text::default()),
            b'D' => Command::Record(Vec::new()),
            b'S' => Command::Shaper(HandShaper::default()),
            b'Q' => Command::State(HandState::default()),
            b'H' => Command::Shape(HandShape::default()),
            b'X' => Command::Repeat(Repeat::default()),
            _ => Command::Unknown(letter, Vec::new()),
        }
    }

    /// Walks over the command's fields.
    pub fn walk<W: Walk>(&mut self, walk: &mut W) {
        match self {
            Command::List(number) => walk.u32("number", number),
            Command::New(options) => options.walk(walk),
            Command::Reserve(id) | Command::Origin(id) => walk.u32("id", id),
            Command::Row(row) | Command::Preview(row) => row.walk(walk),
            Command::Width(width) => width.walk(walk),
            Command::Renderer(drawing) => drawing.walk(walk),
            Command::Text(text) => text.walk(walk),
            Command::Record(bytes) => walk.rest("bytes", bytes),
            Command::Shaper(shaper) => shaper.walk(walk),
            Command::State(state) => state.walk(walk),
            Command::Shape(shape) => shape.walk(walk),
            Command::Repeat(repeat) => repeat.walk(walk),
            Command::Unknown(_, bytes) => walk.rest("bytes", bytes),
        }
    }
}

/// Reads a payload; what lies past its end is 0.
struct Read<'a> {
    left: &'a [u8],
}

impl Read<'_> {
    /// The next byte.
    fn byte(&mut self) -> u8 {
        match self.left.split_first() {
            Some((first, left)) => {
                self.left = left;
                *first
            }
            None => 0,
        }
    }
}

impl Walk for Read<'_> {
    fn number(&mut self, _name: &'static str, size: usize, _value: u64) -> u64 {
        (0..size).fold(0, |sum, place| sum | u64::from(self.byte()) << (8 * place))
    }

    fn list<T: Fields>(&mut self, name: &'static str, size: usize, items: &mut Vec<T>) {
        for _ in 0..self.number(name, size, 0) {
            let mut item = T::default();
            item.walk(self);
            items.push(item);
        }
    }

    fn bytes(&mut self, name: &'static str, bytes: &mut Vec<u8>) {
        for _ in 0..self.number(name, 2, 0) {
            let byte = self.byte();
            bytes.push(byte);
        }
    }

    fn rest(&mut self, _name: &'static str, bytes: &mut Vec<u8>) {
        bytes.extend_from_slice(self.left);
        self.left = &[];
    }

    fn commands(&mut self, commands: &mut Vec<Command>) {
        commands.extend(Commands { left: self.left });
        self.left = &[];
    }
}

/// The commands of a stream, one after the other.
pub struct Commands<'a> {
    left: &'a [u8],
}

impl<'a> Commands<'a> {
    /// The commands of `stream`.
    pub fn new(stream: &'a [u8]) -> Self {
        Self { left: stream }
    }
}

impl Iterator for Commands<'_> {
    type Item = Command;

    /// The next command, unless the stream ends within it.
    fn next(&mut self) -> Option<Command> {
        let (head, left) = self.left.split_first_chunk::<3>()?;
        let length = usize::from(u16::from_le_bytes([head[1], head[2]]));
        let (payload, left) = left.split_at_checked(length)?;
        self.left = left;
        let mut command = Command::blank(head[0]);
        command.walk(&mut Read { left: payload });
        Some(command)
    }
}

/// Writes a payload.
struct Write<'a> {
    payload: &'a mut Vec<u8>,
}

impl Walk for Write<'_> {
    fn number(&mut self, _name: &'static str, size: usize, value: u64) -> u64 {
        self.payload.extend_from_slice(&value.to_le_bytes()[..size]);
        value
    }

    fn list<T: Fields>(&mut self, name: &'static str, size: usize, items: &mut Vec<T>) {
        self.number(name, size, items.len() as u64);
        for item in items {
            item.walk(self);
        }
    }

    fn bytes(&mut self, name: &'static str, bytes: &mut Vec<u8>) {
        self.number(name, 2, bytes.len() as u64);
        self.payload.extend_from_slice(bytes);
    }

    fn rest(&mut self, _name: &'static str, bytes: &mut Vec<u8>) {
        self.payload.extend_from_slice(bytes);
    }

    fn commands(&mut self, commands: &mut Vec<Command>) {
        for command in commands {
            write(command, self.payload);
        }
    }
}

/// Appends a command to a stream.
fn write(command: &mut Command, stream: &mut Vec<u8>) {
    let start = stream.len();
    stream.extend_from_slice(&[command.letter(), 0, 0]);
    command.walk(&mut Write { payload: stream });
    let length = u16::try_from(stream.len() - start - 3).expect("a payload of at most 65535 bytes");
    stream[start + 1..start + 3].copy_from_slice(&length.to_le_bytes());
}

/// The stream of these commands.
pub fn encode(commands: &[Command]) -> Vec<u8> {
    let mut stream = Vec::new();
    for command in commands {
        write(&mut command.clone(), &mut stream);
    }
    stream
}

/// Shows a command in words.
struct Show {
    words: String,
}

impl Walk for Show {
    fn number(&mut self, name: &'static str, _size: usize, value: u64) -> u64 {
        self.words.push_str(&format!(" {name}={value}"));
        value
    }

    fn list<T: Fields>(&mut self, name: &'static str, _size: usize, items: &mut Vec<T>) {
        self.words.push_str(&format!(" {name}["));
        for item in items {
            self.words.push_str(" (");
            item.walk(self);
            self.words.push_str(" )");
        }
        self.words.push_str(" ]");
    }

    fn bytes(&mut self, name: &'static str, bytes: &mut Vec<u8>) {
        self.words.push_str(&format!(
            " {name}={}:\"{}\"",
            bytes.len(),
            bytes.escape_ascii()
        ));
    }

    fn rest(&mut self, name: &'static str, bytes: &mut Vec<u8>) {
        self.bytes(name, bytes);
    }

    fn commands(&mut self, commands: &mut Vec<Command>) {
        for command in commands {
            self.words.push_str(&format!("\n    {}", show(command)));
        }
    }
}

/// A command in words: its letter, then each field.
pub fn show(command: &Command) -> String {
    let mut walk = Show {
        words: char::from(command.letter()).to_string(),
    };
    command.clone().walk(&mut walk);
    walk.words
}
