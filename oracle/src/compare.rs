//! Compares the program under test with the Rust, list by list.

use std::ops::Range;
use std::sync::atomic::AtomicU32;
use std::sync::atomic::Ordering;
use std::sync::Mutex;
use std::thread;
use std::time::Duration;
use std::time::Instant;

use crate::answering::answered;
use crate::answering::answers_of;
use crate::kinds;
use crate::lengths;
use crate::machine::Counts;
use crate::refusals;
use crate::replay::Ended;
use crate::replay::Replay;
use crate::replay::Run;
use crate::shrink;
use crate::stream::encode;
use crate::stream::show;
use crate::stream::Command;
use crate::stream::Letters;

/// How many lists one run of the program answers.
const CHUNK: u32 = 200;
/// How many lines of an answer are printed before and after the first that differs.
const LINES_SHOWN: usize = 60;
/// How long one short list may take while a difference is made smaller.
const SHORT_RUN: Duration = Duration::from_secs(5);

/// Gives the list with each number.
pub type Source = Box<dyn Fn(u32) -> Vec<Command> + Sync>;

/// What is compared.
pub struct Task {
    pub lists: u32,
    pub source: Source,
    pub replay: Replay,
    pub built: Letters,
    pub threads: u32,
    pub seconds: Option<u64>,
    /// Whether each refusal that a call can give has to come.
    pub every_refusal: bool,
    /// Whether each kind of input has to come, with each of its values.
    pub every_kind: bool,
}

/// What came out of a comparison.
#[derive(Default)]
pub struct Findings {
    lists: u32,
    pub counts: Counts,
    difference: Option<Vec<Command>>,
}

/// Some lists with the Rust's answers.
struct Chunk {
    lists: Vec<Vec<Command>>,
    stream: Vec<u8>,
    answers: Vec<u8>,
    places: Vec<Range<usize>>,
    counts: Counts,
}

/// What the threads of a comparison share.
struct Common {
    deadline: Option<Instant>,
    next: AtomicU32,
    findings: Mutex<Findings>,
}

impl Common {
    /// The first number of the next chunk, unless it is time to stop.
    fn next_chunk(&self, lists: u32) -> Option<u32> {
        let in_time = self.deadline.is_none_or(|end| Instant::now() < end);
        let found = self
            .findings
            .lock()
            .expect("no thread panics")
            .difference
            .is_some();
        let first = self.next.fetch_add(CHUNK, Ordering::Relaxed);
        (in_time && !found && first < lists).then_some(first)
    }
}

impl Findings {
    /// Adds a chunk.
    fn add(&mut self, chunk: &Chunk, difference: Option<Vec<Command>>) {
        self.lists += chunk.lists.len() as u32;
        self.counts.join(&chunk.counts);
        self.difference = self.difference.take().or(difference);
    }

    /// Prints the counts of calls, of lengths, of refusals and of kinds of input, and the closing line.
    fn print(&self) {
        println!("lists {}", self.lists);
        for (letter, count) in &self.counts.calls {
            println!("calls {} {count}", char::from(*letter));
        }
        for letter in lengths::CALLS {
            let count = |length: &usize| self.counts.of_length(letter, *length);
            let lengths: Vec<_> = lengths::COUNTS
                .iter()
                .map(|length| format!("{length}: {}", count(length)))
                .collect();
            println!("entries {} {}", char::from(letter), lengths.join(", "));
        }
        for number in 0..=refusals::LAST {
            println!("refusal {number} {}", self.counts.of_refusal(number));
        }
        self.counts.kinds.print(kinds::OF_LISTS);
        println!("compared {} lists: no difference", self.lists);
    }
}

impl Task {
    /// Compares, prints what came out, and says whether there was no difference and, if asked for, every refusal and every kind came.
    pub fn run(&self) -> bool {
        let Some(findings) = self.findings() else {
            return false;
        };
        findings.print();
        let missing = self.missing(&findings.counts);
        missing.iter().for_each(|words| println!("{words}"));
        missing.is_empty()
    }

    /// What was asked for and never came, in words.
    fn missing(&self, counts: &Counts) -> Vec<String> {
        let mut missing = Vec::new();
        if self.every_refusal {
            let never = counts.refusals_missing().into_iter();
            missing.extend(
                never.map(|(letter, number)| {
                    format!("call {letter} was never refused with {number}")
                }),
            );
        }
        if self.every_kind {
            let never = counts.lengths_missing().into_iter();
            missing.extend(
                never.map(|(letter, length)| format!("call {letter} never had {length} entries")),
            );
            missing.extend(counts.kinds.missing(kinds::OF_LISTS));
        }
        missing
    }

    /// Compares; a difference is printed, and there are no findings then.
    pub fn findings(&self) -> Option<Findings> {
        let findings = self.compare();
        match &findings.difference {
            Some(commands) => {
                self.report(commands.clone());
                None
            }
            None => Some(findings),
        }
    }

    /// Compares, in as many threads as asked.
    fn compare(&self) -> Findings {
        let common = Common {
            deadline: self
                .seconds
                .map(|seconds| Instant::now() + Duration::from_secs(seconds)),
            next: AtomicU32::new(0),
            findings: Mutex::default(),
        };
        thread::scope(|scope| {
            for _ in 0..self.threads.max(1) {
                scope.spawn(|| self.compare_chunks(&common));
            }
        });
        common.findings.into_inner().expect("no thread panics")
    }

    /// Compares chunk after chunk, until the lists or the time are used up or a difference is found.
    fn compare_chunks(&self, common: &Common) {
        while let Some(first) = common.next_chunk(self.lists) {
            let chunk = self.chunk(first..self.lists.min(first.saturating_add(CHUNK)));
            let difference = self.difference(&chunk);
            let mut findings = common.findings.lock().expect("no thread panics");
            findings.add(&chunk, difference);
        }
    }

    /// The lists with these numbers.
    fn chunk(&self, numbers: Range<u32>) -> Chunk {
        let mut chunk = Chunk {
            lists: Vec::new(),
            stream: Vec::new(),
            answers: Vec::new(),
            places: Vec::new(),
            counts: Counts::default(),
        };
        for number in numbers {
            let commands = (self.source)(number);
            let (stream, answers, counts) = answered(&commands, &self.built);
            let start = chunk.answers.len();
            chunk.places.push(start..start + answers.len());
            chunk.stream.extend(stream);
            chunk.answers.extend(answers);
            chunk.counts.join(&counts);
            chunk.lists.push(commands);
        }
        chunk
    }

    /// Commands on which both sides differ, if they differ on the chunk: one list, or the whole chunk where no list alone does.
    fn difference(&self, chunk: &Chunk) -> Option<Vec<Command>> {
        let run = self.replay.run(&chunk.stream, chunk.answers.len());
        if !differs(&run, &chunk.answers) {
            return None;
        }
        let place = first_difference(&run.printed, &chunk.answers);
        let likely = chunk.places.iter().position(|range| range.contains(&place));
        let lists = likely
            .map(|place| &chunk.lists[place])
            .into_iter()
            .chain(&chunk.lists);
        let alone = lists.into_iter().find(|list| self.differs(list));
        Some(alone.cloned().unwrap_or_else(|| chunk.lists.concat()))
    }

    /// Whether both sides differ on these commands.
    fn differs(&self, commands: &[Command]) -> bool {
        let (stream, answers, _) = answered(commands, &self.built);
        let run = self.replay.within(SHORT_RUN).run(&stream, answers.len());
        differs(&run, &answers)
    }

    /// Makes a difference smaller and prints it.
    fn report(&self, commands: Vec<Command>) {
        let before = commands.len();
        println!("difference found in {before} commands; making them fewer");
        let small = shrink::shrink(commands, |commands| self.differs(commands));
        let stream = encode(&small);
        let (answers, _) = answers_of(&stream, &self.built);
        let run = self.replay.within(SHORT_RUN).run(&stream, answers.len());
        println!("stream, {} of {before} commands:", small.len());
        for command in &small {
            println!("  {}", show(command));
        }
        println!("stream, hexadecimal:\n  {}", hexadecimal(&stream));
        print_answers("the Rust answers:", &answers, &run.printed);
        print_answers("the program answers:", &run.printed, &answers);
        print_characters(&answers, &run.printed);
        if let Ended::Badly(words) = &run.ended {
            println!("the program: {words}");
        }
        if !differs(&run, &answers) {
            println!(
                "the difference does not come again: the program answers one stream in two ways"
            );
        }
    }
}

/// Whether a run differs from the answers expected.
fn differs(run: &Run, answers: &[u8]) -> bool {
    run.printed != answers || run.ended != Ended::Well
}

/// The first place at which two answers differ, or the shorter one's end.
fn first_difference(left: &[u8], right: &[u8]) -> usize {
    left.iter().zip(right).take_while(|(a, b)| a == b).count()
}

/// Prints answers line by line; the first line that differs is pointed at, lines far from it are left out.
fn print_answers(title: &str, answers: &[u8], other: &[u8]) {
    println!("{title}");
    let differing = answers[..first_difference(answers, other)]
        .iter()
        .filter(|byte| **byte == b'\n')
        .count();
    let lines = answers.split_inclusive(|byte| *byte == b'\n').enumerate();
    for (number, line) in lines.filter(|(number, _)| number.abs_diff(differing) <= LINES_SHOWN) {
        let pointer = if number == differing { '>' } else { ' ' };
        let line = line.strip_suffix(b"\n").unwrap_or(line);
        println!("{pointer} {}", line.escape_ascii());
    }
}

/// Prints the first line that differs as characters; what is not printed stands as its code.
fn print_characters(answers: &[u8], printed: &[u8]) {
    let place = first_difference(answers, printed);
    println!("first line that differs, in characters:");
    println!("  the Rust:    {}", characters(&line_at(answers, place)));
    println!("  the program: {}", characters(&line_at(printed, place)));
}

/// The line around a place.
fn line_at(text: &[u8], place: usize) -> Vec<u8> {
    let (before, after) = text.split_at(place);
    let start = before.rsplit(|byte| *byte == b'\n').next();
    let end = after.split(|byte| *byte == b'\n').next();
    [start, end].map(Option::unwrap_or_default).concat()
}

/// Bytes as the characters that they are in UTF-8, if they are.
fn characters(bytes: &[u8]) -> String {
    let chunks = bytes.utf8_chunks();
    chunks
        .map(|chunk| {
            let (valid, invalid) = (chunk.valid().escape_debug(), chunk.invalid().escape_ascii());
            format!("{valid}{invalid}")
        })
        .collect()
}

/// Bytes in hexadecimal.
fn hexadecimal(bytes: &[u8]) -> String {
    bytes.iter().map(|byte| format!("{byte:02x}")).collect()
}
