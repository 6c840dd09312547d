//! Compares the two programs with the Rust on generated record files, byte for byte.

use std::collections::BTreeMap;
use std::io;
use std::sync::atomic::AtomicU32;
use std::sync::atomic::Ordering;
use std::sync::Mutex;
use std::thread;

use crate::kinds;
use crate::kinds::Kind;
use crate::kinds::Kinds;
use crate::programs;
use crate::record_files;
use crate::records;
use crate::refusals;
use crate::replay::Ended;
use crate::replay::Replay;

/// A file of more records is long, and very long.
const LONG: usize = 12;
const VERY_LONG: usize = 1000;

/// How one of the programs is run on the Rust.
type Draws = fn(&[u8], &mut Vec<u8>) -> io::Result<()>;

/// A program under test, and the same on the Rust.
pub struct Program {
    name: &'static str,
    ours: Replay,
    rust: Draws,
    refusals: &'static [u8],
}

/// What is compared.
pub struct Task {
    pub files: u32,
    pub seed: u64,
    pub programs: [Program; 2],
    pub threads: u32,
    /// Whether each refusal at which a program can stop has to come.
    pub every_refusal: bool,
    /// Whether each kind of file has to come, with each of its values.
    pub every_kind: bool,
}

/// What came out of a comparison.
#[derive(Default)]
struct Findings {
    files: u32,
    records: usize,
    refusals: BTreeMap<(&'static str, String), u32>,
    kinds: Kinds,
    difference: bool,
}

impl Program {
    /// The page program.
    pub fn page(ours: Replay) -> Self {
        Self {
            name: "page",
            ours,
            rust: |records, out| programs::page(records, out),
            refusals: refusals::OF_PAGE,
        }
    }

    /// The listing program.
    pub fn listing(ours: Replay) -> Self {
        Self {
            name: "listing",
            ours,
            rust: |records, out| programs::listing(records, out),
            refusals: refusals::OF_LISTING,
        }
    }

    /// What the Rust gives for a file.
    fn expected(&self, file: &[u8]) -> Vec<u8> {
        let mut out = Vec::new();
        (self.rust)(file, &mut out).expect("writing to memory passes");
        out
    }

    /// Whether both sides differ on a file.
    fn differs(&self, file: &[u8]) -> bool {
        let expected = self.expected(file);
        let run = self.ours.run(file, expected.len());
        run.printed != expected || run.ended != Ended::Well
    }

    /// Prints a file on which both sides differ, after leaving out each record that the difference does without.
    fn report(&self, number: u32, mut file: Vec<u8>) {
        let mut at = 0;
        while at < file.len() {
            let end = file.len().min(at + refusals::RECORD);
            let fewer = [&file[..at], &file[end..]].concat();
            if self.differs(&fewer) {
                file = fewer;
            } else {
                at = end;
            }
        }
        let expected = self.expected(&file);
        let run = self.ours.run(&file, expected.len());
        println!(
            "difference of {} in file {number}, made smaller:",
            self.name
        );
        for record in file.chunks(refusals::RECORD) {
            let bytes = record.iter().map(|byte| format!("{byte:02x}"));
            println!("  {}", bytes.collect::<String>());
        }
        println!("the Rust writes:\n{}", expected.escape_ascii());
        println!("the program writes:\n{}", run.printed.escape_ascii());
        println!("the program ended: {:?}", run.ended);
    }
}

impl Task {
    /// Compares, prints what came out, and says whether there was no difference and, if asked for, every refusal and every kind came.
    pub fn run(&self) -> bool {
        let findings = self.compare();
        if findings.difference {
            return false;
        }
        findings.print();
        let missing = self.missing(&findings);
        missing.iter().for_each(|words| println!("{words}"));
        missing.is_empty()
    }

    /// What was asked for and never came, in words.
    fn missing(&self, findings: &Findings) -> Vec<String> {
        let mut missing = Vec::new();
        if self.every_refusal {
            let never = findings.refusals_missing(&self.programs).into_iter();
            missing
                .extend(never.map(|(name, number)| format!("{name} never stopped with {number}")));
        }
        if self.every_kind {
            missing.extend(findings.kinds.missing(kinds::OF_FILES));
        }
        missing
    }

    /// Compares, in as many threads as asked.
    fn compare(&self) -> Findings {
        let next = AtomicU32::new(0);
        let findings = Mutex::default();
        thread::scope(|scope| {
            for _ in 0..self.threads.max(1) {
                scope.spawn(|| self.compare_files(&next, &findings));
            }
        });
        findings.into_inner().expect("no thread panics")
    }

    /// Compares file after file, until they are used up or a difference is found.
    fn compare_files(&self, next: &AtomicU32, findings: &Mutex<Findings>) {
        loop {
            let number = next.fetch_add(1, Ordering::Relaxed);
            if number >= self.files || findings.lock().expect("no thread panics").difference {
                return;
            }
            let file = record_files::file(self.seed, number);
            let wrong = self.programs.iter().find(|program| program.differs(&file));
            let mut findings = findings.lock().expect("no thread panics");
            if let (Some(program), false) = (wrong, findings.difference) {
                program.report(number, file);
                findings.difference = true;
                return;
            }
            findings.add(&file, &self.programs);
        }
    }
}

impl Findings {
    /// Adds a file on which nothing differs.
    fn add(&mut self, file: &[u8], programs: &[Program]) {
        let records = file.len() / refusals::RECORD;
        self.files += 1;
        self.records += records;
        for (kind, fewer) in [(Kind::LongFile, LONG), (Kind::VeryLongFile, VERY_LONG)] {
            if records > fewer {
                self.kinds.add(kind, 0);
            }
        }
        for program in programs {
            let stop = stop(&program.expected(file));
            let refusal = stop.map_or("none".to_owned(), |stop| stop.refusal.to_string());
            *self.refusals.entry((program.name, refusal)).or_default() += 1;
            let last = stop.and_then(|stop| file.chunks(refusals::RECORD).nth(stop.record));
            let broken = last.map_or(Vec::new(), broken);
            self.kinds.add_pairs(Kind::BrokenRecord, &broken);
        }
    }

    /// The refusals at which the programs can stop and none has: each its program and number.
    fn refusals_missing(&self, programs: &[Program]) -> Vec<(&'static str, u8)> {
        let possible = programs.iter().flat_map(|program| {
            program
                .refusals
                .iter()
                .map(|number| (program.name, *number))
        });
        possible
            .filter(|(name, number)| !self.refusals.contains_key(&(*name, number.to_string())))
            .collect()
    }

    /// Prints the counts, and the closing line.
    fn print(&self) {
        println!("whole records {}", self.records);
        for ((name, refusal), count) in &self.refusals {
            println!("{name} refusal {refusal} {count}");
        }
        self.kinds.print(kinds::OF_FILES);
        println!("compared {} record files: no difference", self.files);
    }
}

/// With which refusal a program stops, and at which record.
#[derive(Clone, Copy)]
struct Stop {
    refusal: u8,
    record: usize,
}

/// The numbers in the line that a program stops with, if it does.
fn stop(written: &[u8]) -> Option<Stop> {
    let text = String::from_utf8_lossy(written);
    let words: Vec<_> = text.lines().last()?.split(' ').collect();
    let ["refused", refusal, "at", "record", record] = words[..] else {
        return None;
    };
    Some(Stop {
        refusal: refusal.parse().ok()?,
        record: record.parse().ok()?,
    })
}

/// The conditions that the bytes of a record, cut or whole, break by themselves, each of them alone: all but that of the columns.
fn broken(bytes: &[u8]) -> Vec<u8> {
    let record = records::parts(&records::padded(bytes));
    let mut checks = records::checks(bytes);
    checks.push(refusals::mark(record.mark));
    checks.push(refusals::message_bytes(&record.message));
    refusals::broken(checks)
}
