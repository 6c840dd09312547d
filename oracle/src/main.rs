//! The Rust side of the differential test: answers, makes and compares call streams (docs/REPLAY.md).

mod answering;
mod answers;
mod calls;
mod cells;
mod codes;
mod compare;
mod demand3;
mod generator;
mod kinds;
mod lengths;
mod machine;
mod marked;
mod measure;
mod measured_lines;
mod no_gap;
mod origins;
mod programs;
mod queried_lines;
mod random;
mod record_bytes;
mod record_compare;
mod record_files;
mod record_limits;
mod records;
mod refusals;
mod renderdag;
mod replay;
mod shrink;
mod stream;
mod trial;
mod vectors;
mod waiting;
mod watch;

// The crate's files name these at the crate's root.
use renderdag::column;
use renderdag::output;
use renderdag::output::OutputRendererOptions;
use renderdag::pad;
use renderdag::pipeline;
use renderdag::render;

use std::env;
use std::io;
use std::io::Read;
use std::io::Write;
use std::path::PathBuf;
use std::process::ExitCode;
use std::str::FromStr;
use std::time::Duration;

use cells::Part;
use cells::PARTS;
use compare::Source;
use compare::Task;
use record_compare::Program;
use replay::Replay;
use stream::Letters;
use trial::Whose;
use trial::Wrong;

/// How the program is called.
const USAGE: &str = "usage: oracle answer [--built LETTERS]
       oracle generate N SEED [--built LETTERS]
       oracle compare N SEED REPLAY [--built LETTERS] [--threads N] [--seconds S] [--timeout S] [--every-refusal] [--every-kind]
       oracle cells [--part K]
       oracle cells-compare REPLAY [--part K] [--built LETTERS] [--threads N] [--timeout S]
       oracle demand3 N SEED [--mutant NAME | --ours REPLAY] [--timeout S]
       oracle no_gap N SEED [--mutant NAME | --ours REPLAY] [--timeout S]
       oracle vectors [--built LETTERS]
       oracle page
       oracle listing
       oracle records-compare N SEED PAGE LISTING [--threads N] [--timeout S] [--every-refusal] [--every-kind]";

/// The options, each with a value.
const OPTIONS: [&str; 7] = [
    "--built",
    "--threads",
    "--seconds",
    "--timeout",
    "--part",
    "--mutant",
    "--ours",
];

/// The options without a value: a comparison has to see every refusal that it can, and every kind of input.
const EVERY_REFUSAL: &str = "--every-refusal";
const EVERY_KIND: &str = "--every-kind";

/// How long one run of the program under test may take, in seconds, unless told otherwise.
const TIMEOUT: u64 = 60;

/// Runs the subcommand that the arguments name.
fn main() -> ExitCode {
    match Arguments::new(env::args().skip(1)).and_then(|arguments| run(&arguments)) {
        Ok(true) => ExitCode::SUCCESS,
        Ok(false) => ExitCode::FAILURE,
        Err(message) => {
            eprintln!("oracle: {message}\n{USAGE}");
            ExitCode::from(2)
        }
    }
}

/// Runs the subcommand; no where a comparison found a difference, or demand 3 or R-9 fails.
fn run(arguments: &Arguments) -> Result<bool, String> {
    let done = match arguments.plain(0)?.as_str() {
        "answer" => answer(&arguments.letters()),
        "generate" => generate(
            arguments.number(1)?,
            arguments.number(2)?,
            &arguments.letters(),
        ),
        "compare" => return Ok(generated(arguments)?.run()),
        "cells" => cells::write(&arguments.parts()?, &mut io::stdout().lock()),
        "cells-compare" => return Ok(cells::compare(&drawn(arguments)?)),
        "demand3" => return demand3::run(&trial(arguments)?),
        "no_gap" => return no_gap::run(&trial(arguments)?),
        "vectors" => print(&vectors::stream(&arguments.letters())),
        "page" => input().and_then(|records| programs::page(&records, &mut io::stdout().lock())),
        "listing" => {
            input().and_then(|records| programs::listing(&records, &mut io::stdout().lock()))
        }
        "records-compare" => return Ok(record_files_task(arguments)?.run()),
        other => return Err(format!("{other} is not known")),
    };
    done.map(|()| true).map_err(|error| error.to_string())
}

/// Answers the stream on standard input.
fn answer(built: &Letters) -> io::Result<()> {
    answering::answer_to(&input()?, built, &mut io::stdout().lock())
}

/// Prints the stream of so many lists.
fn generate(lists: u32, seed: u64, letters: &Letters) -> io::Result<()> {
    let mut out = io::BufWriter::new(io::stdout().lock());
    for number in 0..lists {
        out.write_all(&stream::encode(&generator::list(seed, number, letters)))?;
    }
    out.flush()
}

/// The comparison of generated lists that the arguments ask for.
fn generated(arguments: &Arguments) -> Result<Task, String> {
    let (seed, letters) = (arguments.number(2)?, arguments.letters());
    let source = Box::new(move |number| generator::list(seed, number, &letters));
    let task = task(arguments, arguments.number(1)?, source, 3)?;
    Ok(Task {
        seconds: arguments.option_number("--seconds")?,
        every_refusal: arguments.every_refusal,
        every_kind: arguments.every_kind,
        ..task
    })
}

/// The comparisons of drawn cells that the arguments ask for. Nothing would be compared if shapes and renderer calls were not built.
fn drawn(arguments: &Arguments) -> Result<Vec<(&'static Part, Task)>, String> {
    let letters = arguments.letters();
    if !letters.know(b'H') || !letters.know(b'P') {
        return Err("H and P are not both built, so nothing would be compared".to_owned());
    }
    let parts = arguments.parts()?.into_iter();
    let tasks = parts.map(|part| {
        let source = Box::new(|number| part.list(number));
        Ok((part, task(arguments, part.lists, source, 1)?))
    });
    tasks.collect()
}

/// The comparison of generated record files that the arguments ask for.
fn record_files_task(arguments: &Arguments) -> Result<record_compare::Task, String> {
    Ok(record_compare::Task {
        files: arguments.number(1)?,
        seed: arguments.number(2)?,
        programs: [
            Program::page(under_test(arguments, 3)?),
            Program::listing(under_test(arguments, 4)?),
        ],
        threads: arguments.option_number("--threads")?.unwrap_or(1),
        every_refusal: arguments.every_refusal,
        every_kind: arguments.every_kind,
    })
}

/// The program under test, which is the argument at `place`.
fn under_test(arguments: &Arguments, place: usize) -> Result<Replay, String> {
    program(arguments, &arguments.plain(place)?)
}

/// The program at this path.
fn program(arguments: &Arguments, path: &str) -> Result<Replay, String> {
    let limit = arguments.option_number("--timeout")?.unwrap_or(TIMEOUT);
    let program = PathBuf::from(path);
    if !program.is_file() {
        return Err(format!(
            "{} is not there; build it first",
            program.display()
        ));
    }
    Ok(Replay {
        program,
        limit: Duration::from_secs(limit),
    })
}

/// A comparison without a time limit; the program under test is the argument at `place`.
fn task(arguments: &Arguments, lists: u32, source: Source, place: usize) -> Result<Task, String> {
    Ok(Task {
        lists,
        source,
        replay: under_test(arguments, place)?,
        built: arguments.letters(),
        threads: arguments.option_number("--threads")?.unwrap_or(1),
        seconds: None,
        every_refusal: false,
        every_kind: false,
    })
}

/// What a statement is to be tried on: the answers of the Rust, of a wrong machine or of our program.
fn trial<F: Wrong>(arguments: &Arguments) -> Result<trial::Task<F>, String> {
    let whose = match (arguments.option("--mutant"), arguments.option("--ours")) {
        (Some(_), Some(_)) => return Err("a mutant is not ours".to_owned()),
        (None, Some(path)) => Whose::Ours(program(arguments, path)?),
        (name, None) => Whose::Rust(name.map(F::new).transpose()?),
    };
    Ok(trial::Task {
        lists: arguments.number(1)?,
        seed: arguments.number(2)?,
        whose,
    })
}

/// All of standard input.
fn input() -> io::Result<Vec<u8>> {
    let mut bytes = Vec::new();
    io::stdin().lock().read_to_end(&mut bytes)?;
    Ok(bytes)
}

/// Writes bytes to standard output.
fn print(bytes: &[u8]) -> io::Result<()> {
    io::stdout().lock().write_all(bytes)
}

/// The arguments: plain ones, options with their values, and the options that have none.
struct Arguments {
    plain: Vec<String>,
    options: Vec<(String, String)>,
    every_refusal: bool,
    every_kind: bool,
}

impl Arguments {
    /// Takes the arguments apart.
    fn new(mut arguments: impl Iterator<Item = String>) -> Result<Self, String> {
        let mut taken = Self {
            plain: Vec::new(),
            options: Vec::new(),
            every_refusal: false,
            every_kind: false,
        };
        while let Some(argument) = arguments.next() {
            if OPTIONS.contains(&argument.as_str()) {
                let value = arguments
                    .next()
                    .ok_or(format!("{argument} lacks its value"))?;
                taken.options.push((argument, value));
            } else if argument == EVERY_REFUSAL {
                taken.every_refusal = true;
            } else if argument == EVERY_KIND {
                taken.every_kind = true;
            } else if argument.starts_with('-') {
                return Err(format!("{argument} is not known"));
            } else {
                taken.plain.push(argument);
            }
        }
        Ok(taken)
    }

    /// The plain argument at this place.
    fn plain(&self, place: usize) -> Result<String, String> {
        self.plain
            .get(place)
            .cloned()
            .ok_or("an argument is missing".to_owned())
    }

    /// The plain argument at this place as a number.
    fn number<T: FromStr>(&self, place: usize) -> Result<T, String> {
        number(&self.plain(place)?)
    }

    /// The value of an option.
    fn option(&self, name: &str) -> Option<&str> {
        self.options
            .iter()
            .find(|(given, _)| given == name)
            .map(|(_, value)| value.as_str())
    }

    /// The value of an option as a number.
    fn option_number<T: FromStr>(&self, name: &str) -> Result<Option<T>, String> {
        self.option(name).map(number).transpose()
    }

    /// The parts of the streams of cells: all, unless `--part` names one, from 1 on.
    fn parts(&self) -> Result<Vec<&'static Part>, String> {
        let Some(number) = self.option_number::<usize>("--part")? else {
            return Ok(PARTS.iter().collect());
        };
        let part = number.checked_sub(1).and_then(|place| PARTS.get(place));
        Ok(vec![part.ok_or(format!("parts are 1 to {}", PARTS.len()))?])
    }

    /// The letters that are built: all, unless `--built` names some.
    fn letters(&self) -> Letters {
        self.option("--built")
            .map_or_else(Letters::all, Letters::new)
    }
}

/// A number out of an argument.
fn number<T: FromStr>(text: &str) -> Result<T, String> {
    text.parse()
        .map_err(|_| format!("{text} is not a number that fits"))
}
