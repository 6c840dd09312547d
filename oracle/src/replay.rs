//! Running the program under test.

use std::io::Read;
use std::io::Write;
use std::path::Path;
use std::path::PathBuf;
use std::process::Child;
use std::process::Command;
use std::process::ExitStatus;
use std::process::Stdio;
use std::sync::mpsc;
use std::thread;
use std::time::Duration;
use std::time::Instant;

/// How many bytes beyond those expected are read before the program is stopped.
const TOO_MANY: usize = 1 << 20;
/// How long to wait between two looks at whether the program has ended.
const PAUSE: Duration = Duration::from_micros(20);

/// The program under test, and how long it may take.
pub struct Replay {
    pub program: PathBuf,
    pub limit: Duration,
}

/// What the program printed, and how it ended.
pub struct Run {
    pub printed: Vec<u8>,
    pub ended: Ended,
}

/// How a program ended.
#[derive(Clone, Debug, PartialEq, Eq)]
pub enum Ended {
    Well,
    Badly(String),
}

impl Replay {
    /// The program with another time limit.
    pub fn within(&self, limit: Duration) -> Replay {
        Replay {
            program: self.program.clone(),
            limit: limit.min(self.limit),
        }
    }

    /// Runs the program on a stream.
    pub fn run(&self, stream: &[u8], expected: usize) -> Run {
        let mut child = match start(&self.program) {
            Ok(child) => child,
            Err(error) => return Run::without_output(format!("could not be started: {error}")),
        };
        let deadline = Instant::now() + self.limit;
        let printed = exchange(&mut child, stream, expected + TOO_MANY, self.limit);
        let ended = match &printed {
            Some(printed) if printed.len() <= expected + TOO_MANY / 2 => wait(&mut child, deadline),
            Some(_) => Ended::Badly("printed far too much".to_owned()),
            None => Ended::Badly(hung(self.limit)),
        };
        stop(&mut child);
        Run {
            printed: printed.unwrap_or_default(),
            ended,
        }
    }
}

impl Run {
    /// A run that printed nothing.
    fn without_output(words: String) -> Self {
        Self {
            printed: Vec::new(),
            ended: Ended::Badly(words),
        }
    }
}

/// Starts the program with its input and output in our hands.
fn start(program: &Path) -> std::io::Result<Child> {
    Command::new(program)
        .stdin(Stdio::piped())
        .stdout(Stdio::piped())
        .stderr(Stdio::null())
        .spawn()
}

/// Feeds the stream and gives what was printed, or none after the time limit.
fn exchange(child: &mut Child, stream: &[u8], most: usize, limit: Duration) -> Option<Vec<u8>> {
    let (send, receive) = mpsc::channel();
    if let Some(mut input) = child.stdin.take() {
        let stream = stream.to_vec();
        // A program that ends early closes its input; what it printed tells.
        thread::spawn(move || input.write_all(&stream));
    }
    if let Some(output) = child.stdout.take() {
        thread::spawn(move || {
            let mut printed = Vec::new();
            let _ = output.take(most as u64).read_to_end(&mut printed);
            send.send(printed)
        });
    }
    receive.recv_timeout(limit).ok()
}

/// Waits for the program's end.
fn wait(child: &mut Child, deadline: Instant) -> Ended {
    loop {
        match child.try_wait() {
            Ok(Some(status)) => return ending(status),
            Ok(None) if Instant::now() < deadline => thread::sleep(PAUSE),
            Ok(None) => return Ended::Badly("printed all, but did not end".to_owned()),
            Err(error) => return Ended::Badly(error.to_string()),
        }
    }
}

/// The words for a program that took too long.
fn hung(limit: Duration) -> String {
    format!("did not end within {} s", limit.as_secs_f32())
}

/// How a program with this status ended.
fn ending(status: ExitStatus) -> Ended {
    if status.success() {
        Ended::Well
    } else {
        Ended::Badly(status.to_string())
    }
}

/// Ends the program, if it still runs.
fn stop(child: &mut Child) {
    let _ = child.kill();
    let _ = child.wait();
}
