//! The processor time of a row: the sides take turns, and of all rounds the least counts.

use std::ffi::c_int;
use std::ffi::c_long;
use std::hint::black_box;

use crate::cases;
use crate::cases::Case;

/// The lengths of the histories whose times are compared.
const GROWTH: [usize; 3] = [100, 1000, 10_000];
/// The cases whose growth is shown.
const GROWN: [&str; 2] = ["row", "text, curved, short"];

/// The bytes by which the stack of a round lies deeper, at least, than that of the round before, and how many rounds go down before one
/// starts anew.
const FRAME: usize = 96;
const FRAMES: usize = 32;

/// The C library's number of the clock that counts this thread's processor time.
const THREAD_TIME: c_int = 3;

/// A time as the C library gives it.
#[repr(C)]
#[derive(Default)]
struct Time {
    seconds: c_long,
    nanoseconds: c_long,
}

extern "C" {
    fn clock_gettime(clock: c_int, time: *mut Time) -> c_int;
}

/// The processor time of this thread so far, in nanoseconds.
fn now() -> f64 {
    let mut time = Time::default();
    // SAFETY: the time is written to a local.
    let failure = unsafe { clock_gettime(THREAD_TIME, &mut time) };
    assert_eq!(failure, 0, "no clock of processor time");
    time.seconds as f64 * 1e9 + time.nanoseconds as f64
}

/// The times of one side, in nanoseconds a row.
struct Side(Vec<f64>);

impl Side {
    /// Times a run over so many rows.
    fn time(&mut self, rows: usize, run: impl FnOnce()) {
        let start = now();
        run();
        self.0.push((now() - start) / rows as f64);
    }

    /// The least time.
    fn least(&self) -> f64 {
        self.0.iter().copied().fold(f64::INFINITY, f64::min)
    }

    /// The median time.
    fn median(&self) -> f64 {
        let mut sorted = self.0.clone();
        sorted.sort_by(f64::total_cmp);
        sorted[sorted.len() / 2]
    }
}

/// Runs something with the stack so many frames deeper: the time of a row depends on where the stack lies in its page.
#[inline(never)]
fn deeper(frames: usize, run: &mut dyn FnMut()) {
    let frame = black_box([0u8; FRAME]);
    if frames == 0 {
        run();
    } else {
        deeper(frames - 1, run);
    }
    black_box(&frame);
}

/// Checks a case, then times both sides in turns, each round at another depth of the stack.
fn time(case: &mut Case, rounds: usize) -> (Side, Side) {
    let (mut ours, mut rust) = (Side(Vec::new()), Side(Vec::new()));
    let rows = case.len();
    case.check();
    for round in 0..rounds.max(1) {
        deeper(round % FRAMES, &mut || {
            ours.time(rows, || case.ours());
            rust.time(rows, || case.rust());
        });
    }
    (ours, rust)
}

/// Every case: the least of the rounds, and the ratio of the least and of the medians.
pub fn table(rows: usize, rounds: usize) {
    println!(
        "{:26} {:>5} {:>9} {:>9} {:>6} {:>10}",
        "call", "lines", "ours ns", "Rust ns", "ratio", "of medians"
    );
    for mut case in cases::all(rows) {
        let (ours, rust) = time(&mut case, rounds);
        println!(
            "{:26} {:5} {:9.0} {:9.0} {:6.2} {:10.2}",
            case.name,
            case.lines,
            ours.least(),
            rust.least(),
            ours.least() / rust.least(),
            ours.median() / rust.median()
        );
    }
}

/// The time of a row in histories of growing length.
pub fn growth(rounds: usize) {
    println!(
        "{:26} {:>5} {:>6} {:>9} {:>9}",
        "call", "lines", "rows", "ours ns", "Rust ns"
    );
    for (name, call) in cases::calls() {
        if !GROWN.contains(&name.as_str()) {
            continue;
        }
        for lines in cases::LINES {
            for rows in GROWTH {
                let mut case = Case::new(&name, &call, lines, rows);
                let (ours, rust) = time(&mut case, rounds * GROWTH[2] / rows);
                println!(
                    "{:26} {:5} {:6} {:9.0} {:9.0}",
                    name,
                    lines,
                    case.len(),
                    ours.least(),
                    rust.least()
                );
            }
        }
    }
}
