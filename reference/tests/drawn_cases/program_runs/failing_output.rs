//! Runs whose statement can't be written. A statement is whole only if its last
//! line is an `F` or `R` line; none is here, and the program says so on standard
//! error and by its exit status.

use std::fs::File;
use std::io::{pipe, Read};
use std::path::Path;
use std::process::{Command, Output, Stdio};

use reference::step::HOUR_BYTES;

use super::run::{clearing, second_printed, year, Folder, Run};
use crate::compare::{Case, Kind};

const NOT_WHOLE: &str = "The statement could not be written out whole.\n";
/// The bytes of text that the program keeps before it writes.
const BUFFER: usize = 65_536;
/// The exit status of a run whose statement is not whole.
const STATUS: Option<i32> = Some(2);
/// The signal for a pipe that nobody reads stays ignored across `exec`.
const IGNORING_SIGPIPE: &str = "trap '' PIPE; exec \"$CLEARING\"";

/// A run with many writes.
fn long_run() -> Run {
    year(20_250_602, 600, 300 * HOUR_BYTES)
}

/// A run with many writes; others whose only write is the last, of which two are
/// refused. The seed is the number.
fn run_of(seed: u64) -> Run {
    match seed {
        0 => long_run(),
        1 => year(8, 40, HOUR_BYTES),
        2 => year(8, 40, HOUR_BYTES + 1),
        _ => Run {
            rights: None,
            hours: Vec::new(),
        },
    }
}

const RUNS: u64 = 4;

/// The folder of a run, of which the first is longer than the buffer and no
/// other is.
fn folder_of(case: &Case) -> Folder {
    let run = run_of(case.seed);
    let folder = Folder::new(case, &run);
    let second = second_printed(&folder, &run.hours);
    assert_eq!(second.statement.len() > 2 * BUFFER, case.seed == 0);
    folder
}

fn output(mut command: Command, output: impl Into<Stdio>) -> Output {
    command.stdout(output).output().expect("the program runs")
}

/// Exactly the sentence about writing, and the status, also where the run is
/// refused.
fn assert_not_whole(output: &Output) {
    assert_eq!(String::from_utf8_lossy(&output.stderr), NOT_WHOLE);
    assert_eq!(output.status.code(), STATUS, "of the run: {output:?}");
}

/// A pipe that nobody reads.
fn closed_pipe_end() -> Stdio {
    let (reading_end, writing_end) = pipe().expect("a pipe");
    drop(reading_end);
    Stdio::from(writing_end)
}

#[test]
fn full_device() {
    let kind = Kind {
        test: "program_runs::failing_output::full_device",
        base: None,
        cases: RUNS,
        refusals: &[],
    };
    kind.run(|case| {
        let folder = folder_of(case);
        let device = File::create("/dev/full").expect("the device that is always full");
        let output = output(folder.command(&clearing()), device);
        assert_not_whole(&output);
    });
}

#[test]
fn closed_pipe() {
    let kind = Kind {
        test: "program_runs::failing_output::closed_pipe",
        base: None,
        cases: RUNS,
        refusals: &[],
    };
    kind.run(|case| {
        let folder = folder_of(case);
        let mut ignoring = folder.command(Path::new("sh"));
        ignoring.args(["-c", IGNORING_SIGPIPE]);
        ignoring.env("CLEARING", clearing());
        assert_not_whole(&output(ignoring, closed_pipe_end()));
        // A command of Rust's has the signal at its default.
        assert_not_whole(&output(folder.command(&clearing()), closed_pipe_end()));
    });
}

/// Somebody reads the first bytes and no more, as `head` does: what was read
/// does not end in an `F` or `R` line, and the program ends with its status.
#[test]
fn reader_that_stops() {
    let kind = Kind {
        test: "program_runs::failing_output::reader_that_stops",
        base: None,
        cases: 1,
        refusals: &[],
    };
    kind.run(|case| {
        let folder = folder_of(case);
        let mut child = folder.command(&clearing()).spawn().expect("it runs");
        let mut start = [0; 1_000];
        let mut reading_end = child.stdout.take().expect("standard output is a pipe");
        reading_end.read_exact(&mut start).expect("the first bytes");
        drop(reading_end);
        let status = child.wait().expect("the program ends");
        assert_eq!(status.code(), STATUS);
        let start = String::from_utf8_lossy(&start);
        let last = start.lines().last().unwrap_or("");
        assert!(!last.starts_with(['F', 'R']), "a last line: {last}");
    });
}
