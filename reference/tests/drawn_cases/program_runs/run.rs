//! What a run is given, and what both programs print.

use std::fs::{create_dir, remove_dir_all, write, File};
use std::io::Write;
use std::path::{Path, PathBuf};
use std::process::{ChildStdin, Command, Stdio};

use reference::make_year::{self, Year};
use reference::program;
use reference::rights::{encode, Right, RECORD};
use reference::step::HOUR_BYTES;

use crate::compare::Case;
use crate::drawn::{block_text, rights_text};

/// What a run is given: the bytes of `ftr.bin`, unless it is missing, and those
/// of the standard input.
pub struct Run {
    pub rights: Option<Vec<u8>>,
    pub hours: Vec<u8>,
}

/// The first bytes of a drawn year.
pub fn year(seed: u64, rights: u64, bytes: usize) -> Run {
    let year = Year {
        seed,
        rights,
        hours: bytes.div_ceil(HOUR_BYTES) as u64,
        daily: false,
    };
    let (mut file, mut hours) = (Vec::new(), Vec::new());
    make_year::write(&year, &mut file, &mut hours).expect("a year is written");
    hours.truncate(bytes);
    let rights = Some(file);
    Run { rights, hours }
}

/// An obligation for all hours and days.
pub fn right(owner: u64, source: u64, sink: u64, size: u64) -> [u8; RECORD] {
    encode(&Right {
        owner,
        source,
        sink,
        kind: 0,
        class: 2,
        size,
        first: 1,
        last: 365,
    })
}

/// A folder of a run's own; a run that differs leaves it to be looked at.
pub struct Folder(PathBuf);

impl Folder {
    /// With `hours.bin`, and with `ftr.bin` unless it is missing.
    pub fn new(case: &Case, run: &Run) -> Folder {
        let test = case.test.replace("::", "-");
        let name = format!("{test}-{}-{}", case.seed, std::process::id());
        let path = std::env::temp_dir().join(name);
        create_dir(&path).expect("a folder for the run");
        write(path.join("hours.bin"), &run.hours).expect("hours.bin is written");
        if let Some(rights) = &run.rights {
            write(path.join("ftr.bin"), rights).expect("ftr.bin is written");
        }
        Folder(path)
    }

    /// Runs a command here, with the hours from the file.
    pub fn command(&self, program: &Path) -> Command {
        let hours = File::open(self.0.join("hours.bin")).expect("the hours just written");
        let mut command = Command::new(program);
        command.current_dir(&self.0).stdin(hours);
        command.stdout(Stdio::piped()).stderr(Stdio::piped());
        command
    }
}

impl Drop for Folder {
    fn drop(&mut self) {
        if std::thread::panicking() {
            eprintln!("ftr.bin and hours.bin of the run: {}", self.0.display());
        } else {
            remove_dir_all(&self.0).expect("the run's folder is removed");
        }
    }
}

/// The path of the program: `CLEARING`, else where `rt run` puts it.
pub fn clearing() -> PathBuf {
    let beside = || Path::new(env!("CARGO_MANIFEST_DIR")).join("../crates/clearing/out/clearing");
    let path = std::env::var_os("CLEARING").map_or_else(beside, PathBuf::from);
    let found = path.canonicalize();
    found.unwrap_or_else(|_| panic!("there is no program {}", path.display()))
}

/// Feeds a pipe in pieces that are no blocks, so that reads come back short. A
/// program that has stopped takes no more.
fn feed(mut pipe: ChildStdin, hours: &[u8]) {
    for piece in hours.chunks(1_000) {
        if pipe.write_all(piece).is_err() {
            return;
        }
    }
}

/// What a program prints: the statement, and what stands on standard error.
#[derive(PartialEq, Eq)]
pub struct Printed {
    pub statement: String,
    pub errors: String,
}

/// What the program prints in the folder, with the hours from a file or a pipe.
fn printed(folder: &Folder, hours: &[u8], piped: bool) -> Printed {
    let mut command = folder.command(&clearing());
    if piped {
        command.stdin(Stdio::piped());
    }
    let mut child = command.spawn().expect("the program runs");
    let pipe = child.stdin.take();
    let output = std::thread::scope(|scope| {
        scope.spawn(|| pipe.map(|pipe| feed(pipe, hours)));
        child.wait_with_output().expect("the program ends")
    });
    assert!(output.status.success(), "the program failed: {output:?}");
    let text = |bytes| String::from_utf8(bytes).expect("the program prints text");
    Printed {
        statement: text(output.stdout),
        errors: text(output.stderr),
    }
}

/// What the second calculation prints.
pub fn second_printed(folder: &Folder, hours: &[u8]) -> Printed {
    let rights = program::read_rights(&folder.0.join("ftr.bin"));
    let mut output = Vec::new();
    let run = program::run(rights.as_deref(), &mut &hours[..], &mut output);
    let stopped = run.expect("bytes can be read and written");
    Printed {
        statement: String::from_utf8(output).expect("text is written"),
        errors: stopped.sentence(),
    }
}

/// The lines at the start that are the same.
fn same_lines(program: &str, second: &str) -> usize {
    let pairs = program.lines().zip(second.lines());
    pairs.take_while(|(ours, theirs)| ours == theirs).count()
}

/// The first lines that differ, side by side.
fn lines_text(program: &str, second: &str) -> String {
    let same = same_lines(program, second);
    let line = |text: &str, at: usize| text.lines().nth(at).unwrap_or("(no line)").to_string();
    let mut text = format!("from line {same} on: program / second calculation\n");
    for at in same..same + 5 {
        text += &format!("{} / {}\n", line(program, at), line(second, at));
    }
    text
}

/// The hours in plain numbers; of a long input those around the first line that
/// differs, since all of it stays in the run's folder.
fn hours_text(hours: &[u8], program: &str, second: &str) -> String {
    let number = |line: &str| line.strip_prefix("H ")?.split(' ').next()?.parse().ok();
    let same = second.lines().take(same_lines(program, second) + 1);
    let last: usize = same.filter_map(number).last().unwrap_or(0);
    let first = last.saturating_sub(50);
    let blocks = hours.chunks(HOUR_BYTES).enumerate().skip(first);
    let shown = blocks.take(last + 2 - first);
    let count = hours.len().div_ceil(HOUR_BYTES);
    let text = shown.map(|(at, block)| format!("hour {at}: {}\n", block_text(block)));
    let text: String = text.collect();
    format!("hours {first} to {} of {count}\n{text}", last + 1)
}

/// The number in the last line: 0 for an `F`, else that of the refusal.
fn refusal_of(text: &str) -> u64 {
    let last = text.lines().last().unwrap_or("");
    match last.strip_prefix("R ") {
        Some(number) => number.parse().expect("a refusal has a number"),
        None => 0,
    }
}

/// The first differences, with the input.
pub fn assert_same(run: &Run, program: &Printed, second: &Printed) {
    if program == second {
        return;
    }
    let rights = run.rights.as_deref();
    let rights = rights.map_or(String::from("no ftr.bin"), rights_text);
    let hours = hours_text(&run.hours, &program.statement, &second.statement);
    let lines = lines_text(&program.statement, &second.statement);
    let (ours, theirs) = (&program.errors, &second.errors);
    let errors = format!("standard error: {ours:?} / {theirs:?}");
    panic!("the runs differ\n{rights}\n{hours}{lines}{errors}");
}

/// Runs both on the same input; gives what they print.
pub fn compare_run(case: &mut Case, run: &Run) -> Printed {
    let folder = Folder::new(case, run);
    // A pipe is slow with a whole year.
    let piped = case.seed % 2 == 1 && run.hours.len() < 4_000_000;
    let program = printed(&folder, &run.hours, piped);
    let second = second_printed(&folder, &run.hours);
    assert_same(run, &program, &second);
    let statement = &second.statement;
    case.came("run", refusal_of(statement));
    for (letter, event) in [("M ", "month that pays"), ("Y ", "year that pays")] {
        let paid = statement.lines().any(|line| line.starts_with(letter));
        case.came(event, u64::from(paid));
    }
    second
}
