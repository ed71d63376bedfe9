//! The command: the program by the second calculation, and years to run it on.

use std::io::{self, BufWriter, Write};
use std::path::Path;
use std::process::ExitCode;

use reference::make_year::{self, Year};
use reference::program;

const USAGE: &str = "usage: reference COMMAND
  program          (ftr.bin in the current folder, hours on standard input)
  make-year SEED RIGHTS HOURS OUTDIR [daily]";

fn run_program(output: &mut dyn Write) -> io::Result<bool> {
    let rights = program::read_rights(Path::new("ftr.bin"));
    let stopped = program::run(rights.as_deref(), &mut io::stdin().lock(), output)?;
    output.flush()?;
    eprint!("{}", stopped.sentence());
    Ok(true)
}

/// Gives false for numbers that can't be read or a seed of 0.
fn write_year(numbers: [&str; 3], folder: &str, daily: bool) -> io::Result<bool> {
    let [Ok(seed), Ok(rights), Ok(hours)] = numbers.map(str::parse) else {
        return Ok(false);
    };
    if seed == 0 {
        return Ok(false);
    }
    let year = Year {
        seed,
        rights,
        hours,
        daily,
    };
    make_year::write_files(&year, Path::new(folder))?;
    Ok(true)
}

/// Gives false for a command that there is not.
fn run(words: &[String], output: &mut dyn Write) -> io::Result<bool> {
    let words: Vec<&str> = words.iter().map(String::as_str).collect();
    match words.as_slice() {
        ["program"] => run_program(output),
        ["make-year", seed, rights, hours, folder] => {
            write_year([seed, rights, hours], folder, false)
        }
        ["make-year", seed, rights, hours, folder, "daily"] => {
            write_year([seed, rights, hours], folder, true)
        }
        _ => Ok(false),
    }
}

fn main() -> ExitCode {
    let words: Vec<String> = std::env::args().skip(1).collect();
    let mut output = BufWriter::new(io::stdout().lock());
    let done = run(&words, &mut output).and_then(|known| output.flush().map(|()| known));
    match done {
        Ok(true) => ExitCode::SUCCESS,
        Ok(false) => {
            eprintln!("{USAGE}");
            ExitCode::FAILURE
        }
        Err(error) => {
            eprintln!("reference: {error}");
            ExitCode::FAILURE
        }
    }
}
