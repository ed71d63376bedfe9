//! Whole runs that a host makes by the library's calls, one after another. The
//! statement and the sentence are those of the second calculation's program, which
//! keeps 2025, or in another year those of its steps.

use reference::book::Book;
use reference::calendar::{calendar_of, PROGRAM_YEAR};
use reference::draws::Draws;
use reference::program;
use reference::rights::{encode, records, LONGEST};
use reference::sentence::{Stopped, HOUR};
use reference::step::{last_line, step, HOUR_BYTES};
use reference::words::{BALANCES, CLOSED, COUNTS, SENTENCE_ROOM, SHORTFALLS, STEPPED, STEP_ROOM};

use super::drawn::{draw_run, draw_year};
use super::run::{assert_same, year, Printed, Run};
use crate::compare::{Case, Kind};
use crate::drawn::{calendar_for, draw_good_year, old_lines, old_text, old_words, OUTSIDE};
use crate::lent::Lent;
use crate::library;

/// The book's words, the text with its end, and what is written out.
struct Host {
    lent: Lent,
    end: u64,
    written: Vec<u8>,
}

impl Host {
    fn new(draws: &mut Draws, year: u64) -> Host {
        // Room for one block, and for few or many lines before it.
        let more = draws.one_of(&[0, 100, 50_000]);
        let mut lent = Lent {
            counts: old_words(draws, COUNTS),
            shortfalls: old_words(draws, SHORTFALLS),
            balances: old_lines(draws, BALANCES),
            text: old_text(draws, STEP_ROOM + more),
            ..Lent::default()
        };
        let opening = if calendar_of(year).is_some() { 0 } else { 15 };
        assert_eq!(library::open(year, lent.book()), opening, "{year}");
        Host {
            lent,
            end: 0,
            written: Vec::new(),
        }
    }

    fn write_out(&mut self) {
        let text = &self.lent.text.cells[..self.end as usize];
        self.written.extend(text);
        self.end = 0;
    }

    /// A call, which is made again on an emptied text if it found too little
    /// room.
    fn call(&mut self, words: usize, call: impl Fn(&mut Lent, u64) -> u64) -> u64 {
        self.lent.report.cells = vec![u64::MAX; words];
        self.lent.report.lent = words;
        let refusal = call(&mut self.lent, self.end);
        if self.lent.report.cells[0] == 1 {
            assert_ne!(self.end, 0, "an empty text has room");
            self.write_out();
            return self.call(words, call);
        }
        self.end = self.lent.report.cells[1];
        refusal
    }

    fn step(&mut self, rights: &[u8], block: &[u8]) -> Stopped {
        let refusal = self.call(STEPPED, |lent, end| {
            let (book, text, report) = lent.run_cells(end);
            library::step(book, rights, block, text, report)
        });
        let report = &self.lent.report.cells;
        Stopped {
            letter: report[2] as u8,
            number: report[3],
            refusal,
            record: report[4],
        }
    }

    fn close(&mut self, refusal: u64) {
        let given = self.call(CLOSED, |lent, end| {
            let (book, text, report) = lent.run_cells(end);
            library::closing(book, refusal as u8, text, report)
        });
        assert_eq!(given, 0);
        self.write_out();
    }

    /// The whole run; gives what stopped it.
    fn run(&mut self, rights: Option<&[u8]>, hours: &[u8]) -> Stopped {
        let mut stopped = Stopped {
            // A host finds out itself that the file can't be read.
            refusal: if rights.is_some() { 0 } else { 4 },
            ..Stopped::default()
        };
        for block in hours.chunks(HOUR_BYTES) {
            if !stopped.goes_on() {
                break;
            }
            stopped = self.step(rights.unwrap_or_default(), block);
        }
        self.close(stopped.refusal);
        stopped
    }
}

fn sentence(draws: &mut Draws, stopped: &Stopped) -> String {
    let mut lent = Lent {
        text: old_text(draws, SENTENCE_ROOM),
        ..Lent::default()
    };
    let end = library::sentence(stopped, lent.text_from(0));
    String::from_utf8_lossy(&lent.text.cells[..end as usize]).into_owned()
}

fn text(bytes: Vec<u8>) -> String {
    String::from_utf8(bytes).expect("text is written")
}

/// What a host's run in a year prints.
fn hosted(case: &mut Case, year: u64, rights: Option<&[u8]>, hours: &[u8]) -> Printed {
    let mut host = Host::new(&mut case.draws, year);
    let stopped = host.run(rights, hours);
    case.came("hosted run", stopped.refusal);
    Printed {
        statement: text(host.written),
        errors: sentence(&mut case.draws, &stopped),
    }
}

pub fn compare_hosted(case: &mut Case, run: &Run) {
    let rights = run.rights.as_deref().filter(|file| file.len() <= LONGEST);
    let hosted = hosted(case, PROGRAM_YEAR, rights, &run.hours);
    let mut statement = Vec::new();
    let second = program::run(rights, &mut &run.hours[..], &mut statement);
    let stopped = second.expect("bytes can be read and written");
    let second = Printed {
        statement: text(statement),
        errors: stopped.sentence(),
    };
    assert_same(run, &hosted, &second);
}

/// What the second calculation's steps in a year print.
fn stepped(year: u64, rights: &[u8], hours: &[u8]) -> Printed {
    let mut book = Book::fresh(year);
    let (mut statement, mut stopped) = (String::new(), Stopped::default());
    for block in hours.chunks(HOUR_BYTES) {
        if stopped.goes_on() {
            let step = step(book, rights, block);
            statement += &step.text;
            (book, stopped) = (step.book, step.stopped);
        }
    }
    statement += &last_line(stopped.refusal, &book);
    Printed {
        statement,
        errors: stopped.sentence(),
    }
}

#[test]
fn runs() {
    let kind = Kind {
        test: "program_runs::hosted::runs",
        base: Some(7_664_345_821_815_920_749),
        cases: 1_000,
        refusals: &[("hosted run", &[0, 4, 5, 6, 7, 9, 10])],
    };
    kind.run(|case| {
        let run = draw_run(&mut case.draws);
        compare_hosted(case, &run);
    });
}

#[test]
fn years() {
    let kind = Kind {
        test: "program_runs::hosted::years",
        base: Some(1_865_811_235_122_147_685),
        cases: 16,
        refusals: &[("hosted run", &[0, 2])],
    };
    kind.run(|case| {
        let run = draw_year(&mut case.draws);
        compare_hosted(case, &run);
    });
}

/// Drawn hours of a year other than the program's and some after it; rights that last
/// to day 365 last to its last day.
fn run_in(seed: u64, operating_year: u64, late_hours: u64) -> Run {
    let calendar = calendar_for(operating_year);
    let hours = calendar.hours() + late_hours;
    let mut run = year(seed, 30, hours as usize * HOUR_BYTES);
    let mut rights = records(&run.rights.unwrap_or_default());
    for right in rights.iter_mut().filter(|right| right.last == 365) {
        right.last = calendar.days();
    }
    run.rights = Some(rights.iter().flat_map(encode).collect());
    run
}

/// Whole years other than the program's, with 8,760 or 8,784 hours, to the year end
/// or an hour past it.
#[test]
fn other_years() {
    let kind = Kind {
        test: "program_runs::hosted::other_years",
        base: Some(6_510_615_555_426_900_571),
        cases: 12,
        refusals: &[("hosted run", &[0, 2]), ("hours", &[8_760, 8_784])],
    };
    kind.run(|case| {
        let draws = &mut case.draws;
        let drawn = draw_good_year(draws);
        let operating_year = draws.one_of(&[2_027, 2_099, drawn]);
        let run = run_in(draws.any(), operating_year, draws.below(2));
        let rights = run.rights.as_deref().unwrap_or_default();
        let hosted = hosted(case, operating_year, Some(rights), &run.hours);
        let second = stepped(operating_year, rights, &run.hours);
        assert_same(&run, &hosted, &second);
        let hours = calendar_for(operating_year).hours();
        let last = format!("\nH {} ", hours - 1);
        assert!(second.statement.contains(&last), "no line in the last hour");
        case.came("hours", hours);
    });
}

/// The first step gives 15 and names no event; the closing doesn't look at the year
/// and prints `R 15`. A host that passes the hour's letter itself has its sentence. The
/// seed is the number of the year outside.
#[test]
fn years_outside() {
    let kind = Kind {
        test: "program_runs::hosted::years_outside",
        base: None,
        cases: OUTSIDE.len() as u64,
        refusals: &[("hosted run", &[15])],
    };
    kind.run(|case| {
        let outside = OUTSIDE[case.seed as usize % OUTSIDE.len()];
        let run = year(8, 40, 2 * HOUR_BYTES);
        let printed = hosted(case, outside, run.rights.as_deref(), &run.hours);
        assert_eq!(printed.statement, "R 15\n");
        let sentence = "Rights file is refused: 15, no such year.\n";
        assert_eq!(printed.errors, sentence);
        let hour = Stopped {
            letter: HOUR,
            refusal: 15,
            ..Stopped::default()
        };
        let sentence = "Hour 0 is refused: 15, no such year.\n";
        assert_eq!(self::sentence(&mut case.draws, &hour), sentence);
    });
}
