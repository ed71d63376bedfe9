//! The calls that a run of the program is made of: a step for each block of its
//! input, the closing, and the sentence on a refusal.

use reference::book::Book;
use reference::draws::Draws;
use reference::sentence::Stopped;
use reference::step::HOUR_BYTES;
use reference::target::MOST_PRICES;
use reference::words::{self, CLOSED, CLOSING_ROOM, SENTENCE_ROOM, STEPPED, STEP_ROOM};
use reference::words::{BALANCES, COUNTS, SHORTFALLS};

use crate::compare::{Case, Input, Kind};
use crate::drawn::{
    block_text, calendar_for, days_of, draw_book, draw_market, hour_bytes, lend_book, next_day,
    number_of, old_text, old_words, rights_text, spoil_words, Shape,
};
use crate::lent::{Given, Lent, Row};
use crate::library;
use crate::single_events::draw_collected;

/// What a step is lent to read.
pub struct Block {
    pub rights: Row<u8>,
    pub bytes: Row<u8>,
}

/// A block, and the end of the text that its lines are appended to.
pub struct Step {
    pub block: Block,
    pub end: u64,
}

impl Input for Step {
    fn text(&self) -> String {
        let rights = rights_text(self.block.rights.slice());
        let block = block_text(self.block.bytes.slice());
        format!("end of the text {}\n{rights}\n{block}", self.end)
    }
}

pub fn compare_block(case: &mut Case, step: &Step, lent: &Lent) -> Given {
    let (rights, block) = (step.block.rights.slice(), step.block.bytes.slice());
    case.compare(
        "step",
        step,
        lent,
        |lent| {
            let (book, text, report) = lent.run_cells(step.end);
            library::step(book, rights, block, text, report)
        },
        |lent| {
            let (mut book, text, report) = lent.run_cells(step.end);
            book.step(rights, block, text, report)
        },
    )
}

pub fn compare_closing(case: &mut Case, refusal: u8, end: u64, lent: &Lent) -> Given {
    case.compare(
        "closing",
        &format!("refusal {refusal}, end of the text {end}"),
        lent,
        |lent| {
            let (book, text, report) = lent.run_cells(end);
            library::closing(book, refusal, text, report)
        },
        |lent| {
            let (book, text, report) = lent.run_cells(end);
            book.closing(refusal, text, report)
        },
    )
}

/// The place behind the sentence stands in the report.
fn compare_sentence(case: &mut Case, stopped: &Stopped, at: u64, lent: &Lent) -> Given {
    case.compare(
        "sentence",
        &format!("{stopped:?}\nplace {at}; the report has the place behind the sentence"),
        lent,
        |lent| {
            lent.report.cells[0] = library::sentence(stopped, lent.text_from(at));
            0
        },
        |lent| {
            lent.report.cells[0] = words::sentence(stopped, lent.text_from(at));
            0
        },
    )
}

/// The bytes of a text and its end: more room behind it than is asked for, just
/// enough, one byte too little, none, or an end so high that the room wraps.
fn draw_room(draws: &mut Draws, room: usize) -> (usize, u64) {
    let end = draws.below(100);
    let enough = room + end as usize;
    let few = draws.below(enough as u64) as usize;
    let more = enough + draws.below(300) as usize;
    let past = enough as u64 + draws.below(3);
    let wrapping = u64::MAX - draws.below(room as u64 + 100);
    match draws.below(24) {
        0 => (enough - 1, end),
        1 => (few, end),
        2 => (enough, past),
        3 => (enough, wrapping),
        4 => (more, draws.one_of(&[u64::MAX, 1 << 63, 1 << 32])),
        5..=12 => (enough, end),
        _ => (more, end),
    }
}

/// Any book; in half of the cases it stands an hour before the end of a month,
/// often of the last.
fn draw_step_book(draws: &mut Draws) -> Book {
    let mut book = draw_book(draws);
    let any = draws.below(12) as usize;
    let month = draws.one_of(&[any, 11]);
    if draws.once_in(2) {
        book.months = month as u64;
        book.hours = calendar_for(book.year).month_ends[month] - 1;
        book.ended = false;
    }
    book
}

/// Rights, and a block that is now and then of another length; the bytes behind
/// it go on with prices.
pub fn draw_block(draws: &mut Draws, book: &Book) -> Block {
    let shape = Shape {
        records: draws.below(7) as usize,
        days: days_of(book.year),
        nodes: draws.one_of(&[4, 4, 1_024]),
        today: next_day(book),
        prices: MOST_PRICES,
        faults: 96,
    };
    let market = draw_market(draws, &shape);
    let collected = draw_collected(draws, &market, book);
    let bytes = hour_bytes(collected, &market.prices.cells);
    let any = draws.below(2 * HOUR_BYTES as u64) as usize;
    let wrong = draws.one_of(&[0, 1, 7, 8, 9, 4_103, 4_105, 8_208, any]);
    let lent = if draws.once_in(16) { wrong } else { HOUR_BYTES };
    Block {
        rights: market.rights,
        bytes: Row::lent(&bytes, lent, || draws.any() as u8),
    }
}

/// The words of a book and of a report: now and then of another number, or
/// spoiled; and so many bytes of text.
fn draw_words(draws: &mut Draws, book: &Book, report_words: usize, bytes: usize) -> Lent {
    let counts = [COUNTS, SHORTFALLS, BALANCES].map(|usual| number_of(draws, usual, 64));
    let mut lent = lend_book(draws, book, counts);
    spoil_words(draws, &mut lent, 32);
    let report_words = number_of(draws, report_words, 64);
    lent.report = old_words(draws, report_words);
    lent.text = old_text(draws, bytes);
    lent
}

/// Notes the events that printed lines, and whether there was room.
fn note_step(case: &mut Case, given: &Given, end: u64) {
    let report = given.lent.report.slice();
    match given.refusal {
        0 => case.came("step without room", report[0]),
        1 => case.came("letter of a spoiled book", report[2]),
        15 if report.len() == STEPPED => assert_eq!(report, [0, end, 0, 0, 0]),
        _ => {}
    }
    if given.refusal != 0 || report[0] == 1 {
        return;
    }
    let printed = &given.lent.text.cells[end as usize..report[1] as usize];
    let printed = String::from_utf8_lossy(printed);
    let events = [("H ", "hour"), ("M ", "month end"), ("Y ", "year end")];
    for (letter, event) in events {
        let lines = printed.lines().any(|line| line.starts_with(letter));
        case.came(event, u64::from(lines));
    }
}

fn compare_any_step(case: &mut Case) {
    let draws = &mut case.draws;
    let book = draw_step_book(draws);
    let block = draw_block(draws, &book);
    let (bytes, end) = draw_room(draws, STEP_ROOM);
    let lent = draw_words(draws, &book, STEPPED, bytes);
    let given = compare_block(case, &Step { block, end }, &lent);
    note_step(case, &given, end);
}

fn run_steps(test: &'static str, base: u64) {
    let kind = Kind {
        test,
        base: Some(base),
        cases: 40_000,
        refusals: &[
            // A block has all 1,024 prices, so 8 never comes.
            ("step", &[0, 1, 2, 3, 4, 5, 6, 7, 9, 10, 15]),
            ("step without room", &[0, 1]),
            // The words are spoiled, or the book that they stand for.
            ("letter of a spoiled book", &[0, 72]),
            // Whether the event printed lines.
            ("hour", &[0, 1]),
            ("month end", &[0, 1]),
            ("year end", &[0, 1]),
        ],
    };
    kind.run(compare_any_step);
}

// Two tests of a kind, for two threads.

#[test]
fn any_step() {
    run_steps("steps::any_step", 3_202_034_522_624_059_733);
}

#[test]
fn any_other_step() {
    run_steps("steps::any_other_step", 5_871_781_006_564_002_453);
}

/// Notes whether there was room, and how many balances an `F` line has below 0.
fn note_closing(case: &mut Case, refusal: u8, given: &Given, end: u64) {
    let [full, after] = [0, 1].map(|at| given.lent.report.cells[at]);
    case.came("closing without room", full);
    case.came("closing after a refusal", u64::from(refusal != 0));
    if full == 0 && refusal == 0 {
        let line = &given.lent.text.cells[end as usize..after as usize];
        let signs = line.iter().filter(|byte| **byte == b'-').count();
        case.came("minus signs in an F line", signs as u64);
    }
}

#[test]
fn any_closing() {
    let kind = Kind {
        test: "steps::any_closing",
        base: Some(4_354_685_564_936_845_319),
        cases: 100_000,
        refusals: &[
            ("closing", &[0, 1, 4]),
            ("closing without room", &[0, 1]),
            ("closing after a refusal", &[0, 1]),
            ("minus signs in an F line", &[0, 1, 2]),
        ],
    };
    kind.run(|case| {
        let draws = &mut case.draws;
        let book = draw_book(draws);
        let any = draws.any() as u8;
        let refusal = draws.one_of(&[0, any]);
        let (bytes, end) = draw_room(draws, CLOSING_ROOM);
        let mut lent = draw_words(draws, &book, CLOSED, bytes);
        // Balances of all sizes, as no event would leave them.
        spoil_words(draws, &mut lent, 4);
        let given = compare_closing(case, refusal, end, &lent);
        if given.refusal == 0 {
            note_closing(case, refusal, &given, end);
        }
    });
}

/// Any event and record, with numbers of all lengths.
fn draw_stopped(draws: &mut Draws, refusal: u64) -> Stopped {
    let any = draws.any() as u8;
    let [number, record] = [(); 2].map(|()| {
        let any = draws.any() >> draws.below(64);
        draws.one_of(&[0, 9, 10, u64::MAX, any])
    });
    Stopped {
        letter: draws.one_of(&[b'H', b'M', b'Y', 0, any]),
        number,
        refusal,
        record,
    }
}

/// Each case has all 256 refusals.
#[test]
fn any_sentence() {
    let kind = Kind {
        test: "steps::any_sentence",
        base: Some(6_905_769_461_532_207_147),
        cases: 1_000,
        refusals: &[("sentence without room", &[0, 1])],
    };
    kind.run(|case| {
        for refusal in 0..=255 {
            let draws = &mut case.draws;
            let stopped = draw_stopped(draws, refusal);
            let (bytes, at) = draw_room(draws, SENTENCE_ROOM);
            let lent = Lent {
                report: old_words(draws, 1),
                text: old_text(draws, bytes),
                ..Lent::default()
            };
            let given = compare_sentence(case, &stopped, at, &lent);
            let behind = given.lent.report.cells[0];
            let none = refusal != 0 && behind == at;
            case.came("sentence without room", u64::from(none));
        }
    });
}
