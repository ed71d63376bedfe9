//! What is looked at before the library is called, whatever else is lent: a year
//! outside is refused with 15 "before all else", but for counts that have no year, and
//! after that a report, a book or a right of another number of words with 4; and the
//! opening of a book.

use reference::book::{Book, HourInput};
use reference::calendar::calendar_of;
use reference::draws::Draws;
use reference::split::{Limits, HALL, SMALL_POOL};
use reference::words::{self, Event, BALANCES, COUNTS, SETTLED, SHORTFALLS};
use reference::words::{CLOSED, STEPPED, STEP_ROOM};

use crate::calendar::{compare_calendar, compare_days};
use crate::compare::{Case, Kind};
use crate::drawn::{
    block, days_of, draw_book, draw_market, draw_year, lend_book, number_of, old_line, old_lines,
    old_text, old_words, spoil_words, Market, Shape,
};
use crate::lent::{Given, Lent, Row};
use crate::library;
use crate::read::{compare_read, draw_file, draw_good, Place};
use crate::reader::compare_step;
use crate::rows::compare_rows;
use crate::single_events::compare_event;
use crate::split::compare_split;
use crate::steps::{compare_block, compare_closing, draw_block, Block, Step};
use crate::targets::{compare_targets, Asked};
use crate::write::{compare_write, Writing};

/// A number of words that is not the one named.
fn wrong(draws: &mut Draws, words: usize) -> usize {
    draws.one_of(&[0, words - 1, words + 1])
}

/// This refusal, and nothing was written.
fn refused_untouched(refusal: u64, given: &Given, before: &Lent) {
    assert_eq!(given.refusal, refusal);
    assert!(given.lent == *before, "a refused call wrote");
}

/// 4, or 15 where the year, which comes first, is outside.
fn refusal_in(year: u64) -> u64 {
    match calendar_of(year) {
        Some(_) => 4,
        None => 15,
    }
}

/// Rights and prices, in part faulty.
fn any_market(draws: &mut Draws, year: u64) -> Market {
    let days = days_of(year);
    let shape = Shape {
        records: draws.below(4) as usize,
        days,
        nodes: 4,
        today: draws.below(days) + 1,
        prices: draws.one_of(&[0, 3, 4, 4, 1_024]),
        faults: 32,
    };
    draw_market(draws, &shape)
}

/// What a call without a book is lent, with a report of a wrong number.
fn wrong_report(draws: &mut Draws, words: usize) -> Lent {
    let count = wrong(draws, words);
    Lent {
        lines: old_lines(draws, 64),
        payments: old_words(draws, 3),
        report: old_words(draws, count),
        ..Lent::default()
    }
}

/// The calendar call and the day table.
fn compare_calendar_calls(case: &mut Case, year: u64, hour: u64) {
    let refusal = refusal_in(year);
    let lent = wrong_report(&mut case.draws, words::HOUR);
    let given = compare_calendar(case, year, hour, &lent);
    refused_untouched(refusal, &given, &lent);
    let mut lent = wrong_report(&mut case.draws, words::TABLE);
    let bytes = case.draws.one_of(&[0, 364, 365, 366]);
    lent.table = old_text(&mut case.draws, bytes);
    refused_untouched(refusal, &compare_days(case, year, &lent), &lent);
}

/// The write, with a right of a wrong number of words.
fn compare_right_words(case: &mut Case, place: Place) {
    let draws = &mut case.draws;
    let words = wrong(draws, words::RIGHT);
    let right = draw_good(draws, days_of(place.year));
    let right = Row::lent(&words::right_words(&right), words, || 0);
    let refusal = refusal_in(place.year);
    let writing = Writing { place, right };
    let given = compare_write(case, &writing);
    refused_untouched(refusal, &given, &writing.lend());
}

/// The read, the write, the reader's step, the target call and the row call.
fn compare_rights_calls(case: &mut Case, year: u64, hour: u64) {
    let refusal = refusal_in(year);
    let place = Place {
        year,
        rights: draw_file(&mut case.draws, year),
        record: case.draws.below(8),
    };
    let lent = wrong_report(&mut case.draws, words::RIGHT);
    refused_untouched(refusal, &compare_read(case, &place, &lent), &lent);
    let lent = wrong_report(&mut case.draws, words::STEP);
    refused_untouched(refusal, &compare_step(case, &place, &lent), &lent);
    compare_right_words(case, place);
    let market = any_market(&mut case.draws, year);
    let asked = Asked { year, market, hour };
    let mut lent = wrong_report(&mut case.draws, words::OUTCOME);
    refused_untouched(refusal, &compare_targets(case, &asked, &lent), &lent);
    lent.lines = old_lines(&mut case.draws, asked.records());
    refused_untouched(refusal, &compare_rows(case, &asked, &lent), &lent);
}

fn compare_without_book(case: &mut Case) {
    let hours = [0, 30, 8_759, 8_760, 8_783, 8_784, u64::MAX];
    let hour = case.draws.one_of(&hours);
    let year = draw_year(&mut case.draws);
    compare_calendar_calls(case, year, hour);
    compare_rights_calls(case, year, hour);
    let wants = [(); 3].map(|()| case.draws.below(2_000_000_000));
    let lent = wrong_report(&mut case.draws, words::ALLOCATION);
    let fund = case.draws.below(4_000_000_000);
    let few = Limits { owners: 2, ..HALL };
    let limits = case.draws.one_of(&[HALL, SMALL_POOL, few]);
    let given = compare_split(case, limits, fund, &wants, &lent);
    refused_untouched(4, &given, &lent);
}

/// Of a book or a report of another number of words: 4 where the counts have another
/// number, and no year to look at; else 15 or 4 by the book's year.
fn refusal_of_words(book: &Book, counts: [usize; 3]) -> u64 {
    match counts {
        [COUNTS, _, _] => refusal_in(book.year),
        _ => 4,
    }
}

/// What may have another number of words in an event and in a step.
const PARTS: [&str; 4] = [
    "counts of another number",
    "shortfalls of another number",
    "balances of another number",
    "report of another number",
];

/// A report of another number of words, on any book.
fn compare_event_report(case: &mut Case, event: Event) {
    let draws = &mut case.draws;
    let book = draw_book(draws);
    let counts = [COUNTS, SHORTFALLS, BALANCES].map(|usual| number_of(draws, usual, 8));
    let refusal = refusal_of_words(&book, counts);
    let mut lent = lend_book(draws, &book, counts);
    spoil_words(draws, &mut lent, 3);
    let report_words = wrong(draws, SETTLED);
    lent.lines = old_lines(draws, 64);
    lent.settled = Row::lent(&[], report_words, || old_line(draws));
    let given = compare_event(case, event, &lent);
    refused_untouched(refusal, &given, &lent);
}

/// A book of another number of words: its report of three is zeros.
fn compare_event_book(case: &mut Case, event: Event) {
    let draws = &mut case.draws;
    let book = draw_book(draws);
    let mut counts = [COUNTS, SHORTFALLS, BALANCES];
    let at = draws.below(3) as usize;
    counts[at] = wrong(draws, counts[at]);
    let refusal = refusal_of_words(&book, counts);
    let mut lent = lend_book(draws, &book, counts);
    spoil_words(draws, &mut lent, 3);
    lent.lines = old_lines(draws, 64);
    lent.settled = Row::lent(&[], SETTLED, || old_line(draws));
    let given = compare_event(case, event, &lent);
    lent.settled.slice_mut().fill(0);
    refused_untouched(refusal, &given, &lent);
    case.came(PARTS[at], refusal);
}

/// What a step and a closing are lent on this book, of which one part has another
/// number of words; the name of the part, and what a step is refused with.
fn wrong_words(draws: &mut Draws, book: &Book, report_words: usize) -> (Lent, &'static str, u64) {
    let mut words = [COUNTS, SHORTFALLS, BALANCES, report_words];
    let at = draws.below(4) as usize;
    words[at] = wrong(draws, words[at]);
    let [counts, shortfalls, balances, report] = words;
    let counts = [counts, shortfalls, balances];
    let mut lent = lend_book(draws, book, counts);
    spoil_words(draws, &mut lent, 3);
    lent.report = old_words(draws, report);
    let bytes = draws.one_of(&[0, STEP_ROOM]);
    lent.text = old_text(draws, bytes);
    (lent, PARTS[at], refusal_of_words(book, counts))
}

/// This refusal, and nothing was written but a report that has its words: the end
/// that was given, and else zeros.
fn refused_unmoved(refusal: u64, given: &Given, before: &Lent, report_words: usize, end: u64) {
    let mut before = before.clone();
    let report = before.report.slice_mut();
    if report.len() == report_words {
        report.fill(0);
        report[1] = end;
    }
    refused_untouched(refusal, given, &before);
}

fn compare_run_calls(case: &mut Case) {
    let draws = &mut case.draws;
    let book = draw_book(draws);
    let block = draw_block(draws, &book);
    let end = draws.one_of(&[0, 1, u64::MAX]);
    let (lent, part, refusal) = wrong_words(draws, &book, STEPPED);
    let step = Step { block, end };
    let given = compare_block(case, &step, &lent);
    refused_unmoved(refusal, &given, &lent, STEPPED, end);
    case.came(part, refusal);
    // The closing doesn't look at the year.
    let (lent, _, _) = wrong_words(&mut case.draws, &book, CLOSED);
    let refusal = case.draws.one_of(&[0, 4]);
    let given = compare_closing(case, refusal, end, &lent);
    refused_unmoved(4, &given, &lent, CLOSED, end);
}

/// A book's year, mark and month balance.
type Values = (u64, u64, i64);

/// Each is the usual number of words, none, one less or one more, by two bits of a
/// number below 256.
fn numbers_by(number: usize, usual: [usize; 4]) -> [usize; 4] {
    std::array::from_fn(|at| match (number >> (2 * at)) & 3 {
        0 => usual[at],
        1 => 0,
        2 => usual[at] - 1,
        _ => usual[at] + 1,
    })
}

/// What such counts, shortfalls, balances and report are refused with, in the order
/// of the header; none where the call itself has its say.
fn first_refusal(values: Values, numbers: [usize; 4], usual: [usize; 4]) -> Option<u64> {
    let (year, mark, _) = values;
    let wrong = |at: usize| numbers[at] != usual[at];
    let cases = [
        (4, wrong(0)),
        (15, calendar_of(year).is_none()),
        (4, wrong(1)),
        (4, wrong(2)),
        (4, wrong(3)),
        (1, mark > 1),
    ];
    let first = cases.into_iter().find(|(_, applies)| *applies);
    first.map(|(number, _)| number)
}

fn lend_values(draws: &mut Draws, values: Values, numbers: [usize; 4]) -> Lent {
    let (year, mark, month_balance) = values;
    let [counts, shortfalls, balances, _] = numbers;
    let book = Book {
        month_balance,
        ..Book::fresh(year)
    };
    let mut lent = lend_book(draws, &book, [counts, shortfalls, balances]);
    if let Some(cell) = lent.counts.slice_mut().get_mut(2) {
        *cell = mark;
    }
    lent
}

/// What an event gives on a book that is fresh but for its month balance: after 0 hours
/// the bounds of 1 are 0, and no end is due.
fn refusal_of_fresh(event: Event, balance: i64) -> u64 {
    match event {
        _ if balance != 0 => 1,
        Event::Hour(_) => 0,
        Event::MonthEnd | Event::YearEnd => 3,
    }
}

fn compare_ordered_event(case: &mut Case, event: Event, values: Values, number: usize) {
    let usual = [COUNTS, SHORTFALLS, BALANCES, SETTLED];
    let numbers = numbers_by(number, usual);
    let draws = &mut case.draws;
    let mut lent = lend_values(draws, values, numbers);
    lent.lines = old_lines(draws, 64);
    lent.settled = Row::lent(&[], numbers[3], || old_line(draws));
    let given = compare_event(case, event, &lent);
    let Some(refusal) = first_refusal(values, numbers, usual) else {
        let (_, _, balance) = values;
        assert_eq!(given.refusal, refusal_of_fresh(event, balance));
        return;
    };
    if numbers[3] == SETTLED {
        lent.settled.slice_mut().fill(0);
    }
    refused_untouched(refusal, &given, &lent);
}

/// What a step and a closing are lent, with so much text that both have room.
fn lend_run_values(draws: &mut Draws, values: Values, numbers: [usize; 4]) -> Lent {
    Lent {
        report: old_words(draws, numbers[3]),
        text: old_text(draws, 7 + STEP_ROOM),
        ..lend_values(draws, values, numbers)
    }
}

/// A step. The bounds of 1 are the hour's to look at, so that it is named.
fn compare_ordered_step(case: &mut Case, values: Values, number: usize) {
    let usual = [COUNTS, SHORTFALLS, BALANCES, STEPPED];
    let numbers = numbers_by(number, usual);
    let lent = lend_run_values(&mut case.draws, values, numbers);
    let bytes = block(0, &[]);
    let block = Block {
        rights: Row::lent(&[], 0, || 0),
        bytes: Row::lent(&bytes, bytes.len(), || 0),
    };
    let given = compare_block(case, &Step { block, end: 7 }, &lent);
    if let Some(refusal) = first_refusal(values, numbers, usual) {
        refused_unmoved(refusal, &given, &lent, STEPPED, 7);
        return;
    }
    let (_, _, balance) = values;
    let (refusal, letter) = if balance == 0 { (0, 0) } else { (1, 72) };
    assert_eq!(given.refusal, refusal);
    assert_eq!(given.lent.report.slice(), [0, 7, letter, 0, 0]);
}

/// A closing, which doesn't look at the year and prints any balances.
fn compare_ordered_closing(case: &mut Case, values: Values, number: usize) {
    let usual = [COUNTS, SHORTFALLS, BALANCES, CLOSED];
    let numbers = numbers_by(number, usual);
    let lent = lend_run_values(&mut case.draws, values, numbers);
    let given = compare_closing(case, 0, 7, &lent);
    let (_, mark, balance) = values;
    if let Some(refusal) = first_refusal((2_025, mark, balance), numbers, usual) {
        refused_unmoved(refusal, &given, &lent, CLOSED, 7);
        return;
    }
    let line = format!("F {balance} 0\n");
    assert_eq!(given.refusal, 0);
    assert_eq!(given.lent.text.cells[7..7 + line.len()], *line.as_bytes());
}

fn compare_open(case: &mut Case) {
    let draws = &mut case.draws;
    let [counts, shortfalls, balances] =
        [COUNTS, SHORTFALLS, BALANCES].map(|usual| number_of(draws, usual, 6));
    let lent = Lent {
        counts: old_words(draws, counts),
        shortfalls: old_words(draws, shortfalls),
        balances: old_lines(draws, balances),
        ..Lent::default()
    };
    let year = draw_year(draws);
    let given = compare_opening(case, year, &lent);
    if [counts, shortfalls, balances] != [COUNTS, SHORTFALLS, BALANCES] {
        refused_untouched(refusal_in(year), &given, &lent);
        return;
    }
    // "with a book all 0, year included"
    let (refusal, kept) = match calendar_of(year) {
        Some(_) => (0, year),
        None => (15, 0),
    };
    assert_eq!(given.refusal, refusal);
    assert_eq!(given.lent.counts.slice(), [0, 0, 0, kept]);
    assert_eq!(given.lent.shortfalls.slice(), [0; SHORTFALLS]);
    assert_eq!(given.lent.balances.slice(), [0; BALANCES]);
}

pub fn compare_opening(case: &mut Case, year: u64, lent: &Lent) -> Given {
    case.compare(
        "open",
        &format!("year {year}"),
        lent,
        |lent| library::open(year, lent.book()),
        |lent| lent.book().open(year),
    )
}

#[test]
fn opening() {
    let kind = Kind {
        test: "lent_words::opening",
        base: Some(6_148_914_691_236_517_205),
        cases: 50_000,
        refusals: &[("open", &[0, 4, 15])],
    };
    kind.run(compare_open);
}

/// All of what is looked at, together: 256 numbers of words with a good book, one with
/// a wrong mark and one with a balance outside its bounds. The seed is the place of the
/// year.
#[test]
fn the_order() {
    let years = [2_025, 2_027, 2_099, 0, 2_024, 2_100, u64::MAX];
    let kind = Kind {
        test: "lent_words::the_order",
        base: None,
        cases: years.len() as u64,
        refusals: &[
            ("hour", &[0, 1, 4, 15]),
            ("month end", &[1, 3, 4, 15]),
            ("year end", &[1, 3, 4, 15]),
            ("step", &[0, 1, 4, 15]),
            ("closing", &[0, 1, 4]),
        ],
    };
    kind.run(|case| {
        let year = years[case.seed as usize % years.len()];
        let hour = Event::Hour(HourInput {
            rights: &[],
            prices: &[0],
            collected: 0,
        });
        for number in 0..256 {
            for (mark, balance) in [(0, 0), (2, 0), (0, -1)] {
                let values = (year, mark, balance);
                for event in [hour, Event::MonthEnd, Event::YearEnd] {
                    compare_ordered_event(case, event, values, number);
                }
                compare_ordered_step(case, values, number);
                compare_ordered_closing(case, values, number);
            }
        }
    });
}

#[test]
fn numbers_of_words() {
    let kind = Kind {
        test: "lent_words::numbers_of_words",
        base: Some(7_378_697_629_483_820_646),
        cases: 30_000,
        refusals: &[
            ("calendar", &[4, 15]),
            ("days", &[4, 15]),
            ("read", &[4, 15]),
            ("write", &[4, 15]),
            ("next", &[4, 15]),
            ("targets", &[4, 15]),
            ("rows", &[4, 15]),
            ("hour", &[4, 15]),
            ("month end", &[4, 15]),
            ("year end", &[4, 15]),
            ("step", &[4, 15]),
            ("closing", &[4]),
            (PARTS[0], &[4]),
            (PARTS[1], &[4, 15]),
            (PARTS[2], &[4, 15]),
            (PARTS[3], &[4, 15]),
        ],
    };
    kind.run(|case| {
        compare_without_book(case);
        compare_run_calls(case);
        let market = any_market(&mut case.draws, 2_025);
        let collected = case.draws.one_of(&[0, 1_000, -1, -4_000_000_001]);
        let hour = Event::Hour(market.hour(collected));
        for event in [hour, Event::MonthEnd, Event::YearEnd] {
            compare_event_report(case, event);
            compare_event_book(case, event);
        }
    });
}
