//! The top hour, the top day and the month ends of years of both lengths: "month
//! ends, the top day and the top hour, in refusals 1, 3 and 7 too, come from that
//! year."

use reference::book::{Book, HourInput};
use reference::calendar::{FIRST_YEAR, LAST_YEAR};
use reference::rights::{encode, Right};
use reference::words::{self, Event, BALANCES, COUNTS, SETTLED, SHORTFALLS};
use reference::words::{OUTCOME, STEPPED, STEP_ROOM};

use crate::calendar::{compare_calendar, compare_class};
use crate::compare::{Case, Kind};
use crate::drawn::{
    block, calendar_for, lend_book, old_line, old_lines, old_text, old_words, OUTSIDE,
};
use crate::lent::{Given, Lent, Row};
use crate::read::{compare_read, Place};
use crate::reader::compare_step;
use crate::rows::compare_rows;
use crate::single_events::compare_event;
use crate::steps::{compare_block, Block, Step};
use crate::targets::{compare_targets, lend_lines, Asked};
use crate::write::{compare_write, Writing};

/// Years and their days; of one outside there are none.
const YEARS: [(u64, Option<u64>); 12] = [
    (0, None),
    (2_024, None),
    (2_025, Some(365)),
    (2_026, Some(365)),
    (2_027, Some(366)),
    (2_028, Some(365)),
    (2_075, Some(366)),
    (2_095, Some(366)),
    (2_098, Some(365)),
    (2_099, Some(365)),
    (2_100, None),
    (u64::MAX, None),
];

/// Live in all hours of days 1 to 365.
const RIGHT: Right = Right {
    owner: 5,
    source: 0,
    sink: 1,
    kind: 0,
    class: 2,
    size: 10,
    first: 1,
    last: 365,
};
/// One cent for the size above.
const PRICES: [i32; 2] = [0, 1];

fn compare_hour(case: &mut Case, year: u64, hour: u64) -> [u64; 4] {
    let lent = Lent {
        report: old_words(&mut case.draws, words::HOUR),
        ..Lent::default()
    };
    let calendar = compare_calendar(case, year, hour, &lent);
    let class = compare_class(case, year, hour);
    assert_eq!(class == 255, calendar.refusal != 0);
    let asked = Asked::over_in(year, &[RIGHT], &PRICES, hour);
    let lent = lend_lines(&mut case.draws, 64, OUTCOME);
    let targets = compare_targets(case, &asked, &lent);
    let lent = lend_lines(&mut case.draws, 1, OUTCOME);
    let rows = compare_rows(case, &asked, &lent);
    let day = calendar.lent.report.cells[0];
    [day, calendar.refusal, targets.refusal, rows.refusal]
}

/// The seed is the year's place above.
#[test]
fn hours_at_the_top() {
    let kind = Kind {
        test: "operating_years::tops::hours_at_the_top",
        base: None,
        cases: YEARS.len() as u64,
        refusals: &[
            ("calendar", &[0, 3, 15]),
            ("targets", &[0, 3, 15]),
            ("rows", &[0, 3, 15]),
        ],
    };
    kind.run(|case| {
        let (year, days) = YEARS[case.seed as usize % YEARS.len()];
        for hour in [8_759, 8_760, 8_783, 8_784, 8_785, u64::MAX] {
            let (day, refusal) = match days {
                None => (0, 15),
                Some(days) if hour >= 24 * days => (0, 3),
                Some(_) => (hour / 24 + 1, 0),
            };
            let given = compare_hour(case, year, hour);
            assert_eq!(given, [day, refusal, refusal, refusal], "{year}, {hour}");
        }
    });
}

/// A book of the year, fresh but for its hours and months.
fn book(year: u64, hours: u64, months: u64) -> Book {
    Book {
        hours,
        months,
        ..Book::fresh(year)
    }
}

fn lend(case: &mut Case, book: &Book) -> Lent {
    let draws = &mut case.draws;
    let mut lent = lend_book(draws, book, [COUNTS, SHORTFALLS, BALANCES]);
    lent.lines = old_lines(draws, 64);
    lent.settled = Row::lent(&[], SETTLED, || old_line(draws));
    lent
}

/// An hour over a right.
fn compare_next_hour(case: &mut Case, book: &Book, right: &Right) -> Given {
    let lent = lend(case, book);
    let event = Event::Hour(HourInput {
        rights: &encode(right),
        prices: &PRICES,
        collected: 1,
    });
    compare_event(case, event, &lent)
}

/// The refusals of a read, a reader's step, a write, a target call, a row call, an hour
/// and a step over one right.
fn compare_right(case: &mut Case, year: u64, right: &Right) -> [u64; 7] {
    let rights = Row::lent(&encode(right), 16, || 0);
    let report = |case: &mut Case, words| Lent {
        report: old_words(&mut case.draws, words),
        ..Lent::default()
    };
    let place = Place {
        year,
        rights: rights.clone(),
        record: 0,
    };
    let lent = report(case, words::RIGHT);
    let read = compare_read(case, &place, &lent);
    let lent = report(case, words::STEP);
    let next = compare_step(case, &place, &lent);
    let words = Row::lent(&words::right_words(right), words::RIGHT, || 0);
    let write = compare_write(
        case,
        &Writing {
            place,
            right: words,
        },
    );
    let asked = Asked::over_in(year, &[*right], &PRICES, 30);
    let lent = lend_lines(&mut case.draws, 64, OUTCOME);
    let targets = compare_targets(case, &asked, &lent);
    let lent = lend_lines(&mut case.draws, 1, OUTCOME);
    let rows = compare_rows(case, &asked, &lent);
    let hour = compare_next_hour(case, &book(year, 0, 0), right);
    let mut lent = lend(case, &book(year, 0, 0));
    lent.report = old_words(&mut case.draws, STEPPED);
    lent.text = old_text(&mut case.draws, STEP_ROOM);
    let bytes = block(1, &PRICES);
    let bytes = Row::lent(&bytes, bytes.len(), || 0);
    let block = Block { rights, bytes };
    let step = compare_block(case, &Step { block, end: 0 }, &lent);
    [read, next, write, targets, rows, hour, step].map(|given| given.refusal)
}

/// Those of 365, 366 and 367; the seed is the year's place above.
#[test]
fn last_days() {
    let kind = Kind {
        test: "operating_years::tops::last_days",
        base: None,
        cases: YEARS.len() as u64,
        refusals: &[
            ("read", &[0, 7, 15]),
            ("next", &[0, 7, 15]),
            ("write", &[0, 7, 15]),
            ("targets", &[0, 7, 15]),
            ("rows", &[0, 7, 15]),
            ("hour", &[0, 7, 15]),
            ("step", &[0, 7, 15]),
        ],
    };
    kind.run(|case| {
        let (year, days) = YEARS[case.seed as usize % YEARS.len()];
        for last in [365, 366, 367] {
            for first in [1, 364, last] {
                let right = Right {
                    first,
                    last,
                    ..RIGHT
                };
                let refusal = match days {
                    None => 15,
                    Some(days) if last > days => 7,
                    Some(_) => 0,
                };
                let given = compare_right(case, year, &right);
                assert_eq!(given, [refusal; 7], "{year}, {first} to {last}");
            }
        }
    });
}

/// On day 366 a right to day 365 is over and one to day 366 is live, as a row and in
/// the last hour of a book.
#[test]
fn the_366th_day() {
    let kind = Kind {
        test: "operating_years::tops::the_366th_day",
        base: None,
        cases: 1,
        refusals: &[("rows", &[0]), ("hour", &[0])],
    };
    kind.run(|case| {
        let days = [
            (365, 8_759, 1),
            (365, 8_760, 0),
            (366, 8_760, 1),
            (366, 8_783, 1),
        ];
        for year in [2_027, 2_063, 2_095] {
            for (last, hour, cents) in days {
                let right = Right { last, ..RIGHT };
                let asked = Asked::over_in(year, &[right], &PRICES, hour);
                let lent = lend_lines(&mut case.draws, 1, OUTCOME);
                let rows = compare_rows(case, &asked, &lent);
                assert_eq!(rows.lent.lines.slice(), [cents]);
                let given = compare_next_hour(case, &book(year, hour, 11), &right);
                assert_eq!(given.lent.lines.cells[5], cents);
            }
        }
    });
}

/// Hours at the ends of the month before and of the month, beside them, a day after
/// them, and at the ends of years of both lengths.
fn hours_near(year: u64, months: u64) -> Vec<u64> {
    let ends = calendar_for(year).month_ends;
    let end = |month: u64| ends.get(month as usize).copied().unwrap_or(0);
    let mut hours = vec![0, 1, 8_736, 8_759, 8_760, 8_761, 8_783, 8_784, 8_785];
    for end in [end(months.wrapping_sub(1)), end(months)] {
        hours.extend([
            end.wrapping_sub(1),
            end,
            end + 1,
            end + 24,
            end.wrapping_sub(24),
        ]);
    }
    hours
}

/// All three events on a book, ended or not, with so many hours and months.
fn compare_events(case: &mut Case, book: &Book) {
    for ended in [false, true] {
        let book = Book { ended, ..*book };
        compare_next_hour(case, &book, &RIGHT);
        for event in [Event::MonthEnd, Event::YearEnd] {
            let lent = lend(case, &book);
            compare_event(case, event, &lent);
        }
    }
}

/// All years, and those outside; the seed is the year's number, 0 for 2025.
#[test]
fn books_at_the_month_ends_of_every_year() {
    let good = LAST_YEAR - FIRST_YEAR + 1;
    let kind = Kind {
        test: "operating_years::tops::books_at_the_month_ends_of_every_year",
        base: None,
        cases: good + OUTSIDE.len() as u64,
        refusals: &[
            ("hour", &[0, 1, 2, 3, 15]),
            ("month end", &[0, 1, 2, 3, 15]),
            ("year end", &[0, 1, 2, 3, 15]),
        ],
    };
    kind.run(|case| {
        let outside = || OUTSIDE[(case.seed - good) as usize % OUTSIDE.len()];
        let year = match case.seed {
            number if number < good => FIRST_YEAR + number,
            _ => outside(),
        };
        for months in 0..=13 {
            for hours in hours_near(year, months) {
                compare_events(case, &book(year, hours, months));
            }
        }
    });
}
