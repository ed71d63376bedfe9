//! "15 when the year is outside 2025 to 2099, before any other check": each refusal
//! that a call gives in 2025, and 15 in its place with every year outside. Those of
//! hours, steps, target calls and row calls that depend on what is lent stand in
//! `faulty_records`, those of numbers of words in `lent_words`.

use reference::book::Book;
use reference::rights::LONGEST;
use reference::words::{self, Event, BALANCES, COUNTS, SETTLED, SHORTFALLS, STEPPED, STEP_ROOM};

use crate::calendar::{compare_calendar, compare_class, compare_days, lend_table};
use crate::compare::{Case, Kind};
use crate::drawn::{block, lend_book, old_line, old_lines, old_text, old_words, OUTSIDE};
use crate::lent::{Lent, Row};
use crate::read::{compare_read, Place};
use crate::reader::compare_step;
use crate::single_events::compare_event;
use crate::steps::{compare_block, Block, Step};
use crate::write::{compare_write, Writing};

/// Asks in 2025, which gives this, and with each year outside.
fn check(in_2025: u64, outside: u64, mut ask: impl FnMut(u64) -> u64) {
    assert_eq!(ask(2_025), in_2025);
    for year in OUTSIDE {
        assert_eq!(ask(year), outside, "{year}, in place of {in_2025}");
    }
}

fn report(case: &mut Case, words: usize) -> Lent {
    Lent {
        report: old_words(&mut case.draws, words),
        ..Lent::default()
    }
}

#[test]
fn calendar_calls() {
    let kind = Kind {
        test: "operating_years::outside::calendar_calls",
        base: None,
        cases: 1,
        refusals: &[
            ("calendar", &[0, 3, 15]),
            ("class", &[0, 1, 255]),
            ("days", &[0, 4, 15]),
        ],
    };
    kind.run(|case| {
        for (refusal, hour) in [(0, 0), (0, 8_759), (3, 8_760), (3, u64::MAX)] {
            let lent = report(case, words::HOUR);
            check(refusal, 15, |year| {
                compare_calendar(case, year, hour, &lent).refusal
            });
        }
        for (class, hour) in [(0, 0), (1, 30), (255, 8_760), (255, u64::MAX)] {
            check(class, 255, |year| compare_class(case, year, hour));
        }
        for (refusal, bytes) in [(0, 365), (0, 366), (4, 364), (4, 0)] {
            let lent = lend_table(case, bytes, words::TABLE);
            check(refusal, 15, |year| compare_days(case, year, &lent).refusal);
        }
    });
}

/// A good right and a bad one.
const RECORDS: [u8; 32] = [
    5, 0, 0, 0, 1, 0, 0, 2, 10, 0, 0, 0, 1, 0, 109, 1, // for all days
    5, 0, 0, 0, 1, 0, 0, 2, 10, 0, 0, 0, 0, 0, 109, 1, // from day 0 on
];

fn place(year: u64, bytes: usize, record: u64) -> Place {
    let rights = Row::lent(&RECORDS, bytes, || 0);
    Place {
        year,
        rights,
        record,
    }
}

/// "a reader then gives only 15", and the number stays.
#[test]
fn reads_and_steps_of_a_reader() {
    let kind = Kind {
        test: "operating_years::outside::reads_and_steps_of_a_reader",
        base: None,
        cases: 1,
        refusals: &[("read", &[0, 4, 7, 15]), ("next", &[0, 4, 7, 15])],
    };
    // The bytes and the record number; what a read gives, and a step.
    let places = [
        ((32, 0), 0, 0),
        ((32, 1), 7, 7),
        ((32, 2), 4, 0),
        ((32, u64::MAX), 4, 0),
        ((0, 0), 4, 0),
        ((31, 0), 4, 4),
        ((LONGEST + 16, 0), 4, 4),
    ];
    kind.run(|case| {
        for ((bytes, record), read, step) in places {
            let lent = report(case, words::RIGHT);
            check(read, 15, |year| {
                compare_read(case, &place(year, bytes, record), &lent).refusal
            });
            let lent = report(case, words::STEP);
            check(step, 15, |year| {
                let given = compare_step(case, &place(year, bytes, record), &lent);
                let report = given.lent.report.slice();
                if given.refusal == 15 {
                    assert_eq!(report, [0, 0, 0, 0, 0, 0, 0, 0, record, 0]);
                }
                given.refusal
            });
        }
    });
}

/// The first words are a good right, but for this owner.
fn right(owner: u64, count: usize) -> Row<u64> {
    Row::lent(&[owner, 0, 1, 0, 2, 10, 1, 365], count, || 0)
}

/// Of a right of eight words and of another number, of a good one and of a bad one.
#[test]
fn writes() {
    let kind = Kind {
        test: "operating_years::outside::writes",
        base: None,
        cases: 1,
        refusals: &[("write", &[0, 4, 7, 15])],
    };
    // The bytes and the record number; what a good right gives, and a bad one.
    let places = [
        ((32, 0), 0, 7),
        ((32, 1), 0, 7),
        ((32, 2), 4, 4),
        ((32, 1 << 60), 4, 4),
        ((32, u64::MAX), 4, 4),
        ((0, 0), 4, 4),
        ((31, 0), 4, 4),
        ((LONGEST, 4_095), 0, 7),
        ((LONGEST, 4_096), 4, 4),
        ((LONGEST + 16, 0), 4, 4),
    ];
    kind.run(|case| {
        for ((bytes, record), good, bad) in places {
            for (owner, refusal) in [(63, good), (64, bad), (65_536 + 7, bad)] {
                for (words, refusal) in [(8, refusal), (0, 4), (7, 4), (9, 4)] {
                    check(refusal, 15, |year| {
                        let place = place(year, bytes, record);
                        let right = right(owner, words);
                        compare_write(case, &Writing { place, right }).refusal
                    });
                }
            }
        }
    });
}

/// The hours settled, the months closed and the mark of a book, the year balance and
/// the number of lines.
type Words = ([u64; 3], i64, usize);

/// What a month end gives, and a year end.
const ENDS: [(Words, u64, u64); 11] = [
    (([720, 0, 0], 5, 64), 0, 3),
    (([720, 0, 0], 5, 63), 4, 3),
    (([719, 0, 0], 5, 64), 3, 3),
    (([720, 0, 0], -1, 64), 0, 3),
    (([720, 0, 0], 720 * -4_000_000_000 - 1, 64), 1, 1),
    (([720, 0, 2], 5, 64), 1, 1),
    (([721, 0, 0], 5, 64), 1, 1),
    (([8_760, 12, 0], 5, 64), 3, 0),
    (([8_760, 12, 0], 5, 63), 3, 4),
    (([8_760, 12, 1], 5, 65), 2, 2),
    (([8_760, 12, u64::MAX], i64::MIN, 0), 1, 1),
];

/// Such a book of a year, and its lines.
fn lend(case: &mut Case, year: u64, words: Words) -> Lent {
    let ([hours, months, mark], balance, lines) = words;
    let draws = &mut case.draws;
    let mut lent = lend_book(draws, &Book::fresh(year), [COUNTS, SHORTFALLS, BALANCES]);
    lent.counts.cells[..3].copy_from_slice(&[hours, months, mark]);
    lent.balances.cells[1] = balance;
    lent.lines = old_lines(draws, lines);
    lent.settled = Row::lent(&[], SETTLED, || old_line(draws));
    lent
}

#[test]
fn month_ends_and_year_ends() {
    let kind = Kind {
        test: "operating_years::outside::month_ends_and_year_ends",
        base: None,
        cases: 1,
        refusals: &[
            ("month end", &[0, 1, 2, 3, 4, 15]),
            ("year end", &[0, 1, 2, 3, 4, 15]),
        ],
    };
    kind.run(|case| {
        for (words, month_end, year_end) in ENDS {
            let mut refusal = |year, event| {
                let lent = lend(case, year, words);
                compare_event(case, event, &lent).refusal
            };
            check(month_end, 15, |year| refusal(year, Event::MonthEnd));
            check(year_end, 15, |year| refusal(year, Event::YearEnd));
        }
    });
}

/// A step's mark, which comes before the room, and the room, which comes before the
/// hour and its balances: with a year outside 15 comes before all of them, with the
/// end that was given and else zeros.
#[test]
fn steps_before_the_hour() {
    let kind = Kind {
        test: "operating_years::outside::steps_before_the_hour",
        base: None,
        cases: 1,
        refusals: &[("step", &[0, 1, 15])],
    };
    let good = ([9, 0, 0], 0, 64);
    let cases = [
        (good, STEP_ROOM, 0),
        (good, STEP_ROOM - 1, 0),
        (([9, 0, 2], 0, 64), STEP_ROOM, 1),
        (([9, 0, 2], 0, 64), 0, 1),
        (([9, 0, 0], -1, 64), STEP_ROOM, 0),
        (([9, 0, 0], 9 * -4_000_000_000 - 1, 64), STEP_ROOM, 1),
        (([9, 0, 0], 9 * -4_000_000_000 - 1, 64), STEP_ROOM - 1, 0),
        (([721, 0, 0], 0, 64), STEP_ROOM, 1),
    ];
    kind.run(|case| {
        for (words, room, refusal) in cases {
            check(refusal, 15, |year| {
                let mut lent = lend(case, year, words);
                lent.report = old_words(&mut case.draws, STEPPED);
                lent.text = old_text(&mut case.draws, 7 + room);
                let bytes = block(1_000, &[0, 10]);
                let block = Block {
                    rights: Row::lent(&RECORDS, 16, || 0),
                    bytes: Row::lent(&bytes, bytes.len(), || 0),
                };
                let given = compare_block(case, &Step { block, end: 7 }, &lent);
                if given.refusal == 15 {
                    assert_eq!(given.lent.report.slice(), [0, 7, 0, 0, 0]);
                }
                given.refusal
            });
        }
    });
}
