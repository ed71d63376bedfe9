//! The row call: "members see each right on its own row and want the rows to add
//! up. Each live right's size times spread is rounded to a cent, halves away from
//! zero, and an owner's target is the sum of these cents."

use std::cmp::Ordering;

use reference::book::Book;
use reference::draws::Draws;
use reference::rights::{records, Right};
use reference::target::round;
use reference::words::{self, Event, BALANCES, COUNTS, OUTCOME, SETTLED, SHORTFALLS};

use crate::compare::{Case, Input, Kind};
use crate::drawn::{draw_good_year, lend_book, number_of, old_line, old_lines};
use crate::lent::{Given, Lent, Row};
use crate::library;
use crate::single_events::compare_event;
use crate::targets::{compare_targets, draw_asked, lend_lines, Asked, Call};

pub fn compare_rows(case: &mut Case, asked: &Asked, lent: &Lent) -> Given {
    case.compare(
        "rows",
        asked,
        lent,
        |lent| asked.ask(library::rows, lent),
        |lent| asked.ask(words::rows, lent),
    )
}

/// Mostly a line for each record.
fn draw_line_count(draws: &mut Draws, records: usize) -> usize {
    let other = draws.one_of(&[records + 1, records.saturating_sub(1), 0, 64]);
    if draws.once_in(20) {
        other
    } else {
        records
    }
}

fn compare_drawn(case: &mut Case) {
    let draws = &mut case.draws;
    let asked = draw_asked(draws);
    let line_count = draw_line_count(draws, asked.records());
    let report_words = number_of(draws, OUTCOME, 64);
    let lent = lend_lines(draws, line_count, report_words);
    let given = compare_rows(case, &asked, &lent);
    if given.refusal == 0 {
        case.came("records of an accepted file", asked.records() as u64);
    }
}

#[test]
fn any_market() {
    let kind = Kind {
        test: "rows::any_market",
        base: Some(4_658_895_280_553_007_687),
        cases: 80_000,
        refusals: &[
            ("rows", &[0, 3, 4, 5, 7, 8, 15]),
            ("records of an accepted file", &[0, 1, 4_095, 4_096]),
        ],
    };
    kind.run(compare_drawn);
}

/// Numbers of records; the last is that of a full file.
const RECORDS: [usize; 7] = [0, 1, 2, 64, 65, 4_095, 4_096];

/// A right of the largest size from node 0 to node 1, live in all hours.
const LARGE: Right = Right {
    owner: 0,
    source: 0,
    sink: 1,
    kind: 0,
    class: 2,
    size: 100_000,
    first: 1,
    last: 365,
};

/// So many large rights, which the owners hold in turn.
fn asked_large(records: usize, kind: u64, prices: [i32; 2]) -> Asked {
    let right = |record: usize| Right {
        owner: record as u64 % 64,
        kind,
        ..LARGE
    };
    let rights: Vec<Right> = (0..records).map(right).collect();
    Asked::over(&rights, &prices, 8_759)
}

/// 4 where the lines are not one for each record. The seed is the file's number.
#[test]
fn a_line_for_each_record() {
    let kind = Kind {
        test: "rows::a_line_for_each_record",
        base: None,
        cases: RECORDS.len() as u64,
        refusals: &[("rows", &[0, 4])],
    };
    kind.run(|case| {
        let records = RECORDS[case.seed as usize % RECORDS.len()];
        let asked = asked_large(records, 0, [0, 1]);
        for lines in [0, 1, 2, 3, 63, 64, 65, 66, 4_094, 4_095, 4_096, 4_097] {
            let lent = lend_lines(&mut case.draws, lines, OUTCOME);
            let given = compare_rows(case, &asked, &lent);
            let refusal = if lines == records { 0 } else { 4 };
            assert_eq!(given.refusal, refusal, "{lines} lines, {records} records");
        }
    });
}

/// The kind of a right and the prices at its nodes, both at their limits, and the
/// cents that 10,000 MW then come to.
const LIMITS: [(u64, [i32; 2], i64); 4] = [
    (0, [-500_000, 500_000], 10_000_000_000),
    (0, [500_000, -500_000], -10_000_000_000),
    (1, [-500_000, 500_000], 10_000_000_000),
    (1, [500_000, -500_000], 0),
];

/// The seed is the file's number.
#[test]
fn rows_and_targets_at_the_limits() {
    let kind = Kind {
        test: "rows::rows_and_targets_at_the_limits",
        base: None,
        cases: RECORDS.len() as u64,
        refusals: &[("rows", &[0]), ("targets", &[0])],
    };
    kind.run(|case| {
        let records = RECORDS[case.seed as usize % RECORDS.len()];
        for (kind, prices, cents) in LIMITS {
            let asked = asked_large(records, kind, prices);
            let lent = lend_lines(&mut case.draws, records, OUTCOME);
            let rows = compare_rows(case, &asked, &lent);
            assert_eq!(rows.lent.lines.slice(), vec![cents; records]);
            let lent = lend_lines(&mut case.draws, 64, OUTCOME);
            let targets = compare_targets(case, &asked, &lent);
            // Owner i has the records i, i + 64, i + 128 and so on.
            let held = |owner| (owner..records).step_by(64).count() as i64;
            let expected: [i64; 64] = std::array::from_fn(|owner| held(owner) * cents);
            assert_eq!(targets.lent.lines.slice(), expected);
        }
    });
}

/// What the library gives with so many lines.
fn library_given(draws: &mut Draws, asked: &Asked, call: Call, lines: usize) -> Given {
    let lent = lend_lines(draws, lines, OUTCOME);
    lent.after(|lent| asked.ask(call, lent))
}

/// The refusal and the record number.
fn outcome(given: &Given) -> (u64, u64) {
    (given.refusal, given.lent.report.cells[0])
}

/// The rows of each owner, as the file's bytes name it.
fn rows_by_owner(asked: &Asked, rows: &[i64]) -> [Vec<i64>; 64] {
    let mut held = [const { Vec::new() }; 64];
    for (right, row) in records(asked.market.rights.slice()).iter().zip(rows) {
        held[right.owner as usize].push(*row);
    }
    held
}

/// Of the library's own results: both calls are refused alike, and an owner's
/// target is the sum of its rows.
fn check_sums(case: &mut Case) {
    let draws = &mut case.draws;
    let asked = draw_asked(draws);
    let rows = library_given(draws, &asked, library::rows, asked.records());
    let targets = library_given(draws, &asked, library::targets, 64);
    assert_eq!(outcome(&rows), outcome(&targets), "{}", asked.text());
    case.came("rows and targets", rows.refusal);
    if rows.refusal != 0 {
        return;
    }
    let held = rows_by_owner(&asked, rows.lent.lines.slice());
    let sums = held.each_ref().map(|rows| rows.iter().sum::<i64>());
    assert_eq!(targets.lent.lines.slice(), sums, "{}", asked.text());
    let several = |rows: &Vec<i64>| rows.iter().filter(|row| **row != 0).count() > 1;
    let any_several = u64::from(held.iter().any(several));
    case.came("an owner with several rows that are not 0", any_several);
}

#[test]
fn the_rows_add_up() {
    let kind = Kind {
        test: "rows::the_rows_add_up",
        base: Some(5_573_589_319_906_701_683),
        cases: 40_000,
        refusals: &[
            ("rows and targets", &[0, 3, 4, 5, 7, 8, 15]),
            ("an owner with several rows that are not 0", &[0, 1]),
        ],
    };
    kind.run(check_sums);
}

/// The owner's line in an hour that collects enough for all.
fn settled_line(case: &mut Case, asked: &Asked, owner: u64) -> i64 {
    let mut book = Book::fresh(asked.year);
    book.hours = asked.hour;
    let draws = &mut case.draws;
    let mut lent = lend_book(draws, &book, [COUNTS, SHORTFALLS, BALANCES]);
    lent.lines = old_lines(draws, 64);
    lent.settled = Row::lent(&[], SETTLED, || old_line(draws));
    let event = Event::Hour(asked.market.hour(1_000_000));
    let given = compare_event(case, event, &lent);
    assert_eq!(given.refusal, 0);
    given.lent.lines.cells[owner as usize]
}

/// Rights of one owner, all live: both sides give these rows, and their sum as
/// the owner's target and as its line in an hour.
fn compare_held(case: &mut Case, rights: &[Right], prices: &[i32], rows: &[i64]) {
    let owner = rights[0].owner;
    // An hour of June, whose month end is not due.
    let year = draw_good_year(&mut case.draws);
    let asked = Asked::over_in(year, rights, prices, case.draws.below(720));
    let lent = lend_lines(&mut case.draws, rights.len(), OUTCOME);
    let given = compare_rows(case, &asked, &lent);
    assert_eq!(given.lent.lines.slice(), rows);
    let mut expected = [0; 64];
    expected[owner as usize] = rows.iter().sum();
    let lent = lend_lines(&mut case.draws, 64, OUTCOME);
    let given = compare_targets(case, &asked, &lent);
    assert_eq!(given.lent.lines.slice(), expected);
    let line = settled_line(case, &asked, owner);
    assert_eq!(line, expected[owner as usize]);
}

/// The tenths of a cent that an owner's rights come to, and their rows.
type Written = (&'static [i32], &'static [i64]);

/// First the wish's own: "two rights that come to 5 tenths of a cent each".
const WRITTEN: [Written; 9] = [
    (&[5, 5], &[1, 1]),
    (&[-5, -5], &[-1, -1]),
    (&[4, 4], &[0, 0]),
    (&[-4, -4], &[0, 0]),
    (&[5, -5], &[1, -1]),
    (&[5, -4], &[1, 0]),
    (&[6, 6], &[1, 1]),
    (&[14, 14, 14], &[1, 1, 1]),
    (&[-15, 24, -25, 26], &[-2, 2, -3, 3]),
];

/// The seed is the number of the case.
#[test]
fn as_in_the_wish() {
    let kind = Kind {
        test: "rows::as_in_the_wish",
        base: None,
        cases: WRITTEN.len() as u64,
        refusals: &[("rows", &[0]), ("targets", &[0]), ("hour", &[0])],
    };
    kind.run(|case| {
        let (tenths, rows) = WRITTEN[case.seed as usize % WRITTEN.len()];
        // Node 0 costs nothing, node n what the n-th right comes to.
        let to = |sink| Right {
            sink,
            size: 1,
            ..LARGE
        };
        let rights: Vec<Right> = (1..=tenths.len() as u64).map(to).collect();
        compare_held(case, &rights, &[&[0], tenths].concat(), rows);
    });
}

/// A right from node 0 or to it comes to its size times one of these.
const SMALL_PRICES: [i32; 7] = [0, 4, 5, 6, 14, 15, 25];

/// Comes to tenths that mostly end in 4, 5 or 6, of both signs.
fn draw_small(draws: &mut Draws, owner: u64) -> Right {
    let node = 1 + draws.below(6);
    let (source, sink) = draws.one_of(&[(0, node), (node, 0)]);
    Right {
        owner,
        source,
        sink,
        kind: draws.one_of(&[0, 0, 0, 1]),
        size: draws.one_of(&[1, 1, 1, 3, 7]),
        ..LARGE
    }
}

/// The tenths that a small right comes to.
fn small_tenths(right: &Right) -> i64 {
    let [source, sink] = [right.source, right.sink].map(|node| SMALL_PRICES[node as usize]);
    let spread = i64::from(sink - source);
    let counted = if right.kind == 1 {
        spread.max(0)
    } else {
        spread
    };
    right.size as i64 * counted
}

/// Notes whether one rounding of the sum, sign dropped, would be the same, 0,
/// less, 1, or more, 2.
fn note_one_rounding(case: &mut Case, tenths: &[i64], target: i64) {
    let once = round(tenths.iter().sum());
    let note = match once.abs().cmp(&target.abs()) {
        Ordering::Equal => 0,
        Ordering::Less => 1,
        Ordering::Greater => 2,
    };
    let call = match target {
        0 => "one rounding for 0",
        1.. => "one rounding for a credit",
        _ => "one rounding for a charge",
    };
    case.came(call, note);
}

/// The test is of no use unless one rounding would often give another target.
#[test]
fn half_cents() {
    let kind = Kind {
        test: "rows::half_cents",
        base: Some(2_862_933_555_777_941_757),
        cases: 20_000,
        refusals: &[
            ("one rounding for 0", &[0, 2]),
            ("one rounding for a credit", &[0, 1, 2]),
            ("one rounding for a charge", &[0, 1, 2]),
        ],
    };
    kind.run(|case| {
        let draws = &mut case.draws;
        let (owner, count) = (draws.below(64), 2 + draws.below(7));
        let rights: Vec<Right> = (0..count).map(|_| draw_small(draws, owner)).collect();
        let tenths: Vec<i64> = rights.iter().map(small_tenths).collect();
        let rows: Vec<i64> = tenths.iter().map(|tenths| round(*tenths)).collect();
        compare_held(case, &rights, &SMALL_PRICES, &rows);
        note_one_rounding(case, &tenths, rows.iter().sum());
    });
}
