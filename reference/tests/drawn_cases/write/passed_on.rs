//! "Rights pass from owner to owner during the year, and the file has to follow": an
//! hour settled over a drawn file, a right read, its owner changed and written back,
//! and the next hour settled over the file.

use reference::book::Book;
use reference::draws::Draws;
use reference::rights::{decode, encode, Right, RECORD};
use reference::words::{Event, BALANCES, COUNTS, OUTCOME, RIGHT, SETTLED, SHORTFALLS};

use super::{compare_write, Writing};
use crate::compare::{Case, Kind};
use crate::drawn::{days_of, draw_good_year, lend_book, old_line, old_lines, old_words, Market};
use crate::lent::{Given, Lent, Row};
use crate::read::{compare_read, Place};
use crate::rows::compare_rows;
use crate::single_events::{compare_event, compare_event_over};
use crate::targets::{compare_targets, lend_lines, Asked};

const NODES: u64 = 4;

/// From the first day, mostly past June.
fn draw_right(draws: &mut Draws, owners: u64, days: u64) -> Right {
    let source = draws.below(NODES);
    Right {
        owner: draws.below(owners),
        source,
        sink: (source + 1 + draws.below(NODES - 1)) % NODES,
        kind: draws.below(2),
        class: draws.below(4).min(2),
        size: 1 + draws.below(1_000),
        first: 1,
        last: 1 + draws.below(days),
    }
}

/// Few records or some hundred, in an hour of June that is not its last. One right at
/// least has a row that is not 0: its price at the sink is above that at the source.
fn draw_asked(draws: &mut Draws, owners: u64) -> Asked {
    let year = draw_good_year(draws);
    let days = days_of(year);
    let records = draws.one_of(&[1, 2, 10, 100, 300]);
    let mut right = || draw_right(draws, owners, days);
    let mut rights: Vec<Right> = (0..1 + records).map(|_| right()).collect();
    let mut prices = [(); NODES as usize].map(|()| draws.below(4_001) as i32 - 2_000);
    prices[1] = prices[0] + 1 + draws.below(2_000) as i32;
    let at = draws.below(1 + records) as usize;
    rights[at] = Right {
        source: 0,
        sink: 1,
        class: 2,
        size: 10 + draws.below(1_000),
        last: days,
        ..rights[at]
    };
    Asked::over_in(year, &rights, &prices, draws.below(719))
}

/// An hour's rows and targets, as both sides give them.
struct Cents {
    rows: Vec<i64>,
    targets: Vec<i64>,
}

fn cents_of(case: &mut Case, asked: &Asked) -> Cents {
    let lent = lend_lines(&mut case.draws, asked.records(), OUTCOME);
    let rows = compare_rows(case, asked, &lent);
    let lent = lend_lines(&mut case.draws, 64, OUTCOME);
    let targets = compare_targets(case, asked, &lent);
    assert_eq!((rows.refusal, targets.refusal), (0, 0));
    Cents {
        rows: rows.lent.lines.slice().to_vec(),
        targets: targets.lent.lines.slice().to_vec(),
    }
}

/// What is collected so that F is at least D, or below it where something is wanted.
fn draw_collected(draws: &mut Draws, targets: &[i64]) -> i64 {
    let wants: i64 = targets.iter().map(|target| (*target).max(0)).sum();
    let charges: i64 = targets.iter().map(|target| (-*target).max(0)).sum();
    let enough = wants + draws.below(1_000) as i64;
    let short = draws.below(wants.max(1) as u64) as i64;
    draws.one_of(&[enough, short]) - charges
}

/// A right that passes to another owner, and its row in the next hour.
struct Transfer {
    record: usize,
    from: u64,
    to: u64,
    cents: i64,
}

/// Of any right, or of one whose row is not 0.
fn draw_transfer(draws: &mut Draws, asked: &Asked, rows: &[i64], owners: u64) -> Transfer {
    let counts = draws.once_in(2);
    let records = (0..rows.len()).filter(|record| !counts || rows[*record] != 0);
    let record = draws.one_of(&records.collect::<Vec<usize>>());
    let from = decode(&asked.market.rights.slice()[record * RECORD..]).owner;
    Transfer {
        record,
        from,
        to: (from + 1 + draws.below(owners - 1)) % owners,
        cents: rows[record],
    }
}

/// As a host does it: reads the right, changes the owner's word and writes it back.
/// Gives the file that the library wrote.
fn pass_on(case: &mut Case, asked: &Asked, transfer: &Transfer) -> Row<u8> {
    let place = Place {
        year: asked.year,
        rights: asked.market.rights.clone(),
        record: transfer.record as u64,
    };
    let lent = Lent {
        report: old_words(&mut case.draws, RIGHT),
        ..Lent::default()
    };
    let mut right = compare_read(case, &place, &lent).lent.report;
    assert_eq!(right.cells[0], transfer.from);
    right.cells[0] = transfer.to;
    let given = compare_write(case, &Writing { place, right });
    assert_eq!(given.refusal, 0);
    given.lent.rights
}

/// The file as the second calculation has it after the transfer.
fn encoded(rights: &Row<u8>, transfer: &Transfer) -> Row<u8> {
    let mut rights = rights.clone();
    let record = &mut rights.slice_mut()[transfer.record * RECORD..][..RECORD];
    let right = decode(record);
    let owner = transfer.to;
    record.copy_from_slice(&encode(&Right { owner, ..right }));
    rights
}

/// The same hour over another file.
fn over(asked: &Asked, rights: Row<u8>) -> Asked {
    let prices = asked.market.prices.clone();
    Asked {
        market: Market { rights, prices },
        ..*asked
    }
}

/// The old owner's target goes down by the right's cents and the new owner's up by
/// them, and no row moves.
fn check_cents(before: &Cents, after: &Cents, transfer: &Transfer) {
    let mut targets = before.targets.clone();
    targets[transfer.from as usize] -= transfer.cents;
    targets[transfer.to as usize] += transfer.cents;
    assert_eq!((&after.targets, &after.rows), (&targets, &before.rows));
}

/// A book that is fresh but for its hours.
fn lend_fresh(draws: &mut Draws, asked: &Asked) -> Lent {
    let book = Book {
        hours: asked.hour,
        ..Book::fresh(asked.year)
    };
    let lent = lend_book(draws, &book, [COUNTS, SHORTFALLS, BALANCES]);
    lend_event(draws, lent)
}

/// With lines and a report for an event.
fn lend_event(draws: &mut Draws, lent: Lent) -> Lent {
    Lent {
        lines: old_lines(draws, 64),
        settled: Row::lent(&[], SETTLED, || old_line(draws)),
        ..lent
    }
}

/// The hour before the transfer, on a fresh book.
fn settle_first(case: &mut Case, asked: &Asked) -> Given {
    let targets = cents_of(case, asked).targets;
    let lent = lend_fresh(&mut case.draws, asked);
    let collected = draw_collected(&mut case.draws, &targets);
    let given = compare_event(case, Event::Hour(asked.market.hour(collected)), &lent);
    assert_eq!(given.refusal, 0);
    given
}

/// The second calculation's lines of an hour.
fn lines_of(hour: Event, lent: &Lent) -> Row<i64> {
    let after = lent.after(|lent| {
        let (mut book, lines, report) = lent.event_cells();
        book.settle(hour, lines, report)
    });
    after.lent.lines
}

/// The next hour: the library's over the file that it wrote, the second calculation's
/// over the one whose record it encodes itself. Notes whether the lines are others than
/// over the file before; where all are paid they are the targets, and are others exactly
/// if the right's row is not 0.
fn settle_next(case: &mut Case, lent: &Lent, hours: [Event; 3], transfer: &Transfer) {
    let [written, encoded, before] = hours;
    let given = compare_event_over(case, [written, encoded], lent);
    assert_eq!(given.refusal, 0);
    let changed = given.lent.lines != lines_of(before, lent);
    let (fund, wants) = (given.lent.settled.cells[1], given.lent.settled.cells[2]);
    if fund < wants {
        case.came("other lines in a short hour", u64::from(changed));
        return;
    }
    case.came("other lines in a paid hour", u64::from(changed));
    assert_eq!(changed, transfer.cents != 0);
}

fn compare_passed_on(case: &mut Case) {
    let owners = case.draws.one_of(&[2, 5, 64]);
    let mut asked = draw_asked(&mut case.draws, owners);
    let first = settle_first(case, &asked);
    asked.hour += 1;
    let before = cents_of(case, &asked);
    let transfer = draw_transfer(&mut case.draws, &asked, &before.rows, owners);
    let written = over(&asked, pass_on(case, &asked, &transfer));
    let after = cents_of(case, &written);
    check_cents(&before, &after, &transfer);
    let encoded = over(&asked, encoded(&asked.market.rights, &transfer));
    let collected = draw_collected(&mut case.draws, &after.targets);
    let files = [&written, &encoded, &asked];
    let hours = files.map(|asked| Event::Hour(asked.market.hour(collected)));
    let lent = lend_event(&mut case.draws, first.lent);
    settle_next(case, &lent, hours, &transfer);
}

#[test]
fn the_next_hour_has_the_new_owner() {
    let kind = Kind {
        test: "write::passed_on::the_next_hour_has_the_new_owner",
        base: Some(2_480_917_635_502_918_467),
        cases: 10_000,
        refusals: &[
            ("read", &[0]),
            ("write", &[0]),
            ("hour", &[0]),
            ("other lines in a paid hour", &[0, 1]),
            ("other lines in a short hour", &[0, 1]),
        ],
    };
    kind.run(compare_passed_on);
}
