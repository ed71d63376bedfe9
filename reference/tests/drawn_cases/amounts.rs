//! Amounts collected over their whole range: "Collected may run from -4,000,000,000 up
//! to the old top, and 6 moves with it." Expected is besides what the paper says of F,
//! of the lines and of the balances.

use reference::book::{Book, HourInput};
use reference::rights::{encode, Right};
use reference::words::{Event, BALANCES, COUNTS, SETTLED, SHORTFALLS, STEPPED, STEP_ROOM};

use crate::compare::{Case, Kind};
use crate::drawn::{block, draw_good_year, lend_book, old_line, old_lines, old_text, old_words};
use crate::lent::{Given, Lent, Row};
use crate::single_events::compare_event;
use crate::steps::{compare_block, Block, Step};

const LEAST: i64 = -4_000_000_000;
const TOP: i64 = 4_000_000_000_000;

/// Owner 5 wants 7 cents and owner 6 is charged 3.
const PRICES: [i32; 3] = [0, 7, -3];

fn rights() -> Vec<u8> {
    let right = |owner, sink| Right {
        owner,
        source: 0,
        sink,
        kind: 0,
        class: 2,
        size: 10,
        first: 1,
        last: 365,
    };
    [encode(&right(5, 1)), encode(&right(6, 2))].concat()
}

/// A book with both balances, of either sign.
fn lend(case: &mut Case) -> Lent {
    let draws = &mut case.draws;
    let balances = [(); 2].map(|()| draws.below(2_000_001) as i64 - 1_000_000);
    let book = Book {
        hours: 1 + draws.below(600),
        month_balance: balances[0],
        year_balance: balances[1],
        ..Book::fresh(draw_good_year(draws))
    };
    let mut lent = lend_book(draws, &book, [COUNTS, SHORTFALLS, BALANCES]);
    lent.lines = old_lines(draws, 64);
    lent.settled = Row::lent(&[], SETTLED, || old_line(draws));
    lent.report = old_words(draws, STEPPED);
    lent.text = old_text(draws, STEP_ROOM);
    lent
}

/// An hour and a step that collect this, on the same book.
fn compare_amount(case: &mut Case, collected: i64, lent: &Lent) -> [Given; 2] {
    let rights = rights();
    let hour = Event::Hour(HourInput {
        rights: &rights,
        prices: &PRICES,
        collected,
    });
    let bytes = block(collected, &PRICES);
    let block = Block {
        rights: Row::lent(&rights, rights.len(), || 0),
        bytes: Row::lent(&bytes, bytes.len(), || 0),
    };
    let hour = compare_event(case, hour, lent);
    [hour, compare_block(case, &Step { block, end: 0 }, lent)]
}

/// "F is the amount collected plus all charges": if it is negative owner 5 is paid
/// nothing and it goes to the month balance, else at most 7, and the rest goes there.
fn check_accepted(collected: i64, before: &Lent, [hour, step]: &[Given; 2]) {
    let fund = collected + 3;
    let paid = fund.clamp(0, 7);
    let mut lines = [0; 64];
    (lines[5], lines[6]) = (paid, -3);
    assert_eq!(hour.lent.lines.slice(), lines);
    assert_eq!(hour.lent.settled.slice(), [0, fund, 7]);
    let [month, year] = [0, 1].map(|at| before.balances.cells[at]);
    for given in [hour, step] {
        assert_eq!(given.lent.balances.slice(), [month + fund - paid, year]);
        assert_eq!(given.lent.shortfalls.cells[10], 7 - paid as u64);
    }
}

fn check_amount(case: &mut Case, collected: i64, refusal: u64) {
    let lent = lend(case);
    let given = compare_amount(case, collected, &lent);
    assert_eq!(
        [&given[0], &given[1]].map(|given| given.refusal),
        [refusal; 2]
    );
    match refusal {
        0 => check_accepted(collected, &lent, &given),
        _ => assert_eq!(given[1].lent.report.cells[2], 72, "the hour is refused"),
    }
}

/// The range, its ends and one past them, and F around 0 and around what is wanted.
#[test]
fn at_the_ends_of_their_range() {
    let kind = Kind {
        test: "amounts::at_the_ends_of_their_range",
        base: None,
        cases: 1,
        refusals: &[("hour", &[0, 6]), ("step", &[0, 6])],
    };
    kind.run(|case| {
        for collected in [LEAST, LEAST + 1, TOP - 1, TOP].into_iter().chain(-12..12) {
            check_amount(case, collected, 0);
        }
        for collected in [LEAST - 1, TOP + 1, i64::MIN, i64::MIN + 1, i64::MAX] {
            check_amount(case, collected, 6);
        }
    });
}

/// Also at numbers whose low 32 bits are those of an amount in the range.
#[test]
fn over_their_range() {
    let kind = Kind {
        test: "amounts::over_their_range",
        base: Some(1_618_033_988_749_894_848),
        cases: 20_000,
        refusals: &[("hour", &[0, 6]), ("step", &[0, 6])],
    };
    kind.run(|case| {
        let draws = &mut case.draws;
        let above = draws.below(TOP as u64 + 1) as i64;
        let below = -(draws.below(4_000_000_001) as i64);
        let far = draws.any() as i64 >> draws.below(64);
        let wrapped = below + (draws.one_of(&[-1, 1]) << (32 + draws.below(31)));
        let collected = draws.one_of(&[above, below, below, far, wrapped]);
        let within = (LEAST..=TOP).contains(&collected);
        check_amount(case, collected, if within { 0 } else { 6 });
    });
}
