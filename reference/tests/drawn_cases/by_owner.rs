//! The book laid out by owner, "owner i at 2 times i for the month and the next cell
//! for the year", beside the rules' book, which keeps a row for the month and one for
//! the year: after an event each cell is read at its place.

use reference::book::{Book, TOP_SHORTFALLS};
use reference::draws::Draws;
use reference::rights::{encode, Right};
use reference::target::OWNERS;
use reference::words::{run, Event, BALANCES, COUNTS, SETTLED, SHORTFALLS};

use crate::compare::{Case, Kind};
use crate::drawn::{calendar_for, draw_good_year, lend_book, old_line, old_lines, Market, OUTSIDE};
use crate::lent::{Given, Lent, Row};
use crate::single_events::compare_event;

const TOP: u64 = TOP_SHORTFALLS as u64;

/// What an event's F is beside D.
#[derive(Clone, Copy, PartialEq, Debug)]
enum Fund {
    Short,
    Enough,
    Negative,
}

impl Fund {
    /// Of at least 2 cents wanted.
    fn draw(self, draws: &mut Draws, wants: u64) -> i64 {
        match self {
            Fund::Short => 1 + draws.below(wants - 1) as i64,
            Fund::Enough => (wants + draws.below(1_000_000)) as i64,
            Fund::Negative => -1 - draws.below(1_000_000) as i64,
        }
    }

    /// As the event reports it.
    fn of(given: &Given) -> Fund {
        match *given.lent.settled.slice() {
            [_, ..0, _] => Fund::Negative,
            [_, fund, wants] if fund >= wants => Fund::Enough,
            _ => Fund::Short,
        }
    }
}

/// An hour's rights and prices, and what is wanted and charged by them.
struct Hour {
    market: Market,
    wants: u64,
    charges: u64,
}

/// Each of these owners wants at least 2 cents, and another one is charged.
fn draw_hour(draws: &mut Draws, owners: &[usize], charged: usize) -> Hour {
    let spread = 1 + draws.below(1_000);
    let (mut rights, mut wants) = (Vec::new(), 0);
    let mut hold = |owner: usize, source, sink| {
        let megawatts = 2 + draws.below(100);
        rights.extend(encode(&Right {
            owner: owner as u64,
            source,
            sink,
            kind: 0,
            class: 2,
            size: 10 * megawatts,
            first: 1,
            last: 365,
        }));
        spread * megawatts
    };
    for owner in owners.iter().filter(|owner| **owner != charged) {
        wants += hold(*owner, 0, 1);
    }
    let charges = hold(charged, 1, 0);
    let market = Market {
        rights: Row::lent(&rights, rights.len(), || 0),
        prices: Row::lent(&[0, spread as i32], 2, || 0),
    };
    Hour {
        market,
        wants,
        charges,
    }
}

impl Hour {
    /// What is collected where F is this.
    fn collected(&self, fund: i64) -> i64 {
        fund - self.charges as i64
    }
}

/// A time at which the event is due. An hour is neither the first of its month, which
/// has at least 672, nor one of its last day, which may be day 366.
fn put_time(draws: &mut Draws, book: &mut Book, event: Event) {
    let calendar = calendar_for(book.year);
    book.months = draws.below(12);
    book.hours = calendar.month_ends[book.months as usize];
    match event {
        Event::Hour(_) => book.hours -= 25 + draws.below(647),
        Event::MonthEnd => {}
        Event::YearEnd => (book.months, book.hours) = (12, calendar.hours()),
    }
}

/// The month's row and the year's.
fn rows_of(book: &mut Book) -> [&mut [u64; OWNERS]; 2] {
    [&mut book.month_shortfalls, &mut book.year_shortfalls]
}

/// A good book on which the event is due. The cells of these owners are all different
/// and none is below 2, those of the others are 0; an end has such an F.
fn draw_due(draws: &mut Draws, event: Event, owners: &[usize], fund: Fund) -> Book {
    let mut book = Book::fresh(draw_good_year(draws));
    put_time(draws, &mut book, event);
    for (at, row) in rows_of(&mut book).into_iter().enumerate() {
        for owner in owners {
            row[*owner] = 128 * draws.below(10_000) + (64 * at + owner) as u64 + 2;
        }
    }
    let [month, year] = rows_of(&mut book).map(|row| row.iter().sum());
    [book.month_balance, book.year_balance] = [(); 2].map(|()| old_line(draws));
    match event {
        Event::Hour(_) => {}
        Event::MonthEnd => book.month_balance = fund.draw(draws, month),
        Event::YearEnd => book.year_balance = fund.draw(draws, year),
    }
    book
}

fn lend(draws: &mut Draws, book: &Book, lines: usize) -> Lent {
    let mut lent = lend_book(draws, book, [COUNTS, SHORTFALLS, BALANCES]);
    lent.lines = old_lines(draws, lines);
    lent.settled = Row::lent(&[], SETTLED, || old_line(draws));
    lent
}

/// The library's cells are those of the rules' book.
fn check_cells(given: &Given, book: &Book) {
    let cells = given.lent.shortfalls.slice();
    for owner in 0..OWNERS {
        let (month, year) = (cells[2 * owner], cells[2 * owner + 1]);
        assert_eq!(month, book.month_shortfalls[owner], "owner {owner}, month");
        assert_eq!(year, book.year_shortfalls[owner], "owner {owner}, year");
    }
}

/// An event on both sides; gives what the library gave.
fn compare_cells(case: &mut Case, event: Event, book: &Book) -> Given {
    let lent = lend(&mut case.draws, book, 64);
    let given = compare_event(case, event, &lent);
    check_cells(&given, &run(event, *book, &mut [0; 64]).book);
    given
}

fn all_owners() -> Vec<usize> {
    (0..OWNERS).collect()
}

/// The three events, each on a book on which these owners are short, with such an F.
fn compare_events(case: &mut Case, owners: &[usize], charged: usize, fund: Fund) {
    let hour = draw_hour(&mut case.draws, owners, charged);
    let collected = hour.collected(fund.draw(&mut case.draws, hour.wants));
    let hour = Event::Hour(hour.market.hour(collected));
    for event in [hour, Event::MonthEnd, Event::YearEnd] {
        let book = draw_due(&mut case.draws, event, owners, fund);
        let given = compare_cells(case, event, &book);
        assert_eq!((given.refusal, Fund::of(&given)), (0, fund));
    }
}

/// The owner alone is short, and then everyone. The seed gives the owner's number.
#[test]
fn every_owner_in_every_event() {
    let kind = Kind {
        test: "by_owner::every_owner_in_every_event",
        base: None,
        cases: 20 * OWNERS as u64,
        refusals: &[("hour", &[0]), ("month end", &[0]), ("year end", &[0])],
    };
    kind.run(|case| {
        let owner = case.seed as usize % OWNERS;
        let charged = (owner + 1 + case.draws.below(63) as usize) % OWNERS;
        for fund in [Fund::Short, Fund::Enough, Fund::Negative] {
            compare_events(case, &[owner], charged, fund);
            compare_events(case, &all_owners(), charged, fund);
        }
    });
}

/// Any, all different, one of them the largest there is.
fn put_any_shortfalls(draws: &mut Draws, book: &mut Book) {
    for (at, row) in rows_of(book).into_iter().enumerate() {
        *row = std::array::from_fn(|owner| draws.any() & !127 | (64 * at + owner) as u64);
    }
    let (at, owner) = (draws.below(2) as usize, draws.below(64) as usize);
    rows_of(book)[at][owner] = u64::MAX;
}

/// A place in the two rows.
#[derive(Clone, Copy)]
struct Place {
    row: usize,
    owner: usize,
}

/// Raises a cell until all shortfalls together are this.
fn raise(book: &mut Book, place: Place, all: u64) {
    let cells = book.month_shortfalls.iter().chain(&book.year_shortfalls);
    let missing = all - cells.sum::<u64>();
    rows_of(book)[place.row][place.owner] += missing;
}

/// Makes the hour refused with this number, if that is found in its rights and prices.
fn spoil_hour(hour: &mut Hour, refusal: u64) {
    let Market { rights, prices } = &mut hour.market;
    match refusal {
        5 => prices.cells[0] = -500_001,
        7 => rights.cells[6] = 2,
        8 => prices.lent = 1,
        9 => {
            prices.cells[1] = 500_000;
            rights.cells[8..12].copy_from_slice(&100_000_u32.to_le_bytes());
        }
        _ => {}
    }
}

/// Makes the event refused with this number, if that is found in the book.
fn spoil_book(draws: &mut Draws, book: &mut Book, event: Event, refusal: u64) {
    let owner = draws.below(64) as usize;
    match (refusal, event) {
        (1, _) => put_any_shortfalls(draws, book),
        (2, _) => {
            put_time(draws, book, Event::YearEnd);
            book.ended = true;
        }
        (3, Event::Hour(_)) => put_time(draws, book, Event::MonthEnd),
        (3, _) => {
            put_time(draws, book, Event::MonthEnd);
            book.hours -= 1;
        }
        (10, _) => raise(book, Place { row: 0, owner }, TOP),
        (15, _) => {
            put_any_shortfalls(draws, book);
            book.year = draws.one_of(&OUTSIDE);
        }
        _ => {}
    }
}

/// The events that can give this number, each refused with it on a book on which
/// everyone is short: all cells stay as they were.
fn compare_refused(case: &mut Case, refusal: u64) {
    let draws = &mut case.draws;
    let charged = draws.below(64) as usize;
    let mut hour = draw_hour(draws, &all_owners(), charged);
    let good = hour.collected(Fund::Short.draw(draws, hour.wants));
    let wild = draws.one_of(&[-4_000_000_001, 4_000_000_000_001]);
    let wrong = draws.one_of(&[0, 63, 65]);
    let collected = if refusal == 6 { wild } else { good };
    let lines = if refusal == 4 { wrong } else { 64 };
    spoil_hour(&mut hour, refusal);
    let hour = Event::Hour(hour.market.hour(collected));
    let ends = (1..5).contains(&refusal) || refusal == 15;
    let events = [hour, Event::MonthEnd, Event::YearEnd];
    for event in events.into_iter().take(if ends { 3 } else { 1 }) {
        let draws = &mut case.draws;
        let mut book = draw_due(draws, event, &all_owners(), Fund::Short);
        spoil_book(draws, &mut book, event, refusal);
        let lent = lend(draws, &book, lines);
        let given = compare_event(case, event, &lent);
        assert_eq!(given.refusal, refusal);
        check_cells(&given, &book);
    }
}

#[test]
fn refused_events_leave_every_cell() {
    let kind = Kind {
        test: "by_owner::refused_events_leave_every_cell",
        base: Some(3_141_592_653_589_793_238),
        cases: 1_000,
        refusals: &[
            ("hour", &[1, 2, 3, 4, 5, 6, 7, 8, 9, 10, 15]),
            ("month end", &[1, 2, 3, 4, 15]),
            ("year end", &[1, 2, 3, 4, 15]),
        ],
    };
    kind.run(|case| {
        for refusal in [1, 2, 3, 4, 5, 6, 7, 8, 9, 10, 15] {
            compare_refused(case, refusal);
        }
    });
}

/// The events on a book whose shortfalls all together are 4,000,000,000, by what stands
/// at this place, and on one with a cent more.
fn compare_full(case: &mut Case, owners: &[usize], place: Place) {
    let hour = draw_hour(&mut case.draws, owners, 5);
    let collected = hour.collected(Fund::Enough.draw(&mut case.draws, hour.wants));
    let hour = Event::Hour(hour.market.hour(collected));
    for event in [hour, Event::MonthEnd, Event::YearEnd] {
        let fund = case.draws.one_of(&[Fund::Short, Fund::Negative]);
        let mut book = draw_due(&mut case.draws, event, owners, fund);
        for more in [0, 1] {
            raise(&mut book, place, TOP + more);
            let given = compare_cells(case, event, &book);
            assert_eq!(given.refusal, more);
        }
    }
}

/// An hour that brings all shortfalls together to 4,000,000,000, and one that would
/// bring them to a cent more.
fn compare_carry(case: &mut Case, owners: &[usize], place: Place) {
    let draws = &mut case.draws;
    let hour = draw_hour(draws, owners, 5);
    let fund = draws.one_of(&[Fund::Short, Fund::Negative]);
    let hour_fund = fund.draw(draws, hour.wants);
    let carried = hour.wants - hour_fund.max(0) as u64;
    let event = Event::Hour(hour.market.hour(hour.collected(hour_fund)));
    let mut book = draw_due(draws, event, owners, fund);
    for (more, refusal) in [(0, 0), (1, 10)] {
        raise(&mut book, place, TOP - carried + more);
        let given = compare_cells(case, event, &book);
        assert_eq!(given.refusal, refusal);
    }
}

/// At these owners' cells, alone or among everyone's. The seed gives the place.
#[test]
fn all_shortfalls_at_their_limit() {
    let kind = Kind {
        test: "by_owner::all_shortfalls_at_their_limit",
        base: None,
        cases: 50 * 8,
        refusals: &[
            ("hour", &[0, 1, 10]),
            ("month end", &[0, 1]),
            ("year end", &[0, 1]),
        ],
    };
    kind.run(|case| {
        let at = case.seed as usize % 8;
        let (row, owner) = (at % 2, [0, 1, 31, 63][at / 2]);
        for owners in [vec![owner], all_owners()] {
            compare_full(case, &owners, Place { row, owner });
            compare_carry(case, &owners, Place { row, owner });
        }
    });
}
