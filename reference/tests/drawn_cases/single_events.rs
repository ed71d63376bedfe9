//! The hour, the month end and the year end, each on any drawn book.

use reference::book::Book;
use reference::draws::Draws;
use reference::rights::records;
use reference::target::owner_targets;
use reference::words::{Event, BALANCES, COUNTS, SETTLED, SHORTFALLS};

use crate::compare::{Case, Kind};
use crate::drawn::{
    calendar_for, days_of, draw_book, draw_market, lend_book, name_of, next_day, number_of,
    old_line, old_lines, spoil_words, Market, Shape,
};
use crate::lent::{Given, Lent, Row};
use crate::library;

/// Runs an event on both sides, each on the words of the book lent.
pub fn compare_event(case: &mut Case, event: Event, lent: &Lent) -> Given {
    compare_event_over(case, [event, event], lent)
}

/// The same where each side has its own input: first the library's.
pub fn compare_event_over(case: &mut Case, [ours, theirs]: [Event; 2], lent: &Lent) -> Given {
    case.compare(
        name_of(theirs),
        &theirs,
        lent,
        |lent| {
            let (book, lines, report) = lent.event_cells();
            library::settle(book, ours, lines, report)
        },
        |lent| {
            let (mut book, lines, report) = lent.event_cells();
            book.settle(theirs, lines, report)
        },
    )
}

/// Notes whether an accepted event shared out a fund that is too small for its
/// wants, which is where the split has work to do, and whether it had wants beside a
/// negative fund, which all carry.
fn note_fund(case: &mut Case, event: Event, given: &Given) {
    if given.refusal != 0 {
        return;
    }
    let (fund, wants) = (given.lent.settled.cells[1], given.lent.settled.cells[2]);
    let [short, carried] = match event {
        Event::Hour(_) => ["hour that is short", "hour that carries all"],
        Event::MonthEnd => ["month that is short", "month that carries all"],
        Event::YearEnd => ["year that is short", "year that carries all"],
    };
    case.came(short, u64::from(0 < fund && fund < wants));
    case.came(carried, u64::from(fund < 0 && wants > 0));
}

/// Mostly 4 prices, and rights between their nodes.
fn draw_shape(draws: &mut Draws, book: &Book) -> Shape {
    Shape {
        records: draws.below(7) as usize,
        days: days_of(book.year),
        nodes: 4,
        today: next_day(book),
        prices: match draws.below(32) {
            0 => 0,
            1 => draws.one_of(&[1_025, 1_026]),
            2 | 3 => draws.one_of(&[1, 2, 3]),
            4 => draws.one_of(&[1_023, 1_024]),
            _ => 4,
        },
        faults: 64,
    }
}

/// What the targets of the hour come to, those above 0 and those below; some numbers
/// if it has none.
fn wants_and_charges(market: &Market, book: &Book) -> [u64; 2] {
    let rights = records(market.rights.slice());
    let calendar = calendar_for(book.year);
    let hour = book.hours % calendar.hours();
    let targets = owner_targets(&rights, market.prices.slice(), calendar, hour);
    let wants: i64 = targets.iter().map(|target| (*target).max(0)).sum();
    let charges: i64 = targets.iter().map(|target| (-*target).max(0)).sum();
    [wants, charges].map(|cents| cents.min(4_000_000_000_000) as u64)
}

/// An amount at an end of its range or past it.
fn draw_amount_at_an_end(draws: &mut Draws) -> i64 {
    let any = draws.any() as i64;
    match draws.below(6) {
        0 | 1 => draws.one_of(&[-4_000_000_001, i64::MIN, any | i64::MIN]),
        2 | 3 => draws.one_of(&[4_000_000_000_001, i64::MAX, any & i64::MAX]),
        4 => -4_000_000_000,
        _ => 4_000_000_000_000,
    }
}

/// An amount in or out of its range, any, or such that F is around 0, or around what
/// is wanted and still may be carried.
pub fn draw_collected(draws: &mut Draws, market: &Market, book: &Book) -> i64 {
    let any = draws.any();
    let below = |bound: u64| (any % bound) as i64;
    let [wants, charges] = wants_and_charges(market, book);
    let carried = book.month_shortfalls.iter().chain(&book.year_shortfalls);
    let room = carried.fold(4_000_000_000, |room: u64, cell| room.saturating_sub(*cell));
    match draws.below(40) {
        0..=2 => draw_amount_at_an_end(draws),
        3..=6 => 0,
        7..=9 => below(20),
        10..=12 => below(1_000_000),
        13 | 14 => below(4_000_000_000_001),
        15..=20 => wants.saturating_sub(room) as i64 + 1 - below(2),
        21 => wants as i64,
        22..=25 => 1 - below(3) - charges as i64,
        26 => -below(20),
        27 | 28 => -below(1_000_000),
        29 | 30 => -below(4_000_000_001),
        _ => below(wants + 1),
    }
}

/// The words of a book: now and then of another number, or spoiled.
fn draw_words(draws: &mut Draws, book: &Book) -> Lent {
    let counts = [COUNTS, SHORTFALLS, BALANCES].map(|usual| number_of(draws, usual, 48));
    let mut lent = lend_book(draws, book, counts);
    spoil_words(draws, &mut lent, 32);
    lent
}

fn compare_book(case: &mut Case) {
    let draws = &mut case.draws;
    let book = draw_book(draws);
    let shape = draw_shape(draws, &book);
    let market = draw_market(draws, &shape);
    let collected = draw_collected(draws, &market, &book);
    let hour = Event::Hour(market.hour(collected));
    for event in [hour, Event::MonthEnd, Event::YearEnd] {
        let draws = &mut case.draws;
        let mut lent = draw_words(draws, &book);
        let line_count = number_of(draws, 64, 24);
        let report_words = number_of(draws, SETTLED, 48);
        lent.lines = old_lines(draws, line_count);
        lent.settled = Row::lent(&[], report_words, || old_line(draws));
        let given = compare_event(case, event, &lent);
        note_fund(case, event, &given);
    }
}

fn run(test: &'static str, base: u64) {
    let kind = Kind {
        test,
        base: Some(base),
        cases: 200_000,
        refusals: &[
            ("hour", &[0, 1, 2, 3, 4, 5, 6, 7, 8, 9, 10, 15]),
            ("hour that is short", &[0, 1]),
            ("hour that carries all", &[0, 1]),
            ("month end", &[0, 1, 2, 3, 4, 15]),
            ("month that is short", &[0, 1]),
            ("month that carries all", &[0, 1]),
            ("year end", &[0, 1, 2, 3, 4, 15]),
            ("year that is short", &[0, 1]),
            ("year that carries all", &[0, 1]),
        ],
    };
    kind.run(compare_book);
}

// Two tests of a kind, for two threads.

#[test]
fn any_book() {
    run("single_events::any_book", 2_685_821_657_736_338_717);
}

#[test]
fn any_other_book() {
    run("single_events::any_other_book", 1_442_695_040_888_963_407);
}
