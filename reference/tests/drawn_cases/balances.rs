//! The bounds of 1 on the balances: "each balance, and the two together, lie between
//! hours times -4,000,000,000 and hours times 4,004,000,000,000". Expected is besides
//! what these words say, worked out in 128 bits, on books that nothing else spoils.

use reference::book::{Book, HourInput};
use reference::draws::Draws;
use reference::words::{Event, BALANCES, COUNTS, SETTLED, SHORTFALLS, STEPPED, STEP_ROOM};

use crate::compare::{Case, Kind};
use crate::drawn::{
    block, bounds_of, calendar_for, draw_any_balances, draw_good_year, draw_sum, lend_book,
    old_line, old_lines, old_text, old_words,
};
use crate::lent::Row;
use crate::single_events::compare_event;
use crate::steps::{compare_block, Block, Step};

/// A good book at any time of a year, without a shortfall.
fn draw_book(draws: &mut Draws) -> Book {
    let mut book = Book::fresh(draw_good_year(draws));
    let months = draws.below(13) as usize;
    let calendar = calendar_for(book.year);
    let end = |at: usize| calendar.month_ends.get(at).copied();
    let last = months.checked_sub(1).and_then(end).unwrap_or(0);
    let next = end(months).unwrap_or(calendar.hours());
    let within = last + draws.below(next - last + 1);
    book.months = months as u64;
    book.hours = draws.one_of(&[last, last, within, within, within, next]);
    if months == 12 {
        book.hours = calendar.hours();
        book.ended = draws.once_in(3);
    }
    book
}

/// At a bound, one past it or one within it: one balance, or the two together, beside
/// any within the bounds or beside one that makes up for it.
fn draw_at_a_bound(draws: &mut Draws, hours: u64) -> [i64; 2] {
    let [least, top] = bounds_of(hours);
    let width = (top - least) as u64 + 1;
    let within = [(); 2].map(|()| least + draws.below(width) as i64);
    let bound = draws.one_of(&[least, top]) + draws.one_of(&[-1, 0, 1]);
    let small = draws.one_of(&[-1, 0, 1]);
    let others = draws.one_of(&[within, [small; 2], [least, top]]);
    draw_sum(draws, bound, others)
}

/// Which clause the balances fall under.
#[derive(Clone, Copy, PartialEq)]
enum Clause {
    Within,
    /// One at least, and the two together.
    OneOutside,
    /// Each lies within the bounds.
    TogetherOutside,
    /// The two together lie within the bounds.
    OnlyOneOutside,
}

fn clause(hours: u64, balances: [i64; 2]) -> Clause {
    let hours = i128::from(hours);
    let outside = |cents: i128| {
        let [least, top] = [-4_000_000_000, 4_004_000_000_000].map(|cents| hours * cents);
        cents < least || cents > top
    };
    let [month, year] = balances.map(i128::from);
    match (outside(month) || outside(year), outside(month + year)) {
        (false, false) => Clause::Within,
        (true, true) => Clause::OneOutside,
        (false, true) => Clause::TogetherOutside,
        (true, false) => Clause::OnlyOneOutside,
    }
}

/// The refusal of a step, which names its hour.
fn step_refusal(case: &mut Case, book: &Book) -> u64 {
    let bytes = block(0, &[]);
    let block = Block {
        rights: Row::lent(&[], 0, || 0),
        bytes: Row::lent(&bytes, bytes.len(), || 0),
    };
    let draws = &mut case.draws;
    let mut lent = lend_book(draws, book, [COUNTS, SHORTFALLS, BALANCES]);
    lent.report = old_words(draws, STEPPED);
    lent.text = old_text(draws, STEP_ROOM);
    let step = compare_block(case, &Step { block, end: 0 }, &lent);
    if step.refusal != 0 {
        let named = [0, 0, 72, book.hours, 0];
        assert_eq!(step.lent.report.slice(), named, "the hour is refused");
    }
    step.refusal
}

/// The refusals of the three events, in which nothing is wanted or collected.
fn event_refusals(case: &mut Case, book: &Book) -> [u64; 3] {
    let hour = Event::Hour(HourInput {
        rights: &[],
        prices: &[0],
        collected: 0,
    });
    [hour, Event::MonthEnd, Event::YearEnd].map(|event| {
        let draws = &mut case.draws;
        let mut lent = lend_book(draws, book, [COUNTS, SHORTFALLS, BALANCES]);
        lent.lines = old_lines(draws, 64);
        lent.settled = Row::lent(&[], SETTLED, || old_line(draws));
        compare_event(case, event, &lent).refusal
    })
}

fn compare_balances(case: &mut Case) {
    let draws = &mut case.draws;
    let mut book = draw_book(draws);
    let balances = match draws.below(8) {
        0 => draw_any_balances(draws),
        _ => draw_at_a_bound(draws, book.hours),
    };
    [book.month_balance, book.year_balance] = balances;
    let clause = clause(book.hours, balances);
    let spoiled = clause != Clause::Within;
    let step = step_refusal(case, &book);
    assert_eq!(step == 1, spoiled, "step on {book:?}");
    let events = event_refusals(case, &book).map(|refusal| refusal == 1);
    assert_eq!(events, [spoiled; 3], "events on {book:?}");
    case.came("clause", clause as u64);
    case.came("hours settled", u64::from(book.hours > 0));
    case.came(
        "minus signs",
        balances.map(|cents| u64::from(cents < 0)).iter().sum(),
    );
}

#[test]
fn at_their_bounds_and_past() {
    let kind = Kind {
        test: "balances::at_their_bounds_and_past",
        base: Some(5_772_156_649_015_328_606),
        cases: 20_000,
        refusals: &[
            ("step", &[0, 1, 2, 3]),
            ("hour", &[0, 1, 2, 3]),
            ("month end", &[0, 1, 2, 3]),
            ("year end", &[0, 1, 2, 3]),
            ("clause", &[0, 1, 2, 3]),
            ("hours settled", &[0, 1]),
            ("minus signs", &[0, 1, 2]),
        ],
    };
    kind.run(compare_balances);
}
