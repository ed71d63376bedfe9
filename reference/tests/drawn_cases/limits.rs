//! Hours at the edge of refusals 9, hour too large, and 10, carry full.

use reference::book::{Book, HourInput};
use reference::draws::Draws;
use reference::rights::{encode, Right};
use reference::words::{Event, BALANCES, COUNTS, SETTLED, SHORTFALLS};

use crate::compare::{Case, Kind};
use crate::drawn::{calendar_for, draw_year, lend_book, old_line, old_lines};
use crate::lent::Row;
use crate::single_events::compare_event;

const TOP: u64 = 4_000_000_000;

/// The targets of owners 1 and 2 are credits, those of 3 and 4 charges.
struct Edge {
    prices: [u64; 4],
    sizes: [u64; 4],
}

/// A fresh book of a year, but in the midst of a month.
fn draw_time(draws: &mut Draws) -> Book {
    let mut book = Book::fresh(draw_year(draws));
    let month = draws.below(12) as usize;
    let ends = calendar_for(book.year).month_ends;
    let last = month.checked_sub(1).map_or(0, |at| ends[at]);
    book.months = month as u64;
    book.hours = last + draws.below(672);
    book
}

/// A large credit or charge is 4,000,000,000 and the one beside it 0, 1 or any.
fn draw_edge(draws: &mut Draws) -> Edge {
    let mut prices = [(); 4].map(|()| draws.below(500_001));
    let mut sizes = [10; 4];
    for at in [1, 3] {
        prices[at] = draws.one_of(&[0, 1, prices[at]]);
    }
    let large: &[usize] = match draws.below(8) {
        0 => &[0],
        1 => &[2],
        2 => &[0, 2],
        _ => &[],
    };
    for at in large {
        (prices[*at], sizes[*at]) = (400_000, 100_000);
    }
    Edge { prices, sizes }
}

impl Edge {
    /// The target of an owner in cents, sign dropped: that of its one right, whose
    /// size is a multiple of ten, so that there is nothing to round.
    fn cents(&self, at: usize) -> u64 {
        self.prices[at] * self.sizes[at] / 10
    }

    fn rights(&self) -> Vec<u8> {
        let nodes = [(0, 1), (0, 2), (3, 0), (4, 0)];
        let right = |(at, (source, sink)): (usize, (u64, u64))| Right {
            owner: at as u64 + 1,
            source,
            sink,
            kind: 0,
            class: 2,
            size: self.sizes[at],
            first: 1,
            last: 365,
        };
        let rights = nodes.into_iter().enumerate().map(right);
        rights.flat_map(|right| encode(&right)).collect()
    }

    fn prices(&self) -> [i32; 5] {
        let [a, b, c, d] = self.prices.map(|price| price as i32);
        [0, a, b, c, d]
    }
}

/// What the hour's F is.
fn fund_of(edge: &Edge, collected: i64) -> i64 {
    collected + (edge.cents(2) + edge.cents(3)) as i64
}

/// An amount of at least 0, any below it, or one that makes F 0 or brings it beside 0,
/// where an amount in its range does that.
fn draw_collected(draws: &mut Draws, edge: &Edge) -> i64 {
    let most = draws.one_of(&[1, 1, 1_000_001, 4_000_000_001]);
    let collected = draws.below(most) as i64;
    let to_zero = 1 - draws.below(3) as i64 - fund_of(edge, 0);
    match draws.below(4) {
        0 => -collected,
        1 => to_zero.max(-4_000_000_000),
        _ => collected,
    }
}

/// A shortfall that the hour brings to the limit, or one cent from it; if F is
/// negative, by all that is wanted.
fn draw_shortfall(draws: &mut Draws, book: &mut Book, edge: &Edge, collected: i64) {
    let wants = edge.cents(0) + edge.cents(1);
    let fund = fund_of(edge, collected).max(0) as u64;
    let room = TOP.saturating_sub(wants.saturating_sub(fund));
    let shortfall = draws.one_of(&[room, room + 1, room.saturating_sub(1), 0]);
    let owner = draws.below(64) as usize;
    match draws.below(2) {
        0 => book.month_shortfalls[owner] = shortfall,
        _ => book.year_shortfalls[owner] = shortfall,
    }
}

fn compare_hour(case: &mut Case) {
    let draws = &mut case.draws;
    let mut book = draw_time(draws);
    let edge = draw_edge(draws);
    let collected = draw_collected(draws, &edge);
    draw_shortfall(draws, &mut book, &edge, collected);
    let mut lent = lend_book(draws, &book, [COUNTS, SHORTFALLS, BALANCES]);
    lent.lines = old_lines(draws, 64);
    lent.settled = Row::lent(&[], SETTLED, || old_line(draws));
    let event = Event::Hour(HourInput {
        rights: &edge.rights(),
        prices: &edge.prices(),
        collected,
    });
    let given = compare_event(case, event, &lent);
    if fund_of(&edge, collected) < 0 {
        case.came("hour with a negative fund", given.refusal);
    }
}

#[test]
fn hours_at_the_limits() {
    let kind = Kind {
        test: "limits::hours_at_the_limits",
        base: Some(3_935_559_000_370_003_845),
        cases: 100_000,
        refusals: &[
            ("hour", &[0, 1, 9, 10, 15]),
            ("hour with a negative fund", &[0, 9, 10, 15]),
        ],
    };
    kind.run(compare_hour);
}
