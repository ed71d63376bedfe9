//! Drawn books and their words.

use reference::book::Book;
use reference::calendar::day_of;
use reference::draws::Draws;
use reference::words::{balances_of, counts_of, shortfalls_of};

use super::{calendar_for, draw_year};
use crate::lent::{Lent, Row};

const TOP: u64 = 4_000_000_000;

/// Hours and months that fit each other, or miss it by one hour or by a day.
fn draw_time(draws: &mut Draws, book: &mut Book) {
    let months = draws.below(16).min(12) as usize;
    let calendar = calendar_for(book.year);
    let end = |at: usize| calendar.month_ends.get(at).copied();
    let last = months.checked_sub(1).and_then(end).unwrap_or(0);
    let next = end(months).unwrap_or(calendar.hours());
    let within = last + draws.below(next - last + 1);
    book.months = months as u64;
    book.hours = match draws.below(32) {
        0 | 1 => last,
        2..=7 => next,
        8 => last.wrapping_sub(1),
        9 => next + 1,
        10 => draws.one_of(&[last.wrapping_sub(24), next + 24]),
        _ => within,
    };
    book.ended = months == 12 && draws.once_in(3);
}

fn draw_shortfall(draws: &mut Draws, style: u64) -> u64 {
    let a = draws.any();
    match style {
        0 => 0,
        1 => a,
        2 | 3 if a % 16 == 0 => (a / 16) % 1_000_000,
        2 | 3 => 0,
        4..=7 => a % 3,
        8..=12 => a % 1_000,
        _ => a % 30_000_000,
    }
}

fn wrapping_sum(cells: &[u64]) -> u64 {
    cells.iter().fold(0, |sum, cell| sum.wrapping_add(*cell))
}

/// Shortfalls, in part with a sum at a limit; it may wrap.
fn draw_shortfalls(draws: &mut Draws, book: &mut Book) {
    let style = draws.below(20);
    book.month_shortfalls = [(); 64].map(|()| draw_shortfall(draws, style));
    book.year_shortfalls = [(); 64].map(|()| draw_shortfall(draws, style));
    let small = draws.below(10);
    let goal = match draws.below(24) {
        0 | 1 => TOP,
        2 => TOP + 1,
        3 => small,
        4..=8 => TOP - small,
        _ => return,
    };
    let month = wrapping_sum(&book.month_shortfalls);
    let total = month.wrapping_add(wrapping_sum(&book.year_shortfalls));
    let cell = match draws.below(2) {
        0 => &mut book.month_shortfalls[0],
        _ => &mut book.year_shortfalls[63],
    };
    *cell = cell.wrapping_add(goal.wrapping_sub(total));
}

/// A balance around the shortfalls that it is to pay, or below 0.
fn draw_balance(draws: &mut Draws, shortfalls: u64) -> i64 {
    let a = draws.any();
    let below = |bound: u64| (a % bound) as i64;
    match draws.below(12) {
        0 => 0,
        1 => below(1_000),
        2 => shortfalls as i64,
        3 => shortfalls.wrapping_sub(1) as i64,
        4 => (shortfalls / 2) as i64,
        5 => shortfalls.wrapping_add(a % 1_000) as i64,
        6 => below(TOP),
        7 => below(4_000_000_000_000),
        8 => -1 - below(1_000),
        9 => (shortfalls as i64).wrapping_neg(),
        10 => -1 - below(TOP),
        _ => -1 - below(100 * TOP),
    }
}

/// The bounds of 1 after so many hours: the least and the most.
pub fn bounds_of(hours: u64) -> [i64; 2] {
    [-4_000_000_000, 4_004_000_000_000].map(|per_hour| hours as i64 * per_hour)
}

/// Two balances, of which one or both together are this.
pub fn draw_sum(draws: &mut Draws, sum: i64, [month, year]: [i64; 2]) -> [i64; 2] {
    let part = draws.below(sum.unsigned_abs() + 1) as i64 * sum.signum();
    match draws.below(5) {
        0 => [sum, year],
        1 => [month, sum],
        2 => [sum.wrapping_sub(year), year],
        3 => [month, sum.wrapping_sub(month)],
        _ => [part, sum - part],
    }
}

/// Any two, in part such that their sum wraps in 64 bits.
pub fn draw_any_balances(draws: &mut Draws) -> [i64; 2] {
    let any = [(); 2].map(|()| draws.any() as i64);
    let ends = [(); 2].map(|()| draws.one_of(&[i64::MIN, i64::MIN + 1, -1, 0, 1, i64::MAX]));
    draws.one_of(&[any, ends, [any[0], ends[1]], [ends[0], any[1]]])
}

/// Balances around the shortfalls, in part at a bound of 1 or one past it, or any.
fn draw_balances(draws: &mut Draws, book: &mut Book) {
    let shortfalls = [&book.month_shortfalls, &book.year_shortfalls];
    let balances = shortfalls.map(|cells| draw_balance(draws, wrapping_sum(cells)));
    let hours = calendar_for(book.year).hours() + 1;
    let bound = draws.one_of(&bounds_of(book.hours % hours));
    let past = if draws.once_in(2) { 1 } else { -1 };
    [book.month_balance, book.year_balance] = match draws.below(24) {
        0 | 1 => draw_sum(draws, bound, balances),
        2 => draw_sum(draws, bound + past, balances),
        3 => draw_any_balances(draws),
        _ => balances,
    };
}

/// Once in five books one field is spoiled, or is what it is in a year of the other
/// length.
fn spoil(draws: &mut Draws, book: &mut Book) {
    let any = draws.any();
    let owner = (any % 64) as usize;
    let hours = calendar_for(book.year).hours();
    match draws.below(48) {
        0 => book.hours = hours + 1,
        1 => book.hours = any,
        2 => book.months = 13,
        3 => book.months = any,
        4 => book.ended = true,
        5 => (book.months, book.hours) = (12, hours - 1),
        6 => book.month_shortfalls[owner] = any,
        7 => book.year_shortfalls[owner] = any,
        8 => (book.months, book.hours) = (12, draws.one_of(&[8_760, 8_784])),
        9 => book.hours = draws.one_of(&[8_760, 8_783, 8_784]),
        _ => {}
    }
}

/// In any year, also one outside.
pub fn draw_book(draws: &mut Draws) -> Book {
    let mut book = Book::fresh(draw_year(draws));
    draw_time(draws, &mut book);
    draw_shortfalls(draws, &mut book);
    draw_balances(draws, &mut book);
    spoil(draws, &mut book);
    book
}

/// The day of a book's next hour; some day for a spoiled book.
pub fn next_day(book: &Book) -> u64 {
    day_of(book.hours % calendar_for(book.year).hours())
}

/// A book as words, with cells behind them.
pub fn lend_book(draws: &mut Draws, book: &Book, counts: [usize; 3]) -> Lent {
    let [count_words, shortfall_words, balance_words] = counts;
    Lent {
        counts: Row::lent(&counts_of(book), count_words, || draws.below(2)),
        shortfalls: Row::lent(&shortfalls_of(book), shortfall_words, || draws.below(9)),
        balances: Row::lent(&balances_of(book), balance_words, || draws.any() as i64),
        ..Lent::default()
    }
}

/// Once in so many draws a mark that is neither 0 nor 1, and as often any balances.
pub fn spoil_words(draws: &mut Draws, lent: &mut Lent, odds: u64) {
    let any = draws.any();
    let mark = draws.one_of(&[2, 3, 256, 1 << 32, u64::MAX, any]);
    let balances = draw_any_balances(draws);
    let (spoil_mark, spoil_balances) = (draws.once_in(odds), draws.once_in(odds));
    let mark_cell = lent.counts.slice_mut().get_mut(2);
    if let Some(cell) = mark_cell.filter(|_| spoil_mark) {
        *cell = mark;
    }
    if spoil_balances {
        let cells = lent.balances.slice_mut().iter_mut();
        cells.zip(balances).for_each(|(cell, cents)| *cell = cents);
    }
}
