//! The F of a year end, and the amounts that bring it about.

use reference::book::Book;
use reference::draws::Draws;

/// An F below 0, of 0, or above 0, by this sign; one above 0 is any up to 1,000,000,000,
/// or more than all owners can be short of.
pub fn draw_year_fund(draws: &mut Draws, sign: i64) -> i64 {
    let most = draws.one_of(&[1_000, 1_000_000, 1_000_000_000]);
    let enough = draws.one_of(&[0, 4_000_000_000]);
    let size = 1 + draws.below(most) as i64;
    match sign {
        ..0 => -size,
        0 => 0,
        _ => enough + size,
    }
}

/// What an hour of the last month has to collect, if nothing is wanted or charged in
/// it, so that the month end then leaves this F to the year end; or the nearest amount
/// that is in the range.
pub fn amount_towards(book: &Book, year_fund: i64) -> i64 {
    let wants: u64 = book.month_shortfalls.iter().sum();
    // What is left of the month's F is added to the year balance: all of it, if it is
    // negative, else what its wants leave.
    let left = year_fund - book.year_balance;
    let month_fund = if left > 0 { left + wants as i64 } else { left };
    (month_fund - book.month_balance).clamp(-4_000_000_000, 4_000_000_000_000)
}
