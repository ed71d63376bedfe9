//! Drawn years, rights, prices, blocks, books and numbers of words: mostly good
//! ones, with edges and faults among them.

mod blocks;
mod books;
mod market;
mod year_funds;
mod years;

pub use blocks::*;
pub use books::*;
pub use market::*;
pub use year_funds::*;
pub use years::*;

use reference::draws::Draws;

use crate::lent::Row;

/// The usual number of words or lines, or once in so many draws another one.
pub fn number_of(draws: &mut Draws, usual: usize, odds: u64) -> usize {
    if !draws.once_in(odds) {
        return usual;
    }
    let free = draws.below(2 * usual as u64) as usize;
    draws.one_of(&[0, usual - 1, usual + 1, free])
}

/// What stands in a cell before a call: it is overwritten or stays.
pub fn old_line(draws: &mut Draws) -> i64 {
    draws.below(2_000_001) as i64 - 1_000_000
}

pub fn old_lines(draws: &mut Draws, lent: usize) -> Row<i64> {
    Row::lent(&[], lent, || old_line(draws))
}

pub fn old_words(draws: &mut Draws, lent: usize) -> Row<u64> {
    Row::lent(&[], lent, || draws.any())
}

/// The bytes that stand in a lent text.
pub fn old_text(draws: &mut Draws, lent: usize) -> Row<u8> {
    let first = draws.any() as u8;
    let mut bytes = (0..=u8::MAX).cycle().skip(usize::from(first));
    Row::lent(&[], lent, || bytes.next().unwrap_or(0))
}
