//! "If an event's F is negative, no one is paid, every want carries, and F itself goes
//! where what is left would have gone: an hour's to the month balance, a month's to
//! the year balance, while a year's stays as it is."

use super::{at, hour, RIGHT};
use crate::book::{Book, EventResult, HourInput};
use crate::target::OWNERS;

/// Cells of the first owners, else 0.
fn cells<const COUNT: usize>(first: [u64; COUNT]) -> [u64; OWNERS] {
    let mut cells = [0; OWNERS];
    cells[..COUNT].copy_from_slice(&first);
    cells
}

/// An hour after five, in which owner 5 wants `cents` and owner 6 is charged as much;
/// the month balance before it is 50. Gives the result, and both owners' lines.
fn charged_hour(cents: i32, collected: i64) -> (EventResult, [i64; 2]) {
    let mut against = RIGHT;
    (against[0], against[2], against[4]) = (6, 1, 0);
    let input = HourInput {
        rights: &[RIGHT, against].concat(),
        prices: &[0, cents],
        collected,
    };
    let book = Book {
        month_balance: 50,
        ..at(5, 0)
    };
    let mut lines = [9; OWNERS];
    let result = book.hour(input, &mut lines);
    let others = [&lines[..5], &lines[7..]].concat();
    assert_eq!(others, [0; OWNERS - 2]);
    (result, [lines[5], lines[6]])
}

/// The charge is part of F and is still to be paid.
#[test]
fn an_hour() {
    // what is collected, F, the payment to owner 5, the month balance
    let hours = [
        (-4_000_000_000, -3_999_999_993, 0, -3_999_999_943),
        (-60, -53, 0, -3),
        (-57, -50, 0, 0),
        (-8, -1, 0, 49),
        (-7, 0, 0, 50),
        (-6, 1, 1, 50),
        (-1, 6, 6, 50),
        (0, 7, 7, 50),
        (1, 8, 7, 51),
    ];
    for (collected, fund, payment, balance) in hours {
        let (result, lines) = charged_hour(7, collected);
        assert_eq!((result.refusal, result.fund, result.wants), (0, fund, 7));
        assert_eq!(lines, [payment, -7], "{collected}");
        let book = result.book;
        assert_eq!((book.month_balance, book.year_balance), (balance, 0));
        assert_eq!(book.month_shortfalls[5], 7 - payment as u64);
        assert_eq!(
            book.month_shortfalls.iter().sum::<u64>(),
            7 - payment as u64
        );
        assert_eq!((book.hours, book.year_shortfalls), (6, [0; OWNERS]));
    }
}

/// Where nobody wants anything F goes to the month balance all the same.
#[test]
fn an_hour_without_wants() {
    let result = hour(at(5, 0), -7, -9);
    assert_eq!((result.fund, result.wants), (-2, 0));
    assert_eq!(result.book.month_balance, -2);
    assert_eq!(result.book.month_shortfalls, [0; OWNERS]);
}

/// "every want carries", no more: as if F were 0.
#[test]
fn the_carry_limit() {
    let mut book = at(5, 0);
    book.year_shortfalls[9] = 3_999_999_990;
    for collected in [-4_000_000_000, -1, 0] {
        assert_eq!(hour(book, 11, collected).refusal, 10);
        let full = hour(book, 10, collected);
        assert_eq!((full.refusal, full.book.month_shortfalls[5]), (0, 10));
    }
    assert_eq!(hour(book, 11, 1).refusal, 0);
}

/// A book at the end of June, or of the year with its months closed.
fn due(hours: u64, months: u64, month_balance: i64, year_balance: i64) -> Book {
    Book {
        month_balance,
        year_balance,
        month_shortfalls: cells([1, 2, 4]),
        year_shortfalls: cells([0, 5, 0, 6]),
        ..at(hours, months)
    }
}

#[test]
fn a_month_end() {
    // F, the year balance before, and after
    let months = [(-1, 0, -1), (-5, 9, 4), (-5, -9, -14), (-9, 9, 0)];
    for (fund, before, after) in months {
        let mut lines = [9; OWNERS];
        let result = due(720, 0, fund, before).month_end(&mut lines);
        assert_eq!((result.refusal, result.fund, result.wants), (0, fund, 7));
        assert_eq!(lines, [0; OWNERS]);
        let expected = Book {
            year_balance: after,
            year_shortfalls: cells([1, 7, 4, 6]),
            ..at(720, 1)
        };
        assert_eq!(result.book, expected);
    }
}

/// "a year's stays as it is".
#[test]
fn a_year_end() {
    for fund in [-1, -5, 8_760 * -4_000_000_000] {
        let before = Book {
            month_shortfalls: [0; OWNERS],
            ..due(8_760, 12, 0, fund)
        };
        let mut lines = [9; OWNERS];
        let result = before.year_end(&mut lines);
        assert_eq!((result.refusal, result.fund, result.wants), (0, fund, 11));
        assert_eq!(lines, [0; OWNERS]);
        let ended = Book {
            ended: true,
            ..before
        };
        assert_eq!(result.book, ended);
    }
}

/// The balance is then at its bound, hour by hour, and no event finds it outside.
#[test]
fn the_lowest_amount_in_every_hour() {
    let mut book = Book::fresh(2_025);
    for hours in 1..=720 {
        let result = hour(book, 0, -4_000_000_000);
        assert_eq!(result.refusal, 0);
        book = result.book;
        assert_eq!(book.month_balance, hours * -4_000_000_000);
    }
    let closed = book.month_end(&mut [0; OWNERS]);
    assert_eq!((closed.refusal, closed.book.month_balance), (0, 0));
    assert_eq!(closed.book.year_balance, 720 * -4_000_000_000);
    assert_eq!(hour(closed.book, 1, 0).refusal, 0);
}
