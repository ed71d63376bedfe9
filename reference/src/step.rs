//! What the program does with one block of its input, and its last line.

use crate::book::{Book, EventResult, HourInput};
use crate::calendar::calendar_of;
use crate::refusal::{first, ACCEPTED, NO_SUCH_YEAR, WRONG_LENGTH};
use crate::sentence::{Stopped, HOUR, MONTH_END, YEAR_END};
use crate::target::{MOST_PRICES, OWNERS};

/// "4,104 bytes each, collected (64 bits signed), then 1,024 prices (32 bits
/// signed), low byte first".
pub const HOUR_BYTES: usize = 8 + 4 * MOST_PRICES;

/// What comes of a block: the book after it, the lines printed, and what
/// stopped the run, if anything did.
pub struct Step {
    pub book: Book,
    pub text: String,
    pub stopped: Stopped,
}

/// The amount collected and the prices of an hour.
fn decode_hour(bytes: &[u8]) -> (i64, Vec<i32>) {
    let (collected, prices) = bytes.split_at(bytes.len().min(8));
    let mut low = [0; 8];
    low.iter_mut().zip(collected).for_each(|(to, b)| *to = *b);
    let price = |four: &[u8]| {
        let mut low = [0; 4];
        low.iter_mut().zip(four).for_each(|(to, b)| *to = *b);
        i32::from_le_bytes(low)
    };
    let prices = prices.chunks_exact(4).map(price).collect();
    (i64::from_le_bytes(low), prices)
}

impl Step {
    /// An accepted event prints "for each non-zero line, an H, M or Y, the hour
    /// or month number (0 for the year), owner, cents"; a refused one "stops",
    /// and an hour's record number, "the lowest one with that fault", is kept.
    fn take(&mut self, letter: u8, number: u64, result: &EventResult, lines: &[i64]) {
        if result.refusal != ACCEPTED {
            self.stop(letter, number, result.refusal, result.record);
            return;
        }
        self.book = result.book;
        for (owner, line) in lines.iter().enumerate().filter(|(_, line)| **line != 0) {
            let letter = char::from(letter);
            self.text += &format!("{letter} {number} {owner} {line}\n");
        }
    }

    fn stop(&mut self, letter: u8, number: u64, refusal: u64, record: u64) {
        self.stopped = Stopped {
            letter,
            number,
            refusal,
            record,
        };
    }

    fn settle_hour(&mut self, rights: &[u8], block: &[u8]) {
        let number = self.book.hours;
        let refusal = first(&[
            // "before any other check"
            (NO_SUCH_YEAR, calendar_of(self.book.year).is_none()),
            // "so does a broken last hour, with number 4"
            (WRONG_LENGTH, block.len() != HOUR_BYTES),
        ]);
        if refusal != ACCEPTED {
            self.stop(HOUR, number, refusal, 0);
            return;
        }
        let (collected, prices) = decode_hour(block);
        let input = HourInput {
            rights,
            prices: &prices,
            collected,
        };
        let mut lines = [0; OWNERS];
        let result = self.book.hour(input, &mut lines);
        self.take(HOUR, number, &result, &lines);
    }

    fn close_month(&mut self) {
        let number = self.book.months;
        let mut lines = [0; OWNERS];
        let result = self.book.month_end(&mut lines);
        self.take(MONTH_END, number, &result, &lines);
    }

    fn close_year(&mut self) {
        let mut lines = [0; OWNERS];
        let result = self.book.year_end(&mut lines);
        self.take(YEAR_END, 0, &result, &lines);
    }
}

/// One block on any book. "It closes months and the year when due."
pub fn step(book: Book, rights: &[u8], block: &[u8]) -> Step {
    let mut step = Step {
        book,
        text: String::new(),
        stopped: Stopped::default(),
    };
    step.settle_hour(rights, block);
    if step.stopped.goes_on() && step.book.month_end_due() {
        step.close_month();
    }
    if step.stopped.goes_on() && step.book.year_end_due() {
        step.close_year();
    }
    step
}

/// "last an F, month surplus, year surplus. A refusal prints R and its number,
/// no F". The surpluses are balances now, with a minus sign where they are negative.
pub fn last_line(refusal: u64, book: &Book) -> String {
    if refusal != ACCEPTED {
        return format!("R {refusal}\n");
    }
    format!("F {} {}\n", book.month_balance, book.year_balance)
}

#[cfg(test)]
mod tests {
    use super::*;

    /// One cent in tenths for owner 5 at a spread of 1.
    const RIGHT: [u8; 16] = [5, 0, 0, 0, 1, 0, 0, 2, 10, 0, 0, 0, 1, 0, 109, 1];

    /// The last hour of the year, in which owner 5 wants 7 and 4 are collected.
    fn last_hour() -> (Book, Vec<u8>) {
        let mut book = Book::fresh(2_025);
        (book.hours, book.months) = (8_759, 11);
        (book.month_balance, book.year_balance) = (2, 9);
        let mut block = Vec::from(4i64.to_le_bytes());
        block.extend(0i32.to_le_bytes());
        block.extend(7i32.to_le_bytes());
        block.resize(HOUR_BYTES, 0);
        (book, block)
    }

    #[test]
    fn all_three_events_in_one_block() {
        let (book, block) = last_hour();
        let step = step(book, &RIGHT, &block);
        assert_eq!(step.text, "H 8759 5 4\nM 11 5 2\nY 0 5 1\n");
        assert_eq!(step.stopped, Stopped::default());
        assert!(step.book.ended);
        assert_eq!(last_line(0, &step.book), "F 0 8\n");
        assert_eq!(last_line(7, &step.book), "R 7\n");
    }

    /// The hour's F is -5 and the month's -3; the year's is 6.
    #[test]
    fn an_hour_and_a_month_end_that_pay_nobody() {
        let (book, mut block) = last_hour();
        block[..8].copy_from_slice(&(-5i64).to_le_bytes());
        let step = step(book, &RIGHT, &block);
        assert_eq!(step.text, "Y 0 5 6\n");
        assert!(step.book.ended);
        assert_eq!(step.book.year_shortfalls[5], 1);
        assert_eq!(last_line(0, &step.book), "F 0 0\n");
    }

    #[test]
    fn the_last_line_has_the_signs() {
        let line = |month_balance, year_balance| {
            let book = Book {
                month_balance,
                year_balance,
                ..Book::fresh(2_025)
            };
            last_line(0, &book)
        };
        assert_eq!(line(-1, 0), "F -1 0\n");
        assert_eq!(line(0, -4_000_000_000), "F 0 -4000000000\n");
        assert_eq!(line(-30, 205), "F -30 205\n");
        assert_eq!(line(1_500, -9), "F 1500 -9\n");
        assert_eq!(line(-7, -10), "F -7 -10\n");
        let lowest = format!("F {} {}\n", "-9223372036854775808", i64::MAX);
        assert_eq!(line(i64::MIN, i64::MAX), lowest);
    }

    #[test]
    fn a_refused_hour_prints_nothing() {
        let (mut book, block) = last_hour();
        let faulty = [RIGHT, [0; 16], RIGHT, [0; 16]].concat();
        let refused = step(book, &faulty, &block);
        assert_eq!((refused.text.as_str(), refused.book), ("", book));
        let stopped = Stopped {
            letter: b'H',
            number: 8_759,
            refusal: 7,
            record: 1,
        };
        assert_eq!(refused.stopped, stopped);
        // A block of wrong length is no hour, so of its book just the year is looked at.
        book.hours = u64::MAX;
        let broken = step(book, &RIGHT, &block[1..]).stopped;
        assert_eq!((broken.number, broken.refusal), (u64::MAX, 4));
        let outside = Book {
            year: 2_024,
            ..book
        };
        assert_eq!(step(outside, &RIGHT, &block[1..]).stopped.refusal, 15);
        assert_eq!(step(book, &RIGHT, &block).stopped.refusal, 1);
    }
}
