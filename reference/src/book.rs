//! The book and its events, as Wish 6 has them, "Hours that collect less than nothing":
//! it makes the paper's surpluses signed balances.

use crate::calendar::{calendar_of, Calendar};
use crate::refusal::{
    lowest, ACCEPTED, BAD_RIGHT, CARRY_FULL, HOUR_TOO_LARGE, NO_SUCH_YEAR, OUT_OF_TURN,
    SPOILED_BOOK, UNPRICED_NODE, WILD_AMOUNT, WILD_PRICE, WRONG_LENGTH, YEAR_OVER,
};
use crate::rights::{first_bad, first_unpriced, records};
use crate::split::{split, sum, HALL};
use crate::target::{faulty_record, has_wild_price, has_wrong_length, owner_targets, OWNERS};

/// "all shortfalls together above 4,000,000,000".
pub const TOP_SHORTFALLS: u128 = 4_000_000_000;
/// "Collected may run from -4,000,000,000 up to the old top, and 6 moves with it."
pub const LEAST_COLLECTED: i64 = -4_000_000_000;
/// The old top: "above 4,000,000,000,000".
pub const TOP_COLLECTED: i64 = 4_000_000_000_000;
/// "between hours times -4,000,000,000 and hours times 4,004,000,000,000".
pub const LEAST_BALANCE_PER_HOUR: i128 = -4_000_000_000;
pub const TOP_BALANCE_PER_HOUR: i128 = 4_004_000_000_000;
/// "positive targets, or charges, above 4,000,000,000 in total".
pub const TOP_HOUR: u128 = 4_000_000_000;

/// The state between events; "amounts in it are unsigned 64-bit cents", but "Each
/// surplus becomes a signed balance". "A book opens with its year and keeps it"; the
/// year may be any number.
#[derive(Clone, Copy, Debug, PartialEq, Eq)]
pub struct Book {
    pub year: u64,
    pub hours: u64,
    pub months: u64,
    pub ended: bool,
    pub month_shortfalls: [u64; OWNERS],
    pub year_shortfalls: [u64; OWNERS],
    pub month_balance: i64,
    pub year_balance: i64,
}

/// What an opening gives.
#[derive(Clone, Copy, Debug, PartialEq, Eq)]
pub struct Opening {
    pub refusal: u64,
    pub book: Book,
}

/// "the refusal number (0 if accepted), a record number, F, D and the book".
#[derive(Clone, Copy, Debug, PartialEq, Eq)]
pub struct EventResult {
    pub refusal: u64,
    pub record: u64,
    pub fund: i64,
    pub wants: u64,
    pub book: Book,
}

/// What is lent to an hour besides the lines.
#[derive(Clone, Copy)]
pub struct HourInput<'a> {
    pub rights: &'a [u8],
    pub prices: &'a [i32],
    pub collected: i64,
}

/// The wants, the fund and the payments of one event.
struct Settled {
    fund: i64,
    wants: [u64; OWNERS],
    paid: [u64; OWNERS],
    left: i64,
}

/// A 128-bit number that is known to fit 64 bits.
fn narrow(number: u128) -> u64 {
    u64::try_from(number).unwrap_or(u64::MAX)
}

/// An amount as a signed number, which it is known to fit.
fn cents(amount: u64) -> i64 {
    i64::try_from(amount).unwrap_or(i64::MAX)
}

/// Runs the split within the hall's limits, which the refusals before it keep the
/// wants to; gives what is left.
fn split_fund(fund: u64, wants: &[u64; OWNERS], paid: &mut [u64; OWNERS]) -> i64 {
    let result = split(HALL, fund, wants, paid);
    assert_eq!(result.refusal, ACCEPTED, "an event's split is refused");
    cents(result.left)
}

/// What any F pays of the wants, and what is left of it. "If an event's F is negative,
/// no one is paid, every want carries, and F itself goes where what is left would have
/// gone".
fn settle(fund: i64, wants: [u64; OWNERS]) -> Settled {
    let mut paid = [0; OWNERS];
    let left = match u64::try_from(fund) {
        Ok(fund) => split_fund(fund, &wants, &mut paid),
        Err(_) => fund,
    };
    Settled {
        fund,
        wants,
        paid,
        left,
    }
}

/// Each want less its payment.
fn unpaid(settled: &Settled) -> [u64; OWNERS] {
    std::array::from_fn(|i| settled.wants[i].saturating_sub(settled.paid[i]))
}

/// Cell by cell, the sum of two rows.
fn added(one: [u64; OWNERS], other: [u64; OWNERS]) -> [u64; OWNERS] {
    std::array::from_fn(|i| narrow(u128::from(one[i]) + u128::from(other[i])))
}

/// The number of hours at the end of a month that is not yet closed.
fn next_month_end(months: u64, calendar: &Calendar) -> Option<u64> {
    let at = usize::try_from(months).ok()?;
    calendar.month_ends.get(at).copied()
}

/// "the last closed month's end (0 if none)".
fn last_month_end(months: u64, calendar: &Calendar) -> u64 {
    let before = months.checked_sub(1);
    let end = before.and_then(|month| next_month_end(month, calendar));
    end.unwrap_or(0)
}

impl Book {
    /// "A book opens with its year"; 15 where that is outside: "opening a book gives
    /// it too, with a book all 0, year included".
    pub fn open(year: u64) -> Opening {
        let (refusal, year) = match calendar_of(year) {
            Some(_) => (ACCEPTED, year),
            None => (NO_SUCH_YEAR, 0),
        };
        let book = Book::fresh(year);
        Opening { refusal, book }
    }

    /// "all 0 when fresh", but for the year.
    pub fn fresh(year: u64) -> Book {
        Book {
            year,
            hours: 0,
            months: 0,
            ended: false,
            month_shortfalls: [0; OWNERS],
            year_shortfalls: [0; OWNERS],
            month_balance: 0,
            year_balance: 0,
        }
    }

    fn all_shortfalls(&self) -> u128 {
        sum(&self.month_shortfalls) + sum(&self.year_shortfalls)
    }

    /// "For 1, each balance, and the two together, lie between hours times
    /// -4,000,000,000 and hours times 4,004,000,000,000."
    fn has_balances_outside(&self) -> bool {
        let hours = i128::from(self.hours);
        let between = hours * LEAST_BALANCE_PER_HOUR..=hours * TOP_BALANCE_PER_HOUR;
        let [month, year] = [self.month_balance, self.year_balance].map(i128::from);
        let all = [month, year, month + year];
        !all.iter().all(|balance| between.contains(balance))
    }

    /// "hours not between the last closed month's end (0 if none) and the next
    /// one's, both included".
    fn hours_off_months(&self, calendar: &Calendar) -> bool {
        let last = last_month_end(self.months, calendar);
        match next_month_end(self.months, calendar) {
            Some(next) => self.hours < last || self.hours > next,
            None => false,
        }
    }

    /// Refusal 1, clause by clause: "hours above 8,760" and so on, which "come from
    /// that year".
    fn is_spoiled(&self, calendar: &Calendar) -> bool {
        self.hours > calendar.hours()
            || self.months > 12
            || self.hours_off_months(calendar)
            || (self.months == 12 && self.hours != calendar.hours())
            || (self.ended && self.months < 12)
            || self.all_shortfalls() > TOP_SHORTFALLS
            || self.has_balances_outside()
    }

    /// The hours stand at the end of the next month to close, on a book that is
    /// not ended.
    pub fn month_end_due(&self) -> bool {
        let calendar = calendar_of(self.year);
        let end = calendar.and_then(|calendar| next_month_end(self.months, calendar));
        end == Some(self.hours) && !self.ended
    }

    /// All months are closed and the year is not.
    pub fn year_end_due(&self) -> bool {
        self.months >= 12 && !self.ended
    }

    /// "when refused, the book is the one given, F and D are 0, and the record
    /// number is 0 except in 7 and 8".
    fn refused(self, refusal: u64, record: u64) -> EventResult {
        EventResult {
            refusal,
            record,
            fund: 0,
            wants: 0,
            book: self,
        }
    }

    /// Refusals 1 to 8 of an hour, and the record number in 7 and 8: "Hour and
    /// target calls pass it on and state the same."
    fn hour_input_refusal(
        &self,
        calendar: &Calendar,
        input: &HourInput,
        lines: &[i64],
    ) -> (u64, u64) {
        let all = records(input.rights);
        let bad = first_bad(&all, calendar);
        let unpriced = first_unpriced(&all, input.prices.len());
        let wild_amount = !(LEAST_COLLECTED..=TOP_COLLECTED).contains(&input.collected);
        let wrong_length = has_wrong_length(input.rights, input.prices, lines);
        let refusal = lowest(&[
            (SPOILED_BOOK, self.is_spoiled(calendar)),
            (YEAR_OVER, self.ended),
            // "hour while a month end is due or after 8,760", the year's last
            (
                OUT_OF_TURN,
                self.month_end_due() || self.hours >= calendar.hours(),
            ),
            (WRONG_LENGTH, wrong_length),
            (WILD_PRICE, has_wild_price(input.prices)),
            (WILD_AMOUNT, wild_amount),
            (BAD_RIGHT, bad.is_some()),
            (UNPRICED_NODE, unpriced.is_some()),
        ]);
        (refusal, faulty_record(refusal, bad, unpriced))
    }

    /// Refusals 9 and 10 of an hour whose input is good.
    fn hour_amount_refusal(&self, targets: &[i64; OWNERS], collected: i64) -> u64 {
        let wants = sum(&positive(targets));
        let charges = sum(&negative(targets));
        // "every want carries" if F is negative, as if it were 0
        let fund = u128::try_from(hour_fund(targets, collected)).unwrap_or(0);
        let after = self.all_shortfalls() + wants.saturating_sub(fund);
        lowest(&[
            // "positive targets, or charges, above 4,000,000,000 in total"
            (HOUR_TOO_LARGE, wants > TOP_HOUR || charges > TOP_HOUR),
            // "all shortfalls after the hour would pass 4,000,000,000"
            (CARRY_FULL, after > TOP_SHORTFALLS),
        ])
    }

    /// The next hour. As in the other two events, 15 comes "when the year is outside
    /// 2025 to 2099, before any other check".
    pub fn hour(self, input: HourInput, lines: &mut [i64]) -> EventResult {
        let Some(calendar) = calendar_of(self.year) else {
            return self.refused(NO_SUCH_YEAR, 0);
        };
        let (refusal, record) = self.hour_input_refusal(calendar, &input, lines);
        if refusal != ACCEPTED {
            return self.refused(refusal, record);
        }
        let targets = owner_targets(&records(input.rights), input.prices, calendar, self.hours);
        let refusal = self.hour_amount_refusal(&targets, input.collected);
        if refusal != ACCEPTED {
            return self.refused(refusal, 0);
        }
        self.settle_hour(&targets, input.collected, lines)
    }

    /// "F is the amount collected plus all charges ... wants are the positive
    /// targets."
    fn settle_hour(self, targets: &[i64; 64], collected: i64, lines: &mut [i64]) -> EventResult {
        let settled = settle(hour_fund(targets, collected), positive(targets));
        // "an owner's line is its credit, or its negative target, or 0"
        for ((line, target), paid) in lines.iter_mut().zip(targets).zip(settled.paid) {
            *line = if *target < 0 { *target } else { cents(paid) };
        }
        let mut book = self;
        book.hours += 1;
        // "Unpaid want is added to the owner's month shortfall, what is left to
        // the month surplus", which is a balance now: "an hour's to the month balance".
        book.month_shortfalls = added(self.month_shortfalls, unpaid(&settled));
        book.month_balance = self.month_balance + settled.left;
        accepted(&settled, book)
    }

    /// The month end.
    pub fn month_end(self, lines: &mut [i64]) -> EventResult {
        let Some(calendar) = calendar_of(self.year) else {
            return self.refused(NO_SUCH_YEAR, 0);
        };
        let refusal = lowest(&[
            (SPOILED_BOOK, self.is_spoiled(calendar)),
            (YEAR_OVER, self.ended),
            // "month end unless the hours stand at the next month's end"
            (OUT_OF_TURN, !self.month_end_due()),
            (WRONG_LENGTH, lines.len() != OWNERS),
        ]);
        if refusal != ACCEPTED {
            return self.refused(refusal, 0);
        }
        // "F is the month surplus, wants are the month shortfalls, lines are
        // the payments."
        let settled = settle(self.month_balance, self.month_shortfalls);
        write_payments(&settled, lines);
        let mut book = self;
        book.months += 1;
        // "Unpaid wants are added to the year shortfalls, what is left to the
        // year surplus; the month's cells become 0", and F too: "a month's to the year
        // balance".
        book.year_shortfalls = added(self.year_shortfalls, unpaid(&settled));
        book.year_balance = self.year_balance + settled.left;
        book.month_shortfalls = [0; OWNERS];
        book.month_balance = 0;
        accepted(&settled, book)
    }

    /// The year end.
    pub fn year_end(self, lines: &mut [i64]) -> EventResult {
        let Some(calendar) = calendar_of(self.year) else {
            return self.refused(NO_SUCH_YEAR, 0);
        };
        let refusal = lowest(&[
            (SPOILED_BOOK, self.is_spoiled(calendar)),
            (YEAR_OVER, self.ended),
            // "year end before 12 months"
            (OUT_OF_TURN, self.months < 12),
            (WRONG_LENGTH, lines.len() != OWNERS),
        ]);
        if refusal != ACCEPTED {
            return self.refused(refusal, 0);
        }
        // "the same from the year's cells"
        let settled = settle(self.year_balance, self.year_shortfalls);
        write_payments(&settled, lines);
        let mut book = self;
        // "Unpaid wants and what is left stay as the year's cells, and the book
        // is ended."; of F "a year's stays as it is".
        book.year_shortfalls = unpaid(&settled);
        book.year_balance = settled.left;
        book.ended = true;
        accepted(&settled, book)
    }
}

fn write_payments(settled: &Settled, lines: &mut [i64]) {
    for (line, paid) in lines.iter_mut().zip(settled.paid) {
        *line = cents(paid);
    }
}

/// "F is the amount collected plus all charges"; of targets that are at most 4,096
/// times 10,000,000,000 cents in all.
fn hour_fund(targets: &[i64; OWNERS], collected: i64) -> i64 {
    collected + cents(narrow(sum(&negative(targets))))
}

/// The positive targets, 0 in place of the others.
fn positive(targets: &[i64; OWNERS]) -> [u64; OWNERS] {
    targets.map(|target| u64::try_from(target).unwrap_or(0))
}

/// "the negative targets, sign dropped", 0 in place of the others.
fn negative(targets: &[i64; OWNERS]) -> [u64; OWNERS] {
    targets.map(|target| if target < 0 { target.unsigned_abs() } else { 0 })
}

fn accepted(settled: &Settled, book: Book) -> EventResult {
    EventResult {
        refusal: ACCEPTED,
        record: 0,
        fund: settled.fund,
        wants: narrow(sum(&settled.wants)),
        book,
    }
}

#[cfg(test)]
mod tests {
    use super::*;

    mod balances;
    mod negative_funds;

    const RIGHT: [u8; 16] = [5, 0, 0, 0, 1, 0, 0, 2, 10, 0, 0, 0, 1, 0, 109, 1];

    /// An hour in which owner 5 has the target `price` cents.
    fn hour(book: Book, price: i32, collected: i64) -> EventResult {
        let input = HourInput {
            rights: &RIGHT,
            prices: &[0, price],
            collected,
        };
        book.hour(input, &mut [0; 64])
    }

    fn at(hours: u64, months: u64) -> Book {
        at_in(2_025, hours, months)
    }

    fn at_in(year: u64, hours: u64, months: u64) -> Book {
        Book {
            hours,
            months,
            ..Book::fresh(year)
        }
    }

    /// Of a book whose year is not outside.
    fn is_spoiled(book: Book) -> bool {
        book.is_spoiled(calendar_of(book.year).expect("a year from 2025 to 2099"))
    }

    #[test]
    fn spoiled_hours_and_months() {
        assert!(!is_spoiled(at(0, 0)));
        assert!(!is_spoiled(at(720, 0)));
        assert!(is_spoiled(at(721, 0)));
        assert!(is_spoiled(at(719, 1)));
        assert!(!is_spoiled(at(720, 1)));
        assert!(!is_spoiled(at(8_760, 11)));
        assert!(!is_spoiled(at(8_760, 12)));
        assert!(is_spoiled(at(8_759, 12)));
        assert!(is_spoiled(at(8_761, 12)));
        assert!(is_spoiled(at(8_760, 13)));
        assert!(is_spoiled(at(u64::MAX, u64::MAX)));
        let mut ended = at(8_760, 11);
        ended.ended = true;
        assert!(is_spoiled(ended));
    }

    #[test]
    fn spoiled_shortfalls() {
        let mut book = at(1, 0);
        book.month_shortfalls[0] = 3_999_999_999;
        book.year_shortfalls[63] = 1;
        assert!(!is_spoiled(book));
        book.year_shortfalls[63] = 2;
        assert!(is_spoiled(book));
        book.year_shortfalls[63] = u64::MAX;
        assert!(is_spoiled(book));
    }

    #[test]
    fn events_out_of_turn() {
        let mut lines = [0; 64];
        assert_eq!(hour(at(720, 0), 1, 0).refusal, 3);
        assert_eq!(hour(at(8_760, 12), 1, 0).refusal, 3);
        assert_eq!(at(719, 0).month_end(&mut lines).refusal, 3);
        assert_eq!(at(720, 1).month_end(&mut lines).refusal, 3);
        assert_eq!(at(8_760, 12).month_end(&mut lines).refusal, 3);
        assert_eq!(at(8_760, 11).year_end(&mut lines).refusal, 3);
        let ended = at(8_760, 12).year_end(&mut lines).book;
        assert!(ended.ended);
        assert_eq!(hour(ended, 1, 0).refusal, 2);
        assert_eq!(ended.month_end(&mut lines).refusal, 2);
        assert_eq!(ended.year_end(&mut lines).refusal, 2);
        assert_eq!(at(720, 0).month_end(&mut lines[..63]).refusal, 4);
    }

    #[test]
    fn the_carry_limit() {
        let mut book = at(5, 0);
        book.year_shortfalls[9] = 3_999_999_990;
        assert_eq!(hour(book, 11, 0).refusal, 10);
        let full = hour(book, 11, 1);
        assert_eq!((full.refusal, full.fund, full.wants), (0, 1, 11));
        assert_eq!(full.book.month_shortfalls[5], 10);
        assert_eq!(hour(full.book, 1, 0).refusal, 10);
        assert_eq!(hour(full.book, 1, 1).refusal, 0);
        assert_eq!(hour(full.book, -1, 0).book.month_balance, 1);
    }

    #[test]
    fn wild_amounts() {
        let refusal = |collected| hour(at(0, 0), 1, collected).refusal;
        assert_eq!([-4_000_000_001, i64::MIN].map(refusal), [6; 2]);
        assert_eq!([4_000_000_000_001, i64::MAX].map(refusal), [6; 2]);
        assert_eq!(
            [-4_000_000_000, -1, 0, 4_000_000_000_000].map(refusal),
            [0; 4]
        );
        let most = hour(at(0, 0), 0, 4_000_000_000_000);
        assert_eq!(most.book.month_balance, 4_000_000_000_000);
        let least = hour(at(0, 0), 0, -4_000_000_000);
        assert_eq!(least.book.month_balance, -4_000_000_000);
        assert_eq!(hour(at(0, 0), 500_001, -4_000_000_001).refusal, 5);
    }

    #[test]
    fn the_lowest_record_with_the_fault() {
        let result = |records: &[[u8; 16]], collected| {
            let input = HourInput {
                rights: &records.concat(),
                prices: &[0, 1],
                collected,
            };
            let result = at(0, 0).hour(input, &mut [0; 64]);
            (result.refusal, result.record)
        };
        let bad = [0; 16];
        let mut unpriced = RIGHT;
        unpriced[4] = 2;
        assert_eq!(result(&[unpriced, RIGHT, bad, bad], 1), (7, 2));
        assert_eq!(result(&[RIGHT, unpriced, unpriced], 1), (8, 1));
        assert_eq!(result(&[RIGHT, unpriced, bad], -4_000_000_001), (6, 0));
        assert_eq!(result(&[RIGHT, unpriced, bad], -4_000_000_000), (7, 2));
        assert_eq!(result(&[RIGHT, RIGHT], 1), (0, 0));
    }

    #[test]
    fn ends_pay_shortfalls_before_anything_is_carried() {
        let mut lines = [7; 64];
        let mut book = at(720, 0);
        book.month_shortfalls = [0; 64];
        book.month_shortfalls[..3].copy_from_slice(&[1, 2, 4]);
        book.month_balance = 5;
        book.year_balance = 1;
        let result = book.month_end(&mut lines);
        assert_eq!((result.fund, result.wants), (5, 7));
        assert_eq!(lines[..4], [1, 1, 3, 0]);
        assert_eq!(result.book.year_shortfalls[..3], [0, 1, 1]);
        assert_eq!(result.book.month_shortfalls, [0; 64]);
        assert_eq!(result.book.month_balance, 0);
        assert_eq!(result.book.year_balance, 1);
        let mut book = result.book;
        book.hours = 8_760;
        book.months = 12;
        let result = book.year_end(&mut lines);
        assert_eq!((result.fund, result.wants), (1, 2));
        assert_eq!(lines[..4], [0, 1, 0, 0]);
        assert_eq!(result.book.year_shortfalls[..3], [0, 0, 1]);
        assert_eq!(result.book.year_balance, 0);
    }

    /// February 2028 ends after 274 days, February 2100 after 273.
    #[test]
    fn month_ends_and_the_top_hour_come_from_the_year() {
        let spoiled = |hours, months| {
            [2_025, 2_027, 2_099].map(|year| is_spoiled(at_in(year, hours, months)))
        };
        assert_eq!(spoiled(6_552, 8), [false; 3]);
        assert_eq!(spoiled(6_553, 8), [true, false, true]);
        assert_eq!(spoiled(6_576, 8), [true, false, true]);
        assert_eq!(spoiled(6_577, 8), [true; 3]);
        assert_eq!(spoiled(6_552, 9), [false, true, false]);
        assert_eq!(spoiled(6_576, 9), [false; 3]);
        assert_eq!(spoiled(8_760, 12), [false, true, false]);
        assert_eq!(spoiled(8_784, 11), [true, false, true]);
        assert_eq!(spoiled(8_784, 12), [true, false, true]);
        assert_eq!(spoiled(8_785, 12), [true; 3]);
        let closed = |hours| {
            let closed = |year| at_in(year, hours, 8).month_end(&mut [0; 64]).refusal;
            [2_025, 2_027, 2_099].map(closed)
        };
        assert_eq!(closed(6_552), [0, 3, 0]);
        assert_eq!(closed(6_576), [1, 0, 1]);
        let hours = |number, months| {
            [2_025, 2_027].map(|year| hour(at_in(year, number, months), 1, 0).refusal)
        };
        assert_eq!(hours(6_552, 8), [3, 0]);
        assert_eq!(hours(8_760, 11), [3, 0]);
        assert_eq!(hours(8_783, 11), [1, 0]);
        assert_eq!(hours(8_784, 11), [1, 3]);
    }

    #[test]
    fn opening() {
        for year in [2_025, 2_050, 2_099] {
            let Opening { refusal, book } = Book::open(year);
            assert_eq!((refusal, book.year), (0, year));
            assert_eq!(book, Book::fresh(year));
        }
        for year in [0, 1, 2_024, 2_100, u64::MAX] {
            let Opening { refusal, book } = Book::open(year);
            assert_eq!((refusal, book.year), (15, 0));
            assert_eq!(book, Book::fresh(0));
        }
    }

    /// Whatever else is wrong, and the book is handed back as it was.
    #[test]
    fn a_year_outside_comes_before_any_other_check() {
        for year in [0, 2_024, 2_100, u64::MAX] {
            let ended = Book {
                ended: true,
                ..at_in(year, 8_760, 12)
            };
            let spoiled = at_in(year, 9, 7);
            for book in [at_in(year, 0, 0), at_in(year, 720, 0), ended, spoiled] {
                let lines = &mut [7; 63];
                let results = [
                    hour(book, 500_001, i64::MIN),
                    book.month_end(lines),
                    book.year_end(lines),
                ];
                assert_eq!(results, [book.refused(15, 0); 3]);
                assert_eq!(*lines, [7; 63]);
            }
        }
    }
}
