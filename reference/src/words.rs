//! What a host lends and is given: a book as three rows of words, and a report
//! for each call. The phrases are those of `host/pupcopper.h`.

use crate::book::{Book, EventResult, HourInput};
use crate::by_owner::{laid_out, read_off, CELLS};
use crate::calendar::{calendar_of, day_table, place};
use crate::refusal::{first, ACCEPTED, NO_SUCH_YEAR, SPOILED_BOOK, WRONG_LENGTH};
use crate::rights::{self, Given, Reader, Right};
use crate::sentence::Stopped;
use crate::split::{self, Limits};
use crate::step::{last_line, step};
use crate::target::{self, Asked};

/// "words of a book: hours settled, months closed, 1 if it is ended and else 0, the
/// year".
pub const COUNTS: usize = 4;
/// "owner i's month shortfall at 2 * i, its year shortfall at 2 * i + 1".
pub const SHORTFALLS: usize = CELLS;
/// "words of a book: the month balance, the year balance; either sign".
pub const BALANCES: usize = 2;
/// "words of an event's report: the record number of 7 and 8, F (the fund, of either
/// sign), D (the sum of the wants)".
pub const SETTLED: usize = 3;
/// "words of a target call's and a row call's report: the record number of 7 and
/// 8".
pub const OUTCOME: usize = 1;
/// "words of a split's report: what is left of the fund".
pub const ALLOCATION: usize = 1;
/// "words of a calendar call's report: day, month, 1 in a peak hour and else 0".
pub const HOUR: usize = 3;
/// "words of a day table's report: the number of days, 365 or 366".
pub const TABLE: usize = 1;
/// "words of a read's report, and of the right that a write is lent: owner, source,
/// sink, kind, class, size, first day, last day".
pub const RIGHT: usize = 8;
/// "those of a read's, the next record number, 1 if there was no record left to
/// give and else 0".
pub const STEP: usize = 10;
/// "words of a step's report: 1 if the text had too little room and else 0, the
/// end of the text, the letter and the number of the refused event (0 for none),
/// the record number of 7 and 8".
pub const STEPPED: usize = 5;
/// "words of a closing's report: 1 if the text had too little room and else 0,
/// the end of the text".
pub const CLOSED: usize = 2;
/// "bytes behind the end of the text that a step asks for".
pub const STEP_ROOM: usize = 12_480;
/// "bytes behind the end of the text that a closing asks for".
pub const CLOSING_ROOM: usize = 65;
/// "bytes behind a place of the text that a sentence asks for".
pub const SENTENCE_ROOM: usize = 112;

/// "A book crosses as three slices, which the host keeps from call to call."
pub struct BookWords<'a> {
    pub counts: &'a mut [u64],
    pub shortfalls: &'a mut [u64],
    pub balances: &'a mut [i64],
}

/// "A text is lent bytes and their end, any number".
pub struct LentText<'a> {
    pub bytes: &'a mut [u8],
    pub end: u64,
}

impl LentText<'_> {
    /// There are fewer than so many bytes behind the end.
    fn lacks(&self, room: usize) -> bool {
        (self.bytes.len() as u128) < u128::from(self.end) + room as u128
    }

    /// Writes behind the end, where there is room; gives the end after it.
    fn append(&mut self, text: &str) -> u64 {
        let at = usize::try_from(self.end).unwrap_or(usize::MAX);
        self.bytes[at..at + text.len()].copy_from_slice(text.as_bytes());
        self.end + text.len() as u64
    }
}

/// One of the three events, with what is lent to it besides the lines.
#[derive(Clone, Copy)]
pub enum Event<'a> {
    Hour(HourInput<'a>),
    MonthEnd,
    YearEnd,
}

/// A record number or D as a signed word; no event makes one that does not fit.
fn signed(word: u64) -> i64 {
    i64::try_from(word).unwrap_or(i64::MAX)
}

pub fn counts_of(book: &Book) -> [u64; COUNTS] {
    [book.hours, book.months, u64::from(book.ended), book.year]
}

pub fn shortfalls_of(book: &Book) -> [u64; SHORTFALLS] {
    laid_out(&book.month_shortfalls, &book.year_shortfalls)
}

pub fn balances_of(book: &Book) -> [i64; BALANCES] {
    [book.month_balance, book.year_balance]
}

impl BookWords<'_> {
    /// "a book of another number of words".
    fn wrong_number(&self) -> bool {
        self.counts.len() != COUNTS
            || self.shortfalls.len() != SHORTFALLS
            || self.balances.len() != BALANCES
    }

    /// What is looked at before the call itself: "In an event and in a step 4 comes
    /// first for counts of another number of words, which have no year to look at; then
    /// 15 for the year, their fourth word; then 4 for shortfalls or balances of another
    /// number of words; then 4 for a report of another number of words; then 1".
    fn refusal(&self, wrong_report: bool) -> u64 {
        let [_, _, _, year] = *self.counts else {
            return WRONG_LENGTH;
        };
        first(&[
            (NO_SUCH_YEAR, is_outside(year)),
            (WRONG_LENGTH, self.wrong_number()),
            (WRONG_LENGTH, wrong_report),
            (SPOILED_BOOK, self.spoiled()),
        ])
    }

    /// "1, a spoiled book, for a mark that is neither 0 nor 1".
    fn spoiled(&self) -> bool {
        self.counts[2] > 1
    }

    /// The book that the words stand for, which are not spoiled: "Any two balances are
    /// those of a book".
    fn book(&self) -> Book {
        let [month_shortfalls, year_shortfalls] = read_off(self.shortfalls);
        Book {
            hours: self.counts[0],
            months: self.counts[1],
            ended: self.counts[2] == 1,
            year: self.counts[3],
            month_shortfalls,
            year_shortfalls,
            month_balance: self.balances[0],
            year_balance: self.balances[1],
        }
    }

    fn write(&mut self, book: &Book) {
        self.counts.copy_from_slice(&counts_of(book));
        self.shortfalls.copy_from_slice(&shortfalls_of(book));
        self.balances.copy_from_slice(&balances_of(book));
    }

    /// "Writes a fresh book of the year, all zeros but for the year, over any words. A
    /// year outside 2025 to 2099 is refused with 15, and the book is written all zeros,
    /// the year included. 15 comes before 4, a slice of another number of words; where
    /// one has another number, nothing is written, with 15 as with 4."
    pub fn open(&mut self, year: u64) -> u64 {
        let opening = Book::open(year);
        let wrong_number = self.wrong_number();
        if !wrong_number {
            self.write(&opening.book);
        }
        match opening.refusal {
            ACCEPTED if wrong_number => WRONG_LENGTH,
            refusal => refusal,
        }
    }

    /// An event on the book that the words stand for. "A refused call writes
    /// nothing but its report." In 7 and 8 that has the paper's record number,
    /// "the lowest one with that fault".
    pub fn settle(&mut self, event: Event, lines: &mut [i64], report: &mut [i64]) -> u64 {
        let refusal = self.refusal(report.len() != SETTLED);
        if refusal != ACCEPTED {
            return refused(refusal, report);
        }
        let result = run(event, self.book(), lines);
        let words = [signed(result.record), result.fund, signed(result.wants)];
        report.copy_from_slice(&words);
        if result.refusal == ACCEPTED {
            self.write(&result.book);
        }
        result.refusal
    }

    /// A step: "Settles the next hour, and after it the month end and the year
    /// end that are due". Before the hour, a refusal's report has "the end that
    /// was given and else zeros"; in 7 the hour's record number, "the lowest one
    /// with that fault", stands in it.
    pub fn step(
        &mut self,
        rights: &[u8],
        block: &[u8],
        mut text: LentText,
        report: &mut [u64],
    ) -> u64 {
        let unmoved = [0, text.end, 0, 0, 0];
        if report.len() == STEPPED {
            report.copy_from_slice(&unmoved);
        }
        let refusal = self.refusal(report.len() != STEPPED);
        if refusal != ACCEPTED {
            return refusal;
        }
        if text.lacks(STEP_ROOM) {
            report[0] = 1;
            return ACCEPTED;
        }
        let step = step(self.book(), rights, block);
        self.write(&step.book);
        let Stopped {
            letter,
            number,
            refusal,
            record,
        } = step.stopped;
        let end = text.append(&step.text);
        report.copy_from_slice(&[0, end, u64::from(letter), number, record]);
        refusal
    }

    /// A closing: "The last line of a statement .. The book is only read": its year and
    /// the bounds of its balances "are not looked at".
    pub fn closing(&self, refusal: u8, mut text: LentText, report: &mut [u64]) -> u64 {
        let unmoved = [0, text.end];
        if report.len() == CLOSED {
            report.copy_from_slice(&unmoved);
        }
        if self.wrong_number() || report.len() != CLOSED {
            return WRONG_LENGTH;
        }
        if self.spoiled() {
            return SPOILED_BOOK;
        }
        if text.lacks(CLOSING_ROOM) {
            report[0] = 1;
            return ACCEPTED;
        }
        report[1] = text.append(&last_line(u64::from(refusal), &self.book()));
        ACCEPTED
    }
}

/// The sentence on a refusal. "Gives the place behind it; without the room it
/// gives `at` and writes nothing."
pub fn sentence(stopped: &Stopped, mut text: LentText) -> u64 {
    if text.lacks(SENTENCE_ROOM) {
        return text.end;
    }
    text.append(&stopped.sentence())
}

/// The event of the paper.
pub fn run(event: Event, book: Book, lines: &mut [i64]) -> EventResult {
    match event {
        Event::Hour(input) => book.hour(input, lines),
        Event::MonthEnd => book.month_end(lines),
        Event::YearEnd => book.year_end(lines),
    }
}

/// "A report that has its words is always written. In a refused call it is
/// zeros".
fn refused(refusal: u64, report: &mut [i64]) -> u64 {
    if report.len() == SETTLED {
        report.fill(0);
    }
    refusal
}

/// "the year is outside 2025 to 2099".
fn is_outside(year: u64) -> bool {
    calendar_of(year).is_none()
}

/// As below, for a call that is given a year: "A year outside 2025 to 2099 is refused
/// with 15 before all else". Where the report has its words, the call gives that 15
/// itself.
fn reported_in<const WORDS: usize>(
    year: u64,
    report: &mut [u64],
    call: impl FnOnce() -> (u64, [u64; WORDS]),
) -> u64 {
    if is_outside(year) && report.len() != WORDS {
        return NO_SUCH_YEAR;
    }
    reported(report, call)
}

/// Writes a report that has the number of words named; else 4.
fn reported<const WORDS: usize>(
    report: &mut [u64],
    call: impl FnOnce() -> (u64, [u64; WORDS]),
) -> u64 {
    if report.len() != WORDS {
        return WRONG_LENGTH;
    }
    let (refusal, words) = call();
    report.copy_from_slice(&words);
    refusal
}

/// "The day (1 to 365 or 366) and the month (0 to 11) of an hour of the year, and
/// whether it is peak".
pub fn calendar(year: u64, hour: u64, report: &mut [u64]) -> u64 {
    reported_in::<HOUR>(year, report, || {
        let place = place(year, hour);
        let words = [place.day, place.month, u64::from(place.peak)];
        (place.refusal, words)
    })
}

/// "Writes the day table of the year".
pub fn days(year: u64, table: &mut [u8], report: &mut [u64]) -> u64 {
    reported_in::<TABLE>(year, report, || {
        let result = day_table(year, table);
        (result.refusal, [result.days])
    })
}

pub fn right_words(right: &Right) -> [u64; RIGHT] {
    [
        right.owner,
        right.source,
        right.sink,
        right.kind,
        right.class,
        right.size,
        right.first,
        right.last,
    ]
}

/// "The right of a record number, from 0".
pub fn read(year: u64, file: &[u8], record: u64, report: &mut [u64]) -> u64 {
    reported_in::<RIGHT>(year, report, || {
        let read = rights::read(year, file, record);
        (read.refusal, right_words(&read.right))
    })
}

/// The right of these words, if there are as many as in a read's report.
fn right_of(words: &[u64]) -> Option<Right> {
    let [owner, source, sink, kind, class, size, first, last] = *words else {
        return None;
    };
    Some(Right {
        owner,
        source,
        sink,
        kind,
        class,
        size,
        first,
        last,
    })
}

/// "Writes a right over the record of a record number". The first that applies is the
/// refusal: 15, where "the year is outside 2025 to 2099", 4, where "the right has
/// another number of words", and then what the write itself refuses.
pub fn write(year: u64, file: &mut [u8], record: u64, right: &[u64]) -> u64 {
    match right_of(right) {
        Some(right) => rights::write(year, file, record, &right),
        None if is_outside(year) => NO_SUCH_YEAR,
        None => WRONG_LENGTH,
    }
}

/// "A reader's step from a record number, at first 0: what stands there, and the
/// record number to go on with". The fields are zeros where no record is given;
/// "the next record number in a reader's step .. is always given".
pub fn next(year: u64, file: &[u8], next: u64, report: &mut [u64]) -> u64 {
    reported_in::<STEP>(year, report, || {
        let at = next;
        let mut reader = Reader { year, file, at };
        let (refusal, right, none) = match reader.give() {
            Given::Record(right) => (ACCEPTED, right, 0),
            Given::Refused(refusal) => (refusal, Right::default(), 0),
            Given::Nothing => (ACCEPTED, Right::default(), 1),
        };
        let mut words = [0; STEP];
        words[..RIGHT].copy_from_slice(&right_words(&right));
        words[RIGHT] = reader.at;
        words[RIGHT + 1] = none;
        (refusal, words)
    })
}

/// "Writes all 64 targets of an hour number." The report has the paper's record
/// number, in 7 and 8 "the lowest one with that fault".
pub fn targets(asked: &Asked, lines: &mut [i64], report: &mut [u64]) -> u64 {
    reported_in::<OUTCOME>(asked.year, report, || {
        let result = target::targets(asked, lines);
        (result.refusal, [result.record])
    })
}

/// "Writes the rows of an hour number: line i is the cents of record i, 0 where
/// that right is not live." The report is that of a target call.
pub fn rows(asked: &Asked, lines: &mut [i64], report: &mut [u64]) -> u64 {
    reported_in::<OUTCOME>(asked.year, report, || {
        let result = target::rows(asked, lines);
        (result.refusal, [result.record])
    })
}

/// "The proportional split of a fund over wants, within the limits of the caller's
/// pool .. Writes as many payments."
pub fn split(
    limits: Limits,
    fund: u64,
    wants: &[u64],
    payments: &mut [u64],
    report: &mut [u64],
) -> u64 {
    reported::<ALLOCATION>(report, || {
        let result = split::split(limits, fund, wants, payments);
        (result.refusal, [result.left])
    })
}

#[cfg(test)]
mod tests {
    use super::*;
    use crate::target::asked;

    mod balances;
    mod writes;

    /// The words of a book at its first month end.
    struct Words {
        counts: Vec<u64>,
        shortfalls: Vec<u64>,
        balances: Vec<i64>,
        report: Vec<i64>,
    }

    fn at_a_month_end() -> Words {
        let mut shortfalls = vec![0; SHORTFALLS];
        shortfalls[..4].copy_from_slice(&[7, 1, 0, 2]);
        Words {
            counts: vec![720, 0, 0, 2_025],
            shortfalls,
            balances: vec![5, 0],
            report: vec![9; SETTLED],
        }
    }

    /// A month end on such words, some of them changed: the refusal and the words
    /// after it.
    fn closed(change: impl FnOnce(&mut Words)) -> (u64, Words) {
        let mut words = at_a_month_end();
        change(&mut words);
        let mut book = BookWords {
            counts: &mut words.counts,
            shortfalls: &mut words.shortfalls,
            balances: &mut words.balances,
        };
        let refusal = book.settle(Event::MonthEnd, &mut [0; 64], &mut words.report);
        (refusal, words)
    }

    /// The refusal and the report of one that pays 5 of 7 if it is accepted.
    fn month_end(change: impl FnOnce(&mut Words)) -> (u64, Vec<i64>) {
        let (refusal, words) = closed(change);
        let paid = [0, 3, 0, 2];
        let expected = if refusal == 0 { paid } else { [7, 1, 0, 2] };
        assert_eq!(words.shortfalls[..4], expected);
        (refusal, words.report)
    }

    fn refused_with(number: u64) -> (u64, Vec<i64>) {
        (number, vec![0; SETTLED])
    }

    #[test]
    fn the_words_are_looked_at_before_the_book() {
        let accepted = (0, vec![0, 5, 7]);
        assert_eq!(month_end(|_| {}), accepted);
        assert_eq!(month_end(|words| words.counts[3] = 2_099), accepted);
        assert_eq!(month_end(|words| words.counts[2] = 1), refused_with(1));
        assert_eq!(month_end(|words| words.counts[2] = 2), refused_with(1));
        let both = month_end(|words| {
            words.counts.push(0);
            words.counts[2] = 2;
        });
        assert_eq!(both, refused_with(4));
        let both = month_end(|words| {
            words.shortfalls.push(0);
            words.counts[2] = 2;
        });
        assert_eq!(both, refused_with(4));
        let no_report = month_end(|words| {
            words.report.clear();
            words.counts[2] = 2;
        });
        assert_eq!(no_report, (4, vec![]));
    }

    /// But not before the 4 for counts that have no year.
    #[test]
    fn a_year_outside_comes_before_the_other_words() {
        for year in [0, 2_024, 2_100, u64::MAX] {
            let outside = |change: fn(&mut Words)| {
                month_end(|words| {
                    (words.counts[2], words.counts[3]) = (2, year);
                    words.balances[0] = i64::MIN;
                    change(words);
                })
            };
            assert_eq!(outside(|_| {}), refused_with(15));
            assert_eq!(outside(|words| words.shortfalls.push(0)), refused_with(15));
            assert_eq!(outside(|words| words.balances.clear()), refused_with(15));
            assert_eq!(outside(|words| words.report.push(9)), (15, vec![9; 4]));
            assert_eq!(outside(|words| words.counts.push(0)), refused_with(4));
            assert_eq!(outside(|words| words.counts.truncate(3)), refused_with(4));
            let all = outside(|words| {
                words.counts.clear();
                words.balances.clear();
                words.report.clear();
            });
            assert_eq!(all, (4, vec![]));
        }
    }

    /// The refusal of an opening over so many counts, and what they then are.
    fn opened(year: u64, words: usize) -> (u64, Vec<u64>) {
        let mut counts = vec![9; words];
        let mut book = BookWords {
            counts: &mut counts,
            shortfalls: &mut [9; SHORTFALLS],
            balances: &mut [9; BALANCES],
        };
        let refusal = book.open(year);
        (refusal, counts)
    }

    #[test]
    fn an_opening_writes_the_year_or_zeros() {
        assert_eq!(opened(2_025, 4), (0, vec![0, 0, 0, 2_025]));
        assert_eq!(opened(2_099, 4), (0, vec![0, 0, 0, 2_099]));
        assert_eq!(opened(2_099, 3), (4, vec![9; 3]));
        for year in [0, 2_024, 2_100, u64::MAX] {
            assert_eq!(opened(year, 4), (15, vec![0; 4]));
            assert_eq!(opened(year, 3), (15, vec![9; 3]));
            assert_eq!(opened(year, 5), (15, vec![9; 5]));
        }
    }

    /// A step over these words in 2025, with so many bytes of text and such an end:
    /// the refusal and the report.
    fn stepped(mark: u64, bytes: usize, end: u64) -> (u64, [u64; STEPPED]) {
        stepped_in(2_025, mark, bytes, end)
    }

    fn stepped_in(year: u64, mark: u64, bytes: usize, end: u64) -> (u64, [u64; STEPPED]) {
        stepped_over(&mut [9, 0, mark, year], SHORTFALLS, bytes, end)
    }

    fn stepped_over(
        counts: &mut [u64],
        shortfalls: usize,
        bytes: usize,
        end: u64,
    ) -> (u64, [u64; STEPPED]) {
        let mut words = BookWords {
            counts,
            shortfalls: &mut vec![0; shortfalls],
            balances: &mut [5, 0],
        };
        let bytes = &mut vec![7; bytes];
        let mut report = [9; STEPPED];
        let text = LentText { bytes, end };
        let refusal = words.step(&[0; 16], &[0; 4_104], text, &mut report);
        assert!(bytes.iter().all(|byte| *byte == 7));
        (refusal, report)
    }

    #[test]
    fn the_room_is_looked_at_before_the_hour() {
        assert_eq!(stepped(0, 12_483, 3), (7, [0, 3, 72, 9, 0]));
        assert_eq!(stepped(0, 12_482, 3), (0, [1, 3, 0, 0, 0]));
        assert_eq!(stepped(2, 12_482, 3), (1, [0, 3, 0, 0, 0]));
        // A mark of a book that is not at its end, which the hour finds spoiled.
        assert_eq!(stepped(1, 12_483, 3), (1, [0, 3, 72, 9, 0]));
        let most = u64::MAX;
        assert_eq!(stepped(0, 20_000, most), (0, [1, most, 0, 0, 0]));
        // A year outside comes before the mark, the room and the hour.
        assert_eq!(stepped_in(2_100, 0, 12_483, 3), (15, [0, 3, 0, 0, 0]));
        assert_eq!(stepped_in(2_024, 2, 12_482, 3), (15, [0, 3, 0, 0, 0]));
    }

    #[test]
    fn the_letter_of_a_refusal_of_the_words_is_0() {
        let over = |counts: &mut [u64], shortfalls| stepped_over(counts, shortfalls, 12_483, 3);
        let refused = |number| (number, [0, 3, 0, 0, 0]);
        assert_eq!(over(&mut [9, 0, 2, 2_100], SHORTFALLS), refused(15));
        assert_eq!(over(&mut [9, 0, 2, 2_100], 127), refused(15));
        assert_eq!(over(&mut [9, 0, 2], SHORTFALLS), refused(4));
        assert_eq!(over(&mut [9, 0, 2, 2_100, 0], 127), refused(4));
        assert_eq!(over(&mut [9, 0, 2, 2_025], 127), refused(4));
        assert_eq!(over(&mut [9, 0, 2, 2_025], SHORTFALLS), refused(1));
    }

    /// The refusal and the record number of a target call and a row call over
    /// these records, with two prices.
    fn outcomes(records: &[[u8; 16]]) -> [(u64, u64); 2] {
        let rights = &records.concat();
        let asked = asked(rights, &[0; 2], 9);
        let (mut report, lines) = ([9; OUTCOME], &mut vec![0; records.len()]);
        let target = targets(&asked, &mut [0; 64], &mut report);
        let in_target = report[0];
        report = [9; OUTCOME];
        let rows = rows(&asked, lines, &mut report);
        [(target, in_target), (rows, report[0])]
    }

    /// Those of an hour, with two prices, a step, a target call and a row call.
    fn record_numbers(records: &[[u8; 16]]) -> [(u64, u64); 4] {
        let rights = &records.concat();
        let mut words = BookWords {
            counts: &mut [9, 0, 0, 2_025],
            shortfalls: &mut [0; SHORTFALLS],
            balances: &mut [5, 0],
        };
        let mut stepped = [9; STEPPED];
        let bytes = &mut [0; STEP_ROOM];
        let text = LentText { bytes, end: 0 };
        let step = words.step(rights, &[0; 4_104], text, &mut stepped);
        let mut settled = [9; SETTLED];
        let event = Event::Hour(HourInput {
            rights,
            prices: &[0; 2],
            collected: 1,
        });
        let hour = words.settle(event, &mut [0; 64], &mut settled);
        let in_hour = settled[0].unsigned_abs();
        let [targets, rows] = outcomes(records);
        [(hour, in_hour), (step, stepped[4]), targets, rows]
    }

    #[test]
    fn reports_have_the_lowest_record_with_the_fault() {
        let good = [5, 0, 0, 0, 1, 0, 0, 2, 10, 0, 0, 0, 1, 0, 109, 1];
        let mut unpriced = good;
        unpriced[4] = 2;
        let bad = [0; 16];
        assert_eq!(record_numbers(&[good, unpriced, bad, bad]), [(7, 2); 4]);
        let eight = record_numbers(&[good, unpriced, good, unpriced]);
        // A step has all 1,024 prices.
        assert_eq!(eight, [(8, 1), (0, 0), (8, 1), (8, 1)]);
        assert_eq!(record_numbers(&[good, good]), [(0, 0); 4]);
    }

    #[test]
    fn a_report_of_another_number_comes_before_the_rows() {
        let (mut lines, mut report) = ([7], [9; 2]);
        let file = [5, 0, 0, 0, 1, 0, 0, 2, 10, 0, 0, 0, 1, 0, 109, 1];
        let [late, now] = [8_760, 0].map(|hour| asked(&file, &[0, 1], hour));
        let outside = Asked {
            year: 2_100,
            ..late
        };
        assert_eq!(rows(&late, &mut lines, &mut report), 4);
        assert_eq!(rows(&now, &mut lines, &mut []), 4);
        assert_eq!(rows(&outside, &mut lines, &mut report), 15);
        assert_eq!((lines, report), ([7], [9; 2]));
        assert_eq!(rows(&outside, &mut lines, &mut report[..1]), 15);
        assert_eq!((lines, report), ([7], [0, 9]));
        assert_eq!(rows(&now, &mut lines, &mut report[..1]), 0);
        assert_eq!((lines, report), ([1], [0, 9]));
    }

    #[test]
    fn a_year_outside_comes_before_a_report_of_another_number() {
        let mut report = [9; STEP + 1];
        for year in [0, 2_024, 2_100, u64::MAX] {
            assert_eq!(calendar(year, 0, &mut report), 15);
            assert_eq!(days(year, &mut [], &mut report), 15);
            assert_eq!(read(year, &[0; 15], 0, &mut report), 15);
            assert_eq!(next(year, &[0; 15], 0, &mut report), 15);
            assert_eq!(report, [9; STEP + 1]);
        }
        assert_eq!(calendar(2_025, u64::MAX, &mut report), 4);
        assert_eq!(read(2_100, &[0; 16], 0, &mut report[..RIGHT]), 15);
        assert_eq!(report, [0, 0, 0, 0, 0, 0, 0, 0, 9, 9, 9]);
    }

    #[test]
    fn the_day_table_of_a_year() {
        let (mut table, mut report) = ([99; 367], [9; 2]);
        assert_eq!(days(2_025, &mut table, &mut report), 4);
        assert_eq!((table, report), ([99; 367], [9; 2]));
        assert_eq!(days(2_027, &mut table[..365], &mut report[..1]), 4);
        assert_eq!((table, report), ([99; 367], [0, 9]));
        assert_eq!(days(2_025, &mut table, &mut report[..1]), 0);
        // A Sunday in June, a Monday; a Sunday in May, which is the last day.
        assert_eq!(
            ([table[0], table[1], table[364]], report[0]),
            ([0, 1, 22], 365)
        );
        assert_eq!(table[365..], [99; 2]);
        assert_eq!(days(2_027, &mut table, &mut report[..1]), 0);
        // Tuesday 1 June 2027, Wednesday 31 May 2028.
        assert_eq!(
            ([table[0], table[365], table[366]], report[0]),
            ([1, 23, 99], 366)
        );
    }

    #[test]
    fn a_report_of_another_number_comes_before_the_limits() {
        let (mut paid, mut report) = ([7; 3], [9; 2]);
        let mut refusal = |owners, report: &mut [u64]| {
            let limits = Limits {
                owners,
                ..split::SMALL_POOL
            };
            split(limits, 100, &[50; 3], &mut paid, report)
        };
        assert_eq!([refusal(2, &mut report), refusal(3, &mut [])], [4; 2]);
        assert_eq!(report, [9; 2]);
        assert_eq!((refusal(2, &mut report[..1]), report), (16, [0, 9]));
        report = [9; 2];
        assert_eq!((refusal(3, &mut report[..1]), report), (0, [0, 9]));
        assert_eq!(paid, [34, 33, 33]);
    }

    fn behind_two(bytes: &mut [u8]) -> LentText<'_> {
        LentText { bytes, end: 2 }
    }

    #[test]
    fn a_closing_with_just_enough_room() {
        // The year is not looked at.
        let words = BookWords {
            counts: &mut [9, 0, 0, 2_100],
            shortfalls: &mut [0; SHORTFALLS],
            balances: &mut [5, 0],
        };
        let mut bytes = [b'-'; CLOSING_ROOM + 2];
        let mut report = [9; CLOSED];
        let short = behind_two(&mut bytes[..CLOSING_ROOM + 1]);
        assert_eq!(words.closing(0, short, &mut report), 0);
        assert_eq!((report, bytes[2]), ([1, 2], b'-'));
        assert_eq!(words.closing(0, behind_two(&mut bytes), &mut report), 0);
        assert_eq!((report, &bytes[..9]), ([0, 8], &b"--F 5 0\n-"[..]));
    }

    #[test]
    fn a_sentence_with_just_enough_room() {
        let stopped = Stopped {
            refusal: WRONG_LENGTH,
            ..Stopped::default()
        };
        let mut bytes = [b'-'; SENTENCE_ROOM + 2];
        let short = behind_two(&mut bytes[..SENTENCE_ROOM + 1]);
        assert_eq!((sentence(&stopped, short), bytes[2]), (2, b'-'));
        assert_eq!(sentence(&stopped, behind_two(&mut bytes)), 43);
        let expected = b"Rights file is refused: 4, wrong length.\n-";
        assert_eq!(bytes[2..44], *expected);
    }

    #[test]
    fn the_reader_goes_on_past_a_bad_record() {
        let mut report = [9; STEP];
        assert_eq!(next(2_025, &[0; 32], 0, &mut report), 7);
        assert_eq!(report, [0, 0, 0, 0, 0, 0, 0, 0, 1, 0]);
        assert_eq!(next(2_025, &[0; 32], 2, &mut report), 0);
        assert_eq!(report, [0, 0, 0, 0, 0, 0, 0, 0, 2, 1]);
        assert_eq!(next(2_025, &[0; 32], 2, &mut report[..9]), 4);
        assert_eq!(report[8], 2);
        for file in [&[][..], &[0; 15], &[0; 32]] {
            report = [9; STEP];
            assert_eq!(next(2_024, file, 2, &mut report), 15);
            assert_eq!(report, [0, 0, 0, 0, 0, 0, 0, 0, 2, 0]);
        }
    }
}
