//! The calls of the archive, with slices in place of pointers and lengths. The
//! wrappers have the shape of `reference::words`, the second calculation's side.

use reference::book::HourInput;
use reference::sentence::Stopped;
use reference::split::Limits;
use reference::target::Asked;
use reference::words::{BookWords, Event, LentText};

#[link(name = "pupcopper", kind = "static")]
extern "C" {
    fn pupcopper_class(year: u64, hour: u64) -> u8;
    fn pupcopper_cents(tenths: i64) -> i64;
    fn pupcopper_calendar(year: u64, hour: u64, report: *mut u64, report_words: usize) -> u8;
    fn pupcopper_days(
        year: u64,
        table: *mut u8,
        table_bytes: usize,
        report: *mut u64,
        report_words: usize,
    ) -> u8;
    fn pupcopper_read(
        year: u64,
        rights: *const u8,
        rights_bytes: usize,
        record: u64,
        report: *mut u64,
        report_words: usize,
    ) -> u8;
    fn pupcopper_write(
        year: u64,
        rights: *mut u8,
        rights_bytes: usize,
        record: u64,
        right: *const u64,
        right_words: usize,
    ) -> u8;
    fn pupcopper_next(
        year: u64,
        rights: *const u8,
        rights_bytes: usize,
        next: u64,
        report: *mut u64,
        report_words: usize,
    ) -> u8;
    fn pupcopper_targets(
        year: u64,
        rights: *const u8,
        rights_bytes: usize,
        prices: *const i32,
        prices_count: usize,
        hour: u64,
        lines: *mut i64,
        lines_count: usize,
        report: *mut u64,
        report_words: usize,
    ) -> u8;
    fn pupcopper_rows(
        year: u64,
        rights: *const u8,
        rights_bytes: usize,
        prices: *const i32,
        prices_count: usize,
        hour: u64,
        lines: *mut i64,
        lines_count: usize,
        report: *mut u64,
        report_words: usize,
    ) -> u8;
    fn pupcopper_split(
        owners: usize,
        total: u64,
        fund: u64,
        wants: *const u64,
        wants_count: usize,
        payments: *mut u64,
        payments_count: usize,
        report: *mut u64,
        report_words: usize,
    ) -> u8;
    fn pupcopper_open(
        year: u64,
        counts: *mut u64,
        counts_words: usize,
        shortfalls: *mut u64,
        shortfalls_words: usize,
        balances: *mut i64,
        balances_words: usize,
    ) -> u8;
    fn pupcopper_hour(
        counts: *mut u64,
        counts_words: usize,
        shortfalls: *mut u64,
        shortfalls_words: usize,
        balances: *mut i64,
        balances_words: usize,
        rights: *const u8,
        rights_bytes: usize,
        prices: *const i32,
        prices_count: usize,
        collected: i64,
        lines: *mut i64,
        lines_count: usize,
        report: *mut i64,
        report_words: usize,
    ) -> u8;
    fn pupcopper_month_end(
        counts: *mut u64,
        counts_words: usize,
        shortfalls: *mut u64,
        shortfalls_words: usize,
        balances: *mut i64,
        balances_words: usize,
        lines: *mut i64,
        lines_count: usize,
        report: *mut i64,
        report_words: usize,
    ) -> u8;
    fn pupcopper_year_end(
        counts: *mut u64,
        counts_words: usize,
        shortfalls: *mut u64,
        shortfalls_words: usize,
        balances: *mut i64,
        balances_words: usize,
        lines: *mut i64,
        lines_count: usize,
        report: *mut i64,
        report_words: usize,
    ) -> u8;
    fn pupcopper_step(
        counts: *mut u64,
        counts_words: usize,
        shortfalls: *mut u64,
        shortfalls_words: usize,
        balances: *mut i64,
        balances_words: usize,
        rights: *const u8,
        rights_bytes: usize,
        block: *const u8,
        block_bytes: usize,
        text: *mut u8,
        text_bytes: usize,
        end: usize,
        report: *mut u64,
        report_words: usize,
    ) -> u8;
    fn pupcopper_closing(
        counts: *const u64,
        counts_words: usize,
        shortfalls: *const u64,
        shortfalls_words: usize,
        balances: *const i64,
        balances_words: usize,
        refusal: u8,
        text: *mut u8,
        text_bytes: usize,
        end: usize,
        report: *mut u64,
        report_words: usize,
    ) -> u8;
    fn pupcopper_sentence(
        letter: u8,
        number: u64,
        refusal: u8,
        record: u64,
        text: *mut u8,
        text_bytes: usize,
        at: usize,
    ) -> usize;
}

// Why each call below is safe: every pointer and length are those of one Rust
// slice, so they are not null, also where it is empty, and a slice that is
// written overlaps no other.

pub fn class(year: u64, hour: u64) -> u64 {
    u64::from(unsafe { pupcopper_class(year, hour) })
}

pub fn cents(tenths: i64) -> i64 {
    unsafe { pupcopper_cents(tenths) }
}

pub fn calendar(year: u64, hour: u64, report: &mut [u64]) -> u64 {
    u64::from(unsafe { pupcopper_calendar(year, hour, report.as_mut_ptr(), report.len()) })
}

pub fn days(year: u64, table: &mut [u8], report: &mut [u64]) -> u64 {
    let refusal = unsafe {
        pupcopper_days(
            year,
            table.as_mut_ptr(),
            table.len(),
            report.as_mut_ptr(),
            report.len(),
        )
    };
    u64::from(refusal)
}

pub fn read(year: u64, rights: &[u8], record: u64, report: &mut [u64]) -> u64 {
    let refusal = unsafe {
        pupcopper_read(
            year,
            rights.as_ptr(),
            rights.len(),
            record,
            report.as_mut_ptr(),
            report.len(),
        )
    };
    u64::from(refusal)
}

pub fn write(year: u64, rights: &mut [u8], record: u64, right: &[u64]) -> u64 {
    let refusal = unsafe {
        pupcopper_write(
            year,
            rights.as_mut_ptr(),
            rights.len(),
            record,
            right.as_ptr(),
            right.len(),
        )
    };
    u64::from(refusal)
}

pub fn next(year: u64, rights: &[u8], next: u64, report: &mut [u64]) -> u64 {
    let refusal = unsafe {
        pupcopper_next(
            year,
            rights.as_ptr(),
            rights.len(),
            next,
            report.as_mut_ptr(),
            report.len(),
        )
    };
    u64::from(refusal)
}

/// A target call and a row call are lent the same.
type Asking = unsafe extern "C" fn(
    u64,
    *const u8,
    usize,
    *const i32,
    usize,
    u64,
    *mut i64,
    usize,
    *mut u64,
    usize,
) -> u8;

pub fn targets(asked: &Asked, lines: &mut [i64], report: &mut [u64]) -> u64 {
    ask(pupcopper_targets, asked, lines, report)
}

pub fn rows(asked: &Asked, lines: &mut [i64], report: &mut [u64]) -> u64 {
    ask(pupcopper_rows, asked, lines, report)
}

fn ask(call: Asking, asked: &Asked, lines: &mut [i64], report: &mut [u64]) -> u64 {
    let refusal = unsafe {
        call(
            asked.year,
            asked.rights.as_ptr(),
            asked.rights.len(),
            asked.prices.as_ptr(),
            asked.prices.len(),
            asked.hour,
            lines.as_mut_ptr(),
            lines.len(),
            report.as_mut_ptr(),
            report.len(),
        )
    };
    u64::from(refusal)
}

pub fn split(
    limits: Limits,
    fund: u64,
    wants: &[u64],
    payments: &mut [u64],
    report: &mut [u64],
) -> u64 {
    let refusal = unsafe {
        pupcopper_split(
            limits.owners,
            limits.total,
            fund,
            wants.as_ptr(),
            wants.len(),
            payments.as_mut_ptr(),
            payments.len(),
            report.as_mut_ptr(),
            report.len(),
        )
    };
    u64::from(refusal)
}

pub fn open(year: u64, book: BookWords) -> u64 {
    let refusal = unsafe {
        pupcopper_open(
            year,
            book.counts.as_mut_ptr(),
            book.counts.len(),
            book.shortfalls.as_mut_ptr(),
            book.shortfalls.len(),
            book.balances.as_mut_ptr(),
            book.balances.len(),
        )
    };
    u64::from(refusal)
}

pub fn settle(book: BookWords, event: Event, lines: &mut [i64], report: &mut [i64]) -> u64 {
    match event {
        Event::Hour(input) => hour(book, input, lines, report),
        Event::MonthEnd => end(pupcopper_month_end, book, lines, report),
        Event::YearEnd => end(pupcopper_year_end, book, lines, report),
    }
}

fn hour(book: BookWords, input: HourInput, lines: &mut [i64], report: &mut [i64]) -> u64 {
    let refusal = unsafe {
        pupcopper_hour(
            book.counts.as_mut_ptr(),
            book.counts.len(),
            book.shortfalls.as_mut_ptr(),
            book.shortfalls.len(),
            book.balances.as_mut_ptr(),
            book.balances.len(),
            input.rights.as_ptr(),
            input.rights.len(),
            input.prices.as_ptr(),
            input.prices.len(),
            input.collected,
            lines.as_mut_ptr(),
            lines.len(),
            report.as_mut_ptr(),
            report.len(),
        )
    };
    u64::from(refusal)
}

/// A month end and a year end are lent the same.
type End = unsafe extern "C" fn(
    *mut u64,
    usize,
    *mut u64,
    usize,
    *mut i64,
    usize,
    *mut i64,
    usize,
    *mut i64,
    usize,
) -> u8;

fn end(call: End, book: BookWords, lines: &mut [i64], report: &mut [i64]) -> u64 {
    let refusal = unsafe {
        call(
            book.counts.as_mut_ptr(),
            book.counts.len(),
            book.shortfalls.as_mut_ptr(),
            book.shortfalls.len(),
            book.balances.as_mut_ptr(),
            book.balances.len(),
            lines.as_mut_ptr(),
            lines.len(),
            report.as_mut_ptr(),
            report.len(),
        )
    };
    u64::from(refusal)
}

pub fn step(
    book: BookWords,
    rights: &[u8],
    block: &[u8],
    text: LentText,
    report: &mut [u64],
) -> u64 {
    let refusal = unsafe {
        pupcopper_step(
            book.counts.as_mut_ptr(),
            book.counts.len(),
            book.shortfalls.as_mut_ptr(),
            book.shortfalls.len(),
            book.balances.as_mut_ptr(),
            book.balances.len(),
            rights.as_ptr(),
            rights.len(),
            block.as_ptr(),
            block.len(),
            text.bytes.as_mut_ptr(),
            text.bytes.len(),
            text.end as usize,
            report.as_mut_ptr(),
            report.len(),
        )
    };
    u64::from(refusal)
}

pub fn closing(book: BookWords, refusal: u8, text: LentText, report: &mut [u64]) -> u64 {
    let refusal = unsafe {
        pupcopper_closing(
            book.counts.as_ptr(),
            book.counts.len(),
            book.shortfalls.as_ptr(),
            book.shortfalls.len(),
            book.balances.as_ptr(),
            book.balances.len(),
            refusal,
            text.bytes.as_mut_ptr(),
            text.bytes.len(),
            text.end as usize,
            report.as_mut_ptr(),
            report.len(),
        )
    };
    u64::from(refusal)
}

/// The refusal crosses as one byte.
pub fn sentence(stopped: &Stopped, text: LentText) -> u64 {
    let place = unsafe {
        pupcopper_sentence(
            stopped.letter,
            stopped.number,
            stopped.refusal as u8,
            stopped.record,
            text.bytes.as_mut_ptr(),
            text.bytes.len(),
            text.end as usize,
        )
    };
    place as u64
}
