//! The bounds of 1: "each balance, and the two together, lie between hours times
//! -4,000,000,000 and hours times 4,004,000,000,000".

use super::{at, hour, is_spoiled};
use crate::book::Book;

const LEAST: i64 = -4_000_000_000;
const TOP: i64 = 4_004_000_000_000;

/// So many hours and months that fit each other.
const TIMES: [(u64, u64); 5] = [(1, 0), (2, 0), (720, 0), (720, 1), (8_760, 12)];

/// Such a book with a month balance and a year balance.
fn with((hours, months): (u64, u64), month: i64, year: i64) -> Book {
    Book {
        month_balance: month,
        year_balance: year,
        ..at(hours, months)
    }
}

#[test]
fn each_balance_at_its_limits_and_one_past() {
    for time in TIMES {
        let hours = time.0 as i64;
        let (least, top) = (hours * LEAST, hours * TOP);
        for within in [least, least + 1, -1, 0, 1, top - 1, top] {
            assert!(!is_spoiled(with(time, within, 0)), "{time:?}: {within}");
            assert!(!is_spoiled(with(time, 0, within)), "{time:?}: {within}");
        }
        for outside in [least - 1, top + 1, i64::MIN, i64::MAX] {
            assert!(is_spoiled(with(time, outside, 0)), "{time:?}: {outside}");
            assert!(is_spoiled(with(time, 0, outside)), "{time:?}: {outside}");
        }
    }
}

/// Each within its own bounds.
#[test]
fn the_two_together_at_the_limits_and_one_past() {
    for time in TIMES {
        let hours = time.0 as i64;
        for limit in [hours * LEAST, hours * TOP] {
            let past = limit.signum();
            for part in [0, past, limit / 3, limit - past, limit] {
                let rest = limit - part;
                assert!(!is_spoiled(with(time, part, rest)), "{time:?}: {part}");
                if rest != limit {
                    let book = with(time, part, rest + past);
                    assert!(is_spoiled(book), "{time:?}: {part}");
                }
            }
        }
        let (least, top) = (hours * LEAST, hours * TOP);
        assert!(!is_spoiled(with(time, least, top)));
        assert!(!is_spoiled(with(time, top, least)));
    }
}

/// The two together lie within the bounds.
#[test]
fn one_that_the_other_makes_up_for() {
    for time in TIMES {
        let hours = time.0 as i64;
        for limit in [hours * LEAST, hours * TOP] {
            let past = limit.signum();
            assert!(is_spoiled(with(time, limit + past, -past)), "{time:?}");
            assert!(is_spoiled(with(time, -past, limit + past)), "{time:?}");
        }
    }
}

#[test]
fn before_the_first_hour_both_are_0() {
    assert!(!is_spoiled(with((0, 0), 0, 0)));
    for (month, year) in [(0, 1), (1, 0), (0, -1), (-1, 0), (1, -1), (-1, 1)] {
        assert!(is_spoiled(with((0, 0), month, year)), "{month} and {year}");
    }
}

/// In 64 bits the sums of these would wrap, some of them to 0.
#[test]
fn sums_past_64_bits() {
    let (min, max) = (i64::MIN, i64::MAX);
    let sums = [(max, max), (min, min), (max, 1), (-1, min), (min, max)];
    for (month, year) in sums {
        for time in [(0, 0), (1, 0), (8_760, 12)] {
            let book = with(time, month, year);
            assert!(is_spoiled(book), "{time:?}: {month} and {year}");
        }
    }
}

#[test]
fn the_three_events_refuse_such_a_book() {
    let refusals = |time, month, year| {
        let book = with(time, month, year);
        let ends = [Book::month_end, Book::year_end].map(|end| end(book, &mut [0; 64]).refusal);
        [hour(book, 1, 0).refusal, ends[0], ends[1]]
    };
    for least in [719 * LEAST, 719 * TOP] {
        assert_eq!(refusals((719, 0), least, 0), [0, 3, 3]);
        assert_eq!(refusals((719, 0), least + least.signum(), 0), [1; 3]);
    }
    for month in [720 * LEAST - 1, 720 * TOP + 1, i64::MIN] {
        assert_eq!(refusals((720, 0), 0, month), [1; 3]);
        assert_eq!(refusals((720, 0), month, 0), [1; 3]);
    }
    assert_eq!(refusals((720, 0), 720 * LEAST, 0), [3, 0, 3]);
    assert_eq!(refusals((8_760, 12), 0, 8_760 * LEAST), [3, 3, 0]);
    assert_eq!(refusals((8_760, 12), 0, 8_760 * LEAST - 1), [1; 3]);
}
