//! The calendar call, the class that the billing host gets, and the day table.

use reference::calendar::{host_number, FIRST_YEAR, LAST_YEAR};
use reference::words;

use crate::compare::{Case, Kind};
use crate::drawn::{calendar_for, days_of, draw_year, number_of, old_words};
use crate::lent::{Given, Lent, Row};
use crate::library;

pub fn compare_calendar(case: &mut Case, year: u64, hour: u64, lent: &Lent) -> Given {
    case.compare(
        "calendar",
        &format!("year {year}, hour {hour}"),
        lent,
        |lent| library::calendar(year, hour, lent.report.slice_mut()),
        |lent| words::calendar(year, hour, lent.report.slice_mut()),
    )
}

/// The class stands in place of the refusal.
pub fn compare_class(case: &mut Case, year: u64, hour: u64) -> u64 {
    let given = case.compare(
        "class",
        &format!("year {year}, hour {hour}; the class stands in place of the refusal"),
        &Lent::default(),
        |_| library::class(year, hour),
        |_| host_number(year, hour),
    );
    given.refusal
}

pub fn compare_days(case: &mut Case, year: u64, lent: &Lent) -> Given {
    case.compare(
        "days",
        &format!("year {year}"),
        lent,
        |lent| library::days(year, lent.table.slice_mut(), lent.report.slice_mut()),
        |lent| words::days(year, lent.table.slice_mut(), lent.report.slice_mut()),
    )
}

/// Gives what the library's calendar call gave.
fn compare_hour(case: &mut Case, year: u64, hour: u64, report_words: usize) -> Given {
    let lent = Lent {
        report: old_words(&mut case.draws, report_words),
        ..Lent::default()
    };
    compare_class(case, year, hour);
    compare_calendar(case, year, hour, &lent)
}

/// The whole year 2025 and some days after it; the seed is the hour.
#[test]
fn every_hour() {
    let kind = Kind {
        test: "calendar::every_hour",
        base: None,
        cases: 9_000,
        refusals: &[("calendar", &[0, 3]), ("class", &[0, 1, 22, 23, 255])],
    };
    kind.run(|case| {
        compare_hour(case, 2_025, case.seed, words::HOUR);
    });
}

/// What the paper gives of 2025: "Month m ends after this many hours", and "4,064
/// peak hours and 4,696 off-peak".
const ENDS_OF_2025: [u64; 12] = [
    720, 1_464, 2_208, 2_928, 3_672, 4_392, 5_136, 5_880, 6_552, 7_296, 8_016, 8_760,
];
const PEAK_OF_2025: u64 = 4_064;

/// A year's hours, counted in what the library gives.
#[derive(Default)]
struct Counted {
    /// How many are of each month, from 0.
    months: [u64; 12],
    peak: u64,
}

impl Counted {
    /// The hours one by one, and some after the year.
    fn in_hours(case: &mut Case, year: u64) -> Counted {
        let mut counted = Counted::default();
        for hour in 0..8_900 {
            let given = compare_hour(case, year, hour, words::HOUR);
            if given.refusal == 0 {
                let report = given.lent.report.slice();
                counted.months[report[1] as usize] += 1;
                counted.peak += report[2];
            }
        }
        counted
    }

    /// The hours of the days in a table, of which a working day has 16 that are peak,
    /// 6 to 21.
    fn in_table(table: &[u8]) -> Counted {
        let mut counted = Counted::default();
        for entry in table {
            counted.months[usize::from(entry / 2)] += 24;
            counted.peak += 16 * u64::from(entry % 2);
        }
        counted
    }

    /// These are the second calculation's month ends and peak hours, and of 2025 the
    /// paper's.
    fn check(&self, year: u64) {
        let ends = std::array::from_fn(|month| self.months[..=month].iter().sum());
        let hours: u64 = self.months.iter().sum();
        let calendar = calendar_for(year);
        assert_eq!(
            (ends, hours),
            (calendar.month_ends, calendar.hours()),
            "{year}"
        );
        let peak = (0..hours).filter(|hour| calendar.is_peak(*hour));
        assert_eq!(self.peak, peak.count() as u64, "{year}");
        if year == 2_025 {
            assert_eq!((ends, self.peak), (ENDS_OF_2025, PEAK_OF_2025));
            assert_eq!(hours - self.peak, 4_696);
        }
    }
}

/// All years; the seed is the year's number, 0 for 2025.
#[test]
fn every_hour_of_every_year() {
    let kind = Kind {
        test: "calendar::every_hour_of_every_year",
        base: None,
        cases: LAST_YEAR - FIRST_YEAR + 1,
        refusals: &[("calendar", &[0, 3]), ("class", &[0, 1, 22, 23, 255])],
    };
    kind.run(|case| {
        let year = FIRST_YEAR + case.seed;
        Counted::in_hours(case, year).check(year);
    });
}

/// A table of so many bytes, and a report of so many words.
pub fn lend_table(case: &mut Case, bytes: usize, report_words: usize) -> Lent {
    let draws = &mut case.draws;
    Lent {
        table: Row::lent(&[], bytes, || draws.any() as u8),
        report: old_words(draws, report_words),
        ..Lent::default()
    }
}

/// An entry of the library's table is the class of the day's noon, which is peak on a
/// working day: the second calculation's, and the library's.
fn check_entries(case: &mut Case, year: u64, table: &[u8]) {
    for (day, entry) in table.iter().enumerate() {
        let (entry, noon) = (u64::from(*entry), 24 * day as u64 + 12);
        assert_eq!(
            entry,
            host_number(year, noon),
            "{year}, {day} days before it"
        );
        assert_eq!(entry, compare_class(case, year, noon));
    }
    Counted::in_table(table).check(year);
}

/// All years, with tables that are too short, just long enough and longer; the seed
/// is the year's number, 0 for 2025.
#[test]
fn every_day_table() {
    let kind = Kind {
        test: "calendar::every_day_table",
        base: None,
        cases: LAST_YEAR - FIRST_YEAR + 1,
        refusals: &[("days", &[0, 4])],
    };
    kind.run(|case| {
        let year = FIRST_YEAR + case.seed;
        let days = days_of(year) as usize;
        for bytes in [0, 1, 364, 365, 366, 367, 1_000] {
            for report_words in [0, words::TABLE, 2] {
                let lent = lend_table(case, bytes, report_words);
                let given = compare_days(case, year, &lent);
                let good = bytes >= days && report_words == words::TABLE;
                assert_eq!(given.refusal, if good { 0 } else { 4 });
                if good {
                    assert_eq!(given.lent.report.cells[0], days as u64);
                    check_entries(case, year, &given.lent.table.cells[..days]);
                }
            }
        }
    });
}

#[test]
fn any_day_table() {
    let kind = Kind {
        test: "calendar::any_day_table",
        base: Some(8_212_890_625_000_000_019),
        cases: 50_000,
        refusals: &[("days", &[0, 4, 15])],
    };
    kind.run(|case| {
        let year = draw_year(&mut case.draws);
        let bytes = number_of(&mut case.draws, 366, 3);
        let report_words = number_of(&mut case.draws, words::TABLE, 16);
        let lent = lend_table(case, bytes, report_words);
        compare_days(case, year, &lent);
    });
}

/// Hours near the year's end, and such that only their low bytes are hours.
#[test]
fn any_hour() {
    let kind = Kind {
        test: "calendar::any_hour",
        base: Some(5_573_589_319_906_701_683),
        cases: 400_000,
        refusals: &[("calendar", &[0, 3, 4, 15]), ("class", &[255])],
    };
    kind.run(|case| {
        let draws = &mut case.draws;
        let hour = match draws.below(4) {
            0 => draws.below(20_000),
            1 => draws.one_of(&[1 << 16, 1 << 32, 1 << 63]) + draws.below(8_760),
            2 => draws.one_of(&[8_760, 8_784]) + draws.below(3) - 1,
            _ => draws.any(),
        };
        let year = draw_year(draws);
        let report_words = number_of(draws, words::HOUR, 32);
        compare_hour(case, year, hour, report_words);
    });
}
