//! The calendars of the operating years. Each is made of dates: the days from one
//! 1 June to the 31 May after it are counted by their day numbers, and each is
//! looked up as a date.

use std::sync::LazyLock;

use crate::civil::{date, date_of, dates_on, day_number, weekday, Date};
use crate::civil::{MONDAY, SATURDAY, SUNDAY, THURSDAY};
use crate::refusal::{ACCEPTED, NO_SUCH_YEAR, OUT_OF_TURN, WRONG_LENGTH};

/// "a June that starts any year from 2025 to 2099".
pub const FIRST_YEAR: u64 = 2_025;
pub const LAST_YEAR: u64 = 2_099;
/// "The program keeps 2025".
pub const PROGRAM_YEAR: u64 = 2_025;

/// A day of an operating year.
struct Day {
    /// "Months are numbered 0 (June) to 11 (May)."
    month: u64,
    working: bool,
}

/// The calendar of an operating year.
pub struct Calendar {
    days: Vec<Day>,
    /// "Month m ends after this many hours".
    pub month_ends: [u64; 12],
}

/// One for each of the years.
static CALENDARS: LazyLock<Vec<Calendar>> =
    LazyLock::new(|| (FIRST_YEAR..=LAST_YEAR).map(Calendar::new).collect());

/// The calendar of a year; none "when the year is outside 2025 to 2099".
pub fn calendar_of(year: u64) -> Option<&'static Calendar> {
    let at = year.checked_sub(FIRST_YEAR)?;
    CALENDARS.get(usize::try_from(at).ok()?)
}

/// "a holiday on a Sunday is kept on the Monday after".
fn kept(holiday: Date) -> Date {
    let number = day_number(holiday);
    if weekday(number) == SUNDAY {
        return date_of(number + 1);
    }
    holiday
}

/// "Holidays are 1 January, the last Monday of May, 4 July, the first Monday of
/// September, the fourth Thursday of November and 25 December": those from June
/// on, then those of the next year.
fn holidays(year: u64) -> [Date; 6] {
    let september = dates_on(year, 9, MONDAY);
    let november = dates_on(year, 11, THURSDAY);
    let may = dates_on(year + 1, 5, MONDAY);
    let named = [
        date(year, 7, 4),
        september[0],
        november[3],
        date(year, 12, 25),
        date(year + 1, 1, 1),
        may[may.len() - 1],
    ];
    named.map(kept)
}

/// "Day = hour / 24 (whole part) + 1".
pub fn day_of(hour: u64) -> u64 {
    hour / 24 + 1
}

impl Calendar {
    fn new(year: u64) -> Calendar {
        let holidays = holidays(year);
        let numbers = day_number(date(year, 6, 1))..=day_number(date(year + 1, 5, 31));
        let day = |number| {
            let date = date_of(number);
            let monday_to_friday = ![SUNDAY, SATURDAY].contains(&weekday(number));
            Day {
                // June, the sixth month, is 0.
                month: (date.month + 6) % 12,
                // "A working day is Monday to Friday except the holidays"
                working: monday_to_friday && !holidays.contains(&date),
            }
        };
        let days: Vec<Day> = numbers.map(day).collect();
        let month_ends = std::array::from_fn(|month| {
            let so_far = days.iter().filter(|day| day.month <= month as u64);
            24 * so_far.count() as u64
        });
        Calendar { days, month_ends }
    }

    /// The number of days: "the top day".
    pub fn days(&self) -> u64 {
        self.days.len() as u64
    }

    /// The number of hours: one more than "the top hour".
    pub fn hours(&self) -> u64 {
        24 * self.days()
    }

    /// The number of months that have ended after so many hours.
    pub fn months_ended(&self, hours: u64) -> u64 {
        self.month_ends.iter().filter(|end| **end <= hours).count() as u64
    }

    /// The day of an hour below the year's.
    fn day_at(&self, hour: u64) -> &Day {
        &self.days[(hour / 24) as usize]
    }

    /// "one of the hours 6 to 21 of a working day, counted from 0"; an hour below
    /// the year's.
    pub fn is_peak(&self, hour: u64) -> bool {
        let of_day = hour % 24;
        (6..=21).contains(&of_day) && self.day_at(hour).working
    }

    /// The day table: twice the month, plus 1 on a working day.
    fn table(&self) -> Vec<u8> {
        let entry = |day: &Day| 2 * day.month as u8 + u8::from(day.working);
        self.days.iter().map(entry).collect()
    }
}

/// What a calendar call gives.
#[derive(Clone, Copy, Debug, PartialEq, Eq)]
pub struct HourPlace {
    pub refusal: u64,
    pub day: u64,
    pub month: u64,
    pub peak: bool,
}

/// The calendar call, which is "given a year".
pub fn place(year: u64, hour: u64) -> HourPlace {
    match calendar_of(year) {
        // "15 when the year is outside 2025 to 2099, before any other check"
        None => refused(NO_SUCH_YEAR),
        // "an hour number above 8,759 in calendar or target calls", where "the top
        // hour .. come from that year"
        Some(calendar) if hour >= calendar.hours() => refused(OUT_OF_TURN),
        Some(calendar) => HourPlace {
            refusal: ACCEPTED,
            day: day_of(hour),
            month: calendar.day_at(hour).month,
            peak: calendar.is_peak(hour),
        },
    }
}

/// "A refused call without a book gives 0 for all its other values".
fn refused(refusal: u64) -> HourPlace {
    HourPlace {
        refusal,
        day: 0,
        month: 0,
        peak: false,
    }
}

/// The number the billing host gets: "twice the month number, plus 1 in a peak
/// hour, or 255 for an hour above 8,759"; "the C host gets 255 for 15 too".
pub fn host_number(year: u64, hour: u64) -> u64 {
    let place = place(year, hour);
    if place.refusal != ACCEPTED {
        return 255;
    }
    2 * place.month + u64::from(place.peak)
}

/// What a call for the day table gives besides the table.
#[derive(Clone, Copy, Debug, PartialEq, Eq)]
pub struct TableResult {
    pub refusal: u64,
    pub days: u64,
}

/// "the day table must be made for a June that starts any year from 2025 to 2099":
/// one entry for each day. A table with fewer is of wrong length; of a longer one
/// the entries past the year's days stay.
pub fn day_table(year: u64, table: &mut [u8]) -> TableResult {
    let refused = |refusal| TableResult { refusal, days: 0 };
    let Some(calendar) = calendar_of(year) else {
        return refused(NO_SUCH_YEAR);
    };
    let entries = calendar.table();
    if table.len() < entries.len() {
        return refused(WRONG_LENGTH);
    }
    table[..entries.len()].copy_from_slice(&entries);
    TableResult {
        refusal: ACCEPTED,
        days: calendar.days(),
    }
}

#[cfg(test)]
mod tests {
    use super::*;

    fn calendar(year: u64) -> &'static Calendar {
        calendar_of(year).expect("a year from 2025 to 2099")
    }

    /// The days, from 1, of the year's holidays.
    fn holiday_days(year: u64) -> [u64; 6] {
        let first = day_number(date(year, 6, 1));
        holidays(year).map(|holiday| day_number(holiday) - first + 1)
    }

    #[test]
    fn marked_hours() {
        let calendar = calendar(2_025);
        assert!(!calendar.is_peak(29));
        assert!(calendar.is_peak(30));
        assert!(calendar.is_peak(45));
        assert!(!calendar.is_peak(46));
        assert!(!calendar.is_peak(798));
        assert_eq!(day_of(798), 34);
    }

    #[test]
    fn the_year_2025_has_4064_peak_hours() {
        let calendar = calendar(2_025);
        assert_eq!((calendar.days(), calendar.hours()), (365, 8_760));
        let hours = 0..calendar.hours();
        let peak = hours.filter(|hour| calendar.is_peak(*hour)).count();
        assert_eq!(peak, 4_064);
        assert_eq!(8_760 - peak, 4_696);
    }

    /// "The library carries a constant table", of whose year the paper gives these.
    #[test]
    fn month_ends_and_holidays_of_2025() {
        let ends = [
            720, 1_464, 2_208, 2_928, 3_672, 4_392, 5_136, 5_880, 6_552, 7_296, 8_016, 8_760,
        ];
        assert_eq!(calendar(2_025).month_ends, ends);
        assert_eq!(holiday_days(2_025), [34, 93, 180, 208, 215, 359]);
        let entries = calendar(2_025).table();
        let working = |day: u64| {
            let holiday = [34, 93, 180, 208, 215, 359].contains(&day);
            // "Day 1 is a Sunday."
            !holiday && ![0, 6].contains(&((day - 1) % 7))
        };
        for day in 1..=365 {
            let month = ends.iter().filter(|end| **end <= 24 * (day - 1)).count();
            let expected = 2 * month as u8 + u8::from(working(day));
            assert_eq!(entries[day as usize - 1], expected, "day {day}");
        }
    }

    #[test]
    fn months_and_days() {
        assert_eq!(place(2_025, 0).month, 0);
        assert_eq!(place(2_025, 719).month, 0);
        assert_eq!(place(2_025, 720).month, 1);
        assert_eq!(place(2_025, 8_759).month, 11);
        assert_eq!(place(2_025, 8_759).day, 365);
        assert_eq!(place(2_025, 8_760).refusal, 3);
        assert_eq!(place(2_025, u64::MAX).refusal, 3);
        assert_eq!(place(2_027, 8_759).day, 365);
        assert_eq!(place(2_027, 8_783).day, 366);
        assert_eq!(place(2_027, 8_784).refusal, 3);
    }

    #[test]
    fn the_month_ends_are_those_of_the_months_lengths() {
        for year in FIRST_YEAR..=LAST_YEAR {
            // The operating year 2027 has the February of 2028; 2100 has 28 days.
            let february = if year % 4 == 3 && year != 2_099 {
                29
            } else {
                28
            };
            let days = [30, 31, 31, 30, 31, 30, 31, 31, february, 31, 30, 31];
            let mut total = 0;
            for (days, end) in days.iter().zip(calendar(year).month_ends) {
                total += days * 24;
                assert_eq!(total, end, "{year}");
            }
            assert_eq!(calendar(year).hours(), total, "{year}");
        }
    }

    #[test]
    fn leap_years() {
        let days = [2_025, 2_026, 2_027, 2_028, 2_031, 2_095, 2_098, 2_099];
        let days = days.map(|year| calendar(year).days());
        assert_eq!(days, [365, 365, 366, 365, 366, 366, 365, 365]);
    }

    /// What host/days_of_2027.c prints: of 262 days from Monday to Friday four are
    /// holidays, since Christmas and 1 January 2028 are Saturdays. 29 February 2028, a
    /// Tuesday, is day 274.
    #[test]
    fn the_days_of_2027() {
        let table = calendar(2_027).table();
        let working = table.iter().filter(|entry| **entry % 2 == 1).count();
        assert_eq!((table.len(), working), (366, 258));
        let before = day_number(date(2_028, 2, 29)) - day_number(date(2_027, 6, 1));
        assert_eq!((before, table[273]), (273, 2 * 8 + 1));
        let printed = [
            format!("days: {}\nworking days: {working}\n", table.len()),
            format!(
                "29 February 2028: month {}, a working day\n",
                table[273] / 2
            ),
        ];
        assert_eq!(
            printed.concat(),
            include_str!("../../host/days_of_2027.out")
        );
    }

    /// In public calendars 4 July 2027, 25 December 2033 and 1 January 2034 are
    /// Sundays; 4 July 2026 and 1 January 2028 are Saturdays, which move nothing.
    #[test]
    fn holidays_on_a_sunday_are_kept_on_the_monday() {
        let [independence, labour, thanks, christmas, new_year, memorial] = holidays(2_033);
        assert_eq!(independence, date(2_033, 7, 4));
        assert_eq!(labour, date(2_033, 9, 5));
        assert_eq!(thanks, date(2_033, 11, 24));
        assert_eq!(christmas, date(2_033, 12, 26));
        assert_eq!(new_year, date(2_034, 1, 2));
        assert_eq!(memorial, date(2_034, 5, 29));
        assert_eq!(holidays(2_027)[0], date(2_027, 7, 5));
        assert_eq!(holidays(2_026)[0], date(2_026, 7, 4));
        assert_eq!(holidays(2_027)[4], date(2_028, 1, 1));
        // 3 July 2026 and 31 December 2027 are Fridays, and working days.
        assert!(calendar(2_026).days[32].working);
        assert!(calendar(2_027).days[213].working);
    }

    #[test]
    fn years_outside() {
        for year in [0, 1, 2_024, 2_100, (1 << 32) + 2_025, u64::MAX] {
            assert!(calendar_of(year).is_none());
            assert_eq!(place(year, 0), refused(15));
            assert_eq!(place(year, u64::MAX), refused(15));
            assert_eq!(host_number(year, 30), 255);
            let mut table = [7; 366];
            let outside = TableResult {
                refusal: 15,
                days: 0,
            };
            assert_eq!(day_table(year, &mut table), outside);
            assert_eq!(day_table(year, &mut []), outside);
            assert_eq!(table, [7; 366]);
        }
    }

    #[test]
    fn tables_of_any_length() {
        let result = |year, bytes: usize| {
            let mut table = vec![99; bytes];
            let TableResult { refusal, days } = day_table(year, &mut table);
            let untouched = table.iter().filter(|entry| **entry == 99).count();
            (refusal, days, untouched)
        };
        assert_eq!(result(2_025, 364), (4, 0, 364));
        assert_eq!(result(2_025, 365), (0, 365, 0));
        assert_eq!(result(2_025, 366), (0, 365, 1));
        assert_eq!(result(2_027, 365), (4, 0, 365));
        assert_eq!(result(2_027, 366), (0, 366, 0));
        assert_eq!(result(2_027, 400), (0, 366, 34));
    }

    #[test]
    fn host_numbers() {
        assert_eq!(host_number(2_025, 29), 0);
        assert_eq!(host_number(2_025, 30), 1);
        assert_eq!(host_number(2_025, 8_759), 22);
        assert_eq!(host_number(2_025, 8_760), 255);
        assert_eq!(host_number(2_027, 8_783), 22);
        assert_eq!(host_number(2_027, 8_784), 255);
    }
}
