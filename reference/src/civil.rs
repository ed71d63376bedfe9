//! Dates of the Gregorian calendar, and their day numbers: the days counted one
//! after another from 1 January 1600 on, which has the number 0.

/// The year whose first day has the number 0. There are no dates before it.
const START: u64 = 1_600;

/// The weekdays that a rule names.
pub const SUNDAY: u64 = 0;
pub const MONDAY: u64 = 1;
pub const THURSDAY: u64 = 4;
pub const SATURDAY: u64 = 6;

/// A date; month 1 is January.
#[derive(Clone, Copy, Debug, PartialEq, Eq)]
pub struct Date {
    pub year: u64,
    pub month: u64,
    pub day: u64,
}

pub fn date(year: u64, month: u64, day: u64) -> Date {
    Date { year, month, day }
}

/// "the Gregorian rule", of the days in so many years from the year 1 on: 365 in
/// each, one more for every 4 years, one less for every 100, one more for every 400.
fn days_in_years(years: u64) -> u64 {
    365 * years + years / 4 - years / 100 + years / 400
}

/// The number of a year's first day.
fn first_day(year: u64) -> u64 {
    days_in_years(year - 1) - days_in_years(START - 1)
}

/// The days up to the next year's first.
fn days_of_year(year: u64) -> u64 {
    first_day(year + 1) - first_day(year)
}

/// "February follows the Gregorian rule": it has the days that the other months, 7 of
/// 31 days and 4 of 30, leave of the year.
pub fn days_of_month(year: u64, month: u64) -> u64 {
    match month {
        2 => days_of_year(year) - (7 * 31 + 4 * 30),
        4 | 6 | 9 | 11 => 30,
        _ => 31,
    }
}

/// The number of a date: that of the year's first day, and the days of the whole
/// months and of the month before it.
pub fn day_number(date: Date) -> u64 {
    let months = (1..date.month).map(|month| days_of_month(date.year, month));
    first_day(date.year) + months.sum::<u64>() + date.day - 1
}

/// The date of a day number: the last year that has begun by then, and of the days
/// since its first the whole months are taken off.
pub fn date_of(number: u64) -> Date {
    let begun = |year: &u64| first_day(*year) <= number;
    let year = (START..).take_while(begun).last().unwrap_or(START);
    let (mut month, mut left) = (1, number - first_day(year));
    while left >= days_of_month(year, month) {
        left -= days_of_month(year, month);
        month += 1;
    }
    date(year, month, left + 1)
}

/// 0 is Sunday, 1 Monday, up to 6, Saturday. 1 January 1970 was a Thursday, and
/// after seven days the same weekday comes again.
pub fn weekday(number: u64) -> u64 {
    let thursday = day_number(date(1_970, 1, 1));
    // As many whole weeks as keep the sum above 0.
    (number + 7 * thursday - thursday + THURSDAY) % 7
}

/// All dates of a month on a weekday, in their order.
pub fn dates_on(year: u64, month: u64, wanted: u64) -> Vec<Date> {
    let days = 1..=days_of_month(year, month);
    let dates = days.map(|day| date(year, month, day));
    dates
        .filter(|date| weekday(day_number(*date)) == wanted)
        .collect()
}

#[cfg(test)]
mod tests {
    use super::*;

    fn weekday_of(year: u64, month: u64, day: u64) -> u64 {
        weekday(day_number(date(year, month, day)))
    }

    /// As public calendars have them.
    #[test]
    fn weekdays_of_public_calendars() {
        let known = [
            ((1776, 7, 4), THURSDAY),
            ((1863, 11, 19), THURSDAY),
            ((1900, 1, 1), MONDAY),
            ((1929, 10, 29), 2),
            ((1941, 12, 7), SUNDAY),
            ((1945, 5, 8), 2),
            ((1963, 11, 22), 5),
            ((1969, 7, 20), SUNDAY),
            ((1970, 1, 1), THURSDAY),
            ((1999, 12, 31), 5),
            ((2000, 1, 1), SATURDAY),
            ((2000, 2, 29), 2),
            ((2001, 9, 11), 2),
            ((2020, 2, 29), SATURDAY),
            ((2024, 2, 29), THURSDAY),
            ((2025, 6, 1), SUNDAY),
            ((2025, 12, 25), THURSDAY),
            ((2026, 7, 4), SATURDAY),
            ((2027, 7, 4), SUNDAY),
            ((2028, 2, 29), 2),
            ((2033, 12, 25), SUNDAY),
            ((2034, 1, 1), SUNDAY),
            ((2100, 1, 1), 5),
            ((2100, 3, 1), MONDAY),
        ];
        for ((year, month, day), expected) in known {
            let weekday = weekday_of(year, month, day);
            assert_eq!(weekday, expected, "{year}-{month}-{day}");
        }
    }

    #[test]
    fn days_between_dates() {
        let between = |from, to| day_number(to) - day_number(from);
        assert_eq!(day_number(date(1_600, 1, 1)), 0);
        assert_eq!(between(date(1_600, 1, 1), date(2_000, 1, 1)), 146_097);
        assert_eq!(between(date(1_970, 1, 1), date(2_000, 1, 1)), 10_957);
        assert_eq!(between(date(1_900, 2, 28), date(1_900, 3, 1)), 1);
        assert_eq!(between(date(2_000, 2, 28), date(2_000, 3, 1)), 2);
        assert_eq!(between(date(2_028, 2, 28), date(2_028, 3, 1)), 2);
        assert_eq!(between(date(2_100, 2, 28), date(2_100, 3, 1)), 1);
    }

    /// As public calendars have them.
    #[test]
    fn years_with_a_29_february() {
        let none = [1_700, 1_800, 1_900, 2_100];
        for year in START..2_104 {
            let long = year % 4 == 0 && !none.contains(&year);
            let expected = if long { (366, 29) } else { (365, 28) };
            let given = (days_of_year(year), days_of_month(year, 2));
            assert_eq!(given, expected, "{year}");
        }
    }

    /// Every day has the date whose number it is, and the next day the next one.
    #[test]
    fn numbers_and_dates_back() {
        let mut before = date(1_999, 12, 31);
        for number in day_number(date(2_000, 1, 1))..=day_number(date(2_100, 12, 31)) {
            let today = date_of(number);
            assert_eq!(day_number(today), number);
            let next_day = today.day == before.day + 1 && today.month == before.month;
            let next_month = today.day == 1 && before.day >= 28;
            assert!(next_day || next_month, "{before:?}, then {today:?}");
            before = today;
        }
        assert_eq!(before, date(2_100, 12, 31));
    }

    #[test]
    fn dates_of_a_month_on_a_weekday() {
        let days = |year, month, wanted| -> Vec<u64> {
            let dates = dates_on(year, month, wanted);
            dates.iter().map(|date| date.day).collect()
        };
        assert_eq!(days(2_025, 11, THURSDAY), [6, 13, 20, 27]);
        assert_eq!(days(2_026, 5, MONDAY), [4, 11, 18, 25]);
        assert_eq!(days(2_028, 2, 2), [1, 8, 15, 22, 29]);
    }
}
