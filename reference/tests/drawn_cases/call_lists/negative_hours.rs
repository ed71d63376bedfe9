//! Lists in which F is negative in hours of every month, to a year end whose F is
//! negative, 0 or positive.

use reference::words::{Event, SETTLED};

use super::{compare_list, lend_large, quiet_hour, Hour, List, Plan};
use crate::compare::{Case, Kind};
use crate::drawn::{days_of, draw_good_year, draw_year_fund, old_line, old_lines};
use crate::lent::Row;

/// The F of each accepted hour, month by month.
fn funds_by_month(accepted: &[(&'static str, i64)]) -> Vec<Vec<i64>> {
    let months = accepted.split(|(event, _)| *event == "month end");
    let funds = |month: &[(_, i64)]| month.iter().map(|(_, fund)| *fund).collect();
    months.take(12).map(funds).collect()
}

/// The F of the one year end.
fn year_fund(list: &List) -> i64 {
    let year_end = list.accepted.last();
    let (event, fund) = year_end.expect("the list has events");
    assert_eq!(*event, "year end");
    *fund
}

/// Notes the signs of the funds, from 0 for a negative one to 2, and at the year end
/// whether owners are then short.
fn note_funds(case: &mut Case, list: &List) {
    for (event, fund) in &list.accepted {
        let funds = match *event {
            "hour" => "fund of an hour",
            "month end" => "fund of a month end",
            _ => "fund of a year end",
        };
        case.came(funds, (fund.signum() + 1) as u64);
    }
    let short = list.book.year_shortfalls.iter().any(|cell| *cell > 0);
    let after = match year_fund(list) {
        ..0 => "short after a negative fund",
        0 => "short after a fund of 0",
        _ => "short after a positive fund",
    };
    case.came(after, u64::from(short));
}

/// In a third of the lists the year end's F is negative, 0, or positive.
fn compare_negative_list(case: &mut Case) {
    let sign = (case.seed % 3) as i64 - 1;
    let draws = &mut case.draws;
    let plan = Plan {
        year: draw_good_year(draws),
        luck: draws.below(4) + 1,
        below_0: draws.below(4) + 1,
        year_fund: Some(draw_year_fund(draws, sign)),
    };
    let list = compare_list(case, &plan);
    let months = funds_by_month(&list.accepted);
    assert_eq!(months.len(), 12);
    for (month, funds) in months.iter().enumerate() {
        let negative = funds.iter().any(|fund| *fund < 0);
        assert!(negative, "no hour of month {month} has a negative F");
    }
    assert_eq!(Some(year_fund(&list)), plan.year_fund);
    note_funds(case, &list);
}

#[test]
fn to_a_year_end_of_each_sign() {
    let kind = Kind {
        test: "call_lists::negative_hours::to_a_year_end_of_each_sign",
        base: Some(3_141_592_653_589_793_238),
        cases: 60,
        refusals: &[
            ("hour", &[0, 2, 3, 4, 5, 6, 7, 8, 9, 10]),
            ("month end", &[0, 2, 3, 4]),
            ("year end", &[0, 2, 3, 4]),
            ("hours of an ended year", &[8_760, 8_784]),
            ("fund of an hour", &[0, 1, 2]),
            ("fund of a month end", &[0, 2]),
            ("fund of a year end", &[0, 1, 2]),
            ("short after a negative fund", &[1]),
            ("short after a fund of 0", &[1]),
            ("short after a positive fund", &[0, 1]),
        ],
    };
    kind.run(compare_negative_list);
}

/// Settles the same hour all year long, and what is due after it; gives the book's
/// balances at the end.
fn same_hours(case: &mut Case, year: u64, hour: &Hour) -> Vec<i64> {
    let mut list = List::new(&mut case.draws, year);
    while !list.book.ended {
        let event = match () {
            _ if list.book.month_end_due() => Event::MonthEnd,
            _ if list.book.year_end_due() => Event::YearEnd,
            _ => Event::Hour(hour.market.hour(hour.collected)),
        };
        list.words.lines = old_lines(&mut case.draws, 64);
        list.words.settled = Row::lent(&[], SETTLED, || old_line(&mut case.draws));
        list.call(case, event);
    }
    list.check_end(case);
    note_funds(case, &list);
    list.words.balances.slice().to_vec()
}

/// The lowest amount in every hour, and the highest one beside the most charges: after
/// each event the two balances together are at a bound of refusal 1, which never comes.
fn compare_bounds(case: &mut Case, year: u64) {
    let hours = 24 * days_of(year) as i64;
    let lowest = quiet_hour(-4_000_000_000);
    let balances = same_hours(case, year, &lowest);
    assert_eq!(balances, [0, hours * -4_000_000_000]);
    let mut highest = quiet_hour(4_000_000_000_000);
    lend_large(&mut highest.market, year, [200_000, -200_000, 0, 0]);
    let balances = same_hours(case, year, &highest);
    assert_eq!(balances, [0, hours * 4_004_000_000_000]);
}

#[test]
fn at_the_bounds_of_the_balances() {
    let years = [2_025, 2_027];
    let kind = Kind {
        test: "call_lists::negative_hours::at_the_bounds_of_the_balances",
        base: None,
        cases: years.len() as u64,
        refusals: &[
            ("hour", &[0]),
            ("hours of an ended year", &[8_760, 8_784]),
            ("short after a negative fund", &[0]),
            ("short after a positive fund", &[0]),
        ],
    };
    kind.run(|case| compare_bounds(case, years[case.seed as usize % years.len()]));
}
