//! The rows of the rights and the targets of the owners in one hour, as Wish 2
//! has them, "Cents per right": it "replaces the one rounding per owner" of the
//! scope paper.

use crate::calendar::{calendar_of, Calendar};
use crate::refusal::{
    lowest, ACCEPTED, BAD_RIGHT, NO_SUCH_YEAR, OUT_OF_TURN, UNPRICED_NODE, WILD_PRICE, WRONG_LENGTH,
};
use crate::rights::{first_bad, first_unpriced, is_live, is_wrong_length, records, Right};

/// Owners, and lines lent to a call.
pub const OWNERS: usize = 64;
/// "prices not 1 to 1,024".
pub const MOST_PRICES: usize = 1_024;
/// "each from -500,000 to 500,000".
pub const TOP_PRICE: i32 = 500_000;

/// What a target call and a row call give besides the lines.
#[derive(Clone, Copy, Debug, PartialEq, Eq)]
pub struct TargetResult {
    pub refusal: u64,
    pub record: u64,
}

/// "is rounded to a cent, halves away from zero".
pub fn round(tenths: i64) -> i64 {
    let wide = i128::from(tenths);
    let rounded = if wide < 0 {
        -((-wide + 5) / 10)
    } else {
        (wide + 5) / 10
    };
    // The quotient of a 64-bit number by ten fits 64 bits.
    i64::try_from(rounded).unwrap_or(0)
}

/// "any price outside its range".
pub fn has_wild_price(prices: &[i32]) -> bool {
    let range = -TOP_PRICE..=TOP_PRICE;
    prices.iter().any(|price| !range.contains(price))
}

/// "prices not 1 to 1,024; rights not a multiple of 16 or above 65,536".
fn has_wrong_input(rights: &[u8], prices: &[i32]) -> bool {
    let prices_fit = (1..=MOST_PRICES).contains(&prices.len());
    !prices_fit || is_wrong_length(rights)
}

/// 4 of a call that is lent a line for each owner: "lines not 64", and the above.
pub fn has_wrong_length(rights: &[u8], prices: &[i32], lines: &[i64]) -> bool {
    lines.len() != OWNERS || has_wrong_input(rights, prices)
}

/// 4 of a row call: lines that are not one for each record, and the above.
fn has_wrong_rows(rights: &[u8], prices: &[i32], lines: &[i64]) -> bool {
    lines.len() != records(rights).len() || has_wrong_input(rights, prices)
}

/// The price at a node; a call with an unpriced node was refused before.
fn price_at(prices: &[i32], node: u64) -> i128 {
    let found = usize::try_from(node).ok().and_then(|at| prices.get(at));
    found.map_or(0, |price| i128::from(*price))
}

/// "The spread of a right is the price at its sink less the price at its
/// source; for an option a negative spread counts as 0."
fn spread(right: &Right, prices: &[i32]) -> i128 {
    let spread = price_at(prices, right.sink) - price_at(prices, right.source);
    if right.kind == 1 && spread < 0 {
        return 0;
    }
    spread
}

/// "Each live right's size times spread is rounded to a cent".
fn cents(right: &Right, prices: &[i32]) -> i64 {
    let tenths = i128::from(right.size) * spread(right, prices);
    // A good right's are at most 100,000 times 1,000,000 tenths: they fit 64 bits.
    round(i64::try_from(tenths).unwrap_or(0))
}

/// "each right on its own row": its cents, 0 where it is not live.
fn row(right: &Right, prices: &[i32], calendar: &Calendar, hour: u64) -> i64 {
    if is_live(right, calendar, hour) {
        cents(right, prices)
    } else {
        0
    }
}

/// All 64 targets of good rights and prices: "an owner's target is the sum of these
/// cents", those of its live rights.
pub fn owner_targets(
    rights: &[Right],
    prices: &[i32],
    calendar: &Calendar,
    hour: u64,
) -> [i64; OWNERS] {
    std::array::from_fn(|owner| {
        let held = rights.iter().filter(|right| right.owner == owner as u64);
        let rows = held.map(|right| i128::from(row(right, prices, calendar, hour)));
        // Of good rights at most 4,096 times 10,000,000,000 cents: they fit 64 bits.
        i64::try_from(rows.sum::<i128>()).unwrap_or(0)
    })
}

/// What a target call and a row call are lent to read. They are "given a year".
#[derive(Clone, Copy)]
pub struct Asked<'a> {
    pub year: u64,
    pub rights: &'a [u8],
    pub prices: &'a [i32],
    pub hour: u64,
}

/// "15 when the year is outside 2025 to 2099, before any other check".
const OUTSIDE: TargetResult = TargetResult {
    refusal: NO_SUCH_YEAR,
    record: 0,
};

/// The refusal of a target call or a row call in a year, which differ only in what
/// a wrong length is, and the record number in 7 and 8: "Hour and target calls pass
/// it on and state the same." In 3 and 7 "the top day and the top hour .. come from
/// that year".
fn target_refusal(asked: &Asked, calendar: &Calendar, wrong_length: bool) -> TargetResult {
    let prices = asked.prices;
    let all = records(asked.rights);
    let bad = first_bad(&all, calendar);
    let unpriced = first_unpriced(&all, prices.len());
    let refusal = lowest(&[
        (OUT_OF_TURN, asked.hour >= calendar.hours()),
        (WRONG_LENGTH, wrong_length),
        (WILD_PRICE, has_wild_price(prices)),
        (BAD_RIGHT, bad.is_some()),
        (UNPRICED_NODE, unpriced.is_some()),
    ]);
    let record = faulty_record(refusal, bad, unpriced);
    TargetResult { refusal, record }
}

/// "In 7 and 8 the record number becomes the lowest one with that fault", where
/// `bad` and `unpriced` are those lowest ones; "the record number is 0 except in
/// 7 and 8".
pub fn faulty_record(refusal: u64, bad: Option<u64>, unpriced: Option<u64>) -> u64 {
    match refusal {
        BAD_RIGHT => bad.unwrap_or(0),
        UNPRICED_NODE => unpriced.unwrap_or(0),
        _ => 0,
    }
}

/// "A target call takes rights, prices, an hour number and 64 lines, and writes
/// all 64 targets; it never gives 9."
pub fn targets(asked: &Asked, lines: &mut [i64]) -> TargetResult {
    let Some(calendar) = calendar_of(asked.year) else {
        return OUTSIDE;
    };
    let wrong_length = has_wrong_length(asked.rights, asked.prices, lines);
    let result = target_refusal(asked, calendar, wrong_length);
    if result.refusal == ACCEPTED {
        let rights = records(asked.rights);
        let targets = owner_targets(&rights, asked.prices, calendar, asked.hour);
        lines.copy_from_slice(&targets);
    }
    result
}

/// A row call takes rights, prices, an hour number and a line for each record,
/// and writes each record's cents, 0 where the right is not live.
pub fn rows(asked: &Asked, lines: &mut [i64]) -> TargetResult {
    let Some(calendar) = calendar_of(asked.year) else {
        return OUTSIDE;
    };
    let wrong_length = has_wrong_rows(asked.rights, asked.prices, lines);
    let result = target_refusal(asked, calendar, wrong_length);
    if result.refusal == ACCEPTED {
        for (line, right) in lines.iter_mut().zip(records(asked.rights)) {
            *line = row(&right, asked.prices, calendar, asked.hour);
        }
    }
    result
}

/// A call in the year 2025, for tests.
#[cfg(test)]
pub(crate) fn asked<'a>(rights: &'a [u8], prices: &'a [i32], hour: u64) -> Asked<'a> {
    Asked {
        year: 2_025,
        rights,
        prices,
        hour,
    }
}

#[cfg(test)]
mod tests {
    use super::*;
    use crate::rights::{decode, encode};

    #[test]
    fn marked_roundings() {
        assert_eq!(round(5), 1);
        assert_eq!(round(-5), -1);
        assert_eq!(round(4), 0);
        assert_eq!(round(-15), -2);
    }

    #[test]
    fn rounding_at_the_ends() {
        assert_eq!(round(i64::MAX), 922_337_203_685_477_581);
        assert_eq!(round(i64::MIN), -922_337_203_685_477_581);
        assert_eq!(round(0), 0);
        assert_eq!(round(-4), 0);
    }

    /// Of owner 5 between nodes 0 and 1, with a size of 10; live in all hours.
    const RIGHT: [u8; 16] = [5, 0, 0, 0, 1, 0, 0, 2, 10, 0, 0, 0, 1, 0, 109, 1];

    /// A right of one tenth of a megawatt from node 0.
    fn right_to(sink: u64) -> Right {
        Right {
            sink,
            size: 1,
            ..decode(&RIGHT)
        }
    }

    /// The rows of a call that is accepted.
    fn rows_of(file: &[u8], prices: &[i32], hour: u64) -> Vec<i64> {
        let mut lines = vec![7; file.len() / 16];
        assert_eq!(rows(&asked(file, prices, hour), &mut lines).refusal, 0);
        lines
    }

    /// The targets of a call that is accepted.
    fn targets_of(file: &[u8], prices: &[i32], hour: u64) -> [i64; 64] {
        let mut lines = [7; 64];
        assert_eq!(targets(&asked(file, prices, hour), &mut lines).refusal, 0);
        lines
    }

    /// Hour 29 is off-peak on day 2, hour 30 peak.
    #[test]
    fn a_right_that_is_not_live_has_a_row_of_0() {
        let all = right_to(1);
        let peak = Right { class: 0, ..all };
        let off_peak = Right { class: 1, ..all };
        let before = Right { last: 1, ..all };
        let after = Right { first: 3, ..all };
        let today = Right {
            first: 2,
            last: 2,
            ..all
        };
        let rights = [peak, before, all, after, off_peak, today];
        let file: Vec<u8> = rights.iter().flat_map(encode).collect();
        assert_eq!(rows_of(&file, &[0, 15], 29), [0, 0, 2, 0, 2, 2]);
        assert_eq!(rows_of(&file, &[0, 15], 30), [2, 0, 2, 0, 0, 2]);
        assert_eq!(targets_of(&file, &[0, 15], 29)[5], 6);
    }

    #[test]
    fn rows_add_up_for_each_owner() {
        let of = |owner, sink| {
            encode(&Right {
                owner,
                ..right_to(sink)
            })
        };
        let file = [of(63, 1), of(0, 1), of(63, 2), of(0, 3), of(63, 1)].concat();
        let prices = [0, 5, 26, -15];
        assert_eq!(rows_of(&file, &prices, 0), [1, 1, 3, -2, 1]);
        let targets = targets_of(&file, &prices, 0);
        assert_eq!((targets[0], targets[63]), (-1, 5));
        assert_eq!(targets[1..63], [0; 62]);
    }

    /// The refusal and the record number of a target call with two prices over
    /// these records; a row call gives the same.
    fn result(records: &[[u8; 16]], price: i32, hour: u64) -> (u64, u64) {
        let (file, prices) = (records.concat(), [0, price]);
        let asked = asked(&file, &prices, hour);
        let result = targets(&asked, &mut [0; 64]);
        assert_eq!(rows(&asked, &mut vec![0; records.len()]), result);
        (result.refusal, result.record)
    }

    #[test]
    fn the_lowest_record_with_the_fault() {
        let bad = [0; 16];
        let mut unpriced = RIGHT;
        unpriced[4] = 2;
        assert_eq!(result(&[RIGHT, bad, RIGHT, bad], 1, 0), (7, 1));
        assert_eq!(result(&[unpriced, unpriced, bad], 1, 0), (7, 2));
        assert_eq!(result(&[RIGHT, bad, unpriced], 1, 0), (7, 1));
        assert_eq!(result(&[RIGHT, RIGHT, unpriced, unpriced], 1, 0), (8, 2));
    }

    #[test]
    fn no_record_but_in_7_and_8() {
        assert_eq!(result(&[RIGHT, RIGHT], 1, 0), (0, 0));
        let faulty = [RIGHT, [0; 16]];
        assert_eq!(result(&faulty, 500_000, 8_759), (7, 1));
        assert_eq!(result(&faulty, 500_001, 8_759), (5, 0));
        assert_eq!(result(&faulty, 500_000, 8_760), (3, 0));
    }

    #[test]
    fn refused_lines_stay_untouched() {
        let refusal = |prices: &[i32], hour, lines: &mut [i64]| {
            targets(&asked(&[], prices, hour), lines).refusal
        };
        let mut lines = [7; 64];
        assert_eq!(refusal(&[0], 8_760, &mut lines), 3);
        assert_eq!(lines, [7; 64]);
        assert_eq!(refusal(&[0], 8_759, &mut lines), 0);
        assert_eq!(lines, [0; 64]);
        assert_eq!(refusal(&[], 0, &mut lines), 4);
        assert_eq!(refusal(&[500_001], 0, &mut lines), 5);
        assert_eq!(refusal(&[0], 0, &mut lines[..63]), 4);
    }

    #[test]
    fn refused_rows_stay_untouched() {
        let mut lines = [7; 2];
        let file = [RIGHT, RIGHT].concat();
        let mut refusal = |file: &[u8], prices: &[i32], hour| {
            let result = rows(&asked(file, prices, hour), &mut lines);
            assert_eq!(lines == [7; 2], result.refusal != 0);
            result.refusal
        };
        assert_eq!(refusal(&file, &[0, 1], 8_760), 3);
        assert_eq!(refusal(&file, &[], 0), 4);
        assert_eq!(refusal(&file[..31], &[0, 1], 0), 4);
        assert_eq!(refusal(&file, &[0, 500_001], 0), 5);
        assert_eq!(refusal(&[RIGHT, [0; 16]].concat(), &[0, 1], 0), 7);
        assert_eq!(refusal(&file, &[0], 0), 8);
        assert_eq!(refusal(&file, &[0, 1], 8_759), 0);
    }

    /// The refusals of a target call and of a row call.
    fn refusals(asked: Asked, records: usize) -> [u64; 2] {
        let mut lines = [7; 64];
        let result = targets(&asked, &mut lines);
        assert_eq!(lines == [7; 64], result.refusal != 0);
        let mut lines = vec![7; records];
        [result.refusal, rows(&asked, &mut lines).refusal]
    }

    #[test]
    fn the_top_hour_and_the_top_day_come_from_the_year() {
        let last = encode(&Right {
            last: 366,
            ..decode(&RIGHT)
        });
        let refusals = |year, hour, rights: &[u8; 16]| {
            let asked = asked(rights, &[0, 1], hour);
            refusals(Asked { year, ..asked }, 1)
        };
        assert_eq!(refusals(2_025, 8_759, &RIGHT), [0; 2]);
        assert_eq!(refusals(2_025, 8_760, &RIGHT), [3; 2]);
        assert_eq!(refusals(2_025, 8_759, &last), [7; 2]);
        assert_eq!(refusals(2_027, 8_783, &RIGHT), [0; 2]);
        assert_eq!(refusals(2_027, 8_783, &last), [0; 2]);
        assert_eq!(refusals(2_027, 8_784, &last), [3; 2]);
        assert_eq!(refusals(2_099, 8_759, &last), [7; 2]);
    }

    #[test]
    fn a_year_outside_comes_before_any_other_check() {
        for year in [0, 2_024, 2_100, u64::MAX] {
            let refusals = |rights: &[u8], price, hour, records| {
                let asked = asked(rights, price, hour);
                refusals(Asked { year, ..asked }, records)
            };
            assert_eq!(refusals(&RIGHT, &[0, 1], 0, 1), [15; 2]);
            assert_eq!(refusals(&RIGHT, &[0, 1], u64::MAX, 1), [15; 2]);
            assert_eq!(refusals(&RIGHT[1..], &[], 0, 2), [15; 2]);
            assert_eq!(refusals(&RIGHT, &[0, 500_001], 0, 1), [15; 2]);
            assert_eq!(refusals(&[0; 16], &[0, 1], 0, 1), [15; 2]);
            assert_eq!(refusals(&RIGHT, &[0], 0, 1), [15; 2]);
        }
    }
}
