//! Drawn operating years.

use reference::calendar::{calendar_of, Calendar};
use reference::draws::Draws;

/// Years outside 2025 to 2099, and such that only their low bytes are inside.
pub const OUTSIDE: [u64; 8] = [
    0,
    1,
    2_024,
    2_100,
    (1 << 16) + 2_025,
    (1 << 32) + 2_099,
    (1 << 63) + 2_027,
    u64::MAX,
];

/// A year from 2025 to 2099; the first, the last and those with a 29 February more
/// often.
pub fn draw_good_year(draws: &mut Draws) -> u64 {
    let any = 2_025 + draws.below(75);
    // 2027, 2031 and so on to 2095; February 2100 has 28 days.
    let leap = 2_027 + 4 * draws.below(18);
    match draws.below(8) {
        0 | 1 => 2_025,
        2 => 2_099,
        3 | 4 => leap,
        _ => any,
    }
}

/// One of the years, or once in sixteen draws one outside.
pub fn draw_year(draws: &mut Draws) -> u64 {
    let any = draws.any();
    match draws.below(32) {
        0 => draws.one_of(&OUTSIDE),
        1 => draws.one_of(&[2_024, 2_100, any]),
        _ => draw_good_year(draws),
    }
}

/// The calendar of a year; of one outside a calendar with 366 days.
pub fn calendar_for(year: u64) -> &'static Calendar {
    let calendar = calendar_of(year).or_else(|| calendar_of(2_027));
    calendar.expect("2027 is inside")
}

/// The number of days in a year; in one outside 366.
pub fn days_of(year: u64) -> u64 {
    calendar_for(year).days()
}
