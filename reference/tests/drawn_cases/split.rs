//! The split of a fund over wants, within its caller's limits.

use reference::draws::Draws;
use reference::split::{Limits, HALL, MOST_OWNERS, SMALL_POOL, TOP_TOTAL};
use reference::words;

use crate::compare::{Case, Kind};
use crate::drawn::{number_of, old_words};
use crate::lent::{Given, Lent, Row};
use crate::library;

fn draw_want(draws: &mut Draws, style: u64, base: u64) -> u64 {
    let a = draws.any();
    match style {
        0 => 0,
        1 => base,
        2 => a % 2,
        3 => a % 4,
        4 => a % 10,
        5 if a % 16 == 0 => (a / 16) % 1_000,
        5 => 0,
        6 => a % 1_000_000,
        7 => a % 62_500_000,
        8 => (a % 3) * base,
        _ => a,
    }
}

fn wrapping_sum(wants: &[u64]) -> u64 {
    wants.iter().fold(0, |sum, want| sum.wrapping_add(*want))
}

/// Wants of one style, in part with a number or a sum at a pool's limit; the sum
/// may wrap.
fn draw_wants(draws: &mut Draws) -> Vec<u64> {
    let (few, free) = (draws.below(17), draws.below(65));
    let count = match draws.below(16) {
        0 => 0,
        1 => 1,
        2 => 16,
        3 => 17,
        4 => 64,
        5 => 65,
        6..=9 => few,
        _ => free,
    };
    let (style, base) = (draws.below(10), draws.below(1_000));
    let mut wants: Vec<u64> = (0..count).map(|_| draw_want(draws, style, base)).collect();
    let goal = match draws.below(10) {
        0 => 4_000_000_000,
        1 => 4_000_000_001,
        2 => 100_000_000,
        3 => 100_000_001,
        4 => draws.below(1_000),
        _ => return wants,
    };
    let rest = goal.wrapping_sub(wrapping_sum(&wants));
    if let Some(first) = wants.first_mut() {
        *first = first.wrapping_add(rest);
    }
    wants
}

/// A limit at what is wanted, one beside it, in range, at the ends of the range,
/// one past them, or with a bit too many, which a shorter word would lose.
fn draw_limit(draws: &mut Draws, wanted: u64, top: u64) -> u64 {
    let (any, bit) = (draws.any(), draws.below(64));
    match draws.below(64) {
        0 => 0,
        1 => top + 1,
        2 => u64::MAX,
        3 => wanted.wrapping_add(1 << bit),
        4 => 1,
        5 => wanted.wrapping_add(1),
        6..=9 => wanted.wrapping_sub(1),
        10..=25 => wanted,
        26..=49 => top,
        _ => 1 + any % top,
    }
}

/// A pool's limits, or drawn ones; the total may be at a sum that wraps.
fn draw_limits(draws: &mut Draws, wants: &[u64]) -> Limits {
    match draws.below(8) {
        0 => HALL,
        1 => SMALL_POOL,
        _ => Limits {
            owners: draw_limit(draws, wants.len() as u64, MOST_OWNERS as u64) as usize,
            total: draw_limit(draws, wrapping_sum(wants), TOP_TOTAL),
        },
    }
}

/// A fund around the sum of the wants, small, or any.
fn draw_fund(draws: &mut Draws, total: u64) -> u64 {
    let any = draws.any();
    match draws.below(12) {
        0 => total,
        1 => total.wrapping_sub(1),
        2 => total.wrapping_add(1),
        3 => total.wrapping_add(any % 1_000),
        4 => 0,
        5 => 1,
        6 => any % 100,
        7 => any % 4_000_000_000,
        8 => any,
        9 => total / 2 + any % 16,
        10 => total - total / 64,
        _ => total / 3,
    }
}

pub fn compare_split(
    case: &mut Case,
    limits: Limits,
    fund: u64,
    wants: &[u64],
    lent: &Lent,
) -> Given {
    let Limits { owners, total } = limits;
    let count = wants.len();
    case.compare(
        "split",
        &format!("limits {owners} owners, {total} cents\nfund {fund}\n{count} wants: {wants:?}"),
        lent,
        |lent| {
            let (payments, report) = (lent.payments.slice_mut(), lent.report.slice_mut());
            library::split(limits, fund, wants, payments, report)
        },
        |lent| {
            let (payments, report) = (lent.payments.slice_mut(), lent.report.slice_mut());
            words::split(limits, fund, wants, payments, report)
        },
    )
}

/// Mostly as many payments as wants, and one word of report.
fn lend_payments(draws: &mut Draws, wants: usize) -> Lent {
    let paid = match draws.below(16) {
        0 => wants + 1,
        1 => wants.saturating_sub(1),
        _ => wants,
    };
    let report_words = number_of(draws, words::ALLOCATION, 64);
    Lent {
        payments: Row::lent(&[], paid, || draws.any()),
        report: old_words(draws, report_words),
        ..Lent::default()
    }
}

fn compare_drawn(case: &mut Case) {
    let draws = &mut case.draws;
    let wants = draw_wants(draws);
    let limits = draw_limits(draws, &wants);
    let fund = draw_fund(draws, wrapping_sum(&wants));
    let lent = lend_payments(draws, wants.len());
    compare_split(case, limits, fund, &wants, &lent);
}

#[test]
fn any_split() {
    let kind = Kind {
        test: "split::any_split",
        base: Some(88_172_645_463_325_252),
        cases: 600_000,
        refusals: &[("split", &[0, 4, 11, 16, 17])],
    };
    kind.run(compare_drawn);
}

/// The same case in the hall and in the municipal pool: the hall never sees 16 or
/// 17, and what the small pool accepts it shares in the same way.
fn compare_pools(case: &mut Case) {
    let draws = &mut case.draws;
    let wants = draw_wants(draws);
    let fund = draw_fund(draws, wrapping_sum(&wants));
    let lent = lend_payments(draws, wants.len());
    let hall = compare_split(case, HALL, fund, &wants, &lent);
    let small = compare_split(case, SMALL_POOL, fund, &wants, &lent);
    assert!(matches!(hall.refusal, 0 | 4 | 11), "16 or 17 in the hall");
    case.came("split in the hall", hall.refusal);
    case.came("split in the small pool", small.refusal);
    if small.refusal == 0 {
        assert!(hall == small, "the small pool shares in another way");
    }
}

#[test]
fn both_pools() {
    let kind = Kind {
        test: "split::both_pools",
        base: Some(7_046_029_254_386_353_131),
        cases: 200_000,
        refusals: &[
            ("split in the hall", &[0, 4, 11]),
            ("split in the small pool", &[0, 4, 11, 16, 17]),
        ],
    };
    kind.run(compare_pools);
}
