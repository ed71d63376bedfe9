//! Drawn runs.

use reference::draws::Draws;
use reference::step::HOUR_BYTES;

use super::run::{compare_run, right, year, Run};
use crate::compare::Kind;
use crate::drawn::{block, draw_rights, Shape};

/// How an hour of a run is drawn.
struct Style {
    highest_price: u64,
    prices: usize,
    most_collected: u64,
    /// An amount is the difference of two draws; if this is 1 it is not below 0.
    most_negative: u64,
}

fn draw_block(draws: &mut Draws, style: &Style) -> Vec<u8> {
    let highest = style.highest_price;
    let price = |_| draws.below(2 * highest + 1) as i32 - highest as i32;
    let prices: Vec<i32> = (0..style.prices).map(price).collect();
    let [above, below] = [style.most_collected, style.most_negative].map(|most| draws.below(most));
    block(above as i64 - below as i64, &prices)
}

/// A wild price or amount in one of the hours, or a cut at any byte.
fn put_trouble(draws: &mut Draws, hours: &mut Vec<u8>) {
    let at = draws.below(hours.len() as u64 / HOUR_BYTES as u64 + 1) as usize * HOUR_BYTES;
    if at == hours.len() {
        return;
    }
    let any = draws.below(hours.len() as u64 + 1) as usize;
    let node = draws.one_of(&[0, 3, 1_023]);
    let price = draws.one_of(&[500_001, -500_001, i32::MAX, i32::MIN, 500_000, -500_000]);
    let past = draws.one_of(&[-4_000_000_001, i64::MIN, 4_000_000_000_001, i64::MAX]);
    let amount = draws.one_of(&[past, past, past, -4_000_000_000, 4_000_000_000_000]);
    let price_at = at + 8 + 4 * node;
    match draws.below(6) {
        0 => hours[price_at..price_at + 4].copy_from_slice(&price.to_le_bytes()),
        1 => hours[at..at + 8].copy_from_slice(&amount.to_le_bytes()),
        2 => hours.truncate(any),
        _ => {}
    }
}

fn draw_hours(draws: &mut Draws, count: u64, style: &Style) -> Vec<u8> {
    let blocks = (0..count).map(|_| draw_block(draws, style));
    blocks.collect::<Vec<_>>().concat()
}

/// Some hours, with trouble in the input or faults in the rights.
fn draw_short_run(draws: &mut Draws) -> Run {
    let nodes = draws.one_of(&[4, 1_024]);
    let style = Style {
        highest_price: draws.one_of(&[10, 2_000, 500_000]),
        prices: nodes as usize,
        most_collected: draws.one_of(&[1, 1_000, 1_000_000, 4_000_000_000]),
        most_negative: draws.one_of(&[1, 1, 1_000, 4_000_000_001]),
    };
    let count = draws.below(40);
    let mut hours = draw_hours(draws, count, &style);
    put_trouble(draws, &mut hours);
    let shape = Shape {
        records: draws.below(12) as usize,
        days: 365,
        nodes,
        today: 1,
        prices: 1_024,
        faults: 128,
    };
    let file = draw_rights(draws, &shape).slice().to_vec();
    let rights = (!draws.once_in(32)).then_some(file);
    Run { rights, hours }
}

/// A month or more of a few good rights, with hours that are short and others
/// that are not.
fn draw_long_run(draws: &mut Draws) -> Run {
    let style = Style {
        highest_price: 2_000,
        prices: 2,
        most_collected: 100_000,
        most_negative: draws.one_of(&[1, 50_000]),
    };
    let count = draws.one_of(&[719, 720, 721, 1_464]);
    let owners = 1 + draws.below(12);
    let file = (0..owners).flat_map(|owner| right(owner, owner % 2, 1 - owner % 2, 100));
    Run {
        rights: Some(file.collect()),
        hours: draw_hours(draws, count, &style),
    }
}

/// A few hours with large targets: they fill the carry, or are too large.
fn draw_large_run(draws: &mut Draws) -> Run {
    let size = draws.one_of(&[20_000, 40_000, 40_000, 100_000]);
    let style = Style {
        highest_price: 500_000,
        prices: 2,
        most_collected: draws.one_of(&[1, 1_000_000_000]),
        most_negative: draws.one_of(&[1, 1_000_000_000]),
    };
    let count = draws.below(12);
    Run {
        rights: Some(right(0, 0, 1, size).to_vec()),
        hours: draw_hours(draws, count, &style),
    }
}

pub fn draw_run(draws: &mut Draws) -> Run {
    match draws.below(10) {
        0 => draw_long_run(draws),
        1 => draw_large_run(draws),
        _ => draw_short_run(draws),
    }
}

/// A year of few rights, poor or rich, to the year end or an hour past it. No hour
/// collects less than nothing.
pub fn draw_year(draws: &mut Draws) -> Run {
    let seed = draws.any();
    let rights = 20 + draws.below(40);
    let hours = draws.one_of(&[8_760, 8_760, 8_761]);
    year(seed, rights, hours * HOUR_BYTES)
}

fn run_drawn(test: &'static str, base: u64) {
    let kind = Kind {
        test,
        base: Some(base),
        cases: 600,
        refusals: &[
            ("run", &[0, 4, 5, 6, 7, 9, 10]),
            ("month that pays", &[0, 1]),
        ],
    };
    kind.run(|case| {
        let run = draw_run(&mut case.draws);
        compare_run(case, &run);
    });
}

// Two tests of a kind, for two threads.

#[test]
fn runs() {
    run_drawn("program_runs::drawn::runs", 9_600_629_759_793_949_339);
}

#[test]
fn other_runs() {
    run_drawn("program_runs::drawn::other_runs", 1_609_587_929_392_839_161);
}

#[test]
fn years() {
    let kind = Kind {
        test: "program_runs::drawn::years",
        base: Some(2_246_822_519_726_814_571),
        cases: 16,
        refusals: &[
            ("run", &[0, 2]),
            ("month that pays", &[1]),
            ("year that pays", &[1]),
        ],
    };
    kind.run(|case| {
        let run = draw_year(&mut case.draws);
        compare_run(case, &run);
    });
}
