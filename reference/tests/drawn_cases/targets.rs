//! The target call.

use reference::calendar::day_of;
use reference::draws::Draws;
use reference::rights::{encode, Right, RECORD};
use reference::target;
use reference::words;

use crate::compare::{Case, Input, Kind};
use crate::drawn::{
    calendar_for, draw_market, draw_year, market_text, number_of, old_lines, old_words, Market,
    Shape,
};
use crate::lent::{Given, Lent, Row};
use crate::library;

/// What a target call and a row call are lent to read.
pub struct Asked {
    pub year: u64,
    pub market: Market,
    pub hour: u64,
}

impl Input for Asked {
    fn text(&self) -> String {
        let Market { rights, prices } = &self.market;
        let market = market_text(rights.slice(), prices.slice());
        format!("year {}, hour {}\n{market}", self.year, self.hour)
    }
}

/// A target call or a row call of one side.
pub type Call = fn(&target::Asked, &mut [i64], &mut [u64]) -> u64;

impl Asked {
    /// Over these rights and prices, with cells of 0 behind them, in 2025.
    pub fn over(rights: &[Right], prices: &[i32], hour: u64) -> Asked {
        Asked::over_in(2_025, rights, prices, hour)
    }

    pub fn over_in(year: u64, rights: &[Right], prices: &[i32], hour: u64) -> Asked {
        let file: Vec<u8> = rights.iter().flat_map(encode).collect();
        let market = Market {
            rights: Row::lent(&file, file.len(), || 0),
            prices: Row::lent(prices, prices.len(), || 0),
        };
        Asked { year, market, hour }
    }

    /// The records of the file that are whole.
    pub fn records(&self) -> usize {
        self.market.rights.lent / RECORD
    }

    /// Asks one side, which writes the cells.
    pub fn ask(&self, call: Call, lent: &mut Lent) -> u64 {
        let Market { rights, prices } = &self.market;
        let asked = target::Asked {
            year: self.year,
            rights: rights.slice(),
            prices: prices.slice(),
            hour: self.hour,
        };
        call(&asked, lent.lines.slice_mut(), lent.report.slice_mut())
    }
}

pub fn compare_targets(case: &mut Case, asked: &Asked, lent: &Lent) -> Given {
    case.compare(
        "targets",
        asked,
        lent,
        |lent| asked.ask(library::targets, lent),
        |lent| asked.ask(words::targets, lent),
    )
}

/// Lines and a report for a call without a book.
pub fn lend_lines(draws: &mut Draws, lines: usize, report_words: usize) -> Lent {
    Lent {
        lines: old_lines(draws, lines),
        report: old_words(draws, report_words),
        ..Lent::default()
    }
}

/// Any hour of the year, with those around a class's and a month's change
/// more often, and some after the year.
fn draw_hour(draws: &mut Draws, year: u64) -> u64 {
    let calendar = calendar_for(year);
    let hours = calendar.hours();
    let day = draws.below(calendar.days()) * 24;
    match draws.below(16) {
        0 => hours - 1,
        1 => draws.one_of(&[8_759, 8_760, 8_783, 8_784, hours + 1, 1 << 32]),
        2 => draws.any(),
        3..=5 => day + draws.one_of(&[5, 6, 21, 22]),
        6 | 7 => draws.one_of(&calendar.month_ends) - draws.below(2),
        _ => draws.below(hours),
    }
}

fn draw_shape(draws: &mut Draws, year: u64, hour: u64) -> Shape {
    let few = draws.below(200) as usize;
    let calendar = calendar_for(year);
    Shape {
        days: calendar.days(),
        records: match draws.below(32) {
            0 => draws.one_of(&[4_095, 4_096]),
            1 => draws.one_of(&[64, 1_000]),
            2..=5 => draws.one_of(&[0, 1, 2, 3]),
            _ => few,
        },
        nodes: draws.one_of(&[2, 2, 1_023, 1_024]),
        today: day_of(hour % calendar.hours()),
        prices: match draws.below(16) {
            0 => draws.one_of(&[0, 1_025]),
            1..=3 => draws.one_of(&[1, 2, 3]),
            4 | 5 => 1_023,
            _ => 1_024,
        },
        faults: 40,
    }
}

/// Any year, any hour and any market.
pub fn draw_asked(draws: &mut Draws) -> Asked {
    let year = draw_year(draws);
    let hour = draw_hour(draws, year);
    let shape = draw_shape(draws, year, hour);
    let market = draw_market(draws, &shape);
    Asked { year, market, hour }
}

fn compare_drawn(case: &mut Case) {
    let draws = &mut case.draws;
    let asked = draw_asked(draws);
    let line_count = number_of(draws, 64, 20);
    let report_words = number_of(draws, words::OUTCOME, 64);
    let lent = lend_lines(draws, line_count, report_words);
    compare_targets(case, &asked, &lent);
}

#[test]
fn any_market() {
    let kind = Kind {
        test: "targets::any_market",
        base: Some(1_181_783_497_276_652_981),
        cases: 80_000,
        refusals: &[("targets", &[0, 3, 4, 5, 7, 8, 15])],
    };
    kind.run(compare_drawn);
}
