//! Drawn rights and prices, and both in plain numbers.

use reference::book::HourInput;
use reference::draws::Draws;
use reference::rights::{encode, records, Right, RECORD};
use reference::words::Event;

use crate::compare::Input;
use crate::lent::Row;

/// What a drawn market is like.
pub struct Shape {
    pub records: usize,
    /// The number of days in the year.
    pub days: u64,
    /// Nodes below this number.
    pub nodes: u64,
    /// A day of special interest.
    pub today: u64,
    pub prices: usize,
    /// A file has faults in 16 of so many draws.
    pub faults: u64,
}

/// The rights and prices that a call is lent.
pub struct Market {
    pub rights: Row<u8>,
    pub prices: Row<i32>,
}

fn draw_days(draws: &mut Draws, days: u64, today: u64) -> (u64, u64) {
    let x = draws.below(days) + 1;
    let y = draws.below(days) + 1;
    match draws.below(8) {
        0 => (1, 365),
        1 => (1, days),
        2 => (today, today),
        3 => (x.min(today), today),
        4 => (today, x.max(today)),
        5 => (1, (today - 1).max(1)),
        6 => ((today + 1).min(days), days),
        _ => (x.min(y), x.max(y)),
    }
}

fn draw_owner(draws: &mut Draws, style: u64) -> u64 {
    match style {
        0 => draws.below(64),
        1 => draws.below(3),
        2 => 60 + draws.below(4),
        _ => 63,
    }
}

fn draw_size(draws: &mut Draws, style: u64) -> u64 {
    match style {
        0 => 1 + draws.below(100_000),
        1 => 1 + draws.below(1_000),
        2 => 5 + 10 * draws.below(10),
        3 => draws.one_of(&[10, 100_000]),
        _ => 1 + draws.below(10),
    }
}

fn draw_right(draws: &mut Draws, shape: &Shape, owners: u64, sizes: u64) -> Right {
    let source = draws.below(shape.nodes);
    let (first, last) = draw_days(draws, shape.days, shape.today);
    Right {
        owner: draw_owner(draws, owners),
        source,
        sink: (source + 1 + draws.below(shape.nodes - 1)) % shape.nodes,
        kind: draws.below(2),
        class: draws.below(4).min(2),
        size: draw_size(draws, sizes),
        first,
        last,
    }
}

fn put_fault(draws: &mut Draws, right: &mut Right, shape: &Shape) {
    let prices = shape.prices as u64;
    match draws.below(16) {
        0 => right.owner = 64,
        1 => right.source = 1_024,
        2 => right.sink = 1_024,
        3 => right.sink = right.source,
        4 => right.kind = 2,
        5 => right.class = 3,
        6 => right.size = 0,
        7 => right.size = 100_001,
        8 => right.first = 0,
        9 => (right.first, right.last) = (365, 364),
        10 => right.last = shape.days + 1,
        11 => right.source = prices,
        12 => right.sink = prices,
        13 => right.owner = 65_535,
        14 => right.size = 4_294_967_295,
        _ => (right.kind, right.class) = (255, 255),
    }
}

/// One fault or a few, in the first, a middle, the last or any record, or in
/// the one behind those lent.
fn put_faults(draws: &mut Draws, rights: &mut [Right], shape: &Shape) {
    if draws.below(shape.faults) >= 16 {
        return;
    }
    for _ in 0..draws.one_of(&[1, 1, 1, 4]) {
        let last = shape.records.saturating_sub(1);
        let any = draws.below(shape.records as u64 + 1) as usize;
        let place = draws.one_of(&[0, shape.records / 2, last, shape.records, any]);
        put_fault(draws, &mut rights[place], shape);
    }
}

/// The bytes of a file and of one record behind it.
pub fn draw_rights(draws: &mut Draws, shape: &Shape) -> Row<u8> {
    let bytes = shape.records * RECORD;
    let lent = match draws.below(64) {
        0 => draws.one_of(&[65_537, 65_552]),
        1 | 2 => bytes + draws.one_of(&[1, 8, 15]),
        _ => bytes,
    };
    let (owners, sizes) = (draws.below(4), draws.below(8));
    let drawn = shape.records.max(lent / RECORD) + 1;
    let mut rights: Vec<Right> = (0..drawn)
        .map(|_| draw_right(draws, shape, owners, sizes))
        .collect();
    put_faults(draws, &mut rights, shape);
    let cells = rights.iter().flat_map(encode).collect();
    Row { cells, lent }
}

fn draw_price(draws: &mut Draws, style: u64) -> i32 {
    match style {
        0 => draws.below(1_000_001) as i32 - 500_000,
        1 => draws.one_of(&[-500_000, 500_000]),
        2 => draws.below(4_001) as i32 - 2_000,
        3 => draws.one_of(&[0, 400_000, 1, 0]),
        4 => draws.one_of(&[-500, 0, 500]),
        _ => draws.below(21) as i32 - 10,
    }
}

/// The prices and two behind them; some have a wild one, lent or not.
fn draw_prices(draws: &mut Draws, lent: usize) -> Row<i32> {
    let style = draws.below(8);
    let mut row = Row::lent(&[], lent, || draw_price(draws, style));
    if draws.once_in(12) {
        let any = draws.below(lent as u64 + 2) as usize;
        let place = draws.one_of(&[0, lent.saturating_sub(1), lent, any]);
        row.cells[place] = draws.one_of(&[500_001, -500_001, i32::MAX, i32::MIN]);
    }
    row
}

pub fn draw_market(draws: &mut Draws, shape: &Shape) -> Market {
    Market {
        rights: draw_rights(draws, shape),
        prices: draw_prices(draws, shape.prices),
    }
}

/// A file in plain numbers.
pub fn rights_text(rights: &[u8]) -> String {
    let mut text = format!("rights: {} bytes", rights.len());
    for (number, right) in records(rights).iter().enumerate() {
        text += &format!("\n  record {number}: {right:?}");
    }
    let rest = rights.chunks_exact(RECORD).remainder();
    if !rest.is_empty() {
        text += &format!("\n  and the bytes {rest:?}");
    }
    text
}

impl Market {
    pub fn hour(&self, collected: i64) -> HourInput<'_> {
        HourInput {
            rights: self.rights.slice(),
            prices: self.prices.slice(),
            collected,
        }
    }
}

/// Rights and prices in plain numbers.
pub fn market_text(rights: &[u8], prices: &[i32]) -> String {
    let count = prices.len();
    format!("{}\n{count} prices: {prices:?}", rights_text(rights))
}

impl Input for Event<'_> {
    fn text(&self) -> String {
        match self {
            Event::Hour(HourInput {
                rights,
                prices,
                collected,
            }) => format!("collected {collected}\n{}", market_text(rights, prices)),
            Event::MonthEnd | Event::YearEnd => String::from("no input but the book"),
        }
    }
}

/// The event's name in the counts of refusals.
pub fn name_of(event: Event) -> &'static str {
    match event {
        Event::Hour(_) => "hour",
        Event::MonthEnd => "month end",
        Event::YearEnd => "year end",
    }
}
