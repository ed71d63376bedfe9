//! Long lists of calls from a fresh book of a year to past the year end, and lists
//! from a book whose year is outside. The book is carried by the library's words on
//! one side and by the second calculation's book on the other.

mod negative_hours;

use reference::book::Book;
use reference::draws::Draws;
use reference::rights::{encode, Right};
use reference::words::{balances_of, counts_of, run, shortfalls_of, Event};
use reference::words::{BALANCES, COUNTS, SETTLED, SHORTFALLS};

use crate::compare::{Case, Kind};
use crate::drawn::{
    amount_towards, calendar_for, days_of, draw_good_year, name_of, old_line, old_lines, Market,
    OUTSIDE,
};
use crate::ledger::Ledger;
use crate::lent::{Given, Lent, Row};
use crate::library;

/// A list has at least so many calls, enough for most years: one in four or so
/// is refused.
const CALLS: u64 = 14_000;
/// And at least so many on the ended book.
const LATE_CALLS: u64 = 100;
/// A list whose carry is full takes longer, but not so long.
const MOST_CALLS: u64 = 200_000;
/// The calls with the same rights.
const BLOCK: u64 = 100;
const FAR_PRICES: [i32; 4] = [-500_000, 500_000, 500_000, -500_000];

/// What a list is like.
struct Plan {
    year: u64,
    /// Makes a list poor or rich.
    luck: u64,
    /// Makes amounts below 0 larger; if it is 0 there are none.
    below_0: u64,
    /// What F the hours of the last day bring the year end to, if any.
    year_fund: Option<i64>,
}

/// What stays the same within a block. An amount is the difference of two draws.
struct Block {
    rights: Vec<u8>,
    highest_price: u64,
    most_collected: u64,
    most_negative: u64,
}

/// What one hour is lent.
struct Hour {
    market: Market,
    collected: i64,
}

fn draw_right(draws: &mut Draws, days: u64, owners: u64, sizes: (u64, u64)) -> Right {
    let source = draws.below(4);
    let (x, y) = (draws.below(days) + 1, draws.below(days) + 1);
    let (first, last) = match draws.below(4) {
        0 => (x.min(y), x.max(y)),
        _ => (1, days),
    };
    Right {
        owner: draws.below(owners),
        source,
        sink: (source + 1 + draws.below(3)) % 4,
        kind: draws.below(2),
        class: draws.below(3),
        size: sizes.0 * (1 + draws.below(sizes.1)),
        first,
        last,
    }
}

/// Few rights and a size of market.
fn draw_block(draws: &mut Draws, plan: &Plan) -> Block {
    let Plan { luck, below_0, .. } = plan;
    let records = draws.below(9);
    let owners = draws.one_of(&[64, 4]);
    let sizes = draws.one_of(&[(1, 100), (1, 10), (10, 100), (100, 100)]);
    let days = days_of(plan.year);
    let right = |_| encode(&draw_right(draws, days, owners, sizes));
    Block {
        rights: (0..records).flat_map(right).collect(),
        highest_price: draws.one_of(&[100, 2_000, 10_000]),
        most_collected: draws.one_of(&[1, 10_000, 100_000 * luck, 500_000 * luck]),
        most_negative: 1 + below_0 * draws.one_of(&[0, 1, 10_000, 200_000]),
    }
}

fn draw_hour(draws: &mut Draws, block: &Block) -> Hour {
    let highest = block.highest_price;
    let price = |()| draws.below(2 * highest + 1) as i32 - highest as i32;
    let prices = [(); 4].map(price);
    let market = Market {
        rights: Row::lent(&block.rights, block.rights.len(), || 0),
        prices: Row::lent(&prices, 4, || 500_001),
    };
    let [above, below] = [block.most_collected, block.most_negative].map(|most| draws.below(most));
    Hour {
        market,
        collected: above as i64 - below as i64,
    }
}

/// Nothing is wanted or charged.
fn quiet_hour(collected: i64) -> Hour {
    let market = Market {
        rights: Row::lent(&[], 0, || 0),
        prices: Row::lent(&[0; 4], 4, || 0),
    };
    Hour { market, collected }
}

/// Lends just one right, for all hours of a year and so large that an hour is too large
/// at far prices.
fn lend_large(market: &mut Market, year: u64, prices: [i32; 4]) {
    let large = Right {
        owner: 5,
        source: 0,
        sink: 1,
        kind: 0,
        class: 2,
        size: 100_000,
        first: 1,
        last: days_of(year),
    };
    market.rights = Row::lent(&encode(&large), 16, || 0);
    market.prices = Row::lent(&prices, 4, || 0);
}

/// What makes an hour refused, in a part of the calls.
fn put_trouble(draws: &mut Draws, hour: &mut Hour, book: &Book) {
    let open = shortfalls_of(book).iter().sum();
    let market = &mut hour.market;
    match draws.below(64) {
        0 => market.prices.cells[1] = 500_001,
        1 => hour.collected = -4_000_000_001,
        2 => hour.collected = 4_000_000_000_001,
        3 => market.prices.lent = 0,
        4 => market.prices = Row::lent(&[0; 1_025], 1_025, || 0),
        5 => market.rights.lent += 1,
        6 => market.prices.lent = 2,
        7 => market.rights = Row::lent(&[0; 16], 16, || 0),
        8 => market.prices.cells[..4].copy_from_slice(&FAR_PRICES),
        9 => lend_large(market, book.year, FAR_PRICES),
        // 4,000,000,000 are wanted: with any shortfall open that is too much
        10 if open > 0 => {
            lend_large(market, book.year, [-200_000, 200_000, 0, 0]);
            hour.collected = draws.below(open) as i64;
        }
        _ => {}
    }
}

/// Mostly the event that is due, else any.
fn draw_event<'a>(draws: &mut Draws, book: &Book, hour: &'a Hour) -> Event<'a> {
    let due_hour = Event::Hour(hour.market.hour(hour.collected));
    match draws.below(16) {
        0 => Event::MonthEnd,
        1 => Event::YearEnd,
        2 => due_hour,
        _ if book.month_end_due() => Event::MonthEnd,
        _ if book.year_end_due() => Event::YearEnd,
        _ => due_hour,
    }
}

/// The second calculation's side: an event on its book, given as the words that
/// the library should have written.
fn second_given(book: &mut Book, event: Event, lent: &Lent) -> Given {
    let mut after = lent.clone();
    let result = run(event, *book, after.lines.slice_mut());
    *book = result.book;
    let settled = [result.record as i64, result.fund, result.wants as i64];
    after.settled.slice_mut().copy_from_slice(&settled);
    after.counts.slice_mut().copy_from_slice(&counts_of(book));
    let shortfalls = after.shortfalls.slice_mut();
    shortfalls.copy_from_slice(&shortfalls_of(book));
    let balances = after.balances.slice_mut();
    balances.copy_from_slice(&balances_of(book));
    Given {
        refusal: result.refusal,
        lent: after,
    }
}

/// A book of a year opened by the library, which gives this refusal.
fn opened(draws: &mut Draws, year: u64, refusal: u64) -> Lent {
    let mut lent = Lent {
        counts: Row::lent(&[], COUNTS, || draws.any()),
        shortfalls: Row::lent(&[], SHORTFALLS, || draws.any()),
        balances: Row::lent(&[], BALANCES, || old_line(draws)),
        ..Lent::default()
    };
    assert_eq!(library::open(year, lent.book()), refusal);
    lent
}

/// There are few ends that are due, and only one year end, so more of them get a wrong
/// number of lines.
fn draw_lines(draws: &mut Draws, event: Event, lent: &mut Lent) {
    let odds = match event {
        Event::Hour(_) => 64,
        Event::MonthEnd => 4,
        Event::YearEnd => 2,
    };
    let wrong = draws.one_of(&[0, 63, 65]);
    let count = if draws.once_in(odds) { wrong } else { 64 };
    lent.lines = old_lines(draws, count);
    lent.settled = Row::lent(&[], SETTLED, || old_line(draws));
}

/// A list as it runs: the library's words, the second calculation's book, the ledger,
/// and the name and F of each accepted event.
struct List {
    words: Lent,
    book: Book,
    ledger: Ledger,
    accepted: Vec<(&'static str, i64)>,
}

impl List {
    /// A list from a fresh book of a year.
    fn new(draws: &mut Draws, year: u64) -> List {
        List {
            words: opened(draws, year, 0),
            book: Book::fresh(year),
            ledger: Ledger::new(year),
            accepted: Vec::new(),
        }
    }

    /// One event on both sides, entered into the ledger.
    fn call(&mut self, case: &mut Case, event: Event) {
        let library = settled(case, &self.words, &mut self.book, event);
        self.ledger.enter(event, &library);
        self.words = library.lent;
        if library.refusal == 0 {
            let fund = self.words.settled.cells[1];
            self.accepted.push((name_of(event), fund));
        }
    }

    /// At its end all hours, month ends and the year end have been accepted.
    fn check_end(&self, case: &mut Case) {
        let Ledger {
            hours,
            months,
            year_ends,
            ..
        } = self.ledger;
        let all = calendar_for(self.book.year).hours();
        assert_eq!((hours, months, year_ends), (all, 12, 1), "accepted");
        case.came("hours of an ended year", all);
    }
}

/// An hour. Where the year end's F is planned each month begins with an hour whose F is
/// negative, and the hours of the last day bring that F about.
fn draw_next_hour(draws: &mut Draws, book: &Book, plan: &Plan, block: &Block) -> Hour {
    let last_day = calendar_for(plan.year).hours() - 24;
    match plan.year_fund {
        Some(_) if begins_month(book) => quiet_hour(-1 - draws.below(1_000_000) as i64),
        Some(fund) if book.hours >= last_day => quiet_hour(amount_towards(book, fund)),
        _ => draw_hour(draws, block),
    }
}

/// The next hour is the first of its month.
fn begins_month(book: &Book) -> bool {
    let ends = calendar_for(book.year).month_ends;
    let last = book.months.checked_sub(1).map(|month| ends[month as usize]);
    book.hours == last.unwrap_or(0)
}

fn compare_call(case: &mut Case, list: &mut List, plan: &Plan, block: &Block) {
    let draws = &mut case.draws;
    let mut hour = draw_next_hour(draws, &list.book, plan, block);
    put_trouble(draws, &mut hour, &list.book);
    let event = draw_event(draws, &list.book, &hour);
    draw_lines(draws, event, &mut list.words);
    list.call(case, event);
}

/// An event on both sides; gives what the library gave.
fn settled(case: &mut Case, words: &Lent, book: &mut Book, event: Event) -> Given {
    let library = words.after(|lent| {
        let (book, lines, report) = lent.event_cells();
        library::settle(book, event, lines, report)
    });
    let second = second_given(book, event, words);
    case.compare_given(name_of(event), &event, words, &library, &second);
    library
}

fn compare_list(case: &mut Case, plan: &Plan) -> List {
    let mut block = draw_block(&mut case.draws, plan);
    let mut list = List::new(&mut case.draws, plan.year);
    let (mut calls, mut late_calls) = (0, 0);
    while (calls < CALLS || late_calls < LATE_CALLS) && calls < MOST_CALLS {
        if calls % BLOCK == 0 {
            block = draw_block(&mut case.draws, plan);
        }
        late_calls += u64::from(list.book.ended);
        compare_call(case, &mut list, plan, &block);
        calls += 1;
    }
    list.check_end(case);
    list
}

/// No hour collects less than nothing.
fn ordinary(draws: &mut Draws, year: u64) -> Plan {
    Plan {
        year,
        luck: draws.below(4) + 1,
        below_0: 0,
        year_fund: None,
    }
}

/// No F of such a list is negative either.
fn compare_ordinary_list(case: &mut Case, year: u64) {
    let plan = ordinary(&mut case.draws, year);
    let list = compare_list(case, &plan);
    let negative = list.accepted.iter().find(|(_, fund)| *fund < 0);
    assert_eq!(negative, None);
    assert!(list.book.month_balance >= 0 && list.book.year_balance >= 0);
}

/// What must come in the lists of a test: their refusals, and hours of ended years.
type Come = &'static [(&'static str, &'static [u64])];

const IN_2025: Come = &[
    ("hour", &[0, 2, 3, 4, 5, 6, 7, 8, 9, 10]),
    ("month end", &[0, 2, 3, 4]),
    ("year end", &[0, 2, 3, 4]),
    ("hours of an ended year", &[8_760]),
];
const IN_OTHER_YEARS: Come = &[
    ("hour", &[0, 2, 3, 4, 5, 6, 7, 8, 9, 10]),
    ("month end", &[0, 2, 3, 4]),
    ("year end", &[0, 2, 3, 4]),
    ("hours of an ended year", &[8_760, 8_784]),
];

// Three tests of a kind, for three threads.

#[test]
fn years() {
    let kind = Kind {
        test: "call_lists::years",
        base: Some(4_768_777_513_237_032_717),
        cases: 48,
        refusals: IN_2025,
    };
    kind.run(|case| compare_ordinary_list(case, 2_025));
}

#[test]
fn other_years() {
    let kind = Kind {
        test: "call_lists::other_years",
        base: Some(8_862_811_542_163_104_129),
        cases: 48,
        refusals: IN_OTHER_YEARS,
    };
    kind.run(|case| {
        let year = draw_good_year(&mut case.draws);
        compare_ordinary_list(case, year);
    });
}

/// With February 2028, with the same in 2096, with February 2100, which is not
/// longer, and one beside it. The seed is the year's number.
const YEARS: [u64; 4] = [2_027, 2_095, 2_099, 2_098];

#[test]
fn named_years() {
    let kind = Kind {
        test: "call_lists::named_years",
        base: None,
        cases: YEARS.len() as u64,
        refusals: IN_OTHER_YEARS,
    };
    kind.run(|case| compare_ordinary_list(case, YEARS[case.seed as usize % YEARS.len()]));
}

/// The book is opened with a year outside, which gives it all 0: each call is then
/// refused with 15, and all that is lent stays.
fn compare_refused_list(case: &mut Case) {
    let any = case.draws.any();
    let year = case
        .draws
        .one_of(&[2_024, 2_100, any, OUTSIDE[0], OUTSIDE[5]]);
    let mut words = opened(&mut case.draws, year, 15);
    let mut book = Book::fresh(0);
    let plan = ordinary(&mut case.draws, year);
    let block = draw_block(&mut case.draws, &plan);
    for _ in 0..50 {
        let draws = &mut case.draws;
        let mut hour = draw_hour(draws, &block);
        put_trouble(draws, &mut hour, &book);
        let event = draw_event(draws, &book, &hour);
        draw_lines(draws, event, &mut words);
        let given = settled(case, &words, &mut book, event);
        assert_eq!((given.refusal, book), (15, Book::fresh(0)));
        words.settled.slice_mut().fill(0);
        assert!(given.lent == words, "a refused call wrote");
    }
}

#[test]
fn years_outside() {
    let kind = Kind {
        test: "call_lists::years_outside",
        base: Some(5_421_010_862_427_522_170),
        cases: 300,
        refusals: &[("hour", &[15]), ("month end", &[15]), ("year end", &[15])],
    };
    kind.run(compare_refused_list);
}
