//! Files with several faulty rights, in every order: "In 7 and 8 the record
//! number becomes the lowest one with that fault, all earlier records being free
//! of it. Hour and target calls pass it on and state the same." And a row call,
//! whose refusals are those of a target call, and a step, which passes on its
//! hour's.
//!
//! Expected are the second calculation's results, and besides a refusal and a
//! record number that follow from where the faults were put.

use reference::book::Book;
use reference::rights::{encode, Right, RECORD};
use reference::step::HOUR_BYTES;
use reference::words::{Event, OUTCOME, SETTLED, STEPPED, STEP_ROOM};
use reference::words::{BALANCES, COUNTS, SHORTFALLS};

use crate::compare::{Case, Kind};
use crate::drawn::{hour_bytes, lend_book, old_lines, old_text, Market, OUTSIDE};
use crate::lent::{Given, Lent, Row};
use crate::rows::compare_rows;
use crate::single_events::compare_event;
use crate::steps::{compare_block, Block, Step};
use crate::targets::{compare_targets, Asked};

/// What stands in a record number, and in the rest of a report, before a call.
const OLD: u64 = 77;

/// Numbers of records; the last is that of a full file.
const RECORDS: [usize; 6] = [1, 2, 3, 4, 7, 4_096];

/// At nodes 0 and 1.
const PRICES: [i32; 2] = [0, 400_000];
/// An hour that is peak.
const HOUR: u64 = 30;
const COLLECTED: i64 = 1_000;

/// What is changed in a right.
type Change = fn(&mut Right);

/// A field outside its values. A node of 1,024 or more has no price either.
const BAD: [Change; 16] = [
    |right| right.owner = 64,
    |right| right.owner = 65_535,
    |right| right.source = 1_024,
    |right| right.sink = 1_024,
    |right| right.sink = 65_535,
    // The higher node, so that an unpriced one stays.
    |right| {
        let node = right.source.max(right.sink);
        (right.source, right.sink) = (node, node);
    },
    |right| right.kind = 2,
    |right| right.kind = 255,
    |right| right.class = 3,
    |right| right.size = 0,
    |right| right.size = 100_001,
    |right| right.size = 4_294_967_295,
    |right| right.first = 0,
    |right| right.last = 366,
    |right| (right.first, right.last) = (2, 1),
    |right| (right.first, right.last) = (365, 0),
];

/// The number of prices, and a node of a good right that is not below it.
const UNPRICED: [(usize, Change); 4] = [
    (2, |right| right.source = 2),
    (2, |right| right.sink = 1_023),
    (1_000, |right| right.sink = 1_000),
    (1_023, |right| right.source = 1_023),
];

/// The faults put into a record.
#[derive(Clone, Copy, PartialEq)]
enum Put {
    Nothing,
    Bad,
    Unpriced,
    Both,
}

const PUTS: [Put; 4] = [Put::Nothing, Put::Bad, Put::Unpriced, Put::Both];

/// A case: so many records and prices, and the changes that make a record bad,
/// unpriced, and bad besides unpriced.
struct Setting {
    records: usize,
    prices: usize,
    bad: Change,
    unpriced: Change,
    also_bad: Change,
}

const SETTINGS: usize = RECORDS.len() * UNPRICED.len() * BAD.len();

/// The setting of a number below `SETTINGS`.
fn setting(number: usize) -> Setting {
    let (rest, at) = (number / BAD.len(), number % BAD.len());
    let (prices, unpriced) = UNPRICED[rest % UNPRICED.len()];
    Setting {
        records: RECORDS[rest / UNPRICED.len() % RECORDS.len()],
        prices,
        bad: BAD[at],
        unpriced,
        also_bad: BAD[(at + 5) % BAD.len()],
    }
}

/// A good right between nodes 0 and 1; its other fields are at the ends of their
/// values.
fn good(record: usize) -> Right {
    let odd = record as u64 % 2;
    Right {
        owner: 63 * odd,
        source: odd,
        sink: 1 - odd,
        kind: odd,
        class: record as u64 % 3,
        size: 1 + 99_999 * odd,
        first: 1 + 364 * odd,
        last: 365,
    }
}

/// All records of a small file; the first, a middle and the last of a large one.
fn places(records: usize) -> Vec<usize> {
    match records {
        0..=4 => (0..records).collect(),
        _ => vec![0, records / 2, records - 1],
    }
}

/// Every way to put faults, or none, into so many records.
fn all_puts(count: usize) -> impl Iterator<Item = Vec<Put>> {
    let ways = PUTS.len().pow(count as u32);
    let digit = |way: usize, at: usize| way / PUTS.len().pow(at as u32) % PUTS.len();
    (0..ways).map(move |way| (0..count).map(|at| PUTS[digit(way, at)]).collect())
}

impl Setting {
    /// A file without a fault, and behind it a record of zeros, which is bad.
    fn good_file(&self) -> Row<u8> {
        let records = (0..self.records).map(good);
        let mut cells: Vec<u8> = records.flat_map(|right| encode(&right)).collect();
        let lent = cells.len();
        cells.resize(lent + RECORD, 0);
        Row { cells, lent }
    }

    fn put(&self, file: &mut Row<u8>, record: usize, put: Put) {
        let mut right = good(record);
        match put {
            Put::Nothing => {}
            Put::Bad => (self.bad)(&mut right),
            Put::Unpriced => (self.unpriced)(&mut right),
            Put::Both => {
                (self.unpriced)(&mut right);
                (self.also_bad)(&mut right);
            }
        }
        let at = record * RECORD;
        file.cells[at..at + RECORD].copy_from_slice(&encode(&right));
    }

    /// Goes through all files of the setting, with what is put into their places.
    fn each(&self, mut check: impl FnMut(&Row<u8>, &Faults)) {
        let places = places(self.records);
        let mut rights = self.good_file();
        for puts in all_puts(places.len()) {
            for (place, put) in places.iter().zip(&puts) {
                self.put(&mut rights, *place, *put);
            }
            let faults = Faults {
                places: &places,
                puts: &puts,
            };
            check(&rights, &faults);
        }
    }
}

/// The places of a file, rising, and what is put into each.
struct Faults<'a> {
    places: &'a [usize],
    puts: &'a [Put],
}

impl Faults<'_> {
    /// The first place with one of these.
    fn first(&self, wanted: &[Put]) -> Option<u64> {
        let at = self.puts.iter().position(|put| wanted.contains(put))?;
        Some(self.places[at] as u64)
    }

    fn bad(&self) -> Option<(u64, u64)> {
        self.first(&[Put::Bad, Put::Both]).map(|at| (7, at))
    }

    /// The refusal and the record number: 7 comes before 8 over the whole file,
    /// wherever the first unpriced node is.
    fn named(&self) -> (u64, u64) {
        let unpriced = self.first(&[Put::Unpriced]).map(|at| (8, at));
        self.bad().or(unpriced).unwrap_or((0, 0))
    }

    /// The same where all 1,024 nodes have a price.
    fn named_by_step(&self) -> (u64, u64) {
        self.bad().unwrap_or((0, 0))
    }
}

/// A book before an hour that is peak.
fn book() -> Book {
    Book {
        hours: HOUR,
        ..Book::fresh(2_025)
    }
}

/// Compares a target call or a row call.
type Compare = fn(&mut Case, &Asked, &Lent) -> Given;

/// What the calls are lent.
struct Call {
    /// Of an event and a step; its year is that of a target call and a row call too.
    book: Book,
    rights: Row<u8>,
    prices: Row<i32>,
    /// Of a target call and a row call; the others settle the book's next one.
    hour: u64,
    collected: i64,
    /// The lines that are lacking, of 64 or of one for each record.
    lacking: usize,
    /// The bytes of a step's block.
    block: usize,
}

impl Call {
    /// A call that only its rights can make refused.
    fn over(rights: &Row<u8>, prices: usize) -> Call {
        Call {
            book: book(),
            rights: rights.clone(),
            prices: Row::lent(&PRICES, prices, || 0),
            hour: HOUR,
            collected: COLLECTED,
            lacking: 0,
            block: HOUR_BYTES,
        }
    }

    fn market(&self) -> Market {
        Market {
            rights: self.rights.clone(),
            prices: self.prices.clone(),
        }
    }

    /// The refusal and the record number of a target call, which both sides gave.
    fn targets(&self, case: &mut Case) -> (u64, u64) {
        self.ask(case, 64, compare_targets)
    }

    /// Those of a row call.
    fn rows(&self, case: &mut Case) -> (u64, u64) {
        self.ask(case, self.rights.lent / RECORD, compare_rows)
    }

    fn ask(&self, case: &mut Case, lines: usize, compare: Compare) -> (u64, u64) {
        let lent = Lent {
            lines: old_lines(&mut case.draws, lines - self.lacking),
            report: Row::lent(&[], OUTCOME, || OLD),
            ..Lent::default()
        };
        let (year, market, hour) = (self.book.year, self.market(), self.hour);
        let asked = Asked { year, market, hour };
        let given = compare(case, &asked, &lent);
        (given.refusal, given.lent.report.cells[0])
    }

    /// Those of an hour.
    fn settle_hour(&self, case: &mut Case) -> (u64, u64) {
        let market = self.market();
        self.settle(case, Event::Hour(market.hour(self.collected)))
    }

    fn settle(&self, case: &mut Case, event: Event) -> (u64, u64) {
        let words = [COUNTS, SHORTFALLS, BALANCES];
        let mut lent = lend_book(&mut case.draws, &self.book, words);
        lent.lines = old_lines(&mut case.draws, 64 - self.lacking);
        lent.settled = Row::lent(&[], SETTLED, || OLD as i64);
        let given = compare_event(case, event, &lent);
        (given.refusal, given.lent.settled.cells[0] as u64)
    }

    /// Those of a step, whose block has these prices and else zeros.
    fn step(&self, case: &mut Case) -> (u64, u64) {
        let bytes = hour_bytes(self.collected, self.prices.slice());
        let block = Block {
            rights: self.rights.clone(),
            bytes: Row::lent(&bytes, self.block, || 0),
        };
        let words = [COUNTS, SHORTFALLS, BALANCES];
        let mut lent = lend_book(&mut case.draws, &self.book, words);
        lent.report = Row::lent(&[], STEPPED, || OLD);
        lent.text = old_text(&mut case.draws, STEP_ROOM);
        let given = compare_block(case, &Step { block, end: 0 }, &lent);
        (given.refusal, given.lent.report.cells[STEPPED - 1])
    }
}

#[test]
fn targets_name_the_first_with_the_fault() {
    let kind = Kind {
        test: "faulty_records::targets_name_the_first_with_the_fault",
        base: None,
        cases: SETTINGS as u64,
        refusals: &[("targets", &[0, 7, 8])],
    };
    kind.run(|case| {
        let setting = setting(case.seed as usize);
        setting.each(|rights, faults| {
            let named = Call::over(rights, setting.prices).targets(case);
            assert_eq!(named, faults.named());
        });
    });
}

#[test]
fn rows_name_the_first_with_the_fault() {
    let kind = Kind {
        test: "faulty_records::rows_name_the_first_with_the_fault",
        base: None,
        cases: SETTINGS as u64,
        refusals: &[("rows", &[0, 7, 8])],
    };
    kind.run(|case| {
        let setting = setting(case.seed as usize);
        setting.each(|rights, faults| {
            let named = Call::over(rights, setting.prices).rows(case);
            assert_eq!(named, faults.named());
        });
    });
}

#[test]
fn hours_name_the_first_with_the_fault() {
    let kind = Kind {
        test: "faulty_records::hours_name_the_first_with_the_fault",
        base: None,
        cases: SETTINGS as u64,
        refusals: &[("hour", &[0, 7, 8])],
    };
    kind.run(|case| {
        let setting = setting(case.seed as usize);
        setting.each(|rights, faults| {
            let named = Call::over(rights, setting.prices).settle_hour(case);
            assert_eq!(named, faults.named());
        });
    });
}

/// A step has all 1,024 prices: 8 never comes, and a node that is unpriced in the
/// tests above is good here.
#[test]
fn steps_name_the_first_bad_right() {
    let kind = Kind {
        test: "faulty_records::steps_name_the_first_bad_right",
        base: None,
        cases: SETTINGS as u64,
        refusals: &[("step", &[0, 7])],
    };
    kind.run(|case| {
        let setting = setting(case.seed as usize);
        setting.each(|rights, faults| {
            let named = Call::over(rights, setting.prices).step(case);
            assert_eq!(named, faults.named_by_step());
        });
    });
}

/// A change to the call below, and the refusal that then comes.
type Changed = (u64, fn(&mut Call));

/// A call over a file whose record 1 is unpriced and whose record 2 is bad.
fn faulty_call() -> Call {
    let setting = Setting {
        records: 4,
        ..setting(0)
    };
    let mut rights = setting.good_file();
    setting.put(&mut rights, 1, Put::Unpriced);
    setting.put(&mut rights, 2, Put::Bad);
    Call::over(&rights, setting.prices)
}

/// In place of the faulty file, one good right of the largest size.
fn lend_large(call: &mut Call, prices: [i32; 2]) {
    let large = Right {
        size: 100_000,
        ..good(0)
    };
    call.rights = Row::lent(&encode(&large), RECORD, || 0);
    call.prices = Row::lent(&prices, 2, || 0);
}

/// The shortfalls are at their limit, and what is wanted is not collected.
fn fill_carry(call: &mut Call) {
    lend_large(call, [0, 1]);
    call.book.year_shortfalls[9] = 4_000_000_000;
    call.collected = 0;
}

/// Changes for all four calls.
const CHANGED: [Changed; 6] = [
    (0, |call| lend_large(call, [0, 1])),
    (4, |call| call.rights.lent -= 1),
    (4, |call| {
        call.rights = Row::lent(&[0; 65_552], 65_552, || 0);
    }),
    (5, |call| call.prices.cells[0] = 500_001),
    (5, |call| call.prices.cells[1] = -500_001),
    // The file as it is: the faults are there.
    (7, |_| {}),
];

/// Changes for a target call, a row call and an hour only.
const CHANGED_SLICES: [Changed; 4] = [
    (4, |call| call.lacking = 1),
    (4, |call| call.prices.lent = 0),
    (4, |call| call.prices = Row::lent(&[0; 1_025], 1_025, || 0)),
    (8, |call| {
        let at = 2 * RECORD;
        call.rights.cells[at..at + RECORD].copy_from_slice(&encode(&good(2)));
    }),
];

/// Changes for an hour and a step only.
const CHANGED_BOOK: [Changed; 8] = [
    (1, |call| call.book.hours = 8_761),
    (1, |call| call.book.ended = true),
    (2, |call| {
        (call.book.hours, call.book.months) = (8_760, 12);
        call.book.ended = true;
    }),
    (3, |call| call.book.hours = 720),
    (6, |call| call.collected = -4_000_000_001),
    (6, |call| call.collected = 4_000_000_000_001),
    (9, |call| lend_large(call, [-500_000, 500_000])),
    (10, fill_carry),
];

/// The record number is 0 but in 7 and 8, whatever stood in the report before. With
/// a year outside 15 comes in place of each, "before any other check".
fn check_changed(changed: &[Changed], mut named: impl FnMut(&Call) -> (u64, u64)) {
    for (refusal, change) in changed {
        let mut call = faulty_call();
        change(&mut call);
        let record = match refusal {
            7 => 2,
            8 => 1,
            _ => 0,
        };
        assert_eq!(named(&call), (*refusal, record));
        for year in OUTSIDE {
            call.book.year = year;
            assert_eq!(named(&call), (15, 0), "{year}, in place of {refusal}");
        }
    }
}

#[test]
fn targets_and_rows_name_no_record_but_in_7_and_8() {
    let kind = Kind {
        test: "faulty_records::targets_and_rows_name_no_record_but_in_7_and_8",
        base: None,
        cases: 1,
        refusals: &[
            ("targets", &[0, 3, 4, 5, 7, 8, 15]),
            ("rows", &[0, 3, 4, 5, 7, 8, 15]),
        ],
    };
    kind.run(|case| {
        let late: Changed = (3, |call| call.hour = 8_760);
        let changed = [&CHANGED[..], &CHANGED_SLICES, &[late]].concat();
        check_changed(&changed, |call| call.targets(case));
        check_changed(&changed, |call| call.rows(case));
    });
}

#[test]
fn events_name_no_record_but_in_7_and_8() {
    let kind = Kind {
        test: "faulty_records::events_name_no_record_but_in_7_and_8",
        base: None,
        cases: 1,
        refusals: &[
            ("hour", &[0, 1, 2, 3, 4, 5, 6, 7, 8, 9, 10, 15]),
            ("month end", &[0, 3]),
            ("year end", &[0, 3]),
        ],
    };
    kind.run(|case| {
        let changed = [&CHANGED[..], &CHANGED_SLICES, &CHANGED_BOOK].concat();
        check_changed(&changed, |call| call.settle_hour(case));
        let mut call = faulty_call();
        assert_eq!(call.settle(case, Event::MonthEnd), (3, 0));
        assert_eq!(call.settle(case, Event::YearEnd), (3, 0));
        call.book.hours = 720;
        assert_eq!(call.settle(case, Event::MonthEnd), (0, 0));
        (call.book.hours, call.book.months) = (8_760, 12);
        assert_eq!(call.settle(case, Event::YearEnd), (0, 0));
    });
}

#[test]
fn steps_name_no_record_but_in_7() {
    let kind = Kind {
        test: "faulty_records::steps_name_no_record_but_in_7",
        base: None,
        cases: 1,
        refusals: &[("step", &[0, 1, 2, 3, 4, 5, 6, 7, 9, 10, 15])],
    };
    kind.run(|case| {
        let broken: Changed = (4, |call| call.block = HOUR_BYTES - 1);
        let changed = [&CHANGED[..], &CHANGED_BOOK, &[broken]].concat();
        check_changed(&changed, |call| call.step(case));
    });
}
