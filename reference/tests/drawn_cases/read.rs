//! The read by record number.

use reference::draws::Draws;
use reference::record_words::{cut, words as words_of};
use reference::rights::{encode, Right, RECORD};
use reference::words;

use crate::compare::{Case, Input, Kind};
use crate::drawn::{
    days_of, draw_good_year, draw_rights, draw_year, number_of, old_words, rights_text, Shape,
};
use crate::lent::{Given, Lent, Row};
use crate::library;

/// A file, the year that it is read for, and a place in it.
pub struct Place {
    pub year: u64,
    pub rights: Row<u8>,
    pub record: u64,
}

impl Input for Place {
    fn text(&self) -> String {
        let rights = rights_text(self.rights.slice());
        let Place { year, record, .. } = self;
        format!("year {year}, from record number {record}\n{rights}")
    }
}

/// A file of few records, or now and then of the most or one more.
pub fn draw_file(draws: &mut Draws, year: u64) -> Row<u8> {
    let few = draws.below(7) as usize;
    let days = days_of(year);
    let shape = Shape {
        days,
        records: match draws.below(200) {
            0 => draws.one_of(&[4_095, 4_096, 4_097]),
            _ => few,
        },
        nodes: draws.one_of(&[4, 1_024]),
        today: draws.below(days) + 1,
        prices: 1_024,
        faults: 24,
    };
    draw_rights(draws, &shape)
}

pub fn draw_record(draws: &mut Draws, records: u64) -> u64 {
    let near_end = (records + 1).saturating_sub(draws.below(3));
    match draws.below(8) {
        0 => near_end,
        1 => draws.any(),
        // its low bytes are a record number
        2 => draws.one_of(&[1 << 16, 1 << 32, 1 << 60]) + draws.below(records + 1),
        _ => draws.below(records.max(1)),
    }
}

pub fn compare_read(case: &mut Case, place: &Place, lent: &Lent) -> Given {
    let Place { year, record, .. } = *place;
    let file = place.rights.slice();
    case.compare(
        "read",
        place,
        lent,
        |lent| library::read(year, file, record, lent.report.slice_mut()),
        |lent| words::read(year, file, record, lent.report.slice_mut()),
    )
}

#[test]
fn any_record() {
    let kind = Kind {
        test: "read::any_record",
        base: Some(7_046_029_254_386_353_131),
        cases: 200_000,
        refusals: &[("read", &[0, 4, 7, 15])],
    };
    kind.run(|case| {
        let draws = &mut case.draws;
        let year = draw_year(draws);
        let rights = draw_file(draws, year);
        let record = draw_record(draws, rights.lent as u64 / 16);
        let report_words = number_of(draws, words::RIGHT, 32);
        let lent = Lent {
            report: old_words(draws, report_words),
            ..Lent::default()
        };
        let place = Place {
            year,
            rights,
            record,
        };
        compare_read(case, &place, &lent);
    });
}

pub fn draw_good(draws: &mut Draws, days: u64) -> Right {
    let (source, first) = (draws.below(1_024), draws.below(days) + 1);
    Right {
        owner: draws.below(64),
        source,
        sink: (source + 1 + draws.below(1_023)) % 1_024,
        kind: draws.below(2),
        class: draws.below(3),
        size: draws.below(100_000) + 1,
        first,
        last: first + draws.below(days + 1 - first),
    }
}

/// A good record, and each of its bytes in turn as each of the 256 values. A
/// record that is read has the fields that its two words give.
#[test]
fn each_byte_of_a_record() {
    let kind = Kind {
        test: "read::each_byte_of_a_record",
        base: Some(3_935_559_000_370_003_845),
        cases: 60,
        refusals: &[("read", &[0, 7])],
    };
    kind.run(|case| {
        let year = draw_good_year(&mut case.draws);
        let good = encode(&draw_good(&mut case.draws, days_of(year)));
        let lent = Lent {
            report: old_words(&mut case.draws, words::RIGHT),
            ..Lent::default()
        };
        for place in 0..RECORD {
            for value in 0..=255 {
                let mut record = good;
                record[place] = value;
                let place = Place {
                    year,
                    rights: Row::lent(&record, RECORD, || value),
                    record: 0,
                };
                let given = compare_read(case, &place, &lent);
                if given.refusal == 0 {
                    let fields = words::right_words(&cut(words_of(&record)));
                    assert_eq!(given.lent.report.slice(), fields);
                }
            }
        }
    });
}
