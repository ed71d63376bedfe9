//! The write, "the opposite of the reader: a right as values, written as the 16 bytes
//! at a given record number in a lent file, every other byte unchanged". After every
//! call the whole file is compared, and what stands behind it.

mod passed_on;

use reference::draws::Draws;
use reference::record_words::made_of;
use reference::rights::{is_wrong_length, Right, RECORD};
use reference::words::{self, right_words, RIGHT, STEP};

use crate::compare::{Case, Input, Kind};
use crate::drawn::{days_of, draw_good_year, draw_year, number_of, old_words};
use crate::lent::{Given, Lent, Row};
use crate::library;
use crate::read::{compare_read, draw_file, draw_good, draw_record, Place};
use crate::reader::compare_step;

/// A right as words, and the place that it is written to.
pub struct Writing {
    pub place: Place,
    pub right: Row<u64>,
}

impl Input for Writing {
    fn text(&self) -> String {
        format!("right {:?}\n{}", self.right.slice(), self.place.text())
    }
}

impl Writing {
    /// The file, which is all that a write is lent to write.
    pub fn lend(&self) -> Lent {
        Lent {
            rights: self.place.rights.clone(),
            ..Lent::default()
        }
    }
}

pub fn compare_write(case: &mut Case, writing: &Writing) -> Given {
    let Place { year, record, .. } = writing.place;
    let right = writing.right.slice();
    case.compare(
        "write",
        writing,
        &writing.lend(),
        |lent| library::write(year, lent.rights.slice_mut(), record, right),
        |lent| words::write(year, lent.rights.slice_mut(), record, right),
    )
}

/// The least and the most of a field's values, and its bits in the record.
struct Field {
    least: u64,
    most: u64,
    bits: u32,
}

/// The fields of a good right in the order of the words; the days as each may be while
/// the other stays.
fn fields_of(right: &Right, days: u64) -> [Field; RIGHT] {
    let field = |least, most, bits| Field { least, most, bits };
    [
        field(0, 63, 16),
        field(0, 1_023, 16),
        field(0, 1_023, 16),
        field(0, 1, 8),
        field(0, 2, 8),
        field(1, 100_000, 32),
        field(1, right.last, 16),
        field(right.first, days, 16),
    ]
}

impl Field {
    fn holds(&self, value: u64) -> bool {
        (self.least..=self.most).contains(&value)
    }

    /// The ends of the values and one past each; the ends of what the bits hold; and
    /// words whose low bits are a good value.
    fn edges(&self, value: u64) -> [u64; 11] {
        let wide = 1 << self.bits;
        [
            self.least,
            self.most,
            self.least.wrapping_sub(1),
            self.most + 1,
            wide - 1,
            wide,
            wide + self.least,
            wide + self.most,
            wide + value,
            (1 << 63) + value,
            u64::MAX,
        ]
    }
}

/// The words of a good right, in part with one field at an edge, with all of them at
/// ends of their values, or any.
fn draw_words(draws: &mut Draws, days: u64) -> [u64; RIGHT] {
    let good = draw_good(draws, days);
    let fields = fields_of(&good, days);
    let mut words = right_words(&good);
    match draws.below(8) {
        0 => words.fill_with(|| draws.any()),
        1 => words.fill_with(|| draws.any() >> draws.below(64)),
        2 => words = fields.map(|field| draws.one_of(&[field.least, field.most])),
        3..=5 => {
            let at = draws.below(RIGHT as u64) as usize;
            words[at] = draws.one_of(&fields[at].edges(words[at]));
        }
        _ => {}
    }
    words
}

/// Such a file as a read is lent, or one of any bytes.
fn draw_any_file(draws: &mut Draws, year: u64) -> Row<u8> {
    if !draws.once_in(4) {
        return draw_file(draws, year);
    }
    let records = draws.below(5) as usize;
    let lent = records * RECORD + draws.one_of(&[0, 0, 0, 1, 15]);
    Row::lent(&[], lent, || draws.any() as u8)
}

#[test]
fn any_record() {
    let kind = Kind {
        test: "write::any_record",
        base: Some(9_136_724_508_163_297_451),
        cases: 200_000,
        refusals: &[("write", &[0, 4, 7, 15])],
    };
    kind.run(|case| {
        let draws = &mut case.draws;
        let year = draw_year(draws);
        let rights = draw_any_file(draws, year);
        let record = draw_record(draws, rights.lent as u64 / 16);
        let words = draw_words(draws, days_of(year));
        let number = number_of(draws, RIGHT, 16);
        let right = Row::lent(&words, number, || draws.below(3));
        let place = Place {
            year,
            rights,
            record,
        };
        compare_write(case, &Writing { place, right });
    });
}

/// A good place for a right of these words.
fn draw_writing(draws: &mut Draws, year: u64, words: &[u64; RIGHT]) -> Writing {
    let rights = Row::lent(&[], 3 * RECORD, || draws.any() as u8);
    let place = Place {
        year,
        rights,
        record: draws.below(3),
    };
    let right = Row::lent(words, RIGHT, || 0);
    Writing { place, right }
}

/// The bytes that a good right's two words make.
fn bytes_of(right: &Right) -> Vec<u8> {
    made_of(right).map(u64::to_le_bytes).concat()
}

/// A good right, and each of its fields in turn at each of its edges; an accepted one
/// has the bytes of its two words.
fn compare_edges(case: &mut Case) {
    let year = draw_good_year(&mut case.draws);
    let days = days_of(year);
    let good = draw_good(&mut case.draws, days);
    for (at, field) in fields_of(&good, days).iter().enumerate() {
        for value in field.edges(right_words(&good)[at]) {
            let mut words = right_words(&good);
            words[at] = value;
            let writing = draw_writing(&mut case.draws, year, &words);
            let given = compare_write(case, &writing);
            let [_, source, sink, ..] = words;
            let is_good = field.holds(value) && source != sink;
            assert_eq!(given.refusal, if is_good { 0 } else { 7 });
        }
    }
    let writing = draw_writing(&mut case.draws, year, &right_words(&good));
    let given = compare_write(case, &writing);
    let at = writing.place.record as usize * RECORD;
    assert_eq!(given.lent.rights.cells[at..at + RECORD], bytes_of(&good));
    case.came("days of the year", days);
}

#[test]
fn each_limit() {
    let kind = Kind {
        test: "write::each_limit",
        base: Some(6_571_830_249_915_370_683),
        cases: 2_000,
        refusals: &[("write", &[0, 7]), ("days of the year", &[365, 366])],
    };
    kind.run(compare_edges);
}

/// A file of right length with at least one record.
fn draw_whole_file(draws: &mut Draws, year: u64) -> Row<u8> {
    loop {
        let rights = draw_any_file(draws, year);
        if rights.lent > 0 && !is_wrong_length(rights.slice()) {
            return rights;
        }
    }
}

/// The refusal of a read or a reader's step, and the eight fields.
type Fields = (u64, Vec<u64>);

/// What a read gives of every record, and of two numbers past the last.
fn all_read(case: &mut Case, year: u64, rights: &Row<u8>) -> Vec<Fields> {
    let records = rights.lent as u64 / 16;
    let mut place = Place {
        year,
        rights: rights.clone(),
        record: 0,
    };
    let read = |record| {
        place.record = record;
        let lent = Lent {
            report: old_words(&mut case.draws, RIGHT),
            ..Lent::default()
        };
        let given = compare_read(case, &place, &lent);
        (given.refusal, given.lent.report.slice().to_vec())
    };
    (0..records + 2).map(read).collect()
}

/// What the reader gives from record 0 on, until it says that none is left.
fn all_given(case: &mut Case, year: u64, rights: &Row<u8>) -> Vec<Fields> {
    let mut place = Place {
        year,
        rights: rights.clone(),
        record: 0,
    };
    let mut fields = Vec::new();
    loop {
        let lent = Lent {
            report: old_words(&mut case.draws, STEP),
            ..Lent::default()
        };
        let given = compare_step(case, &place, &lent);
        let report = given.lent.report.slice();
        if report[RIGHT + 1] == 1 {
            return fields;
        }
        fields.push((given.refusal, report[..RIGHT].to_vec()));
        place.record = report[RIGHT];
    }
}

/// "a good record read and written is those bytes"
fn write_all_back(case: &mut Case, year: u64, rights: &Row<u8>, read: &[Fields]) {
    let mut writing = Writing {
        place: Place {
            year,
            rights: rights.clone(),
            record: 0,
        },
        right: Row::default(),
    };
    for (record, (refusal, fields)) in read.iter().enumerate() {
        if *refusal == 0 {
            writing.place.record = record as u64;
            writing.right = Row::lent(fields, RIGHT, || 0);
            let given = compare_write(case, &writing);
            assert!(given.refusal == 0 && given.lent.rights == *rights);
        }
    }
}

/// "A good right written and read is that right"; every other record is read as before,
/// and the reader gives the same.
fn compare_there_and_back(case: &mut Case) {
    let draws = &mut case.draws;
    let year = draw_good_year(draws);
    let rights = draw_whole_file(draws, year);
    let record = draws.below(rights.lent as u64 / 16);
    let words = right_words(&draw_good(draws, days_of(year)));
    let mut expected = all_read(case, year, &rights);
    let right = Row::lent(&words, RIGHT, || 0);
    let place = Place {
        year,
        rights,
        record,
    };
    let given = compare_write(case, &Writing { place, right });
    assert_eq!(given.refusal, 0);
    let written = given.lent.rights;
    let (before, _) = std::mem::replace(&mut expected[record as usize], (0, words.to_vec()));
    case.came("read before the write", before);
    assert_eq!(all_read(case, year, &written), expected);
    let records = expected.len() - 2;
    assert_eq!(all_given(case, year, &written), expected[..records]);
    write_all_back(case, year, &written, &expected);
    case.came("records of the file", records as u64);
}

#[test]
fn there_and_back() {
    let kind = Kind {
        test: "write::there_and_back",
        base: Some(8_305_471_962_740_158_329),
        cases: 3_000,
        refusals: &[
            ("write", &[0]),
            ("read", &[0, 4, 7]),
            ("next", &[0, 7]),
            ("read before the write", &[0, 7]),
            ("records of the file", &[1, 2, 3, 4_096]),
        ],
    };
    kind.run(compare_there_and_back);
}
