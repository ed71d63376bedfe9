//! The rights file.

use crate::calendar::{calendar_of, day_of, Calendar};
use crate::refusal::{ACCEPTED, BAD_RIGHT, NO_SUCH_YEAR, WRONG_LENGTH};

/// "Records of 16 bytes".
pub const RECORD: usize = 16;
/// "rights not a multiple of 16 or above 65,536".
pub const LONGEST: usize = 65_536;

/// The eight fields of a record.
#[derive(Clone, Copy, Debug, Default, PartialEq, Eq)]
pub struct Right {
    pub owner: u64,
    pub source: u64,
    pub sink: u64,
    pub kind: u64,
    pub class: u64,
    pub size: u64,
    pub first: u64,
    pub last: u64,
}

/// What a read by record number gives.
#[derive(Clone, Copy, Debug, PartialEq, Eq)]
pub struct Read {
    pub refusal: u64,
    pub right: Right,
}

/// The number in `count` bytes from `at`, "low byte first"; bytes past the end
/// count as 0.
fn number(bytes: &[u8], at: usize, count: usize) -> u64 {
    let part = bytes.iter().skip(at).take(count);
    part.rev()
        .fold(0, |number, byte| number * 256 + u64::from(*byte))
}

/// The fields of a record, good or bad.
pub fn decode(record: &[u8]) -> Right {
    Right {
        owner: number(record, 0, 2),
        source: number(record, 2, 2),
        sink: number(record, 4, 2),
        kind: number(record, 6, 1),
        class: number(record, 7, 1),
        size: number(record, 8, 4),
        first: number(record, 12, 2),
        last: number(record, 14, 2),
    }
}

/// The 16 bytes of a record; of a number too large for its field the low bytes.
pub fn encode(right: &Right) -> [u8; RECORD] {
    let fields = [
        (right.owner, 2),
        (right.source, 2),
        (right.sink, 2),
        (right.kind, 1),
        (right.class, 1),
        (right.size, 4),
        (right.first, 2),
        (right.last, 2),
    ];
    let mut record = [0; RECORD];
    let mut at = 0;
    for (number, count) in fields {
        record[at..at + count].copy_from_slice(&number.to_le_bytes()[..count]);
        at += count;
    }
    record
}

/// "a field outside its values", of which "the top day" comes from the year.
pub fn is_bad(right: &Right, calendar: &Calendar) -> bool {
    let good = right.owner <= 63
        && right.source <= 1_023
        && right.sink <= 1_023
        && right.sink != right.source
        && right.kind <= 1
        && right.class <= 2
        && (1..=100_000).contains(&right.size)
        && 1 <= right.first
        && right.first <= right.last
        && right.last <= calendar.days();
    !good
}

/// "a node at or past the number of prices".
pub fn is_unpriced(right: &Right, prices: usize) -> bool {
    right.source >= prices as u64 || right.sink >= prices as u64
}

/// "rights not a multiple of 16 or above 65,536".
pub fn is_wrong_length(file: &[u8]) -> bool {
    file.len() % RECORD != 0 || file.len() > LONGEST
}

/// All records of a file, in order.
pub fn records(file: &[u8]) -> Vec<Right> {
    file.chunks_exact(RECORD).map(decode).collect()
}

/// The record number of 7, "a field outside its values": "the lowest one with
/// that fault, all earlier records being free of it".
pub fn first_bad(rights: &[Right], calendar: &Calendar) -> Option<u64> {
    let found = rights.iter().position(|right| is_bad(right, calendar));
    found.map(|at| at as u64)
}

/// The record number of 8, "a node at or past the number of prices": also "the
/// lowest one with that fault".
pub fn first_unpriced(rights: &[Right], prices: usize) -> Option<u64> {
    let found = rights.iter().position(|right| is_unpriced(right, prices));
    found.map(|at| at as u64)
}

/// "A read by record number, from 0, gives the eight fields, or 4 or 7"; it is
/// "given a year", and 15 comes "before any other check".
pub fn read(year: u64, file: &[u8], record: u64) -> Read {
    let Some(calendar) = calendar_of(year) else {
        return refused(NO_SUCH_YEAR);
    };
    let at = usize::try_from(record).unwrap_or(usize::MAX);
    match file.chunks_exact(RECORD).nth(at) {
        Some(bytes) if !is_wrong_length(file) => answer(decode(bytes), calendar),
        _ => refused(WRONG_LENGTH),
    }
}

fn answer(right: Right, calendar: &Calendar) -> Read {
    if is_bad(&right, calendar) {
        return refused(BAD_RIGHT);
    }
    Read {
        refusal: ACCEPTED,
        right,
    }
}

/// "a right as values, written as the 16 bytes at a given record number in a lent
/// file, every other byte unchanged. .. Bad values get 7; a record number outside the
/// file, or a file of wrong length, gets 4 first; neither writes." It too is "given a
/// year", and 15 comes "before any other check". A value that its field cannot hold is
/// outside the field's values, and so a bad one.
pub fn write(year: u64, file: &mut [u8], record: u64, right: &Right) -> u64 {
    let Some(calendar) = calendar_of(year) else {
        return NO_SUCH_YEAR;
    };
    if is_wrong_length(file) {
        return WRONG_LENGTH;
    }
    let at = usize::try_from(record).unwrap_or(usize::MAX);
    let Some(bytes) = file.chunks_exact_mut(RECORD).nth(at) else {
        return WRONG_LENGTH;
    };
    if is_bad(right, calendar) {
        return BAD_RIGHT;
    }
    bytes.copy_from_slice(&encode(right));
    ACCEPTED
}

/// "A refused call without a book gives 0 for all its other values".
fn refused(refusal: u64) -> Read {
    Read {
        refusal,
        right: Right::default(),
    }
}

/// One answer of the reader.
#[derive(Clone, Copy, Debug, PartialEq, Eq)]
pub enum Given {
    Record(Right),
    Refused(u64),
    Nothing,
}

/// "a reader over the lent rights file gives one record after another".
pub struct Reader<'a> {
    pub year: u64,
    pub file: &'a [u8],
    pub at: u64,
}

impl Reader<'_> {
    /// "gives 7 for a bad one and moves past it, and says there is none exactly
    /// when every record has been given. Over a file of wrong length it gives
    /// only 4." With a year outside "a reader then gives only 15".
    pub fn give(&mut self) -> Given {
        if calendar_of(self.year).is_none() {
            return Given::Refused(NO_SUCH_YEAR);
        }
        if is_wrong_length(self.file) {
            return Given::Refused(WRONG_LENGTH);
        }
        if self.at >= (self.file.len() / RECORD) as u64 {
            return Given::Nothing;
        }
        let read = read(self.year, self.file, self.at);
        self.at += 1;
        match read.refusal {
            ACCEPTED => Given::Record(read.right),
            refusal => Given::Refused(refusal),
        }
    }
}

/// "A right is live in an hour if the day is from first to last and its class
/// fits."
pub fn is_live(right: &Right, calendar: &Calendar, hour: u64) -> bool {
    let day = day_of(hour);
    let fits = match right.class {
        0 => calendar.is_peak(hour),
        1 => !calendar.is_peak(hour),
        _ => true,
    };
    right.first <= day && day <= right.last && fits
}

#[cfg(test)]
mod tests {
    use super::*;

    const GOOD: [u8; 16] = [1, 0, 2, 0, 255, 3, 1, 2, 160, 134, 1, 0, 1, 0, 109, 1];

    fn calendar(year: u64) -> &'static Calendar {
        calendar_of(year).expect("a year from 2025 to 2099")
    }

    fn reader(year: u64, file: &[u8]) -> Reader<'_> {
        let at = 0;
        Reader { year, file, at }
    }

    #[test]
    fn fields_low_byte_first() {
        let right = read(2_025, &GOOD, 0).right;
        let expected = Right {
            owner: 1,
            source: 2,
            sink: 1_023,
            kind: 1,
            class: 2,
            size: 100_000,
            first: 1,
            last: 365,
        };
        assert_eq!(right, expected);
        assert_eq!(encode(&right), GOOD);
        assert_eq!(read(2_025, &GOOD, 1), refused(4));
        assert_eq!(read(2_025, &GOOD[..15], 0), refused(4));
        assert_eq!(read(2_025, &[], 0), refused(4));
    }

    #[test]
    fn each_field_outside_its_values() {
        let good = decode(&GOOD);
        let is_bad = |right: &Right| super::is_bad(right, calendar(2_025));
        assert!(!is_bad(&good));
        assert!(is_bad(&Right { owner: 64, ..good }));
        assert!(is_bad(&Right {
            source: 1_024,
            ..good
        }));
        assert!(is_bad(&Right {
            sink: 1_024,
            ..good
        }));
        assert!(is_bad(&Right { sink: 2, ..good }));
        assert!(is_bad(&Right { kind: 2, ..good }));
        assert!(is_bad(&Right { class: 3, ..good }));
        assert!(is_bad(&Right { size: 0, ..good }));
        assert!(is_bad(&Right {
            size: 100_001,
            ..good
        }));
        assert!(is_bad(&Right { first: 0, ..good }));
        assert!(is_bad(&Right {
            first: 9,
            last: 8,
            ..good
        }));
        assert!(is_bad(&Right { last: 366, ..good }));
    }

    /// With 1,023 prices, which is one too few for the sink of `GOOD`.
    #[test]
    fn the_first_record_with_each_fault() {
        let first = |rights: &[Right]| {
            let bad = first_bad(rights, calendar(2_025));
            (bad, first_unpriced(rights, 1_023))
        };
        let unpriced = decode(&GOOD);
        let good = Right {
            sink: 1_022,
            ..unpriced
        };
        let bad = Right { kind: 2, ..good };
        let both = Right {
            source: 1_024,
            ..good
        };
        assert_eq!(first(&[]), (None, None));
        assert_eq!(first(&[good, good]), (None, None));
        assert_eq!(first(&[unpriced, bad]), (Some(1), Some(0)));
        assert_eq!(first(&[bad, unpriced]), (Some(0), Some(1)));
        assert_eq!(first(&[good, bad, bad]), (Some(1), None));
        assert_eq!(first(&[good, unpriced, unpriced]), (None, Some(1)));
        assert_eq!(first(&[good, bad, both, unpriced]), (Some(1), Some(2)));
        assert_eq!(first(&[good, unpriced, both, bad]), (Some(2), Some(1)));
    }

    #[test]
    fn reader_moves_past_a_bad_record() {
        let mut file = Vec::from(GOOD);
        file.extend([0; 16]);
        file.extend(GOOD);
        let mut reader = reader(2_025, &file);
        assert_eq!(reader.give(), Given::Record(decode(&GOOD)));
        assert_eq!(reader.give(), Given::Refused(7));
        assert_eq!(reader.give(), Given::Record(decode(&GOOD)));
        assert_eq!(reader.give(), Given::Nothing);
        assert_eq!(reader.give(), Given::Nothing);
    }

    #[test]
    fn the_top_day_comes_from_the_year() {
        let right = decode(&GOOD);
        let refusals = |year| {
            let file = |last| encode(&Right { last, ..right });
            [365, 366, 367].map(|last| read(year, &file(last), 0).refusal)
        };
        assert_eq!(refusals(2_025), [0, 7, 7]);
        assert_eq!(refusals(2_027), [0, 0, 7]);
        assert_eq!(refusals(2_098), [0, 7, 7]);
        assert_eq!(refusals(2_099), [0, 7, 7]);
        assert_eq!([2_024, 2_100, u64::MAX].map(refusals), [[15; 3]; 3]);
    }

    #[test]
    fn a_reader_with_a_year_outside_gives_only_15() {
        for file in [&[][..], &GOOD, &GOOD[1..], &[0; 65_552]] {
            let mut reader = reader(2_024, file);
            assert_eq!([(); 3].map(|()| reader.give()), [Given::Refused(15); 3]);
            assert_eq!(reader.at, 0);
            assert_eq!(read(2_024, file, 0), refused(15));
        }
    }

    /// The refusal of a write over the file, and the file after it.
    fn written(year: u64, file: &[u8], record: u64, right: &Right) -> (u64, Vec<u8>) {
        let mut after = Vec::from(file);
        let refusal = write(year, &mut after, record, right);
        (refusal, after)
    }

    #[test]
    fn a_write_changes_the_bytes_of_its_record() {
        let file = [9; 48];
        let right = decode(&GOOD);
        for record in 0..3 {
            let mut expected = file;
            expected[16 * record..][..16].copy_from_slice(&GOOD);
            let after = written(2_025, &file, record as u64, &right);
            assert_eq!(after, (0, expected.to_vec()));
        }
    }

    #[test]
    fn a_write_undoes_a_read_and_a_read_a_write() {
        let highest = Right {
            owner: 63,
            source: 1_023,
            sink: 1_022,
            kind: 1,
            class: 2,
            size: 100_000,
            first: 366,
            last: 366,
        };
        let lowest = Right {
            sink: 1,
            size: 1,
            first: 1,
            last: 1,
            ..Right::default()
        };
        for right in [highest, lowest, decode(&GOOD)] {
            let (refusal, file) = written(2_027, &[0; 16], 0, &right);
            let read = read(2_027, &file, 0);
            assert_eq!((refusal, read.refusal, read.right), (0, 0, right));
            assert_eq!(written(2_027, &file, 0, &read.right), (0, file));
        }
    }

    #[test]
    fn a_refused_write_leaves_the_file() {
        let good = decode(&GOOD);
        let bad = Right { owner: 64, ..good };
        let refusal = |year, file: &[u8], record, right: &Right| {
            let (refusal, after) = written(year, file, record, right);
            assert_eq!(after, file);
            refusal
        };
        for right in [&good, &bad] {
            assert_eq!(refusal(2_025, &[0; 32], 2, right), 4);
            assert_eq!(refusal(2_025, &[0; 32], u64::MAX, right), 4);
            assert_eq!(refusal(2_025, &[0; 32], 1 << 60, right), 4);
            assert_eq!(refusal(2_025, &[0; 33], 0, right), 4);
            assert_eq!(refusal(2_025, &[0; 31], 1, right), 4);
            assert_eq!(refusal(2_025, &[], 0, right), 4);
            assert_eq!(refusal(2_025, &[0; 65_552], 0, right), 4);
            assert_eq!(refusal(2_024, &[0; 33], 9, right), 15);
            assert_eq!(refusal(2_100, &[0; 32], 0, right), 15);
        }
        assert_eq!(refusal(2_025, &[0; 32], 1, &bad), 7);
        assert_eq!(written(2_025, &[0; 65_536], 4_095, &good).0, 0);
    }

    /// Its low bytes alone would be a good value.
    #[test]
    fn a_value_that_its_field_cannot_hold_is_bad() {
        let good = decode(&GOOD);
        let (two, four) = (1 << 16, 1 << 32);
        let (owner, source, sink) = (good.owner + two, good.source + two, good.sink + two);
        let (kind, class, size) = (good.kind + 256, good.class + 256, good.size + four);
        let (first, last) = (good.first + two, good.last + two);
        let wide = [
            Right { owner, ..good },
            Right { source, ..good },
            Right { sink, ..good },
            Right { kind, ..good },
            Right { class, ..good },
            Right { size, ..good },
            Right { first, ..good },
            Right { last, ..good },
        ];
        for right in wide {
            assert_eq!(encode(&right), GOOD);
            assert_eq!(written(2_025, &[0; 16], 0, &right), (7, vec![0; 16]));
        }
    }

    #[test]
    fn the_top_day_of_a_write_comes_from_the_year() {
        let refusals = |year| {
            let right = |last| Right {
                last,
                ..decode(&GOOD)
            };
            [365, 366, 367].map(|last| written(year, &[0; 16], 0, &right(last)).0)
        };
        assert_eq!(refusals(2_025), [0, 7, 7]);
        assert_eq!(refusals(2_027), [0, 0, 7]);
        assert_eq!(refusals(2_099), [0, 7, 7]);
    }

    /// 1 June 2027 is a Tuesday, where 1 June 2025 is a Sunday.
    #[test]
    fn a_class_fits_by_the_year() {
        let peak = Right {
            class: 0,
            ..decode(&GOOD)
        };
        assert!(!is_live(&peak, calendar(2_025), 6));
        assert!(is_live(&peak, calendar(2_027), 6));
        let all = Right { class: 2, ..peak };
        let last = Right { last: 366, ..all };
        assert!(!is_live(&all, calendar(2_027), 8_783));
        assert!(is_live(&last, calendar(2_027), 8_783));
    }
}
