//! Whole years in which no hour collects less than nothing: they print, byte by byte,
//! what they printed before an amount could be negative.

use reference::step::HOUR_BYTES;

use super::run::{compare_run, year};
use crate::compare::{Case, Kind};

/// A drawn year by its seed and number of rights, and the length and the checksum of
/// all that it prints.
struct Ordinary {
    seed: u64,
    rights: u64,
    length: usize,
    checksum: u64,
}

const fn ordinary(seed: u64, rights: u64, length: usize, checksum: u64) -> Ordinary {
    Ordinary {
        seed,
        rights,
        length,
        checksum,
    }
}

/// Made by the second calculation before amounts could be negative, from the same
/// seeds: its `make-year SEED RIGHTS 8760 FOLDER`, and then `program` in that folder.
const YEARS: [Ordinary; 5] = [
    // The year end pays all that is short, and a fund is left.
    ordinary(9, 400, 7_896_755, 0x347a_f3fa_3738_6bb4),
    // Nobody is short at the year end.
    ordinary(7, 64, 2_785_674, 0x3ec8_b5fd_1dc0_1a77),
    // The year end has no fund, and owners stay short.
    ordinary(12, 200, 5_980_289, 0x56eb_0b92_0613_2c8c),
    // The year end pays a part of what is short.
    ordinary(20_250_601, 300, 7_489_781, 0x4424_e5a9_3d40_d613),
    ordinary(20_250_602, 300, 7_366_895, 0xe984_7584_c3f6_7649),
];

/// FNV-1a with 64 bits.
fn checksum(text: &str) -> u64 {
    text.bytes().fold(0xcbf2_9ce4_8422_2325, |sum: u64, byte| {
        (sum ^ u64::from(byte)).wrapping_mul(0x0100_0000_01b3)
    })
}

/// The high byte of an amount has its sign.
fn is_below_0(block: &[u8]) -> bool {
    block[7] > 127
}

/// The seed is the year's place above.
fn compare_ordinary_year(case: &mut Case) {
    let ordinary = &YEARS[case.seed as usize % YEARS.len()];
    let run = year(ordinary.seed, ordinary.rights, 8_760 * HOUR_BYTES);
    assert!(!run.hours.chunks(HOUR_BYTES).any(is_below_0));
    let statement = compare_run(case, &run).statement;
    let last_line = statement.lines().last().unwrap_or("");
    case.came("fund left", u64::from(last_line != "F 0 0"));
    let printed = (statement.len(), checksum(&statement));
    assert_eq!(printed, (ordinary.length, ordinary.checksum));
}

#[test]
fn they_print_what_they_printed_before() {
    let kind = Kind {
        test: "program_runs::ordinary_years::they_print_what_they_printed_before",
        base: None,
        cases: YEARS.len() as u64,
        refusals: &[
            ("run", &[0]),
            ("month that pays", &[1]),
            ("year that pays", &[0, 1]),
            ("fund left", &[0, 1]),
        ],
    };
    kind.run(compare_ordinary_year);
}

/// The public test values of this checksum.
#[test]
fn the_checksum() {
    assert_eq!(checksum(""), 0xcbf2_9ce4_8422_2325);
    assert_eq!(checksum("a"), 0xaf63_dc4c_8601_ec8c);
    assert_eq!(checksum("foobar"), 0x8594_4171_f739_67e8);
}
