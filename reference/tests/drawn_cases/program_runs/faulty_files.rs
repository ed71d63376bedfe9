//! Runs over files with several bad records: the sentence names the first,
//! "the lowest one with that fault, all earlier records being free of it".

use reference::rights::RECORD;
use reference::step::HOUR_BYTES;

use super::run::{compare_run, year, Run};
use crate::compare::Kind;

/// The places of bad records in a file of so many; each list rises.
const FILES: [(u64, &[usize]); 9] = [
    (1, &[0]),
    (2, &[0, 1]),
    (2, &[1]),
    (9, &[0, 4, 8]),
    (9, &[4, 8]),
    (9, &[1, 2, 3]),
    (4_096, &[0, 2_048, 4_095]),
    (4_096, &[2_047, 2_048, 4_095]),
    (4_096, &[4_094, 4_095]),
];

/// Two hours over a drawn file with these records bad: in turn by the owner, the
/// sink and the last day.
fn faulty_run(records: u64, places: &[usize]) -> Run {
    let mut run = year(8, records, 2 * HOUR_BYTES);
    let mut file = run.rights.take().unwrap_or_default();
    let fields = [(0, 64u16), (4, 1_024), (14, 366)];
    for (place, (offset, value)) in places.iter().zip(fields) {
        let at = place * RECORD + offset;
        file[at..at + 2].copy_from_slice(&value.to_le_bytes());
    }
    run.rights = Some(file);
    run
}

/// The seed is the file's number.
#[test]
fn the_sentence_names_the_first_bad_record() {
    let kind = Kind {
        test: "program_runs::faulty_files::the_sentence_names_the_first_bad_record",
        base: None,
        cases: FILES.len() as u64,
        refusals: &[("run", &[7])],
    };
    kind.run(|case| {
        let (records, places) = FILES[case.seed as usize % FILES.len()];
        let printed = compare_run(case, &faulty_run(records, places));
        let first = places[0];
        let sentence = format!("Hour 0 is refused: 7, bad right, record {first}.\n");
        assert_eq!(printed.errors, sentence);
        assert_eq!(printed.statement, "R 7\n");
    });
}

/// 6 comes before 7, so the first hour's amount is named and no record.
#[test]
fn a_wild_amount_over_a_faulty_file_names_no_record() {
    let kind = Kind {
        test: "program_runs::faulty_files::a_wild_amount_over_a_faulty_file_names_no_record",
        base: None,
        cases: 1,
        refusals: &[("run", &[6])],
    };
    kind.run(|case| {
        let mut run = faulty_run(9, &[4, 8]);
        run.hours[..8].copy_from_slice(&(-4_000_000_001i64).to_le_bytes());
        let printed = compare_run(case, &run);
        assert_eq!(printed.errors, "Hour 0 is refused: 6, wild amount.\n");
        assert_eq!(printed.statement, "R 6\n");
    });
}
