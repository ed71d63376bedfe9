//! The reader's steps.

use reference::calendar::calendar_of;
use reference::draws::Draws;
use reference::rights::{is_wrong_length, RECORD};
use reference::words;

use crate::compare::{Case, Kind};
use crate::drawn::{draw_year, number_of, old_words};
use crate::lent::{Given, Lent};
use crate::library;
use crate::read::{draw_file, Place};

pub fn compare_step(case: &mut Case, place: &Place, lent: &Lent) -> Given {
    let (year, next) = (place.year, place.record);
    let file = place.rights.slice();
    case.compare(
        "next",
        place,
        lent,
        |lent| library::next(year, file, next, lent.report.slice_mut()),
        |lent| words::next(year, file, next, lent.report.slice_mut()),
    )
}

/// A report of so many words.
fn report(draws: &mut Draws, words: usize) -> Lent {
    Lent {
        report: old_words(draws, words),
        ..Lent::default()
    }
}

/// From 0 on, always with the number that the step before gave, to the end of
/// the file and two steps past it. With a year outside, and else over a file of wrong
/// length, "a reader then gives only 15" or only 4.
#[test]
fn whole_files() {
    let kind = Kind {
        test: "reader::whole_files",
        base: Some(2_862_933_555_777_941_757),
        cases: 20_000,
        refusals: &[("next", &[0, 4, 7, 15])],
    };
    kind.run(|case| {
        let year = draw_year(&mut case.draws);
        let rights = draw_file(&mut case.draws, year);
        let records = rights.lent / RECORD;
        let only = match calendar_of(year) {
            None => Some(15),
            Some(_) => is_wrong_length(rights.slice()).then_some(4),
        };
        let steps = if only.is_some() { 5 } else { records + 3 };
        let record = 0;
        let mut place = Place {
            year,
            rights,
            record,
        };
        for _ in 0..steps {
            let lent = report(&mut case.draws, words::STEP);
            let given = compare_step(case, &place, &lent);
            place.record = given.lent.report.cells[words::RIGHT];
            let same = only.is_none_or(|only| (given.refusal, place.record) == (only, 0));
            assert!(same, "not only {only:?}");
        }
    });
}

/// From any number, in the file or far from it, with any number of words.
#[test]
fn any_step() {
    let kind = Kind {
        test: "reader::any_step",
        base: Some(3_202_034_522_624_059_733),
        cases: 100_000,
        refusals: &[("next", &[0, 4, 7, 15])],
    };
    kind.run(|case| {
        let draws = &mut case.draws;
        let year = draw_year(draws);
        let rights = draw_file(draws, year);
        let records = rights.lent as u64 / 16;
        let record = match draws.below(4) {
            0 => draws.any(),
            1 => draws.one_of(&[u64::MAX, 1 << 60, 1 << 32]) - draws.below(2),
            2 => records.saturating_sub(draws.below(2)),
            _ => draws.below(records + 2),
        };
        let report_words = number_of(draws, words::STEP, 32);
        let lent = report(draws, report_words);
        let place = Place {
            year,
            rights,
            record,
        };
        compare_step(case, &place, &lent);
    });
}
