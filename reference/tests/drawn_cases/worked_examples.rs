//! The point to point rights that lesson 3 of source document 004 works, as
//! target calls and row calls. Expected are the document's totals: they are the
//! same with "Cents per right" as with one rounding per owner, since each comes to
//! whole cents and an owner holds one of them.

use reference::rights::Right;
use reference::words::OUTCOME;

use crate::compare::{Case, Kind};
use crate::drawn::draw_good_year;
use crate::rows::compare_rows;
use crate::targets::{compare_targets, lend_lines, Asked};

/// Place A (5 dollars), the end of the different path (10) and B (15), in cents.
const PRICES: [i32; 3] = [500, 1_000, 1_500];

/// Source, sink, kind and size of a right, and its total in the document in
/// dollars, which "prints credits with a minus".
type Example = (u64, u64, u64, u64, i64);

const EXAMPLES: [Example; 7] = [
    // complete hedge, (15 - 5) * 10 MW
    (0, 2, 0, 100, -100),
    // different path, (10 - 5) * 10 MW
    (0, 1, 0, 100, -50),
    // portion of the amount, (15 - 5) * 7 MW
    (0, 2, 0, 70, -70),
    // more than the amount (5 MW sold), (15 - 5) * 7 MW
    (0, 2, 0, 70, -70),
    // option against the flow, MAX(5 - 15, 0) * 10 MW
    (2, 0, 1, 100, 0),
    // obligation against the flow, (5 - 15) * 10 MW
    (2, 0, 0, 100, 100),
    // obligation matching a schedule from B to A, (5 - 15) * 10 MW
    (2, 0, 0, 100, 100),
];

fn right(example: &Example, owner: u64) -> Right {
    let (source, sink, kind, size, _) = *example;
    Right {
        owner,
        source,
        sink,
        kind,
        class: 2,
        size,
        first: 1,
        last: 365,
    }
}

/// The examples in one file, the first held by `owner`, the next by the next;
/// both sides must give the document's totals, as targets and as rows.
fn compare_examples(case: &mut Case, examples: &[Example], (year, hour): (u64, u64), owner: u64) {
    let mut rights = Vec::new();
    let mut expected = [0; 64];
    for (owner, example) in (owner..).zip(examples) {
        rights.push(right(example, owner));
        expected[owner as usize] = -100 * example.4;
    }
    let held = owner as usize..owner as usize + examples.len();
    let asked = Asked::over_in(year, &rights, &PRICES, hour);
    let lent = lend_lines(&mut case.draws, 64, OUTCOME);
    let given = compare_targets(case, &asked, &lent);
    assert_eq!(given.lent.lines.slice(), expected, "the document's totals");
    let lent = lend_lines(&mut case.draws, examples.len(), OUTCOME);
    let given = compare_rows(case, &asked, &lent);
    assert_eq!(given.lent.lines.slice(), &expected[held], "one on each row");
}

/// Each in hour 0 for owner 0, then all seven in one file; the seed is the
/// example.
#[test]
fn as_in_the_document() {
    let kind = Kind {
        test: "worked_examples::as_in_the_document",
        base: None,
        cases: 8,
        refusals: &[("targets", &[0]), ("rows", &[0])],
    };
    kind.run(|case| match EXAMPLES.get(case.seed as usize) {
        Some(example) => compare_examples(case, &[*example], (2_025, 0), 0),
        None => compare_examples(case, &EXAMPLES, (2_025, 0), 0),
    });
}

/// The same in other hours and years and for other owners.
#[test]
fn in_other_hours() {
    let kind = Kind {
        test: "worked_examples::in_other_hours",
        base: Some(1_099_511_628_211),
        cases: 4_000,
        refusals: &[("targets", &[0]), ("rows", &[0])],
    };
    kind.run(|case| {
        let year = draw_good_year(&mut case.draws);
        let hour = case.draws.below(8_760);
        let some = case.draws.below(7) as usize;
        let examples = case.draws.one_of(&[&EXAMPLES[..], &EXAMPLES[some..=some]]);
        let owner = case.draws.below(65 - examples.len() as u64);
        compare_examples(case, examples, (year, hour), owner);
    });
}
