//! Runs whose hours collect less than nothing, by the program and by a host's steps.

use reference::book::Book;
use reference::calendar::PROGRAM_YEAR;
use reference::draws::Draws;
use reference::step::{step, HOUR_BYTES};

use super::hosted::compare_hosted;
use super::run::{compare_run, right, year, Run};
use crate::compare::{Case, Kind};
use crate::drawn::{amount_towards, block, draw_year_fund};

/// Both ways; gives the statement.
fn compare_both(case: &mut Case, run: &Run) -> String {
    let printed = compare_run(case, run);
    compare_hosted(case, run);
    printed.statement
}

/// The first hours of a drawn year, of which some in every month collect less than
/// nothing.
fn draw_hours(draws: &mut Draws, hours: usize) -> Run {
    let rights = 10 + draws.below(30);
    let mut run = year(draws.any(), rights, hours * HOUR_BYTES);
    let odds = draws.one_of(&[2, 4, 16]);
    let most = draws.one_of(&[10_000, 100_000, 1_000_000]);
    for block in run.hours.chunks_mut(HOUR_BYTES) {
        if draws.once_in(odds) {
            let amount = -1 - draws.below(most) as i64;
            block[..8].copy_from_slice(&amount.to_le_bytes());
        }
    }
    run
}

/// The second calculation's book after these hours.
fn book_after(run: &Run) -> Book {
    let rights = run.rights.as_deref().unwrap_or_default();
    let blocks = run.hours.chunks(HOUR_BYTES);
    blocks.fold(Book::fresh(PROGRAM_YEAR), |book, block| {
        step(book, rights, block).book
    })
}

/// Whether the balances of the last line are below 0.
fn note_signs(case: &mut Case, statement: &str) {
    let last_line = statement.lines().last().unwrap_or("");
    let mut words = last_line.split(' ');
    assert_eq!(words.next(), Some("F"), "{last_line}");
    for balance in ["month balance below 0", "year balance below 0"] {
        let below = words.next().is_some_and(|word| word.starts_with('-'));
        case.came(balance, u64::from(below));
    }
}

/// A whole year, whose last hour brings the year end's F to what it shall be: in a
/// third of the cases it is negative, 0, or positive.
fn compare_year(case: &mut Case) {
    let sign = (case.seed % 3) as i64 - 1;
    let draws = &mut case.draws;
    let mut run = draw_hours(draws, 8_759);
    let fund = draw_year_fund(draws, sign);
    let book = book_after(&run);
    assert_eq!(book.hours, 8_759, "all hours are accepted");
    run.hours.extend(block(amount_towards(&book, fund), &[]));
    let statement = compare_both(case, &run);
    note_signs(case, &statement);
    case.came("sign of the fund", (sign + 1) as u64);
    let paid = statement.contains("\nY ");
    assert!(
        fund > 0 || !paid,
        "a year end pays only if its F is above 0"
    );
    if fund <= 0 {
        assert!(statement.ends_with(&format!("\nF 0 {fund}\n")));
    }
}

#[test]
fn years() {
    let kind = Kind {
        test: "program_runs::negative_hours::years",
        base: Some(2_718_281_828_459_045_235),
        cases: 9,
        refusals: &[
            ("run", &[0]),
            ("sign of the fund", &[0, 1, 2]),
            ("month that pays", &[1]),
            ("year that pays", &[0, 1]),
            ("year balance below 0", &[0, 1]),
        ],
    };
    kind.run(compare_year);
}

#[test]
fn parts_of_years() {
    let kind = Kind {
        test: "program_runs::negative_hours::parts_of_years",
        base: Some(1_414_213_562_373_095_048),
        cases: 40,
        refusals: &[
            ("run", &[0]),
            ("month balance below 0", &[0, 1]),
            ("year balance below 0", &[0, 1]),
        ],
    };
    kind.run(|case| {
        let hours = case.draws.one_of(&[1, 24, 719, 720, 721, 1_464, 2_000]);
        let run = draw_hours(&mut case.draws, hours);
        let statement = compare_both(case, &run);
        note_signs(case, &statement);
    });
}

/// The printed case's rights: owner 0 wants 10,000, and owner 1 is charged 2,500.
fn with_amounts(amounts: &[i64]) -> Run {
    let hours = amounts
        .iter()
        .flat_map(|cents| block(*cents, &[500, 1_500]));
    Run {
        rights: Some([right(0, 0, 1, 100), right(1, 1, 0, 25)].concat()),
        hours: hours.collect(),
    }
}

/// Runs and what they print, worked out by hand.
fn worked_out() -> Vec<(Run, &'static str)> {
    let lowest = |rights| Run {
        rights: Some(rights),
        hours: block(-4_000_000_000, &[]).repeat(721),
    };
    vec![
        (
            with_amounts(&[-2_501, -2_500, -2_499, 7_500]),
            "H 0 1 -2500\nH 1 1 -2500\nH 2 0 1\nH 2 1 -2500\nH 3 0 10000\nH 3 1 -2500\nF -1 0\n",
        ),
        (
            with_amounts(&[-4_000_000_000, 4_000_000_000_000]),
            "H 0 1 -2500\nH 1 0 10000\nH 1 1 -2500\nF 3995999995000 0\n",
        ),
        (
            with_amounts(&[-2_600, -4_000_000_001]),
            "H 0 1 -2500\nR 6\n",
        ),
        (lowest(Vec::new()), "F -4000000000 -2880000000000\n"),
    ]
}

/// The seed is the run's place.
#[test]
fn worked_out_by_hand() {
    let runs = worked_out();
    let kind = Kind {
        test: "program_runs::negative_hours::worked_out_by_hand",
        base: None,
        cases: runs.len() as u64,
        refusals: &[("run", &[0, 6])],
    };
    kind.run(|case| {
        let (run, expected) = &runs[case.seed as usize % runs.len()];
        assert_eq!(compare_both(case, run), *expected);
    });
}
