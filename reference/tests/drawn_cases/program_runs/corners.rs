//! Runs at the corners of the input.

use reference::rights::RECORD;
use reference::step::HOUR_BYTES;

use super::run::{compare_run, right, year, Run};
use crate::compare::{Case, Kind};
use crate::drawn::block;

/// A named run, and its last line or the letter of it.
struct Corner {
    name: String,
    last: &'static str,
    run: Box<dyn Fn() -> Run>,
}

fn corner(name: &str, last: &'static str, run: impl Fn() -> Run + 'static) -> Corner {
    Corner {
        name: name.to_string(),
        last,
        run: Box::new(run),
    }
}

/// The year that most corners are cut from.
fn poor_year(bytes: usize) -> Run {
    year(20_250_602, 600, bytes)
}

fn full_file() -> Vec<u8> {
    year(20_250_601, 4_096, 0).rights.unwrap_or_default()
}

fn whole_years() -> Vec<Corner> {
    let years = [(20_250_601, 4_096), (20_250_602, 600), (8, 40)];
    let whole = |(seed, rights)| {
        let name = format!("whole year of seed {seed} with {rights} rights");
        corner(&name, "F", move || year(seed, rights, 8_760 * HOUR_BYTES))
    };
    let mut corners: Vec<Corner> = years.into_iter().map(whole).collect();
    let late = || poor_year(8_761 * HOUR_BYTES);
    corners.push(corner("an hour after the year end", "R 2", late));
    corners
}

fn counts_of_hours() -> Vec<Corner> {
    let counts = [0, 1, 719, 720, 721, 1_463, 1_464, 8_759];
    let count = |hours| {
        corner(&format!("{hours} hours"), "F", move || {
            poor_year(hours * HOUR_BYTES)
        })
    };
    counts.into_iter().map(count).collect()
}

/// A block cut in the amount, in the prices, one byte short; also at a month's
/// end and after the year's. Few rights will do here, and take less time.
fn cut_blocks() -> Vec<Corner> {
    let mut corners = Vec::new();
    for cut in [1, 7, 8, 9, 11, 12, 13, 2_000, 4_096, 4_103] {
        for hours in [0, 1, 720, 8_760] {
            let name = format!("{hours} hours and {cut} bytes");
            corners.push(corner(&name, "R 4", move || {
                year(8, 40, hours * HOUR_BYTES + cut)
            }));
        }
    }
    corners
}

/// Three hours with numbers put into them, each with its place.
fn with_prices_and_amounts() -> Vec<Corner> {
    let last_price = 2 * HOUR_BYTES + 8 + 4 * 1_023;
    let price = |price: i32| (last_price, price.to_le_bytes().to_vec());
    let amount = |cents: i64| (2 * HOUR_BYTES, cents.to_le_bytes().to_vec());
    let before = (HOUR_BYTES + 8, 500_001i32.to_le_bytes().to_vec());
    let cases = [
        ("price 500,000", "F", vec![price(500_000)]),
        ("price 500,001", "R 5", vec![price(500_001)]),
        ("price -500,001", "R 5", vec![price(-500_001)]),
        (
            "amount 4,000,000,000,000",
            "F",
            vec![amount(4_000_000_000_000)],
        ),
        ("amount one above", "R 6", vec![amount(4_000_000_000_001)]),
        ("amount -1", "F", vec![amount(-1)]),
        ("amount -4,000,000,000", "F", vec![amount(-4_000_000_000)]),
        ("amount one below", "R 6", vec![amount(-4_000_000_001)]),
        ("the lowest 64-bit amount", "R 6", vec![amount(i64::MIN)]),
        (
            "a wild price in the hour before",
            "R 5",
            vec![amount(-4_000_000_001), before],
        ),
    ];
    let patched = |(name, last, patches): (&str, _, Vec<(usize, Vec<u8>)>)| {
        corner(name, last, move || {
            let mut run = poor_year(3 * HOUR_BYTES);
            for (at, bytes) in &patches {
                run.hours[*at..*at + bytes.len()].copy_from_slice(bytes);
            }
            run
        })
    };
    cases.into_iter().map(patched).collect()
}

/// Rights files of good and of odd lengths, missing, and with a bad record. A
/// file that is too long is refused also when there is no hour.
fn rights_files() -> Vec<Corner> {
    let with = |name: &str, last, hours: usize, file: fn() -> Option<Vec<u8>>| {
        corner(&format!("{name}, {hours} hours"), last, move || Run {
            rights: file(),
            ..poor_year(hours * HOUR_BYTES)
        })
    };
    let bad = |at: usize| {
        corner(&format!("owner 64 in record {at}"), "R 7", move || {
            let mut run = poor_year(2 * HOUR_BYTES);
            let mut file = full_file();
            file[at * RECORD] = 64;
            run.rights = Some(file);
            run
        })
    };
    vec![
        with("an empty file", "F", 2, || Some(Vec::new())),
        with("an empty file", "F 0 0", 0, || Some(Vec::new())),
        with("15 bytes", "R 4", 2, || Some(full_file()[..15].to_vec())),
        with("15 bytes", "F 0 0", 0, || Some(full_file()[..15].to_vec())),
        with("16 bytes", "F", 2, || Some(full_file()[..16].to_vec())),
        with("65,536 bytes", "F", 2, || Some(full_file())),
        with("65,537 bytes", "R 4", 2, || {
            Some([full_file(), vec![120]].concat())
        }),
        with("65,537 bytes", "R 4", 0, || {
            Some([full_file(), vec![120]].concat())
        }),
        with("no file", "R 4", 2, || None),
        with("no file", "R 4", 0, || None),
        bad(0),
        bad(2_000),
        bad(4_095),
    ]
}

/// 10,000 MW over 10,000 dollars are too large; 3,000 MW over 5,000 dollars,
/// with nothing collected, fill the carry in the third hour.
fn limits_and_printed_case() -> Vec<Corner> {
    let one = |size, prices: [i32; 2], hours| Run {
        rights: Some(right(0, 0, 1, size).to_vec()),
        hours: block(0, &prices).repeat(hours),
    };
    let large = move || one(100_000, [-500_000, 500_000], 1);
    let carry = move |hours| one(30_000, [0, 500_000], hours);
    let printed = || Run {
        rights: Some([right(0, 0, 1, 100), right(1, 1, 0, 25)].concat()),
        hours: [block(6_000, &[500, 1_500]), block(9_000, &[500, 1_500])].concat(),
    };
    vec![
        corner("an hour too large", "R 9", large),
        corner("a carry with room", "F 0 0", move || carry(1)),
        corner("a carry that is full", "R 10", move || carry(3)),
        corner("the printed case", "F 1500 0", printed),
    ]
}

fn other_corners() -> Vec<Corner> {
    let groups = [
        whole_years(),
        counts_of_hours(),
        with_prices_and_amounts(),
        rights_files(),
        limits_and_printed_case(),
    ];
    groups.into_iter().flatten().collect()
}

/// The seed is the corner's number.
fn compare_corner(case: &mut Case, corners: &[Corner]) {
    let corner = corners.get(case.seed as usize);
    let Corner { name, last, run } = corner.expect("the seed is the number of a corner");
    let printed = compare_run(case, &run());
    let line = printed.statement.lines().last().unwrap_or("");
    let same = line == *last || (*last == "F" && line.starts_with("F "));
    assert!(same, "{name}: the last line is {line}, not {last}");
}

#[test]
fn cut_hours() {
    let corners = cut_blocks();
    let kind = Kind {
        test: "program_runs::corners::cut_hours",
        base: None,
        cases: corners.len() as u64,
        refusals: &[("run", &[4]), ("month that pays", &[0, 1])],
    };
    kind.run(|case| compare_corner(case, &corners));
}

#[test]
fn others() {
    let corners = other_corners();
    let kind = Kind {
        test: "program_runs::corners::others",
        base: None,
        cases: corners.len() as u64,
        refusals: &[
            ("run", &[0, 2, 4, 5, 6, 7, 9, 10]),
            ("month that pays", &[0, 1]),
            ("year that pays", &[0, 1]),
        ],
    };
    kind.run(|case| compare_corner(case, &corners));
}
