//! Balances of either sign in the words of a book.

use super::*;

/// The least and the most that a balance may be after the 720 hours of June.
const LEAST: i64 = 720 * -4_000_000_000;
const TOP: i64 = 720 * 4_004_000_000_000;

fn closed_with(month: i64, year: i64) -> (u64, Words) {
    closed(|words| words.balances = vec![month, year])
}

/// F is below 0 in the report, all of the wants carry, and F goes to the year balance.
#[test]
fn a_month_end_whose_fund_is_negative() {
    for (month, year) in [(-1, 0), (-5, 9), (-5, -9), (LEAST, 0), (LEAST, TOP)] {
        let (refusal, words) = closed_with(month, year);
        assert_eq!((refusal, words.report), (0, vec![0, month, 7]));
        assert_eq!(words.shortfalls[..4], [0, 8, 0, 2]);
        assert_eq!(words.balances, [0, month + year]);
    }
}

#[test]
fn balances_outside_their_bounds_are_a_spoiled_book() {
    let outside = [
        (LEAST - 1, 0),
        (0, LEAST - 1),
        (LEAST, -1),
        (TOP, 1),
        (i64::MIN, i64::MIN),
        (i64::MAX, i64::MAX),
    ];
    for (month, year) in outside {
        let (refusal, words) = closed_with(month, year);
        assert_eq!((refusal, words.report), refused_with(1));
        assert_eq!(words.balances, [month, year]);
    }
    let both = closed(|words| {
        words.balances[0] = i64::MIN;
        words.shortfalls.push(0);
    });
    assert_eq!((both.0, both.1.report), refused_with(4));
}

/// A step over such balances and words of its report, with so many bytes of text.
fn stepped_with(balances: [i64; BALANCES], mark: u64, bytes: usize) -> (u64, [u64; STEPPED]) {
    let mut words = BookWords {
        counts: &mut [9, 0, mark, 2_025],
        shortfalls: &mut [0; SHORTFALLS],
        balances: &mut { balances },
    };
    let mut report = [9; STEPPED];
    let bytes = &mut vec![7; bytes];
    let text = LentText { bytes, end: 0 };
    let refusal = words.step(&[], &[0; 4_104], text, &mut report);
    (refusal, report)
}

/// The bounds are looked at by the hour, so after the mark and the room.
#[test]
fn a_step_names_the_hour_that_finds_them_outside() {
    let (least, past) = (9 * -4_000_000_000, 9 * -4_000_000_000 - 1);
    let accepted = (0, [0; STEPPED]);
    assert_eq!(stepped_with([least, 0], 0, STEP_ROOM), accepted);
    assert_eq!(stepped_with([0, least], 0, STEP_ROOM), accepted);
    for balances in [[past, 0], [0, past], [least, -1], [i64::MIN, i64::MIN]] {
        let named = (1, [0, 0, 72, 9, 0]);
        assert_eq!(stepped_with(balances, 0, STEP_ROOM), named);
        assert_eq!(stepped_with(balances, 0, 9), (0, [1, 0, 0, 0, 0]));
        assert_eq!(stepped_with(balances, 2, 9), (1, [0; STEPPED]));
    }
}

/// On any book, also where they are outside the bounds.
#[test]
fn a_closing_prints_any_balances() {
    let printed = |balances: [i64; BALANCES]| {
        let words = BookWords {
            counts: &mut [0, 0, 0, 2_025],
            shortfalls: &mut [0; SHORTFALLS],
            balances: &mut { balances },
        };
        let (mut bytes, mut report) = ([b'-'; CLOSING_ROOM], [9; CLOSED]);
        let text = LentText {
            bytes: &mut bytes,
            end: 0,
        };
        assert_eq!(words.closing(0, text, &mut report), 0);
        String::from_utf8_lossy(&bytes[..report[1] as usize]).into_owned()
    };
    assert_eq!(printed([-1_500, 0]), "F -1500 0\n");
    assert_eq!(printed([7, -1]), "F 7 -1\n");
    let lowest = "F -9223372036854775808 -9223372036854775808\n";
    assert_eq!(printed([i64::MIN; BALANCES]), lowest);
    let highest = "F 9223372036854775807 -9223372036854775808\n";
    assert_eq!(printed([i64::MAX, i64::MIN]), highest);
}
