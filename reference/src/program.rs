//! The program: rights from a file, hours from the input, lines to the output.

use std::io::{self, Read, Write};
use std::path::Path;

use crate::book::Book;
use crate::calendar::PROGRAM_YEAR;
use crate::refusal::{ACCEPTED, WRONG_LENGTH};
use crate::rights::LONGEST;
use crate::sentence::Stopped;
use crate::step::{last_line, step, HOUR_BYTES};

/// The rights, or nothing "if it can't be opened or is too long".
pub fn read_rights(path: &Path) -> Option<Vec<u8>> {
    let mut rights = Vec::new();
    let file = std::fs::File::open(path).ok()?;
    let most = LONGEST as u64 + 1;
    file.take(most).read_to_end(&mut rights).ok()?;
    (rights.len() <= LONGEST).then_some(rights)
}

/// Fills the buffer as far as the input goes; gives the number of bytes read.
fn read_full(input: &mut dyn Read, buffer: &mut [u8]) -> io::Result<usize> {
    let mut read = 0;
    while let Some(rest) = buffer.get_mut(read..).filter(|rest| !rest.is_empty()) {
        match input.read(rest) {
            Ok(0) => break,
            Ok(count) => read += count,
            Err(error) if error.kind() == io::ErrorKind::Interrupted => {}
            Err(error) => return Err(error),
        }
    }
    Ok(read)
}

/// Before the first hour: "number 4 if it can't be opened or is too long".
fn opening(rights: Option<&[u8]>) -> Stopped {
    let refusal = match rights {
        Some(_) => ACCEPTED,
        None => WRONG_LENGTH,
    };
    Stopped {
        refusal,
        ..Stopped::default()
    }
}

/// The whole program over the rights read, if they could be. Gives what stopped
/// it, whose sentence goes to standard error.
pub fn run(
    rights: Option<&[u8]>,
    input: &mut dyn Read,
    output: &mut dyn Write,
) -> io::Result<Stopped> {
    let mut stopped = opening(rights);
    // "The program keeps 2025"
    let mut book = Book::fresh(PROGRAM_YEAR);
    let mut block = [0; HOUR_BYTES];
    while stopped.goes_on() {
        let read = read_full(input, &mut block)?;
        if read == 0 {
            break;
        }
        let step = step(book, rights.unwrap_or_default(), &block[..read]);
        output.write_all(step.text.as_bytes())?;
        (book, stopped) = (step.book, step.stopped);
    }
    output.write_all(last_line(stopped.refusal, &book).as_bytes())?;
    Ok(stopped)
}

#[cfg(test)]
mod tests {
    use super::*;

    const RIGHTS: [u8; 32] = [
        0, 0, 0, 0, 1, 0, 0, 2, 100, 0, 0, 0, 1, 0, 109, 1, // owner 0
        1, 0, 1, 0, 0, 0, 0, 2, 25, 0, 0, 0, 1, 0, 109, 1, // owner 1
    ];

    fn hour(collected: i64) -> Vec<u8> {
        let mut bytes = Vec::from(collected.to_le_bytes());
        bytes.extend(500i32.to_le_bytes());
        bytes.extend(1_500i32.to_le_bytes());
        bytes.resize(HOUR_BYTES, 0);
        bytes
    }

    fn printed(rights: Option<&[u8]>, input: &[u8]) -> String {
        let mut output = Vec::new();
        assert!(run(rights, &mut &input[..], &mut output).is_ok());
        String::from_utf8_lossy(&output).into_owned()
    }

    fn sentence(rights: Option<&[u8]>, input: &[u8]) -> String {
        let stopped = run(rights, &mut &input[..], &mut Vec::new());
        stopped.map_or(String::new(), |stopped| stopped.sentence())
    }

    #[test]
    fn printed_case() {
        let mut input = hour(6_000);
        input.extend(hour(9_000));
        let expected = "H 0 0 8500\nH 0 1 -2500\nH 1 0 10000\nH 1 1 -2500\nF 1500 0\n";
        assert_eq!(printed(Some(&RIGHTS), &input), expected);
    }

    #[test]
    fn refusals_stop() {
        assert_eq!(printed(None, &hour(0)), "R 4\n");
        assert_eq!(printed(Some(&RIGHTS[..31]), &hour(0)), "R 4\n");
        assert_eq!(printed(Some(&RIGHTS), &hour(-4_000_000_001)), "R 6\n");
        assert_eq!(printed(Some(&RIGHTS), &hour(0)[..9]), "R 4\n");
        assert_eq!(printed(Some(&RIGHTS), &[]), "F 0 0\n");
        let mut input = hour(6_000);
        input.extend([1]);
        let expected = "H 0 0 8500\nH 0 1 -2500\nR 4\n";
        assert_eq!(printed(Some(&RIGHTS), &input), expected);
    }

    #[test]
    fn refusals_are_named() {
        let file = sentence(None, &hour(0));
        assert_eq!(file, "Rights file is refused: 4, wrong length.\n");
        let amount = sentence(Some(&RIGHTS), &[hour(0), hour(i64::MIN)].concat());
        assert_eq!(amount, "Hour 1 is refused: 6, wild amount.\n");
        let broken = sentence(Some(&RIGHTS), &hour(0).repeat(3)[..3 * HOUR_BYTES - 1]);
        assert_eq!(broken, "Hour 2 is refused: 4, wrong length.\n");
        let bad = sentence(Some(&[RIGHTS, [0; 32]].concat()), &hour(0));
        assert_eq!(bad, "Hour 0 is refused: 7, bad right, record 2.\n");
        assert_eq!(sentence(Some(&RIGHTS), &hour(0)), "");
    }

    /// Owner 0 wants 10,000, and owner 1 is charged 2,500.
    #[test]
    fn a_negative_amount() {
        let input = [hour(-2_501), hour(-2_500), hour(-2_499)].concat();
        let expected = "H 0 1 -2500\nH 1 1 -2500\nH 2 0 1\nH 2 1 -2500\nF -1 0\n";
        assert_eq!(printed(Some(&RIGHTS), &input), expected);
        let least = printed(Some(&RIGHTS), &hour(-4_000_000_000));
        assert_eq!(least, "H 0 1 -2500\nF -3999997500 0\n");
        let none = printed(Some(&[]), &hour(-7).repeat(721));
        assert_eq!(none, "F -7 -5040\n");
    }

    /// In each hour of June F is -1; in all others, but for the last, all is paid. The
    /// last one's rest makes up for none of June, for all of it, or for one cent less or
    /// more.
    #[test]
    fn a_year_with_a_month_below_0() {
        let year = |last: i64| {
            let amount = |number| match number {
                0..720 => -2_501,
                8_759 => last,
                _ => 7_500,
            };
            let input: Vec<u8> = (0..8_760).flat_map(|number| hour(amount(number))).collect();
            printed(Some(&RIGHTS), &input)
        };
        // Owner 0 is still short of 10,000 for each hour of June.
        assert!(year(7_499).ends_with("H 8759 0 9999\nH 8759 1 -2500\nF 0 -720\n"));
        assert!(year(7_500 + 719).ends_with("H 8759 1 -2500\nF 0 -1\n"));
        assert!(year(7_500 + 720).ends_with("H 8759 1 -2500\nF 0 0\n"));
        assert!(year(7_500 + 721).ends_with("H 8759 1 -2500\nY 0 0 1\nF 0 0\n"));
    }

    #[test]
    fn a_whole_year_closes_months_and_the_year() {
        let mut input = Vec::new();
        for number in 0..8_760 {
            input.extend(hour(if number < 8_016 { 7_499 } else { 7_510 }));
        }
        let text = printed(Some(&RIGHTS), &input);
        assert!(text.ends_with("H 8759 1 -2500\nY 0 0 7440\nF 0 0\n"));
        assert!(!text.contains("M "));
        input.extend(hour(0));
        assert!(printed(Some(&RIGHTS), &input).ends_with("Y 0 0 7440\nR 2\n"));
    }
}
