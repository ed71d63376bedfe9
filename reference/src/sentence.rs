//! The sentence on standard error when a refusal stops a run.

use crate::refusal::{word, ACCEPTED, BAD_RIGHT, UNPRICED_NODE};

/// The letters of the printed lines: "an `H`, `M` or `Y`".
pub const HOUR: u8 = b'H';
pub const MONTH_END: u8 = b'M';
pub const YEAR_END: u8 = b'Y';

/// What stopped a run: the refused event, by its letter and number, the refusal
/// and the record number of 7 and 8, "the lowest one with that fault". Any other
/// letter stands for the rights file. All 0 where nothing is refused.
#[derive(Clone, Copy, Debug, Default, PartialEq, Eq)]
pub struct Stopped {
    pub letter: u8,
    pub number: u64,
    pub refusal: u64,
    pub record: u64,
}

impl Stopped {
    /// Nothing is refused so far.
    pub fn goes_on(&self) -> bool {
        self.refusal == ACCEPTED
    }

    /// The event that was refused, or the rights file.
    fn refused(&self) -> String {
        let number = self.number;
        match self.letter {
            HOUR => format!("Hour {number}"),
            MONTH_END => format!("Month end {number}"),
            YEAR_END => format!("Year end {number}"),
            _ => String::from("Rights file"),
        }
    }

    /// The sentence and its newline; nothing where nothing is refused.
    pub fn sentence(&self) -> String {
        if self.goes_on() {
            return String::new();
        }
        let Stopped {
            refusal, record, ..
        } = self;
        let fault = match *refusal {
            BAD_RIGHT | UNPRICED_NODE => format!(", record {record}"),
            _ => String::new(),
        };
        let (refused, word) = (self.refused(), word(*refusal));
        format!("{refused} is refused: {refusal}, {word}{fault}.\n")
    }
}

#[cfg(test)]
mod tests {
    use super::*;

    fn sentence(letter: u8, number: u64, refusal: u64, record: u64) -> String {
        let stopped = Stopped {
            letter,
            number,
            refusal,
            record,
        };
        stopped.sentence()
    }

    #[test]
    fn sentences() {
        let hour = sentence(72, 17, 7, 3);
        assert_eq!(hour, "Hour 17 is refused: 7, bad right, record 3.\n");
        let month = sentence(77, 4, 1, 3);
        assert_eq!(month, "Month end 4 is refused: 1, spoiled book.\n");
        let year = sentence(89, 0, 1, 0);
        assert_eq!(year, "Year end 0 is refused: 1, spoiled book.\n");
        let file = sentence(0, 9, 4, 0);
        assert_eq!(file, "Rights file is refused: 4, wrong length.\n");
        let other = sentence(72, 0, 12, 5);
        assert_eq!(other, "Hour 0 is refused: 12, not in the table.\n");
        let year = sentence(72, 0, 15, 5);
        assert_eq!(year, "Hour 0 is refused: 15, no such year.\n");
        let many = sentence(72, 0, 16, 5);
        assert_eq!(many, "Hour 0 is refused: 16, too many wants.\n");
        let large = sentence(77, 3, 17, 5);
        assert_eq!(large, "Month end 3 is refused: 17, total too large.\n");
        assert_eq!(sentence(72, 17, 0, 3), "");
    }
}
