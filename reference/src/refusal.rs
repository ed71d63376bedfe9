//! The refusal numbers. "Where several apply, the lowest number comes", but for what
//! the wishes say of the order: 15 comes "before any other check", and in a split,
//! where 16 comes "right after 4", the first one comes.

pub const ACCEPTED: u64 = 0;
pub const SPOILED_BOOK: u64 = 1;
pub const YEAR_OVER: u64 = 2;
pub const OUT_OF_TURN: u64 = 3;
pub const WRONG_LENGTH: u64 = 4;
pub const WILD_PRICE: u64 = 5;
pub const WILD_AMOUNT: u64 = 6;
pub const BAD_RIGHT: u64 = 7;
pub const UNPRICED_NODE: u64 = 8;
pub const HOUR_TOO_LARGE: u64 = 9;
pub const CARRY_FULL: u64 = 10;
pub const WANT_TOO_LARGE: u64 = 11;
pub const NO_SUCH_YEAR: u64 = 15;
pub const TOO_MANY_WANTS: u64 = 16;
pub const TOTAL_TOO_LARGE: u64 = 17;

/// The numbers of those that apply, in the order of the cases.
fn applying(cases: &[(u64, bool)]) -> impl Iterator<Item = u64> + '_ {
    let those = cases.iter().filter(|(_, applies)| *applies);
    those.map(|(number, _)| *number)
}

/// The lowest number of those that apply; `ACCEPTED` if none does.
pub fn lowest(cases: &[(u64, bool)]) -> u64 {
    applying(cases).min().unwrap_or(ACCEPTED)
}

/// The first number of those that apply; `ACCEPTED` if none does.
pub fn first(cases: &[(u64, bool)]) -> u64 {
    applying(cases).next().unwrap_or(ACCEPTED)
}

/// The word of the table.
pub fn word(refusal: u64) -> &'static str {
    match refusal {
        SPOILED_BOOK => "spoiled book",
        YEAR_OVER => "year over",
        OUT_OF_TURN => "out of turn",
        WRONG_LENGTH => "wrong length",
        WILD_PRICE => "wild price",
        WILD_AMOUNT => "wild amount",
        BAD_RIGHT => "bad right",
        UNPRICED_NODE => "unpriced node",
        HOUR_TOO_LARGE => "hour too large",
        CARRY_FULL => "carry full",
        WANT_TOO_LARGE => "want too large",
        NO_SUCH_YEAR => "no such year",
        TOO_MANY_WANTS => "too many wants",
        TOTAL_TOO_LARGE => "total too large",
        _ => "not in the table",
    }
}

#[cfg(test)]
mod tests {
    use super::*;

    #[test]
    fn the_lowest_and_the_first() {
        let cases = [(4, false), (16, true), (11, true), (17, true)];
        assert_eq!((lowest(&cases), first(&cases)), (11, 16));
        assert_eq!((lowest(&cases[..1]), first(&cases[..1])), (0, 0));
        assert_eq!((lowest(&[]), first(&[])), (0, 0));
    }

    /// 12 to 14 and 18 have none yet.
    #[test]
    fn words_of_the_table() {
        assert_eq!([12, 13, 14, 18].map(word), ["not in the table"; 4]);
        let words = [11, 15, 16, 17].map(word);
        let [want, year] = ["want too large", "no such year"];
        assert_eq!(words, [want, year, "too many wants", "total too large"]);
    }
}
