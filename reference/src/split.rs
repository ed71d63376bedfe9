//! The split of a fund over wants, within its caller's limits.

use crate::refusal::{
    first, ACCEPTED, TOO_MANY_WANTS, TOTAL_TOO_LARGE, WANT_TOO_LARGE, WRONG_LENGTH,
};

/// "up to 64 wants", and "owners 1 to 64".
pub const MOST_OWNERS: usize = 64;
/// "with D their sum at most 4,000,000,000", and "total 1 to 4,000,000,000".
pub const TOP_TOTAL: u64 = 4_000_000_000;

/// "The bounds become two given numbers": the most wants of a caller, and the
/// most that they may come to.
#[derive(Clone, Copy, Debug, PartialEq, Eq)]
pub struct Limits {
    pub owners: usize,
    pub total: u64,
}

/// "our own limits remain beside it".
pub const HALL: Limits = Limits {
    owners: MOST_OWNERS,
    total: TOP_TOTAL,
};

/// "A municipal pool of at most 16 owners, with a total of at most 100,000,000
/// cents".
pub const SMALL_POOL: Limits = Limits {
    owners: 16,
    total: 100_000_000,
};

impl Limits {
    /// "owners 1 to 64 and total 1 to 4,000,000,000 (outside these, 4)".
    fn outside(&self) -> bool {
        let owners = (1..=MOST_OWNERS).contains(&self.owners);
        let total = (1..=TOP_TOTAL).contains(&self.total);
        !owners || !total
    }
}

/// What a split call gives besides the payments.
#[derive(Clone, Copy, Debug, PartialEq, Eq)]
pub struct SplitResult {
    pub refusal: u64,
    pub left: u64,
}

/// The exact sum of 64-bit numbers.
pub fn sum(cells: &[u64]) -> u128 {
    cells.iter().map(|cell| u128::from(*cell)).sum()
}

/// The whole part and the remainder of F times w(i) / D.
#[derive(Clone, Copy)]
struct Share {
    whole: u128,
    rest: u128,
}

fn share(fund: u64, want: u64, total: u128) -> Share {
    let product = u128::from(fund) * u128::from(want);
    // "the whole part of F times w(i) / D"
    let whole = product / total;
    // "the remainder r(i) is F times w(i) less D times that whole part"
    let rest = product - total * whole;
    Share { whole, rest }
}

/// How many "others have a larger r, or an equal r and a lower number".
fn rank(shares: &[Share], owner: usize, rest: u128) -> u128 {
    let others = shares.iter().enumerate();
    let ahead = others.filter(|(other, share)| {
        *other != owner && (share.rest > rest || (share.rest == rest && *other < owner))
    });
    ahead.count() as u128
}

/// The payments where F is below D: the whole parts, and "the cents still
/// unpaid, E of them, go one each".
fn short_payments(fund: u64, wants: &[u64], total: u128) -> Vec<u64> {
    let shares: Vec<Share> = wants.iter().map(|w| share(fund, *w, total)).collect();
    let paid: u128 = shares.iter().map(|share| share.whole).sum();
    let unpaid = u128::from(fund) - paid;
    let pay = |(owner, share): (usize, &Share)| {
        // "owner i gets one exactly if fewer than E others" are ahead
        let one = u128::from(rank(&shares, owner, share.rest) < unpaid);
        // A payment is at most the want, so it fits 64 bits.
        u64::try_from(share.whole + one).unwrap_or(0)
    };
    shares.iter().enumerate().map(pay).collect()
}

/// The payments of a good call.
fn payments(fund: u64, wants: &[u64]) -> Vec<u64> {
    let total = sum(wants);
    if u128::from(fund) >= total {
        // "If F >= D, each is paid its want"
        return wants.to_vec();
    }
    short_payments(fund, wants, total)
}

/// "F - D is left", else "Nothing is left."
fn left(fund: u64, wants: &[u64]) -> u64 {
    let left = u128::from(fund).saturating_sub(sum(wants));
    u64::try_from(left).unwrap_or(0)
}

/// The refusal of a split call: not the lowest number, but the first row that
/// applies. D is the true sum of the wants, also where that passes 64 bits.
fn refusal(limits: Limits, wants: &[u64], paid: &[u64]) -> u64 {
    let uneven = wants.len() != paid.len() || wants.len() > MOST_OWNERS;
    let total = sum(wants);
    let past_all = total > u128::from(TOP_TOTAL);
    let past_own = total > u128::from(limits.total);
    first(&[
        // "split slices of unequal length or above 64", and limits "outside these"
        (WRONG_LENGTH, uneven || limits.outside()),
        // "16 when there are more wants than that caller's owners, right after 4"
        (TOO_MANY_WANTS, wants.len() > limits.owners),
        // "split called with D above 4,000,000,000"
        (WANT_TOO_LARGE, past_all),
        // "17 when D is above that caller's total but not above 4,000,000,000,
        // right after 11"
        (TOTAL_TOO_LARGE, past_own && !past_all),
    ])
}

/// The split call.
pub fn split(limits: Limits, fund: u64, wants: &[u64], paid: &mut [u64]) -> SplitResult {
    let refusal = refusal(limits, wants, paid);
    if refusal != ACCEPTED {
        return SplitResult { refusal, left: 0 };
    }
    paid.copy_from_slice(&payments(fund, wants));
    SplitResult {
        refusal,
        left: left(fund, wants),
    }
}

#[cfg(test)]
mod tests {
    use super::*;

    /// The payments and what is left, the same within both pools' limits.
    fn run(fund: u64, wants: &[u64]) -> (Vec<u64>, u64) {
        let [hall, small] = [HALL, SMALL_POOL].map(|limits| {
            let mut paid = vec![99; wants.len()];
            let result = split(limits, fund, wants, &mut paid);
            assert_eq!(result.refusal, 0);
            (paid, result.left)
        });
        assert_eq!(hall, small);
        hall
    }

    #[test]
    fn marked_splits() {
        assert_eq!(run(100, &[50, 50, 50]), (vec![34, 33, 33], 0));
        assert_eq!(run(5, &[1, 2, 4]), (vec![1, 1, 3], 0));
        assert_eq!(run(6, &[1, 2, 4]), (vec![1, 2, 3], 0));
        assert_eq!(run(7, &[1, 2, 4]), (vec![1, 2, 4], 0));
        assert_eq!(run(10, &[1, 2, 4]), (vec![1, 2, 4], 3));
        assert_eq!(run(4, &[0, 9]), (vec![0, 4], 0));
    }

    #[test]
    fn empty_lists() {
        assert_eq!(run(0, &[]), (vec![], 0));
        assert_eq!(run(u64::MAX, &[]), (vec![], u64::MAX));
    }

    /// The refusal of a call with a fund of 3 and as many payments as wants, which
    /// stay untouched, with nothing left, just if it is refused.
    fn refused(owners: usize, total: u64, wants: &[u64]) -> u64 {
        let mut paid = vec![5; wants.len()];
        let result = split(Limits { owners, total }, 3, wants, &mut paid);
        let untouched = paid.iter().all(|cell| *cell == 5);
        assert_eq!(untouched && result.left == 0, result.refusal != 0);
        result.refusal
    }

    /// So many wants that come to this.
    fn wants(count: usize, total: u64) -> Vec<u64> {
        let mut wants = vec![0; count];
        wants[count / 2] = total;
        wants
    }

    #[test]
    fn slices_of_wrong_length() {
        let mut paid = [5; 66];
        let mut refusal = |wants: usize, payments: usize| {
            let paid = &mut paid[..payments];
            split(HALL, 3, &[1; 66][..wants], paid).refusal
        };
        assert_eq!([refusal(3, 4), refusal(4, 3), refusal(65, 64)], [4; 3]);
        assert_eq!([refusal(65, 65), refusal(64, 65), refusal(0, 1)], [4; 3]);
        assert_eq!(paid, [5; 66]);
    }

    #[test]
    fn limits_and_one_past() {
        for total in [1, 3, 100_000_000, TOP_TOTAL] {
            assert_eq!([0, 65, usize::MAX].map(|o| refused(o, total, &[1])), [4; 3]);
            assert_eq!([1, 16, 64].map(|o| refused(o, total, &[1])), [0; 3]);
        }
        for owners in [1, 16, 64] {
            let outside = [0, TOP_TOTAL + 1, u64::MAX];
            assert_eq!(outside.map(|t| refused(owners, t, &[1])), [4; 3]);
        }
    }

    #[test]
    fn wants_at_the_limits_and_one_past() {
        for (owners, total) in [(1, 3), (16, 100_000_000), (63, TOP_TOTAL - 1)] {
            assert_eq!(refused(owners, total, &wants(owners, total)), 0);
            assert_eq!(refused(owners, total, &wants(owners + 1, total)), 16);
            assert_eq!(refused(owners, total, &wants(owners, total + 1)), 17);
            assert_eq!(refused(owners, total, &wants(owners, TOP_TOTAL)), 17);
            assert_eq!(refused(owners, total, &wants(owners, TOP_TOTAL + 1)), 11);
        }
        assert_eq!(refused(64, TOP_TOTAL, &wants(64, TOP_TOTAL)), 0);
        assert_eq!(refused(64, TOP_TOTAL, &wants(65, TOP_TOTAL)), 4);
        assert_eq!(refused(64, TOP_TOTAL, &wants(64, TOP_TOTAL + 1)), 11);
    }

    #[test]
    fn the_true_sum_decides() {
        assert_eq!(refused(2, 100, &[u64::MAX, 1]), 11);
        assert_eq!(refused(2, 100, &[u64::MAX, 101]), 11);
        assert_eq!(refused(16, 100_000_000, &[1 << 60; 16]), 11);
        assert_eq!(refused(64, TOP_TOTAL, &[u64::MAX; 64]), 11);
    }

    #[test]
    fn the_first_of_several_faults() {
        // 4 before all others
        assert_eq!(refused(0, 3, &[1, 3]), 4);
        assert_eq!(refused(16, 0, &wants(17, u64::MAX)), 4);
        assert_eq!(refused(16, TOP_TOTAL + 1, &wants(17, TOP_TOTAL + 1)), 4);
        assert_eq!(refused(usize::MAX, 3, &wants(65, 4)), 4);
        assert_eq!(refused(16, 3, &wants(65, 4)), 4);
        // 16 before 11 and 17
        assert_eq!(refused(16, 3, &wants(17, TOP_TOTAL + 1)), 16);
        assert_eq!(refused(16, 3, &wants(17, 4)), 16);
        assert_eq!(refused(1, TOP_TOTAL, &[u64::MAX, 1]), 16);
        // 11 in place of 17
        assert_eq!(refused(16, 3, &wants(16, TOP_TOTAL + 1)), 11);
        assert_eq!(refused(16, 3, &wants(16, TOP_TOTAL)), 17);
    }
}
