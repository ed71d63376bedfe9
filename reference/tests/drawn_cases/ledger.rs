//! The claim about a whole list of calls, kept as a ledger that is read from the
//! calls and the lines alone and compared with the book. All sums are of 128 bits.

use reference::book::HourInput;
use reference::target::{targets, Asked, OWNERS};
use reference::words::Event;

use crate::lent::Given;

/// The sums over accepted calls: those of the targets and credits owner by owner.
#[derive(Clone, Copy)]
struct Sums {
    collected: i128,
    charges: i128,
    positive_targets: [i128; OWNERS],
    credits: [i128; OWNERS],
}

/// What the accepted calls so far say, in a book's year.
pub struct Ledger {
    year: u64,
    /// "in the accepted hours since the last accepted month end, or since the start".
    since_month_end: Sums,
    /// "over all accepted hours and month ends before", and year ends.
    over_all: Sums,
    pub hours: u64,
    pub months: u64,
    pub year_ends: u64,
}

/// F and what is owed to each owner, "and so its want".
struct Shared {
    fund: i128,
    wants: [i128; OWNERS],
}

const NOTHING: Sums = Sums {
    collected: 0,
    charges: 0,
    positive_targets: [0; OWNERS],
    credits: [0; OWNERS],
};

fn sum<T: Copy + Into<i128>>(cells: &[T]) -> i128 {
    cells.iter().map(|cell| (*cell).into()).sum()
}

/// "its credit is its line, or 0 if that is negative".
fn credits(lines: &[i64]) -> [i128; OWNERS] {
    std::array::from_fn(|owner| i128::from(lines[owner].max(0)))
}

/// "its charge is its line, sign dropped, if that is negative, else 0".
fn charges(lines: &[i64]) -> i128 {
    lines.iter().map(|line| -i128::from((*line).min(0))).sum()
}

impl Sums {
    /// "collected plus charges less credits".
    fn fund(&self) -> i128 {
        self.collected + self.charges - sum(&self.credits)
    }

    /// "its positive targets less its credits".
    fn owed(&self) -> [i128; OWNERS] {
        std::array::from_fn(|owner| self.positive_targets[owner] - self.credits[owner])
    }

    fn shared(&self) -> Shared {
        Shared {
            fund: self.fund(),
            wants: self.owed(),
        }
    }

    fn enter_hour(&mut self, collected: i64, positive: &[i128; OWNERS], lines: &[i64]) {
        self.collected += i128::from(collected);
        self.charges += charges(lines);
        for (sum, target) in self.positive_targets.iter_mut().zip(positive) {
            *sum += target;
        }
        self.enter_credits(lines);
    }

    fn enter_credits(&mut self, lines: &[i64]) {
        for (sum, credit) in self.credits.iter_mut().zip(credits(lines)) {
            *sum += credit;
        }
    }
}

impl Shared {
    /// "less than one cent from it if, where F >= D, it is w(i), and otherwise D times
    /// the payment and F times w(i) differ by less than D"; where F is negative, "An
    /// owner's exact share is then 0, and only a payment of 0 is less than one cent
    /// from it."
    fn is_near(&self, want: i128, payment: i128) -> bool {
        let demand = sum(&self.wants);
        match self.fund {
            ..0 => payment == 0,
            fund if fund >= demand => payment == want,
            fund => (demand * payment - fund * want).abs() < demand,
        }
    }

    /// F and D are those reported, and "each accepted credit is at most what was owed
    /// and less than one cent from the exact share".
    fn check(&self, given: &Given) {
        let demand = sum(&self.wants);
        let reported = given.lent.settled.slice()[1..].iter();
        let reported: Vec<i128> = reported.map(|word| i128::from(*word)).collect();
        assert_eq!(reported, [self.fund, demand], "F and D");
        let credits = credits(given.lent.lines.slice());
        for (owner, (want, credit)) in self.wants.iter().zip(credits).enumerate() {
            assert!(credit <= *want, "owner {owner} is paid {credit} of {want}");
            let near = self.is_near(*want, credit);
            assert!(near, "owner {owner} is paid {credit} of {want}: not near");
        }
    }
}

impl Ledger {
    pub fn new(year: u64) -> Ledger {
        Ledger {
            year,
            since_month_end: NOTHING,
            over_all: NOTHING,
            hours: 0,
            months: 0,
            year_ends: 0,
        }
    }

    /// Enters a call, and checks that the book shows the ledger's sums.
    pub fn enter(&mut self, event: Event, given: &Given) {
        assert_ne!(given.refusal, 1, "in such a list 1 never comes");
        assert_ne!(given.refusal, 15, "nor does 15, once a book is open");
        if given.refusal == 0 {
            let lines = given.lent.lines.slice();
            let shared = match event {
                Event::Hour(input) => self.enter_hour(&input, lines),
                Event::MonthEnd => self.enter_month_end(lines),
                Event::YearEnd => self.enter_year_end(lines),
            };
            shared.check(given);
        }
        self.check_book(given);
    }

    /// "F is at an hour the amount collected plus all charges", and owed is the
    /// positive target.
    fn enter_hour(&mut self, input: &HourInput, lines: &[i64]) -> Shared {
        let mut cents = [0; OWNERS];
        let asked = Asked {
            year: self.year,
            rights: input.rights,
            prices: input.prices,
            hour: self.hours,
        };
        targets(&asked, &mut cents);
        let positive = cents.map(|target| i128::from(target.max(0)));
        for sums in [&mut self.since_month_end, &mut self.over_all] {
            sums.enter_hour(input.collected, &positive, lines);
        }
        self.hours += 1;
        Shared {
            fund: i128::from(input.collected) + charges(lines),
            wants: positive,
        }
    }

    /// F and owed "since the last accepted month end, or since the start".
    fn enter_month_end(&mut self, lines: &[i64]) -> Shared {
        let shared = self.since_month_end.shared();
        self.since_month_end = NOTHING;
        self.over_all.enter_credits(lines);
        self.months += 1;
        shared
    }

    /// "at a year end the same over all accepted hours and month ends before"; after
    /// it "an ended year shows a fund of at most zero or no owner short".
    fn enter_year_end(&mut self, lines: &[i64]) -> Shared {
        let shared = self.over_all.shared();
        self.over_all.enter_credits(lines);
        self.year_ends += 1;
        let nobody_short = self.over_all.owed() == [0; OWNERS];
        let fund = self.over_all.fund();
        assert!(fund <= 0 || nobody_short, "{fund} left and owners short");
        shared
    }

    /// "collected plus charges equals credits plus the fund left", and "each owner's
    /// positive targets equal its credits plus its open shortfall".
    fn check_book(&self, given: &Given) {
        let counts = [self.hours, self.months, self.year_ends, self.year];
        assert_eq!(given.lent.counts.slice(), counts, "counts, mark and year");
        let shortfalls = given.lent.shortfalls.slice();
        let open: Vec<i128> = shortfalls.chunks(2).map(sum).collect();
        assert_eq!(open, self.over_all.owed(), "open shortfalls of the owners");
        let fund_left = sum(given.lent.balances.slice());
        assert_eq!(fund_left, self.over_all.fund(), "fund left");
    }
}
