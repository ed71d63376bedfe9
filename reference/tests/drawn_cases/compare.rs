//! Seeded cases, and the comparison of what the library and the second
//! calculation give.

use std::collections::BTreeSet;
use std::time::Instant;

use reference::draws::Draws;

use crate::lent::{table, Given, Lent};

/// The refusal numbers that came, call by call.
type Came = BTreeSet<(&'static str, u64)>;

/// A kind of test.
pub struct Kind {
    /// The test's name, as cargo filters it.
    pub test: &'static str,
    /// Each case gets its own seed from this and its number; without it the
    /// seed is the number.
    pub base: Option<u64>,
    pub cases: u64,
    /// The refusal numbers that can come, call by call, and what else a kind
    /// notes that must come.
    pub refusals: &'static [(&'static str, &'static [u64])],
}

fn number_from(name: &str) -> Option<u64> {
    let text = std::env::var(name).ok()?;
    let number = text.parse();
    Some(number.unwrap_or_else(|_| panic!("{name}={text} is not a number")))
}

/// Spreads neighbouring numbers over all seeds (the last steps of splitmix64).
fn mixed(number: u64) -> u64 {
    let mut n = number;
    n = (n ^ (n >> 30)).wrapping_mul(0xBF58_476D_1CE4_E5B9);
    n = (n ^ (n >> 27)).wrapping_mul(0x94D0_49BB_1331_11EB);
    n ^ (n >> 31)
}

impl Kind {
    fn seed_of(&self, number: u64) -> u64 {
        match self.base {
            Some(base) => mixed(base.wrapping_add(number)),
            None => number,
        }
    }

    /// `CASES=n` draws n times as many; cases that are not drawn are all run.
    fn count(&self) -> u64 {
        match self.base {
            Some(_) => self.cases * number_from("CASES").unwrap_or(1),
            None => self.cases,
        }
    }

    /// Runs all cases, or with `SEED=s` the one of that seed.
    pub fn run(&self, run_case: impl Fn(&mut Case)) {
        let mut came = Came::new();
        if let Some(seed) = number_from("SEED") {
            run_case(&mut Case::new(self.test, seed, &mut came));
            return;
        }
        let start = Instant::now();
        for number in 0..self.count() {
            let seed = self.seed_of(number);
            run_case(&mut Case::new(self.test, seed, &mut came));
        }
        let seconds = start.elapsed().as_secs_f64();
        println!("{}: {} cases in {seconds:.1} s", self.test, self.count());
        self.check_refusals(&came);
    }

    /// A number that can come and never does shows a drawing that misses it.
    fn check_refusals(&self, came: &Came) {
        for (call, numbers) in self.refusals {
            for number in *numbers {
                let test = self.test;
                let met = came.contains(&(*call, *number));
                assert!(met, "{test}: no case of {call} gave {number}");
            }
        }
    }
}

/// One case.
pub struct Case<'a> {
    pub seed: u64,
    pub draws: Draws,
    pub test: &'static str,
    came: &'a mut Came,
}

impl Drop for Case<'_> {
    /// Whatever stops a case, it can be run alone.
    fn drop(&mut self) {
        if std::thread::panicking() {
            let Case { seed, test, .. } = self;
            eprintln!("{test}: this was the case of seed {seed}; to run it alone:");
            eprintln!(
                "SEED={seed} cargo test --release --offline --test drawn_cases -- --exact {test}"
            );
        }
    }
}

/// What a call is only lent to read.
pub trait Input {
    /// All of it in plain numbers.
    fn text(&self) -> String;
}

impl Input for String {
    fn text(&self) -> String {
        self.clone()
    }
}

impl<'a> Case<'a> {
    fn new(test: &'static str, seed: u64, came: &'a mut Came) -> Case<'a> {
        Case {
            seed,
            // The generator has no seed 0.
            draws: Draws::new(seed.max(1)),
            test,
            came,
        }
    }

    /// Notes a refusal number, or what else a kind notes.
    pub fn came(&mut self, call: &'static str, refusal: u64) {
        self.came.insert((call, refusal));
    }

    /// Runs a call on both sides from the same cells and compares the refusal
    /// and every cell; gives what the library gave.
    pub fn compare(
        &mut self,
        call: &'static str,
        input: &dyn Input,
        before: &Lent,
        library: impl FnOnce(&mut Lent) -> u64,
        second: impl FnOnce(&mut Lent) -> u64,
    ) -> Given {
        let library = before.after(library);
        let second = before.after(second);
        self.compare_given(call, input, before, &library, &second);
        library
    }

    /// Compares what both sides gave.
    pub fn compare_given(
        &mut self,
        call: &'static str,
        input: &dyn Input,
        before: &Lent,
        library: &Given,
        second: &Given,
    ) {
        self.came(call, second.refusal);
        if library != second {
            let table = table(before, library, second);
            panic!("{call} differs\n{}\n{table}", input.text());
        }
    }
}
