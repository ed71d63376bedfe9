//! The generator of drawn numbers, xorshift with 64 bits: the same seed draws
//! the same numbers everywhere, so that a case can be drawn again.

/// The generator.
pub struct Draws {
    state: u64,
}

impl Draws {
    /// Any seed but 0, from which only zeros would come.
    pub fn new(seed: u64) -> Draws {
        Draws { state: seed }
    }

    /// Any 64-bit number but 0.
    pub fn any(&mut self) -> u64 {
        self.state ^= self.state << 13;
        self.state ^= self.state >> 7;
        self.state ^= self.state << 17;
        self.state
    }

    /// A number below `bound`, which is never 0.
    pub fn below(&mut self, bound: u64) -> u64 {
        self.any() % bound
    }

    /// True once in so many draws.
    pub fn once_in(&mut self, draws: u64) -> bool {
        self.below(draws) == 0
    }

    /// One of the values, of which there is at least one.
    pub fn one_of<T: Copy>(&mut self, values: &[T]) -> T {
        values[self.below(values.len() as u64) as usize]
    }
}

#[cfg(test)]
mod tests {
    use super::*;

    #[test]
    fn the_first_numbers_of_a_seed() {
        let mut draws = Draws::new(88_172_645_463_325_252);
        let first = [(); 3].map(|()| draws.any());
        let expected = [
            8_748_534_153_485_358_512,
            3_040_900_993_826_735_515,
            3_453_997_556_048_239_312,
        ];
        assert_eq!(first, expected);
    }
}
