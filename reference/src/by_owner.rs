//! The shortfalls as Wish 11 lays them out, "The book laid out by owner". The rules'
//! book keeps them in two rows, as before; these are the cells that stand for them.

use crate::target::OWNERS;

/// "they become one array of 128 cells".
pub const CELLS: usize = 128;

/// "owner i at 2 times i for the month and the next cell for the year".
pub fn laid_out(month: &[u64; OWNERS], year: &[u64; OWNERS]) -> [u64; CELLS] {
    let mut cells = [0; CELLS];
    for (owner, (month, year)) in month.iter().zip(year).enumerate() {
        cells[2 * owner] = *month;
        cells[2 * owner + 1] = *year;
    }
    cells
}

/// "the old book's cells read off the new": the month's row and the year's, of 128
/// cells.
pub fn read_off(cells: &[u64]) -> [[u64; OWNERS]; 2] {
    let month = std::array::from_fn(|owner| cells[2 * owner]);
    let year = std::array::from_fn(|owner| cells[2 * owner + 1]);
    [month, year]
}

#[cfg(test)]
mod tests {
    use super::*;

    /// Two rows; all 128 numbers differ.
    fn rows() -> [[u64; OWNERS]; 2] {
        [1_000, 2_000].map(|first| std::array::from_fn(|owner| first + owner as u64))
    }

    #[test]
    fn the_places_are_those_of_the_wish() {
        let [month, year] = rows();
        let cells = laid_out(&month, &year);
        assert_eq!(cells[..4], [1_000, 2_000, 1_001, 2_001]);
        assert_eq!(cells[14..16], [1_007, 2_007]);
        assert_eq!(cells[62..66], [1_031, 2_031, 1_032, 2_032]);
        assert_eq!(cells[124..], [1_062, 2_062, 1_063, 2_063]);
        let one_more = read_off(&cells.map(|cell| cell + 1));
        assert_eq!(
            [0, 1, 31, 63].map(|owner| one_more[0][owner]),
            [1_001, 1_002, 1_032, 1_064]
        );
        assert_eq!(
            [0, 1, 31, 63].map(|owner| one_more[1][owner]),
            [2_001, 2_002, 2_032, 2_064]
        );
    }

    #[test]
    fn each_undoes_the_other() {
        let [month, year] = rows();
        assert_eq!(read_off(&laid_out(&month, &year)), [month, year]);
        let cells: [u64; CELLS] = std::array::from_fn(|at| u64::MAX - at as u64);
        let [month, year] = read_off(&cells);
        assert_eq!(laid_out(&month, &year), cells);
    }
}
