//! Rights and hours for whole runs of the program, drawn from a seed; months and
//! days are those of the program's year.
//!
//! An odd seed gives a year with long funds over all, an even one a poor year;
//! months 0, 2, 4 and so on are short and the others long, so that month ends
//! and the year end pay. No hour collects less than nothing. What a seed draws stays as
//! it is: the tests know what some of these years print by its checksum.

use std::fs::{create_dir_all, File};
use std::io::{self, BufWriter, Write};
use std::path::Path;

use crate::calendar::{calendar_of, PROGRAM_YEAR};
use crate::draws::Draws;
use crate::rights::{encode, Right};
use crate::target::MOST_PRICES;

/// What the hours of a year depend on.
pub struct Year {
    pub seed: u64,
    pub rights: u64,
    pub hours: u64,
    /// The prices change only at the first hour of each day.
    pub daily: bool,
}

fn draw_right(draws: &mut Draws) -> Right {
    let owner = draws.below(64);
    let source = draws.below(1_024);
    let sink = (source + 1 + draws.below(1_023)) % 1_024;
    let kind = draws.below(2);
    let class = draws.below(3);
    let size = draws.below(100) + 1;
    let part_of_year = draws.once_in(4);
    let x = draws.below(365) + 1;
    let y = draws.below(365) + 1;
    let (first, last) = if part_of_year {
        (x.min(y), x.max(y))
    } else {
        (1, 365)
    };
    Right {
        owner,
        source,
        sink,
        kind,
        class,
        size,
        first,
        last,
    }
}

/// The amount collected grows with the number of rights.
fn draw_collected(draws: &mut Draws, year: &Year, hour: u64) -> i64 {
    let poor = year.seed % 2 == 0;
    let months = calendar_of(PROGRAM_YEAR).map_or(0, |calendar| calendar.months_ended(hour));
    let short_month = months % 2 == 0;
    let most_per_right = match (poor, short_month) {
        (false, true) => 1_700,
        (false, false) => 2_200,
        (true, true) => 1_650,
        (true, false) => 1_950,
    };
    let per_right = draws.below(most_per_right);
    i64::try_from(per_right.saturating_mul(year.rights)).unwrap_or(i64::MAX)
}

fn draw_prices(draws: &mut Draws) -> [i32; MOST_PRICES] {
    [(); MOST_PRICES].map(|()| draws.below(4_001) as i32 - 2_000)
}

/// Writes the rights file to one output and the hours to the other.
pub fn write(year: &Year, file: &mut dyn Write, hours: &mut dyn Write) -> io::Result<()> {
    let mut draws = Draws::new(year.seed);
    for _ in 0..year.rights {
        file.write_all(&encode(&draw_right(&mut draws)))?;
    }
    let mut prices = [0; MOST_PRICES];
    for hour in 0..year.hours {
        let collected = draw_collected(&mut draws, year, hour);
        if !year.daily || hour % 24 == 0 {
            prices = draw_prices(&mut draws);
        }
        hours.write_all(&collected.to_le_bytes())?;
        for price in prices {
            hours.write_all(&price.to_le_bytes())?;
        }
    }
    Ok(())
}

/// Writes `ftr.bin` and `hours.bin` into the folder.
pub fn write_files(year: &Year, folder: &Path) -> io::Result<()> {
    create_dir_all(folder)?;
    let mut file = BufWriter::new(File::create(folder.join("ftr.bin"))?);
    let mut hours = BufWriter::new(File::create(folder.join("hours.bin"))?);
    write(year, &mut file, &mut hours)?;
    file.flush()?;
    hours.flush()
}

#[cfg(test)]
mod tests {
    use super::*;
    use crate::step::HOUR_BYTES;

    /// How often the prices differ from those of the hour before.
    fn price_changes(daily: bool) -> usize {
        let year = Year {
            seed: 7,
            rights: 3,
            hours: 72,
            daily,
        };
        let mut hours = Vec::new();
        assert!(write(&year, &mut Vec::new(), &mut hours).is_ok());
        let prices: Vec<&[u8]> = hours.chunks(HOUR_BYTES).map(|hour| &hour[8..]).collect();
        prices.windows(2).filter(|two| two[0] != two[1]).count()
    }

    #[test]
    fn daily_prices_change_at_the_first_hour_of_a_day() {
        assert_eq!(price_changes(false), 71);
        assert_eq!(price_changes(true), 2);
    }
}
