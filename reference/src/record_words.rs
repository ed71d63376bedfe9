//! A record by its two words: "form two 64-bit words of a record, low byte
//! first, and cut all eight fields from those" (Wish 5). The rest of this
//! calculation reads the fields from their places in the layout.

use crate::rights::{Right, RECORD};

/// The words of the bytes 0 to 7 and 8 to 15.
pub fn words(record: &[u8; RECORD]) -> [u64; 2] {
    let both = u128::from_le_bytes(*record);
    [both as u64, (both >> 64) as u64]
}

/// So many bits of a word, from a bit on.
fn bits(word: u64, from: u32, count: u32) -> u64 {
    word << (64 - from - count) >> (64 - count)
}

/// The eight fields, cut from the two words.
pub fn cut([low, high]: [u64; 2]) -> Right {
    Right {
        owner: bits(low, 0, 16),
        source: bits(low, 16, 16),
        sink: bits(low, 32, 16),
        kind: bits(low, 48, 8),
        class: bits(low, 56, 8),
        size: bits(high, 0, 32),
        first: bits(high, 32, 16),
        last: bits(high, 48, 16),
    }
}

/// The opposite: the two words that eight fields in their widths make.
pub fn made_of(right: &Right) -> [u64; 2] {
    let low =
        right.owner | right.source << 16 | right.sink << 32 | right.kind << 48 | right.class << 56;
    [low, right.size | right.first << 32 | right.last << 48]
}

#[cfg(test)]
mod tests {
    use super::*;
    use crate::draws::Draws;
    use crate::rights::{decode, encode};

    /// "for any 16 bytes, good or bad, the fields so cut are those of the
    /// layout", and the words made of these fields have the same bytes.
    fn compare(record: [u8; RECORD]) {
        let right = decode(&record);
        let [low, high] = made_of(&right);
        assert_eq!(cut(words(&record)), right);
        assert_eq!([low.to_le_bytes(), high.to_le_bytes()].concat(), record);
        assert_eq!(encode(&right), record);
    }

    #[test]
    fn any_16_bytes() {
        let mut draws = Draws::new(2_862_933_555_777_941_757);
        for _ in 0..100_000 {
            let [low, high] = [draws.any(), draws.any()];
            compare((u128::from(low) | u128::from(high) << 64).to_le_bytes());
        }
    }

    #[test]
    fn each_bit_alone() {
        (0..128).for_each(|bit| compare((1u128 << bit).to_le_bytes()));
        (0..128).for_each(|bit| compare((!(1u128 << bit)).to_le_bytes()));
    }
}
