//! The write of a right as words.

use super::*;

/// Owner 5 has an obligation from node 0 to node 1.
const WORDS: [u64; RIGHT] = [5, 0, 1, 0, 2, 10, 1, 365];
/// Its 16 bytes.
const BYTES: [u8; 16] = [5, 0, 0, 0, 1, 0, 0, 2, 10, 0, 0, 0, 1, 0, 109, 1];
/// The bits of its fields.
const BITS: [u32; RIGHT] = [16, 16, 16, 8, 8, 32, 16, 16];

/// The refusal of a write over a file, which it leaves as it was.
fn refused_write(year: u64, bytes: usize, record: u64, right: &[u64]) -> u64 {
    let mut file = vec![7; bytes];
    let refusal = write(year, &mut file, record, right);
    assert_eq!(file, vec![7; bytes]);
    refusal
}

#[test]
fn the_year_comes_first_and_then_the_words_and_the_file() {
    let bad = [64; RIGHT + 1];
    for words in [0, 7, 8, 9] {
        for year in [0, 2_024, 2_100, u64::MAX] {
            assert_eq!(refused_write(year, 15, 9, &bad[..words]), 15);
            assert_eq!(refused_write(year, 32, 0, &bad[..words]), 15);
        }
        assert_eq!(refused_write(2_025, 15, 0, &bad[..words]), 4);
        assert_eq!(refused_write(2_025, 32, 2, &bad[..words]), 4);
    }
    for words in [0, 7, 9] {
        assert_eq!(refused_write(2_025, 32, 1, &bad[..words]), 4);
    }
    assert_eq!(refused_write(2_025, 32, 1, &bad[..8]), 7);
    assert_eq!(refused_write(2_025, 32, 1, &WORDS[..7]), 4);
    assert_eq!(refused_write(2_025, 32, 2, &WORDS), 4);
}

#[test]
fn a_word_that_its_field_cannot_hold_is_7() {
    assert_eq!(write(2_025, &mut [0; 16], 0, &WORDS), 0);
    for (at, bits) in BITS.into_iter().enumerate() {
        for bit in [bits, 63] {
            let mut words = WORDS;
            words[at] += 1 << bit;
            assert_eq!(refused_write(2_025, 16, 0, &words), 7);
        }
    }
}

#[test]
fn a_right_read_and_passed_on() {
    let mut file = BYTES.repeat(3);
    let mut words = [9; RIGHT];
    assert_eq!(read(2_025, &file, 1, &mut words), 0);
    assert_eq!(words, WORDS);
    assert_eq!(write(2_025, &mut file, 1, &words), 0);
    assert_eq!(file, BYTES.repeat(3));
    words[0] = 63;
    assert_eq!(write(2_025, &mut file, 1, &words), 0);
    let mut expected = BYTES.repeat(3);
    expected[16] = 63;
    assert_eq!(file, expected);
}
