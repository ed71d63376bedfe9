//! Blocks of the program's input, and one in plain numbers.

use reference::step::HOUR_BYTES;

/// The bytes of an amount and of prices.
pub fn hour_bytes(collected: i64, prices: &[i32]) -> Vec<u8> {
    let mut bytes = Vec::from(collected.to_le_bytes());
    bytes.extend(prices.iter().flat_map(|price| price.to_le_bytes()));
    bytes
}

/// One block; the prices not named are 0.
pub fn block(collected: i64, prices: &[i32]) -> Vec<u8> {
    let mut bytes = hour_bytes(collected, prices);
    bytes.resize(HOUR_BYTES, 0);
    bytes
}

/// A signed number, low byte first.
fn number(bytes: &[u8]) -> i64 {
    let negative = bytes.last().is_some_and(|byte| *byte > 127);
    let sign = if negative { -1 } else { 0 };
    let high_first = bytes.iter().rev();
    high_first.fold(sign, |number, byte| number << 8 | i64::from(*byte))
}

/// A block in plain numbers.
pub fn block_text(block: &[u8]) -> String {
    if block.len() != HOUR_BYTES {
        return format!("broken, {} bytes: {block:?}", block.len());
    }
    let (collected, prices) = block.split_at(8);
    let prices = prices.chunks(4).map(number).enumerate();
    let prices: Vec<String> = prices
        .filter(|(_, price)| *price != 0)
        .map(|(node, price)| format!("{node}: {price}"))
        .collect();
    let (collected, prices) = (number(collected), prices.join(", "));
    format!("collected {collected}, prices that are not 0: {prices}")
}
