//! Numbers in bytes, low byte first, and numbers held at 2^64 - 1.

/// The bytes that hold a count: at least one.
pub fn width(count: u64) -> u64 {
    let mut bytes = 1;
    let mut rest = count / 256;
    while rest > 0 {
        bytes += 1;
        rest /= 256;
    }
    bytes
}

/// The number, or 2^64 - 1 if it is larger.
pub fn held(number: u128) -> u64 {
    number.min(u128::from(u64::MAX)) as u64
}

/// The largest number that so many bytes hold.
pub fn largest(bytes: u8) -> u128 {
    (1 << (8 * u32::from(bytes))) - 1
}

/// Adds a number of so many bytes.
pub fn put(bytes: &mut Vec<u8>, number: u64, width: u64) {
    let mut rest = number;
    for _ in 0..width {
        bytes.push((rest % 256) as u8);
        rest /= 256;
    }
}

/// The number that the bytes make; they are at most eight.
pub fn get(bytes: &[u8]) -> u64 {
    bytes
        .iter()
        .rev()
        .fold(0, |high, &low| 256 * high + u64::from(low))
}
