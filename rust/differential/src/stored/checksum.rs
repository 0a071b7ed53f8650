//! The stored list of the Rust's checksums.

use crate::checksum::{Outcome, Sum};

/// The list: the text of an array constant.
pub const STORED: &str = include_str!("../../stored/checksum.txt");

/// The list has an input of every length from 0 to this.
pub const LAST: usize = 60;

/// The input of length n: byte i is (7 i + 13 n + 1) mod 256.
pub fn input(n: usize) -> Vec<u8> {
    (0..n).map(|i| (7 * i + 13 * n + 1) as u8).collect()
}

/// The list as `sum` gives it: a line for each length, with the answer and then the length.
pub fn list(sum: Sum) -> String {
    let answers: String = (0..=LAST)
        .map(|n| format!("    {:#010x}, // {n}\n", sum(&input(n))))
        .collect();
    format!(
        "// The checksums that the Rust gives of inputs of length 0 to {LAST}, each with its length.\n\
         // Byte i of the input of length n is (7 * i + 13 * n + 1) mod 256.\n\
         const ANSWERS: [u32; {}] = [\n{answers}];\n",
        LAST + 1,
    )
}

/// Holds `sum` to the stored list.
pub fn hold(sum: Sum) -> Outcome {
    super::hold_text(&list(sum), STORED)?;
    Ok(LAST + 1)
}
