//! The part of a file that a read with a base is about.

use super::refusal::{self, require, Answer};

/// The file without the bytes before the base.
pub fn part(file: &[u8], base: u64) -> Answer<&[u8]> {
    let length = file.len() as u64;
    require(base <= length, refusal::base_beyond_file())?;
    Ok(&file[base as usize..])
}
