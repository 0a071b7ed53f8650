//! Numbers and parts of bytes, and the comparison of what is found with what is due.

use std::fmt::Debug;

/// What is wrong, in words.
pub type Fault = String;

/// The number in these bytes, at most 8, the lowest first.
pub fn number(bytes: &[u8]) -> u64 {
    let mut all = [0; 8];
    all[..bytes.len()].copy_from_slice(bytes);
    u64::from_le_bytes(all)
}

/// The bytes of a file from a place on, as many.
pub fn part(file: &[u8], at: u64, length: usize) -> Result<&[u8], Fault> {
    let from = usize::try_from(at).map_err(|_| format!("no place {at} in a file"))?;
    let end = from.checked_add(length);
    end.and_then(|end| file.get(from..end))
        .ok_or_else(|| format!("{length} bytes at {at} of a file of {}", file.len()))
}

/// Holds what is found to what is due.
pub fn same<T: PartialEq + Debug>(what: &str, found: T, due: T) -> Result<(), Fault> {
    if found == due {
        return Ok(());
    }
    Err(format!("{what}: {found:?}, due {due:?}"))
}
