//! Buffers: a pattern that shows what was written, and long random ones.

use super::Held;
use crate::random::Random;

/// What every byte of other buffers to lend is: no byte is the same in both.
pub const UNIFORM: [u8; 2] = [0xa5, 0x5a];

/// The byte that a lent buffer has at a place.
fn patterned(at: usize) -> u8 {
    (at as u8).wrapping_mul(29) ^ 0xa5
}

/// A buffer to lend.
pub fn pattern(length: usize) -> Vec<u8> {
    (0..length).map(patterned).collect()
}

/// Holds a lent buffer, from a place on, to what it was.
pub fn untouched(buffer: &[u8], from: usize, what: &str, case: impl Fn() -> String) -> Held {
    let changed = (from..buffer.len()).find(|&at| buffer[at] != patterned(at));
    match changed {
        None => Ok(()),
        Some(at) => Err(format!("{}: {what} was changed at byte {at}", case())),
    }
}

/// Holds bytes to others.
pub fn same_bytes(ours: &[u8], theirs: &[u8], whose: &str, case: impl Fn() -> String) -> Held {
    if ours == theirs {
        return Ok(());
    }
    let lengths = format!("{} bytes against {}", ours.len(), theirs.len());
    let at = ours
        .iter()
        .zip(theirs)
        .position(|(own, other)| own != other);
    Err(format!(
        "{}: not {whose}, {lengths}, first at {at:?}",
        case()
    ))
}

/// A file's length and its first bytes, to be shown.
pub fn beginning(file: &[u8]) -> String {
    let shown = &file[..file.len().min(300)];
    format!("{} bytes: {shown:02x?}", file.len())
}

/// So many bytes, made of one random part over and over.
pub fn repeated(random: &mut Random, length: usize) -> Vec<u8> {
    let part = random.bytes(length.min((1 << 20) + 7));
    let mut bytes = Vec::with_capacity(length);
    while bytes.len() < length {
        let more = part.len().min(length - bytes.len());
        bytes.extend_from_slice(&part[..more]);
    }
    bytes
}
