//! A number inside a record.

/// The place of a number inside every record of a tree: its first byte, counted from the front of
/// the record, and its bytes, the lowest first.
///
/// ```
/// use nuldrafon::Field;
/// // In an index of names, tree type 5, the hash of a name is the first 4 bytes of its record.
/// let hash = Field::new(0, 4);
/// assert_eq!((hash.start, hash.width), (0, 4));
/// ```
#[derive(Debug, Clone, Copy, PartialEq, Eq, Hash)]
pub struct Field {
    /// The bytes of the record before the number.
    pub start: u64,
    /// The bytes of the number: 1 to 8.
    pub width: u64,
}

impl Field {
    /// The field from `start` on, of so many bytes. Any numbers are taken here; a call that cannot
    /// use them says so.
    pub const fn new(start: u64, width: u64) -> Field {
        Field { start, width }
    }
}
