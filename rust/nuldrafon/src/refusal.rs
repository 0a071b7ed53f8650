//! Why a call is refused.

use std::error::Error;
use std::fmt;

/// Makes the enum of a table of causes, a row for each: its doc, its name with its values, its
/// number, and what it says.
macro_rules! causes {
    ($($(#[$doc:meta])* $name:ident
        $(($value:ident: $kind:ty))?
        $({ $(#[$of_first:meta])* $first:ident: $first_kind:ty,
            $(#[$of_second:meta])* $second:ident: $second_kind:ty, })?
        = $number:literal: $words:literal;)*) => {
        /// Why a call is refused, with the figures that tell. The numbers of the causes are those
        /// of the C functions, listed in include/btree_v2.h.
        ///
        /// Calls that come later bring causes of their own.
        ///
        /// ```
        /// use nuldrafon::{Geometry, Refusal};
        /// let refusal = Geometry::new(9, 8, 8).plan(100).unwrap_err();
        /// assert_eq!(refusal, Refusal::InvalidNodeSize(9));
        /// assert_eq!(refusal.number(), 7);
        /// assert_eq!(refusal.to_string(), "node size 9 is not from 10 to 65,536");
        /// ```
        #[derive(Debug, Clone, Copy, PartialEq, Eq, Hash)]
        #[non_exhaustive]
        pub enum Refusal {
            $($(#[$doc])*
            $name $(($kind))? $({
                $(#[$of_first])* $first: $first_kind,
                $(#[$of_second])* $second: $second_kind,
            })?,)*
            /// A number that this version of the crate has no name for, and its two values. No
            /// function of the crate gives it with the libraries that it was made for.
            Unnamed {
                /// The number of the cause.
                number: u64,
                /// Its values, as the C functions answer them.
                values: [u64; 2],
            },
        }

        impl Refusal {
            /// The cause with a number and values, as the C functions answer them.
            fn told(number: u64, values: [u64; 2]) -> Refusal {
                match number {
                    $($number => causes!(@told values
                        $name $(($kind))? $({ $first: $first_kind, $second: $second_kind })?),)*
                    _ => Refusal::Unnamed { number, values },
                }
            }

            /// The number of the cause: the first of a C function's answer.
            pub fn number(&self) -> u64 {
                match self {
                    $(Refusal::$name { .. } => $number,)*
                    Refusal::Unnamed { number, .. } => *number,
                }
            }

            /// The values of the cause, 0 where it has fewer than two: the numbers behind the
            /// first of a C function's answer.
            pub fn values(&self) -> [u64; 2] {
                match *self {
                    $(Refusal::$name $(($value))? $({ $first, $second })? =>
                        causes!(@values $($value)? $($first $second)?),)*
                    Refusal::Unnamed { values, .. } => values,
                }
            }
        }

        impl fmt::Display for Refusal {
            fn fmt(&self, to: &mut fmt::Formatter) -> fmt::Result {
                match self {
                    $(Refusal::$name $(($value))? $({ $first, $second })? => write!(to, $words),)*
                    Refusal::Unnamed { number, values } => {
                        write!(to, "refused by number {number}, with {values:?}")
                    }
                }
            }
        }
    };
    (@told $values:ident $name:ident) => { Refusal::$name };
    (@told $values:ident $name:ident ($kind:ty)) => { Refusal::$name($values[0] as $kind) };
    (@told $values:ident $name:ident { $first:ident: $a:ty, $second:ident: $b:ty }) => {
        Refusal::$name { $first: $values[0] as $a, $second: $values[1] as $b }
    };
    (@values) => { [0, 0] };
    (@values $value:ident) => { [$value as u64, 0] };
    (@values $first:ident $second:ident) => { [$first as u64, $second as u64] };
}

// Named as in hdf5-pure where that has the cause.
causes! {
    /// The file ends early. Both numbers count from the base, and for the records and pointers of
    /// an internal node from the node on.
    UnexpectedEof {
        /// The end that is needed, at most 2^64 - 1.
        expected: u64,
        /// The bytes that are there.
        available: u64,
    } = 1:
        "the file ends too early: {expected} bytes are needed, {available} are there";

    /// A signature is not the one that is due: there is no header or node of this kind here.
    InvalidBTreeV2Signature = 2:
        "the signature is not that of the header or node that should stand here";

    /// The header's version is not 0.
    InvalidBTreeV2Version(version: u8) = 3:
        "the header has version {version}, not 0";

    /// The offset size is not 2, 4 or 8.
    InvalidOffsetSize(size: u8) = 4:
        "offset size {size} is not 2, 4 or 8";

    /// The length size is not 2, 4 or 8.
    InvalidLengthSize(size: u8) = 5:
        "length size {size} is not 2, 4 or 8";

    /// A stored checksum is not that of the bytes: something was changed after it was written.
    ChecksumMismatch {
        /// The stored checksum.
        expected: u32,
        /// That of the bytes.
        computed: u32,
    } = 6:
        "the bytes are not those written: their checksum is {computed:#010x}, not {expected:#010x}";

    /// The node size is outside 10 to 65,536.
    InvalidNodeSize(size: u32) = 7:
        "node size {size} is not from 10 to 65,536";

    /// The record size is 0.
    ZeroRecordSize = 8:
        "the record size is 0";

    /// There are more than 16,777,215 records.
    TooManyRecords(count: u64) = 9:
        "{count} records are more than 16,777,215";

    /// Nodes of this level are needed, and none holds a record: the node size is too small.
    LevelHoldsNone(level: u16) = 10:
        "the node size is too small: a node of level {level} is needed and holds no record";

    /// A subtree would have fewer records than its depth needs.
    SubtreeTooThin = 11:
        "the records are too few for the tree that they need: a node would be left without any";

    /// The record buffer is not as long as the records.
    RecordBufferLength(length: u64) = 12:
        "the record buffer has {length} bytes, not record count times record size";

    /// The record count does not fit the length size.
    CountAboveLengthSize(count: u64) = 13:
        "a record count of {count} does not fit the length size";

    /// The end of the nodes, from this start on, does not fit the offset size.
    AddressAboveOffsetSize(start: u64) = 14:
        "nodes from {start} on do not fit the offset size";

    /// An output is too short; this is its length.
    OutputTooShort(length: u64) = 15:
        "the output is too short: it has {length} bytes";

    /// The depth is above 32.
    DepthAboveLimit(depth: u16) = 16:
        "depth {depth} is above 32";

    /// The key's field has not 1 to 8 bytes, or runs past the record's end.
    InvalidKeyField = 17:
        "the key's field has not 1 to 8 bytes, or runs past the record's end";

    /// The base is beyond the file's length: the block that should stand in front of the HDF5 part
    /// is longer than the file.
    BaseBeyondFile = 18:
        "the base is beyond the file's length";

    /// The tree type is not 5, 6, 8 or 9: the fields of its records are not known.
    UnknownRecordType = 19:
        "the tree type is not 5, 6, 8 or 9";

    /// A record's length is not that of its tree type, or a value is too large for its field, as
    /// any but 0 is where the type lacks the field.
    RecordTypeMismatch = 20:
        "the record's length is not that of its type, or a value is too large for its field";
}

impl Error for Refusal {}

/// Makes an error of a struct that has a refusal and more, and a refusal of it alone.
macro_rules! error_with_refusal {
    ($name:ident) => {
        impl std::error::Error for $name {
            fn source(&self) -> Option<&(dyn std::error::Error + 'static)> {
                Some(&self.refusal)
            }
        }

        impl From<$name> for Refusal {
            fn from(error: $name) -> Refusal {
                error.refusal
            }
        }
    };
}
pub(crate) use error_with_refusal;

/// Nothing where the answer begins with 0, else the refusal that it tells.
#[inline]
pub(crate) fn accepted(answer: &[u64]) -> Result<(), Refusal> {
    match *answer {
        [0, ..] | [] => Ok(()),
        [number, ref values @ ..] => {
            let value = |i| values.get(i).copied().unwrap_or(0);
            Err(Refusal::told(number, [value(0), value(1)]))
        }
    }
}
