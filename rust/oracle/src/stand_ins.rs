//! Stand-ins for the three things that the copied modules use and that are not copied.

use crate::error::FormatError;

/// Of the crate byteorder: reading four bytes, lowest first.
pub(crate) trait ByteOrder {
    fn read_u32(bytes: &[u8]) -> u32;
}

pub(crate) enum LittleEndian {}

impl ByteOrder for LittleEndian {
    fn read_u32(bytes: &[u8]) -> u32 {
        u32::from_le_bytes([bytes[0], bytes[1], bytes[2], bytes[3]])
    }
}

/// A file that is read piece by piece. Nothing here is one.
pub(crate) mod source {
    pub trait Source {
        fn len(&self) -> u64;
        fn read_metadata_at(&self, at: u64, length: usize) -> Result<Vec<u8>, super::FormatError>;
    }
}

/// The kind of a header message, which one error names. Nothing here has one.
pub(crate) mod message_type {
    #[derive(Debug)]
    pub enum MessageType {}

    impl std::fmt::Display for MessageType {
        fn fmt(&self, _: &mut std::fmt::Formatter<'_>) -> std::fmt::Result {
            match *self {}
        }
    }
}
