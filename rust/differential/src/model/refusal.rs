//! The causes of documents 01 and 02: each with its number and values.

use super::numbers::held;

/// Why a call is refused. Values that a cause does not have are 0.
#[derive(Debug, Clone, Copy, PartialEq, Eq)]
pub struct Refusal {
    pub number: u64,
    pub values: [u64; 2],
    /// The file ends within the checksum of a leaf whose records are there.
    pub within_leaf_checksum: bool,
}

/// Accepted figures or a refusal.
pub type Answer<T> = Result<T, Refusal>;

/// Goes on where `holds`, else the refusal.
pub fn require(holds: bool, otherwise: Refusal) -> Answer<()> {
    if holds {
        Ok(())
    } else {
        Err(otherwise)
    }
}

fn plain(number: u64) -> Refusal {
    told(number, 0_u64)
}

fn told(number: u64, value: impl Into<u64>) -> Refusal {
    valued(number, [value.into(), 0])
}

fn valued(number: u64, values: [u64; 2]) -> Refusal {
    Refusal {
        number,
        values,
        within_leaf_checksum: false,
    }
}

pub fn file_ends_early(end_needed: u128, length: usize) -> Refusal {
    valued(1, [held(end_needed), length as u64])
}

pub fn file_ends_within_leaf_checksum(end_needed: u128, length: usize) -> Refusal {
    Refusal {
        within_leaf_checksum: true,
        ..file_ends_early(end_needed, length)
    }
}

pub fn wrong_signature() -> Refusal {
    plain(2)
}

pub fn header_version(version: u8) -> Refusal {
    told(3, version)
}

pub fn offset_size(size: u8) -> Refusal {
    told(4, size)
}

pub fn length_size(size: u8) -> Refusal {
    told(5, size)
}

pub fn checksum_differs(stored: u32, computed: u32) -> Refusal {
    valued(6, [stored.into(), computed.into()])
}

pub fn node_size(size: u32) -> Refusal {
    told(7, size)
}

pub fn record_size_zero() -> Refusal {
    plain(8)
}

pub fn too_many_records(count: u64) -> Refusal {
    told(9, count)
}

pub fn level_holds_none(level: u16) -> Refusal {
    told(10, level)
}

pub fn subtree_too_thin() -> Refusal {
    plain(11)
}

pub fn record_buffer(length: usize) -> Refusal {
    told(12, length as u64)
}

pub fn count_above_field(count: u64) -> Refusal {
    told(13, count)
}

pub fn start_above_field(start: u64) -> Refusal {
    told(14, start)
}

pub fn output_too_short(length: usize) -> Refusal {
    told(15, length as u64)
}

pub fn too_deep(depth: u16) -> Refusal {
    told(16, depth)
}

pub fn key_field() -> Refusal {
    plain(17)
}

pub fn base_beyond_file() -> Refusal {
    plain(18)
}

pub fn unknown_record_type() -> Refusal {
    plain(19)
}

pub fn record_type_mismatch() -> Refusal {
    plain(20)
}
