//! A child module of the copy of btree_v2.rs: it reaches the private capacity table and leaf reader.

use super::{parse_leaf_records, BTreeV2Record, NodeInfo};
use crate::error::FormatError;
use crate::Table;

/// The capacity table up to `depth`.
pub(crate) fn node_info(node_size: u32, record_size: u16, offset_size: u8, depth: u16) -> Table {
    let info = NodeInfo::compute(node_size, record_size, offset_size, depth);
    Table {
        w: info.max_nrec_size as u64,
        m: info.max_nrec,
        c: info.cum_max_nrec,
        t: info.cum_max_nrec_size.iter().map(|&t| t as u64).collect(),
    }
}

/// The records of the leaf at `address`.
pub(crate) fn leaf(
    file: &[u8],
    address: usize,
    count: u16,
    record_size: u16,
) -> Result<Vec<BTreeV2Record>, FormatError> {
    parse_leaf_records(file, address, count, record_size)
}
