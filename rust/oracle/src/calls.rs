//! The calls of the Rust, with answers in plain numbers and bytes.
#![cfg_attr(not(hdf5_pure), allow(unused_variables))]

use crate::{Header, Planned, Refusal, Table};

#[cfg(not(hdf5_pure))]
use crate::NOT_RUN;
#[cfg(hdf5_pure)]
use crate::{
    btree_v2::{self, collect_btree_v2_records, BTreeV2Header, BTreeV2Record},
    btree_v2_write::{self, BTreeV2Plan},
    error::FormatError,
};

/// The lookup3 checksum of `data`, start value 0.
#[inline(never)]
pub fn jenkins_lookup3(data: &[u8]) -> u32 {
    with_rust! { crate::checksum::jenkins_lookup3(data) }
}

/// The capacity table from the leaves up to `depth`.
pub fn node_info(node_size: u32, record_size: u16, offset_size: u8, depth: u16) -> Table {
    with_rust! { btree_v2::reach::node_info(node_size, record_size, offset_size, depth) }
}

/// The plan of a tree of `record_count` records, or none where there is no such tree.
pub fn plan(
    record_count: u64,
    record_size: u16,
    node_size: u32,
    offset_size: u8,
) -> Option<Planned> {
    with_rust! {
        BTreeV2Plan::new(0, record_count as usize, record_size, node_size, offset_size)
            .map(|plan| btree_v2_write::reach::planned(&plan))
    }
}

/// The header and the node image of `records`, or none where there is no plan.
#[allow(clippy::too_many_arguments)]
pub fn serialize(
    tree_type: u8,
    record_count: u64,
    record_size: u16,
    node_size: u32,
    offset_size: u8,
    length_size: u8,
    start: u64,
    records: &[u8],
) -> Option<(Vec<u8>, Vec<u8>)> {
    with_rust! {
        let count = record_count as usize;
        let plan = BTreeV2Plan::new(tree_type, count, record_size, node_size, offset_size)?;
        let image = plan.serialize(records, start, offset_size, length_size);
        Some((image.header, image.nodes))
    }
}

/// The header at `offset` of `file`.
pub fn parse(
    file: &[u8],
    offset: u64,
    offset_size: u8,
    length_size: u8,
) -> Result<Header, Refusal> {
    with_rust! {
        let header = BTreeV2Header::parse(file, offset as usize, offset_size, length_size);
        header.map(header_of).map_err(refusal_of)
    }
}

/// The records of the tree under `header` in `file`, in order.
pub fn collect(
    file: &[u8],
    header: &Header,
    offset_size: u8,
    length_size: u8,
) -> Result<Vec<Vec<u8>>, Refusal> {
    with_rust! {
        let header = rust_header(header);
        apart(collect_btree_v2_records(file, &header, offset_size, length_size))
    }
}

/// The records of the leaf at `address` of `file`, which has `count` of them.
pub fn leaf(
    file: &[u8],
    address: u64,
    count: u16,
    record_size: u16,
) -> Result<Vec<Vec<u8>>, Refusal> {
    with_rust! {
        apart(btree_v2::reach::leaf(file, address as usize, count, record_size))
    }
}

/// Each record by itself.
#[cfg(hdf5_pure)]
fn apart(records: Result<Vec<BTreeV2Record>, FormatError>) -> Result<Vec<Vec<u8>>, Refusal> {
    records
        .map(|records| records.into_iter().map(|record| record.data).collect())
        .map_err(refusal_of)
}

#[cfg(hdf5_pure)]
fn header_of(header: BTreeV2Header) -> Header {
    Header {
        tree_type: header.tree_type,
        node_size: header.node_size,
        record_size: header.record_size,
        depth: header.depth,
        root_address: header.root_node_address,
        root_records: header.num_records_in_root,
        total_records: header.total_records,
    }
}

#[cfg(hdf5_pure)]
fn rust_header(header: &Header) -> BTreeV2Header {
    BTreeV2Header {
        tree_type: header.tree_type,
        node_size: header.node_size,
        record_size: header.record_size,
        depth: header.depth,
        root_node_address: header.root_address,
        num_records_in_root: header.root_records,
        total_records: header.total_records,
    }
}

#[cfg(hdf5_pure)]
fn refusal_of(error: FormatError) -> Refusal {
    let (number, values) = match error {
        FormatError::UnexpectedEof {
            expected,
            available,
        } => (1, [expected as u64, available as u64]),
        FormatError::InvalidBTreeV2Signature => (2, [0, 0]),
        FormatError::InvalidBTreeV2Version(version) => (3, [version.into(), 0]),
        FormatError::InvalidOffsetSize(size) => (4, [size.into(), 0]),
        FormatError::InvalidLengthSize(size) => (5, [size.into(), 0]),
        FormatError::ChecksumMismatch { expected, computed } => {
            (6, [expected.into(), computed.into()])
        }
        other => panic!("the Rust gave an error that these calls cannot give: {other:?}"),
    };
    Refusal { number, values }
}
