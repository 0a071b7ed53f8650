//! The Rust's answers in the shape of the C functions', as far as it has them. It has no base: what
//! is read is the part of a file from the base on.

use crate::inputs::{Leaf, Tree, Writing};
use crate::model::{Geometry, LEVEL_LIMIT};

pub fn node_info(geometry: Geometry, depth: u16) -> [u64; 101] {
    let table = oracle::node_info(
        geometry.node_size,
        geometry.record_size,
        geometry.offset_size,
        depth,
    );
    let mut answer = [0; 101];
    answer[1] = table.w;
    let levels = usize::from(LEVEL_LIMIT) + 1;
    for (i, column) in [table.m, table.c, table.t].iter().enumerate() {
        let at = 2 + i * levels;
        answer[at..at + column.len()].copy_from_slice(column);
    }
    answer
}

/// An accepted plan's answer; the Rust does not say why it has none.
pub fn plan(record_count: u64, geometry: Geometry) -> Option<[u64; 5]> {
    let planned = oracle::plan(
        record_count,
        geometry.record_size,
        geometry.node_size,
        geometry.offset_size,
    )?;
    Some([
        0,
        planned.depth.into(),
        planned.nodes,
        planned.leaves,
        planned.image_size,
    ])
}

/// An accepted write's header and image.
pub fn serialize(given: &Writing) -> Option<(Vec<u8>, Vec<u8>)> {
    oracle::serialize(
        given.tree_type,
        given.record_count,
        given.geometry.record_size,
        given.geometry.node_size,
        given.geometry.offset_size,
        given.length_size,
        given.start,
        given.records,
    )
}

/// An accepted write's answer, as far as its bytes tell, with its header and image.
pub fn write(given: &Writing) -> Option<([u64; 5], Vec<u8>, Vec<u8>)> {
    let (header, image) = serialize(given)?;
    let depth = u16::from_le_bytes([header[12], header[13]]);
    let nodes = image.chunks(given.geometry.node_size as usize);
    let leaves = nodes.clone().filter(|node| node.starts_with(b"BTLF"));
    let answer = [
        0,
        depth.into(),
        nodes.len() as u64,
        leaves.count() as u64,
        image.len() as u64,
    ];
    Some((answer, header, image))
}

pub fn parse(file: &[u8], offset: u64, offset_size: u8, length_size: u8) -> [u64; 8] {
    match oracle::parse(file, offset, offset_size, length_size) {
        Ok(header) => [
            0,
            header.tree_type.into(),
            header.node_size.into(),
            header.record_size.into(),
            header.depth.into(),
            header.root_address,
            header.root_records.into(),
            header.total_records,
        ],
        Err(refusal) => {
            let [first, second] = refusal.values;
            [refusal.number, first, second, 0, 0, 0, 0, 0]
        }
    }
}

/// The records end to end, or the number and values of the refusal.
pub fn collect(file: &[u8], tree: &Tree) -> Result<Vec<u8>, [u64; 3]> {
    let records = collect_apart(file, tree).map_err(refused)?;
    Ok(records.concat())
}

/// Each record of a leaf, or the number and values of the refusal.
pub fn leaf(file: &[u8], leaf: &Leaf) -> Result<Vec<Vec<u8>>, [u64; 3]> {
    oracle::leaf(file, leaf.address, leaf.count, leaf.record_size).map_err(refused)
}

fn refused(refusal: oracle::Refusal) -> [u64; 3] {
    [refusal.number, refusal.values[0], refusal.values[1]]
}

/// The records as the Rust gives them, each by itself.
pub fn collect_apart(file: &[u8], tree: &Tree) -> Result<Vec<Vec<u8>>, oracle::Refusal> {
    let header = oracle::Header {
        tree_type: tree.tree_type,
        node_size: tree.geometry.node_size,
        record_size: tree.geometry.record_size,
        depth: tree.depth,
        root_address: tree.root_address,
        root_records: tree.root_records,
        total_records: tree.total_records,
    };
    // Collecting does not use the length size.
    oracle::collect(file, &header, tree.geometry.offset_size, 8)
}
